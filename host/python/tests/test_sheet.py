"""The sheet command, as one types it."""
import contextlib
import io
import os
import pathlib
import re
import shutil
import subprocess
import sys
import tempfile
import time
import unittest
from unittest import mock
from xml.etree import ElementTree

from larnt import drawing, forms, progress
from larnt.__main__ import main

from . import EXAMPLES, ROOT, wrong
from .test_examples import SVG, group_of, lines_of

SILOS = str(ROOT / "examples/silos.yard")


class Terminal(io.StringIO):
    def isatty(self):
        return True


class Typed(unittest.TestCase):
    def setUp(self):
        folder = tempfile.TemporaryDirectory()
        self.addCleanup(folder.cleanup)
        self.folder = pathlib.Path(folder.name)

    def run_sheet(self, *words, code=0):
        """What the command says on its two ways out."""
        out, err = io.StringIO(), io.StringIO()
        with contextlib.redirect_stdout(out), contextlib.redirect_stderr(err):
            self.assertEqual(main(["sheet", *map(str, words)]), code, err.getvalue())
        return out.getvalue(), err.getvalue()


class Command(Typed):
    def svg(self, *words):
        self.run_sheet(*words[:1], self.folder / "a.svg", *words[1:])
        return ElementTree.fromstring((self.folder / "a.svg").read_text())

    def lines(self, root):
        return [line.get("points") for line in group_of(root).iter(SVG + "polyline")]

    def test_each_example_s_sheet_in_fine_detail_is_the_core_s_drawing_line_for_line(self):
        for path in EXAMPLES:
            with self.subTest(path.name):
                core = drawing.read(path.with_suffix(".drawing").read_text(), 0, 0)
                wanted = [[(x, y) for x, y, _ in line] for line in core.paths]
                self.assertEqual(lines_of(self.svg(path, "--fine")), wanted)

    def test_a_sheet_is_coarse_by_default(self):
        fewer = 0
        for path in EXAMPLES:
            with self.subTest(path.name):
                yard = forms.read(path.read_text())
                wanted = [[(x, y) for x, y, _ in line] for line in yard.scene.draw(yard.view, threshold=1e-4).paths]
                self.assertEqual(lines_of(self.svg(path)), wanted)
                self.assertEqual(lines_of(self.svg(path, "--threshold", "1e-4")), wanted)
                fine = lines_of(self.svg(path, "--threshold", "1e-6"))
                self.assertEqual(lines_of(self.svg(path, "--fine")), fine)
                self.assertEqual(len(fine), len(wanted))
                fewer += sum(map(len, wanted)) < sum(map(len, fine))
        self.assertGreater(fewer, 0)
        with self.assertRaises(SystemExit), contextlib.redirect_stderr(io.StringIO()) as said:
            main(["sheet", SILOS, "a.svg", "--fine", "--threshold", "1"])
        self.assertIn("not allowed with argument --fine", said.getvalue())

    def test_three_sheets_at_once(self):
        out, err = self.run_sheet(SILOS, *(self.folder / f"silos.{ending}" for ending in ("svg", "hpgl", "dxf")))
        self.assertEqual([row.split("/")[-1] for row in out.splitlines()], [f"silos.{ending}: 73 lines on 297 x 210 mm" for ending in ("svg", "hpgl", "dxf")])
        self.assertTrue((self.folder / "silos.hpgl").read_text().startswith("IN;\nSP1;\nPU"))
        self.assertTrue((self.folder / "silos.dxf").read_text().startswith("0\nSECTION\n"))

    def test_from_standard_input(self):
        done = subprocess.run([sys.executable, "-m", "larnt", "sheet", "-", self.folder / "a.svg"], input=pathlib.Path(SILOS).read_bytes(), cwd=ROOT / "host/python", capture_output=True)
        self.assertEqual((done.returncode, done.stderr), (0, b""))
        self.assertEqual(len(self.lines(ElementTree.parse(self.folder / "a.svg").getroot())), 73)

    def test_paper_margins_and_pen(self):
        root = self.svg(SILOS, "--paper", "A3", "--portrait", "--margin", "5", "10", "15", "20", "--line", "0.5")
        self.assertEqual((root.get("width"), root.get("height")), ("297mm", "420mm"))
        group = root.find(f"{SVG}g[@id='drawing']")
        left, low, scale, _ = map(float, re.findall(r"-?[\d.]+", group.get("transform")))
        self.assertAlmostEqual(scale, (297 - 30) / 1200)
        self.assertAlmostEqual(left, 20)
        self.assertAlmostEqual(low, 420 - 15 - (400 - 800 * scale) / 2)
        self.assertAlmostEqual(float(group.get("stroke-width")) * scale, 0.5)
        self.assertEqual(self.svg(SILOS, "--paper", "500x300").get("width"), "500mm")

    def test_title_block_and_part_numbers(self):
        root = self.svg(SILOS, "--title", "Yard <of> Meyer", "--parts")
        words = [text.text for text in root.iter(SVG + "text")]
        self.assertEqual(words, [*"123456789", "Yard <of> Meyer", "silos.yard", "eye 15000 -26000 13000"])
        out, _ = self.run_sheet(SILOS, self.folder / "a.dxf", "--parts", "--title", "Hof Müller")
        self.assertIn("part 7: cube, text line 8\n", out)
        text = (self.folder / "a.dxf").read_text()
        self.assertIn("\nHof M\\U+00FCller\n", text)
        self.assertEqual(text.count("\nTEXT\n"), 12)
        self.run_sheet(SILOS, self.folder / "a.hpgl", "--title", "Hof M\u00fcller, Stra\u00dfe \u2192")
        self.assertIn("LBHof Muller, Strasse ?\x03", (self.folder / "a.hpgl").read_text())

    def test_a_long_title_leaves_room_for_the_notes(self):
        title, note = "A title that is as long as a line of a book may well be, and then goes on for some words", "a note that is longer than most, but has its place"
        sizes = {text.text: float(text.get("font-size")) for text in self.svg(SILOS, "--title", title, "--note", note, "--note", "short").iter(SVG + "text")}
        self.assertEqual((sizes[note], sizes["short"]), (2.5, 2.5))
        self.assertLess(0.6 * (len(title) * sizes[title] + len(note) * 2.5), 277 - 9)
        self.assertGreater(sizes[title], 3)
        sizes = {text.text: float(text.get("font-size")) for text in self.svg(SILOS, "--title", "Yard", "--note", 9 * note).iter(SVG + "text")}
        self.assertLess(0.6 * len(9 * note) * sizes[9 * note], 277 / 2)
        self.assertEqual(sizes["Yard"], 5)

    def test_the_parts_of_each_example_are_numbered(self):
        """What a draw does not show has no number: a roof's far sides, the pipe that the plinth's cut strikes, the bin behind the
        viewer. The heaps in the bunker's bays have theirs, though looks from the eye meet 11 there."""
        unseen = {"blower": ["5", "6"], "bunker": ["2"], "hoppers": ["6"], "mixer": ["8"], "plinth": ["3", "5", "6", "9"], "plinth_true": ["9"]}
        for path in EXAMPLES:
            with self.subTest(path.name):
                out, _ = self.run_sheet(path, self.folder / "a.svg", "--parts")
                parts = len(forms.read(path.read_text()).scene.parts)
                self.assertEqual(out.count("\npart "), parts)
                self.assertEqual(re.findall(r"^part (\d+): .*, not seen from here$", out, re.M), unseen.get(path.stem, []))
                self.assertEqual(len(list(ElementTree.parse(self.folder / "a.svg").getroot().iter(SVG + "text"))), parts - len(unseen.get(path.stem, [])))

    def test_a_part_that_nobody_sees_has_no_number(self):
        yard = self.folder / "a.yard"
        yard.write_text(f"{wrong.VIEW}\n(cube 1 -4 0 -4 4 2 4)\n(cube 1 -1 5 -1 1 6 1)\n")
        out, _ = self.run_sheet(yard, self.folder / "a.svg", "--parts")
        self.assertIn("part 2: cube, text line 3, not seen from here", out)
        self.assertEqual([t.text for t in ElementTree.parse(self.folder / "a.svg").getroot().iter(SVG + "text")], ["1"])

    def test_a_smaller_step_and_a_coarser_threshold(self):
        def vertices(*more):
            return sum(len(line.split()) for line in self.lines(self.svg(SILOS, *more)))

        self.assertNotEqual(vertices("--step", "0.2"), vertices())
        self.assertLess(vertices("--threshold", "0.001"), vertices())

    def test_a_threshold_that_is_none(self):
        for word, said in (("nan", "nan"), ("-1", "-1"), ("inf", "inf")):
            _, err = self.run_sheet(SILOS, self.folder / "a.svg", "--threshold", word, code=1)
            self.assertEqual(err, f"sheet: {SILOS}: the threshold is {said}, and must be finite and not negative\nrefusal 8: the view, a ray or a threshold is outside its values\n")

    def test_the_step_is_in_millimetres(self):
        """The scale of a drawing of 1,200 on paper of 277 between margins: a step of 10 is 10 * 277 / 1200 mm."""
        self.assertEqual(self.lines(self.svg(SILOS, "--step", 10 * 277 / 1200)), self.lines(self.svg(SILOS)))

    def test_a_moved_eye(self):
        _, err = self.run_sheet(SILOS, self.folder / "a.svg", "--eye", "-15000", "-26000", "13000", "--target", "0", "0", "4000", "--fov", "30")
        self.assertIn("--outlines kept", err)
        self.assertIn("made anew", err)
        moved = self.lines(ElementTree.parse(self.folder / "a.svg").getroot())
        self.assertGreater(len(moved), len(self.lines(self.svg(SILOS, "--eye", "-15000", "-26000", "13000", "--target", "0", "0", "4000", "--fov", "30", "--outlines", "all"))))  # which has no slopes
        self.assertGreater(len(moved), 30)
        self.assertNotEqual(moved, self.lines(self.svg(SILOS)))
        wide = self.lines(self.svg(SILOS, "--fov", "25"))
        self.assertEqual(len(wide), 73)
        flat = self.folder / "flat.yard"
        flat.write_text("(view 2 2 0 0 0 5 1 0 0 0 0 1 0 0 0 0 1 0 0 0 0 1)\n(cube 1 0 0 0 1 1 1)\n")
        _, err = self.run_sheet(flat, self.folder / "a.svg", "--fov", "25", code=1)
        self.assertIn("--fov needs --eye or --target", err)

    def test_a_yard_without_a_view(self):
        yard = self.folder / "a.yard"
        yard.write_text("(cylinder 2 0 7)\n(cube 1 5 0 0 6 1 2)\n")
        _, err = self.run_sheet(yard, self.folder / "a.svg", code=1)
        self.assertIn("--eye X Y Z", err)
        lines = self.lines(self.svg(yard, "--eye", "20", "-30", "15"))
        self.assertGreater(len(lines), 9)

    def test_round_solids_without_lines_are_told(self):
        yard = self.folder / "a.yard"
        yard.write_text(f"{wrong.VIEW}\n(cylinder 2 0 7)\n")
        out, err = self.run_sheet(yard, self.folder / "a.svg")
        self.assertNotIn(" 0 lines", out)
        self.assertIn("(text line 2); --outlines missing", err)
        out, err = self.run_sheet(yard, self.folder / "a.svg", "--outlines", "missing")
        self.assertNotIn(" 0 lines", out)
        self.assertEqual(err, "")

    def test_rings_are_as_fine_as_the_step(self):
        bunker = ROOT / "examples/bunker.yard"
        _, err = self.run_sheet(bunker, self.folder / "a.svg", "--step", "0.2")
        self.assertEqual(err, "sheet: the step is finer than the text's, so the rings of its lines are made as fine; --outlines kept keeps them as they stand\n")
        fine = self.lines(ElementTree.parse(self.folder / "a.svg").getroot())
        self.assertEqual(self.lines(self.svg(bunker, "--step", "0.2", "--outlines", "rounded")), fine)
        self.assertNotEqual(self.lines(self.svg(bunker, "--step", "0.2", "--outlines", "kept")), fine)
        for words in ((bunker, "--step", "5"), (ROOT / "examples/post.yard", "--step", "0.2"), (bunker,)):
            self.assertEqual(self.run_sheet(words[0], self.folder / "a.svg", *words[1:])[1], "")

    def test_outlines_by_the_core(self):
        """The silos without their lines are those of the yard that has none."""
        out, err = self.run_sheet(SILOS, self.folder / "a.svg", "--outlines", "core")
        self.assertIn("(text line 2, 3, 4, 5, 6, 7, 9); --outlines all", err)
        lines = self.lines(ElementTree.parse(self.folder / "a.svg").getroot())
        self.assertEqual(lines, self.lines(self.svg(ROOT / "examples/silos_plain.yard")))

    def test_what_is_asked_wrongly(self):
        cases = [
            ((SILOS, "a.bmp"), "a.bmp: sheets end in .svg"),
            (("no-such.yard", "a.svg"), "no-such.yard: No such file"),
            ((SILOS, self.folder / "no/a.svg"), "No such file"),
            ((SILOS, "a.svg", "--paper", "B4"), "--paper B4: A0 to A5"),
            ((SILOS, "a.svg", "--margin", "1", "2"), "--margin takes one number, or four"),
            ((SILOS, "a.svg", "--margin", "200"), "the margins leave no room"),
            ((SILOS, "a.svg", "--line", "0"), "--line must be above 0"),
            ((SILOS, "a.svg", "--note", "of no block"), "--note is for a title block"),
            ((SILOS, "a.svg", "--eye", "1", "1", "1", "--target", "1", "1", "1"), "same point"),
        ]
        for words, said in cases:
            with self.subTest(said):
                _, err = self.run_sheet(*words, code=1)
                self.assertIn(said, err)
                self.assertEqual(len(err.splitlines()), 1)
        self.assertFalse(pathlib.Path("a.svg").exists())

    def test_pdf_and_png_without_the_converter(self):
        with mock.patch("shutil.which", return_value=None):
            for ending in ("pdf", "png"):
                _, err = self.run_sheet(SILOS, self.folder / f"a.{ending}", code=1)
                self.assertIn("PDF and PNG are made of the SVG by rsvg-convert, which is not there: install it (Debian: librsvg2-bin)", err)
                self.assertFalse((self.folder / f"a.{ending}").exists())

    @unittest.skipUnless(shutil.which("rsvg-convert"), "rsvg-convert is not there")
    def test_pdf_and_png(self):
        self.run_sheet(SILOS, self.folder / "a.pdf", self.folder / "a.png", "--dpi", "100")
        self.assertTrue((self.folder / "a.pdf").read_bytes().startswith(b"%PDF"))
        png = (self.folder / "a.png").read_bytes()
        self.assertTrue(png.startswith(b"\x89PNG"))
        self.assertAlmostEqual(int.from_bytes(png[16:20], "big"), 297 / 25.4 * 100, delta=1.5)


class Bar(unittest.TestCase):
    def test_it_shows_after_a_second(self):
        terminal = Terminal()
        self.assertEqual(progress.shown(lambda: time.sleep(1.3) or 7, 2.6, terminal), 7)
        self.assertRegex(terminal.getvalue(), r"^\r\[#+\.+\] about +\d+ %, 1 s")
        self.assertTrue(terminal.getvalue().endswith(" \r"))

    def test_it_does_not_show_before_nor_off_a_terminal(self):
        terminal = Terminal()
        self.assertEqual(progress.shown(lambda: 7, 1.0, terminal), 7)
        self.assertEqual(terminal.getvalue(), "")
        file = io.StringIO()
        progress.shown(lambda: time.sleep(1.1), 2.0, file)
        self.assertEqual(file.getvalue(), "")

    def test_what_is_raised_comes_through(self):
        with self.assertRaises(ZeroDivisionError):
            progress.shown(lambda: 1 / 0, 1.0, Terminal())

    def test_it_is_never_full(self):
        self.assertEqual(progress.bar(5.0, 9.0), f"[{'#' * 30}] about 99 %, 9 s")
        self.assertEqual(progress.bar(0.5, 3.2), f"[{'#' * 15}{'.' * 15}] about 50 %, 3 s")


class Page(Typed):
    """docs/SHEETS.md shows what the command says of each refused yard."""

    def test_each_refusal_is_said_as_the_page_says(self):
        page = (ROOT / "docs/SHEETS.md").read_text()
        blocks = re.findall(r"((?:^    .*\n)+)", page, re.M)
        shown = {}
        for block in blocks:
            first, *rows = [row[4:] for row in block.splitlines()]
            asked = re.fullmatch(r"\$ python3 -m larnt sheet (\d+)\.yard (.*)", first)
            if asked:
                shown[int(asked[1])] = (asked[2].split(), "\n".join(rows) + "\n")
        self.assertEqual(set(shown), set(wrong.CASES))
        wrong.write(self.folder)
        self.addCleanup(os.chdir, os.getcwd())
        os.chdir(self.folder)
        for number, (words, said) in shown.items():
            with self.subTest(number):
                self.assertEqual(words[1:], wrong.CASES[number][1])
                out, err = self.run_sheet(f"{number}.yard", *words, code=1)
                self.assertEqual((out, err), ("", said))
                self.assertIn(f"refusal {number}", err)

    def test_the_program_of_the_readme_prints_what_it_says(self):
        text = (ROOT / "host/python/README.md").read_text()
        code, said = ("".join(row[4:] + "\n" for row in re.search(rf"^{before}\n\n((?:    .*\n|\n)+)", text, re.M)[1].strip("\n").split("\n")) for before in (".*In a program:", "It prints"))
        done = subprocess.run([sys.executable, "-c", code], cwd=self.folder, env={**os.environ, "PYTHONPATH": str(ROOT / "host/python")}, capture_output=True, text=True)
        self.assertEqual((done.stdout, done.stderr), (said, ""))
        self.assertTrue((self.folder / "yard.svg").read_text().startswith("<svg"))


if __name__ == "__main__":
    unittest.main()
