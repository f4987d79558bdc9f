"""The example yards through the package: their drawings, their texts, their sheets and their pictures."""
import contextlib
import io
import pathlib
import re
import subprocess
import sys
import tempfile
import unittest
from xml.etree import ElementTree

from larnt import FINE, drawing, forms, hidden, sheets
from larnt.__main__ import main

from . import EXAMPLES, ROOT

SVG = "{http://www.w3.org/2000/svg}"
OWN_STEP, PLAIN = ("post", "post_fine"), ("silos_plain", "round_plain")


def group_of(root):
    """What an SVG has of the core's drawing."""
    (group,) = (g for g in root.iter(SVG + "g") if g.get("id") == "drawing")
    return group


def lines_of(root):
    """The lines of the core's drawing in an SVG, by their numbers."""
    return [[tuple(map(float, p.split(","))) for p in line.get("points").split()] for line in group_of(root).iter(SVG + "polyline")]


def picture_options(path):
    """The words with which tools/pictures draws an example."""
    words = dict(re.findall(r'^(sheet|fine)="(.*)"$', (ROOT / "tools/pictures").read_text(), re.M))
    return words["sheet"].split() + (words["fine"].split() if path.stem not in OWN_STEP else [])


def yard_of(path):
    return forms.read(path.read_text())


def stored(path, view):
    """The drawing that the core printed of an example."""
    return drawing.read(path.with_suffix(".drawing").read_text(), view.width, view.height)


class Examples(unittest.TestCase):
    def test_there_are_examples(self):
        self.assertGreaterEqual(len(EXAMPLES), 10)

    def test_each_drawing_in_fine_detail_is_the_stored_one(self):
        for path in EXAMPLES:
            with self.subTest(path.name):
                yard = yard_of(path)
                self.assertEqual(yard.scene.draw(yard.view, threshold=FINE).text(), path.with_suffix(".drawing").read_text())

    def test_each_text_is_written_as_it_was_read(self):
        for path in EXAMPLES:
            with self.subTest(path.name):
                yard = yard_of(path)
                self.assertEqual(forms.write(yard.scene, yard.view), path.read_text())


class CutShort(unittest.TestCase):
    """A drawing that was not written to its end is none, wherever it ends."""

    def test_it_is_not_taken_for_whole(self):
        text = (ROOT / "examples/post.drawing").read_text()
        self.assertEqual(drawing.read(text, 1, 1).text(), text)
        for end in range(len(text)):
            with self.assertRaises(ValueError):
                drawing.read(text[:end], 1, 1)

    def test_tools_sheet_makes_no_picture_of_it(self):
        text = (ROOT / "examples/post.drawing").read_bytes()
        with tempfile.TemporaryDirectory() as folder:
            made, picture = pathlib.Path(folder) / "a.drawing", pathlib.Path(folder) / "a.svg"
            command = [sys.executable, ROOT / "tools/sheet", ROOT / "examples/post.yard", made, picture]
            for end in (0, 12, text.index(b"\n") + 1, len(text) - 60, len(text) - 3, len(text) - 1):
                made.write_bytes(text[:end])
                done = subprocess.run(command, capture_output=True, text=True)
                self.assertEqual((done.returncode, done.stderr[:18], picture.exists()), (1, "sheet: no drawing:", False))
            made.write_bytes(text)
            subprocess.run(command, check=True)
            self.assertTrue(picture.read_text().startswith("<svg"))


class Sheets(unittest.TestCase):
    """Each sheet has the lines of the core's drawing and no others."""

    def laid(self, path):
        yard = yard_of(path)
        core = stored(path, yard.view)
        return sheets.Sheet().laid(yard.scene.draw(yard.view, threshold=FINE)), core

    def test_svg_has_the_numbers_of_the_drawing(self):
        for path in EXAMPLES:
            with self.subTest(path.name):
                laid, core = self.laid(path)
                root = ElementTree.fromstring(sheets.svg(laid))
                self.assertEqual(lines_of(root), [[(x, y) for x, y, _ in line] for line in core.paths])
                left, down, right, up = map(float, re.findall(r"-?[\d.]+(?:e-?\d+)?", group_of(root).get("transform")))
                self.assertEqual((right, up), (laid.scale, -laid.scale))
                self.assertAlmostEqual(left, (297 - laid.scale * core.width) / 2)
                self.assertAlmostEqual(down, 210 - (210 - laid.scale * core.height) / 2)

    def test_hpgl_has_each_line_once(self):
        for path in EXAMPLES:
            with self.subTest(path.name):
                laid, core = self.laid(path)
                rows = [row for row in sheets.hpgl(laid).splitlines() if "PD" in row]
                lines = [list(map(int, re.findall(r"-?\d+", row))) for row in rows]
                wanted = [[round(40 * x) for p in line for x in laid.spot(p)] for line in core.paths]
                self.assertEqual(sorted(lines), sorted(wanted))

    def test_dxf_has_each_piece_in_order(self):
        for path in EXAMPLES:
            with self.subTest(path.name):
                laid, core = self.laid(path)
                rows = sheets.dxf(laid).splitlines()
                self.assertEqual(len(rows) % 2, 0)
                pairs = list(zip(rows[0::2], rows[1::2]))
                begins = [k for k, pair in enumerate(pairs) if pair == ("0", "LINE")]
                pieces = []
                for k in begins:
                    of = dict(pairs[k + 1 : k + 8])
                    self.assertEqual(of["8"], "YARD")
                    pieces.append(tuple(float(of[code]) for code in ("10", "20", "11", "21")))
                wanted = [(*laid.spot(a), *laid.spot(b)) for line in core.paths for a, b in zip(line, line[1:])]
                self.assertEqual(pieces, wanted)
                self.assertEqual(pairs[-1], ("0", "EOF"))


class Pictures(unittest.TestCase):
    """The pictures in examples/: sheets at a fine step and in fine detail, by tools/pictures. That their lines are the core's
    is shown by way of the C host too (test_c_example.py)."""

    def test_each_is_what_the_sheet_command_writes(self):
        with tempfile.TemporaryDirectory() as folder:
            made = pathlib.Path(folder) / "a.svg"
            for path in EXAMPLES:
                with self.subTest(path.name), contextlib.redirect_stdout(io.StringIO()), contextlib.redirect_stderr(io.StringIO()):
                    self.assertEqual(main(["sheet", str(path), str(made), *picture_options(path)]), 0)
                    self.assertEqual(made.read_text(), path.with_suffix(".svg").read_text())

    def test_each_line_of_the_coarse_drawing_stands_in_the_fine_picture(self):
        """Of the plain yards it need not: which dashes of an outline its own solid hides is another matter at each step."""
        for path in EXAMPLES:
            if path.stem not in PLAIN:
                with self.subTest(path.name):
                    fine = [pair for line in lines_of(ElementTree.parse(path.with_suffix(".svg")).getroot()) for pair in zip(line, line[1:])]
                    for line in stored(path, yard_of(path).view).paths:
                        for a, b in zip(line, line[1:]):
                            for at in ((a[0], a[1]), ((a[0] + b[0]) / 2, (a[1] + b[1]) / 2)):
                                self.assertTrue(any(hidden.nearest(p, q, at)[1] < 1.5 for p, q in fine), at)


if __name__ == "__main__":
    unittest.main()
