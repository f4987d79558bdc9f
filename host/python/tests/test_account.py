"""The account of a sheet: each point of each line once, and what is found in it."""
import contextlib
import dataclasses
import io
import subprocess
import sys
import unittest
from unittest import mock

from larnt import DIFFERENCE, NO_LINES, Camera, Cube, Cut, Cylinder, Missing, Refused, Scene, Sphere, account, forms, library, matrices
from larnt.__main__ import main

from . import EXAMPLES, ROOT, wrong

PLINTH = str(ROOT / "examples/plinth.yard")
FIRST = """\
parts 3, 5 and 6 have no line on the sheet
  part 3 (placed cylinder, text line 4): all 164 points are hidden: 114 by part 9, 15 by part 5, 14 by itself, 10 by part 6, 8 by part 4, 3 by part 2
  part 5 (sphere, text line 6): all 21 points are hidden: 11 by part 9, 5 by part 2, 5 by part 3
  part 6 (sphere, text line 7): all 21 points are hidden: 10 by part 9, 6 by part 4, 5 by part 3
warning: part 9 hides 114 of part 3's 164 points and lies behind the eye
""".splitlines()


def yard_of(name):
    return forms.read((ROOT / f"examples/{name}.yard").read_text())


def typed(*words, code=0):
    out, err = io.StringIO(), io.StringIO()
    with contextlib.redirect_stdout(out), contextlib.redirect_stderr(err):
        answer = main(["account", *map(str, words)])
    assert answer == code, (answer, err.getvalue())
    return out.getvalue(), err.getvalue()


@unittest.skipUnless(library.there(library.account), "libhost_account.a is not there")
class Accounts(unittest.TestCase):
    def test_each_point_of_each_example_is_in_it_once_and_as_the_eye_test_answers(self):
        points = 0
        for path in EXAMPLES:
            with self.subTest(path.name):
                yard = forms.read(path.read_text())
                view = yard.view
                entries = yard.scene.slices().drawn
                told = yard.scene.account(view)
                self.assertEqual([row.part for row in told.rows], yard.scene.parts)
                for row, tested in zip(told.rows, account.tested(yard.scene, view)):
                    self.assertEqual(row.put, row.clipped + row.drawn + row.hidden + row.refused)
                    self.assertEqual((row.put, row.lines), (len(tested.numbers) // 3, len(tested.starts)))
                    self.assertEqual([n for _, n in row.by], sorted((n for _, n in row.by), reverse=True))
                    self.assertEqual(sum(map(len, tested.lines())), row.put)
                    left = [(p, word) for p, word in zip((p for line in tested.lines() for p in line), tested.words) if word != library.CLIPPED]
                    answers = yard.scene.told(view.eye, [p for p, _ in left])
                    self.assertEqual([1 if word == library.VISIBLE else 2 for _, word in left], list(answers))
                    for p, word in left[::7]:
                        self.assertIs(yard.scene.why_hidden(view.eye, p), entries.get(word))
                    points += row.put
        self.assertGreater(points, 20_000)

    def test_a_part_has_lines_in_the_drawing_exactly_if_the_account_has_pieces_of_it(self):
        for name in ("plinth", "silos", "hoppers"):
            yard = yard_of(name)
            told = yard.scene.account(yard.view)
            runs = sum(b - a > 1 for tested in account.tested(yard.scene, yard.view) for a, b in tested.runs(account.DRAWN))
            self.assertEqual(sum(row.pieces for row in told.rows), runs)
            self.assertEqual(runs, sum(len(path) > 1 for path in yard.scene.draw(yard.view, threshold=0).paths))

    def test_the_plinth(self):
        told = yard_of("plinth").scene.account(yard_of("plinth").view)
        self.assertEqual(told.findings()[:5], FIRST)
        self.assertEqual([row.part.number for row in told.missing()], [3, 5, 6])
        ((hider, others),) = told.unseen_hiders()
        self.assertEqual((hider.part.number, hider.put, hider.clipped), (9, 339, 339))
        self.assertEqual([(row.part.number, n) for row, n in others], [(3, 114), (2, 112), (4, 52), (5, 11), (6, 10)])
        self.assertEqual([(part.number, operations) for part, operations in told.last_ray_cuts()], [(9, [1])])
        self.assertEqual([part.number for part in told.behind], [9])

    def test_the_plinth_with_the_true_distance(self):
        yard = yard_of("plinth_true")
        told = yard.scene.account(yard.view)
        self.assertEqual(told.findings(), ["every part that has lines in view has a line on the sheet", "part 9 has no line in view: all points are clipped away"])
        self.assertEqual((told.rows[2].drawn, told.rows[2].hidden), (114, 50))
        self.assertFalse(any(part.number == 9 for row in told.rows for part, _ in row.by))

    def test_what_does_not_add_up_is_no_account(self):
        row = yard_of("plinth").scene.account(yard_of("plinth").view).rows[2]
        for change in ({"put": row.put + 1}, {"clipped": 1}, {"drawn": 1}, {"by": row.by[1:]}, {"met": ((11, 1),)}):
            with self.assertRaisesRegex(AssertionError, "does not add up"):
                dataclasses.replace(row, **change)

    def test_a_word_that_names_no_part_is_no_account(self):
        yard = yard_of("plinth")

        def wrong_word(*given):
            answer = real.larnt_fates(*given)
            given[-2][0] = 1  # a cylinder, which is drawn as the placed one that names it alone
            return answer

        real = library.account()
        with mock.patch.object(library, "account", lambda: mock.Mock(larnt_fates=wrong_word, larnt_entry_lines=real.larnt_entry_lines)):
            self.assertNotIn(1, yard.scene.slices().drawn)
            with self.assertRaises(KeyError):
                yard.scene.account(yard.view)


CAMERA = Camera(eye=(0, -20, 2), target=(0, 0, 2), field_of_view=30, step=10)


@unittest.skipUnless(library.there(library.account), "libhost_account.a is not there")
class Findings(unittest.TestCase):
    def test_why_a_part_has_no_line(self):
        scene = Scene()
        scene.cube((-3, 0, 0), (3, 1, 5), name="wall")
        scene.sphere((0, 5, 2), 1, name="ball")
        scene.sphere((3, -2, 2), 0.5, lines=NO_LINES, name="bare")
        scene.cube((400, 0, 0), (401, 1, 1), name="far off")
        scene.cube((-1, 5, 1), (9, 6, 50), name="both")
        told = scene.account(CAMERA)
        said = told.findings()
        self.assertEqual(said[0], "ball and bare have no line on the sheet")
        ball = told.rows[1]
        self.assertEqual(said[1], f"  ball (sphere): all {ball.put} points are hidden: {ball.put} by wall")
        self.assertEqual(said[2], "  bare (sphere): it has no lines")
        self.assertEqual(said[3:], ["far off has no line in view: all points are clipped away"])
        both = told.rows[4]
        self.assertTrue(0 < both.clipped < both.put and 0 < both.hidden and 0 < both.drawn and both.pieces)

    def test_a_part_that_is_clipped_in_part_and_hidden_for_the_rest(self):
        scene = Scene()
        scene.cube((-30, 0, -30), (30, 1, 30), name="wall")
        scene.cube((0, 5, 0), (90, 6, 1), name="beam")
        told = scene.account(CAMERA)
        beam = told.rows[1]
        self.assertTrue(0 < beam.clipped < beam.put and beam.hidden == beam.put - beam.clipped)
        by = {part.name: n for part, n in beam.by}
        self.assertIn(f"  beam (cube): {beam.clipped} of its {beam.put} points are clipped away; {beam.hidden} of {beam.hidden} points in view are hidden: {by['wall']} by wall, {by['beam']} by itself", told.findings())
        # the wall hides the beam with its face, and its own edges are past those of the view: that is said, and not that it lies behind the eye
        self.assertTrue(told.rows[0].out_of_view())
        self.assertIn(f"warning: wall hides {by['wall']} of beam's {beam.put} points and has no line in view", told.findings())
        self.assertEqual(told.behind, ())

    def test_single_points_are_no_line(self):
        scene = Scene()
        scene.sphere((0, 5, 2), 0.1, lines=[[(0, 5, 1), (0, 5, 3)]], name="stick")
        row = scene.account(dataclasses.replace(CAMERA, step=0)).rows[0]
        self.assertEqual((row.put, row.drawn, row.pieces), (2, 2, 1))
        scene.cube((-1, 0, 2), (1, 1, 5), name="block")
        told = scene.account(dataclasses.replace(CAMERA, step=0))
        self.assertEqual((told.rows[0].drawn, told.rows[0].hidden, told.rows[0].pieces), (1, 1, 0))
        self.assertEqual(told.findings()[1], "  stick (sphere): 1 of 2 points in view is hidden: 1 by block; 1 of its points is visible, but no two that follow each other")

    def test_a_number_met_is_in_the_account(self):
        text, _ = wrong.CASES[11]
        yard = forms.read("\n".join(text))
        with self.assertRaises(Refused):
            yard.scene.draw(yard.view)
        told = yard.scene.account(yard.view)
        self.assertGreater(sum(row.refused for row in told.rows), 0)
        self.assertEqual({number for row in told.rows for number, _ in row.met}, {11})
        self.assertIn("refusal 11: ", told.text())

    def test_cuts_by_the_last_ray_are_told_wherever_they_stand(self):
        block, hole = Cube((-2.0, 0.0, 0.0), (2.0, 2.0, 4.0)), Cylinder(0.5, -1.0, 9.0)
        inner = Cut(1, block, hole)
        scene = Scene([Cut(DIFFERENCE, inner, Sphere((0.0, 0.0, 4.0), 0.5)), Cut(0, block, hole)])
        scene.place(matrices.moved(9, 0, 0), Cut(DIFFERENCE, block, hole))
        self.assertEqual([(part.number, operations) for part, operations in scene.account(CAMERA).last_ray_cuts()], [(1, [1]), (2, [0])])

    def test_where_it_is_refused(self):
        with self.assertRaises(Refused) as met:
            Scene([Sphere((0.0, 0.0, 0.0), -1.0)]).account(CAMERA)
        self.assertEqual(met.exception.number, 5)
        scene = Scene([Cube((-1.0, 0.0, 0.0), (1.0, 1.0, 1.0))])
        with self.assertRaises(Refused) as met:
            scene.account(CAMERA, most_points=5)
        self.assertEqual(met.exception.number, 13)
        with self.assertRaises(Refused) as met:
            scene.account(dataclasses.replace(CAMERA, step=-1))
        self.assertEqual(met.exception.number, 8)
        self.assertEqual((Scene().account(CAMERA).rows, Scene().account(CAMERA).findings()), ((), []))

    def test_the_room_grows(self):
        scene = Scene()
        scene.cube((-1, 0, 0), (1, 1, 3), stripes=200)
        row = scene.account(dataclasses.replace(CAMERA, step=1)).rows[0]
        self.assertGreater(row.put, 20_000)
        self.assertEqual(row.put, row.clipped + row.drawn + row.hidden)


@unittest.skipUnless(library.there(library.account), "libhost_account.a is not there")
class Command(unittest.TestCase):
    def test_it_says_first_what_is_missing_from_the_plinth(self):
        out, err = typed(PLINTH)
        self.assertEqual((out.splitlines()[:5], err), (FIRST, ""))
        table = out[out.index("\n\n") + 2 :].splitlines()
        self.assertEqual(table[0].split(), "part what lines points clipped drawn hidden by part: points".split())
        self.assertEqual(table[3].split(), "3 placed cylinder, text line 4 4 164 0 0 164 9: 114, 5: 15, 3: 14, 6: 10, 4: 8, 2: 3".split())
        self.assertEqual(table[-1].split(), "all 48 1,721 339 618 764".split())
        self.assertEqual(len(table), 11)

    def test_it_is_the_account_of_the_sheet_with_the_same_options(self):
        silos = ROOT / "examples/silos.yard"
        out, err = typed(silos, "--eye", 12000, 28000, 9000, "--fov", 30)
        self.assertTrue(out.startswith("part 9 has no line on the sheet\n"))
        self.assertIn("account: the eye is moved", err)
        coarse, fine = (typed(silos, "--step", step)[0].splitlines()[-1].split() for step in ("2", "0.5"))
        self.assertGreater(int(fine[2].replace(",", "")), 2 * int(coarse[2].replace(",", "")))
        self.assertNotEqual(typed(silos, "--step", 1, "--paper", "A2")[0], typed(silos, "--step", 1)[0])

    def test_from_standard_input_and_of_a_wrong_yard(self):
        done = subprocess.run([sys.executable, "-m", "larnt", "account", "-"], input=(ROOT / "examples/plinth.yard").read_bytes(), cwd=ROOT / "host/python", capture_output=True)
        self.assertEqual((done.returncode, done.stdout.decode().splitlines()[:5]), (0, FIRST))
        done = subprocess.run([sys.executable, "-m", "larnt", "account", "-"], input=(wrong.VIEW + "\n(cylinder 2 0)\n").encode(), cwd=ROOT / "host/python", capture_output=True)
        self.assertEqual(done.returncode, 1)
        self.assertIn(b"account: standard input, line 2, column 14: the z1 of this cylinder is missing", done.stderr)

    def test_without_the_archive_it_says_what_to_do(self):
        with mock.patch.object(library, "account", side_effect=Missing("libhost_account.a is not there: run `tools/archives host_account` in the clone")):
            self.assertIn("tools/archives host_account", typed(PLINTH, code=1)[1])


@unittest.skipUnless(library.there(library.account), "libhost_account.a is not there")
class Pages(unittest.TestCase):
    def test_the_page_has_what_the_command_prints(self):
        page = (ROOT / "docs/SHEETS.md").read_text()
        at = page.index("    $ python3 -m larnt account examples/plinth.yard\n")
        shown = [row[4:] for row in page[at:].split("\n\n|")[0].splitlines()][1:]
        self.assertEqual(shown, typed(PLINTH)[0].splitlines())

    def test_the_accounts_of_the_examples(self):
        page = (ROOT / "examples/ACCOUNTS.md").read_text()
        self.assertEqual(page.count("\n## "), len(EXAMPLES))
        for path in EXAMPLES:
            with self.subTest(path.name):
                said = "".join(("    " + row).rstrip() + "\n" for row in typed(path)[0].splitlines())
                self.assertIn(f"\n## {path.stem}\n\n{said}", page)

    def test_the_two_plinths_side_by_side(self):
        page = (ROOT / "examples/README.md").read_text()
        self.assertIn("\n".join("    " + row for row in FIRST) + "\n", page)
        one, two = (yard_of(name).scene.account(yard_of(name).view).rows for name in ("plinth", "plinth_true"))
        for a, b in zip(one, two):
            self.assertEqual((a.lines, a.put, a.clipped), (b.lines, b.put, b.clipped))
            by = [", ".join(f"{part.number}: {n}" for part, n in row.by) for row in (a, b)]
            cells = [a.part.number, account.described(a.part).split(",")[0], a.lines, a.put, a.clipped, a.drawn, by[0], b.drawn, by[1]]
            self.assertIn("|" + "|".join(f" {cell} " if cell != "" else " " for cell in cells) + "|\n", page)
        self.assertEqual(sum(n for row in one for part, n in row.by if part.number == 9), 299)


if __name__ == "__main__":
    unittest.main()
