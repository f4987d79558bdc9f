"""Canonical texts and merged yards, where the library has them."""
import contextlib
import io
import pathlib
import tempfile
import unittest

from larnt import FINE, Cube, Refused, Scene, forms, library, texts
from larnt.__main__ import main

from . import EXAMPLES, ROOT, wrong

BUILDING, PLANT = ROOT / "examples/merge/building.yard", ROOT / "examples/merge/plant.yard"


def run(*words):
    """What the command answers, prints and says."""
    out, err = io.StringIO(), io.StringIO()
    with contextlib.redirect_stdout(out), contextlib.redirect_stderr(err):
        code = main([str(word) for word in words])
    return code, out.getvalue(), err.getvalue()


@unittest.skipUnless(library.there(library.text), "libhost_text.a is not there")
class Canonical(unittest.TestCase):
    def test_each_example_draws_the_same_and_is_printed_as_it_came(self):
        for path in EXAMPLES:
            with self.subTest(path.name):
                yard = forms.read(path.read_text())
                text = texts.canonical(yard)
                self.assertEqual(text, (path.parent / "canonical" / path.name).read_text())
                again = forms.read(text)
                self.assertEqual(texts.canonical(again), text)
                self.assertEqual(again.scene.draw(again.view).text(), yard.scene.draw(yard.view).text())

    def test_a_text_in_that_form_is_printed_as_it_came_but_for_other_NaNs(self):
        """There is one NaN, and only a point of a line may be it; at step 0 such a yard may be drawn."""
        view = texts.canonical(forms.read("(view 2 2 0 0 0 5 1 0 0 0 0 1 0 0 0 0 1 0 0 0 0 1)"))
        form = "(sphere #0000000000000000 #8000000000000000 #0000000000000000 #3FF0000000000000 (line {} #0000000000000000 #3FF0000000000000))\n"
        for word in ("#3FF0000000000000", "#8000000000000000", "#7FF0000000000000", "#7FF8000000000000"):
            self.assertEqual(texts.canonical(forms.read(view + form.format(word))), view + form.format(word))
        for word in ("#7FF0000000000001", "#FFF8000000000000", "#7FF8000000000001"):
            self.assertEqual(texts.canonical(forms.read(view + form.format(word))), view + form.format("#7FF8000000000000"))

    def test_the_command_prints_it(self):
        code, out, err = run("canonical", PLANT)
        self.assertEqual((code, out, err), (0, texts.canonical(forms.read(PLANT.read_text())), ""))

    def test_a_yard_needs_a_view(self):
        with tempfile.TemporaryDirectory() as folder:
            path = pathlib.Path(folder) / "a.yard"
            path.write_text("(cube 1 0 0 0 1 1 1)\n")
            code, out, err = run("canonical", path)
        self.assertEqual((code, out), (1, ""))
        self.assertIn("no (view ..)", err)


@unittest.skipUnless(library.there(library.text) and library.there(library.merging), "libhost_text.a or libhost_merge.a is not there")
class Merged(unittest.TestCase):
    def test_the_building_and_the_plant_are_the_blower_yard(self):
        code, out, err = run("merge", BUILDING, PLANT)
        whole = ROOT / "examples/blower.yard"
        self.assertEqual((code, err), (0, ""))
        self.assertEqual(out, texts.canonical(forms.read(whole.read_text())))
        yard = forms.read(out)
        self.assertEqual(yard.scene.draw(yard.view, threshold=FINE).text().encode(), whole.with_suffix(".drawing").read_bytes())

    def test_a_scene_of_both_is_what_the_library_makes_of_them(self):
        building, plant = (forms.read(path.read_text()) for path in (BUILDING, PLANT))
        building.scene.parts[0].name = "wall"
        both = building.scene.merge(plant.scene)
        self.assertEqual((both.parts[0].name, both.parts[-1].number), ("wall", len(building.scene.parts) + len(plant.scene.parts)))
        made, filled = both.slices(building.view), building.scene.slices(building.view).merged(plant.scene.slices(building.view))
        for mine, theirs in zip(made.arguments()[0::2], filled[0::2]):
            self.assertEqual(list(mine), list(theirs))
        with self.assertRaises(Refused) as caught:
            Scene([Cube((0.0, 0.0, 0.0), (1.0, 1.0, 1.0))] * 1024).merge(building.scene)
        self.assertEqual(caught.exception.number, 2)

    def test_the_order_is_first_and_then_second(self):
        both = texts.merged(forms.read(PLANT.read_text()), forms.read(BUILDING.read_text())).splitlines()
        parts = [texts.canonical(forms.read(path.read_text())).splitlines() for path in (PLANT, BUILDING)]
        self.assertEqual(both, parts[0] + parts[1][1:])

    def test_each_yard_meets_its_own_number_the_first_before_the_second(self):
        bad = {number: forms.read("\n".join(wrong.CASES[number][0])) for number in (5, 7)}
        good = forms.read(PLANT.read_text())
        for first, second, number in ((bad[5], bad[7], 5), (bad[7], bad[5], 7), (good, bad[7], 7), (bad[5], good, 5)):
            with self.assertRaises(Refused) as caught:
                texts.merged(first, second)
            self.assertEqual(caught.exception.number, number)

    def test_more_than_1024_entries_together_meet_2(self):
        cubes = forms.read(wrong.VIEW + "\n" + "(cube 1 0 0 0 1 1 1)\n" * 600)
        with self.assertRaises(Refused) as caught:
            texts.merged(cubes, cubes)
        self.assertEqual(caught.exception.number, 2)
        self.assertIn("1,200 entries", str(caught.exception.wrong))


if __name__ == "__main__":
    unittest.main()
