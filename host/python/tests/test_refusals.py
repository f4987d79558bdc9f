"""Refusals: each number that a scene can meet, once."""
import concurrent.futures
import ctypes
import dataclasses
import math
import os
import pathlib
import re
import subprocess
import sys
import tempfile
import unittest
from unittest import mock

from larnt import BY_CORE, NO_LINES, WORDS, Camera, Cone, Cube, Cut, Cylinder, Placed, Refused, Scene, Sphere, View, forms, library, matrices

from . import ROOT, wrong

VIEW = forms.read(wrong.VIEW).view
CUBE = Cube((0.0, 0.0, 0.0), (1.0, 1.0, 1.0))
ARCHIVE = library.folder() / "libhost.a"


def refusal(test, scene, view=VIEW, **more):
    with test.assertRaises(Refused) as caught:
        scene.draw(view, **more)
    return caught.exception


class Numbers(unittest.TestCase):
    def test_the_numbers_of_the_readme_have_words(self):
        rows = re.findall(r"^\| (\d+) \| \w", (ROOT / "README.md").read_text(), re.M)
        self.assertGreaterEqual(len(rows), 13)
        self.assertLessEqual(set(map(int, rows)), set(WORDS))

    def test_2_more_than_1024_entries(self):
        made = Scene([CUBE] * 1024)
        self.assertEqual(len(made.boxes()), 1024)
        made.add(CUBE, "one more")
        got = refusal(self, made)
        self.assertEqual((got.number, got.part), (2, "one more"))

    def test_3_an_operation(self):
        got = refusal(self, Scene([Cut(4, CUBE, CUBE)]))
        self.assertEqual((got.number, got.wrong), (3, "the cut's operation is 4, and must be 0 to 3"))

    def test_3_stripes_of_a_cube(self):
        for stripes in (0, 1001):
            got = refusal(self, Scene([CUBE, Cube((0.0,) * 3, (1.0,) * 3, stripes)]))
            self.assertEqual((got.number, got.part), (3, "part 2"))

    def test_3_and_14_of_counts_that_32_bits_do_not_hold(self):
        """Of their low bits each would be accepted."""
        for odd in (2**32 + 1, 2**32 + 3, 2**64 + 2, 1 - 2**32, -1):
            for solid, number in ((Cube((0.0,) * 3, (1.0,) * 3, odd), 3), (Cut(odd, CUBE, CUBE), 3), (Cylinder(1.0, 0.0, 1.0, odd), 14), (Cone(1.0, 1.0, odd, True), 14)):
                with self.subTest(odd=odd, solid=type(solid).__name__):
                    for call in (Scene.boxes, Scene.tree, lambda scene: scene.draw(VIEW)):
                        with self.assertRaises(Refused) as caught:
                            call(Scene([CUBE, solid]))
                        got = caught.exception
                        self.assertEqual((got.number, got.part), (number, "part 2"))
                        self.assertIn(f" {odd:,} " if type(solid) is Cube else str(odd) if type(solid) is Cut else f"{odd:,}", got.wrong)
        for odd in (2.0, "2", None):
            with self.assertRaises(TypeError):
                Scene([Cylinder(1.0, 0.0, 1.0, odd)]).boxes()
            with self.assertRaises(TypeError):
                Scene().cut(odd, CUBE, CUBE)

    def test_4_nested_too_deep(self):
        solid = CUBE
        for _ in range(7):
            solid = Placed(matrices.IDENTITY, solid)
        self.assertGreater(len(Scene([solid]).draw(VIEW).paths), 0)
        self.assertEqual(refusal(self, Scene([Placed(matrices.IDENTITY, solid)])).number, 4)

    def test_5_measures(self):
        cases = [
            (Sphere((0.0, 0.0, 0.0), -1.0), "radius is -1,"),
            (Sphere((0.0, math.inf, 0.0), 1.0), "y is not a finite number"),
            (Sphere((0.0, 0.0, 2e6), 1.0), "z is 2,000,000, and 1,000,000 is the most"),
            (Cylinder(1.0, 2.0, 1.0), "upper end, 1, is below its lower, 2"),
            (Cone(1.0, 0.0), "height is 0,"),
            (Cube((0.0, 3.0, 0.0), (1.0, 1.0, 1.0)), "least y, 3, is above its greatest, 1"),
        ]
        for solid, words in cases:
            with self.subTest(words):
                got = refusal(self, Scene([CUBE, Placed(matrices.moved(1, 0, 0), solid)]))
                self.assertEqual((got.number, got.part), (5, "part 2"))
                self.assertIn(words, got.wrong)

    def test_6_a_placing_without_an_inverse(self):
        flat = matrices.stretched(1, 1, 0)
        for part in (CUBE, Sphere((0.0, 0.0, 0.0), 1.0)):
            self.assertEqual(refusal(self, Scene([Placed(flat, part)])).number, 6)

    def test_7_a_box_out_of_bounds(self):
        self.assertEqual(refusal(self, Scene([Placed(matrices.moved(1_000_000, 0, 0), CUBE)])).number, 7)

    def test_8_a_view(self):
        base = Camera((5, 5, 5), (0, 0, 0)).view()
        cases = [
            (View(base.matrix, (2e6, 0.0, 0.0), 10.0, 10.0, 1.0), {}, "the eye's x is 2,000,000"),
            (View(base.matrix, base.eye, 0.0, 10.0, 1.0), {}, "width is 0"),
            (View(base.matrix, base.eye, 10.0, math.nan, 1.0), {}, "height is nan"),
            (View(base.matrix, base.eye, 10.0, 10.0, 1001.0), {}, "step is 1,001"),
            (base, {"threshold": -1.0}, "threshold is -1"),
        ]
        for view, more, words in cases:
            with self.subTest(words):
                got = refusal(self, Scene([CUBE]), view, **more)
                self.assertEqual(got.number, 8)
                self.assertIn(words, got.wrong)

    def test_9_11_and_12(self):
        for number, line in ((9, 3), (11, 3), (12, None)):
            yard = forms.read("\n".join(wrong.CASES[number][0]))
            got = refusal(self, yard.scene, yard.view)
            self.assertEqual((got.number, got.line), (number, line))

    def test_9_of_a_placed_line(self):
        line = ((0.0, 0.0, 2.0), (9e5, 0.0, 2.0))
        got = refusal(self, Scene([CUBE, Placed(matrices.moved(200_000, 0, 0), Sphere((0.0, 0.0, 0.0), 1.0, (line,)))]))
        self.assertEqual((got.number, got.part), (9, "part 2"))

    def test_13_room(self):
        self.assertEqual(refusal(self, Scene([CUBE]), most_points=20).number, 13)

    def test_14_stripes(self):
        for solid in (Cylinder(1.0, 0.0, 1.0, stripes=361), Cone(1.0, 1.0, stripes=1000), Cone(1.0, 1.0, stripes=361, closed=True)):
            got = refusal(self, Scene([CUBE, solid]))
            self.assertEqual((got.number, got.part), (14, "part 2"))
        self.assertGreater(len(Scene([Cylinder(1.0, 0.0, 1.0, stripes=360, lines=())]).draw(VIEW).paths), 100)


class Stripes(unittest.TestCase):
    """Stripes and lids, by the core."""

    def test_stripes_are_drawn(self):
        view = Camera((9, -9, 9), (0, 0, 0), step=4).view()
        for solid in (Cylinder(1.0, 0.0, 2.0, lines=BY_CORE), Cone(1.0, 2.0, lines=BY_CORE)):
            self.assertEqual(Scene([dataclasses.replace(solid, lines=NO_LINES)]).draw(view).paths, [])
            self.assertGreater(len(Scene([solid]).draw(view).paths), 0)
            striped = dataclasses.replace(solid, stripes=24)
            text = forms.write(Scene([striped]), view)
            self.assertIn(" 24)", text)
            back = forms.read(text)
            self.assertEqual(back.scene.parts[0].solid, striped)
            drawn = back.scene.draw(view)
            self.assertEqual(drawn.text(), Scene([striped]).draw(view).text())
            self.assertGreater(len(drawn.paths), 8)

    def test_lids_hide(self):
        for closed in (False, True):
            made = Scene()
            made.cylinder(1, 0, 2, closed=closed, name="silo")
            self.assertEqual(made.visible((0, 0, 9), (0.2, 0.1, 1)), not closed)
            roof = Scene()
            roof.cone(1, 2, closed=closed)
            self.assertEqual(roof.visible((0, 0, -9), (0.2, 0.1, 0.5)), not closed)
            text = forms.write(made, Camera((9, 9, 9), (0, 0, 0)))
            self.assertEqual("(closed-cylinder 1 0 2 (line" in text, closed)
            self.assertEqual(forms.read(text).scene.parts[0].solid.closed, closed)


class Linked(unittest.TestCase):
    def test_another_archive_is_linked_anew(self):
        with tempfile.TemporaryDirectory() as folder, mock.patch.dict(os.environ, LARNT_STATICLIB=folder):
            archive = pathlib.Path(folder) / "libhost.a"
            archive.write_bytes(ARCHIVE.read_bytes())
            first = library.shared("host").stat()
            self.assertEqual(library.shared("host").stat().st_ino, first.st_ino)
            os.utime(archive, ns=(first.st_mtime_ns - 10**9,) * 2)
            again = library.shared("host").stat()
            self.assertNotEqual(again.st_ino, first.st_ino)
            self.assertEqual(again.st_mtime_ns, first.st_mtime_ns - 10**9)


    def test_several_threads_link_it_at_once(self):
        with tempfile.TemporaryDirectory() as folder, mock.patch.dict(os.environ, LARNT_STATICLIB=folder):
            (pathlib.Path(folder) / "libhost.a").write_bytes(ARCHIVE.read_bytes())
            with concurrent.futures.ThreadPoolExecutor(8) as threads:
                loaded = list(threads.map(lambda _: library.loaded("host", library.HOST), range(8)))
            self.assertEqual([type(one.larnt_sqrt(4.0, ctypes.byref(ctypes.c_int64()))) for one in loaded], [float] * 8)
            self.assertEqual(sorted(os.listdir(folder)), ["libhost.a", "libhost.so"])


class NoLibrary(unittest.TestCase):
    def said(self, **environment):
        code = "import larnt; larnt.Scene([larnt.Sphere((0.0, 0.0, 0.0), 1.0)]).boxes()"
        done = subprocess.run([sys.executable, "-c", code], env={**os.environ, "PYTHONPATH": str(ROOT / "host/python"), **environment}, capture_output=True, text=True)
        self.assertEqual(done.returncode, 1)
        return done.stderr

    def test_without_an_archive(self):
        with tempfile.TemporaryDirectory() as empty:
            self.assertIn("run `tools/archives host`", self.said(LARNT_STATICLIB=empty))

    def test_without_a_compiler(self):
        with tempfile.TemporaryDirectory() as folder:
            (pathlib.Path(folder) / "libhost.a").write_bytes(b"")
            self.assertIn("no C compiler", self.said(LARNT_STATICLIB=folder, CC="no-such-compiler"))


if __name__ == "__main__":
    unittest.main()
