"""The pen's way, where the library has picks."""
import math
import unittest

from larnt import Plotter, forms, library, pick, plotter, ways
from larnt.refusals import Refused

from . import EXAMPLES


@unittest.skipUnless(library.there(library.plotter), "libhost_plotter.a is not there")
class Picks(unittest.TestCase):
    YARD = [[(5.0, 0.0, 0.0), (9.0, 0.0, 0.0)], [(1.0, 0.0, 0.0), (5.0, 1.0, 0.0)], [(9.0, 1.0, 0.0), (0.0, 0.0, 0.0)]]
    LINES = [[(1.0, 0.0, 0.0), (0.0, 0.0, 0.0)]]

    def test_the_nearest_first_and_ties_to_the_yard(self):
        self.assertEqual(list(pick(self.YARD, self.LINES)), [(False, 1), (False, 0), (False, 2), (True, 0)])

    def test_all_are_drawn_once_and_then_15(self):
        picks = plotter.Pick(self.YARD, self.LINES)
        got = {picks.next((0, 0, 0)) for _ in range(4)}
        self.assertEqual(got, {(False, 0), (False, 1), (False, 2), (True, 0)})
        with self.assertRaises(Refused) as caught:
            picks.next((0, 0, 0))
        self.assertEqual(caught.exception.number, 15)

    def test_the_way_of_each_example_is_shorter(self):
        def up(paths):
            pen, far = (0.0, 0.0), 0.0
            for path in paths:
                far, pen = far + math.dist(pen, path[0][:2]), path[-1][:2]
            return far

        for path in EXAMPLES:
            with self.subTest(path.name):
                yard = forms.read(path.read_text())
                drawing = yard.scene.draw(yard.view)
                way = ways(drawing)
                self.assertEqual(sorted(way), sorted(drawing.paths))
                self.assertLess(up(way), up(drawing.paths))


@unittest.skipUnless(library.there(library.plotter), "libhost_plotter.a is not there")
class Registers(unittest.TestCase):
    def test_a_move_lasts_as_long_as_its_longer_way(self):
        made = Plotter()
        for at, value in ((2, 7), (4, 3), (0, 4)):
            made.write(at, value)
        for step in range(7):
            self.assertTrue(made.busy, step)
            made.step()
        self.assertEqual((made.busy, made.pen), (False, (7, 3)))

    def test_16_and_17(self):
        made = Plotter()
        for at, value, number in ((1, 0, 16), (7, 0, 16), (8, 0, 16), (0, 5, 17)):
            with self.assertRaises(Refused) as caught:
                made.write(at, value)
            self.assertEqual(caught.exception.number, number)
        self.assertEqual(bytes(made.registers.bytes), bytes(8))

    def test_what_is_no_byte_is_turned_away_before_the_call(self):
        """Of its low bits 260 would be a go, 257 and -255 a pen down."""
        made, changed = Plotter(), Plotter()
        for at, value, number in (
            (0, 260, 17), (0, 257, 17), (0, -252, 17), (0, -1, 17), (0, 2**64 + 4, 17), (1, 260, 16), (7, -1, 16), (8, 260, 16),
            (2**64, 1, 16), (2**64 + 2, 1, 16), (-1, 1, 16), (-(2**64), 4, 16), (2**32 + 1, 0, 16), (1, 2**70, 16),
        ):
            with self.subTest(at=at, value=value):
                with self.assertRaises(Refused) as caught:
                    made.write(at, value)
                self.assertEqual(caught.exception.number, number)
        for at in range(2, 7):
            for value in (256, 260, -1, 2**64):
                with self.assertRaisesRegex(ValueError, f"a byte is 0 to 255, not {value}"):
                    made.write(at, value)
            changed.write(at, 255)
        for at, value in ((0, 4.0), (0, "4"), (2.0, 4), (0, None)):
            with self.assertRaises(TypeError):
                made.write(at, value)
        self.assertEqual(bytes(made.registers), bytes(16))
        self.assertEqual(bytes(changed.registers.bytes), bytes([0, 0, 255, 255, 255, 255, 255, 0]))

    def test_a_busy_plotter_takes_no_command(self):
        made = Plotter()
        for at, value in ((2, 9), (0, 4)):
            made.write(at, value)
        for value in (1, 4, 260, 0):
            with self.assertRaises(Refused) as caught:
                made.write(0, value)
            self.assertEqual(caught.exception.number, 17)
        self.assertEqual(made.registers.bytes[0], 4)


if __name__ == "__main__":
    unittest.main()
