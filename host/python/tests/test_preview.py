"""The preview, where the library has it."""
import unittest
from unittest import mock

from larnt import Camera, Refused, Scene, forms, library, scene

from . import EXAMPLES
from .hosts import SMALLEST


@unittest.skipUnless(library.there(library.preview), "libhost_preview.a is not there")
class Previews(unittest.TestCase):
    def test_each_example_has_the_counts_of_its_drawing(self):
        for path in EXAMPLES:
            with self.subTest(path.name):
                yard = forms.read(path.read_text())
                drawing = yard.scene.draw(yard.view)
                self.assertEqual(yard.scene.preview(yard.view), (sum(map(len, drawing.paths)), len(drawing.paths)))

    def test_a_drawing_is_lent_the_places_that_the_preview_counts_and_a_start_more(self):
        for path in EXAMPLES[:4]:
            yard = forms.read(path.read_text())
            made = yard.scene.lined(yard.view)
            room = scene.drawn(made, yard.view, scene.FINE, scene.MOST_POINTS)
            self.assertEqual((room.out[1], room.begins[1]), (3 * room.counts()[0], room.counts()[1] + 1))
            with mock.patch.object(library, "preview", side_effect=library.Missing):
                alone = scene.drawn(made, yard.view, scene.FINE, scene.MOST_POINTS)
            self.assertEqual(alone.out[1], 3 * alone.points)
            self.assertEqual(alone.drawing(yard.view), room.drawing(yard.view))

    def test_a_last_path_that_vanishes_at_step_0_needs_the_start_more(self):
        for (name, text), paths in zip(SMALLEST.items(), (0, 9)):
            with self.subTest(name):
                yard = forms.read(text)
                made = yard.scene.lined(yard.view)
                room = scene.drawn(made, yard.view, scene.COARSE, scene.MOST_POINTS)
                self.assertEqual((room.counts()[1], room.begins[1]), (paths, paths + 1))
                self.assertEqual(yard.scene.preview(yard.view), room.counts())
                room.lend(room.counts()[0], paths)
                self.assertEqual(room.draw(made, yard.view, scene.COARSE), 13)

    def test_what_a_draw_refuses_has_no_counts(self):
        made = Scene()
        made.sphere((0, 0, 0), 1)
        camera = Camera((9, 9, 9), (0, 0, 0))
        for asked in ({"threshold": -1.0}, {"most_points": 1}):
            with self.subTest(asked):
                numbers = []
                for call in (made.draw, made.preview):
                    with self.assertRaises(Refused) as caught:
                        call(camera, **asked)
                    numbers.append(caught.exception.number)
                self.assertEqual(numbers[0], numbers[1])


if __name__ == "__main__":
    unittest.main()
