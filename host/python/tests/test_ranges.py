"""What a draw of a range leaves in the slices that it is lent, and what it refuses."""
import unittest

from larnt import forms, library, scene

from . import EXAMPLES


@unittest.skipUnless(library.there(library.parts), "libhost_parts.a is not there")
class Lent(unittest.TestCase):
    def test_a_range_behind_the_last_part_is_empty_and_all_that_is_lent_ends_as_zeros(self):
        yard = forms.read(EXAMPLES[0].read_text())
        made = yard.scene.lined(yard.view)
        room = scene.fitted(scene.Room.draw, made, yard.view, scene.COARSE, scene.MOST_POINTS)
        for first, many in ((len(made.drawn), 1), (2**64 - 1, 2**64 - 1), (0, 0)):
            with self.subTest(first=first, many=many):
                self.assertEqual(room.draw_range(made, yard.view, scene.COARSE, first, many), 0)
                self.assertEqual(room.counts(), (0, 0))
                self.assertFalse(any(any(lent) for lent in (room.out[0], room.begins[0], *room.work[::2], *room.tree[::2])))

    def test_what_the_draw_refuses_before_it_works_each_range_refuses(self):
        yard = forms.read(EXAMPLES[0].read_text())
        made = yard.scene.lined(yard.view)
        room = scene.Room(made, 64)
        self.assertEqual([room.draw_range(made, yard.view, -1.0, first, 1) for first in (0, 1, 5000)], [8, 8, 8])


if __name__ == "__main__":
    unittest.main()
