"""Texts that are no forms, and numbers that are."""
import unittest

from larnt import Refused, forms

from . import wrong

CASES = [
    # text after the view, line, column, words
    ("(cylinder 2 0)", 2, 14, "the z1 of this cylinder is missing: ')' stands here"),
    ("(cylinder 2 0", 2, 14, "the z1 of this cylinder is missing: the line ends here"),
    ("(cube 1 0 0 0 1 1 1) x", 2, 22, "'x' follows"),
    ("(cube 1 0 0 0 1 1 1 1)", 2, 21, "a closing bracket ends this cube, not '1'"),
    ("\n\n(barn 1)", 4, 2, "'barn' is no form; there are sphere, cylinder"),
    ("(sphere 0 0 0 1.5)", 2, 15, "1.5 is #3FF8000000000000"),
    ("(sphere 0 0 0 2000000)", 2, 15, "2000000 is #413E848000000000"),
    ("(sphere 0 0 0 r)", 2, 15, "with - before them if negative"),
    ("(sphere 0 0 0 1 (ring 0 0 0))", 2, 18, "only (line ..) forms"),
    ("(sphere 0 0 0 1 (line 0 0))", 2, 26, "the z of point 1 is missing"),
    ("(cut -1 (sphere 0 0 0 1) (sphere 0 0 0 1))", 2, 6, "the operation is '-1'"),
    ("(cut 1 (sphere 0 0 0 1))", 2, 24, "a form begins with an opening bracket"),
    ("sphere 0 0 0 1", 2, 1, "a form begins with an opening bracket, not 'sphere'"),
    ("(cone 1 2 3.5)", 2, 11, "the stripe count"),
    ("(sphere 0 0 0\t1)", 2, 14, "a tab"),
    ("(sphere 0 0 0 1)\r", 2, 17, "a carriage return"),
    (wrong.VIEW, 2, 2, "must be the first form"),
]


class Forms(unittest.TestCase):
    def test_what_is_wrong_and_where(self):
        for text, line, column, words in CASES:
            with self.subTest(text):
                with self.assertRaises(Refused) as caught:
                    forms.read(f"{wrong.VIEW}\n{text}\n")
                got = caught.exception
                self.assertEqual((got.number, got.line, got.column), (1, line, column), str(got))
                self.assertIn(words, got.wrong)

    def test_a_short_view(self):
        with self.assertRaises(Refused) as caught:
            forms.read("(view 2 2 0 0 0 5 1)")
        self.assertIn("number 2 of the matrix is missing", caught.exception.wrong)

    def test_numbers(self):
        for word, x in (("-0", 0.0), ("007", 7.0), ("-1000000", -1e6), ("#3fe0000000000000", 0.5), ("#8000000000000000", -0.0)):
            self.assertEqual(str(forms.number_in(word)), str(x))
        for word in ("1000001", "+1", "1e3", "#3FE", "", "-", "\u0663"):
            self.assertIsNone(forms.number_in(word))
        for x in (0.0, -0.0, 7.0, -1e6, 0.1, 1e6 + 1, float("inf")):
            self.assertEqual(str(forms.number_in(forms.number(x))), str(x))

    def test_zeros_before_a_number(self):
        """As many as one likes, as in `yard`; Python's int() takes 4,300."""
        for zeros in ("0", "0" * 30, "0" * 9000):
            self.assertEqual(str(forms.number_in(zeros + "1000000")), "1000000.0")
            self.assertEqual(str(forms.number_in("-" + zeros + "12")), "-12.0")
            self.assertEqual(str(forms.number_in("-" + zeros)), "0.0")
            self.assertIsNone(forms.number_in(zeros + "1000001"))
            self.assertIsNone(forms.number_in("1" + "0" * 9000))
            yard = forms.read(f"{wrong.VIEW}\n(cube {zeros}12 0 0 0 1 1 1)")
            self.assertEqual(yard.scene.parts[0].solid.stripes, 12)

    def test_spaces_and_empty_lines(self):
        yard = forms.read("\n  ( view 2 2 0 0 0 5 1 0 0 0 0 1 0 0 0 0 1 0 0 0 0 1 )  \n\n(sphere 0 0 0 1( line 0 0 1 ))\n")
        self.assertEqual((yard.view_at, len(yard.scene.parts)), ((2, 3), 1))
        self.assertEqual(yard.scene.parts[0].solid.lines, (((0.0, 0.0, 1.0),),))

    def test_a_text_may_lack_the_view(self):
        yard = forms.read("(sphere 0 0 0 1)\n")
        self.assertIsNone(yard.view)
        self.assertEqual(len(yard.scene.parts), 1)

    def test_a_text_nested_without_end(self):
        with self.assertRaises(Refused) as caught:
            forms.read(wrong.nested(500))
        self.assertEqual(caught.exception.number, 4)


if __name__ == "__main__":
    unittest.main()
