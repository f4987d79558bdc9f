"""Scenes that are built, asked and drawn."""
import math
import random
import sys
import unittest
from fractions import Fraction
from unittest import mock

import larnt
from larnt import COARSE, DIFFERENCE, FINE, Camera, Cone, Cube, Cylinder, Refused, Scene, Sphere, forms, matrices, outlines, scene

from . import ROOT


def yard():
    """A bit of everything."""
    made = Scene()
    made.silo(2200, 7000, 1300, at=(-5500, 0, 0), name="north silo")
    made.sphere((2600, -4600, 1100), 1100, name="tank")
    tube, quarter = made.cylinder(1500, 0, 4000), made.cube((0, -2000, 1200), (2000, 0, 5000))
    made.place(matrices.moved(-4000, -5500, 0), made.cut(DIFFERENCE, tube, quarter), name="bin")
    made.pipe((-2000, -5000, 1000), (2600, -4600, 1100), 200, name="auger")
    made.triangle((5000, -6000, 0), (8000, -6000, 0), (6500, -6000, 2000), name="gable")
    made.place(matrices.product(matrices.moved(6500, -2000, 1500), matrices.turned("y", 60)), Cylinder(700.0, -1500.0, 1500.0, rings=(0.0,)))
    made.cube((-9000, 3000, 0), (9000, 3300, 3000), stripes=4, name="wall")
    return made


CAMERA = Camera(eye=(12000, -22000, 11000), target=(500, -2000, 2500), field_of_view=35, step=4)


class Views(unittest.TestCase):
    def test_the_camera_makes_the_views_of_the_examples(self):
        view = forms.read((ROOT / "examples/silos.yard").read_text()).view
        made = Camera((15000, -26000, 13000), (-200, -400, 4400), field_of_view=25, step=10, near=100, far=200_000).view()
        for a, b in zip(made.numbers(), view.numbers()):
            self.assertTrue(math.isclose(a, b, rel_tol=1e-12, abs_tol=1e-15), (a, b))
        self.assertAlmostEqual(view.field_of_view(), 25)

    def test_the_target_stands_in_the_middle(self):
        for eye in ((1, 2, 3), (0, 0, 9), (0, 0, -9), (0, -5, 0)):
            view = Camera(eye, (0, 0, 0), width=400, height=300).view()
            x, y = view.spot((0, 0, 0))
            self.assertAlmostEqual(x, 200)
            self.assertAlmostEqual(y, 150)
            self.assertIsNone(view.spot([2 * x for x in eye]))

    def test_a_camera_that_sees_nothing(self):
        with self.assertRaisesRegex(ValueError, "same point"):
            Camera((1, 1, 1), (1, 1, 1)).view()
        with self.assertRaisesRegex(ValueError, "below 180"):
            Camera((1, 1, 1), (0, 0, 0), field_of_view=180).view()
        for odd in (math.nan, math.inf, 1e300):
            with self.assertRaisesRegex(ValueError, "not finite, or out of all bounds"):
                Camera((1, odd, 1), (0, 0, 0)).view()


class Building(unittest.TestCase):
    def test_parts_of_a_cut_are_no_longer_drawn(self):
        made = Scene()
        block, hole, post = made.cube((0, 0, 0), (4, 4, 4)), made.cube((1, 1, 1), (3, 3, 5)), made.cube((9, 9, 0), (10, 10, 5))
        cut = made.cut(DIFFERENCE, block, hole, name="open block")
        self.assertEqual([part.title() for part in made.parts], ["part 1", "open block"])
        self.assertEqual((post.number, cut.number), (1, 2))
        self.assertEqual(cut.solid.operation, 3)
        with self.assertRaises(ValueError):
            made.place(matrices.moved(1, 1, 1), block)

    def test_entries_come_before_what_names_them(self):
        made = yard().slices(CAMERA.view())
        for entry, solid in enumerate(made.entries):
            for place in range(len(larnt.solids.parts(solid))):
                self.assertLess(made.marks[4 * entry + 2 + place], entry)
        self.assertEqual(made.owners, sorted(made.owners))
        self.assertEqual(made.starts[0], 0)
        self.assertEqual(len(made.starts), len(made.owners))

    def test_a_silo_is_a_tube_and_its_roof(self):
        made = Scene()
        tube, roof = made.silo(2, 7, 3, at=(10, 0, 1), name="silo")
        self.assertEqual([(p.name, p.number) for p in (tube, roof)], [("silo", 1), ("silo, roof", 2)])
        self.assertEqual(made.boxes(), [((8, -2, 1), (12, 2, 8)), ((8, -2, 8), (12, 2, 11))])


class Asking(unittest.TestCase):
    def test_the_worked_cube(self):
        made = Scene([Cube((-1.0, -1.0, -1.0), (1.0, 1.0, 1.0))])
        self.assertTrue(made.visible((0, 0, 5), (0, 0, 1)))
        self.assertFalse(made.visible((0, 0, 5), (0, 0, -1)))
        self.assertIsNone(made.why_hidden((0, 0, 5), (0, 0, 1)))
        self.assertIs(made.why_hidden((0, 0, 5), (0, 0, -1)), made.parts[0])
        self.assertEqual(made.covered((0, 0, 5), [(0, 0, 1), (0, 0, -1)]), [False, True])

    def test_the_named_part_stands_before_the_point(self):
        made = Scene()
        hut, wall = made.cube((-3800, -5200, 0), (-1400, -3400, 1800), name="hut"), made.cube((-9000, 3000, 0), (9000, 3300, 3000), name="wall")
        self.assertIs(made.why_hidden((-2600, -20000, 900), (-2600, 0, 900)), hut)
        self.assertIs(made.why_hidden((5000, -20000, 900), (5000, 9000, 900)), wall)

    def test_the_three_answers_agree(self):
        made, rng = yard(), random.Random(1)
        points = [(rng.uniform(-9000, 9000), rng.uniform(-9000, 9000), rng.uniform(-500, 9000)) for _ in range(600)]
        covered = made.covered(CAMERA.eye, points)
        self.assertGreater(covered.count(True), 100)
        self.assertGreater(covered.count(False), 100)
        for point, hidden in zip(points, covered):
            self.assertEqual(made.visible(CAMERA.eye, point), not hidden)
            self.assertEqual(made.is_covered(CAMERA.eye, point), hidden)
            self.assertEqual(made.why_hidden(CAMERA.eye, point) is not None, hidden)

    def test_a_point_that_is_refused_refuses_itself_alone(self):
        made = Scene([Sphere((0.0, 0.0, 0.0), 1.0)])
        points = [(0, 0, -3), (2e6, 0, 0), (0, 0, 3)]
        self.assertEqual(made.told((0, 0, 9), points), bytes([2, 9, 1]))
        for asked in (lambda: made.covered((0, 0, 9), points), lambda: made.is_covered((0, 0, 9), points[1])):
            with self.assertRaises(Refused) as caught:
                asked()
            self.assertEqual(caught.exception.number, 9)
        self.assertEqual(made.covered((0, 0, 9), []), [])

    def test_what_a_look_meets(self):
        made = Scene()
        near, _ = made.cube((-1, -1, -1), (1, 1, 1)), made.cube((-1, -1, -9), (1, 1, -7))
        part, at = made.first_met((0, 0, 5), (0, 0, -8))
        self.assertIs(part, near)
        self.assertEqual(at, (0, 0, 1))
        self.assertIsNone(made.first_met((0, 0, 5), (0, 9, 5)))

    def test_a_tree_is_built_anew_after_a_change(self):
        made = Scene()
        self.assertTrue(made.visible((0, 0, 5), (0, 0, -5)))
        cube = made.cube((-1, -1, -1), (1, 1, 1))
        self.assertFalse(made.visible((0, 0, 5), (0, 0, -5)))
        made.place(matrices.moved(9, 0, 0), cube)
        self.assertTrue(made.visible((0, 0, 5), (0, 0, -5)))


class Lengths(unittest.TestCase):
    """Roots with their remainders."""

    def test_the_worked_roots(self):
        for x, root, rest in ((0.0, 0.0, 0), (9.0, 3.0, 0), (4.0, 2.0, 0), (2.0**-1074, 2.0**-537, 0), (math.inf, math.inf, 0)):
            self.assertEqual(larnt.sqrt(x), (root, rest))
        self.assertEqual(str(larnt.sqrt(-0.0)), "(-0.0, 0)")
        for x in (-1.0, -math.inf, math.nan):
            root, rest = larnt.sqrt(x)
            self.assertTrue(math.isnan(root) and rest == 0)

    def test_the_remainder_is_the_exact_one(self):
        rng = random.Random(1)
        for x in (2.0, 3.0, sys.float_info.max, sys.float_info.min, 5e-324, *(math.ldexp(1 + rng.random(), rng.randrange(-1074, 1024)) for _ in range(999))):
            root, rest = larnt.sqrt(x)
            self.assertEqual(root, math.sqrt(x))
            fraction, k = math.frexp(root)
            whole, k = int(math.ldexp(fraction, 53)), k - 53
            self.assertEqual(rest, Fraction(x) / Fraction(4) ** k - whole**2)

    def test_lengths_and_distances(self):
        self.assertEqual(larnt.length((3, 4, 0)), (5.0, 0))
        self.assertEqual(larnt.length((1, 1, 1)), larnt.sqrt(3.0))
        self.assertEqual(larnt.distance((1, 2, 3), (2, 3, 4)), larnt.sqrt(3.0))
        self.assertEqual(larnt.distance((1, 2, 3), (3, 5, 9)), (7.0, 0))


class Drawing(unittest.TestCase):
    def test_written_and_read_back_it_draws_the_same(self):
        made = yard()
        drawn = made.draw(CAMERA)
        self.assertGreater(len(drawn.paths), 30)
        back = forms.read(forms.write(made, CAMERA))
        self.assertEqual(back.view, CAMERA.view())
        self.assertEqual(back.scene.draw(back.view).text(), drawn.text())

    def test_room_grows_and_changes_nothing(self):
        made, view = yard(), CAMERA.view()
        whole = made.draw(view).text()
        with mock.patch.object(scene, "FIRST_POINTS", 1), mock.patch.object(scene, "Room", wraps=scene.Room) as calls:
            self.assertEqual(made.draw(view).text(), whole)
        rooms = [call.args[1] for call in calls.call_args_list]
        self.assertGreater(len(rooms), 1)
        self.assertEqual([b / a for a, b in zip(rooms, rooms[1:])], [2] * (len(rooms) - 1))

    def test_room_that_may_not_grow(self):
        with self.assertRaises(Refused) as caught:
            yard().draw(CAMERA, most_points=100)
        self.assertEqual(caught.exception.number, 13)
        self.assertIn("100 points", str(caught.exception))

    def test_a_draw_is_coarse_by_default_and_fine_where_that_is_asked_for(self):
        self.assertEqual((COARSE, FINE), (1e-4, 1e-6))
        made = Scene([Sphere((0.0, 0.0, 0.0), 1000.0, points=720)])
        camera = Camera((5000, 0, 0), (0, 0, 0), step=4)
        fine, coarse = (made.draw(camera, threshold=t) for t in (FINE, COARSE))
        self.assertEqual(made.draw(camera), coarse)
        self.assertLess(sum(map(len, coarse.paths)), sum(map(len, fine.paths)) / 2)

    def test_nothing_draws_nothing(self):
        self.assertEqual(Scene().draw(CAMERA).paths, [])


class Outlines(unittest.TestCase):
    EYES = [(9.0 * math.cos(k), 9.0 * math.sin(k), 1.0 + k / 3) for k in range(24)]

    def drawn(self, build, eye, step=4.0):
        made = Scene()
        build(made)
        return made.draw(Camera(eye, (0, 0, 1), width=1200, height=800, step=step))

    def test_a_ball_hides_nothing_of_its_outline(self):
        for eye in self.EYES:
            (path,) = self.drawn(lambda s: s.sphere((0, 0, 1), 1), eye).paths
            self.assertEqual(path[0], path[-1])

    def test_an_outline_on_the_surface_would_be_struck(self):
        struck = 0
        with mock.patch.object(outlines, "off", lambda r, points: r):
            for eye in self.EYES:
                paths = self.drawn(lambda s: s.sphere((0, 0, 1), 1), eye).paths
                struck += len(paths) != 1 or paths[0][0] != paths[0][-1]
        self.assertEqual(struck, len(self.EYES))

    def test_a_tube_hides_nothing_of_its_edges(self):
        for eye in self.EYES:
            view = Camera(eye, (0, 0, 1), width=1200, height=800, step=4).view()
            made = Scene()
            made.cylinder(1, 0, 2)
            paths = made.draw(view).paths
            for line in outlines.Outliner(view, matrices.IDENTITY, False).cylinder(made.parts[0].solid)[2:]:
                ends = [view.spot(p) for p in line]
                whole = [path for path in paths if all(min(math.dist(end, p[:2]) for p in (path[0], path[-1])) < 1e-6 for end in ends)]
                self.assertEqual(len(whole), 1, eye)

    def test_a_cone_hides_nothing_of_its_edges(self):
        for eye in self.EYES:
            view = Camera(eye, (0, 0, 1), width=1200, height=800, step=4).view()
            made = Scene()
            made.cone(1, 2, rim=False)
            lines = made.slices(view).starts
            self.assertEqual(len(made.draw(view).paths), len(lines))

    def test_rims_are_whole_where_nothing_stands_before_them(self):
        for eye in self.EYES:
            below = (eye[0], eye[1], -eye[2])
            for build in (lambda s: s.cone(1, 2), lambda s: s.cylinder(1, 0, 0.5)):
                closed = [path for path in self.drawn(build, below).paths if path[0] == path[-1]]
                self.assertEqual(len(closed), 1, below)

    def test_an_eye_inside_sees_no_outline_of_a_ball(self):
        self.assertEqual(self.drawn(lambda s: s.sphere((0, 0, 1), 20), (1, 1, 1)).paths, [])

    def test_a_ring_has_three_points(self):
        with self.assertRaisesRegex(ValueError, "3 points or more, not 2"):
            self.drawn(lambda s: s.sphere((0, 0, 1), 1, points=2), (9, 0, 1))

    def test_rings_of_a_cut_are_kept_by_it(self):
        """The rim of a tube from which a box is cut far below: the whole near half of it is drawn."""
        def build(made):
            made.cut(DIFFERENCE, Cylinder(1000.0, 0.0, 2000.0), Cube((-200.0, -2000.0, 500.0), (200.0, 2000.0, 900.0)))

        made = Scene()
        build(made)
        view = Camera((3000, -5000, 4000), (0, 0, 1000), step=4).view()
        paths = made.draw(view).paths
        rim = [view.spot((1000 * math.cos(t), 1000 * math.sin(t), 2000)) for t in (2 * math.pi * k / 90 for k in range(90))]
        on_rim = [min(math.dist(spot, p[:2]) for path in paths for p in path) for spot in rim]
        self.assertLess(max(on_rim), 8)


class Rings(unittest.TestCase):
    """Handed-in lines that are made as fine as the step."""

    VIEW = Camera((0, -9000, 3000), (0, 0, 2500), step=1).view()

    def rounded(self, line, view=VIEW):
        return outlines.Outliner(view, matrices.IDENTITY, False).rounded(tuple(map(matrices.vector, line)))

    def test_the_points_in_between_lie_on_the_circle_and_as_near_as_the_step(self):
        for parts in (12, 36, 61):
            for share in (1.0, 0.25):
                turns = [2 * math.pi * share * k / parts for k in range(parts + 1)]
                line = [(900 * math.cos(t) - 30, -200.0, 900 * math.sin(t) + 2500) for t in turns]
                made = self.rounded(line)
                self.assertEqual([p for p in made if p in line], line)
                self.assertTrue(all(p[1] == -200 and abs(math.dist(p, (-30, -200, 2500)) - 900) < 1e-9 for p in made))
                spots = [self.VIEW.spot(p) for p in made]
                self.assertLessEqual(max(math.dist(a, b) for a, b in zip(spots, spots[1:])), 1.0)

    def test_rings_of_whole_millimetres_stay_off_the_surface(self):
        ring = [(round(237.5 * math.cos(t)), round(237.5 * math.sin(t)), 2500.0) for t in (math.pi * k / 8 for k in range(17))]
        made = self.rounded(ring)
        self.assertGreater(len(made), 100)
        self.assertGreater(min(math.hypot(x, y) for x, y, _ in made), 235)

    def test_what_is_no_ring_stays_as_it_is(self):
        lines = {
            "two points": [(0, 0, 0), (0, 0, 900)],
            "straight": [(0, 0, 30 * k) for k in range(9)],
            "a corner": [(0, -900, 0), (0, 0, 0), (900, 0, 0)],
            "a square": [(0, 0, 0), (900, 0, 0), (900, 0, 900), (0, 0, 900), (0, 0, 0)],
            "a spiral": [(9 * t * math.cos(t), 0, 9 * t * math.sin(t)) for t in (0.2 * k for k in range(60))],
            "a point twice": [(900, 0, 0), (900, 0, 0), (880, 0, 100)],
            "no number": [(900, 0, 0), (880, 0, math.nan), (860, 0, 100)],
            "nothing": [],
        }
        for name, line in lines.items():
            with self.subTest(name):
                self.assertEqual(list(map(str, self.rounded(line))), [str(matrices.vector(p)) for p in line])
        ring = [(900 * math.cos(t), 0, 900 * math.sin(t)) for t in (math.pi * k / 18 for k in range(37))]
        self.assertEqual(len(self.rounded(ring, Camera((0, -9000, 0), (0, 0, 0), step=0).view())), 37)

    def test_lines_that_were_made_for_an_eye_are_told_from_others(self):
        """Those of the host's outlines: rings and slopes are nobody's; of those in which a solid turns away each is one eye's."""
        for eye, other in (((30.0, -40.0, 9.0), (-35.0, -20.0, 9.0)), ((-4.0, 9.0, 2.0), (9.0, 3.0, 1.0))):
            view = Camera(eye, (0, 0, 1)).view()
            for in_cut in (False, True):
                made = outlines.Outliner(view, matrices.IDENTITY, in_cut)
                for solid, turning in ((Sphere((0.0, 0.0, 1.0), 1.0), 1), (Cylinder(1.0, 0.0, 2.0, rings=(1.0,)), 2), (Cone(1.0, 1.5, slopes=5), 2)):
                    with self.subTest(eye=eye, solid=type(solid).__name__, in_cut=in_cut):
                        lines = made.lines(solid)
                        self.assertEqual(sum(outlines.for_eye(solid, line, eye) for line in lines), turning)
                        self.assertEqual(sum(outlines.for_eye(solid, line, other) for line in made.turning(solid)), 0)

    def test_turned_lines_have_the_outline_of_each_eye(self):
        ring = outlines.level(1.01, 2.0, 36)
        solid = Cylinder(1.0, 0.0, 2.0, lines=larnt.Turned([tuple(ring)]))
        for eye in ((30, -40, 9), (-35, -20, 9)):
            made = outlines.Outliner(Camera(eye, (0, 0, 1), step=100).view(), matrices.IDENTITY, False).lines(solid)
            self.assertEqual((len(made), made[0]), (3, tuple(ring)))
            self.assertTrue(all(outlines.for_eye(solid, line, matrices.vector(eye)) for line in made[1:]))
            self.assertTrue(all(abs(math.hypot(*p[:2]) - 1.01) < 1e-12 for line in made[1:] for p in line))

    def test_a_cut_keeps_the_rim_of_a_hole_at_any_step(self):
        """A ball taken out of a wall: the circle in which they meet has 32 points, which are too few for the step."""
        rim = [(math.sqrt(900**2 - 200**2) * math.cos(t), -200.0, math.sqrt(900**2 - 200**2) * math.sin(t) + 2500) for t in (math.pi * k / 16 for k in range(33))]
        closed = {}
        for kind in (tuple, larnt.Rounded):
            made = Scene()
            ball = made.sphere((0, 0, 2500), 900, lines=kind([rim]))
            made.cut(DIFFERENCE, made.cube((-3000, -200, 0), (3000, 200, 5000)), ball)
            closed[kind] = [path for path in made.draw(self.VIEW).paths if path[0] == path[-1] and len(path) > 100]
        self.assertEqual((len(closed[tuple]), len(closed[larnt.Rounded])), (0, 1))


if __name__ == "__main__":
    unittest.main()
