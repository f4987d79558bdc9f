"""The outlines of round solids that the host makes: off the surface, where the core's own lie in it.

An outline stands off its surface a little. The core tests points: a point of an outline that lies on the surface, or
under it where a chord of a ring cuts the corner, is hidden by the very solid whose outline it is, wherever rounding
puts the wall between it and the eye. So a ring is as much wider as makes its chords clear the wall too, and by OFF of
the radius more: by a 500th of it in all with the 72 points of a default ring. (A solid that reaches to the core's
limit of 1,000,000 meets refusal 9 by an outline that stands off.)

Within a cut lines must lie on the surface: a cut keeps a line only where it is within a thousandth of the cut. There
the rings are exact, and have so many points that no chord is longer than the step on the sheet: a longer one is
halved by the core, and its middle lies off the surface. The edges stand a little on this side of where the wall
turns away.

Rings that a text hands in were made for one step. At a finer one the core halves their chords, and the middles lie
beside the surface: a cut loses them, and a wall or a base may hide them. `Rounded` lines are made finer here first: the
points in between lie on the ring's own circle, so on the same surface, or as far off it as the ring's own points.

Of a text's lines some were made for one eye too: those in which a solid turns away from it. `for_eye` tells them by the
surface, which each look grazes there, so that they can be left out; to `Turned` lines those of another eye are added.
"""
from __future__ import annotations

import functools
import math
from typing import List, Optional, Sequence, Tuple, Union

from . import matrices
from .camera import View
from .matrices import Matrix, Vector
from .solids import Cone, Cylinder, Lines, Rounded, Sphere, Turned

OFF = 0.001  # how far off the surface, in radii
TURNED = 0.01  # how far on this side an edge of a cut's part stands, in radians
FINEST = 6144  # the most points of a ring in a cut
SHARPEST = 0.85  # the cosine of the sharpest turn within a ring: 12 points make one, a corner does not
LOOSE = 0.01  # how far from its circle a point of a ring may be, in radii: texts have whole millimetres
HALVINGS = 8  # of a chord that is made round, at most
GRAZING = 0.012  # the cosine, at most, between a look and the surface's normal where it turns away; TURNED is within it

Line = List[Vector]
Spot = Optional[Tuple[float, float]]  # on the sheet; None behind the eye
End = Tuple[Vector, Spot]


@functools.lru_cache(maxsize=256)
def turns(points: int) -> List[Tuple[float, float]]:
    """Cosine and sine of each of so many angles, evenly spread."""
    angles = [2 * math.pi * k / points for k in range(points)]
    return [(math.cos(t), math.sin(t)) for t in angles]


def circle(centre: Sequence[float], u: Sequence[float], v: Sequence[float], r: float, points: int) -> Line:
    """About a centre, by two directions of length 1; its first point comes again."""
    ring = [matrices.along(matrices.along(centre, u, r * c), v, r * s) for c, s in turns(points)]
    return ring + ring[:1]


@functools.lru_cache(maxsize=4096)
def level(r: float, z: float, points: int) -> Line:
    """A ring about the Z axis. No eye changes it, so a yard that is turned makes it once."""
    return circle((0, 0, z), (1, 0, 0), (0, 1, 0), r, points)


def off(r: float, points: int) -> float:
    """The radius of a ring whose chords clear the surface too."""
    return r / math.cos(math.pi / points) + OFF * r


def chord(ring: Line, world: Matrix, view: View) -> float:
    """The longest piece of a ring on the sheet; what is behind the eye has none."""
    spots = [view.spot(matrices.placed(world, p)) for p in ring]
    return max((math.dist(a, b) for a, b in zip(spots, spots[1:]) if a and b), default=0.0)


@functools.lru_cache(maxsize=4096)
def centre(line: Tuple[Vector, ...]) -> Optional[Vector]:
    """The centre of the circle that a line's points lie on, where it bends as one; None of what is straight or has
    corners."""
    chords = [matrices.minus(b, a) for a, b in zip(line, line[1:])]
    lengths = [matrices.length(chord) for chord in chords]
    if len(chords) < 2 or not all(0 < length < math.inf for length in lengths):
        return None
    if any(matrices.dot(a, b) < SHARPEST * m * n for a, b, m, n in zip(chords, chords[1:], lengths, lengths[1:])):
        return None
    third = max(1, len(chords) // 3)
    found = through(line[0], line[third], line[2 * third])
    if found is None:
        return None
    radius = matrices.distance(line[0], found)
    return found if all(abs(matrices.distance(p, found) - radius) <= LOOSE * radius for p in line) else None


def normal(solid: Union[Sphere, Cylinder, Cone], p: Vector, widest: Vector) -> Vector:
    """Where the surface faces at a point of a line; a cone's apex faces as the line's widest point does."""
    if isinstance(solid, Sphere):
        return matrices.minus(p, solid.centre)
    if isinstance(solid, Cylinder):
        return (p[0], p[1], 0.0)
    x, y, _ = p if math.hypot(*p[:2]) > OFF * solid.radius else widest
    return (x, y, solid.radius * math.hypot(x, y) / solid.height) if solid.height > 0 else (x, y, 0.0)


def for_eye(solid: Union[Sphere, Cylinder, Cone], line: Sequence[Vector], eye: Vector) -> bool:
    """Whether a handed-in line is one in which a solid turns away from an eye, in the solid's coordinates: each look at it
    grazes the surface."""
    widest = max(line, key=lambda p: math.hypot(*p[:2]), default=eye)
    for p in line:
        facing, look = normal(solid, p, widest), matrices.minus(p, eye)
        if not abs(matrices.dot(facing, look)) <= GRAZING * matrices.length(facing) * matrices.length(look):
            return False
    return len(line) > 1


def through(a: Vector, b: Vector, c: Vector) -> Optional[Vector]:
    """The centre of the circle through three points; None where they lie on a straight line."""
    u, v = matrices.minus(a, c), matrices.minus(b, c)
    normal = matrices.cross(u, v)
    square = matrices.dot(normal, normal)
    if not square > 1e-12 * matrices.dot(u, u) * matrices.dot(v, v):
        return None
    across = matrices.cross([matrices.dot(u, u) * y - matrices.dot(v, v) * x for x, y in zip(u, v)], normal)
    return matrices.along(c, across, 1 / (2 * square))


def longer(a: Spot, b: Spot, step: float) -> bool:
    """Whether a chord is longer than the step on the sheet; what is behind the eye is not."""
    if a is None or b is None:
        return False
    x, y = a[0] - b[0], a[1] - b[1]
    return x * x + y * y > step * step


class Outliner:
    """Makes the lines of round solids as a view sees them, where `world` takes a solid's coordinates to the scene's."""

    def __init__(self, view: View, world: Matrix, in_cut: bool, rounds: bool = True) -> None:
        """Without `rounds` handed-in lines stand as they are, in frames of a yard that moves."""
        self.view, self.world, self.in_cut, self.rounds = view, world, in_cut, rounds
        try:
            self.eye: Optional[Vector] = matrices.placed(matrices.inverse(world), view.eye)
        except ValueError:  # the core will refuse the placing
            self.eye = None

    def ring(self, centre: Sequence[float], u: Sequence[float], v: Sequence[float], r: float, points: int) -> Line:
        made = circle(centre, u, v, r if self.in_cut else off(r, points), points)
        while self.in_cut and self.view.step > 0 and len(made) <= FINEST and chord(made, self.world, self.view) > self.view.step:
            points *= 2
            made = circle(centre, u, v, r, points)
        return made

    def level(self, r: float, z: float, points: int) -> Line:
        return self.ring((0, 0, z), (1, 0, 0), (0, 1, 0), r, points) if self.in_cut else level(off(r, points), z, points)

    def edges(self, cosine: float) -> List[float]:
        """The angles at which a wall turns away from the eye; none where all of it, or nothing, is turned to it."""
        if self.eye is None or not abs(cosine) <= 1:
            return []
        middle, half = math.atan2(self.eye[1], self.eye[0]), math.acos(cosine)
        half = max(0.0, half - TURNED) if self.in_cut else half
        return [middle - half, middle + half]

    def sphere(self, solid: Sphere) -> List[Line]:
        """The circle in which the ball turns away from the eye; none where the eye is in it."""
        if self.eye is None:
            return []
        r = solid.radius if self.in_cut else off(solid.radius, solid.points)
        to = matrices.minus(solid.centre, self.eye)
        far = matrices.length(to)
        if not far > r:
            return []
        w, sine = matrices.unit(to), r / far
        cosine = math.sqrt(1 - sine * sine)
        u = matrices.unit(matrices.cross(w, (0, 0, 1) if abs(w[2]) < 0.9 else (1, 0, 0)))
        centre = matrices.along(self.eye, w, cosine * cosine * far)
        if self.in_cut:
            return [self.ring(centre, u, matrices.cross(w, u), cosine * r, 3 * solid.points)]
        return [circle(centre, u, matrices.cross(w, u), cosine * r, solid.points)]

    def out(self, solid: Union[Cylinder, Cone]) -> float:
        """How far from the axis the lines of a wall stand: as those do that were handed in."""
        handed = solid.lines.out if isinstance(solid.lines, Turned) else 0.0
        return solid.radius if self.in_cut else handed or off(solid.radius, solid.points)

    def uprights(self, solid: Cylinder) -> List[Line]:
        """The lines in which a tube turns away from the eye."""
        far, out = math.hypot(*self.eye[:2]) if self.eye else 0.0, self.out(solid)
        turns = self.edges(solid.radius / far if far > 0 else 2.0)
        return [[(out * math.cos(t), out * math.sin(t), z) for z in (solid.low, solid.high)] for t in turns]

    def cylinder(self, solid: Cylinder) -> List[Line]:
        return [self.level(solid.radius, z, solid.points) for z in (solid.low, *solid.rings, solid.high)] + self.uprights(solid)

    def lift(self, solid: Cone) -> float:
        return 0.0 if self.in_cut else OFF * solid.radius

    def slopes(self, solid: Cone, turns: Sequence[float]) -> List[Line]:
        """Lines of a cone from its base to its apex, at these angles."""
        out, top = self.out(solid), solid.height + 2 * self.lift(solid)
        return [[(out * math.cos(t), out * math.sin(t), 0.0), (0.0, 0.0, top)] for t in turns]

    def sides(self, solid: Cone) -> List[Line]:
        """The lines in which a cone turns away from the eye."""
        r, h, far = solid.radius, solid.height, math.hypot(*self.eye[:2]) if self.eye else 0.0
        return self.slopes(solid, self.edges(r * (h - self.eye[2]) / (h * far) if self.eye and far > 0 and h > 0 else 2.0))

    def cone(self, solid: Cone) -> List[Line]:
        below = self.eye is not None and self.eye[2] < 0  # the rim stands off on the eye's side of the base
        up = self.lift(solid)
        rim = [self.level(solid.radius, -up if below else up, solid.points)] if solid.rim else []
        return rim + self.sides(solid) + self.slopes(solid, [2 * math.pi * (k + 0.5) / solid.slopes for k in range(solid.slopes)])

    def turning(self, solid: Union[Sphere, Cylinder, Cone]) -> List[Line]:
        """The lines in which a solid turns away from the eye, and no others."""
        if isinstance(solid, Sphere):
            return self.sphere(solid)
        return self.uprights(solid) if isinstance(solid, Cylinder) else self.sides(solid)

    def rounded(self, line: Tuple[Vector, ...]) -> Tuple[Vector, ...]:
        """A ring or a part of one as fine as the step; any other line as it stands."""
        about = centre(line) if self.rounds and self.view.step > 0 else None
        if about is None:
            return line
        ends = [(p, self.view.spot(matrices.placed(self.world, p))) for p in line]
        made = [line[0]]
        for a, b in zip(ends, ends[1:]):
            self.halved(a, b, about, HALVINGS, made)
        return tuple(made)

    def halved(self, a: End, b: End, about: Vector, left: int, made: Line) -> None:
        """Adds what leads from a to b, both on a circle about a centre, in chords no longer than the step."""
        if left and longer(a[1], b[1], self.view.step):
            half = matrices.along(a[0], matrices.minus(b[0], a[0]), 0.5)
            out = matrices.minus(half, about)
            radius = (matrices.distance(a[0], about) + matrices.distance(b[0], about)) / 2
            middle = matrices.along(half, out, radius / matrices.length(out) - 1)
            end = (middle, self.view.spot(matrices.placed(self.world, middle)))
            self.halved(a, end, about, left - 1, made)
            self.halved(end, b, about, left - 1, made)
        else:
            made.append(b[0])

    def lines(self, solid: Union[Sphere, Cylinder, Cone]) -> Lines:
        """Those that were handed in, or the outline."""
        if isinstance(solid.lines, Rounded):
            more = self.turning(solid) if isinstance(solid.lines, Turned) and solid.radius > 0 else []
            return (*map(self.rounded, solid.lines), *map(tuple, more))
        if solid.lines is not None:
            return solid.lines
        if solid.points < 3:
            raise ValueError(f"a ring has 3 points or more, not {solid.points}")
        if not solid.radius > 0 or not math.isfinite(solid.radius):  # nothing to draw, or for the core to refuse
            return ()
        if isinstance(solid, Sphere):
            made = self.sphere(solid)
        else:
            made = self.cylinder(solid) if isinstance(solid, Cylinder) else self.cone(solid)
        return tuple(map(tuple, made))
