"""What a click on a sheet is told: which part hides the line that is missing there.

A draw answers the lines that are seen. Here the host lays out all of them, hidden or not, finds those that pass near a
spot of the sheet, and asks the library of the nearest point of each which part hides it.
"""
from __future__ import annotations

import math
from ctypes import byref, c_bool, c_double, c_size_t
from dataclasses import dataclass
from typing import Dict, Iterator, List, Optional, Sequence, Tuple

from . import library, matrices
from .camera import View
from .matrices import Matrix, Vector
from .refusals import Refused
from .scene import Part, Scene, Slices, rows_of, slots
from .solids import Cone, Cube, Cut, Cylinder, Placed, Round, Solid, Triangle, detail, parts, true_distance

Spot = Tuple[float, float]
OUTLINE = 4096  # more points than an outline of the core has: two rings of 1,025, and two lines


@dataclass(frozen=True)
class Told:
    """`line` is the part whose line passes near the spot, `point` the place on it that was asked about, and `spot` where
    that stands on the sheet; `by` is the part that hides it there, or None where it is seen."""

    line: Part
    point: Vector
    spot: Spot
    by: Optional[Part]


@dataclass(frozen=True)
class Near:
    """A place on a line of an entry, so far on the sheet from the spot that is asked about."""

    far: float
    entry: int
    point: Vector
    spot: Spot


def own_lines(solid: Solid) -> Iterator[List[Vector]]:
    """The lines that the core makes of a solid itself: the stripes of tubes, cones and boxes, a triangle's edges."""
    if isinstance(solid, Triangle):
        yield [solid.a, solid.b, solid.c, solid.a]
    if isinstance(solid, (Cylinder, Cone)) and solid.stripes:
        for degrees in range(0, 360, max(1, 360 // solid.stripes)):
            x, y = (solid.radius * turn(math.radians(degrees)) for turn in (math.cos, math.sin))
            yield [(x, y, solid.low), (x, y, solid.high)] if isinstance(solid, Cylinder) else [(x, y, 0.0), (0.0, 0.0, solid.height)]
    if isinstance(solid, Cube):
        yield from cube_lines(solid)


def cube_lines(cube: Cube) -> Iterator[List[Vector]]:
    """Upright lines on the four sides, and two on the floor and the roof, for each stripe and at the end."""
    (ax, ay, az), (bx, by, bz) = cube.low, cube.high
    for k in range(cube.stripes + 1):
        share = k / cube.stripes
        x, y, u, v = ax + (bx - ax) * share, ay + (by - ay) * share, bx - (bx - ax) * share, by - (by - ay) * share
        if k < cube.stripes:
            for p, q in ((x, ay), (u, by), (ax, v), (bx, y)):
                yield [(p, q, az), (p, q, bz)]
        for z in (az, bz):
            yield [(x, y, z), (u, y, z)]
            yield [(x, y, z), (x, v, z)]


def placings(made: Slices) -> List[List[Matrix]]:
    """Of each entry the matrices of the placings around it, innermost first."""
    around: List[List[Matrix]] = [[] for _ in made.entries]
    for entry, solid in reversed(list(enumerate(made.entries))):  # parts are earlier
        inner = [solid.matrix, *around[entry]] if isinstance(solid, Placed) else around[entry]
        for k, _ in enumerate(parts(solid)):
            around[made.marks[4 * entry + 2 + k]] = inner
    return around


def core_outline(made: Slices, entry: int, around: List[Matrix], view: View) -> List[List[Vector]]:
    """The outline that a draw makes of a round solid with neither lines nor stripes, within these placings."""
    eye = view.eye
    try:
        for matrix in reversed(around):
            eye = matrices.placed(matrices.inverse(matrix), eye)
    except ValueError:  # a placing that Python finds no inverse of
        return []
    out, begins, points, paths = slots(c_double, 3 * OUTLINE), slots(c_size_t, OUTLINE), c_size_t(), c_size_t()
    solid, flat = made.numbers[16 * entry : 16 * entry + 16], [x for matrix in around for x in matrices.flat(matrix)]
    asked = [*map(library.numbers, (solid, eye, flat)), len(flat), library.numbers(view.numbers())]
    library.host().larnt_outline(made.marks[4 * entry], *asked, *out, *begins, byref(points), byref(paths))
    return rows_of(out[0][: 3 * points.value], begins[0][: paths.value])


def every_line(made: Slices, view: View) -> Iterator[Tuple[int, List[Vector]]]:
    """Each line, hidden or not, with its entry, in the entry's coordinates."""
    yield from zip(made.owners, rows_of(made.points, made.starts))
    lined, around = set(made.owners), placings(made)
    for entry, solid in enumerate(made.entries):
        yield from ((entry, line) for line in own_lines(solid))
        if isinstance(solid, Round) and entry not in lined and not detail(solid):
            yield from ((entry, line) for line in core_outline(made, entry, around[entry], view))


def passing(made: Slices, view: View, at: Spot, within: float) -> Iterator[Near]:
    """Of each piece of a line that passes a spot of the sheet no farther than `within` the nearest place."""
    worlds = {id(world): matrices.product(view.matrix, world) for world in made.worlds}
    for entry, line in every_line(made, view):
        clipped = [matrices.projected(worlds[id(made.worlds[entry])], p) for p in line]
        spots = [((x / w + 1) * view.width / 2, (y / w + 1) * view.height / 2) if w > 0 else None for x, y, _, w in clipped]
        for k, (a, b) in enumerate(zip(spots, spots[1:])):
            if a and b:  # no part of it is behind the eye
                share, far = nearest(a, b, at)
                if far <= within:
                    before, behind = clipped[k][3], clipped[k + 1][3]
                    along = share * before / (behind - share * (behind - before))  # half of it on the sheet is not half of the way
                    point = matrices.along(line[k], matrices.minus(line[k + 1], line[k]), along)
                    yield Near(far, entry, matrices.placed(made.worlds[entry], point), (a[0] + share * (b[0] - a[0]), a[1] + share * (b[1] - a[1])))


def nearest(a: Spot, b: Spot, at: Spot) -> Tuple[float, float]:
    """Where between two spots a third is nearest, as a share of the way, and how far that is."""
    x, y = b[0] - a[0], b[1] - a[1]
    long = x * x + y * y
    share = min(1.0, max(0.0, ((at[0] - a[0]) * x + (at[1] - a[1]) * y) / long)) if long else 0.0
    return share, math.hypot(a[0] + share * x - at[0], a[1] + share * y - at[1])


def above(made: Slices) -> Dict[int, int]:
    """The entry that names an entry as its part."""
    return {made.marks[4 * e + 2 + k]: e for e, solid in enumerate(made.entries) for k in range(len(parts(solid)))}


def kept(made: Slices, scene: Sequence[object], upper: Dict[int, int], near: Near) -> bool:
    """Whether each cut that the line's entry is a part of has the line there: a cut draws those alone that lie on it."""
    entry = near.entry
    while entry in upper:
        entry = upper[entry]
        if isinstance(made.entries[entry], Cut):
            inside = c_bool()
            own = matrices.placed(matrices.inverse(made.worlds[entry]), near.point)
            if library.host().larnt_own_contains(*scene, entry, library.numbers(own), 0.0, byref(inside)) or not inside.value:
                return False
    return True


def look(scene: Scene, eye: Sequence[float], point: Sequence[float]) -> Optional[Tuple[Part, Vector]]:
    """What a look meets first, as the scene answers it; None too where the look has a refusal of its own: it may need
    more restarts in a cut than there are."""
    try:
        return scene.first_met(eye, point)
    except Refused as refusal:
        if refusal.number in (11, 12):
            return None
        raise


def first_met(scene: Scene, eye: Sequence[float], point: Sequence[float]) -> Optional[Part]:
    """The part that a look meets first, by true distances: those of the Rust's cuts are too short for a look."""
    met = look(Scene([true_distance(part.solid) for part in scene.parts]), eye, point)
    return scene.parts[met[0].number - 1] if met else None


def told(scene: Scene, view: View, at: Spot, within: float) -> Optional[Told]:
    """Of the lines that pass a spot of the sheet no farther than `within`, the nearest that a part hides; where none is
    hidden, the nearest that is seen; else None. Of lines about as near to the spot the one nearest to the eye counts."""
    made = scene.lined(view)
    handed, upper = made.arguments(), above(made)
    by_far = sorted(passing(made, view, at, within), key=lambda near: (round(near.far / within * 8), math.dist(near.point, view.eye)))
    lines = [near for near in by_far if kept(made, handed, upper, near)]
    if not lines:
        return None
    answers = scene.told(view.eye, [near.point for near in lines])
    near = next((near for near, answer in zip(lines, answers) if answer == 2), lines[0])
    part = next(part for entry, part in made.drawn.items() if entry >= near.entry)  # parts come before what names them
    return Told(part, near.point, near.spot, scene.why_hidden(view.eye, near.point))
