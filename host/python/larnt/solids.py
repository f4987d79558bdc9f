"""The solids of a scene, one class a kind. Each is a value: what places or cuts it makes a new one.

`lines` of a round solid are handed to the core as they stand, in its own coordinates; None, the default, has the
host make its outline as the eye sees it (outlines.py), a little off the surface. BY_CORE leaves it to the core, whose
outlines lie in the surface, where the solid may hide parts of them; NO_LINES is none at all; `Rounded` lines are made as
fine as the step, and `Turned` ones have outlines added. `source` is where a solid stands in a text (line and column from 1).
"""
from __future__ import annotations

import functools
import math
import operator
from dataclasses import dataclass, field, replace
from enum import IntEnum
from typing import Callable, Optional, Sequence, Tuple, Union

from . import matrices
from .matrices import Matrix, Vector

POINTS = 72  # of a ring

Lines = Tuple[Tuple[Vector, ...], ...]
Source = Optional[Tuple[int, int]]

BY_CORE: Lines = ()
NO_LINES: Lines = ((),)  # a line without points


class Rounded(tuple):
    """Handed-in lines whose rings are round: where one bends as a circle does, points are put in between, on that
    circle, until its chords are no longer than the step of the view (outlines.py)."""


class Turned(Rounded):
    """The same, to which the host adds the lines in which the solid turns away from the eye: what was handed in has none
    of them (outlines.py)."""

    @functools.cached_property
    def out(self) -> float:
        """How far from the Z axis they reach."""
        return max((math.hypot(p[0], p[1]) for line in self for p in line), default=0.0)


class Operation(IntEnum):
    """What a cut leaves. The first two answer a ray as larnt's Rust does, by the t of the last ray; the others by
    the true distance, so that a cut behind the viewer hides nothing that stands clear."""

    LAST_RAY_INTERSECTION = 0
    LAST_RAY_DIFFERENCE = 1
    INTERSECTION = 2
    DIFFERENCE = 3


INTERSECTION, DIFFERENCE = Operation.INTERSECTION, Operation.DIFFERENCE


def hand_in(lines: Optional[Sequence[Sequence[Sequence[float]]]]) -> Optional[Lines]:
    if lines is None:
        return None
    made = tuple(tuple(matrices.vector(p) for p in line) for line in lines)
    return type(lines)(made) if isinstance(lines, Rounded) else made


@dataclass(frozen=True)
class Sphere:
    """A ball. `points` is how many its outline has."""

    centre: Vector
    radius: float
    lines: Optional[Lines] = None
    points: int = POINTS
    source: Source = field(default=None, compare=False)


@dataclass(frozen=True)
class Cylinder:
    """A tube about its Z axis from `low` to `high`, without ends unless `closed`.

    The core draws `stripes` upright lines, evenly spread. The outline has both rims, more `rings` at these heights,
    and the two edges where the wall turns away from the eye; a ring has `points` points.
    """

    radius: float
    low: float
    high: float
    stripes: int = 0
    closed: bool = False
    lines: Optional[Lines] = None
    points: int = POINTS
    rings: Tuple[float, ...] = ()
    source: Source = field(default=None, compare=False)


@dataclass(frozen=True)
class Cone:
    """A cone about its Z axis, its base at 0 and its apex at `height`, without a base disc unless `closed`.

    The core draws `stripes` lines to the apex. The outline has the rim, unless it is told not to, the two edges where
    the wall turns away from the eye, and `slopes` lines to the apex more.
    """

    radius: float
    height: float
    stripes: int = 0
    closed: bool = False
    lines: Optional[Lines] = None
    points: int = POINTS
    slopes: int = 0
    rim: bool = True
    source: Source = field(default=None, compare=False)


@dataclass(frozen=True)
class Cube:
    """A box from its least corner to its greatest; 1 stripe draws its edges, more draw lines on its sides."""

    low: Vector
    high: Vector
    stripes: int = 1
    source: Source = field(default=None, compare=False)


@dataclass(frozen=True)
class Triangle:
    """By its three corners."""

    a: Vector
    b: Vector
    c: Vector
    source: Source = field(default=None, compare=False)


@dataclass(frozen=True)
class Placed:
    """A part that a matrix takes to its place; the last row is (0, 0, 0, 1)."""

    matrix: Matrix
    part: "Solid"
    source: Source = field(default=None, compare=False)


@dataclass(frozen=True)
class Cut:
    """What an operation leaves of two parts. Its lines are those of the parts, where they lie on the cut."""

    operation: int
    first: "Solid"
    second: "Solid"
    source: Source = field(default=None, compare=False)


Solid = Union[Sphere, Cylinder, Cone, Cube, Triangle, Placed, Cut]
Round = (Sphere, Cylinder, Cone)

KINDS = {Sphere: 1, Cylinder: 2, Cone: 3, Cube: 4, Triangle: 5, Placed: 6, Cut: 7}
CLOSED = {Cylinder: 8, Cone: 9}


def kind(solid: Solid) -> int:
    return CLOSED[type(solid)] if getattr(solid, "closed", False) else KINDS[type(solid)]


def detail(solid: Solid) -> int:
    """The stripe count, or the cut's operation: a whole number, not what int() would make one of."""
    return int(operator.index(solid.operation if isinstance(solid, Cut) else getattr(solid, "stripes", 0)))


def measures(solid: Solid) -> list[float]:
    """The used ones of an entry's sixteen numbers."""
    if isinstance(solid, Sphere):
        return [*solid.centre, solid.radius]
    if isinstance(solid, Cylinder):
        return [solid.radius, solid.low, solid.high]
    if isinstance(solid, Cone):
        return [solid.radius, solid.height]
    if isinstance(solid, Cube):
        return [*solid.low, *solid.high]
    if isinstance(solid, Triangle):
        return [*solid.a, *solid.b, *solid.c]
    return matrices.flat(solid.matrix) if isinstance(solid, Placed) else []


def parts(solid: Solid) -> list[Solid]:
    """Those that it names, in order."""
    if isinstance(solid, Placed):
        return [solid.part]
    return [solid.first, solid.second] if isinstance(solid, Cut) else []


def changed(solid: Solid, change: Callable[[Solid], Solid]) -> Solid:
    """The solid with each round one in it changed."""
    if isinstance(solid, Placed):
        return replace(solid, part=changed(solid.part, change))
    if isinstance(solid, Cut):
        return replace(solid, first=changed(solid.first, change), second=changed(solid.second, change))
    return change(solid) if isinstance(solid, Round) else solid


def true_distance(solid: Solid) -> Solid:
    """The same solid with each cut in it told by the true distance."""
    if isinstance(solid, Placed):
        return replace(solid, part=true_distance(solid.part))
    if isinstance(solid, Cut):
        operation = {0: INTERSECTION, 1: DIFFERENCE}.get(solid.operation, solid.operation)
        return replace(solid, operation=operation, first=true_distance(solid.first), second=true_distance(solid.second))
    return solid


def described(solid: Solid) -> str:
    """In a few words: "placed closed cylinder"."""
    word = ("closed " if getattr(solid, "closed", False) else "") + type(solid).__name__.lower()
    inner = [described(part) for part in parts(solid)]
    return f"{word} {' and '.join(inner)}" if inner else word


def pipe(
    start: Sequence[float], end: Sequence[float], radius: float, *, stripes: int = 0, closed: bool = False, points: int = POINTS // 2
) -> Placed:
    """A tube from one point to another."""
    far = matrices.length(matrices.minus(end, start))
    return Placed(matrices.towards(start, end), Cylinder(float(radius), 0.0, far, stripes, closed, points=points))
