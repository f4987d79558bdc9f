"""Where a refusal comes from. The library answers a number alone; which entry it is of is found by asking it again,
entry by entry, and what is wrong there is told in words."""
from __future__ import annotations

import math
from ctypes import byref, c_double, c_size_t, c_uint32
from typing import TYPE_CHECKING, Iterable, Iterator, Optional, Tuple

from . import library, matrices, solids
from .camera import View
from .refusals import Refused
from .solids import Cone, Cube, Cut, Cylinder, Placed, Solid, Sphere

if TYPE_CHECKING:
    from .scene import Slices

MOST = 1_000_000.0


def refused(number: int, made: "Slices", view: Optional[View] = None, threshold: Optional[float] = None, most: Optional[int] = None) -> Refused:
    """The refusal of a call on a scene, with what can be found of its cause."""
    if number == 8 and view is not None:
        return Refused(8, next(view_troubles(view, threshold), None))
    if number == 13:
        return Refused(13, f"the drawing does not fit into room for {most:,} points: take a longer step, or allow more" if most else None)
    if number == 12:
        return Refused(12, "the solids lie in one another so deep that the search through them runs out of places; no single form is at fault")
    entry = culprit(number, made, view)
    if entry is None:
        return Refused(number)
    solid = made.entries[entry]
    wrong = next(troubles(number, solid), None)
    line, column = solid.source or (None, None)
    part = next(part for e, part in made.drawn.items() if e >= entry)  # parts come before what names them
    return Refused(number, wrong, line=line, column=column, part=part.title())


def culprit(number: int, made: "Slices", view: Optional[View]) -> Optional[int]:
    """The first entry that is refused with this number by itself; None where that is no entry's own."""
    if number == 2:
        return library.ENTRIES if len(made.entries) > library.ENTRIES else None
    if number == 9 and view is not None:
        return next((made.owners[k] for k in range(len(made.starts)) if far_off(made, k)), None)
    if number == 11 and view is not None:
        return next((e for e in made.drawn if alone_refused(made, e, view)), None)
    if number in (3, 4, 5, 6, 7, 14):
        return next((e for e, solid in enumerate(made.entries) if checked([solid], made) == number), None)
    return None


def checked(drawn: Iterable[Solid], made: "Slices") -> int:
    """What the check of a scene answers these solids."""
    other = type(made)()
    for solid in drawn:
        other.enter(solid)
    inverses, boxes = (c_double * (16 * library.ENTRIES))(), (c_double * (6 * library.ENTRIES))()
    return library.host().larnt_check(*other.arguments(), inverses, boxes, (c_uint32 * library.ENTRIES)(), byref(c_size_t()))


def alone_refused(made: "Slices", entry: int, view: View) -> bool:
    """Whether a draw needs a 65th restart with this cut alone among solids without one."""
    from .scene import FINE, FIRST_POINTS, Room

    if not has_cut(made.entries[entry]):
        return False
    other = type(made)()
    for e in made.drawn:
        if e == entry or not has_cut(made.entries[e]):
            other.enter(made.entries[e])
    other.outline(view)
    return Room(other, max(FIRST_POINTS, 16 * len(made.points))).draw(other, view, FINE) == 11


def has_cut(solid: Solid) -> bool:
    return isinstance(solid, Cut) or any(map(has_cut, solids.parts(solid)))


def far_off(made: "Slices", path: int) -> bool:
    """Whether a line has a point that is out of bounds where its owner is placed."""
    end = made.starts[path + 1] if path + 1 < len(made.starts) else len(made.points) // 3
    world = made.worlds[made.owners[path]]
    points = (made.points[3 * k : 3 * k + 3] for k in range(made.starts[path], end))
    return any(not abs(x) <= MOST for p in points for x in matrices.placed(world, p))


# ---- in words


def figure(x: float) -> str:
    return f"{x:,.0f}" if x == int(x) and abs(x) < 1e15 else f"{x:g}"


def outside(name: str, x: float) -> Iterator[str]:
    if not math.isfinite(x):
        yield f"{name} is not a finite number"
    elif abs(x) > MOST:
        yield f"{name} is {figure(x)}, and 1,000,000 is the most"


def troubles(number: int, solid: Solid) -> Iterator[str]:
    """What is wrong with an entry that is refused with this number."""
    if number == 2:
        yield f"this is entry {library.ENTRIES + 1:,}, and a scene has {library.ENTRIES:,} at most; each form within a form is one"
    if number == 3 and isinstance(solid, Cut):
        yield f"the cut's operation is {solid.operation}, and must be 0 to 3"
    if number == 3 and isinstance(solid, Cube):
        yield f"the cube has {solid.stripes:,} stripes, and must have 1 to 1,000"
    if number == 4:
        yield "forms are nested more than 8 deep from here"
    if number == 5:
        yield from measure_troubles(solid)
    if number == 6:
        yield "the placing's matrix has no inverse, so the part would be flat or have no size"
    if number == 7:
        yield "the solid reaches beyond 1,000,000 in some direction"
    if number == 9:
        yield "a line of this solid has a point beyond 1,000,000, or one that is not finite"
    if number == 11:
        yield "a look past this cut restarts more than 64 times"
    if number == 14:
        stripes = solids.detail(solid)
        yield f"the stripe count is {stripes:,}, and {'360 is the most' if stripes > 0 else 'must not be negative'}"


def measure_troubles(solid: Solid) -> Iterator[str]:
    for name, x in zip(names(solid), solids.measures(solid)):
        yield from outside(name, x)
    if isinstance(solid, (Sphere, Cylinder, Cone)) and solid.radius < 0:
        yield f"the radius is {figure(solid.radius)}, and must not be negative"
    if isinstance(solid, Cone) and not solid.height > 0:
        yield f"the cone's height is {figure(solid.height)}, and must be above 0"
    if isinstance(solid, Cylinder) and solid.high < solid.low:
        yield f"the cylinder's upper end, {figure(solid.high)}, is below its lower, {figure(solid.low)}"
    if isinstance(solid, Cube):
        for axis, low, high in zip("xyz", solid.low, solid.high):
            if low > high:
                yield f"the cube's least {axis}, {figure(low)}, is above its greatest, {figure(high)}"


def names(solid: Solid) -> Tuple[str, ...]:
    """Of the used numbers, as a person would say them."""
    return {
        Sphere: ("the centre's x", "the centre's y", "the centre's z", "the radius"),
        Cylinder: ("the radius", "the lower end", "the upper end"),
        Cone: ("the radius", "the height"),
        Cube: tuple(f"the cube's {which} {axis}" for which in ("least", "greatest") for axis in "xyz"),
        Placed: tuple(f"number {k} of the placing's matrix" for k in range(1, 17)),
        Cut: (),
    }.get(type(solid)) or tuple(f"the {which} corner's {axis}" for which in ("first", "second", "third") for axis in "xyz")


def view_troubles(view: View, threshold: Optional[float]) -> Iterator[str]:
    """What number 8 finds wrong, in its words."""
    for name, x in zip((f"number {k} of the view's matrix" for k in range(1, 17)), matrices.flat(view.matrix)):
        if not math.isfinite(x):
            yield f"{name} is not a finite number"
    for axis, x in zip("xyz", view.eye):
        yield from outside(f"the eye's {axis}", x)
    for name, x in (("width", view.width), ("height", view.height)):
        if not 0 < x <= MOST:
            yield f"the sheet's {name} is {figure(x) if math.isfinite(x) else x}, and must be above 0 and at most 1,000,000"
    if not 0 <= view.step <= 1000:
        yield f"the step is {figure(view.step) if math.isfinite(view.step) else view.step}, and must be 0 to 1,000"
    if threshold is not None and not 0 <= threshold < math.inf:
        yield f"the threshold is {threshold:g}, and must be finite and not negative"
