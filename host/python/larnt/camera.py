"""Where one looks from: a view as the core takes it, and a camera that makes one."""
from __future__ import annotations

import math
from dataclasses import dataclass
from typing import List, Optional, Sequence, Tuple, Union

from . import matrices
from .matrices import IDENTITY, Matrix, Vector


@dataclass(frozen=True)
class View:
    """The 22 numbers of a view: the clip matrix by rows, the eye, and the sheet's width, height and step."""

    matrix: Matrix
    eye: Vector
    width: float
    height: float
    step: float

    def numbers(self) -> List[float]:
        """In the order of host/larnt.h."""
        return [*matrices.flat(self.matrix), *self.eye, self.width, self.height, self.step]

    def spot(self, point: Sequence[float]) -> Optional[Tuple[float, float]]:
        """Where a point stands on the sheet; None where it is behind the eye."""
        x, y, _, w = matrices.projected(self.matrix, point)
        return ((x / w + 1) * self.width / 2, (y / w + 1) * self.height / 2) if w > 0 else None

    def field_of_view(self) -> Optional[float]:
        """The angle from the lower edge to the upper, of a matrix that a camera made; else None."""
        high, ahead = matrices.length(self.matrix[1][:3]), matrices.length(self.matrix[3][:3])
        return math.degrees(2 * math.atan(ahead / high)) if ahead > 0 and high > 0 else None


@dataclass(frozen=True)
class Camera:
    """An eye that looks at a target; `field_of_view` is the angle in degrees from the lower edge to the upper.

    The sheet is `width` by `height`, in units of the caller's; `step` is how long a piece between two tested points
    may be there. What is nearer than `near` or farther than `far` is clipped off; by default they are a thousandth
    of the distance to the target and a thousand times that. The matrix is made as larnt's `look_at` and
    `perspective` make it.
    """

    eye: Sequence[float]
    target: Sequence[float]
    up: Sequence[float] = (0.0, 0.0, 1.0)
    field_of_view: float = 40.0
    width: float = 1200.0
    height: float = 800.0
    step: float = 4.0
    near: Optional[float] = None
    far: Optional[float] = None

    def view(self) -> View:
        eye, distance = matrices.vector(self.eye), matrices.length(matrices.minus(self.target, self.eye))
        if not all(abs(x) <= 1e9 for x in (*self.eye, *self.target, *self.up)):
            raise ValueError("a number of eye, target or up is not finite, or out of all bounds")
        if not distance > 0:
            raise ValueError("eye and target are the same point, so there is no direction to look in")
        if not 0 < self.field_of_view < 180:
            raise ValueError(f"the field of view is an angle above 0 and below 180 degrees, not {self.field_of_view:g}")
        near = distance / 1000 if self.near is None else self.near
        far = distance * 1000 if self.far is None else self.far
        f = matrices.unit(matrices.minus(self.target, eye))
        side = matrices.cross(f, self.up)
        if matrices.length(side) < 1e-9 * matrices.length(self.up):  # straight up or down: y is up on the sheet
            side = matrices.cross(f, (0.0, 1.0, 0.0) if abs(f[1]) < 0.9 else (1.0, 0.0, 0.0))
        s = matrices.unit(side)
        u = matrices.unit(matrices.cross(s, f))
        look = matrices.inverse(matrices.matrix([[s[i], u[i], -f[i], eye[i]] for i in range(3)] + [IDENTITY[3]]))
        high = near * math.tan(math.radians(self.field_of_view) / 2)
        wide = high * (self.width / self.height)
        lens = matrices.matrix([
            [near / wide, 0, 0, 0],
            [0, near / high, 0, 0],
            [0, 0, -(far + near) / (far - near), -2 * far * near / (far - near)],
            [0, 0, -1, 0],
        ])
        return View(matrices.product(lens, look), eye, float(self.width), float(self.height), float(self.step))


def as_view(seen: Union[View, Camera]) -> View:
    return seen.view() if isinstance(seen, Camera) else seen
