"""The pen's way over a drawing, and the plotter's registers without a machine, both by the library
(libhost_plotter.a, `tools/archives host_plotter`)."""
from __future__ import annotations

import operator
from ctypes import byref, c_bool, c_size_t, c_uint8
from typing import Iterator, List, Sequence, Tuple

from . import library, matrices
from .drawing import Drawing
from .matrices import Vector
from .refusals import Refused

Path = Sequence[Sequence[float]]
WHOLE = range(2, 7)  # the registers that take every byte: the target and the mask


def rows(paths: Sequence[Path]) -> list:
    """Paths as the library takes them: points and starts."""
    starts, points = [], []
    for path in paths:
        starts.append(len(points) // 3)
        points += [float(x) for p in path for x in matrices.vector(p)]
    return [library.numbers(points), len(points), library.places(starts), len(starts)]


class Pick:
    """The picks over two drawings, a yard and its dimension lines: which paths are drawn is kept in between."""

    def __init__(self, yard: Sequence[Path], lines: Sequence[Path] = ()) -> None:
        self.drawings = rows(yard) + rows(lines)
        self.count = len(yard) + len(lines)
        self.marks = (c_uint8 * max(1, self.count))()

    def next(self, pen: Sequence[float]) -> Tuple[bool, int]:
        """The undrawn path whose first point is nearest to the pen: whether it is one of the lines, and its place
        among them or in the yard. A `Refused` with number 15 where all are drawn."""
        of_lines, path, start, end = c_bool(), c_size_t(), c_size_t(), c_size_t()
        answer = library.plotter().larnt_pick(*self.drawings, library.numbers(matrices.vector(pen)), self.marks, self.count, byref(of_lines), byref(path), byref(start), byref(end))
        if answer:
            raise Refused(answer)
        return of_lines.value, path.value


def pick(yard: Sequence[Path], lines: Sequence[Path] = (), pen: Sequence[float] = (0, 0, 0)) -> Iterator[Tuple[bool, int]]:
    """The order in which a pen draws every path of two drawings, each time the nearest; see `Pick.next`."""
    picks, drawings = Pick(yard, lines), (yard, lines)
    while True:
        try:
            of_lines, path = picks.next(pen)
        except Refused as refusal:
            if refusal.number == 15:
                return
            raise
        yield of_lines, path
        pen = drawings[of_lines][path][-1]


def ways(drawing: Drawing) -> List[List[Vector]]:
    """The paths of a drawing in the order in which a pen draws them; a `library.Missing` without the library's picks."""
    flat = [[(x, y, 0.0) for x, y, _ in path] for path in drawing.paths]
    return [drawing.paths[path] for _, path in pick(flat)]


class Plotter:
    """A plotter's registers, all 0 at first: support staff try pen settings on them (host/larnt.h says what each byte is)."""

    def __init__(self) -> None:
        self.registers = library.Registers()

    def write(self, at: int, value: int) -> None:
        """Writes one byte; a `Refused` with 16 or 17 where that is not accepted, and then nothing changes. What is no byte is
        judged as one that is not accepted: 16 where there is no register to write, 17 where it is a command; the other
        registers take every byte, so there it is a ValueError."""
        at, value = library.fitting(at, 64), operator.index(value)
        fits = 0 <= value <= 255
        if at in WHOLE and not fits:
            raise ValueError(f"a byte is 0 to 255, not {value}")
        answer = library.plotter().larnt_plotter_write(byref(self.registers), at, value if fits else 0)  # 0 is no command
        if answer:
            raise Refused(answer)

    def step(self) -> None:
        """While busy each axis moves one tenth of a millimetre toward its target."""
        library.plotter().larnt_plotter_step(byref(self.registers))

    @property
    def busy(self) -> bool:
        return bool(self.registers.bytes[1] & 2)

    @property
    def pen(self) -> Tuple[int, int]:
        """Where the pen is, in tenths of a millimetre."""
        return (self.registers.pen[0], self.registers.pen[1])
