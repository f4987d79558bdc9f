"""A drawing: the visible lines on a sheet, and its text as the program `yard` prints it."""
from __future__ import annotations

import re
import struct
from dataclasses import dataclass, field
from typing import TYPE_CHECKING, List, Optional, Sequence

from .matrices import Vector


if TYPE_CHECKING:
    from .scene import Part

PATH = re.compile(r"\(path(?: \(#[0-9A-F]{16} #[0-9A-F]{16} #[0-9A-F]{16}\))+\)")


def bits(x: float) -> str:
    """An f64 as # and 16 digits."""
    return "#" + struct.pack(">d", x).hex().upper()


def plain(x: float) -> str:
    """The same with both zeros as +0 and every NaN as one."""
    return bits(0.0) if x == 0 else "#7FF8000000000000" if x != x else bits(x)


@dataclass
class Drawing:
    """Paths on a sheet of `width` by `height`, x to the right and y up; z is the depth, of use to nobody but tests."""

    width: float
    height: float
    paths: List[List[Vector]]
    parts: Optional[Sequence["Part"]] = field(default=None, compare=False)  # the part of each path, of a draw part by part

    def text(self) -> str:
        """As `yard` prints it."""
        lines = [f"(drawing {len(self.paths)})"]
        for path in self.paths:
            lines.append("(path" + "".join(f" ({' '.join(map(plain, p))})" for p in path) + ")")
        return "\n".join(lines) + "\n"


def read(text: str, width: float, height: float) -> Drawing:
    """The drawing of a text that `yard` printed."""
    lines = text.splitlines()
    head = re.fullmatch(r"\(drawing (\d+)\)", lines[0]) if lines else None
    if not head or int(head[1]) != len(lines) - 1 or not text.endswith("\n"):
        raise ValueError(f"no drawing: {text[:40].strip()}")
    cut = next((k for k, line in enumerate(lines[1:], 2) if not PATH.fullmatch(line)), None)
    if cut:
        raise ValueError(f"line {cut} of the drawing is no path")

    def point(words: str) -> Vector:
        x, y, z = (struct.unpack(">d", bytes.fromhex(word[1:]))[0] for word in words.split())
        return (x, y, z)

    return Drawing(width, height, [[point(words) for words in re.findall(r"\(([^()]+)\)", line)] for line in lines[1:]])
