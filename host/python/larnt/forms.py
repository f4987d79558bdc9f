"""Yards as text: the forms that the program `yard` reads, one a line.

A text may have more entries, points and bytes than `yard` has places for: the library takes up to 1,024 entries, and
as many points as it is lent room for. It may also lack the view, where the caller has one.
"""
from __future__ import annotations

import re
import struct
from dataclasses import dataclass
from typing import List, NamedTuple, Optional, Sequence, Tuple, Union

from . import matrices, solids
from .camera import Camera, View, as_view
from .diagnosis import view_troubles
from .drawing import bits
from .matrices import IDENTITY, Matrix
from .outlines import Outliner
from .refusals import Refused
from .scene import Scene
from .solids import Cone, Cube, Cut, Cylinder, Lines, Placed, Solid, Sphere, Triangle

DEEPEST = 100  # how deep forms nest before the reader gives up; the core refuses more than 8

XYZ = ("x", "y", "z")
MATRIX = tuple(f"number {k} of the matrix" for k in range(1, 17))
NUMBERS = {
    "sphere": (*XYZ, "radius"),
    "cylinder": ("radius", "z0", "z1"),
    "cone": ("radius", "height"),
    "cube": tuple(f"{which} {axis}" for which in ("least", "greatest") for axis in XYZ),
    "triangle": tuple(f"{axis} of corner {k}" for k in (1, 2, 3) for axis in XYZ),
    "place": MATRIX,
    "cut": (),
}
NUMBERS["closed-cylinder"], NUMBERS["closed-cone"] = NUMBERS["cylinder"], NUMBERS["cone"]
VIEW = ("width", "height", "step", "eye x", "eye y", "eye z", *MATRIX)
STRIPED = ("cylinder", "cone", "closed-cylinder", "closed-cone")


@dataclass
class Yard:
    """What a text holds. `view` is None where it has none; `view_at` is the line and column where it stands."""

    view: Optional[View]
    scene: Scene
    view_at: Optional[Tuple[int, int]] = None


# ---- reading


class Token(NamedTuple):
    text: str
    column: int


class Line:
    """The tokens of a line, read from the left."""

    def __init__(self, number: int, text: str) -> None:
        self.number, self.end = number, len(text) + 1
        self.tokens = [Token(m[0], m.start() + 1) for m in re.finditer(r"[()]|[^() ]+", text)]
        self.at = 0

    def refused(self, wrong: str, column: Optional[int] = None, number: int = 1) -> Refused:
        return Refused(number, wrong, line=self.number, column=self.column() if column is None else column)

    def column(self) -> int:
        return self.tokens[self.at].column if self.at < len(self.tokens) else self.end

    def peek(self) -> str:
        """The next token; nothing where the line is over."""
        return self.tokens[self.at].text if self.at < len(self.tokens) else ""

    def word(self, what: str) -> str:
        found = self.peek()
        if found in ("", "(", ")"):
            raise self.refused(f"{what} is missing: {repr(found) + ' stands here' if found else 'the line ends here'}")
        self.at += 1
        return found

    def bracket(self, which: str, what: str) -> None:
        if self.peek() != which:
            raise self.refused(f"{what}, not {self.peek()!r}" if self.peek() else f"{what}; the line ends here")
        self.at += 1

    def number_of(self, what: str) -> float:
        column = self.column()
        word = self.word(what)
        x = number_in(word)
        if x is None:
            raise self.refused(f"{what} is {word!r}, which is no number: {hint(word)}", column)
        return x

    def count_of(self, what: str) -> int:
        column = self.column()
        word = self.word(what)
        if not re.fullmatch("0*[0-9]{1,7}", word) or float(word) > 1_000_000:
            raise self.refused(f"{what} is {word!r}, and must be a whole decimal up to 1,000,000 without sign", column)
        return int(float(word))

    def numbers(self, what: Sequence[str]) -> List[float]:
        return [self.number_of(name) for name in what]


def number_in(word: str) -> Optional[float]:
    if re.fullmatch("#[0-9A-Fa-f]{16}", word):
        return struct.unpack(">d", bytes.fromhex(word[1:]))[0]
    if re.fullmatch("-?0*[0-9]{1,7}", word) and abs(float(word)) <= 1_000_000:  # int() gives up at 4,300 digits
        return float(word) + 0.0
    return None


def hint(word: str) -> str:
    try:
        return f"numbers are whole decimals up to 1,000,000, or # and 16 hexadecimal digits; {word} is {bits(float(word))}"
    except ValueError:
        return "numbers are whole decimals up to 1,000,000, with - before them if negative, or # and 16 hexadecimal digits"


def read(text: str) -> Yard:
    """The view and the scene of a text; a `Refused` with number 1 says which line and column is no form, and why."""
    yard = Yard(None, Scene())
    first = True
    for number, row in enumerate(text.split("\n"), 1):
        odd = re.search(r"[\r\t]", row)
        if odd:
            name = "a tab" if odd[0] == "\t" else "a carriage return"
            raise Refused(1, f"{name} stands here, and only spaces and line feeds separate", line=number, column=odd.start() + 1)
        line = Line(number, row)
        if not line.tokens:
            continue
        if first and [token.text for token in line.tokens[:2]] == ["(", "view"]:
            yard.view_at, yard.view = (number, line.column()), view_in(line)
        else:
            yard.scene.add(form_in(line, 1))
        first = False
        if line.peek():
            raise line.refused(f"the form is closed, and {line.peek()!r} follows; a form is the whole of its line")
    return yard


def view_in(line: Line) -> View:
    line.at = 2
    xs = line.numbers(VIEW)
    line.bracket(")", "the view has 22 numbers, and a closing bracket follows")
    return View(matrices.by_rows(xs[6:]), matrices.vector(xs[3:6]), xs[0], xs[1], xs[2])


def form_in(line: Line, depth: int) -> Solid:
    source = (line.number, line.column())
    if depth > DEEPEST:
        raise line.refused(f"forms are nested more than {DEEPEST} deep", number=4)
    line.bracket("(", "a form begins with an opening bracket")
    column = line.column()
    head = line.word("the name of the form")
    if head == "view":
        raise line.refused("the view stands here, and must be the first form of the text", column)
    if head not in NUMBERS:
        raise line.refused(f"{head!r} is no form; there are {', '.join(NUMBERS)}", column)
    detail = line.count_of("the operation" if head == "cut" else "the stripe count") if head in ("cube", "cut") else 0
    xs = line.numbers([f"the {name} of this {head}" for name in NUMBERS[head]])
    if head in STRIPED and line.peek() not in ("", "(", ")"):
        detail = line.count_of("what follows the measures, the stripe count,")
    inner = [form_in(line, depth + 1) for _ in range({"place": 1, "cut": 2}.get(head, 0))]
    lines = lines_in(line) if head in (*STRIPED, "sphere") else ()
    line.bracket(")", f"a closing bracket ends this {head}")
    return solid_of(head, detail, xs, inner, lines, source)


def lines_in(line: Line) -> Lines:
    """The (line ..) forms up to the closing bracket."""
    lines = []
    while line.peek() == "(":
        line.at += 1
        column = line.column()
        if line.word("the name of the form") != "line":
            raise line.refused("only (line ..) forms may follow the measures of a round solid", column)
        points = []
        while line.peek() not in ("", "(", ")"):
            points.append(matrices.vector(line.numbers([f"the {axis} of point {len(points) + 1}" for axis in XYZ])))
        line.bracket(")", "a closing bracket ends this line")
        lines.append(tuple(points))
    return tuple(lines)


def solid_of(head: str, detail: int, xs: List[float], inner: List[Solid], lines: Lines, source: Tuple[int, int]) -> Solid:
    closed = head.startswith("closed-")
    if head == "sphere":
        return Sphere(matrices.vector(xs[:3]), xs[3], lines, source=source)
    if head in ("cylinder", "closed-cylinder"):
        return Cylinder(xs[0], xs[1], xs[2], detail, closed, lines, source=source)
    if head in ("cone", "closed-cone"):
        return Cone(xs[0], xs[1], detail, closed, lines, source=source)
    if head == "cube":
        return Cube(matrices.vector(xs[:3]), matrices.vector(xs[3:]), detail, source=source)
    if head == "triangle":
        return Triangle(matrices.vector(xs[:3]), matrices.vector(xs[3:6]), matrices.vector(xs[6:]), source=source)
    return Placed(matrices.by_rows(xs), inner[0], source=source) if head == "place" else Cut(detail, inner[0], inner[1], source=source)


# ---- writing


def number(x: float) -> str:
    """A whole decimal where that has the same bits, else # and 16 digits."""
    whole = abs(x) <= 1_000_000 and x == int(x) and str(x) != "-0.0"
    return str(int(x)) if whole else bits(x)


def numbers(xs: Sequence[float]) -> str:
    return " ".join(map(number, xs))


def write(scene: Scene, seen: Union[View, Camera]) -> str:
    """The text of a scene as a view sees it: outlines that the host makes are in it as lines, so that `yard` draws
    the same. The names of parts are not: forms have none. What the library does not accept is not written."""
    view = as_view(seen)
    scene.boxes()
    trouble = next(view_troubles(view, None), None)
    if trouble:
        raise Refused(8, trouble)
    rows = [f"(view {numbers([view.width, view.height, view.step, *view.eye, *matrices.flat(view.matrix)])})"]
    return "\n".join(rows + [form(part.solid, view, IDENTITY, False) for part in scene.parts]) + "\n"


def form(solid: Solid, view: View, world: Matrix, in_cut: bool) -> str:
    inner = matrices.product(world, solid.matrix) if isinstance(solid, Placed) else world
    words = [("closed-" if getattr(solid, "closed", False) else "") + type(solid).__name__.lower().replace("placed", "place")]
    if isinstance(solid, (Cube, Cut)):
        words.append(str(solids.detail(solid)))
    words += map(number, solids.measures(solid))
    if isinstance(solid, (Cylinder, Cone)) and solid.stripes:
        words.append(str(solid.stripes))
    words += [form(part, view, inner, in_cut or isinstance(solid, Cut)) for part in solids.parts(solid)]
    if isinstance(solid, solids.Round):
        words += [" ".join(["(line", *(numbers(p) for p in line)]) + ")" for line in Outliner(view, world, in_cut).lines(solid)]
    return f"({' '.join(words)})"
