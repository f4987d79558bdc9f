"""The account of a sheet: of each part the lines that a draw tests, and what becomes of each of their points.

A draw puts the points of all lines to the clip and then to the eye test, and a sheet has those that pass. Which points
these are is asked of the library (`libhost_account.a`): `larnt_entry_lines` answers the lines of a part, `larnt_fates` of
each point whether it is clipped away, drawn, or hidden and by which part, or which refusal it meets. It is an account of
that draw: each point is in it exactly once.
"""
from __future__ import annotations

from array import array
from ctypes import byref, c_double, c_size_t, c_uint32
from dataclasses import dataclass
from typing import Dict, Iterator, List, Optional, Sequence, Tuple

from . import diagnosis, library, matrices, solids
from .camera import View
from .drawing import Drawing
from .library import CLIPPED, MET, VISIBLE
from .refusals import Refused
from .scene import COARSE, FINE, MOST_POINTS, Part, Scene, Seen, Slices, Tree, as_view, rows_of, slots, small_rooms
from .solids import Cut, Solid

DRAWN, GONE, HIDDEN, REFUSED = "drawn", "clipped", "hidden", "refused"


def fate(word: int) -> str:
    """Which of the four a word of the library says."""
    return DRAWN if word == VISIBLE else GONE if word == CLIPPED else REFUSED if word > MET else HIDDEN


@dataclass(frozen=True)
class Tested:
    """The lines of a part as a draw tests them, in the scene's coordinates, and a word for each of their points."""

    part: Part
    numbers: "array[float]"
    starts: List[int]
    words: List[int]

    def lines(self) -> List[List[matrices.Vector]]:
        return rows_of(self.numbers, self.starts)

    def runs(self, wanted: str) -> Iterator[Tuple[int, int]]:
        """The first and the last but one of the points that follow each other on a line with this fate, as ranges."""
        for a, b in zip(self.starts, [*self.starts[1:], len(self.words)]):
            start = a
            for k in range(a, b + 1):
                if k == b or fate(self.words[k]) != wanted:
                    if k > start:
                        yield start, k
                    start = k + 1


@dataclass(frozen=True)
class Row:
    """The account of a part: how many `lines` it has, how many of their points are `put` to the test, and how many of those
    are `clipped` away, `drawn`, `hidden` or `refused`. `pieces` is how many lines of two points or more the sheet has of
    it, `by` which parts hide its points and how many, most first, and `met` the numbers that points meet."""

    part: Part
    lines: int
    put: int
    clipped: int
    drawn: int
    hidden: int
    refused: int
    pieces: int
    by: Tuple[Tuple[Part, int], ...]
    met: Tuple[Tuple[int, int], ...]

    def __post_init__(self) -> None:
        if self.put != self.clipped + self.drawn + self.hidden + self.refused or self.hidden != sum(n for _, n in self.by) or self.refused != sum(n for _, n in self.met):
            raise AssertionError(f"the account of {self.part.title()} does not add up: {self}")

    def out_of_view(self) -> bool:
        """Whether it has lines, and all of them are clipped away."""
        return 0 < self.put == self.clipped

    def hides(self, other: "Row") -> int:
        """How many points of another part it hides."""
        return next((n for part, n in other.by if part is self.part), 0)


@dataclass(frozen=True)
class Account:
    """The rows of all parts, in their order, and which parts lie behind the eye: their boxes do, from corner to corner."""

    rows: Tuple[Row, ...]
    behind: Tuple[Part, ...]

    def row(self, part: Part) -> Row:
        return next(row for row in self.rows if row.part is part)

    # ---- what is to be found in it

    def missing(self) -> List[Row]:
        """The parts in view that have no line on the sheet."""
        return [row for row in self.rows if not row.pieces and not row.out_of_view()]

    def unseen_hiders(self) -> List[Tuple[Row, List[Tuple[Row, int]]]]:
        """The parts that hide points of others while all of their own lines are clipped away: whose, and how many, the most
        first."""
        found = []
        for row in self.rows:
            others = [(other, row.hides(other)) for other in self.rows if other is not row and row.hides(other)]
            if row.out_of_view() and others:
                found.append((row, sorted(others, key=lambda pair: -pair[1])))
        return found

    def last_ray_cuts(self) -> List[Tuple[Part, List[int]]]:
        """The parts with cuts by operations 0 and 1, and which of the two they have."""
        with_cuts = ((row.part, sorted(set(last_ray_operations(row.part.solid)))) for row in self.rows)
        return [(part, operations) for part, operations in with_cuts if operations]

    def findings(self) -> List[str]:
        """In words, what one should know before the sheet is used. The parts that have no line on it come first."""
        missing, said = self.missing(), []
        if missing:
            said.append(f"{listing([row.part for row in missing])} {'has' if len(missing) == 1 else 'have'} no line on the sheet")
            said += [f"  {row.part.title()} ({described(row.part)}): {why_missing(row)}" for row in missing]
        elif self.rows:
            said.append("every part that has lines in view has a line on the sheet")
        for row, others in self.unseen_hiders():
            some, (first, n) = sum(n for _, n in others), others[0]
            where = "lies behind the eye" if row.part in self.behind else "has no line in view"
            said.append(f"warning: {row.part.title()} hides {n:,} of {first.part.title()}'s {first.put:,} points and {where}")
            said.append(f"  {row.part.title()} ({described(row.part)}): all {row.put:,} points of its own are clipped away; it hides {some:,} points of other parts: "
                        + ", ".join(f"{n:,} of the {other.put:,} of {other.part.title()}" for other, n in others))
            said.append("  " + ("what lies behind the eye hides nothing, so the distance that it answers is not the true one" if row.part in self.behind else
                                "it is nearer than the view begins, or reaches past its edges, or the distance that it answers is not the true one"))
        for part, operations in self.last_ray_cuts():
            names = " and ".join(map(str, operations))
            said.append(f"warning: {part.title()} has a cut by operation {names}, whose distance is that of the last ray; operation {' and '.join(str(k + 2) for k in operations)} answers the true one")
        away = [row.part for row in self.rows if row.out_of_view()]
        if away:
            said.append(f"{listing(away)} {'has' if len(away) == 1 else 'have'} no line in view: all points are clipped away")
        return said

    def table(self) -> List[str]:
        """A row a part, under a heading."""
        wide = max([4, *(len(described(row.part)) for row in self.rows)])
        rows = [f"part  {'what':{wide}}  lines  points  clipped   drawn  hidden  by part: points"]
        for row in self.rows:
            by = ", ".join(f"{part.number}: {n:,}" for part, n in row.by)
            met = ", ".join(f"refusal {number}: {n:,}" for number, n in row.met)
            words = (row.part.number, row.lines, row.put, row.clipped, row.drawn, row.hidden)
            rows.append("{:4}  {what:{wide}}  {:5,}  {:6,}  {:7,}  {:6,}  {:6,}  {by}".format(*words, what=described(row.part), wide=wide, by="; ".join(filter(None, (by, met)))).rstrip())
        sums = [sum(getattr(row, name) for row in self.rows) for name in ("lines", "put", "clipped", "drawn", "hidden")]
        return rows + ["{:4}  {:{wide}}  {:5,}  {:6,}  {:7,}  {:6,}  {:6,}".format("all", "", *sums, wide=wide)]

    def text(self) -> str:
        """The findings, and then the table."""
        said = self.findings()
        return "\n".join([*said, *([""] if said else []), *self.table(), ""])


# ---- in words


def described(part: Part) -> str:
    """What a part is, with its name or its line of the text."""
    line = f", text line {part.solid.source[0]}" if part.solid.source else ""
    return solids.described(part.solid) + line


def listing(parts: Sequence[Part]) -> str:
    """Parts 3, 5 and 6."""
    if len(parts) == 1:
        return parts[0].title()
    if all(part.name is None for part in parts):
        words, head = [str(part.number) for part in parts], "parts "
    else:
        words, head = [part.title() for part in parts], ""
    return head + ", ".join(words[:-1]) + " and " + words[-1]


def are(count: int) -> str:
    return "is" if count == 1 else "are"


def why_missing(row: Row) -> str:
    """Why a part in view has no line on the sheet."""
    if not row.put:
        return "it has no lines"
    left, said = row.put - row.clipped, []
    if row.clipped:
        said.append(f"{row.clipped:,} of its {row.put:,} points {are(row.clipped)} clipped away")
    if row.hidden:
        all_of = f"all {row.put:,} points are hidden" if row.hidden == row.put else f"{row.hidden:,} of {left:,} points in view {are(row.hidden)} hidden"
        said.append(f"{all_of}: " + ", ".join(f"{n:,} by {'itself' if part is row.part else part.title()}" for part, n in row.by))
    said += [f"refusal {number} is met by {n:,} of its points" for number, n in row.met]
    if row.drawn:
        said.append(f"{row.drawn:,} of its points {are(row.drawn)} visible, but no two that follow each other")
    return "; ".join(said)


def last_ray_operations(solid: Solid) -> Iterator[int]:
    if isinstance(solid, Cut) and solid.operation in (0, 1):
        yield int(solid.operation)
    for inner in solids.parts(solid):
        yield from last_ray_operations(inner)


# ---- how it is made


def tested(scene: Scene, seen: Seen, *, most_points: int = MOST_POINTS) -> Iterator[Tested]:
    """Of each part its lines as a draw by this view tests them, and what becomes of their points."""
    view = as_view(seen)
    made = scene.lined(view)
    handed, numbers = made.arguments(), library.numbers(view.numbers())
    rows = Tree(made).rows
    for k, part in enumerate(made.drawn.values()):
        points, starts = entry_lines(made, handed, view, k, most_points)
        count = len(points) // 3
        words = slots(c_uint32, count)
        answer = library.account().larnt_fates(*handed, *rows, numbers, library.numbers(points), len(points), *words)
        if answer:
            raise diagnosis.refused(answer, made, view)
        yield Tested(part, points, starts, words[0][:count])


def entry_lines(made: Slices, handed: list, view: View, entry: int, most_points: int) -> Tuple["array[float]", List[int]]:
    """The lines of a drawn entry, by its number among those: their points and where each starts. They are made in small
    places, which are cleared at the end of each call, and which double while they do not suffice."""
    numbers, points_out, paths_out = library.numbers(view.numbers()), c_size_t(), c_size_t()
    for points in small_rooms(most_points):
        out, begins = slots(c_double, 3 * points), slots(c_size_t, points)
        filled = [*out, *begins, *slots(c_double, 24 * points), *slots(c_size_t, 8 * points), byref(points_out), byref(paths_out)]
        answer = library.account().larnt_entry_lines(*handed, numbers, entry, 1, *filled)
        if answer != 13:
            break
    if answer:
        raise diagnosis.refused(answer, made, view, FINE, most_points)
    found = array("d")
    found.frombytes(memoryview(out[0]).cast("B")[: 24 * points_out.value])
    return found, begins[0][: paths_out.value]


def row_of(made: Tested, entries: Dict[int, Part]) -> Row:
    """The account of a part; `entries` are the parts by their entries."""
    counts: Dict[int, int] = {}
    for word in made.words:
        counts[word] = counts.get(word, 0) + 1
    most_first = sorted(counts.items(), key=lambda pair: (-pair[1], pair[0]))
    by = tuple((entries[word], n) for word, n in most_first if fate(word) == HIDDEN)
    met = tuple((word - MET, n) for word, n in most_first if fate(word) == REFUSED)
    pieces = sum(b - a > 1 for a, b in made.runs(DRAWN))
    hidden, refused = sum(n for _, n in by), sum(n for _, n in met)
    return Row(made.part, len(made.starts), len(made.words), counts.get(CLIPPED, 0), counts.get(VISIBLE, 0), hidden, refused, pieces, by, met)


def behind_eye(view: View, low: Sequence[float], high: Sequence[float]) -> bool:
    """Whether a box lies behind the eye, from corner to corner."""
    corners = [(x, y, z) for x in (low[0], high[0]) for y in (low[1], high[1]) for z in (low[2], high[2])]
    return all(matrices.projected(view.matrix, corner)[3] < 0 for corner in corners)


def account(scene: Scene, seen: Seen, *, most_points: int = MOST_POINTS) -> Account:
    """What becomes of every point of every line of a scene, by a camera or a view."""
    view = as_view(seen)
    entries = scene.slices().drawn
    rows = tuple(row_of(made, entries) for made in tested(scene, view, most_points=most_points))
    behind = tuple(part for part, (low, high) in zip(scene.parts, scene.boxes()) if behind_eye(view, low, high))
    return Account(rows, behind)


# ---- lines on the sheet


def on_sheet(scene: Scene, seen: Seen, wanted: str = HIDDEN, *, threshold: float = COARSE, most_points: int = MOST_POINTS) -> Drawing:
    """The runs of points with one fate, as a drawing: `HIDDEN`, the lines that are hidden, by default; `DRAWN` makes the
    draw's own, number for number. Each run is projected, simplified and taken to the sheet by the library, as a draw does it.
    A hidden run of one point is left out: it has no length. `parts` of the drawing are the parts of its paths."""
    view = as_view(seen)
    paths: List[List[matrices.Vector]] = []
    parts: List[Part] = []
    for made in tested(scene, view, most_points=most_points):
        runs = [run for run in made.runs(wanted) if wanted == DRAWN or run[1] - run[0] > 1]
        found = mapped(view, made.numbers, runs, threshold)
        paths += found
        parts += [made.part] * len(found)
    return Drawing(view.width, view.height, paths, parts)


def mapped(view: View, numbers: "array[float]", runs: Sequence[Tuple[int, int]], threshold: float) -> List[List[matrices.Vector]]:
    """Runs of points of the scene on the sheet, as the last steps of a draw take them there; at step 0 a draw does not
    simplify."""
    flat, starts = array("d"), []
    for a, b in runs:
        starts.append(len(flat) // 3)
        flat.extend(projected(view.matrix, numbers[3 * a : 3 * b]))
    kept: Sequence[float] = flat
    if view.step > 0:
        out, begins, points, paths = slots(c_double, len(flat)), slots(c_size_t, len(starts)), c_size_t(), c_size_t()
        answer = library.host().larnt_simplify(library.numbers(flat), len(flat), library.places(starts), len(starts), threshold, *out, *begins, byref(points), byref(paths))
        if answer:
            raise Refused(answer)
        kept, starts = out[0][: 3 * points.value], begins[0][: paths.value]
    w, h = view.width / 2, view.height / 2
    sheet = ((w, 0.0, 0.0, w), (0.0, h, 0.0, h), (0.0, 0.0, 1.0, 0.0), (0.0, 0.0, 0.0, 1.0))
    return rows_of(projected(sheet, kept), starts)


def projected(matrix: matrices.Matrix, numbers: Sequence[float]) -> "array[float]":
    """Points by a matrix, over the fourth coordinate, by the library."""
    by, given, taken, found = library.numbers(matrices.flat(matrix)), (c_double * 3)(), (c_double * 3)(), array("d")
    for k in range(0, len(numbers), 3):
        given[:] = numbers[k : k + 3]
        library.host().larnt_project(by, given, taken)
        found.extend(taken)
    return found
