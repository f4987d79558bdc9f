"""A scene: solids as one thinks of them, handed to the proved library, which draws them and answers for them."""
from __future__ import annotations

import operator
from array import array
from ctypes import byref, c_bool, c_double, c_size_t, c_uint8, c_uint32
from dataclasses import dataclass
from itertools import chain
from typing import TYPE_CHECKING, Callable, Dict, Iterator, List, Optional, Sequence, Tuple, Union

from . import diagnosis, library, matrices, solids
from .camera import Camera, View, as_view
from .drawing import Drawing
from .matrices import IDENTITY, Matrix, Vector
from .outlines import Outliner
from .refusals import Refused
from .solids import POINTS, Cone, Cube, Cut, Cylinder, Placed, Solid, Sphere, Triangle

if TYPE_CHECKING:
    from .account import Account

FINE, COARSE = 1e-6, 1e-4  # thresholds of simplification: of a sheet in fine detail, and of a draw by default
FIRST_POINTS, MOST_POINTS = 4096, 1 << 21  # the room that a draw is lent at first, and at most
FEW_POINTS, A_PART = 1024, 128  # the room that the draw of one part is lent at first; and of many, for each
RANGES, MOST_RANGES = 4, 64  # of a draw with threads, for each; and of one that tells how far it is

Seen = Union[View, Camera]
Told = Callable[[int, int], None]  # how many parts are drawn, and of how many


class Slices:
    """A scene as the library takes it: five slices, and which solid each entry is."""

    def __init__(self) -> None:
        self.numbers: List[float] = []
        self.marks: List[int] = []
        self.points = array("d")
        self.starts: List[int] = []
        self.owners: List[int] = []
        self.entries: List[Solid] = []
        self.worlds: List[Matrix] = []  # what takes an entry's coordinates to the scene's
        self.in_cut: List[bool] = []  # whether an entry is part of a cut
        self.drawn: Dict[int, "Part"] = {}  # the parts by their entries

    def enter(self, solid: Solid, world: Matrix = IDENTITY, in_cut: bool = False) -> int:
        """Adds a solid, its parts first; answers its entry. It has no lines until `outline`."""
        inner = matrices.product(world, solid.matrix) if isinstance(solid, Placed) else world
        named = [self.enter(part, inner, in_cut or isinstance(solid, Cut)) for part in solids.parts(solid)]
        entry, used = len(self.entries), solids.measures(solid)
        self.entries.append(solid)
        self.worlds.append(world)
        self.in_cut.append(in_cut)
        self.numbers += [*used, *[0.0] * (16 - len(used))]
        self.marks += [solids.kind(solid), solids.detail(solid), *named, *[0] * (2 - len(named))]
        return entry

    def outline(self, view: View, rounds: bool = True) -> None:
        """Hands in the lines of the round solids as a view sees them, in place of those there were (Outliner)."""
        self.points, self.starts, self.owners = array("d"), [], []
        for entry, solid in enumerate(self.entries):
            if isinstance(solid, solids.Round):
                for line in Outliner(view, self.worlds[entry], self.in_cut[entry], rounds).lines(solid):
                    self.starts.append(len(self.points) // 3)
                    self.owners.append(entry)
                    self.points.extend(chain.from_iterable(line))

    def arguments(self) -> list:
        """The five slices, each a pointer and a count."""
        made = [library.numbers(self.numbers), library.marks(self.marks), library.numbers(self.points), library.places(self.starts), library.marks(self.owners)]
        return [x for pair in zip(made, self.counts()) for x in pair]

    def counts(self) -> List[int]:
        return [len(self.numbers), len(self.marks), len(self.points), len(self.starts), len(self.owners)]

    def merged(self, other: "Slices") -> list:
        """The five slices of one scene made of two by the library, as `arguments` has them; its refusals of either."""
        kinds = (c_double, c_uint32, c_double, c_size_t, c_uint32)
        filled = [x for kind, one, two in zip(kinds, self.counts(), other.counts()) for x in slots(kind, one + two)]
        told = [byref(c_size_t()) for _ in range(3)]
        answer = library.merging().larnt_merge(*self.arguments(), *other.arguments(), *filled, *told)
        if answer:
            raise Refused(answer, f"together they have {len(self.entries) + len(other.entries):,} entries" if answer == 2 else None)
        return filled


class Tree:
    """The tree that the library built of a scene, for its queries; 9, 11 and 12 are refusals of a point's own."""

    def __init__(self, slices: Slices) -> None:
        self.slices, self.scene = slices, slices.arguments()
        nodes = 2 * len(slices.entries) + 1  # a tree with a leaf an entry
        self.rows = [(c_double * (6 * nodes))(), 6 * nodes, (c_uint32 * (3 * nodes))(), 3 * nodes, (c_uint32 * nodes)(), nodes]
        answer = library.host().larnt_build(*self.scene, *self.rows, byref(c_size_t()))
        if answer:
            raise diagnosis.refused(answer, slices)

    def ask(self, call: str, *asked: object) -> None:
        answer = getattr(library.host(), call)(*self.scene, *self.rows, *asked)
        if answer:
            raise Refused(answer)


@dataclass(eq=False)
class Part:
    """A drawn solid of a scene: an adviser's numbered part. `number` counts from 1 in the order of drawing."""

    solid: Solid
    name: Optional[str] = None
    number: int = 0

    def title(self) -> str:
        return self.name or f"part {self.number}"


class Scene:
    """Solids that are drawn together, in the order in which they were added."""

    def __init__(self, drawn: Sequence[Solid] = ()) -> None:
        self.parts: List[Part] = []
        self._tree: Optional[Tree] = None
        for solid in drawn:
            self.add(solid)

    # ---- building

    def add(self, solid: Solid, name: Optional[str] = None) -> Part:
        """A solid that was made by itself; the methods below make one and add it. Each answers the part."""
        part = Part(solid, name, len(self.parts) + 1)
        self.parts.append(part)
        self._tree = None
        return part

    def taken(self, part: Union[Part, Solid]) -> Solid:
        """The solid, which is no longer drawn by itself if it was a part of this scene."""
        if not isinstance(part, Part):
            return part
        if part not in self.parts:
            raise ValueError(f"{part.title()} is no part of this scene, or is one no longer")
        self.parts.remove(part)
        for number, other in enumerate(self.parts, 1):
            other.number = number
        self._tree = None
        return part.solid

    def _put(self, solid: Solid, at: Optional[Sequence[float]], name: Optional[str]) -> Part:
        return self.add(solid if at is None else Placed(matrices.moved(*at), solid), name)

    def sphere(
        self, centre: Sequence[float], radius: float, *, lines: Optional[Sequence] = None, points: int = POINTS, name: Optional[str] = None
    ) -> Part:
        """A ball; its `lines` are by default its outline (solids.py, outlines.py)."""
        return self.add(Sphere(matrices.vector(centre), float(radius), solids.hand_in(lines), points), name)

    def cylinder(
        self, radius: float, low: float, high: float, *, at: Optional[Sequence[float]] = None, stripes: int = 0, closed: bool = False,
        lines: Optional[Sequence] = None, points: int = POINTS, rings: Sequence[float] = (), name: Optional[str] = None,
    ) -> Part:
        """A tube about the Z axis from `low` to `high`, moved to `at`; `closed` has a disc at either end."""
        made = Cylinder(float(radius), float(low), float(high), stripes, closed, solids.hand_in(lines), points, tuple(rings))
        return self._put(made, at, name)

    def cone(
        self, radius: float, height: float, *, at: Optional[Sequence[float]] = None, stripes: int = 0, closed: bool = False,
        lines: Optional[Sequence] = None, points: int = POINTS, slopes: int = 0, rim: bool = True, name: Optional[str] = None,
    ) -> Part:
        """A cone about the Z axis, its base at 0 and its apex at `height`, moved to `at`; `closed` has a disc at its base."""
        return self._put(Cone(float(radius), float(height), stripes, closed, solids.hand_in(lines), points, slopes, rim), at, name)

    def cube(self, low: Sequence[float], high: Sequence[float], *, stripes: int = 1, name: Optional[str] = None) -> Part:
        """A box, from its least corner to its greatest."""
        return self.add(Cube(matrices.vector(low), matrices.vector(high), stripes), name)

    def triangle(self, a: Sequence[float], b: Sequence[float], c: Sequence[float], *, name: Optional[str] = None) -> Part:
        """By its three corners."""
        return self.add(Triangle(matrices.vector(a), matrices.vector(b), matrices.vector(c)), name)

    def pipe(self, start: Sequence[float], end: Sequence[float], radius: float, *, name: Optional[str] = None, **more: int) -> Part:
        """A tube from one point to another (solids.pipe)."""
        return self.add(solids.pipe(start, end, radius, **more), name)

    def silo(
        self, radius: float, height: float, roof: float, *, at: Sequence[float] = (0, 0, 0), stripes: int = 0, slopes: int = 6,
        closed: bool = False, name: Optional[str] = None,
    ) -> Tuple[Part, Part]:
        """A tube and its roof, a cone, whose rim is the tube's."""
        tube = self.cylinder(radius, 0, height, at=at, stripes=stripes, closed=closed, name=name)
        top = (at[0], at[1], at[2] + height)
        return tube, self.cone(radius, roof, at=top, slopes=slopes, rim=False, name=f"{name}, roof" if name else None)

    def place(self, matrix: Sequence[Sequence[float]], part: Union[Part, Solid], *, name: Optional[str] = None) -> Part:
        """A part taken to its place; a part of this scene is then drawn there alone."""
        return self.add(Placed(matrices.matrix(matrix), self.taken(part)), name)

    def cut(self, operation: int, first: Union[Part, Solid], second: Union[Part, Solid], *, name: Optional[str] = None) -> Part:
        """What an operation leaves of two parts; parts of this scene are then drawn as the cut alone."""
        return self.add(Cut(int(operator.index(operation)), self.taken(first), self.taken(second)), name)

    def merge(self, other: "Scene") -> "Scene":
        """One scene of two, the parts of this one first; judged by the library's merge (`libhost_merge.a`)."""
        for scene in (self, other):
            scene.boxes()
        self.slices().merged(other.slices())
        both = Scene()
        for part in [*self.parts, *other.parts]:
            both.add(part.solid, part.name)
        return both

    # ---- what the library is handed

    def slices(self, view: Optional[View] = None) -> Slices:
        """Without a view, the solids alone."""
        made = Slices()
        for part in self.parts:
            made.drawn[made.enter(part.solid)] = part
        if view:
            made.outline(view)
        return made

    def tree(self) -> Tree:
        """Built once, until a part is added or taken."""
        if self._tree is None:
            self._tree = Tree(self.slices())
        return self._tree

    # ---- asking

    def visible(self, eye: Sequence[float], point: Sequence[float]) -> bool:
        """Whether the eye sees a point past the solids."""
        seen = c_bool()
        self.tree().ask("larnt_visible", library.numbers(matrices.vector(eye)), library.numbers(matrices.vector(point)), byref(seen))
        return seen.value

    def why_hidden(self, eye: Sequence[float], point: Sequence[float]) -> Optional[Part]:
        """The part that hides a point from the eye; None where it is visible."""
        entry = c_uint32()
        self.tree().ask("larnt_occluder", library.numbers(matrices.vector(eye)), library.numbers(matrices.vector(point)), byref(entry))
        return None if entry.value == library.NOBODY else self.tree().slices.drawn[entry.value]

    def is_covered(self, eye: Sequence[float], point: Sequence[float]) -> bool:
        """Whether a solid covers a point, by a walk that stops at the first: not `visible`, wherever that answers."""
        seen = c_bool()
        self.tree().ask("larnt_covered", library.numbers(matrices.vector(eye)), library.numbers(matrices.vector(point)), byref(seen))
        return not seen.value

    def told(self, eye: Sequence[float], points: Sequence[Sequence[float]]) -> bytes:
        """Of many points at once a byte each: 1 seen, 2 not, or the number of the point's own refusal, 9, 11 or 12."""
        tested = [float(x) for p in points for x in matrices.vector(p)]
        room = max(1, len(points))
        filled = (c_uint8 * room)()
        self.tree().ask("larnt_covered_all", library.numbers(matrices.vector(eye)), library.numbers(tested), len(tested), filled, room)
        return bytes(filled[: len(points)])

    def covered(self, eye: Sequence[float], points: Sequence[Sequence[float]]) -> List[bool]:
        """Of many points at once whether a solid covers each; the first point with a refusal of its own raises it."""
        answers = self.told(eye, points)
        for k, answer in enumerate(answers):
            if answer > 2:
                raise Refused(answer, f"point {k}, {tuple(points[k])}, has no answer")
        return [answer == 2 for answer in answers]

    def first_met(self, eye: Sequence[float], point: Sequence[float]) -> Optional[Tuple[Part, Vector]]:
        """The part that a look from the eye towards a point meets first, and where; None where it meets none."""
        way = matrices.unit(matrices.minus(point, eye))
        t, ok, entry = c_double(), c_bool(), c_uint32()
        self.tree().ask("larnt_intersect", library.numbers([*matrices.vector(eye), *way]), byref(t), byref(ok), byref(entry))
        return (self.tree().slices.drawn[entry.value], matrices.along(eye, way, t.value)) if ok.value else None

    def boxes(self) -> List[Tuple[Vector, Vector]]:
        """The box of each part, by its least and its greatest corner; a `Refused` where the scene is not accepted."""
        made = self.slices()
        rows, ignored = (c_double * (6 * library.ENTRIES))(), (c_double * (16 * library.ENTRIES))()
        answer = library.host().larnt_check(*made.arguments(), ignored, rows, (c_uint32 * library.ENTRIES)(), byref(c_size_t()))
        if answer:
            raise diagnosis.refused(answer, made)
        return [(tuple(rows[6 * e : 6 * e + 3]), tuple(rows[6 * e + 3 : 6 * e + 6])) for e in made.drawn]  # type: ignore[misc]

    def lined(self, view: View) -> Slices:
        """The slices with all lines; outlines are made only of a scene that is accepted, as a view of fair numbers sees it."""
        self.boxes()
        return self.slices(None if any(diagnosis.view_troubles(view, None)) else view)

    # ---- drawing

    def draw(
        self, seen: Seen, *, threshold: float = COARSE, most_points: int = MOST_POINTS, threads: int = 1, told: Optional[Told] = None, seconds: Optional[float] = None,
    ) -> Drawing:
        """The lines that the view sees, simplified with a threshold: `FINE` for a sheet in fine detail, as `yard` draws it.
        What the core works in grows until it suffices, up to `most_points`.

        Where `libhost_parts.a` is there it may be made by ranges of parts, bit for bit the same (ranges.py): by several
        `threads`; with `told`, which is called with how many parts are drawn, and of how many; within so many `seconds`,
        after which an `OutOfTime` is raised that says which parts were under way."""
        if threads <= 1 and told is None and seconds is None:
            view = as_view(seen)
            return drawn(self.lined(view), view, threshold, most_points).drawing(view)
        many = RANGES * threads if told is None and seconds is None else MOST_RANGES
        return self._by_ranges(seen, threshold, most_points, many, threads, told, seconds)

    def draw_parts(
        self, seen: Seen, *, threshold: float = COARSE, most_points: int = MOST_POINTS, threads: int = 1, told: Optional[Told] = None, seconds: Optional[float] = None,
    ) -> Drawing:
        """The same drawing, bit for bit, made part by part: its `parts` are the part of each path, and `told` is called after
        each part. A part makes the check and the tree of the scene anew, so many parts take longer by themselves."""
        return self._by_ranges(seen, threshold, most_points, len(self.parts), threads, told, seconds)

    def _by_ranges(
        self, seen: Seen, threshold: float, most_points: int, many: int, threads: int, told: Optional[Told], seconds: Optional[float],
    ) -> Drawing:
        from . import ranges

        view = as_view(seen)
        asked = ranges.split(len(self.parts), max(1, min(many, len(self.parts)))) or [(0, 0)]
        pieces = ranges.drawn(self.lined(view), view, threshold, most_points, asked, threads, told, seconds)
        single = all(count <= 1 for _, count in asked)
        parts = [self.parts[first] for (first, _), (_, own) in zip(asked, pieces) for _ in own] if single else None
        return Drawing(view.width, view.height, rows_of(*ranges.joined(pieces)), parts)

    def account(self, seen: Seen, *, most_points: int = MOST_POINTS) -> "Account":
        """Of each part what becomes of the points of its lines (account.py); where `libhost_account.a` is there."""
        from .account import account

        return account(self, seen, most_points=most_points)

    def preview(self, seen: Seen, *, threshold: float = COARSE, most_points: int = MOST_POINTS) -> Tuple[int, int]:
        """How many points and paths `draw` would answer, without the drawing; where `libhost_preview.a` is there."""
        view = as_view(seen)
        return fitted(Room.preview, self.lined(view), view, threshold, most_points).counts()


def fitted(ask: Callable[["Room", Slices, View, float], int], made: Slices, view: View, threshold: float, most_points: int) -> "Room":
    """A room that is large enough, after a draw or a preview in it."""
    for points in rooms(made, most_points):
        room = Room(made, points)
        answer = ask(room, made, view, threshold)
        if answer != 13:
            break
    if answer:
        raise diagnosis.refused(answer, made, view, threshold, most_points)
    return room


def drawn(made: Slices, view: View, threshold: float, most_points: int) -> "Room":
    """The room with the drawing in it. Where the preview is there it finds the room, and the drawing is lent the places
    that it counts and one start more; else the draw itself finds it, with as many places for the drawing as for the chop:
    no stage after the chop adds a point."""
    if not library.there(library.preview):
        return fitted(Room.draw, made, view, threshold, most_points)
    room = fitted(Room.preview, made, view, threshold, most_points)
    points, paths = room.counts()
    room.lend(points, paths + 1)  # at step 0 a path that vanishes has a start until it does
    answer = room.draw(made, view, threshold)
    if answer:
        raise diagnosis.refused(answer, made, view, threshold, most_points)
    return room


def rooms(made: Slices, most: int) -> Iterator[int]:
    """The rooms to try, in points. No call tells how much a draw works in, so they double; most draws and previews that do
    not fit say so at the chop, before the eye tests, which take most of the time."""
    points = max(1, min(most, max(FIRST_POINTS, len(made.points) // 3)))
    yield points
    while points < most:
        points = min(2 * points, most)
        yield points


def small_rooms(most: int, first: int = FEW_POINTS) -> Iterator[int]:
    """The same for a few parts: they start small, since a call clears all that it is lent."""
    points = max(1, min(most, first))
    yield points
    while points < most:
        points = min(2 * points, most)
        yield points


def rows_of(numbers: Sequence[float], starts: Sequence[int]) -> List[List[Vector]]:
    """Lines, of three numbers a point and of where each starts, in points."""
    points = list(zip(numbers[0::3], numbers[1::3], numbers[2::3]))
    return [points[a:b] for a, b in zip(starts, [*starts[1:], len(points)])]


def slots(kind: type, count: int) -> list:
    """A slice to be filled, as the library takes it: a pointer, which is never null, and a count."""
    return [(kind * max(1, count))(), count]


class Room:
    """What a draw is lent: work for so many points, the tree of a scene, and places for the drawing. It may be lent again
    and again."""

    def __init__(self, made: Slices, points: int) -> None:
        nodes = 2 * len(made.entries) + 1
        self.points = points
        self.out: list = []
        self.begins: list = []
        self.work = slots(c_double, 8 * 3 * points) + slots(c_size_t, 8 * points) + slots(c_double, 3 * points) + slots(c_size_t, points)
        self.tree = slots(c_double, 6 * nodes) + slots(c_uint32, 3 * nodes) + slots(c_uint32, nodes)
        self.points_out, self.paths_out = c_size_t(), c_size_t()

    def lend(self, points: int, paths: int) -> None:
        """Places for a drawing."""
        self.out, self.begins = slots(c_double, 3 * points), slots(c_size_t, paths)

    def filled(self) -> list:
        """All that a draw fills, as the library takes it."""
        if not self.out:
            self.lend(self.points, self.points)
        return [*self.out, *self.begins, *self.work, *self.tree, byref(self.points_out), byref(self.paths_out)]

    def counts(self) -> Tuple[int, int]:
        """The points and paths of the last draw or preview."""
        return self.points_out.value, self.paths_out.value

    def draw(self, made: Slices, view: View, threshold: float) -> int:
        """One call of the library; its answer. Unless places were lent, there are as many as for the work."""
        return library.host().larnt_draw_with(*made.arguments(), library.numbers(view.numbers()), threshold, *self.filled())

    def draw_range(self, made: Slices, view: View, threshold: float, first: int, many: int) -> int:
        """The same with the lines of the parts number first, first + 1 and so on alone, as far as there are any; all parts hide.
        Where `libhost_parts.a` is there."""
        return library.parts().larnt_draw_range(*made.arguments(), library.numbers(view.numbers()), threshold, first, many, *self.filled())

    def preview(self, made: Slices, view: View, threshold: float) -> int:
        """The answer of `draw` with its counts, without its drawing."""
        asked = (*made.arguments(), library.numbers(view.numbers()), threshold, 3 * self.points, self.points)
        return library.preview().larnt_preview(*asked, *self.work, *self.tree, byref(self.points_out), byref(self.paths_out))

    def starts(self) -> List[int]:
        """Where each path of the last draw starts, in points."""
        return self.begins[0][: self.paths_out.value]

    def numbers(self) -> bytes:
        """The points of the last draw, three numbers each, as the library left them."""
        return bytes(memoryview(self.out[0]).cast("B")[: 24 * self.points_out.value])

    def drawing(self, view: View) -> Drawing:
        """The last draw's, which was by this view."""
        return Drawing(view.width, view.height, rows_of(self.out[0][: 3 * self.points_out.value], self.starts()))
