"""Draws by parts and the account of a sheet on random yards, half of them at step 0:

    python3 host/python/tests/parts.py SEED COUNT

Of each yard the ranges of 1, 2, 3 and all parts, with one thread and with two, in places that grow and in places that are
exactly full, are compared with the whole draw, bit for bit. Each point of the account is compared with brute force: what the
clip box leaves of its projection, and the own hit of every drawn solid on the ray from the point to the eye. By demand 3 a
point is hidden only if some drawn solid's own distance falls short, and the one named is such a solid; no visible point is
covered by a drawn solid. The runs of drawn points, taken to the sheet, are the draw's paths, bit for bit.
"""
from __future__ import annotations

import collections
import math
import pathlib
import struct
import sys
from ctypes import byref, c_bool, c_double, c_size_t, c_uint32, memset, sizeof
from typing import Counter, Iterator, List, Optional, Tuple

if __name__ == "__main__":
    sys.path.insert(0, str(pathlib.Path(__file__).resolve().parents[1]))
    sys.path.insert(0, str(pathlib.Path(__file__).resolve().parent))
    import hosts
else:
    from . import hosts

from larnt import FINE, Refused, account, forms, library, ranges, scene
from larnt.library import CLIPPED, MET, VISIBLE

ROOM = 1 << 13  # points of a whole draw
MOST = 1_000_000.0


class Wrong(Exception):
    """Something differs; the message says what."""


def same(what: str, a: object, b: object) -> None:
    if a != b:
        raise Wrong(f"{what}: {str(a)[:200]} and {str(b)[:200]}")


# ---- ranges


def whole(made: scene.Slices, view: scene.View) -> Tuple[int, bytes, List[int]]:
    """The draw in one: its answer, points and starts."""
    room = scene.Room(made, ROOM)
    return room.draw(made, view, FINE), room.numbers(), room.starts()


def lent(made: scene.Slices, handed: list, view: scene.View, asked: ranges.Range, points: int, paths: int) -> Tuple[int, bytes, List[int]]:
    """A range in places for so many points and paths; what it leaves beside the result must be zeros."""
    room = scene.Room(made, ROOM)
    room.lend(points, paths)
    everywhere = [room.out[0], room.begins[0], *room.work[::2], *room.tree[::2]]
    for filled in everywhere:
        memset(filled, 1, sizeof(filled))
    answer = library.parts().larnt_draw_range(*handed, library.numbers(view.numbers()), FINE, *asked, *room.out, *room.begins, *room.work, *room.tree, byref(room.points_out), byref(room.paths_out))
    n, m = room.counts()
    out, begins, *others = map(bytes, everywhere)
    if any(rest != bytes(len(rest)) for rest in (out[24 * n : 24 * points], begins[8 * m : 8 * paths], *others)):
        raise Wrong(f"range {asked}: not zeros behind")
    return answer, room.numbers(), room.starts()


def by_ranges(made: scene.Slices, view: scene.View, many: int, threads: int) -> Tuple[int, bytes, List[int]]:
    asked = [(first, many) for first in range(0, len(made.drawn), many)]
    try:
        numbers, starts = ranges.joined(ranges.drawn(made, view, FINE, ROOM, asked, threads))
    except Refused as refused:
        return refused.number, b"", []
    return 0, numbers.tobytes(), starts


def ranges_compared(made: scene.Slices, view: scene.View, met: Counter[str]) -> None:
    """The ranges of 1, 2, 3 and all against the whole draw."""
    wanted, parts = whole(made, view), len(made.drawn)
    met["refused draws"] += wanted[0] != 0
    for many in sorted({1, 2, 3, parts}):
        for threads in (1, 2):
            found = by_ranges(made, view, many, threads)
            met["draws by ranges"] += 1
            if wanted[0] in (0, *range(2, 9), 14):
                same(f"ranges of {many}, {threads} threads", found, wanted)
            elif found[0] not in (9, 11, 12, 13):
                raise Wrong(f"ranges of {many}: {found[0]}, and the whole draw is refused by {wanted[0]}")
    if wanted[0]:
        return
    handed, points, paths = made.arguments(), len(wanted[1]) // 24, len(wanted[2])
    spare = int(view.step == 0)  # a path that vanishes has a start until it does
    same("exactly full", lent(made, handed, view, (0, parts), points, paths + spare), wanted)
    met["draws by ranges"] += 1
    if points:
        same("one point short", lent(made, handed, view, (0, parts), points - 1, paths + spare), (13, b"", []))
        same("one path short", lent(made, handed, view, (0, parts), points, paths - 1), (13, b"", []))
        met["draws by ranges"] += 2
    same("past the last part", lent(made, handed, view, (parts, 2**64 - 1), 4, 4), (0, b"", []))


# ---- the account


class Brute:
    """The own hits of all drawn solids of a scene, one by one."""

    def __init__(self, made: scene.Slices, view: scene.View) -> None:
        self.made, self.view, self.handed = made, view, made.arguments()
        rows, ignored = (c_double * (6 * library.ENTRIES))(), (c_double * (16 * library.ENTRIES))()
        library.host().larnt_check(*self.handed, ignored, rows, (c_uint32 * library.ENTRIES)(), byref(c_size_t()))
        self.boxes = {entry: library.numbers(rows[6 * entry : 6 * entry + 6]) for entry in made.drawn}
        self.matrix = library.numbers(view.numbers()[:16])

    def hits(self, ray: object) -> Iterator[Tuple[int, Optional[float]]]:
        """Of each drawn entry its own distance, a miss's included; None where it meets 11."""
        t, ok = c_double(), c_bool()
        for entry in self.made.drawn:
            answer = library.host().larnt_own_hit(*self.handed, entry, ray, byref(t), byref(ok))
            if answer not in (0, 11):
                raise Wrong(f"own hit of entry {entry}: {answer}")
            yield entry, None if answer else t.value

    def compare(self, p: Tuple[float, float, float], word: int) -> str:
        """What becomes of a point, by every solid's own hit; the account's word must fit. Answers what it was."""
        found = (c_double * 3)()
        library.host().larnt_project(self.matrix, library.numbers(p), found)
        if not all(-1 <= x <= 1 for x in found):
            same(f"{p} is outside the clip box", word, CLIPPED)
            return "clipped"
        if not all(abs(x) <= MOST for x in p):
            same(f"{p} is out of bounds", word, MET + 9)
            return "met 9"
        way = [e - x for e, x in zip(self.view.eye, p)]
        far = math.sqrt(way[0] * way[0] + way[1] * way[1] + way[2] * way[2])
        if far == 0:
            same(f"{p} is the eye", word, VISIBLE)
            return "visible"
        way = [x / far for x in way]
        ray = library.numbers([*p, *way])
        own = dict(self.hits(ray))
        if word == MET + 11:
            if None not in own.values():
                raise Wrong(f"{p} meets 11, and no solid does")
            return "met 11"
        if word == MET + 12:
            return "met 12"
        short = {entry for entry, t in own.items() if t is not None and t < far}
        if word == VISIBLE:
            if not any(x == 0 and math.copysign(1, x) < 0 for x in way):  # the premise of demand 3
                covering = [entry for entry in short if self.entered(entry, ray, own[entry])]
                if covering:
                    raise Wrong(f"{p} is visible, and covered by {covering}")
            return "visible"
        if word not in short:
            raise Wrong(f"{p} is hidden by {word:#x}, and those that fall short are {sorted(short)}")
        return "hidden"

    def entered(self, entry: int, ray: object, t: Optional[float]) -> bool:
        """Whether the solid's own box passes the test, and is entered no later than so far."""
        span = (c_double * 2)()
        library.host().larnt_box_test(self.boxes[entry], ray, span)
        return t is not None and not span[1] < span[0] and not span[1] <= 0 and span[0] <= t


def account_compared(of: scene.Scene, view: scene.View, met: Counter[str]) -> None:
    """Every point by brute force; the sums; and the runs of drawn points against the whole draw."""
    made = of.lined(view)
    brute, answer = Brute(made, view), whole(made, view)
    tested = list(account.tested(of, view, most_points=ROOM))
    told = of.account(view, most_points=ROOM)
    for lines, row in zip(tested, told.rows):
        fates: Counter[str] = collections.Counter()
        for k, word in enumerate(lines.words):
            x, y, z = lines.numbers[3 * k : 3 * k + 3]
            fates[brute.compare((x, y, z), word)] += 1
        met.update(fates)
        met["points"] += len(lines.words)
        refused = sum(n for what, n in fates.items() if what.startswith("met"))
        same("the row", (row.put, row.clipped, row.drawn, row.hidden, row.refused), (len(lines.words), fates["clipped"], fates["visible"], fates["hidden"], refused))
        same("all points are on lines", lines.starts[:1], [0] if lines.words else [])
    met["accounts"] += 1
    same("a draw is refused where a point meets a number", answer[0] in (9, 11, 12), any(row.refused for row in told.rows) or answer[0] == 9)
    if answer[0] == 0:
        paths = [path for lines in tested for path in account.mapped(view, lines.numbers, list(lines.runs(account.DRAWN)), FINE)]
        drawn = scene.rows_of(struct.unpack(f"<{len(answer[1]) // 8}d", answer[1]), answer[2])
        same("the drawn runs", [[struct.pack("<3d", *p) for p in path] for path in paths], [[struct.pack("<3d", *p) for p in path] for path in drawn])
        met["drawings made of the account"] += 1


def compared(texts: Iterator[str], count: int) -> Tuple[Counter[str], List[Tuple[str, str]]]:
    """Of so many yards what was compared, and what differs."""
    counted = ("yards", "refused draws", "draws by ranges", "accounts", "drawings made of the account", "points", "clipped", "visible", "hidden")
    met: Counter[str] = collections.Counter(dict.fromkeys(counted, 0))
    wrong: List[Tuple[str, str]] = []
    while met["yards"] < count:
        text = next(texts)
        yard = forms.read(text)
        assert yard.view
        met["yards"] += 1
        try:
            made = yard.scene.lined(yard.view)
            if whole(made, yard.view)[0] == 13:
                met["left out (13)"] += 1
                continue
            ranges_compared(made, yard.view, met)
            account_compared(yard.scene, yard.view, met)
        except Refused as refused:
            if refused.number not in (2, 3, 4, 5, 6, 7, 8, 9, 14):
                wrong.append((f"refused: {refused}", text))
            met[f"refused {refused.number}"] += 1
        except (Wrong, AssertionError, KeyError) as error:
            wrong.append((f"{type(error).__name__}: {error}", text))
    return met, wrong


if __name__ == "__main__":
    if len(sys.argv) != 3:
        sys.exit(__doc__)
    met, wrong = compared(hosts.yards(int(sys.argv[1])), int(sys.argv[2]))
    for what, text in wrong:
        print(f"{what}\n{text}")
    print(", ".join(f"{many:,} {what}" for what, many in met.items()) + f": {len(wrong)} differ")
    sys.exit(bool(wrong))
