"""A draw by ranges of its parts, one after the other or with several threads (`libhost_parts.a`).

The drawing of a scene is the drawings of its parts, one after the other, bit for bit, while all solids hide: that is
proved of the library. So a draw may go part by part: each path has its part, one can say how far it is, and stop in
between. What is drawn is returned only when every part has been.
"""
from __future__ import annotations

import queue
import threading
import time
from array import array
from ctypes import byref
from typing import Dict, List, Optional, Sequence, Tuple

from . import diagnosis, library, solids
from .camera import View
from .progress import STACK
from .scene import A_PART, FEW_POINTS, Part, Room, Slices, Told, small_rooms

Range = Tuple[int, int]  # the first of the drawn parts, from 0, and how many
Piece = Tuple[bytes, List[int]]  # the points of a range, and where each path starts, in points


class OutOfTime(Exception):
    """A draw took longer than it was given, and nothing of it is returned: `under_way` are the parts that were being drawn,
    `done` of `of` parts had been."""

    def __init__(self, seconds: float, under_way: Sequence[Part], done: int, of: int) -> None:
        self.seconds, self.under_way, self.done, self.of = seconds, list(under_way), done, of
        names = ", ".join(f"{part.title()} ({solids.described(part.solid)})" for part in under_way[:3]) + (", .." if len(under_way) > 3 else "")
        super().__init__(f"the draw is not done after {seconds:g} s: {done:,} of {of:,} parts are drawn, and {names} {'was' if len(under_way) == 1 else 'were'} under way")


class Rooms:
    """What the ranges of one thread are drawn in: a room of each size, lent again and again. A range has the smallest that
    suffices, since a call clears all that it is lent."""

    def __init__(self, made: Slices, view: View, threshold: float, most_points: int) -> None:
        self.made, self.threshold, self.most_points = made, threshold, most_points
        self.handed, self.view = made.arguments(), library.numbers(view.numbers())
        self.rooms: Dict[int, Room] = {}
        self.last = FEW_POINTS  # what the last range of several parts had: they are much alike, and single parts are not

    def draw(self, asked: Range) -> Tuple[int, Piece]:
        """The library's answer, and the range where that is 0."""
        several = 1 < asked[1] <= len(self.made.drawn)
        for points in small_rooms(self.most_points, max(self.last, A_PART * asked[1]) if several else FEW_POINTS):
            if points not in self.rooms:
                self.rooms[points] = Room(self.made, points)
                self.rooms[points].lend(points, points)
            room = self.rooms[points]
            filled = [*room.out, *room.begins, *room.work, *room.tree, byref(room.points_out), byref(room.paths_out)]
            answer = library.parts().larnt_draw_range(*self.handed, self.view, self.threshold, *asked, *filled)
            if answer != 13:
                break
        if several:
            self.last = points
        return answer, (room.numbers(), room.starts())


class Work:
    """The ranges of a draw, which threads take in their order, and what they made of them."""

    def __init__(self, ranges: Sequence[Range]) -> None:
        self.ranges, self.lock = ranges, threading.Lock()
        self.taken, self.end = 0, len(ranges)  # those from `end` on are not begun
        self.under_way: Dict[int, Range] = {}
        self.finished: "queue.SimpleQueue[Tuple[int, object]]" = queue.SimpleQueue()

    def take(self) -> Optional[int]:
        with self.lock:
            if self.taken >= self.end:
                return None
            self.under_way[self.taken] = self.ranges[self.taken]
            self.taken += 1
            return self.taken - 1

    def stop(self) -> None:
        with self.lock:
            self.end = 0

    def run(self, rooms: Rooms) -> None:
        """What a thread does, until no range is left or one is refused; those before that one are drawn to their end."""
        for k in iter(self.take, None):
            try:
                made: object = rooms.draw(self.ranges[k])
            except BaseException as error:  # handed to the caller
                made = error
            with self.lock:
                del self.under_way[k]
                if isinstance(made, BaseException) or made[0]:  # type: ignore[index]
                    self.end = min(self.end, k)
            self.finished.put((k, made))


def split(parts: int, into: int) -> List[Range]:
    """So many parts in so many ranges, as even as can be."""
    edges = [parts * k // into for k in range(into + 1)]
    return [(a, b - a) for a, b in zip(edges, edges[1:]) if b > a]


def drawn(
    made: Slices, view: View, threshold: float, most_points: int, ranges: Sequence[Range], threads: int = 1, told: Optional[Told] = None, seconds: Optional[float] = None
) -> List[Piece]:
    """The drawing of each range, in their order. The threads take one after the other. This one waits for them, tells how
    many parts are done, and ends the work at an error, at Ctrl-C and when the time is over: a thread then draws the range
    that it is at to its end, for nobody, and begins none. The refusal is that of the first range that meets one."""
    parts, work, pieces = list(made.drawn.values()), Work(ranges), [None] * len(ranges)
    until = None if seconds is None else time.monotonic() + seconds
    troubles: Dict[int, object] = {}
    done = 0
    library.parts()  # before the threads are there: what is missing is told here
    before = threading.stack_size(STACK)
    try:
        workers = [threading.Thread(target=work.run, args=(Rooms(made, view, threshold, most_points),), daemon=True) for _ in range(max(1, min(threads, len(ranges))))]
        for worker in workers:
            worker.start()
    finally:
        threading.stack_size(before)
    try:
        waiting = set(range(len(ranges)))
        while any(k < min(troubles, default=len(ranges)) for k in waiting):
            try:
                k, one = work.finished.get(timeout=None if until is None else max(0.0, until - time.monotonic()))
            except queue.Empty:
                raise out_of_time(seconds or 0.0, work, parts, done) from None
            waiting.discard(k)
            if isinstance(one, BaseException) or one[0]:  # type: ignore[index]
                troubles[k] = one
                continue
            pieces[k] = one[1]  # type: ignore[index]
            done += ranges[k][1]
            if told:
                told(done, len(parts))
    finally:
        work.stop()
    if troubles:
        first = troubles[min(troubles)]
        if isinstance(first, BaseException):
            raise first
        raise refused(first[0], made, view, threshold, most_points, parts, ranges[min(troubles)])  # type: ignore[index]
    return pieces  # type: ignore[return-value]


def refused(number: int, made: Slices, view: View, threshold: float, most_points: int, parts: Sequence[Part], asked: Range) -> Exception:
    """The refusal of a range; where it is one part's, and nothing else is known of it, it has that part."""
    refusal = diagnosis.refused(number, made, view, threshold, most_points)
    if refusal.part is None and asked[1] == 1 and number in (9, 11, 12, 13):
        refusal.part = parts[asked[0]].title()
    return refusal


def out_of_time(seconds: float, work: Work, parts: Sequence[Part], done: int) -> OutOfTime:
    with work.lock:
        begun = sorted(work.under_way.values()) or list(work.ranges[work.taken : work.taken + 1])
    return OutOfTime(seconds, [part for first, many in begun for part in parts[first : first + many]], done, len(parts))


def joined(pieces: Sequence[Piece]) -> Tuple["array[float]", List[int]]:
    """The drawings one after the other: their points, and where each path starts."""
    numbers, starts = array("d"), []
    for points, own in pieces:
        before = len(numbers) // 3
        starts += [before + start for start in own]
        numbers.frombytes(points)
    return numbers, starts
