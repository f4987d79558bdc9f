"""A yard that turns under the mouse: a page in the browser (turn.html), served on this machine only.

The page asks for a frame, and is handed the draw of the proved library: a coarser one while it is dragged, a fine one
at rest. A click asks which part hides the line that is missing there; the sheet is the one that `sheet` would write.

Nobody else is served: the address is 127.0.0.1, a request that names another host is refused (so no name of another
machine can be made to mean this one), a question must come as JSON, which no page of another origin may send without
asking first, and paths are compared with a list, so that no file can be named.
"""
from __future__ import annotations

import dataclasses
import http.server
import itertools
import json
import math
import pathlib
import threading
from array import array
from typing import Any, Callable, Dict, Optional, Tuple

from . import account, diagnosis, hidden, library, matrices, sheets, solids
from .camera import Camera, View
from .progress import STACK
from .refusals import Refused
from .scene import COARSE, MOST_POINTS, Part, Room, Scene, rooms

PAGE = pathlib.Path(__file__).with_name("turn.html")
LARGEST = 4096  # bytes of a question
LEVELS = ((1, 72), (2, 48), (4, 36), (8, 24), (16, 18), (32, 12))  # how many times the step, and the most points of a ring
HEADERS = {
    "Cache-Control": "no-store",
    "X-Content-Type-Options": "nosniff",
    "Content-Security-Policy": "default-src 'none'; script-src 'unsafe-inline'; style-src 'unsafe-inline'; connect-src 'self'; frame-ancestors 'none'",
}


class Frames:
    """Draws a scene again and again: its solids are laid out once, and the room that one draw needed is lent to the next."""

    def __init__(self, scene: Scene, points: int, rounds: bool) -> None:
        def coarser(solid: Any) -> Any:
            return dataclasses.replace(solid, points=min(points, solid.points))

        self.made = Scene([solids.changed(part.solid, coarser) for part in scene.parts]).slices()
        self.rounds = rounds
        self.room: Optional[Room] = None
        self.lock = threading.Lock()

    def draw(self, view: View) -> Room:
        """The room with the drawing in it; the caller holds the lock."""
        self.made.outline(view, self.rounds)
        answer = self.room.draw(self.made, view, COARSE) if self.room else 13
        for points in rooms(self.made, MOST_POINTS) if answer == 13 else ():
            if not self.room or points > self.room.points:
                self.room = Room(self.made, points)
                answer = self.room.draw(self.made, view, COARSE)
            if answer != 13:
                break
        if answer:
            raise diagnosis.refused(answer, self.made, view, COARSE, MOST_POINTS)
        assert self.room
        return self.room

    def bytes(self, view: View) -> bytes:
        """The drawing as the page takes it, in f64: how many paths, where each starts, in points, and three numbers a point."""
        with self.lock:
            room = self.draw(view)
            starts = room.starts()
            return array("d", [len(starts), *starts]).tobytes() + room.numbers()


class Turning:
    """A yard on the page: what is asked of it, and how that is answered."""

    def __init__(self, scene: Scene, camera: Camera, sheet: sheets.Sheet, name: str = "yard", command: str = "") -> None:
        scene.boxes()  # a yard that is not accepted is told of before the page is
        self.scene, self.camera, self.sheet, self.name, self.command = scene, camera, sheet, name, command
        self.frames = [Frames(scene, points, level == 0) for level, (_, points) in enumerate(LEVELS)]

    def start(self) -> Dict[str, Any]:
        """Where the page begins."""
        seen = self.camera
        return {"name": self.name, "parts": len(self.scene.parts), "levels": len(LEVELS), "width": seen.width, "height": seen.height,
                "eye": list(seen.eye), "target": list(seen.target), "fov": seen.field_of_view, "command": self.command,
                "hidden": library.there(library.account)}

    def seen(self, asked: Dict[str, Any], level: int = 0) -> View:
        """The view of a question, with the step of a level."""
        eye, target, fov = three(asked["eye"]), three(asked["target"]), float(asked["fov"])
        step = min(1000.0, self.camera.step * LEVELS[level][0])
        return dataclasses.replace(self.camera, eye=eye, target=target, field_of_view=fov, step=step).view()

    def frame(self, asked: Dict[str, Any]) -> bytes:
        level = min(len(LEVELS) - 1, max(0, int(asked["level"])))
        return self.frames[level].bytes(self.seen(asked, level))

    def drawn(self, asked: Dict[str, Any]) -> str:
        """The sheet, with the lines of the page at rest, and the hidden ones where the question has them."""
        view = self.seen(asked)
        dashed = account.on_sheet(self.scene, view) if asked.get("hidden") else None
        return sheets.svg(self.sheet.laid(self.scene.draw(view), hidden=dashed))

    def dashed(self, asked: Dict[str, Any]) -> bytes:
        """The hidden lines of the page at rest, as it takes a frame."""
        paths = account.on_sheet(self.scene, self.seen(asked)).paths
        starts = [0, *itertools.accumulate(map(len, paths))][: len(paths)]
        return array("d", [len(paths), *starts, *(x for path in paths for p in path for x in p)]).tobytes()

    def why(self, asked: Dict[str, Any]) -> Dict[str, Any]:
        """What is said of a spot, and where to mark it."""
        view, at, within = self.seen(asked), (float(asked["at"][0]), float(asked["at"][1])), float(asked["within"])
        if not all(map(math.isfinite, (*at, within))):
            raise ValueError("a spot is two finite numbers")
        told = hidden.told(self.scene, view, at, within)
        if told is None:
            return {"said": "No line passes here.", "spot": at, "line": None, "by": None}
        said = f"The line of {named(told.line)} is "
        if told.by is None:
            said += "seen here."
        else:
            first = hidden.first_met(self.scene, view.eye, told.point)  # the library names the part that is nearest to the line
            before = f"; the eye meets {named(first)} before that" if first and first is not told.by else ""
            said += f"hidden here by {'itself' if told.by is told.line else named(told.by)}{before}."
        return {"said": said, "spot": told.spot, "line": told.line.number, "by": told.by and told.by.number}


def three(values: Any) -> Tuple[float, float, float]:
    x, y, z = map(float, values)
    return (x, y, z)


def named(part: Part) -> str:
    """A part's name, what it is and where it stands in the text."""
    line = f", text line {part.solid.source[0]}" if part.solid.source else ""
    return f"{part.title()} ({solids.described(part.solid)}{line})"


class Handler(http.server.BaseHTTPRequestHandler):
    """Answers the page, and nobody else."""

    protocol_version = "HTTP/1.1"
    disable_nagle_algorithm = True
    timeout = 600  # of a connection that says nothing
    server: "Server"

    def reply(self, code: int, kind: str, body: bytes) -> None:
        self.send_response(code)
        for name, value in {**HEADERS, "Content-Type": kind, "Content-Length": str(len(body))}.items():
            self.send_header(name, value)
        if code >= 400:
            self.send_header("Connection", "close")  # what was sent with it is not read
        self.end_headers()
        self.wfile.write(body)

    def turned_away(self, code: int, words: str) -> None:
        self.reply(code, "text/plain; charset=utf-8", words.encode())

    def ours(self) -> bool:
        """Whether the request names this machine as the one that it is meant for."""
        here = {f"{name}:{self.server.server_port}" for name in ("127.0.0.1", "localhost")}
        if self.headers.get("Host") in here:
            return True
        self.turned_away(403, "this page is for the machine that serves it")
        return False

    def do_GET(self) -> None:
        if self.ours():
            if self.path == "/":
                self.reply(200, "text/html; charset=utf-8", self.server.page)
            else:
                self.turned_away(404, "there is one page, /")

    def do_POST(self) -> None:
        if not self.ours():
            return
        answer = self.server.answers.get(self.path)
        length = self.headers.get("Content-Length", "")
        if answer is None:
            self.turned_away(404, "no such question")
        elif self.headers.get("Content-Type") != "application/json":
            self.turned_away(415, "a question is JSON")
        elif not length.isdecimal() or len(length) > 9 or int(length) > LARGEST:
            self.turned_away(413, f"a question has {LARGEST:,} bytes at most")
        else:
            self.asked(answer, self.rfile.read(int(length)))

    def asked(self, answer: "Answer", body: bytes) -> None:
        try:
            kind, said = answer(json.loads(body))
        except (Refused, library.Missing) as refusal:
            self.turned_away(409, str(refusal))
        except (ArithmeticError, KeyError, IndexError, RecursionError, TypeError, ValueError) as error:
            self.turned_away(400, f"no question: {error}")
        else:
            self.reply(200, kind, said)

    def log_message(self, *_: Any) -> None:
        """Nothing is said of a request."""


Answer = Callable[[Any], Tuple[str, bytes]]


class Server(http.server.ThreadingHTTPServer):
    """Serves the page of a yard on 127.0.0.1, at a port that is free where none is named."""

    daemon_threads = True

    def __init__(self, turning: Turning, port: int = 0) -> None:
        threading.stack_size(STACK)  # a draw needs more than some systems give a thread
        super().__init__(("127.0.0.1", port), Handler)
        self.page = PAGE.read_bytes()

        def spoken(answer: Callable[[Any], Any]) -> Answer:
            return lambda asked: ("application/json", json.dumps(answer(asked)).encode())

        self.answers: Dict[str, Answer] = {
            "/start": spoken(lambda asked: turning.start()),
            "/why": spoken(turning.why),
            "/hidden": lambda asked: ("application/octet-stream", turning.dashed(asked)),
            "/frame": lambda asked: ("application/octet-stream", turning.frame(asked)),
            "/sheet": lambda asked: ("image/svg+xml", turning.drawn(asked).encode()),
        }

    def address(self) -> str:
        return f"http://127.0.0.1:{self.server_port}/"


def short(x: float) -> float:
    """So that the command on the page has numbers that one can read."""
    return float(f"{x:.7g}")


def starting(scene: Scene, view: Optional[View], wide: float, high: float, step: float) -> Camera:
    """The camera that the page begins with: where the text looks from, or else from a corner of the yard; it turns about
    the place before the eye that is nearest to the middle of the yard."""
    boxes = scene.boxes()
    if not boxes:
        raise ValueError("the yard has no solids, so there is nothing to turn")
    least, most = ([edge(box[side][k] for box in boxes) for k in range(3)] for side, edge in ((0, min), (1, max)))
    middle, size = [(a + b) / 2 for a, b in zip(least, most)], math.dist(least, most) or 1.0
    angle = view.field_of_view() if view else None
    if view is None or angle is None:
        away = size / 2 / math.sin(math.radians(20))  # as far as a ball about the yard fills a field of view of 40
        return Camera(matrices.along(middle, matrices.unit((1, -2, 1)), away), middle, field_of_view=40.0, width=wide, height=high, step=step)
    ahead = matrices.unit(view.matrix[3][:3])
    far = max(matrices.dot(matrices.minus(middle, view.eye), ahead), size / 100)
    target, angle = [short(x) for x in matrices.along(view.eye, ahead, far)], short(angle)
    return Camera(view.eye, target, field_of_view=angle, width=view.width, height=view.height, step=step)
