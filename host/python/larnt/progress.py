"""A bar for work that takes longer than a second."""
from __future__ import annotations

import sys
import threading
import time
from typing import Callable, Optional, TextIO, TypeVar

Made = TypeVar("Made")
WAIT, WIDE = 1.0, 30  # seconds before the bar shows, and its width
STACK = 8 << 20  # of the thread that works: a draw needs up to 725 KB, more than some systems give a thread


def bar(share: float, seconds: float) -> str:
    """What is shown after so many seconds, where the work is guessed to be done by that share."""
    full = round(WIDE * min(share, 0.99))
    return f"[{'#' * full}{'.' * (WIDE - full)}] about {round(100 * min(share, 0.99)):2d} %, {seconds:.0f} s"


class Counted:
    """A bar on a terminal of how many parts are drawn, once that takes longer than a second. It is full by parts, not by time."""

    def __init__(self, to: Optional[TextIO] = None) -> None:
        self.to, self.begun, self.drawn = to or sys.stderr, time.monotonic(), False

    def __call__(self, done: int, of: int) -> None:
        seconds = time.monotonic() - self.begun
        if self.to.isatty() and seconds > WAIT:
            self.drawn = True
            full = WIDE * done // max(1, of)
            self.to.write(f"\r[{'#' * full}{'.' * (WIDE - full)}] {done:,} of {of:,} parts, {seconds:.0f} s")
            self.to.flush()

    def clear(self) -> None:
        if self.drawn:
            self.to.write("\r" + " " * (WIDE + 40) + "\r")
            self.to.flush()


def shown(work: Callable[[], Made], guess: float, to: Optional[TextIO] = None) -> Made:
    """Does the work, and shows a bar on a terminal once it takes longer than a second; `guess` is how long it may take."""
    to = to or sys.stderr
    made, trouble = [], []

    def run() -> None:
        try:
            made.append(work())
        except BaseException as error:  # handed to the caller below
            trouble.append(error)

    thread, begun = threading.Thread(target=run, daemon=True), time.monotonic()
    before = threading.stack_size(STACK)
    thread.start()
    threading.stack_size(before)
    thread.join(WAIT)
    drawn = to.isatty() and thread.is_alive()
    while thread.is_alive():
        seconds = time.monotonic() - begun
        if drawn:
            to.write("\r" + bar(seconds / max(guess, 1e-9), seconds))
            to.flush()
        thread.join(0.1)
    if drawn:
        to.write("\r" + " " * (WIDE + 30) + "\r")
        to.flush()
    if trouble:
        raise trouble[0]
    return made[0]
