"""Yards written in canonical form, and one yard made of two: by the proved library, from texts to a text.

The canonical form has one form a line, single spaces, counts in decimal and every other number by its bits. Needs
libhost_text.a (`tools/archives host_text`), and to merge libhost_merge.a (`tools/archives host_merge`).
"""
from __future__ import annotations

from ctypes import byref, c_size_t, c_uint8
from typing import Optional

from . import diagnosis, forms, library
from .camera import View
from .refusals import Refused
from .scene import Slices

MOST_BYTES = 1 << 28  # the longest text that is written


def slices_of(yard: forms.Yard, view: View) -> Slices:
    """The scene of a text with its lines; a `Refused` where the library does not accept it."""
    yard.scene.boxes()
    return yard.scene.slices(view)


def written(scene: list, view: View) -> str:
    """A scene, as the library takes it, and a view in canonical form."""
    room = 1 << 16
    while True:
        filled, count = (c_uint8 * room)(), c_size_t()
        answer = library.text().larnt_write(*scene, library.numbers(view.numbers()), filled, room, byref(count))
        if answer != 13 or room >= MOST_BYTES:
            break
        room *= 4
    if answer:
        raise Refused(answer, next(diagnosis.view_troubles(view, None), None) if answer == 8 else None)
    return bytes(filled[: count.value]).decode("ascii")


def canonical(yard: forms.Yard) -> str:
    """The text of a yard in canonical form."""
    view = needed(yard.view)
    return written(slices_of(yard, view).arguments(), view)


def merged(first: forms.Yard, second: forms.Yard) -> str:
    """One yard of two, in canonical form: the solids of the first and then those of the second, as the first's view sees
    them, or the second's where the first has none."""
    view = needed(first.view or second.view)
    one, two = slices_of(first, view), slices_of(second, view)
    return written(one.merged(two), view)


def needed(view: Optional[View]) -> View:
    if view is None:
        raise ValueError("no (view ..) is there, and a yard's text begins with one")
    return view
