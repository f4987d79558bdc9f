"""The proved library as a shared object, and the types of its calls (host/larnt.h).

`tools/archives host` writes the proved archive target/staticlib/libhost.a; the system's C compiler makes a shared
object of it, once, beside it. LARNT_STATICLIB names another folder with the archive, CC another compiler.
"""
from __future__ import annotations

import ctypes
import functools
import operator
import os
import pathlib
import subprocess
import threading
from array import array
from ctypes import POINTER, c_bool, c_double, c_int64, c_size_t, c_uint8, c_uint16, c_uint32
from typing import Callable, Sequence

ENTRIES = 1024  # the most entries of a scene
NOBODY = 0xFFFFFFFF  # the entry that is named where none is
VISIBLE, CLIPPED, MET = 0xFFFFFFFF, 0xFFFFFFFE, 0xFFFFFF00  # what becomes of a point: MET and a number, and below it the entry that hides it

# a slice is a pointer and a count of elements
NUMBERS, MARKS, PLACES, BYTES = ([POINTER(kind), c_size_t] for kind in (c_double, c_uint32, c_size_t, c_uint8))
SCENE = NUMBERS + MARKS + NUMBERS + PLACES + MARKS
TREE = NUMBERS + MARKS + MARKS
COUNT, FLAG, ROW, REST = POINTER(c_size_t), POINTER(c_bool), POINTER(c_double), POINTER(c_int64)
WORK = NUMBERS + PLACES + NUMBERS + PLACES + NUMBERS + MARKS + MARKS + [COUNT, COUNT]

HOST = {
    "larnt_sqrt": [c_double, REST],
    "larnt_length": [ROW, REST],
    "larnt_distance": [ROW, ROW, REST],
    "larnt_check": SCENE + [ROW, ROW, POINTER(c_uint32), COUNT],
    "larnt_own_hit": SCENE + [c_size_t, ROW, ROW, FLAG],
    "larnt_own_contains": SCENE + [c_size_t, ROW, c_double, FLAG],
    "larnt_build": SCENE + TREE + [COUNT],
    "larnt_intersect": SCENE + TREE + [ROW, ROW, FLAG, POINTER(c_uint32)],
    "larnt_visible": SCENE + TREE + [ROW, ROW, FLAG],
    "larnt_occluder": SCENE + TREE + [ROW, ROW, POINTER(c_uint32)],
    "larnt_covered": SCENE + TREE + [ROW, ROW, FLAG],
    "larnt_covered_all": SCENE + TREE + [ROW] + NUMBERS + BYTES,
    "larnt_outline": [c_uint32, ROW, ROW] + NUMBERS + [ROW] + NUMBERS + PLACES + [COUNT, COUNT],
    "larnt_simplify": NUMBERS + PLACES + [c_double] + NUMBERS + PLACES + [COUNT, COUNT],
    "larnt_project": [ROW, ROW, ROW],
    "larnt_box_test": [ROW, ROW, ROW],
    "larnt_draw_with": SCENE + [ROW, c_double] + NUMBERS + PLACES + WORK,
}

PREVIEW = {"larnt_preview": SCENE + [ROW, c_double, c_size_t, c_size_t] + WORK}
PARTS = {"larnt_draw_range": SCENE + [ROW, c_double, c_size_t, c_size_t] + NUMBERS + PLACES + WORK}
ACCOUNT = {
    "larnt_entry_lines": SCENE + [ROW, c_size_t, c_size_t] + NUMBERS + PLACES + NUMBERS + PLACES + [COUNT, COUNT],
    "larnt_fates": SCENE + TREE + [ROW] + NUMBERS + MARKS,
}
MERGE = {"larnt_merge": SCENE + SCENE + SCENE + [COUNT, COUNT, COUNT]}
TEXT = {"larnt_write": SCENE + [ROW] + BYTES + [COUNT]}


class Registers(ctypes.Structure):
    """`larnt_registers`: where the pen is, where the last accepted move goes, and the eight bytes."""

    _fields_ = [("pen", c_uint16 * 2), ("target", c_uint16 * 2), ("bytes", c_uint8 * 8)]


PLOTTER = {
    "larnt_pick": NUMBERS + PLACES + NUMBERS + PLACES + [ROW] + BYTES + [FLAG, COUNT, COUNT, COUNT],
    "larnt_plotter_write": [POINTER(Registers), c_size_t, c_uint8],
    "larnt_plotter_step": [POINTER(Registers)],
}


ANSWERS = {"larnt_sqrt": c_double, "larnt_length": c_double, "larnt_distance": c_double, "larnt_project": None, "larnt_box_test": None, "larnt_plotter_step": None}  # all others a number


class Missing(Exception):
    """The library is not there, or could not be made; the message says what to do."""


def folder() -> pathlib.Path:
    """Where the archives stand."""
    named = os.environ.get("LARNT_STATICLIB")
    return pathlib.Path(named) if named else pathlib.Path(__file__).resolve().parents[3] / "target" / "staticlib"


def shared(name: str) -> pathlib.Path:
    """The shared object of the archive libNAME.a; it has the archive's time, and is made anew where that is another."""
    archive, made = folder() / f"lib{name}.a", folder() / f"lib{name}.so"
    if not archive.exists():
        raise Missing(f"{archive} is not there: run `tools/archives {name}` in the clone, or name the folder that has it in LARNT_STATICLIB")
    time = archive.stat().st_mtime_ns
    if made.exists() and made.stat().st_mtime_ns == time:
        return made
    fresh = made.with_suffix(f".{os.getpid()}.{threading.get_ident()}.so")
    command = [os.environ.get("CC", "cc"), "-shared", "-o", str(fresh), "-Wl,--whole-archive", str(archive), "-Wl,--no-whole-archive", "-Wl,-z,defs"]
    try:
        subprocess.run(command, check=True, capture_output=True, text=True)
    except FileNotFoundError:
        raise Missing(f"no C compiler: `{command[0]}` is not there, and it links the shared object; CC names another") from None
    except subprocess.CalledProcessError as error:
        raise Missing(f"the shared object could not be linked: {' '.join(command)}\n{error.stderr}") from None
    os.utime(fresh, ns=(time, time))
    os.replace(fresh, made)
    return made


def loaded(name: str, calls: dict) -> ctypes.CDLL:
    opened = ctypes.CDLL(str(shared(name)))
    for call, types in calls.items():
        if not hasattr(opened, call):
            raise Missing(f"{folder() / f'lib{name}.a'} has no call {call}: run `tools/archives {name}` anew")
        function = getattr(opened, call)
        function.argtypes, function.restype = types, ANSWERS.get(call, c_uint32)
    return opened


@functools.lru_cache(maxsize=None)
def host() -> ctypes.CDLL:
    """The calls on roots, scenes, trees and draws."""
    return loaded("host", HOST)


@functools.lru_cache(maxsize=None)
def preview() -> ctypes.CDLL:
    """The counts of a draw."""
    return loaded("host_preview", PREVIEW)


@functools.lru_cache(maxsize=None)
def parts() -> ctypes.CDLL:
    """The draw of some parts."""
    return loaded("host_parts", PARTS)


@functools.lru_cache(maxsize=None)
def account() -> ctypes.CDLL:
    """The lines that a draw tests, and what becomes of their points."""
    return loaded("host_account", ACCOUNT)


@functools.lru_cache(maxsize=None)
def merging() -> ctypes.CDLL:
    """Two scenes made one."""
    return loaded("host_merge", MERGE)


@functools.lru_cache(maxsize=None)
def text() -> ctypes.CDLL:
    """Scenes as canonical text."""
    return loaded("host_text", TEXT)


@functools.lru_cache(maxsize=None)
def plotter() -> ctypes.CDLL:
    """The pen's way and the plotter's registers."""
    return loaded("host_plotter", PLOTTER)


def there(archive: Callable[[], ctypes.CDLL]) -> bool:
    """Whether one of the above is at hand."""
    try:
        archive()
    except Missing:
        return False
    return True


def numbers(values: Sequence[float]) -> "ctypes.Array[c_double]":
    """An array that is never empty: the calls take no null pointer."""
    return (c_double * max(1, len(values))).from_buffer(array("d", values or [0.0]))


def fitting(value: int, bits: int) -> int:
    """A whole number for a place of so many bits without sign. ctypes keeps the low bits of one that does not fit, without a
    word: here it becomes the greatest that fits, which the library turns away by its own number, as it does each that is
    too large."""
    greatest = (1 << bits) - 1
    value = operator.index(value)
    return value if 0 <= value <= greatest else greatest


def marks(values: Sequence[int]) -> "ctypes.Array[c_uint32]":
    """Kinds, details, parts and owners."""
    return (c_uint32 * max(1, len(values)))(*(fitting(value, 32) for value in values))


def places(values: Sequence[int]) -> "ctypes.Array[c_size_t]":
    """Starts of paths."""
    return (c_size_t * max(1, len(values)))(*(fitting(value, 64) for value in values))
