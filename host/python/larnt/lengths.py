"""Lengths with what is left over, by the library: each answers a root, correctly rounded, and its exact remainder.

For a positive finite input the root is R * 2^k with R from 2^52 to 2^53 - 1, the input is S * 4^k, and the remainder is the
whole number S - R * R; else it is 0. So the root is exact where the remainder is 0, below the true one where it is positive,
and above it where it is negative.
"""
from __future__ import annotations

from ctypes import byref, c_int64
from typing import Sequence, Tuple

from . import library, matrices


def sqrt(x: float) -> Tuple[float, int]:
    """The square root: -0 for -0, a NaN for a negative and for a NaN."""
    rest = c_int64()
    return library.host().larnt_sqrt(x, byref(rest)), rest.value


def length(v: Sequence[float]) -> Tuple[float, int]:
    """Of a vector; the remainder is that of the computed sum of squares."""
    rest = c_int64()
    return library.host().larnt_length(library.numbers(matrices.vector(v)), byref(rest)), rest.value


def distance(a: Sequence[float], b: Sequence[float]) -> Tuple[float, int]:
    """Of two points; the remainder is that of the computed sum of squares."""
    rest = c_int64()
    return library.host().larnt_distance(library.numbers(matrices.vector(a)), library.numbers(matrices.vector(b)), byref(rest)), rest.value
