"""Vectors of three numbers, and matrices of four rows. Angles are degrees.

Sums are written out: later versions of Python round those of `sum` and `math.dist` otherwise, and a sheet should have the
same numbers with each.
"""
from __future__ import annotations

import functools
import math
from typing import Sequence, Tuple

Vector = Tuple[float, float, float]
Row = Tuple[float, float, float, float]
Matrix = Tuple[Row, Row, Row, Row]

IDENTITY: Matrix = ((1.0, 0.0, 0.0, 0.0), (0.0, 1.0, 0.0, 0.0), (0.0, 0.0, 1.0, 0.0), (0.0, 0.0, 0.0, 1.0))


def vector(v: Sequence[float]) -> Vector:
    x, y, z = v
    return (float(x), float(y), float(z))


def minus(a: Sequence[float], b: Sequence[float]) -> Vector:
    return (a[0] - b[0], a[1] - b[1], a[2] - b[2])


def along(start: Sequence[float], way: Sequence[float], far: float) -> Vector:
    return (start[0] + way[0] * far, start[1] + way[1] * far, start[2] + way[2] * far)


def dot(a: Sequence[float], b: Sequence[float]) -> float:
    return a[0] * b[0] + a[1] * b[1] + a[2] * b[2]


def cross(a: Sequence[float], b: Sequence[float]) -> Vector:
    return (a[1] * b[2] - a[2] * b[1], a[2] * b[0] - a[0] * b[2], a[0] * b[1] - a[1] * b[0])


def length(v: Sequence[float]) -> float:
    return math.sqrt(dot(v, v))


def distance(a: Sequence[float], b: Sequence[float]) -> float:
    return length(minus(a, b))


def unit(v: Sequence[float]) -> Vector:
    by = length(v)
    if not by > 0:
        raise ValueError("a direction of length 0")
    return (v[0] / by, v[1] / by, v[2] / by)


def matrix(rows: Sequence[Sequence[float]]) -> Matrix:
    a, b, c, d = (tuple(map(float, row)) for row in rows)
    return (a, b, c, d)  # type: ignore[return-value]


def by_rows(values: Sequence[float]) -> Matrix:
    """Sixteen numbers as four rows."""
    return matrix([values[4 * i : 4 * i + 4] for i in range(4)])


def flat(m: Matrix) -> list[float]:
    return [x for row in m for x in row]


def product(a: Matrix, b: Matrix) -> Matrix:
    columns = list(zip(*b))
    return matrix([[x * p + y * q + z * r + w * s for p, q, r, s in columns] for x, y, z, w in a])


def moved(x: float, y: float, z: float) -> Matrix:
    return matrix([[*row[:3], by] for row, by in zip(IDENTITY, (x, y, z))] + [IDENTITY[3]])


def stretched(x: float, y: float, z: float) -> Matrix:
    return matrix([[by * n for n in row] for row, by in zip(IDENTITY, (x, y, z))] + [IDENTITY[3]])


def turned(axis: str, degrees: float) -> Matrix:
    """About the axis "x", "y" or "z"."""
    c, s = math.cos(math.radians(degrees)), math.sin(math.radians(degrees))
    k = "xyz".index(axis)
    i, j = (k + 1) % 3, (k + 2) % 3
    rows = [list(row) for row in IDENTITY]
    rows[i][i], rows[i][j], rows[j][i], rows[j][j] = c, -s, s, c
    return matrix(rows)


def towards(start: Sequence[float], end: Sequence[float]) -> Matrix:
    """Takes the Z axis to the line from one point to the other."""
    f = unit(minus(end, start))
    s = unit(cross((0, 0, 1) if abs(f[2]) < 0.9 else (1, 0, 0), f))
    u = cross(f, s)
    return matrix([[s[i], u[i], f[i], start[i]] for i in range(3)] + [IDENTITY[3]])


@functools.lru_cache(maxsize=2048)
def inverse(m: Matrix) -> Matrix:
    """By elimination; a ValueError where there is none."""
    rows = [[*map(float, m[i]), *IDENTITY[i]] for i in range(4)]
    for k in range(4):
        pivot = max(range(k, 4), key=lambda i: abs(rows[i][k]))
        if rows[pivot][k] == 0:
            raise ValueError("a matrix without an inverse")
        rows[k], rows[pivot] = rows[pivot], rows[k]
        rows[k] = [x / rows[k][k] for x in rows[k]]
        for i in range(4):
            if i != k:
                rows[i] = [x - rows[i][k] * y for x, y in zip(rows[i], rows[k])]
    return matrix([row[4:] for row in rows])


def applied(row: Row, x: float, y: float, z: float) -> float:
    """`dot` of a row and a point with 1.0 for its fourth, written out: frames ask it of every point."""
    return 0.0 + row[0] * x + row[1] * y + row[2] * z + row[3]


def placed(m: Matrix, p: Sequence[float]) -> Vector:
    """A point, by a matrix whose last row is that of the identity."""
    return (applied(m[0], *p), applied(m[1], *p), applied(m[2], *p))


def projected(m: Matrix, p: Sequence[float]) -> Tuple[float, float, float, float]:
    """A point by all four rows: the fourth is what the first three are divided by."""
    return (applied(m[0], *p), applied(m[1], *p), applied(m[2], *p), applied(m[3], *p))
