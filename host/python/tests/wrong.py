"""Yards that are refused, one for each number that a sheet can meet, and the options that it takes."""
from __future__ import annotations

import pathlib
import struct
import sys
from typing import Dict, List, Tuple

VIEW = "(view 1200 800 8 0 -20 6 #3FF4000000000000 0 0 0 0 0 2 -12 0 1 0 20 0 1 0 20)"


def hexed(x: float) -> str:
    """An f64 as # and 16 digits."""
    return "#" + struct.pack(">d", x).hex().upper()


def placed(matrix: str, form: str) -> str:
    return f"(place {matrix} {form})"


def nested(depth: int) -> str:
    form = "(cube 1 0 0 0 1 1 1)"
    for _ in range(depth - 1):
        form = placed("1 0 0 0 0 1 0 0 0 0 1 0 0 0 0 1", form)
    return form


def boxes_in_boxes() -> List[str]:
    """Each eight times as large as the one before, so that the tree is as deep as there are boxes."""
    sizes = [1e-57 * 8.0**k for k in range(66)]
    return [f"(cube 1 0 0 0 {hexed(s)} {hexed(s)} {hexed(s)})" for s in sizes]


# half as large, so that a miss comes back as half of INF, which a cut takes for a hit and restarts at
HALF = "{0} 0 0 0 0 {0} 0 0 0 0 {0} 0 0 0 0 1".format(hexed(0.5))
CUBE = "(cube 1 0 0 0 1 1 1)"

# number: the forms, and the options beside them
CASES: Dict[int, Tuple[List[str], List[str]]] = {
    1: ([VIEW, CUBE, "(cylinder 2 0)"], []),
    2: ([VIEW] + ["(sphere 0 0 0 1)"] * 1025, []),
    3: ([VIEW, f"(cut 4 {CUBE} (sphere 0 0 0 1))"], []),
    4: ([VIEW, nested(9)], []),
    5: ([VIEW, CUBE, "(place 1 0 0 4 0 1 0 0 0 0 1 0 0 0 0 1 (cylinder -2 0 7))"], []),
    6: ([VIEW, placed("1 0 0 4 0 1 0 0 0 0 0 0 0 0 0 1", CUBE)], []),
    7: ([VIEW, placed("1 0 0 1000000 0 1 0 0 0 0 1 0 0 0 0 1", CUBE)], []),
    8: ([VIEW.replace("1200 800 8", "1200 800 -8"), CUBE], []),
    9: ([VIEW, CUBE, f"(sphere 0 0 0 1 (line 0 0 2 {hexed(2e6)} 0 2))"], []),
    11: ([VIEW, CUBE, f"(cut 0 {placed(HALF, CUBE)} (sphere 0 0 0 1))"], []),
    12: ([VIEW] + boxes_in_boxes(), []),
    13: ([VIEW, CUBE], ["--most-points", "20"]),
    14: ([VIEW, "(cone 2 3 361)"], []),
}


def write(folder: pathlib.Path) -> None:
    folder.mkdir(parents=True, exist_ok=True)
    for number, (forms, _) in CASES.items():
        (folder / f"{number}.yard").write_text("\n".join(forms) + "\n")


if __name__ == "__main__":
    if len(sys.argv) != 2:
        sys.exit("wrong.py FOLDER: writes the refused yards")
    write(pathlib.Path(sys.argv[1]))
