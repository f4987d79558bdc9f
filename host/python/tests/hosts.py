"""The three hosts against the program `yard` on random yards, half of them at step 0:

    python3 host/python/tests/hosts.py SEED COUNT

Each host draws in fine detail, as `yard` does, and must print its very lines. C and Rust do it by their examples, which are
built first; Python with the preview and without. Yards for which `yard` has no places (13) are counted, and left out.
"""
from __future__ import annotations

import math
import os
import pathlib
import random
import re
import shutil
import subprocess
import sys
import tempfile
from typing import Callable, Dict, Iterator, List, Tuple
from unittest import mock

if __name__ == "__main__":
    sys.path.insert(0, str(pathlib.Path(__file__).resolve().parents[1]))

from larnt import FINE, Camera, Refused, forms, library, matrices

ROOT = pathlib.Path(__file__).resolve().parents[3]
YARD = ROOT / "target/bin/yard"
COMPILER, CARGO = shutil.which(os.environ.get("CC", "cc")), shutil.which("cargo")

FLAT = "(view 2 2 0 0 0 5 1 0 0 0 0 1 0 0 0 0 1 0 0 0 0 1)\n"
SMALLEST = {
    "all is clipped": FLAT + "(triangle 10 0 0 11 0 0 10 1 0)\n",
    "the last point of the last path is hidden": FLAT
    + "(cube 1 #BFC0000000000000 #BFC0000000000000 #3FC0000000000000 #3FC0000000000000 #3FC0000000000000 #3FD0000000000000)\n"
    + "(triangle 0 0 0 #3FE0000000000000 0 0 0 #3FE0000000000000 0)\n",
}


# ---- yards


class Maker:
    """Makes yards as text. At step 0 a cut's lines are chopped without end, so there its parts have none."""

    def __init__(self, rng: random.Random, still: bool) -> None:
        self.rng, self.still = rng, still

    def numbers(self, *xs: float) -> str:
        return forms.numbers([float(x) for x in xs])

    def near(self, far: float = 1.2) -> float:
        return round(self.rng.uniform(-far, far), self.rng.choice((0, 2, 9)))

    def size(self) -> float:
        return self.rng.uniform(0.05, 0.6)

    def lines(self, bare: bool) -> str:
        """Of a round solid: none, so that the core makes its outline, stripes apart; one without points; or some."""
        how = "empty" if bare else self.rng.choice(("none", "none", "empty", "some"))
        if how == "none":
            return ""
        count = 0 if how == "empty" else self.rng.randrange(1, 4)
        made = [" ".join(["(line", *(self.numbers(*(self.near() for _ in range(3))) for _ in range(self.rng.randrange(1, 5)))]) + ")" for _ in range(count)]
        return " " + " ".join(made or ["(line)"])

    def cube(self) -> str:
        low = [self.near() for _ in range(3)]
        return f"(cube {self.rng.choice((1, 1, 1, 2, 3))} {self.numbers(*low, *(x + self.size() for x in low))})"

    def triangle(self) -> str:
        return f"(triangle {self.numbers(*(self.near() for _ in range(9)))})"

    def round(self, bare: bool = False) -> str:
        head = self.rng.choice(("sphere", "cylinder", "cone", "closed-cylinder", "closed-cone"))
        if head == "sphere":
            return f"(sphere {self.numbers(*(self.near() for _ in range(3)), self.size())}{self.lines(bare)})"
        low = self.near()
        measures = (self.size(), low, low + 2 * self.size()) if "cylinder" in head else (self.size(), 2 * self.size())
        stripes = "" if bare else self.rng.choice(("", "", " 0", " 5", " 24"))
        return f"({head} {self.numbers(*measures)}{stripes}{self.lines(bare)})"

    def placed(self, form: str) -> str:
        turned = matrices.product(matrices.turned("z", self.rng.uniform(0, 360)), matrices.turned("x", self.rng.uniform(0, 360)))
        stretched = matrices.stretched(*(self.rng.uniform(0.5, 1.5) for _ in range(3)))
        matrix = matrices.product(matrices.moved(self.near(0.8), self.near(0.8), self.near(0.8)), matrices.product(turned, stretched))
        return f"(place {self.numbers(*matrices.flat(matrix))} {form})"

    def cut(self) -> str:
        def part() -> str:
            made = self.round(True) if self.still else self.rng.choice((self.cube, self.round))()
            return self.placed(made) if self.rng.random() < 0.3 else made

        return f"(cut {self.rng.randrange(4)} {part()} {part()})"

    def form(self) -> str:
        made = self.rng.choice((self.cube, self.cube, self.triangle, self.triangle, self.round, self.round, self.cut))()
        return self.placed(made) if self.rng.random() < 0.3 else made

    def view(self) -> str:
        step = 0.0 if self.still else self.rng.choice((8.0, 12.5, 20.0, 60.0))
        wide, high = self.rng.choice(((2.0, 2.0), (400.0, 300.0), (640.0, 480.0)) if self.still else ((400.0, 300.0), (640.0, 480.0)))
        if self.rng.random() < 0.3:
            return f"(view {self.numbers(wide, high, step)} 0 0 5 1 0 0 0 0 1 0 0 0 0 1 0 0 0 0 1)"
        turn, up = self.rng.uniform(0, 2 * math.pi), self.rng.uniform(-0.9, 0.9)
        eye = [self.rng.uniform(1.0, 6.0) * x for x in (math.cos(turn), math.sin(turn), up)]
        seen = Camera(eye, [self.near(0.3) for _ in range(3)], field_of_view=self.rng.uniform(20, 70), width=wide, height=high, step=step, near=0.1, far=50).view()
        return f"(view {self.numbers(seen.width, seen.height, seen.step, *seen.eye, *matrices.flat(seen.matrix))})"

    def yard(self) -> str:
        return "\n".join([self.view(), *(self.form() for _ in range(self.rng.randrange(1, 7)))]) + "\n"


def yards(seed: int) -> Iterator[str]:
    """Without end; every other one is at step 0."""
    rng = random.Random(seed)
    while True:
        for still in (True, False):
            yield Maker(rng, still).yard()


# ---- hosts


def built(source: str, program: pathlib.Path) -> None:
    """Builds by the command that stands in a C source, with warnings as errors."""
    (command,) = re.findall(r"^ +cc (.*) -o target/\w+(?: && \S+)?(?: \*/)?$", (ROOT / source).read_text(), re.M)
    command = command.replace("target/staticlib", str(library.folder()))
    subprocess.run([COMPILER, *command.split(), "-Werror", "-o", program], cwd=ROOT, check=True)


def rust() -> pathlib.Path:
    """The example of the Rust host, built by the command of its Cargo.toml."""
    (words,) = re.findall(r"^# +cargo run (.*) < examples/silos\.yard$", (ROOT / "host/rust/Cargo.toml").read_text(), re.M)
    subprocess.run([CARGO, "build", "--quiet", *words.split()], cwd=ROOT, check=True)
    return ROOT / "target/rust/release/examples/draw"


def package(text: str) -> str:
    """What the package draws of a text, as `yard` prints it."""
    try:
        yard = forms.read(text)
        return yard.scene.draw(yard.view, threshold=FINE).text() if yard.view else "(refused 1)\n"
    except Refused as refused:
        return f"(refused {refused.number})\n"


def package_alone(text: str) -> str:
    """The same without the preview."""
    with mock.patch.object(library, "preview", side_effect=library.Missing):
        return package(text)


def printed(program: pathlib.Path) -> Callable[[str], str]:
    return lambda text: subprocess.run([program], input=text.encode(), capture_output=True).stdout.decode()


def hosts(folder: pathlib.Path) -> Dict[str, Callable[[str], str]]:
    built("host/c/example.c", folder / "example")
    return {"C": printed(folder / "example"), "Rust": printed(rust()), "Python": package, "Python without the preview": package_alone}


def compared(texts: Iterator[str], count: int, asked: Dict[str, Callable[[str], str]]) -> Tuple[Dict[str, int], List[Tuple[str, str]]]:
    """How many of so many yards that `yard` answers are at step 0, have a path, are refused, and how many were left out;
    and which host draws which text in another way."""
    met: Dict[str, int] = {"yards": 0, "at step 0": 0, "with a path": 0, "refused": 0, "left out": 0}
    wrong: List[Tuple[str, str]] = []
    while met["yards"] < count:
        text = next(texts)
        said = printed(YARD)(text)
        if said == "(refused 13)\n":
            met["left out"] += 1
            continue
        met["yards"] += 1
        met["at step 0"] += forms.read(text).view.step == 0  # type: ignore[union-attr]
        met["with a path"] += not said.startswith(("(drawing 0)", "(refused"))
        met["refused"] += said.startswith("(refused")
        wrong += [(name, text) for name, answer in asked.items() if answer(text) != said]
    return met, wrong


if __name__ == "__main__":
    if len(sys.argv) != 3:
        sys.exit(__doc__)
    with tempfile.TemporaryDirectory() as made:
        asked = hosts(pathlib.Path(made))
        met, wrong = compared(yards(int(sys.argv[1])), int(sys.argv[2]), asked)
    for name, text in wrong:
        print(f"{name} differs:\n{text}")
    print(", ".join(f"{many:,} {what}" for what, many in met.items()) + f"; {', '.join(asked)}: {len(wrong)} differ")
    sys.exit(bool(wrong))
