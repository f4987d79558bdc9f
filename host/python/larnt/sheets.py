"""Sheets of paper: a drawing laid out on one, and written as SVG, HPGL or DXF; PDF and PNG by rsvg-convert.

Lengths on paper are millimetres, y goes up from the lower edge; a drawing is scaled to fit between the margins.
"""
from __future__ import annotations

import html
import itertools
import pathlib
import shutil
import subprocess
import unicodedata
from dataclasses import dataclass, field
from typing import Callable, Dict, List, Optional, Sequence, Tuple, Union

from . import hidden, library, matrices, plotter, solids
from .camera import View
from .drawing import Drawing
from .scene import Part, Scene

PAPERS = {"A0": (1189.0, 841.0), "A1": (841.0, 594.0), "A2": (594.0, 420.0), "A3": (420.0, 297.0), "A4": (297.0, 210.0), "A5": (210.0, 148.0)}
STRIP = 12.0  # how high the title block is
HPGL_UNITS = 40  # to the millimetre
DASH, GAP = 2.0, 1.0  # of a hidden line, in millimetres
LETTER = 0.6  # how wide a letter is, of its height
STAND, SEEN = 1e-6, 1  # how far before a part the eye test is made, of the way to the eye; and its answer
LOOKS = ((0.5,), (0.5, 0.3, 0.7, 0.1, 0.9), tuple((k + 0.37) / 19.5 for k in range(19)))  # where a part is looked at, in its box; the last is uneven, and meets few edges

Spot = Tuple[float, float]


class NoConverter(Exception):
    """PDF or PNG was asked for, and the converter is not there or failed; the message says what to do."""


@dataclass(frozen=True)
class Text:
    """Words at a spot of the paper; `anchor` is start, middle or end, and `halo` a white edge about them."""

    words: str
    x: float
    y: float
    high: float
    anchor: str = "start"
    halo: bool = False


@dataclass
class Sheet:
    """A paper with its margins (top, right, bottom, left), pen, title and notes."""

    paper: Tuple[float, float] = PAPERS["A4"]
    margins: Tuple[float, float, float, float] = (10.0, 10.0, 10.0, 10.0)
    pen: float = 0.25
    title: Optional[str] = None
    notes: Sequence[str] = ()

    def area(self) -> Tuple[float, float, float, float]:
        """Left, bottom, width and height of what the drawing may take."""
        top, right, bottom, left = self.margins
        low = bottom + (STRIP if self.title else 0.0)
        wide, high = self.paper[0] - left - right, self.paper[1] - top - low
        if not (wide > 0 and high > 0):
            raise ValueError(f"the margins leave no room on a paper of {self.paper[0]:g} x {self.paper[1]:g} mm")
        return left, low, wide, high

    def scale(self, width: float, height: float) -> float:
        """Millimetres to a unit of a drawing so wide and high."""
        _, _, wide, high = self.area()
        return min(wide / width, high / height)

    def laid(self, drawing: Drawing, labels: Sequence[Tuple[str, Spot]] = (), hidden: Optional[Drawing] = None) -> "Laid":
        """The drawing on this sheet; labels are words at spots of the drawing, and `hidden` has lines that are drawn dashed
        (`account.on_sheet`)."""
        left, low, wide, high = self.area()
        scale = self.scale(drawing.width, drawing.height)
        made = Laid(self, drawing, scale, left + (wide - scale * drawing.width) / 2, low + (high - scale * drawing.height) / 2, hidden=hidden)
        made.texts += [Text(words, *made.spot(at), 3.0, "middle", True) for words, at in labels]
        if self.title:
            made.frame()
        return made


@dataclass
class Laid:
    """A drawing laid out: its lines in the drawing's own numbers, `scale` and `left`, `low` that take them to the paper, and
    the frame's lines and the texts in millimetres."""

    sheet: Sheet
    drawing: Drawing
    scale: float
    left: float
    low: float
    strokes: List[List[Spot]] = field(default_factory=list)
    texts: List[Text] = field(default_factory=list)
    hidden: Optional[Drawing] = None  # lines that are dashed, on a layer of their own

    def spot(self, p: Sequence[float]) -> Spot:
        return (self.left + self.scale * p[0], self.low + self.scale * p[1])

    def frame(self) -> None:
        """The frame, and the title block along its lower edge: the title to the left, the notes to the right."""
        top, right, bottom, left = self.sheet.margins
        end, upper, strip = self.sheet.paper[0] - right, self.sheet.paper[1] - top, bottom + STRIP
        self.strokes.append([(left, bottom), (end, bottom), (end, upper), (left, upper), (left, bottom)])
        self.strokes.append([(left, strip), (end, strip)])
        title, notes, room = self.sheet.title or "", list(self.sheet.notes)[:2], max(end - left - 10, 1.0)
        small = [fitting(note, 2.5, room / 2) for note in notes]
        taken = max((width_of(note, high) for note, high in zip(notes, small)), default=0.0)
        self.texts.append(Text(title, left + 3, bottom + 4, fitting(title, 5.0, room - taken)))
        for k, (note, high) in enumerate(zip(notes, small)):
            self.texts.append(Text(note, end - 3, bottom + 7 - 4.5 * k, high, "end"))


def width_of(words: str, high: float) -> float:
    """About how wide words are: letters differ, and few are wider than this on the whole."""
    return LETTER * high * len(words)


def fitting(words: str, high: float, room: float) -> float:
    """How high letters may be, at most so high, for words to find room."""
    return min(high, room / width_of(words, 1.0)) if words else high


# ---- formats


def svg(laid: Laid) -> str:
    """The lines stand in the core's own numbers, each as the shortest decimal with its bits; a transform takes them to the paper."""
    (wide, high), pen = laid.sheet.paper, laid.sheet.pen
    rows = [
        f'<svg xmlns="http://www.w3.org/2000/svg" width="{wide:g}mm" height="{high:g}mm" viewBox="0 0 {wide:g} {high:g}">',
        '<rect width="100%" height="100%" fill="white"/>',
    ]
    placed = f'transform="translate({laid.left!r} {high - laid.low!r}) scale({laid.scale!r} {-laid.scale!r})" fill="none" stroke="black"'
    layers = [(f'<g id="drawing" {placed} stroke-width="{pen / laid.scale!r}" stroke-linecap="round" stroke-linejoin="round">', laid.drawing)]
    if laid.hidden:  # thinner than the lines that are seen, and under them
        dashes = f'stroke-dasharray="{DASH / laid.scale!r} {GAP / laid.scale!r}"'
        layers.insert(0, (f'<g id="hidden" {placed} stroke-width="{pen / 2 / laid.scale!r}" {dashes} stroke-linejoin="round">', laid.hidden))
    for head, lines in layers:
        rows.append(head)
        for path in lines.paths:
            rows.append('<polyline points="' + " ".join(f"{p[0]!r},{p[1]!r}" for p in path) + '"/>')
        rows.append("</g>")
    rows.append(f'<g fill="none" stroke="black" stroke-width="{pen:g}">')
    for stroke in laid.strokes:
        rows.append('<polyline points="' + " ".join(f"{x:g},{high - y:g}" for x, y in stroke) + '"/>')
    rows.append('</g>\n<g font-family="sans-serif" fill="black">')
    for text in laid.texts:
        halo = ' stroke="white" stroke-width="0.8" paint-order="stroke"' if text.halo else ""
        rows.append(f'<text x="{text.x:.2f}" y="{high - text.y:.2f}" font-size="{text.high:.4g}" text-anchor="{text.anchor}"{halo}>{html.escape(text.words)}</text>')
    return "\n".join(rows + ["</g>", "</svg>", ""])


def hpgl(laid: Laid) -> str:
    """For pen plotters, in units of 0.025 mm; the pen's way is the library's where it has picks, else the drawing's order.
    Hidden lines come last, by the plotter's line type 2, dashes, with a pattern of a hundredth of its sheet's diagonal."""
    rows = ["IN;", "SP1;"]

    def strokes(paths: Sequence[Sequence[Spot]]) -> None:
        for points in paths:
            first, *others = [f"{round(HPGL_UNITS * x)},{round(HPGL_UNITS * y)}" for x, y in points]
            rows.append(f"PU{first};PD{','.join(others)};")

    strokes([[laid.spot(p) for p in path] for path in ordered(laid.drawing)] + laid.strokes)
    if laid.hidden:
        rows.append("PU;LT2,1;")
        strokes([[laid.spot(p) for p in path] for path in ordered(laid.hidden)])
        rows.append("PU;LT;")
    for text in laid.texts:
        words = plain_letters(text.words)
        before = width_of(words, text.high) * {"start": 0, "middle": 0.5, "end": 1}[text.anchor]
        rows.append(f"PU{round(HPGL_UNITS * (text.x - before))},{round(HPGL_UNITS * text.y)};SI{0.04 * text.high:.3f},{0.07 * text.high:.3f};LB{words}\x03")
    return "\n".join(rows + ["PU;SP0;", ""])


def plain_letters(words: str) -> str:
    """What a plotter's own letters can write of words: accents are left out, and a question mark stands for the rest."""
    apart = unicodedata.normalize("NFKD", words.replace("\u00df", "ss"))
    return "".join(c if " " <= c <= "~" else "?" for c in apart if not unicodedata.combining(c))


def ordered(drawing: Drawing) -> List[list]:
    return plotter.ways(drawing) if library.there(library.plotter) else drawing.paths


def dxf(laid: Laid) -> str:
    """Lines for CAD (R12, which every program reads), in millimetres on the paper: layer YARD the drawing, layer HIDDEN the
    hidden lines where there are any, with the line type DASHED, layer SHEET the rest."""
    rows: List[object] = []

    def say(*pairs: object) -> None:
        rows.extend(pairs)

    def line(layer: str, a: Spot, b: Spot) -> None:
        say(0, "LINE", 8, layer, 10, repr(a[0]), 20, repr(a[1]), 30, 0.0, 11, repr(b[0]), 21, repr(b[1]), 31, 0.0)

    wide, high = laid.sheet.paper
    say(0, "SECTION", 2, "HEADER", 9, "$ACADVER", 1, "AC1009", 9, "$LIMMIN", 10, 0.0, 20, 0.0, 9, "$LIMMAX", 10, wide, 20, high, 0, "ENDSEC")
    say(0, "SECTION", 2, "TABLES")
    layers = [("YARD", "CONTINUOUS"), *([("HIDDEN", "DASHED")] if laid.hidden else []), ("SHEET", "CONTINUOUS")]
    if laid.hidden:
        say(0, "TABLE", 2, "LTYPE", 70, 2, 0, "LTYPE", 2, "CONTINUOUS", 70, 0, 3, "Solid line", 72, 65, 73, 0, 40, 0.0)
        say(0, "LTYPE", 2, "DASHED", 70, 0, 3, "Dashed line", 72, 65, 73, 2, 40, DASH + GAP, 49, DASH, 49, -GAP, 0, "ENDTAB")
    say(0, "TABLE", 2, "LAYER", 70, len(layers))
    for layer, kind in layers:
        say(0, "LAYER", 2, layer, 70, 0, 62, 7, 6, kind)
    say(0, "ENDTAB", 0, "ENDSEC", 0, "SECTION", 2, "ENTITIES")
    drawings = [("YARD", laid.drawing), *([("HIDDEN", laid.hidden)] if laid.hidden else [])]
    for layer, paths in [*((layer, [[laid.spot(p) for p in path] for path in of.paths]) for layer, of in drawings), ("SHEET", laid.strokes)]:
        for path in paths:
            for a, b in zip(path, path[1:]):
                line(layer, a, b)
    for text in laid.texts:
        words = "".join(c if " " <= c <= "~" else f"\\U+{ord(c):04X}" for c in text.words)
        at = {"start": 0, "middle": 1, "end": 2}[text.anchor]
        say(0, "TEXT", 8, "SHEET", 10, text.x, 20, text.y, 30, 0.0, 40, text.high, 1, words, 72, at, 11, text.x, 21, text.y, 31, 0.0)
    say(0, "ENDSEC", 0, "EOF")
    return "\n".join(map(str, rows)) + "\n"


def converter() -> str:
    found = shutil.which("rsvg-convert")
    if not found:
        raise NoConverter("PDF and PNG are made of the SVG by rsvg-convert, which is not there: install it (Debian: librsvg2-bin), or take .svg, .hpgl or .dxf")
    return found


def converted(laid: Laid, kind: str, dpi: float) -> bytes:
    """A PDF or PNG of the SVG, by librsvg's converter."""
    done = subprocess.run([converter(), "--format", kind, "--dpi-x", f"{dpi:g}", "--dpi-y", f"{dpi:g}"], input=svg(laid).encode(), capture_output=True)
    if done.returncode:
        raise NoConverter(f"rsvg-convert failed: {done.stderr.decode(errors='replace').strip()}")
    return done.stdout


FORMATS: Dict[str, Callable[[Laid], str]] = {".svg": svg, ".hpgl": hpgl, ".plt": hpgl, ".dxf": dxf}
CONVERTED = (".pdf", ".png")


def write(laid: Laid, path: Union[str, pathlib.Path], dpi: float = 150.0) -> None:
    """A file in the format of its ending."""
    path = pathlib.Path(path)
    ending = path.suffix.lower()
    if ending in FORMATS:
        path.write_bytes(FORMATS[ending](laid).encode())
    elif ending in CONVERTED:
        path.write_bytes(converted(laid, ending[1:], dpi))
    else:
        raise ValueError(f"{path.name}: sheets end in {', '.join([*FORMATS, *CONVERTED])}")


# ---- part numbers


def numbered(scene: Scene, view: View) -> Tuple[List[Tuple[str, Spot]], List[Part]]:
    """A number for each part, at a spot where the eye sees it; and the parts that have none in sight."""
    labels, unseen = [], []
    for part, (low, high) in zip(scene.parts, scene.boxes()):
        spot = sighted(scene, view, part, low, high)
        if spot is None:
            unseen.append(part)
        else:
            labels.append((str(part.number), spot))
    return labels, unseen


def sighted(scene: Scene, view: View, part: Part, low: Sequence[float], high: Sequence[float]) -> Optional[Spot]:
    """Looks at the middle of the part's box first, then at more and more places of it: where a look meets the part, taken
    alone, the scene is asked whether the eye sees that place, as a draw asks it."""
    alone = Scene([solids.true_distance(part.solid)])
    for shares in LOOKS:
        met = [hidden.look(alone, view.eye, point) for point in spread(low, high, shares)]
        places = [at for _, at in filter(None, met) if on_sheet(view, view.spot(at))]
        before = [matrices.along(at, matrices.minus(view.eye, at), STAND) for at in places]
        for at, answer in zip(places, scene.told(view.eye, before)):
            if answer == SEEN:
                return view.spot(at)
    return None


def spread(low: Sequence[float], high: Sequence[float], shares: Sequence[float]) -> List[List[float]]:
    """Places of a box at these shares of its sides, those near its middle first."""
    tries = sorted(itertools.product(shares, repeat=3), key=lambda t: sum((s - 0.5) ** 2 for s in t))
    return [[a + s * (b - a) for a, b, s in zip(low, high, share)] for share in tries]


def on_sheet(view: View, spot: Optional[Spot]) -> bool:
    return spot is not None and 0 <= spot[0] <= view.width and 0 <= spot[1] <= view.height
