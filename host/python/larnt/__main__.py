"""python3 -m larnt sheet YARD SHEET..: from the text of a yard to sheets; account YARD: what becomes of each line of it; turn
YARD: a page that turns it; canonical YARD: its text in canonical form; merge FIRST SECOND: one yard of two."""
from __future__ import annotations

import argparse
import contextlib
import dataclasses
import math
import pathlib
import shlex
import sys
import time
import webbrowser
from typing import Any, Callable, Dict, Iterator, List, Optional, Sequence, Tuple

from . import account, diagnosis, forms, library, matrices, outlines, progress, scene, sheets, solids, texts, turn
from .camera import Camera, View
from .drawing import Drawing
from .library import Missing
from .ranges import OutOfTime
from .refusals import Refused
from .scene import Part, Scene
from .sheets import Sheet
from .solids import Solid

COARSER = 8  # the draw that guesses the time has a step so many times as long


def note(words: str, command: str = "sheet") -> None:
    print(f"{command}: {words}", file=sys.stderr)


def seen_with(add: Callable[..., Any]) -> None:
    """The options that the view and the lines hang on: where one looks from, the step, and the paper, by which the step is
    measured."""
    add("--eye", nargs=3, type=float, metavar=("X", "Y", "Z"), help="where one looks from (default: the view of the text)")
    add("--target", nargs=3, type=float, metavar=("X", "Y", "Z"), help="what one looks at (default: the middle of the yard where --eye is given)")
    add("--fov", type=float, metavar="DEGREES", help="field of view, from the lower edge to the upper (default: that of the text, or 40)")
    add("--step", type=float, metavar="MM", help="the longest piece between two tested points (default: that of the text; 0.5 without a view)")
    add("--outlines", choices=OUTLINES, help="round solids: the lines of the text kept as they stand (default), with rings rounded as fine as the step (default where "
        "that is finer than the text's), with those that were made for its eye turned to this one (default where the eye is moved), an outline where lines are "
        "missing, an outline for all in place of their lines, or the core's own outlines, which lie in the surface")
    add("--most-points", type=int, default=scene.MOST_POINTS, metavar="N", help="the most room that a draw is lent (default %(default)s)")
    add("--paper", default="A4", help="A0 to A5, or WIDTHxHEIGHT in millimetres (default A4, landscape)")
    add("--portrait", action="store_true", help="the paper upright")
    add("--margin", nargs="+", type=float, default=[10.0], metavar="MM", help="one for all sides, or top, right, bottom and left (default 10)")


def arguments(given: Optional[Sequence[str]]) -> argparse.Namespace:
    parser = argparse.ArgumentParser(prog="python3 -m larnt", description="Hidden-line drawings of yards by the proved library.")
    commands = parser.add_subparsers(dest="command", required=True)
    sheet = commands.add_parser("sheet", help="from the text of a yard to sheets", description="Draws a yard and writes sheets of it, each in the format of its ending: "
                                ".svg, .hpgl or .plt (pen plotters), .dxf (CAD); .pdf and .png where rsvg-convert is at hand. Lengths on paper are millimetres.")
    add = sheet.add_argument
    add("yard", help="the text, or - for standard input")
    add("sheets", nargs="+", metavar="sheet", help="the files to write")
    seen_with(add)
    detail = sheet.add_mutually_exclusive_group()
    detail.add_argument("--fine", dest="threshold", action="store_const", const=scene.FINE, default=scene.COARSE, help="a sheet in fine detail, simplified with %(const)g, as `yard` draws it")
    detail.add_argument("--threshold", type=float, default=scene.COARSE, help="of simplification (default %(default)g; less keeps more vertices)")
    add("--threads", type=int, default=1, metavar="N", help="draws with so many threads (default %(default)s)")
    add("--seconds", type=float, metavar="S", help="gives up after so long, says which part was being drawn, and writes nothing")
    add("--hidden", choices=("dashed",), help="hidden lines too, dashed, on a layer of their own (default: none)")
    add("--line", type=float, default=0.25, metavar="MM", help="how wide a line is (default 0.25)")
    add("--title", help="draws a frame and a title block with these words")
    add("--note", action="append", default=[], help="a note in the title block; at most two (default: the yard and the eye)")
    add("--parts", action="store_true", help="numbers the parts on the sheet, and lists them")
    add("--dpi", type=float, default=150.0, help="of a PNG (default 150)")
    accounting = commands.add_parser("account", help="what becomes of each line of a yard", description="Says which parts have no line on the sheet and why, and then of each "
                                     "part how many of the tested points of its lines are clipped away, drawn and hidden, and by which parts. It is the account of the sheet "
                                     "that `sheet` makes with the same options.")
    accounting.add_argument("yard", help="the text, or - for standard input")
    seen_with(accounting.add_argument)
    turning = commands.add_parser("turn", help="a page in the browser that turns a yard", description="Serves a page on this machine alone (127.0.0.1): drag to turn, wheel to "
                                  "come nearer, click where a line is missing to be told which part hides it, save as a sheet. Ctrl-C ends it.")
    add = turning.add_argument
    add("yard", help="the text, or - for standard input")
    add("--port", type=int, default=0, help="where to serve (default: any that is free)")
    add("--open", action="store_true", help="opens the page in the browser")
    add("--step", type=float, default=0.5, metavar="MM", help="at rest, the longest piece between two tested points, on an A4 sheet (default %(default)g)")
    add("--outlines", choices=OUTLINES, default="turned", help="round solids, as of sheet (default %(default)s)")
    rewriting = commands.add_parser("canonical", help="the text of a yard in canonical form", description="Prints a yard one form a line, counts in decimal and every other "
                                    "number by its bits, as the core writes it; what is drawn of it stays the same, bit for bit.")
    rewriting.add_argument("yard", help="the text, or - for standard input")
    merging = commands.add_parser("merge", help="one yard of two texts", description="Prints one yard of two, in canonical form: the solids of the first, then those of the "
                                  "second, seen by the first's view, or by the second's where the first has none.")
    merging.add_argument("yard", metavar="first", help="a text, or - for standard input")
    merging.add_argument("second", help="a text")
    return parser.parse_args(given)


# ---- what is drawn


def paper(words: str, portrait: bool) -> Tuple[float, float]:
    try:
        wide, high = sheets.PAPERS[words.upper()] if words.upper() in sheets.PAPERS else map(float, words.lower().split("x"))
    except ValueError:
        raise ValueError(f"--paper {words}: A0 to A5, or WIDTHxHEIGHT in millimetres, as 420x297") from None
    if not (0 < wide < 1e5 and 0 < high < 1e5):
        raise ValueError(f"--paper {words}: the sides must be above 0")
    return (high, wide) if portrait else (wide, high)


def laid_out(options: argparse.Namespace) -> Sheet:
    """The sheet that the options ask for; what cannot be made is told before anything is drawn."""
    made = bare_sheet(options)
    if not options.line > 0:
        raise ValueError("--line must be above 0")
    if options.note and (len(options.note) > 2 or not options.title):
        raise ValueError("--note is for a title block, which --title makes, and has room for two")
    for path in options.sheets:
        ending = pathlib.Path(path).suffix.lower()
        if ending not in (*sheets.FORMATS, *sheets.CONVERTED):
            raise ValueError(f"{path}: sheets end in {', '.join([*sheets.FORMATS, *sheets.CONVERTED])}")
        if ending in sheets.CONVERTED:
            sheets.converter()
    return dataclasses.replace(made, pen=options.line, title=options.title, notes=options.note)


def bare_sheet(options: argparse.Namespace) -> Sheet:
    """A paper with its margins."""
    if len(options.margin) not in (1, 4):
        raise ValueError("--margin takes one number, or four: top, right, bottom, left")
    margins = tuple(options.margin * (1 if len(options.margin) == 4 else 4))
    return Sheet(paper(options.paper, options.portrait), margins)  # type: ignore[arg-type]


def seen_by(options: argparse.Namespace, yard: forms.Yard, sheet: Sheet) -> View:
    """The view of the text, or the one that the options ask for."""
    view = yard.view
    _, _, wide, high = sheet.area()
    if view is None and options.eye is None:
        raise ValueError("the yard has no (view ..), so say where one looks from: --eye X Y Z")
    if options.eye or options.target or options.fov or view is None:
        width, height, step = (view.width, view.height, view.step) if view else (wide, high, 0.5)
        eye = options.eye or view.eye  # type: ignore[union-attr]
        up = (0.0, 0.0, 1.0)
        if options.target:
            target = options.target
        elif options.eye or view is None:
            target = middle(yard.scene)
        else:  # the field of view alone changes
            if not view.field_of_view():
                raise ValueError("the view of the text is no camera's, so --fov needs --eye or --target")
            target, up = matrices.along(eye, view.matrix[3][:3], 1000.0), view.matrix[1][:3]
        angle = options.fov or (view.field_of_view() if view else None) or 40.0
        view = Camera(eye, target, up, angle, width, height, step).view()
    if options.step is not None:
        view = dataclasses.replace(view, step=options.step / sheet.scale(view.width, view.height))
    return view


def middle(of: Scene) -> List[float]:
    boxes = of.boxes()
    if not boxes:
        raise ValueError("the yard has no solids, so say what to look at: --target X Y Z")
    return [(min(low[k] for low, _ in boxes) + max(high[k] for _, high in boxes)) / 2 for k in range(3)]


def bare(solid: Solid) -> bool:
    """Whether a solid is left to the core: a round one without lines and stripes."""
    return isinstance(solid, solids.Round) and solid.lines == solids.BY_CORE and not isinstance(solid.lines, solids.Turned) and not solids.detail(solid)


# what becomes of the lines of a round solid, by the words of --outlines
LINES: Dict[str, Callable[[Any], Optional[solids.Lines]]] = {
    "kept": lambda solid: solid.lines,
    "rounded": lambda solid: solids.Rounded(solid.lines),
    "missing": lambda solid: None if bare(solid) else solid.lines,
    "all": lambda solid: None,
    "core": lambda solid: solids.BY_CORE,
}


OUTLINES = (*LINES, "turned")


def every_solid(of: Scene) -> List[Solid]:
    def within(solid: Solid) -> List[Solid]:
        return [solid, *(inner for part in solids.parts(solid) for inner in within(part))]

    return [solid for part in of.parts for solid in within(part.solid)]


def with_outlines(how: str, yard: forms.Yard) -> Scene:
    """The scene with the lines that --outlines asks for."""
    def lined(solid: Any) -> Solid:
        return dataclasses.replace(solid, lines=LINES[how](solid))

    if how == "turned" and yard.view:
        return Scene([turnable(part.solid, matrices.IDENTITY, yard.view.eye) for part in yard.scene.parts])
    how = "all" if how == "turned" else how  # lines of nobody knows which eye
    return Scene([solids.changed(part.solid, lined) for part in yard.scene.parts])


def turnable(solid: Any, world: matrices.Matrix, eye: matrices.Vector) -> Solid:
    """The solid without the lines that were made for an eye: others are made for each eye that looks at it."""
    if isinstance(solid, solids.Placed):
        return dataclasses.replace(solid, part=turnable(solid.part, matrices.product(world, solid.matrix), eye))
    if isinstance(solid, solids.Cut):
        return dataclasses.replace(solid, first=turnable(solid.first, world, eye), second=turnable(solid.second, world, eye))
    if bare(solid):
        return dataclasses.replace(solid, lines=None)
    if not isinstance(solid, solids.Round) or not any(solid.lines or ()):
        return solid
    try:
        own = matrices.placed(matrices.inverse(world), eye)
    except ValueError:  # the core will refuse the placing
        return solid
    return dataclasses.replace(solid, lines=solids.Turned(line for line in solid.lines if not outlines.for_eye(solid, line, own)))


def by_core(how: str, of: Scene) -> List[str]:
    """What is said where the core draws outlines."""
    lines = sorted({solid.source[0] for solid in every_solid(of) if bare(solid) and solid.source})
    some, other = ", ".join(map(str, lines[:8])) + (", .." if len(lines) > 8 else ""), "all" if how == "core" else "missing"
    said = f"the core draws the outlines of round solids without lines, in their surface, where they may hide parts of them (text line {some}); --outlines {other} draws them off it"
    return [said] if lines else []


def default_outlines(options: argparse.Namespace, yard: forms.Yard, view: View) -> Tuple[str, List[str]]:
    """What --outlines is where it is not given, and what is said of that: the text's lines were made for one eye and one step."""
    lines = [line for solid in every_solid(yard.scene) if isinstance(solid, solids.Round) for line in solid.lines or ()]
    if options.eye or options.target:
        said = "the eye is moved, so outlines of the text, which were made for another, are made anew; --outlines kept keeps them"
        return "turned", [said] if lines else []
    if yard.view and 0 < view.step and not 0 < yard.view.step < 1.001 * view.step:  # a step in millimetres is rounded
        said = "the step is finer than the text's, so the rings of its lines are made as fine; --outlines kept keeps them as they stand"
        return "rounded", [said] if any(map(outlines.centre, lines)) else []
    return "kept", []


def drawn(of: Scene, view: View, options: argparse.Namespace) -> Drawing:
    """Draws, with a bar where that takes longer than a second: by the parts that are drawn, where `libhost_parts.a` is
    there; else a draw at a coarser step tells how long it may take."""
    if options.threads > 1 or options.seconds is not None or library.there(library.parts):
        bar = progress.Counted()
        try:
            return of.draw(view, threshold=options.threshold, most_points=options.most_points, threads=options.threads, told=bar, seconds=options.seconds)
        finally:
            bar.clear()

    def draw(view: View) -> Drawing:
        return of.draw(view, threshold=options.threshold, most_points=options.most_points)

    begun = time.monotonic()
    if 0 < view.step <= 1000 / COARSER:
        try:
            progress.shown(lambda: draw(dataclasses.replace(view, step=COARSER * view.step)), math.inf)
        except Refused:
            pass  # the draw itself says it
    return progress.shown(lambda: draw(view), COARSER * (time.monotonic() - begun))


# ---- the command


def yard_name(options: argparse.Namespace) -> str:
    return pathlib.Path(options.yard).name if options.yard != "-" else "yard"


def listed(part: Part) -> str:
    line = f", text line {part.solid.source[0]}" if part.solid.source else ""
    return f"part {part.number}: {solids.described(part.solid)}{line}"


def prepared(options: argparse.Namespace, yard: forms.Yard, sheet: Sheet) -> Tuple[Scene, View, List[str]]:
    """The scene with its lines and the view that the options ask for, and what is to be said of them."""
    view = seen_by(options, yard, sheet)
    how, notes = (options.outlines, []) if options.outlines else default_outlines(options, yard, view)
    of = with_outlines(how, yard)
    return of, view, notes + by_core(how, of)


@contextlib.contextmanager
def place_of_view(yard: forms.Yard, view: View) -> Iterator[None]:
    """Where a refusal is of the text's own view, it has that one's place."""
    try:
        yield
    except Refused as refusal:
        if refusal.number == 8 and view is yard.view and yard.view_at and any(diagnosis.view_troubles(view, None)):
            refusal.line, refusal.column = yard.view_at
        raise


def accounted(options: argparse.Namespace, text: str, sheet: Sheet) -> None:
    """Prints the account: the findings first."""
    yard = forms.read(text)
    of, view, notes = prepared(options, yard, sheet)
    with place_of_view(yard, view):
        told = progress.shown(lambda: of.account(view, most_points=options.most_points), math.inf)
    sys.stdout.write(told.text())
    for said in notes:
        note(said, options.command)


def made(options: argparse.Namespace, text: str, sheet: Sheet) -> None:
    """Draws, writes the sheets, and says what is to be said of them."""
    yard = forms.read(text)
    of, view, notes = prepared(options, yard, sheet)
    with place_of_view(yard, view):
        drawing = drawn(of, view, options)
    if sheet.title and not sheet.notes:
        sheet.notes = [yard_name(options), "eye " + " ".join(f"{x:g}" for x in view.eye)]
    labels, unseen = sheets.numbered(of, view) if options.parts else ([], [])
    hidden = account.on_sheet(of, view, threshold=options.threshold, most_points=options.most_points) if options.hidden else None
    laid = sheet.laid(drawing, labels, hidden)
    for path in options.sheets:
        sheets.write(laid, path, options.dpi)
        dashed = f" and {len(hidden.paths)} hidden ones" if hidden else ""
        print(f"{path}: {len(drawing.paths)} lines{dashed} on {sheet.paper[0]:g} x {sheet.paper[1]:g} mm")
    for part in of.parts if options.parts else ():
        print(listed(part) + (", not seen from here" if part in unseen else ""))
    if any(path.endswith((".hpgl", ".plt")) for path in options.sheets) and not library.there(library.plotter):
        notes.append("the pen goes in the drawing's order: its way is picked where libhost_plotter.a is at hand (tools/archives host_plotter)")
    for said in notes:
        note(said)


def turned(options: argparse.Namespace, text: str) -> None:
    """Serves the page until it is ended."""
    yard, sheet = forms.read(text), Sheet()
    of = with_outlines(options.outlines, yard)
    _, _, wide, high = sheet.area()
    width, height = (yard.view.width, yard.view.height) if yard.view else (wide, high)
    if not (0 < width < math.inf and 0 < height < math.inf):
        raise ValueError("the sheet of the text's view has no size")
    camera = turn.starting(of, yard.view, wide, high, options.step / sheet.scale(width, height))
    name = yard_name(options)
    how = "" if options.outlines == "turned" else f" --outlines {options.outlines}"
    command = f"python3 -m larnt sheet {shlex.quote(options.yard)} sheet.svg --step {options.step:g}{how}"
    turning = turn.Turning(of, camera, sheet, name, command)
    try:
        server = turn.Server(turning, options.port)
    except (OSError, OverflowError) as error:
        raise ValueError(f"--port {options.port}: {getattr(error, 'strerror', None) or error}") from None
    with server:
        for said in by_core(options.outlines, of):
            note(said, "turn")
        print(f"{name}: {server.address()} (Ctrl-C ends it)", flush=True)
        if options.open:
            webbrowser.open(server.address())
        server.serve_forever()


def excerpt(line: str, column: int) -> List[str]:
    """What stands about a column, and a mark under it."""
    first = max(0, column - 41)
    before = ".." if first else ""
    shown = before + line[first : first + 80] + (".." if len(line) > first + 80 else "")
    return [f"    {shown}", "    " + " " * (len(before) + column - 1 - first) + "^"]


def refusal_said(refusal: Refused, name: str, text: str, command: str) -> str:
    where = f"{name}, line {refusal.line}, column {refusal.column}" if refusal.line else name
    rows = [f"{command}: {where}: {refusal.wrong or refusal.words}"]
    if refusal.line and refusal.column:
        rows += excerpt(text.split("\n")[refusal.line - 1], refusal.column)
    return "\n".join(rows + ([f"refusal {refusal.number}: {refusal.words}"] if refusal.wrong else [f"refusal {refusal.number}"]))


def read(path: str) -> str:
    return (sys.stdin.buffer.read() if path == "-" else pathlib.Path(path).read_bytes()).decode("utf-8", "replace")


def merged(options: argparse.Namespace, text: str) -> int:
    """Prints one yard of two; what is wrong with the second is told of it."""
    first, other = forms.read(text), read(options.second)
    first.scene.boxes()
    try:
        second = forms.read(other)
        second.scene.boxes()
    except Refused as refusal:
        print(refusal_said(refusal, options.second, other, options.command), file=sys.stderr)
        return 1
    sys.stdout.write(texts.merged(first, second))
    return 0


def main(given: Optional[Sequence[str]] = None) -> int:
    options = arguments(given)
    name = "standard input" if options.yard == "-" else options.yard
    text = ""

    def told(words: str) -> int:
        note(words, options.command)
        return 1

    try:
        sheet = laid_out(options) if options.command == "sheet" else bare_sheet(options) if options.command == "account" else None
        text = read(options.yard)
        if sheet:
            (made if options.command == "sheet" else accounted)(options, text, sheet)
        elif options.command == "turn":
            turned(options, text)
        elif options.command == "canonical":
            sys.stdout.write(texts.canonical(forms.read(text)))
        else:
            return merged(options, text)
    except Refused as refusal:
        print(refusal_said(refusal, name, text, options.command), file=sys.stderr)
        return 1
    except BrokenPipeError:  # nobody reads what is said
        return 1
    except OSError as error:
        return told(f"{error.filename or name}: {error.strerror}")
    except (ValueError, Missing, OutOfTime, sheets.NoConverter) as error:
        return told(str(error))
    except KeyboardInterrupt:
        told("stopped")
        return 130
    return 0


if __name__ == "__main__":
    sys.exit(main())
