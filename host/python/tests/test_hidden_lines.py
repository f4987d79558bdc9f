"""Hidden lines, dashed on a layer of their own."""
import contextlib
import io
import json
import pathlib
import re
import shutil
import struct
import subprocess
import tempfile
import threading
import unittest
from array import array
from unittest import mock
from xml.etree import ElementTree

from larnt import COARSE, FINE, Camera, Refused, Scene, account, forms, library, scene, sheets, turn
from larnt.__main__ import main

from . import EXAMPLES, ROOT
from .test_examples import SVG, lines_of

PLINTH = ROOT / "examples/plinth.yard"
CAMERA = Camera(eye=(0, -20, 2), target=(0, 0, 2), field_of_view=30, step=10)


def bits(drawing):
    return [[struct.pack("<3d", *p) for p in path] for path in drawing.paths]


def dashed(root):
    (group,) = [group for group in root.iter(SVG + "g") if group.get("id") == "hidden"]
    return group


@unittest.skipUnless(library.there(library.account), "libhost_account.a is not there")
class Lines(unittest.TestCase):
    def test_the_drawn_runs_are_the_draw_bit_for_bit(self):
        """So that a hidden run stands on the sheet where a draw would put it."""
        for path in EXAMPLES:
            yard = forms.read(path.read_text())
            for threshold in (0.0, FINE, COARSE):
                with self.subTest(path.name, threshold=threshold):
                    self.assertEqual(bits(account.on_sheet(yard.scene, yard.view, account.DRAWN, threshold=threshold)), bits(yard.scene.draw(yard.view, threshold=threshold)))

    def test_each_vertex_is_a_hidden_point_and_each_hidden_piece_is_there(self):
        for name in ("silos", "plinth", "bunker"):
            yard = forms.read((ROOT / f"examples/{name}.yard").read_text())
            found = account.on_sheet(yard.scene, yard.view, threshold=0.0)
            spots, pieces, points = {}, {}, 0
            for made in account.tested(yard.scene, yard.view):
                spots[made.part] = set()
                runs = [run for run in made.runs(account.HIDDEN) if run[1] - run[0] > 1]
                pieces[made.part] = len(runs)
                for a, b in runs:
                    self.assertTrue(all(word < library.MET for word in made.words[a:b]))
                    points += b - a
                    on_sheet = account.mapped(yard.view, made.numbers, [(k, k + 1) for k in range(a, b)], 0.0)
                    spots[made.part] |= {point for (point,) in on_sheet}
            self.assertGreater(points, 100)
            self.assertEqual({part: list(found.parts).count(part) for part in yard.scene.parts}, pieces)
            for path, part in zip(found.paths, found.parts):
                self.assertGreaterEqual(len(path), 2)
                self.assertLessEqual(set(path), spots[part])

    def test_a_stick_behind_a_wall(self):
        of = Scene()
        of.cube((-3, 0, 0), (3, 1, 5), name="wall")
        stick = of.sphere((0, 5, 2), 0.01, lines=[[(-1, 5, 2), (1, 5, 2)]], name="stick")
        found = account.on_sheet(of, CAMERA)
        own = [path for path, part in zip(found.paths, found.parts) if part is stick]
        self.assertEqual(len(own), 1)
        for point, end in zip(own[0], ((-1, 5, 2), (1, 5, 2))):
            for a, b in zip(point, CAMERA.view().spot(end)):
                self.assertAlmostEqual(a, b)
        self.assertFalse(any(part is stick for part in of.draw_parts(CAMERA).parts))

    def test_refusals(self):
        of = Scene()
        of.cube((-3, 0, 0), (3, 1, 5))
        with self.assertRaises(Refused) as met:
            account.on_sheet(of, CAMERA, threshold=-1.0)
        self.assertEqual(met.exception.number, 8)
        self.assertEqual(account.on_sheet(Scene(), CAMERA).paths, [])


@unittest.skipUnless(library.there(library.account), "libhost_account.a is not there")
class Sheets(unittest.TestCase):
    def setUp(self):
        folder = tempfile.TemporaryDirectory()
        self.addCleanup(folder.cleanup)
        self.folder = pathlib.Path(folder.name)
        self.yard = forms.read(PLINTH.read_text())
        self.hidden = account.on_sheet(self.yard.scene, self.yard.view)

    def written(self, ending, *words):
        path = self.folder / f"a.{ending}"
        out = io.StringIO()
        with contextlib.redirect_stdout(out):
            self.assertEqual(main(["sheet", str(PLINTH), str(path), *words]), 0)
        return path.read_bytes(), out.getvalue()

    def test_svg(self):
        (plain, _), (with_hidden, said) = self.written("svg"), self.written("svg", "--hidden", "dashed")
        self.assertIn(f"35 lines and {len(self.hidden.paths)} hidden ones on", said)
        self.assertNotIn(b'id="hidden"', plain)
        root = ElementTree.fromstring(with_hidden)
        self.assertEqual(lines_of(root), lines_of(ElementTree.fromstring(plain)))
        group = dashed(root)
        self.assertEqual([[tuple(map(float, p.split(","))) for p in line.get("points").split()] for line in group.iter(SVG + "polyline")], [[(x, y) for x, y, _ in path] for path in self.hidden.paths])
        (drawing,) = [group for group in root.iter(SVG + "g") if group.get("id") == "drawing"]
        self.assertEqual(group.get("transform"), drawing.get("transform"))
        scale = sheets.Sheet().scale(self.yard.view.width, self.yard.view.height)
        self.assertEqual([round(float(x) * scale, 9) for x in group.get("stroke-dasharray").split()], [2.0, 1.0])
        self.assertIsNone(drawing.get("stroke-dasharray"))

    def test_dxf(self):
        plain, with_hidden = (self.written("dxf", *words)[0].decode() for words in ((), ("--hidden", "dashed")))
        self.assertNotIn("HIDDEN", plain)
        self.assertNotIn("LTYPE", plain)
        rows = with_hidden.splitlines()
        pairs = list(zip(rows[::2], rows[1::2]))
        at = pairs.index(("2", "HIDDEN"))
        self.assertEqual(pairs[at + 3], ("6", "DASHED"))
        self.assertIn(("2", "DASHED"), pairs[:at])
        self.assertEqual(pairs.count(("8", "HIDDEN")), sum(len(path) - 1 for path in self.hidden.paths))
        tables = [value for code, value in pairs if code == "0" and value in ("TABLE", "ENDTAB", "SECTION", "ENDSEC", "EOF")]
        self.assertEqual(tables, ["SECTION", "ENDSEC", "SECTION", "TABLE", "ENDTAB", "TABLE", "ENDTAB", "ENDSEC", "SECTION", "ENDSEC", "EOF"])
        # layer YARD has the same lines with and without
        def yard_lines(text):
            return re.findall(r"\nLINE\n8\nYARD\n(10\n.*?)\n31\n", text, re.S)

        self.assertEqual(yard_lines(with_hidden), yard_lines(plain))
        self.assertGreater(len(yard_lines(plain)), 60)

    def test_hpgl(self):
        plain, with_hidden = (self.written("hpgl", *words)[0].decode().splitlines() for words in ((), ("--hidden", "dashed")))
        self.assertFalse(any("LT" in row for row in plain))
        begin, end = with_hidden.index("PU;LT2,1;"), with_hidden.index("PU;LT;")
        self.assertEqual(with_hidden[:begin] + with_hidden[end + 1 :], plain)
        self.assertEqual(end - begin - 1, len(self.hidden.paths))
        laid = sheets.Sheet().laid(self.yard.scene.draw(self.yard.view), (), self.hidden)
        wanted = {tuple(f"{round(40 * x)},{round(40 * y)}" for x, y in map(laid.spot, path)) for path in self.hidden.paths}
        self.assertEqual({tuple(re.findall(r"\d+,\d+", row)) for row in with_hidden[begin + 1 : end]}, wanted)

    @unittest.skipUnless(shutil.which("rsvg-convert"), "rsvg-convert is not there")
    def test_pdf_and_png(self):
        for ending, head in (("pdf", b"%PDF"), ("png", b"\x89PNG")):
            plain, with_hidden = (self.written(ending, *words)[0] for words in ((), ("--hidden", "dashed")))
            self.assertTrue(with_hidden.startswith(head))
            self.assertNotEqual(plain, with_hidden)


# what the page needs of a browser, of which the calls of the pen are kept
STUB = """
const fs = require("fs"), [, , file, address] = process.argv, calls = [], named = {};
const pen = new Proxy({}, {get: (of, name) => name in of ? of[name] : (...given) => calls.push([name, ...given]), set: (of, name, value) => { of[name] = value; return true; }});
const made = id => named[id] ??= {id, style: {}, listeners: {}, checked: false, hidden: true, textContent: "", width: 1200, height: 800,
  parentElement: {clientWidth: 1220, clientHeight: 820}, getContext: () => pen, addEventListener(what, done) { this.listeners[what] = done; }};
globalThis.document = {getElementById: made, title: ""};
globalThis.devicePixelRatio = 1;
globalThis.ResizeObserver = class { constructor(done) { this.done = done; } observe() { this.done(); } };
const fetched = fetch;
globalThis.fetch = (path, given) => fetched(address + path, given);
const script = fs.readFileSync(file, "utf8").match(/<script>([^]*)<\\/script>/)[1];
(0, eval)(script);
const until = async what => { for (let k = 0; k < 400 && !what(); k++) await new Promise(done => setTimeout(done, 25)); };
(async () => {
  await until(() => / lines$/.test(made("rate").textContent));
  const first = made("rate").textContent, plain = calls.splice(0);
  made("dashed").checked = true;
  await made("dashed").listeners.change();
  console.log(JSON.stringify({offered: !made("offered").hidden, first, then: made("rate").textContent, command: made("command").textContent, plain, calls}));
  process.exit(0);
})();
"""


@unittest.skipUnless(library.there(library.account), "libhost_account.a is not there")
class Page(unittest.TestCase):
    def setUp(self):
        self.yard = forms.read(PLINTH.read_text())
        self.camera = turn.starting(self.yard.scene, self.yard.view, 277, 190, 4.0)
        self.turning = turn.Turning(self.yard.scene, self.camera, sheets.Sheet(), "plinth.yard", "command")
        self.asked = {"eye": list(self.camera.eye), "target": list(self.camera.target), "fov": self.camera.field_of_view}
        self.hidden = account.on_sheet(self.yard.scene, self.camera)

    def test_it_is_handed_the_hidden_lines(self):
        self.assertTrue(self.turning.start()["hidden"])
        words = array("d")
        words.frombytes(self.turning.dashed(self.asked))
        count = int(words[0])
        self.assertGreater(count, 10)
        self.assertEqual(scene.rows_of(words[1 + count :], [int(x) for x in words[1 : 1 + count]]), self.hidden.paths)

    def test_the_saved_sheet_has_them_where_they_are_asked_for(self):
        self.assertNotIn('id="hidden"', self.turning.drawn(self.asked))
        self.assertNotIn('id="hidden"', self.turning.drawn({**self.asked, "hidden": False}))
        root = ElementTree.fromstring(self.turning.drawn({**self.asked, "hidden": True}))
        self.assertEqual(len(list(dashed(root).iter(SVG + "polyline"))), len(self.hidden.paths))

    def test_without_the_archive_they_are_not_offered(self):
        with mock.patch.object(library, "account", side_effect=library.Missing("none")):
            self.assertFalse(self.turning.start()["hidden"])

    @unittest.skipUnless(shutil.which("node"), "node is not there")
    def test_it_dashes_them(self):
        """In node, with a pen that keeps what it is told."""
        with turn.Server(self.turning) as server, tempfile.TemporaryDirectory() as folder:
            thread = threading.Thread(target=server.serve_forever, daemon=True)
            thread.start()
            stub = pathlib.Path(folder) / "stub.js"
            stub.write_text(STUB)
            done = subprocess.run(["node", stub, turn.PAGE, server.address()], capture_output=True, text=True, timeout=60)
            server.shutdown()
        self.assertEqual((done.returncode, done.stderr), (0, ""))
        told = json.loads(done.stdout)
        lines = len(self.yard.scene.draw(self.camera).paths)
        self.assertEqual((told["offered"], told["first"], told["then"]), (True, f"{lines} lines", f"{lines} lines and {len(self.hidden.paths)} hidden ones"))
        self.assertTrue(told["command"].endswith(" --hidden dashed"))
        self.assertEqual([call for call in told["plain"] if call[0] == "setLineDash" and call[1]], [])
        at = next(k for k, call in enumerate(told["calls"]) if call[0] == "setLineDash" and call[1])
        self.assertEqual([round(x, 9) for x in told["calls"][at][1]], [6.0, 3.0])
        begun = max(k for k, call in enumerate(told["calls"][:at]) if call[0] == "beginPath")
        drawn, path = [], []
        for name, *spot in told["calls"][begun + 1 : at]:
            if name == "moveTo":
                path = []
                drawn.append(path)
            path.append(tuple(spot))
        numbers = [float(word) for word in told["command"].split() if re.fullmatch(r"-?\d[\d.e+-]*", word)]
        seen = self.turning.seen({"eye": numbers[:3], "target": numbers[3:6], "fov": numbers[6]})
        self.assertEqual(drawn, [[(x, y) for x, y, _ in path] for path in account.on_sheet(self.yard.scene, seen).paths])
        self.assertIn(["setLineDash", []], told["calls"][at + 1 :])


if __name__ == "__main__":
    unittest.main()
