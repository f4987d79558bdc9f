"""The page that turns a yard: its server, and the page itself in Chromium."""
import contextlib
import dataclasses
import http.client
import io
import json
import math
import pathlib
import re
import signal
import subprocess
import sys
import tempfile
import threading
import time
import unittest
from array import array

from larnt import BY_CORE, DIFFERENCE, Camera, Cube, Scene, Sphere, forms, hidden, sheets, turn
from larnt import scene as laid
from larnt.__main__ import OUTLINES, main, with_outlines

from . import ROOT, browser, wrong, yards
from .test_examples import EXAMPLES

SILOS = ROOT / "examples/silos.yard"


def paths_in(words):
    """The paths of a frame, three numbers a point."""
    numbers = array("d", words)
    count = int(numbers[0])
    starts, points = [int(x) for x in numbers[1 : 1 + count]], numbers[1 + count :]
    return [list(points[3 * a : 3 * b]) for a, b in zip(starts, [*starts[1:], len(points) // 3])]


def core(scene, camera, asked, level):
    """What the library draws of a question, by a scene that is made anew."""
    more, points = turn.LEVELS[level]
    solids = [turn.solids.changed(part.solid, lambda s: dataclasses.replace(s, points=min(points, s.points))) for part in scene.parts]
    seen = Camera(asked["eye"], asked["target"], field_of_view=asked["fov"], width=camera.width, height=camera.height, step=more * camera.step)
    made = Scene(solids).slices()
    made.outline(seen.view(), level == 0)
    drawing = laid.drawn(made, seen.view(), laid.COARSE, laid.MOST_POINTS).drawing(seen.view())
    return [[x for p in path for x in p] for path in drawing.paths]


@contextlib.contextmanager
def serving(scene, camera):
    with turn.Server(turn.Turning(scene, camera, sheets.Sheet())) as server:
        threading.Thread(target=server.serve_forever, daemon=True).start()
        try:
            yield server
        finally:
            server.shutdown()


def asked_of(camera, **more):
    return {"eye": list(camera.eye), "target": list(camera.target), "fov": camera.field_of_view, **more}


class Served(unittest.TestCase):
    @classmethod
    def setUpClass(cls):
        cls.scene, cls.camera = yards.yard(24)
        cls.server = cls.enterClassContext(serving(cls.scene, cls.camera)) if hasattr(cls, "enterClassContext") else None
        if cls.server is None:  # Python 3.10 and earlier
            held = contextlib.ExitStack()
            cls.server = held.enter_context(serving(cls.scene, cls.camera))
            cls.addClassCleanup(held.close)

    def ask(self, method, path, body=None, **headers):
        """The status and what was answered; None takes a header away."""
        told = {"Host": f"127.0.0.1:{self.server.server_port}", "Content-Type": "application/json", "Content-Length": str(len(body or b""))}
        told.update({name.replace("_", "-"): value for name, value in headers.items()})
        connection = http.client.HTTPConnection("127.0.0.1", self.server.server_port, timeout=60)
        self.addCleanup(connection.close)
        connection.putrequest(method, path, skip_host=True)
        for name, value in told.items():
            if value is not None:
                connection.putheader(name, value)
        connection.endheaders(body)
        reply = connection.getresponse()
        return reply.status, reply.read()

    def question(self, path, **asked):
        return self.ask("POST", path, json.dumps(asked).encode())

    def test_it_is_this_machine_s_alone(self):
        self.assertEqual(self.server.server_address[0], "127.0.0.1")
        port = self.server.server_port
        self.assertEqual(self.ask("GET", "/", Host=f"localhost:{port}")[0], 200)
        for host in ("yard.example", f"yard.example:{port}", f"127.0.0.1.yard.example:{port}", "127.0.0.1", "localhost", "", None):
            for method, path in (("GET", "/"), ("POST", "/start"), ("POST", "/frame")):
                with self.subTest(host=host, path=path):
                    self.assertEqual(self.ask(method, path, b"{}" if method == "POST" else None, Host=host)[0], 403)

    def test_the_page_is_the_only_file(self):
        status, page = self.ask("GET", "/")
        self.assertEqual((status, page), (200, turn.PAGE.read_bytes()))
        self.assertNotRegex(page.decode(), r"(src|href)=[\"']?(https?:)?//")
        for path in ("/turn.html", "/turn.py", "/../turn.py", "/..%2fturn.py", "/?", "/.", "/frame", "/start", "/etc/passwd", "turn.py", "*"):
            with self.subTest(path):
                self.assertEqual(self.ask("GET", path)[0], 404)
        self.assertEqual(self.ask("POST", "/../frame", b"{}")[0], 404)
        self.assertEqual(self.ask("PUT", "/frame", b"{}")[0], 501)

    def test_what_is_no_question(self):
        good = asked_of(self.camera, level=3)
        self.assertEqual(self.question("/frame", **good)[0], 200)
        self.assertEqual(self.ask("POST", "/frame", json.dumps(good).encode(), Content_Type="text/plain")[0], 415)
        self.assertEqual(self.ask("POST", "/frame", json.dumps(good).encode(), Content_Type=None)[0], 415)
        self.assertEqual(self.ask("POST", "/frame", b" " * 5000)[0], 413)
        self.assertEqual(self.ask("POST", "/frame", b"{}", Content_Length="-1")[0], 413)
        for length in ("9" * 5000, "1" * 400, "0" * 5000):
            self.assertEqual(self.ask("POST", "/frame", b"{}", Content_Length=length)[0], 413)
        for body in (b"", b"{", b"[]", b"7", b"{}", b'{"eye": 1}', b"\xff", b"[" * 4000):
            with self.subTest(body):
                self.assertEqual(self.ask("POST", "/frame", body)[0], 400)
        for change in ({"eye": [1, 2]}, {"eye": [1, 2, "x"]}, {"eye": [math.nan] * 3}, {"eye": [math.inf, 0, 0]}, {"fov": 0}, {"fov": 180}, {"fov": math.nan},
                       {"level": None}, {"level": math.inf}, {"target": good["eye"]}, {"eye": [1e300, 0, 0]}):
            with self.subTest(change):
                self.assertEqual(self.question("/frame", **{**good, **change})[0], 400)
        status, said = self.question("/frame", **{**good, "eye": [2e6, 0, 0]})
        self.assertEqual(status, 409)
        self.assertIn(b"refusal 8", said)
        self.assertEqual(self.question("/why", **asked_of(self.camera, at=[math.nan, 0], within=5))[0], 400)

    def test_each_frame_is_the_library_s_draw(self):
        for level in range(len(turn.LEVELS)):
            for eye in (self.camera.eye, (-30000, 1000, 2000), (0, 0, 90000)):
                with self.subTest(level=level, eye=eye):
                    asked = {**asked_of(self.camera), "eye": list(eye)}
                    status, words = self.question("/frame", **asked, level=level)
                    self.assertEqual(status, 200)
                    drawn = paths_in(words)
                    self.assertGreater(len(drawn), 20)
                    self.assertEqual(drawn, core(self.scene, self.camera, asked, level))

    def test_frames_asked_for_at_once(self):
        eyes = [[40000 + 999 * k, -60000, 30000] for k in range(4)]
        wanted = [self.question("/frame", **{**asked_of(self.camera), "eye": eye}, level=2)[1] for eye in eyes]
        found = [[] for _ in eyes]

        def many(k):
            found[k] = [self.question("/frame", **{**asked_of(self.camera), "eye": eyes[k]}, level=2)[1] for _ in range(8)]

        threads = [threading.Thread(target=many, args=(k,)) for k in range(4)]
        for thread in threads:
            thread.start()
        for thread in threads:
            thread.join()
        self.assertEqual(found, [[words] * 8 for words in wanted])

    def test_the_sheet_is_the_drawing_at_rest(self):
        status, svg = self.question("/sheet", **asked_of(self.camera))
        self.assertEqual(status, 200)
        self.assertEqual(svg.decode(), sheets.svg(sheets.Sheet().laid(self.scene.draw(self.camera))))

    def test_who_is_nearest_to_the_line_and_who_to_the_eye(self):
        scene, camera = Scene(), Why.CAMERA
        for near, far, name in ((-3, -2, "gate"), (0, 1, "wall"), (4, 5, "hut")):
            scene.cube((-2, near, 0), (2, far, 4), name=name)
        page = turn.Turning(scene, camera, sheets.Sheet())
        told = page.why(asked_of(camera, at=camera.view().spot((-2, 4, 2)), within=1))
        self.assertEqual(told["said"], "The line of hut (cube) is hidden here by wall (cube); the eye meets gate (cube) before that.")
        self.assertEqual((told["line"], told["by"]), (3, 2))

    def test_start(self):
        told = json.loads(self.question("/start")[1])
        self.assertEqual((told["eye"], told["target"], told["parts"], told["width"]), (list(self.camera.eye), list(self.camera.target), 24, 1200))


class Why(unittest.TestCase):
    """Who hides a line that passes a spot of the sheet."""

    CAMERA = Camera((0, -20, 6), (0, 0, 2), field_of_view=40)

    def told(self, scene, point, within=4.0):
        view = self.CAMERA.view()
        return hidden.told(scene, view, view.spot(point), within)

    def test_a_box_behind_a_box(self):
        scene = Scene()
        wall = scene.cube((-4, 0, 0), (4, 1, 5), name="wall")
        hut = scene.cube((-1, 4, 0), (1, 6, 3), name="hut")
        told = self.told(scene, (-1, 4, 1.5))
        self.assertEqual((told.line, told.by), (hut, wall))
        for a, b in zip(told.point, (-1, 4, 1.5)):
            self.assertAlmostEqual(a, b)
        self.assertIs(scene.why_hidden(self.CAMERA.eye, told.point), wall)
        self.assertIsNone(self.told(scene, (-4, 0, 2.5)).by)
        self.assertIs(self.told(scene, (-4, 0, 2.5)).line, wall)
        self.assertIsNone(self.told(scene, (-9, 0, 0)))

    def test_a_solid_hides_its_own_far_side(self):
        scene = Scene()
        tube = scene.cylinder(2, 0, 3, closed=True)
        told = self.told(scene, (0, 2, 0))
        self.assertEqual((told.line, told.by), (tube, tube))

    def test_every_kind_of_line(self):
        """Each stands behind a wall: outlines of the host and of the core, stripes of tubes, cones and boxes, a triangle's edges, lines of placed ones."""
        for add, point in (
            (lambda s: s.sphere((0, 5, 2), 1), None),
            (lambda s: s.cylinder(1, 0, 3, at=(0, 5, 0), lines=BY_CORE), (0, 4, 3)),
            (lambda s: s.cylinder(1, 0, 3, at=(0, 5, 0), stripes=4, lines=()), (0, 4, 1.5)),
            (lambda s: s.cone(1, 3, at=(0, 5, 0), stripes=4, lines=()), (0, 4.5, 1.5)),
            (lambda s: s.cube((-1, 4, 0), (1, 6, 3), stripes=4), (-0.5, 4, 1.5)),
            (lambda s: s.triangle((-1, 5, 0), (1, 5, 0), (0, 5, 3)), (0.5, 5, 1.5)),
        ):
            scene = Scene()
            wall = scene.cube((-8, 0, 0), (8, 0.5, 5))
            part = add(scene)
            view = self.CAMERA.view()
            if point is None:
                made = scene.slices(view)
                point = tuple(made.points[:3])
            told = hidden.told(scene, view, view.spot(point), 0.5)
            with self.subTest(type(part.solid).__name__):
                self.assertEqual((told.line, told.by), (part, wall))

    def test_a_cut_has_only_the_lines_that_lie_on_it(self):
        scene = Scene()
        wall = scene.cube((-8, -3, 0), (8, -2, 5))
        block, bay = scene.cube((-2, 4, 0), (2, 6, 3)), scene.cube((-1, 3, 0), (1, 5, 4))
        cut = scene.cut(DIFFERENCE, block, bay)
        told = self.told(scene, (-1, 5, 1.5), 0.5)  # an edge of the bay within the block
        self.assertEqual((told.line, told.by), (cut, wall))
        self.assertIsNone(self.told(scene, (-1, 5, 3.9), 0.5))  # above the block there is none


@unittest.skipUnless(browser.DRIVER and browser.CHROMIUM, "there is no Chromium with its driver (Debian: chromium, chromium-driver)")
class Page(unittest.TestCase):
    @classmethod
    def setUpClass(cls):
        cls.window = browser.Browser()
        cls.addClassCleanup(cls.window.close)
        cls.program = subprocess.Popen([sys.executable, "-m", "larnt", "turn", SILOS], cwd=ROOT / "host/python", stdout=subprocess.PIPE, text=True)
        cls.addClassCleanup(cls.program.stdout.close)
        cls.addClassCleanup(cls.program.wait)
        cls.addClassCleanup(cls.program.terminate)
        cls.address = re.search(r"http://127\.0\.0\.1:\d+/", cls.program.stdout.readline())[0]
        yard = forms.read(SILOS.read_text())
        cls.scene = with_outlines("turned", yard)
        cls.camera = turn.starting(cls.scene, yard.view, 277, 190, 0.5 / (277 / 1200))

    def setUp(self):
        self.window.go(self.address)
        self.rested()
        self.window.run("""
            window.painted = [];
            const before = paint;
            paint = () => { before(); painted.push({...shown, paths: shown.paths.map(path => Array.from(path))}) };""")

    def rested(self):
        """Waits until the fine frame of where the page is now is shown."""
        script = "return Boolean(shown && shown.level === 0 && !changed && !asking && JSON.stringify(shown.camera) === JSON.stringify(camera()))"
        for _ in range(300):
            if self.window.run(script):
                return
            time.sleep(0.05)
        self.fail("no fine frame came: " + self.window.run("return document.getElementById('said').textContent"))

    def frames(self):
        """The frames that were painted; each must be the library's draw."""
        painted = self.window.run("return painted.splice(0)")
        for frame in painted:
            self.assertEqual(frame["paths"], core(self.scene, self.camera, frame["camera"], frame["level"]))
        return painted

    def test_it_begins_with_the_view_of_the_text(self):
        shown = self.window.run("return {...shown, paths: shown.paths.map(path => Array.from(path))}")
        self.assertEqual(shown["camera"], {"eye": [15000, -26000, 13000], "target": list(self.camera.target), "fov": 25})
        self.assertEqual(shown["paths"], core(self.scene, self.camera, shown["camera"], 0))
        self.assertEqual(self.window.run("return document.title"), "silos.yard, 9 parts")

    def test_a_drag_turns(self):
        x, y = self.window.middle("#sheet")
        self.window.drag((x, y), *[(10, 2)] * 25)
        self.rested()
        frames = self.frames()
        self.assertGreater(len(frames), 5)
        self.assertEqual(frames[-1]["level"], 0)
        eye, target = frames[-1]["camera"]["eye"], self.camera.target
        self.assertAlmostEqual(math.dist(eye, target), math.dist(self.camera.eye, target), delta=0.1)
        turned = math.atan2(-26000 - target[1], 15000 - target[0]) - math.atan2(eye[1] - target[1], eye[0] - target[0])
        self.assertAlmostEqual(turned, 250 * 0.008, places=5)
        self.assertEqual(self.window.run("return document.getElementById('rate').textContent"), f"{len(frames[-1]['paths'])} lines")

    def test_the_wheel_comes_nearer(self):
        far = math.dist(self.camera.eye, self.camera.target)
        self.window.wheel(*self.window.middle("#sheet"), -100)
        self.rested()
        camera = self.frames()[-1]["camera"]
        self.assertAlmostEqual(math.dist(camera["eye"], camera["target"]) / far, math.exp(-0.1), places=5)
        self.window.wheel(*self.window.middle("#sheet"), 100)
        self.rested()
        self.assertAlmostEqual(math.dist(self.frames()[-1]["camera"]["eye"], camera["target"]) / far, 1, places=5)

    def test_a_frame_that_comes_late_is_not_shown(self):
        shown = self.window.run("""
            const before = post;
            let late = true;
            post = async (path, question) => {
                const reply = await before(path, question);
                if (path === "frame" && late) { late = false; await new Promise(done => setTimeout(done, 400)) }
                return reply;
            };
            const slow = frame(3);
            await frame(1);
            const number = shown.number;
            await slow;
            post = before;
            return [shown.number - number, shown.level];""")
        self.assertEqual(shown, [0, 1])

    def test_keys_turn_too(self):
        self.window.key("#sheet", "\ue014\ue013+")  # right, up, nearer
        self.rested()
        camera = self.frames()[-1]["camera"]
        self.assertAlmostEqual(math.dist(camera["eye"], camera["target"]) / math.dist(self.camera.eye, self.camera.target), 0.9, places=5)
        self.assertGreater(camera["eye"][2] - camera["target"][2], 0.9 * (13000 - camera["target"][2]))

    def on_screen(self, point):
        """Where a point of the yard is in the window."""
        x, y = self.camera.view().spot(point)
        left, top, wide, high = self.window.run("const b = document.getElementById('sheet').getBoundingClientRect(); return [b.left, b.top, b.width, b.height]")
        return left + x * wide / 1200, top + (800 - y) * high / 800

    def test_a_click_names_the_solid_that_hides(self):
        """The hut's upright edge that is turned away, and the lines behind the tank."""
        hut, tank = ([part for part in self.scene.parts if isinstance(part.solid, kind)][-1] for kind in (Cube, Sphere))
        low, high = hut.solid.low, hut.solid.high
        self.window.click(*self.on_screen((low[0], high[1], (low[2] + high[2]) / 2)))
        self.said(f"the line of {turn.named(hut)} is hidden here by itself.")
        view = self.camera.view()
        behind = hidden.told(self.scene, view, view.spot(tank.solid.centre), 40)
        self.assertIs(behind.by, tank)
        self.assertIsNot(behind.line, tank)
        self.window.click(*self.on_screen(behind.point))
        self.said(f"the line of {turn.named(behind.line)} is hidden here by {turn.named(tank)}.")
        self.assertLess(math.dist(self.window.run("return mark"), behind.spot), 3)
        self.window.click(*self.window.run("const b = canvas.getBoundingClientRect(); return [b.left + 15, b.bottom - 15]"))
        self.said("no line passes here.")

    def said(self, words):
        for _ in range(100):
            found = self.window.run("return document.getElementById('said').textContent")
            if found.lower() == words.lower():
                return
            time.sleep(0.05)
        self.assertEqual(found.lower(), words.lower())

    def test_what_is_painted_is_the_drawing(self):
        """The pixels: dark along every line of the core's drawing, and white a little away from all of them."""
        drawing = self.scene.draw(self.camera)
        pieces = [(a, b) for path in drawing.paths for a, b in zip(path, path[1:])]
        spots = [((a[0] + b[0]) / 2, (a[1] + b[1]) / 2) for a, b in pieces if math.dist(a[:2], b[:2]) > 4]
        clear = [(x, y) for x in range(20, 1200, 40) for y in range(20, 800, 40) if all(hidden.nearest(a[:2], b[:2], (x, y))[1] > 6 for a, b in pieces)]
        self.assertGreater(len(spots), 50)
        self.assertGreater(len(clear), 300)
        look = """const [spots] = arguments, scale = canvas.width / 1200;
            return spots.map(([x, y]) => Math.max(...Array.from(pen.getImageData(Math.round(x * scale) - 1, Math.round(canvas.height - y * scale) - 1, 3, 3).data).filter((_, k) => k % 4 === 3)))"""
        self.assertGreater(min(self.window.run(look, spots)), 100)
        self.assertEqual(max(self.window.run(look, clear)), 0)
        self.assertTrue(self.window.picture().startswith(b"\x89PNG"))

    def test_the_saved_sheet_is_that_of_the_command(self):
        x, y = self.window.middle("#sheet")
        self.window.drag((x, y), (40, -30), (40, 0))
        self.rested()
        self.window.click(*self.window.middle("#save"))
        saved = pathlib.Path(self.window.folder.name, "silos.svg")
        for _ in range(200):
            if saved.exists():
                break
            time.sleep(0.05)
        words = self.window.run("return document.getElementById('command').textContent").split()
        self.assertEqual(words[:3], ["python3", "-m", "larnt"])
        with tempfile.TemporaryDirectory() as folder, contextlib.redirect_stdout(io.StringIO()), contextlib.redirect_stderr(io.StringIO()):
            words[words.index("sheet.svg")] = folder + "/sheet.svg"
            self.assertEqual(main(words[3:]), 0)
            self.assertEqual(pathlib.Path(folder, "sheet.svg").read_text(), saved.read_text())


class Command(unittest.TestCase):
    def test_each_example_has_a_place_to_begin(self):
        for path in EXAMPLES:
            yard = forms.read(path.read_text())
            camera = turn.starting(yard.scene, yard.view, 277, 190, 2)
            with self.subTest(path.name):
                self.assertEqual(camera.eye, yard.view.eye)
                for row in (0, 1, 3):  # the third goes with near and far
                    for x, y in zip(camera.view().matrix[row][:3], yard.view.matrix[row][:3]):
                        self.assertAlmostEqual(x, y, places=4)

    def test_each_way_of_outlines_turns(self):
        for how in OUTLINES:
            with self.subTest(how):
                yard = forms.read(SILOS.read_text())
                scene = with_outlines(how, yard)
                page = turn.Turning(scene, turn.starting(scene, yard.view, 277, 190, 2), sheets.Sheet())
                asked = {**asked_of(page.camera), "eye": [15000, 20000, 9000]}
                drawn = paths_in(page.frame({**asked, "level": 1}))
                self.assertGreater(len(drawn), 20)
                self.assertEqual(drawn, core(scene, page.camera, asked, 1))

    def test_a_yard_without_a_view(self):
        scene = Scene([Sphere((5, 5, 5), 2)])
        camera = turn.starting(scene, None, 277, 190, 2)
        self.assertEqual(camera.target, [5, 5, 5])
        self.assertGreater(len(scene.draw(camera).paths), 0)
        with self.assertRaisesRegex(ValueError, "no solids"):
            turn.starting(Scene(), None, 277, 190, 2)

    def test_it_ends_by_ctrl_c(self):
        def heeding():
            """What a shell runs beside others is told to pass over Ctrl-C, and so is what it starts."""
            signal.signal(signal.SIGINT, signal.SIG_DFL)

        program = subprocess.Popen([sys.executable, "-m", "larnt", "turn", SILOS], cwd=ROOT / "host/python", stdout=subprocess.PIPE, stderr=subprocess.PIPE, text=True, preexec_fn=heeding)
        self.addCleanup(program.kill)
        self.assertRegex(program.stdout.readline(), r"^silos\.yard: http://127\.0\.0\.1:\d+/ \(Ctrl-C ends it\)$")
        program.send_signal(signal.SIGINT)
        self.assertEqual(program.communicate(timeout=60)[1], "turn: stopped\n")
        self.assertEqual(program.returncode, 130)

    def test_a_port_that_is_taken(self):
        with serving(*yards.yard(1)) as server:
            for port, words in ((server.server_port, "in use"), (70000, "0-65535")):
                said = io.StringIO()
                with contextlib.redirect_stderr(said):
                    self.assertEqual(main(["turn", str(SILOS), "--port", str(port)]), 1)
                self.assertRegex(said.getvalue(), f"^turn: --port {port}: .*{words}")

    def test_a_wrong_yard_is_told_of(self):
        with tempfile.TemporaryDirectory() as folder:
            path = pathlib.Path(folder, "5.yard")
            path.write_text("\n".join(wrong.CASES[5][0]))
            said = io.StringIO()
            with contextlib.redirect_stderr(said):
                self.assertEqual(main(["turn", str(path)]), 1)
            self.assertRegex(said.getvalue(), r"^turn: .*5\.yard, line 3, column 40: the radius is -2")


if __name__ == "__main__":
    unittest.main()
