"""Draws part by part and with threads: the whole draw bit for bit, how far they are, and how they end."""
import contextlib
import io
import os
import pathlib
import signal
import struct
import subprocess
import sys
import tempfile
import threading
import time
import unittest
from unittest import mock

from larnt import COARSE, FINE, Camera, Missing, OutOfTime, Refused, Scene, forms, library, progress, ranges, scene
from larnt.__main__ import main

from . import EXAMPLES, ROOT, hosts, parts, wrong, yards


def bits(drawing):
    """The numbers by their bits: -0 is not 0."""
    return [[struct.pack("<3d", *p) for p in path] for path in drawing.paths]


def whole(of, view, threshold):
    """The points and starts of the draw in one, as the library left them."""
    room = scene.drawn(of.lined(view), view, threshold, scene.MOST_POINTS)
    return room.numbers(), room.starts()


@unittest.skipUnless(library.there(library.parts), "libhost_parts.a is not there")
class Ranges(unittest.TestCase):
    def test_the_ranges_of_each_example_make_the_whole_draw(self):
        for path in EXAMPLES:
            yard = forms.read(path.read_text())
            made = yard.scene.lined(yard.view)
            count = len(yard.scene.parts)
            for threshold in (FINE, COARSE):
                wanted = whole(yard.scene, yard.view, threshold)
                for many in (1, 2, 3, count):
                    for threads in (1, 2):
                        with self.subTest(path.name, many=many, threads=threads):
                            asked = [(first, many) for first in range(0, count, many)]
                            numbers, starts = ranges.joined(ranges.drawn(made, yard.view, threshold, scene.MOST_POINTS, asked, threads))
                            self.assertEqual((numbers.tobytes(), starts), wanted)

    def test_a_range_may_reach_past_the_last_part(self):
        yard = forms.read((ROOT / "examples/silos.yard").read_text())
        made = yard.scene.lined(yard.view)
        drawn = ranges.drawn(made, yard.view, COARSE, 1 << 16, [(0, 2**64 - 1), (9, 1), (2**64 - 1, 2**64 - 1)])
        self.assertEqual(drawn[1:], [(b"", []), (b"", [])])
        self.assertEqual(drawn[0], whole(yard.scene, yard.view, COARSE))

    def test_split(self):
        self.assertEqual(ranges.split(7, 3), [(0, 2), (2, 2), (4, 3)])
        self.assertEqual(ranges.split(2, 8), [(0, 1), (1, 1)])
        self.assertEqual(ranges.split(0, 8), [])
        for parts in range(1, 40):
            for into in range(1, 12):
                made = ranges.split(parts, into)
                self.assertEqual([k for first, many in made for k in range(first, first + many)], list(range(parts)))
                self.assertLessEqual(len(made), into)


@unittest.skipUnless(library.there(library.parts), "libhost_parts.a is not there")
class Drawings(unittest.TestCase):
    def test_threads_draw_what_one_draws(self):
        of, camera = yards.yard(120)
        wanted = bits(of.draw(camera, threshold=FINE))
        self.assertGreater(len(wanted), 500)
        for threads in (1, 2, 3):
            self.assertEqual(bits(of.draw_parts(camera, threshold=FINE, threads=threads)), wanted)
            self.assertEqual(bits(of.draw(camera, threshold=FINE, threads=threads)), wanted)
        self.assertEqual(bits(of.draw(camera, threshold=FINE, seconds=600)), wanted)

    def test_each_path_has_its_part(self):
        yard = forms.read((ROOT / "examples/plinth.yard").read_text())
        drawing = yard.scene.draw_parts(yard.view)
        numbers = [part.number for part in drawing.parts]
        self.assertEqual(numbers, sorted(numbers))
        self.assertEqual({number: numbers.count(number) for number in numbers}, {1: 13, 2: 3, 4: 3, 7: 5, 8: 11})
        self.assertEqual(drawing, yard.scene.draw(yard.view))
        self.assertIsNone(yard.scene.draw(yard.view).parts)
        of, camera = yards.yard(120)
        self.assertIsNone(of.draw(camera, threads=2).parts)

    def test_the_draw_of_a_part_alone_is_its_paths(self):
        of, camera = yards.yard(12)
        drawing, view = of.draw_parts(camera), camera.view()
        made = of.lined(view)
        for k, part in enumerate(of.parts):
            ((numbers, starts),) = ranges.drawn(made, view, COARSE, scene.MOST_POINTS, [(k, 1)])
            own = [path for path, owner in zip(drawing.paths, drawing.parts) if owner is part]
            self.assertEqual(len(own), len(starts))
            self.assertEqual(b"".join(struct.pack("<3d", *p) for path in own for p in path), numbers)

    def test_it_tells_how_far_it_is_after_each_part(self):
        of, camera = yards.yard(20)
        for threads in (1, 3):
            heard = []
            of.draw_parts(camera, threads=threads, told=lambda done, all_of: heard.append((done, all_of)))
            self.assertEqual(heard, [(k, 20) for k in range(1, 21)])
        heard = []
        of, camera = yards.yard(200)
        of.draw(camera, told=lambda done, all_of: heard.append((done, all_of)))
        self.assertEqual((len(heard), heard[-1]), (64, (200, 200)))
        self.assertEqual(heard, sorted(set(heard)))

    def test_a_scene_of_nothing(self):
        heard = []
        drawing = Scene().draw_parts(Camera((0, -9, 0), (0, 0, 0)), told=lambda *told: heard.append(told))
        self.assertEqual((drawing.paths, list(drawing.parts)), ([], []))
        self.assertEqual(Scene().draw(Camera((0, -9, 0), (0, 0, 0)), threads=2).paths, [])

    def test_the_room_of_a_part_grows_and_has_an_end(self):
        of = Scene()
        of.cube((-1, 0, 0), (1, 1, 3), name="small")
        of.cube((-1, 4, 0), (1, 5, 3), stripes=200, name="large")
        camera = Camera((3, -20, 9), (0, 0, 2), field_of_view=20, step=1)
        self.assertEqual(bits(of.draw_parts(camera, threads=2)), bits(of.draw(camera)))
        with self.assertRaises(Refused) as met:
            of.draw_parts(camera, most_points=4096)
        self.assertEqual((met.exception.number, met.exception.part), (13, "large"))
        self.assertIn("room for 4,096 points", str(met.exception))


def slow(seconds, at):
    """The library with a call for each part, of which one takes long."""
    real, begun = library.parts(), []

    def draw_range(*given):
        first = given[12]
        begun.append(first)
        if first == at:
            time.sleep(seconds)
        return real.larnt_draw_range(*given)

    return mock.patch.object(library, "parts", lambda: mock.Mock(larnt_draw_range=draw_range)), begun


@unittest.skipUnless(library.there(library.parts), "libhost_parts.a is not there")
class Ends(unittest.TestCase):
    def setUp(self):
        self.of, self.camera = yards.yard(6)

    def test_a_draw_that_takes_too_long_says_at_which_part_and_returns_nothing(self):
        patch, begun = slow(0.6, 2)
        with patch, self.assertRaises(OutOfTime) as met:
            self.of.draw_parts(self.camera, seconds=0.2)
        self.assertEqual(([part.number for part in met.exception.under_way], met.exception.done, met.exception.of), ([3], 2, 6))
        self.assertEqual(str(met.exception), "the draw is not done after 0.2 s: 2 of 6 parts are drawn, and part 3 (sphere) was under way")
        time.sleep(0.7)
        self.assertEqual(begun, [0, 1, 2])  # the thread began no part after that

    def test_no_time_at_all(self):
        patch, _ = slow(0.3, 0)
        with patch, self.assertRaises(OutOfTime) as met:
            self.of.draw_parts(self.camera, seconds=0)
        self.assertEqual((met.exception.done, [part.number for part in met.exception.under_way]), (0, [1]))

    def test_time_enough(self):
        self.assertEqual(bits(self.of.draw_parts(self.camera, seconds=600)), bits(self.of.draw(self.camera)))

    def test_ctrl_c_ends_it_at_once(self):
        patch, begun = slow(1.5, 2)
        timer = threading.Timer(0.3, lambda: os.kill(os.getpid(), signal.SIGINT))
        clock = time.monotonic()
        with patch:
            timer.start()
            with self.assertRaises(KeyboardInterrupt):
                self.of.draw_parts(self.camera)
        self.assertLess(time.monotonic() - clock, 1.2)
        time.sleep(1.4)
        self.assertEqual(begun, [0, 1, 2])

    def test_what_the_listener_raises_ends_it(self):
        def told(done, of):
            if done == 3:
                raise ZeroDivisionError

        with self.assertRaises(ZeroDivisionError):
            self.of.draw_parts(self.camera, told=told)

    def test_what_goes_wrong_in_a_thread_comes_through(self):
        with mock.patch.object(ranges.Rooms, "draw", side_effect=MemoryError), self.assertRaises(MemoryError):
            self.of.draw_parts(self.camera, threads=2)

    def test_the_refusal_is_that_of_the_first_part_that_meets_one(self):
        of = Scene()
        of.cube((-1, 0, 0), (1, 1, 3), name="fine")
        for name in ("one", "two"):
            of.sphere((0, 0, 0), 1, lines=[[(0, 0, 2), (2e6, 0, 2)]], name=name)
        for threads in (1, 2, 3):
            with self.assertRaises(Refused) as met:
                of.draw_parts(Camera((3, -20, 9), (0, 0, 2)), threads=threads)
            self.assertEqual((met.exception.number, met.exception.part), (9, "one"))
        text, _ = wrong.CASES[11]
        yard = forms.read("\n".join(text))
        with self.assertRaises(Refused) as met:
            yard.scene.draw_parts(yard.view)
        self.assertEqual(met.exception.number, 11)

    def test_the_refusal_of_an_earlier_part_that_ends_later(self):
        def draw(self, asked):
            time.sleep(0.3 if asked[0] == 1 else 0)
            return {1: 11, 2: 12}.get(asked[0], 0), (b"", [])

        with mock.patch.object(ranges.Rooms, "draw", draw), self.assertRaises(Refused) as met:
            self.of.draw_parts(self.camera, threads=2)
        self.assertEqual((met.exception.number, met.exception.part), (11, "part 2"))


@unittest.skipUnless(library.there(library.parts), "libhost_parts.a is not there")
class Command(unittest.TestCase):
    SILOS = str(ROOT / "examples/silos.yard")

    def setUp(self):
        folder = tempfile.TemporaryDirectory()
        self.addCleanup(folder.cleanup)
        self.folder = pathlib.Path(folder.name)

    def typed(self, *words, code=0):
        out, err = io.StringIO(), io.StringIO()
        with contextlib.redirect_stdout(out), contextlib.redirect_stderr(err):
            self.assertEqual(main(["sheet", *map(str, words)]), code, err.getvalue())
        return err.getvalue()

    def test_the_sheet_is_the_same_with_threads_and_without_the_archive(self):
        made = []
        for words in ([], ["--threads", 2], ["--seconds", 600], None):
            with mock.patch.object(library, "parts", side_effect=Missing("none")) if words is None else contextlib.nullcontext():
                self.typed(self.SILOS, self.folder / "a.svg", *(words or []))
            made.append((self.folder / "a.svg").read_bytes())
        self.assertEqual(len(set(made)), 1)
        with mock.patch.object(library, "parts", side_effect=Missing("run `tools/archives host_parts`")):
            self.assertIn("tools/archives host_parts", self.typed(self.SILOS, self.folder / "b.svg", "--threads", 2, code=1))

    def test_it_gives_up_and_writes_nothing(self):
        patch, _ = slow(0.4, 4)
        with patch:
            said = self.typed(self.SILOS, self.folder / "a.svg", "--seconds", 0.1, code=1)
        self.assertRegex(said, r"^sheet: the draw is not done after 0\.1 s: 4 of 9 parts are drawn, and part 5 \(placed cylinder\) was under way\n$")
        self.assertFalse((self.folder / "a.svg").exists())

    def test_ctrl_c(self):
        program = subprocess.Popen([sys.executable, "-c", (
            "import sys, time\nfrom larnt import library\nfrom larnt.__main__ import main\n"
            "from unittest import mock\nreal = library.parts()\n"
            "def slow(*given):\n    print('begun', flush=True)\n    time.sleep(20)\n    return real.larnt_draw_range(*given)\n"
            "library.parts = lambda: mock.Mock(larnt_draw_range=slow)\n"
            f"sys.exit(main(['sheet', {self.SILOS!r}, {str(self.folder / 'a.svg')!r}]))")],
            cwd=ROOT / "host/python", stdout=subprocess.PIPE, stderr=subprocess.PIPE, text=True,
            preexec_fn=lambda: signal.signal(signal.SIGINT, signal.default_int_handler))
        program.stdout.readline()
        program.send_signal(signal.SIGINT)
        _, err = program.communicate(timeout=10)
        self.assertEqual((program.returncode, err), (130, "sheet: stopped\n"))
        self.assertFalse((self.folder / "a.svg").exists())

    def test_the_bar_counts_parts(self):
        class Terminal(io.StringIO):
            def isatty(self):
                return True

        terminal = Terminal()
        bar = progress.Counted(terminal)
        bar(1, 9)
        self.assertEqual(terminal.getvalue(), "")
        bar.begun -= 2
        bar(3, 9)
        self.assertEqual(terminal.getvalue(), f"\r[{'#' * 10}{'.' * 20}] 3 of 9 parts, 2 s")
        bar.clear()
        self.assertTrue(terminal.getvalue().endswith(" \r"))


@unittest.skipUnless(library.there(library.parts) and library.there(library.account), "libhost_parts.a or libhost_account.a is not there")
class Differential(unittest.TestCase):
    """tests/parts.py on a few yards, and that it finds what is wrong."""

    def test_a_few_yards(self):
        met, differ = parts.compared(hosts.yards(11), 12)
        self.assertEqual(differ, [])
        for what in ("draws by ranges", "accounts", "visible", "hidden", "clipped", "drawings made of the account"):
            self.assertGreater(met[what], 5, what)

    def found(self, archive, call, change, yards_of=6):
        """How many yards differ where a call of the library is changed."""
        real = getattr(library, archive)()
        changed = mock.Mock(**{name: getattr(real, name) for name in ("larnt_draw_range", "larnt_fates", "larnt_entry_lines") if hasattr(real, name)})

        def asked(*given):
            return change(getattr(real, call), list(given))

        setattr(changed, call, asked)
        with mock.patch.object(library, archive, lambda: changed):
            return len(parts.compared(hosts.yards(11), yards_of)[1])

    def test_a_range_that_starts_one_too_late(self):
        def late(real, given):
            given[12] = min(given[12] + 1, 2**64 - 1)
            return real(*given)

        self.assertGreater(self.found("parts", "larnt_draw_range", late), 1)

    def test_a_word_that_is_another(self):
        def changed(where, to):
            def change(real, given):
                answer, told = real(*given), given[-2]
                for k in range(given[-1]):
                    if where(told[k]):
                        told[k] = to(told[k])
                        break
                return answer

            return change

        hidden, clipped, visible = (lambda w: w < library.MET), (lambda w: w == library.CLIPPED), (lambda w: w == library.VISIBLE)
        for name, where, to in (
            ("hidden for visible", visible, lambda w: 0),
            ("visible for hidden", hidden, lambda w: library.VISIBLE),
            ("clipped for hidden", hidden, lambda w: library.CLIPPED),
            ("visible for clipped", clipped, lambda w: library.VISIBLE),
            ("one that is not drawn", hidden, lambda w: 1000),
            ("11 for visible", visible, lambda w: library.MET + 11),
        ):
            with self.subTest(name):
                self.assertGreater(self.found("account", "larnt_fates", changed(where, to)), 0)

    def test_a_point_that_is_missing(self):
        def fewer(real, given):
            answer, points = real(*given), given[-2]._obj
            points.value = max(0, points.value - 1)
            return answer

        self.assertGreater(self.found("account", "larnt_entry_lines", fewer), 0)


if __name__ == "__main__":
    unittest.main()
