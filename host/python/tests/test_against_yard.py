"""The package against the program `yard` on texts with mistakes, and all three hosts on random yards: the same drawing, or
the same refusal."""
import pathlib
import random
import re
import subprocess
import tempfile
import unittest

from larnt import library

from . import wrong
from .hosts import CARGO, COMPILER, SMALLEST, YARD, compared, hosts, package, printed, yards

ARCHIVES = all((library.folder() / f"lib{name}.a").exists() for name in ("host", "host_preview", "host_parts", "host_account", "host_merge", "host_text", "host_plotter"))
FORMS = [
    wrong.CUBE,
    "(sphere 0 0 0 1 (line 0 0 1 1 0 0) (line))",
    "(cylinder 2 0 7 (line 2 0 0 2 0 7))",
    "(cone 2 3)",
    "(triangle 0 0 0 1 0 0 0 1 0)",
    wrong.placed("1 0 0 4 0 1 0 0 0 0 1 0 0 0 0 1", "(cube 3 0 0 0 1 1 1)"),
    f"(cut 1 {wrong.CUBE} (sphere 0 0 0 1))",
    wrong.placed("1 0 0 2 0 1 0 0 0 0 1 0 0 0 0 1", f"(cut 3 (cylinder 2 0 4 (line 2 0 0 2 0 4)) {wrong.CUBE})"),
]
WORDS = (
    "( ) 0 1 -1 2 4 5 -0 007 1000000 1000001 1001 #3FE0000000000000 #7FF0000000000000 #7FF8000000000000 #C0F86A0000000001 #412E848000000001 "
    "#3ff #0 +1 1.5 - x line sphere cut view cone cylinder"
).split() + [" ", "\n", "\t", "\r"]


def changed(rng, text):
    """One token changed, added or left out."""
    tokens = re.findall(r"[()\n]|[^() \n]+| ", text)
    at = rng.randrange(len(tokens))
    how = rng.randrange(3)
    tokens[at : at + (how > 0)] = [] if how == 1 else [rng.choice(WORDS), rng.choice(("", " "))]
    return "".join(tokens)


@unittest.skipUnless(YARD.exists(), "the program `yard` is not built (tools/program yard)")
class AgainstYard(unittest.TestCase):
    def test_texts_with_mistakes(self):
        rng, met = random.Random(1), set()
        for _ in range(600):
            text = "\n".join([wrong.VIEW, *rng.sample(FORMS, rng.randrange(5))]) + "\n"
            for _ in range(rng.choice((0, 1, 1, 2))):
                text = changed(rng, text)
            said = subprocess.run([YARD], input=text.encode(), capture_output=True).stdout.decode()
            met.add(said.split("\n")[0].split(" ")[0] + (said[9:11] if said.startswith("(refused") else ""))
            if said != "(refused 13)\n":  # the package has more room
                self.assertEqual(package(text), said, text)
        self.assertGreater(len(met), 4)


@unittest.skipUnless(YARD.exists() and COMPILER and CARGO and ARCHIVES, "the program `yard` is not built, or there is no C compiler, no cargo, or not all seven archives")
class ThreeHosts(unittest.TestCase):
    """C, Rust and Python draw what `yard` draws, line for line. At step 0 a draw may need a start more than a preview counts."""

    @classmethod
    def setUpClass(cls):
        folder = tempfile.TemporaryDirectory()
        cls.addClassCleanup(folder.cleanup)
        cls.hosts = hosts(pathlib.Path(folder.name))

    def test_the_smallest_yards_whose_last_path_vanishes_at_step_0(self):
        for (name, text), said in zip(SMALLEST.items(), ("(drawing 0)", "(drawing 9)")):
            drawing = printed(YARD)(text)
            self.assertEqual(drawing.split("\n")[0], said)
            for host, answer in self.hosts.items():
                with self.subTest(name, host=host):
                    self.assertEqual(answer(text), drawing)

    def test_random_yards_at_step_0_and_above(self):
        met, differing = compared(yards(31), 120, self.hosts)
        self.assertEqual(differing, [])
        self.assertEqual((met["yards"], met["at step 0"]), (120, 60))
        self.assertGreater(met["with a path"], 60)
        self.assertGreater(met["refused"], 5)


if __name__ == "__main__":
    unittest.main()
