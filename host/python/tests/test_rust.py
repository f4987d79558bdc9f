"""host/rust: its own tests, and its example on the example yards and on wrong ones."""
import os
import re
import subprocess
import unittest

from larnt import library

from . import EXAMPLES, ROOT, wrong
from .hosts import CARGO

ARCHIVES = all((library.folder() / f"lib{name}.a").exists() for name in ("host", "host_preview", "host_parts", "host_account", "host_merge", "host_text", "host_plotter"))


@unittest.skipUnless(CARGO and ARCHIVES, "there is no cargo, or one of the seven archives is not there")
class Wrapper(unittest.TestCase):
    @classmethod
    def setUpClass(cls):
        """The command of Cargo.toml, which builds the example and runs it."""
        (words,) = re.findall(r"^# +cargo (run .*) < examples/silos\.yard$", (ROOT / "host/rust/Cargo.toml").read_text(), re.M)
        cls.command = [CARGO, *words.split()]

    def answer(self, text):
        return subprocess.run(self.command, input=text, capture_output=True, cwd=ROOT, env={**os.environ, "CARGO_TERM_QUIET": "true"}).stdout

    def test_its_own_tests(self):
        words = ["test", "--offline", "--manifest-path", "host/rust/Cargo.toml", "--target-dir", "target/rust"]
        done = subprocess.run([CARGO, *words], cwd=ROOT, capture_output=True, text=True)
        self.assertEqual(done.returncode, 0, done.stdout + done.stderr)
        self.assertNotIn("warning", done.stderr)
        self.assertIn("test each_example_is_drawn_as_stored ... ok", done.stdout)

    def test_it_draws_the_examples_as_the_core_does(self):
        for path in EXAMPLES:
            with self.subTest(path.name):
                self.assertEqual(self.answer(path.read_bytes()), path.with_suffix(".drawing").read_bytes())

    def test_it_says_each_refusal(self):
        for number, (forms, options) in wrong.CASES.items():
            if not options:
                with self.subTest(number):
                    self.assertEqual(self.answer("\n".join(forms).encode()), b"(refused %d)\n" % number)


if __name__ == "__main__":
    unittest.main()
