"""host/c: example.c, built and run on the example yards, and structs.c, which compares the header's two layers."""
import pathlib
import re
import shutil
import subprocess
import tempfile
import unittest
from xml.etree import ElementTree

from larnt import drawing, forms, library
from larnt.__main__ import arguments, laid_out, seen_by, with_outlines

from . import EXAMPLES, ROOT, wrong
from .hosts import COMPILER, built
from .test_examples import lines_of, picture_options
from .test_header import declared

CPP = shutil.which("c++")


@unittest.skipUnless(COMPILER and library.there(library.preview), "there is no C compiler, or libhost_preview.a is not there")
class Example(unittest.TestCase):
    @classmethod
    def setUpClass(cls):
        folder = tempfile.TemporaryDirectory()
        cls.addClassCleanup(folder.cleanup)
        cls.program = pathlib.Path(folder.name) / "example"
        built("host/c/example.c", cls.program)

    def answer(self, text):
        return subprocess.run([self.program], input=text, capture_output=True).stdout

    def test_it_draws_the_examples_as_the_core_does(self):
        for path in EXAMPLES:
            with self.subTest(path.name):
                self.assertEqual(self.answer(path.read_bytes()), path.with_suffix(".drawing").read_bytes())

    def test_the_pictures_have_its_lines_and_no_others(self):
        """The command writes the text of what it draws; the C host reads and draws that."""
        for path in EXAMPLES:
            with self.subTest(path.name):
                options = arguments(["sheet", str(path), "a.svg", *picture_options(path)])
                yard = forms.read(path.read_text())
                view = seen_by(options, yard, laid_out(options))
                answer = self.answer(forms.write(with_outlines(options.outlines, yard), view).encode()).decode()
                core = [[(x, y) for x, y, _ in line] for line in drawing.read(answer, view.width, view.height).paths]
                self.assertGreater(len(core), 10)
                self.assertEqual(lines_of(ElementTree.parse(path.with_suffix(".svg")).getroot()), core)

    def test_it_says_each_refusal(self):
        for number, (forms, options) in wrong.CASES.items():
            if not options:
                self.assertEqual(self.answer("\n".join(forms).encode()), b"(refused %d)\n" % number)

    def test_zeros_before_a_number(self):
        """As many as one likes, as in `yard`."""
        long = [wrong.VIEW, "(cube " + "0" * 30 + "1 -" + "0" * 99 + "1 0 -0 " + "0" * 5000 + "7 1 1)"]
        short = [wrong.VIEW, "(cube 1 -1 0 0 7 1 1)"]
        said = self.answer("\n".join(short).encode())
        self.assertTrue(said.startswith(b"(drawing "))
        self.assertEqual(self.answer("\n".join(long).encode()), said)
        for number in ("1" + "0" * 30, "#" + "0" * 30, "00x", "0-1"):
            self.assertEqual(self.answer(f"{wrong.VIEW}\n(cone 1 {number})".encode()), b"(refused 1)\n")

    def test_what_is_no_text(self):
        for text in (b"", b"(view 1 1)", (wrong.VIEW + "\n\0(cube 1 0 0 0 1 1 1)").encode(), (wrong.VIEW + "\n(cube 1 0 0 0 1 1 1").encode()):
            self.assertEqual(self.answer(text), b"(refused 1)\n")


@unittest.skipUnless(COMPILER, "there is no C compiler")
class Structs(unittest.TestCase):
    @unittest.skipUnless(all(map(library.there, (library.plotter, library.preview, library.parts, library.account, library.merging, library.text))), "one of the seven archives is not there")
    def test_each_call_on_structs_is_the_call_under_it(self):
        with tempfile.TemporaryDirectory() as folder:
            built("host/c/structs.c", pathlib.Path(folder) / "structs")
            done = subprocess.run([folder + "/structs"], capture_output=True, text=True)
        self.assertEqual((done.returncode, done.stdout), (0, "65 compared\n"))

    def test_it_compares_each_of_them(self):
        made = set(re.findall(r"^static inline uint32_t (larnt_\w+)\(", (ROOT / "host/larnt.h").read_text(), re.M))
        self.assertEqual(len(made), 21)
        long = {name[6:] for name, (_, parameters) in declared().items() if len(parameters) >= 10}
        self.assertEqual({name.split("_", 2)[2] for name in made}, long)
        self.assertEqual(made, set(re.findall(r"\b(larnt_(?:scene|lines)_\w+)\(", (ROOT / "host/c/structs.c").read_text())))

    @unittest.skipUnless(CPP, "there is no C++ compiler")
    def test_the_header_is_one_of_cpp_too(self):
        subprocess.run([CPP, "-std=c++11", "-Wall", "-Wextra", "-Werror", "-fsyntax-only", "-x", "c++", "-Ihost", "-"], input=b'#include "larnt.h"\n', cwd=ROOT, check=True)


if __name__ == "__main__":
    unittest.main()
