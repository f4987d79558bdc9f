"""The types of the calls in library.py are those of host/larnt.h, and its calls are those that the archives have."""
import re
import shutil
import subprocess
import unittest
from ctypes import POINTER, c_bool, c_double, c_int64, c_size_t, c_uint8, c_uint16, c_uint32

from larnt import library

from . import ROOT

ARCHIVES = ("host", "host_preview", "host_parts", "host_account", "host_text", "host_merge", "host_plotter")
TYPES = {"void": None, "double": c_double, "int64_t": c_int64, "size_t": c_size_t, "uint32_t": c_uint32, "uint8_t": c_uint8, "uint16_t": c_uint16, "bool": c_bool, "larnt_registers": library.Registers}


def typed(parameter):
    """The type of a parameter: an array is a pointer."""
    words = parameter.replace("const ", "").strip()
    kind = TYPES[words.split()[0].rstrip("*")]
    return POINTER(kind) if "*" in words or "[" in words else kind


def declared():
    """The result and the parameters of each call, the macros written out."""
    text = re.sub(r"/\*.*?\*/", "", (ROOT / "host/larnt.h").read_text(), flags=re.S).replace("\\\n", " ")
    for name, body in re.findall(r"^#define (LARNT_[A-Z]+) +(\S.*)$", text, re.M):
        text = re.sub(rf"\b{name}\b", lambda _: body, text)
    calls = re.findall(r"^(uint32_t|size_t|void|double) (larnt_\w+)\((.*?)\);", text, re.M | re.S)
    return {name: (result, parameters.split(",")) for result, name, parameters in calls}


class Header(unittest.TestCase):
    def test_each_call_has_the_types_that_the_header_declares(self):
        header = declared()
        self.assertIn("larnt_draw_with", header)
        for name, types in {**library.HOST, **library.PREVIEW, **library.PARTS, **library.ACCOUNT, **library.MERGE, **library.TEXT, **library.PLOTTER}.items():
            with self.subTest(name):
                result, parameters = header[name]
                self.assertEqual(types, [typed(p) for p in parameters])
                self.assertEqual(library.ANSWERS.get(name, c_uint32), TYPES[result])

    @unittest.skipUnless(shutil.which("nm") and all((library.folder() / f"lib{name}.a").exists() for name in ARCHIVES), "there is no nm, or an archive is not there")
    def test_the_archives_have_each_call_and_no_other(self):
        listed = [subprocess.run(["nm", "-g", library.folder() / f"lib{name}.a"], capture_output=True, text=True, check=True).stdout for name in ARCHIVES]
        self.assertEqual(set(re.findall(r" T (larnt_\w+)$", "\n".join(listed), re.M)), set(declared()))


if __name__ == "__main__":
    unittest.main()
