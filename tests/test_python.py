"""The package for Python: its own tests, its structures beside the header, the shared library, and the wheel in an empty environment."""
import os
import re
import shutil
import subprocess
import sys
import unittest

from tests import library, support

sys.path.insert(0, str(support.TOP / "bindings/python/tests"))
from test_package import Package  # noqa: E402, F401

HEADER = support.TOP / "bindings/c/ptree.h"


@unittest.skipUnless(shutil.which("nm"), "needs nm")
class SharedLibrary(support.Case):
    def symbols(self, which):
        said = support.run(["nm", "-D", which, os.environ["PTREE_LIBRARY"]]).stdout.decode()
        return sorted(line.split()[-1].partition("@")[0] for line in said.splitlines() if line.split()[-2] != "w")

    def test_it_has_the_calls_of_the_header_alone(self):
        declared = set(re.findall(r"\bptree_[a-z_]+(?=\()", HEADER.read_text()))
        self.assertEqual(self.symbols("--defined-only"), sorted(declared))

    def test_all_that_it_calls_allocates_or_copies_memory(self):
        self.assertEqual(self.symbols("--undefined-only"), ["free", "malloc", "memcpy", "memmove", "memset", "realloc"])


@unittest.skipUnless(shutil.which("cc"), "needs cc")
class Layout(support.Case):
    """The structures and numbers of the package are those of the header."""

    def setUp(self):
        self.at = self.folder()
        env = {"PTREE_LIBRARY": os.environ["PTREE_LIBRARY"]}
        self.checks = support.run([sys.executable, "-B", support.TOP / "bindings/python/tests/layout.py"], env=env).stdout.decode()
        (self.at / "layout.c").write_text(self.checks)

    def compile(self, headers):
        return support.run(["cc", "-std=c11", "-fsyntax-only", f"-I{headers}", self.at / "layout.c"])

    def test_they_are_the_same(self):
        self.assertGreaterEqual(self.checks.count("_Static_assert"), 100)
        self.expect(self.compile(HEADER.parent))

    def test_another_place_of_a_field_is_noticed(self):
        text = re.sub("^    size_t padding; .*", "", HEADER.read_text(), flags=re.M).replace("    size_t indent; ", "    size_t padding, indent; ")
        (self.at / "ptree.h").write_text(text)
        self.assertIn(b"offsetof(struct ptree_config, indent)", self.compile(self.at).stderr)


@unittest.skipUnless(shutil.which("rt") and shutil.which("cc"), "needs rt and cc")
class Wheel(support.Case):
    """The wheel that bin/install makes, below a folder with blanks, in an empty environment."""

    @classmethod
    def setUpClass(cls):
        cls.at = cls.enterClassContext(support.new_folder())
        cls.installed = cls.at / "in stalled"
        for prefix in ("in stalled", cls.installed):
            cls.ended = support.run([support.TOP / "bin/install", prefix, "python"], cwd=cls.at)
        if cls.ended.returncode:
            raise AssertionError(cls.ended.stderr.decode())
        if support.run([sys.executable, "-m", "venv", cls.at / "an environment"], timeout=300).returncode:
            raise unittest.SkipTest("python3 makes no environment")
        path = f"{cls.at}/an environment/bin:{os.environ['PATH']}"
        cls.offline = {"PIP_NO_INDEX": "1", "PIP_DISABLE_PIP_VERSION_CHECK": "1", "PATH": path}
        line = cls.ended.stdout.decode().splitlines()[-1].partition(": ")[2]
        subprocess.run(["sh", "-c", line], env=cls.offline, check=True, capture_output=True)

    def python(self, script):
        return support.run([self.at / "an environment/bin/python", "-c", script], only={}, cwd="/")

    def test_a_drawing(self):
        self.expect(self.python('import ptree; print(ptree.Tree("a", ["b"]), end="")'), 0, "a\n└─ b\n")

    def test_a_wrong_line(self):
        ended = self.python('import ptree; ptree.read("a\\nb\\n")')
        self.assertEqual(ended.stderr.decode().splitlines()[-1], "ptree.ReadError: line 2 cannot continue the drawing")

    def test_a_library_that_is_not_there(self):
        ended = self.python('import os; os.environ["PTREE_LIBRARY"] = "/none"; import ptree')
        said = "ImportError: cannot load the shared library of ptree 0.5, set PTREE_LIBRARY to its path: /none: "
        self.assertTrue(ended.stderr.decode().splitlines()[-1].startswith(said))

    def test_pip_makes_the_same_wheel_of_the_sources(self):
        words = ["-m", "pip", "wheel", "--no-build-isolation", "--no-deps", "-w", self.at / "wheels", support.TOP / "bindings/python"]
        env = self.offline | {"PTREE_LIBRARY": library.made()}
        ended = support.run([self.at / "an environment/bin/python", *words], env=env)
        self.assertEqual(ended.returncode, 0, ended.stderr.decode())
        (wheel,) = (self.at / "wheels").iterdir()
        self.assertEqual(wheel.read_bytes(), (self.installed / "share/ptree" / wheel.name).read_bytes())
