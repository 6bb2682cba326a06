"""The tests in Rattle, by `rt try` before any proof: those of trials/src, and of ptree_cli's `run`."""
import re
import shutil
import subprocess
import unittest

from tests import support


@unittest.skipUnless(shutil.which("rt"), "needs rt")
class Trials(support.Case):
    @classmethod
    def setUpClass(cls):
        house = cls.enterClassContext(support.new_folder())
        make = [support.TOP / "tools/apart.py", "make", house, "trials"]
        cls.crate = subprocess.run(make, cwd=support.TOP, capture_output=True, text=True, check=True).stdout.strip()

    def expect_tests(self, crate, sources):
        """That all tests of a crate's sources pass."""
        said = support.run(["rt", "try", "--test"], cwd=crate, stderr=subprocess.STDOUT, timeout=600).stdout.decode()
        ended = dict(re.findall(r"(?m)^test (.*) \.\.\. (\w+)$", said))
        wanted = sum(path.read_text(encoding="utf-8").count("#[test]") for path in sources)
        self.assertEqual({name for name, how in ended.items() if how != "ok"}, set())
        self.assertEqual(len(ended), wanted, said[-2000:])
        self.assertRegex(said, "(?m)^run=ended status=0 ")

    def test_each_test_in_rattle(self):
        self.expect_tests(self.crate, (support.TOP / "trials/src").rglob("*.rs"))

    def test_each_test_of_run(self):
        crate = support.TOP / "crates/ptree_cli"
        self.expect_tests(crate, (crate / "src").rglob("*.rt"))

    def test_the_layout_of_the_sources(self):
        for folder in ("trials", "trials/rows", "bench/extreme"):
            with self.subTest(folder):
                make = [support.TOP / "tools/apart.py", "make", self.folder(), folder]
                crate = subprocess.run(make, cwd=support.TOP, capture_output=True, text=True, check=True).stdout.strip()
                self.expect(support.run(["rt", "fmt"], cwd=crate))
