"""What the tests share: what is built, calls of programs, blocks of the pages, and files of rows."""
import contextlib
import os
import re
import subprocess
import tempfile
import termios
import tty
import unittest
from pathlib import Path

TESTS = Path(__file__).resolve().parent
TOP = TESTS.parent


def built(name):
    """The path of a program or library, which bin/build makes if its sources are others. A variable, such as PTREE_CLI, names another."""
    crate = {"ptree_c": "libptree_c.a"}.get(name, name)
    if given := os.environ.get(name.upper()):
        return Path(given)
    subprocess.run([TOP / "bin/build", name], check=True)
    return TOP / "crates" / name / "out" / crate


def launcher(name):
    """The script that runs a program, or what stands in for both."""
    return Path(os.environ.get(name.upper()) or TOP / "bin" / name)


def run(words, stdin=b"", env=None, only=None, **how):
    """Runs a program over these bytes, or over a file. Its variables are PATH, a HOME that is not there, and these; or only some."""
    how = {"stdout": subprocess.PIPE, "stderr": subprocess.PIPE, "timeout": 60, "close_fds": False, **how}
    how["env"] = {"PATH": os.environ["PATH"], "HOME": "/none", **(env or {})} if only is None else only
    if not isinstance(stdin, (bytes, str)):
        return subprocess.run(words, stdin=stdin, **how)
    with tempfile.TemporaryFile() as file:
        file.write(stdin.encode() if isinstance(stdin, str) else stdin)
        file.seek(0)
        return subprocess.run(words, stdin=file, **how)


def on_terminal(words, env=None, **streams):
    """What a program writes on a terminal, to which standard output and standard error go unless they are put elsewhere."""
    ours, theirs = os.openpty()
    tty.setraw(theirs, termios.TCSANOW)
    try:
        streams = {"stdin": subprocess.DEVNULL, "stdout": theirs, "stderr": theirs, **streams}
        running = subprocess.Popen(words, env={"PATH": os.environ["PATH"], "HOME": "/none", **(env or {})}, close_fds=False, **streams)
    finally:
        os.close(theirs)
    said = b""
    with open(ours, "rb", buffering=0) as terminal, running:
        try:
            while some := terminal.read(65536):
                said += some
        except OSError:
            pass  # (the program has ended, and nobody else has the terminal)
    return said.decode(errors="surrogateescape")


@contextlib.contextmanager
def new_folder():
    with tempfile.TemporaryDirectory(prefix="ptree.") as folder:
        yield Path(folder)


class Case(unittest.TestCase):
    def assertMultiLineEqual(self, found, wanted, msg=None):
        """Shows two texts from two lines before the first difference on. (unittest looks for alike lines, which can take minutes.)"""
        if found != wanted:
            line = wanted.count("\n", 0, len(os.path.commonprefix([found, wanted])))
            shown = ["\n".join(text.split("\n")[max(0, line - 2) : line + 6])[:2000] for text in (wanted, found)]
            self.fail(self._formatMessage(msg, f"line {line + 1} differs. Wanted:\n{shown[0]}\nFound:\n{shown[1]}"))

    def folder(self):
        """A new folder, which ends with the test."""
        return self.enterContext(new_folder())

    def expect(self, ended, status=0, output="", error="", of=""):
        """That a call ended so, and wrote exactly this."""
        found = [text if text is None or isinstance(text, str) else text.decode(errors="surrogateescape") for text in (ended.stderr, ended.stdout)]
        for name, text, wanted in zip(("error", "output"), found, (error, output)):
            if text is not None:
                self.assertEqual(text, wanted, f"standard {name} of {ended.args[1:4]} {of}")
        self.assertEqual(ended.returncode, status, of)


class Preloading(Case):
    """Tests with a library of this folder loaded before others. It writes what it notices to descriptor 9."""

    source = None

    @classmethod
    def setUpClass(cls):
        cls.preloaded = cls.enterClassContext(new_folder()) / f"{cls.source}.so"
        subprocess.run(["cc", "-O1", "-shared", "-fPIC", "-o", cls.preloaded, TESTS / cls.source, "-ldl"], check=True)
        with tempfile.TemporaryFile() as file:
            os.dup2(file.fileno(), 9)
        cls.addClassCleanup(os.close, 9)

    def run_preloaded(self, words, stdin=b"", env=None, **how):
        """A call with the library, and what it noticed."""
        os.ftruncate(9, 0)
        os.lseek(9, 0, os.SEEK_SET)
        ended = run(words, stdin, {"LD_PRELOAD": str(self.preloaded), **(env or {})}, **how)
        return ended, os.pread(9, 100, 0)

    def count_refusals(self, words, message, stdin=b"", env=None, most=2000):
        """Refuses each request for memory of a call in turn. The call must end with status 1 and this message, after a part of what it would
        write. One request, for the room of the list of words, is made again later. Returns how many refusals were reported."""
        whole, reported, spare = run(words, stdin, env), 0, 0
        for n in range(1, most):
            ended, noticed = self.run_preloaded(words, stdin, {**(env or {}), "REFUSE": str(n)})
            if (ended.returncode, ended.stdout, ended.stderr) == (whole.returncode, whole.stdout, whole.stderr):
                spare += bool(noticed)
                if not noticed:
                    self.assertEqual(spare, 1, "refusals that change nothing")
                    return reported
                self.assertLess(spare, 2, f"refusal {n} changes nothing")
                continue
            self.assertEqual(ended.stderr.decode(), message, f"refusal {n}")
            self.assertEqual(ended.returncode, 1, f"refusal {n}")
            self.assertTrue(whole.stdout.startswith(ended.stdout), f"refusal {n}")
            reported += 1
        self.fail(f"more than {most} requests")


def instructions(words, stdin=b"", env=None):
    """How many instructions a call takes, by valgrind."""
    with tempfile.NamedTemporaryFile() as log:
        run(["valgrind", "--tool=callgrind", "--callgrind-out-file=/dev/null", f"--log-file={log.name}", *words], stdin, env, timeout=300)
        return int(re.search(rb"refs: *([0-9,]+)", log.read())[1].replace(b",", b""))


def section(page, title):
    """A section of a page, up to the next one of its level."""
    return re.search(f"^## {re.escape(title)}\n(.*?)(?=^## |\\Z)", (TOP / page).read_text(encoding="utf-8"), re.M | re.S)[1]


def blocks(text, language):
    return re.findall(f"^```{language}\n(.*?)^```$", text, re.M | re.S)
