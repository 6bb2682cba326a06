"""bin/ptree_cli, bin/build and bin/install, in a copy over small crates, with a stub as `rt`."""
import os
import pathlib
import re
import shutil
import signal
import subprocess
import tempfile
import time
import unittest

TOP = pathlib.Path(__file__).resolve().parents[1]
# Notes its call. What it makes prints a source, its words, its stack and its input. A file at_VERB
# says what else happens in such a call.
RT = r"""#!/bin/sh
there=${0%/*}/.. made=out/${PWD##*/}
echo "$1" >>"$there/calls"
if [ -e "$there/at_$1" ]; then . "$there/at_$1"; fi
if [ "$1" = ci ]; then
    cd crates/ptree && "$0" lib && cd ../ptree_cli && "$0" run && rm ../ptree/out/rlib/stamp
    exit
fi
source=$(cat ../ptree/src/lib.rt)
if [ "$1" = try ]; then
    printf '%s <%s>\n' "$source" "$*"
    printf 'rt: its own\nown line\nchecked: ended status=3\nrun=ended status=3 .. proved=no\n' >&2
    exit 3
fi
case $PWD in */ptree) made=out/rlib/stamp ;; */ptree_c) made=out/libptree_c.a ;; esac
rm -rf "${made%/*}" && mkdir -p "${made%/*}" out/rlib/ptree.rlib
printf '#!/bin/sh\necho "%s <$*> $(ulimit -s)"\ngrep SigIgn /proc/$$/status >&2\ncat\nexit 3\n' \
    "$source" >"$made"
chmod +x "$made"
"""
# What bin/build takes of the kit's own module.
RTLIB = """class Crate:
    def __init__(self, name):
        self.name, self.stamp = name, lambda: "proved"
        self.rlib = f"crates/{name}/out/rlib/{name}.rlib"
crates_below = lambda top: map(Crate, ["ptree", "ptree_cli"])
"""
CRATES = "# Lowest first.\nptree: toml\nptree_cli: ptree\ntrees: ptree\nptree_c staticlib: ptree\n"
LAUNCHER, BUILT = "bin/ptree_cli", "crates/ptree_cli/out/ptree_cli"
PIPES = {"stdout": subprocess.PIPE, "stderr": subprocess.PIPE}


class Launcher(unittest.TestCase):
    def setUp(self):
        self.there = pathlib.Path(tempfile.mkdtemp(prefix="ptree launcher."))
        self.addCleanup(shutil.rmtree, self.there)
        self.addCleanup(subprocess.run, ["chmod", "-R", "u+w", self.there])
        for name in (LAUNCHER, "bin/build", "bin/trees", "bin/install", "tools/launch"):
            text = (TOP / name).read_text()
            self.write(name, text.replace("\nBETWEEN = 30\n", "\nBETWEEN = 1\n"))
        for name in ("ptree_cli/src/main", "trees/src/main", "ptree_c/src/lib", "ptree/src/lib"):
            self.source = self.write(f"crates/{name}.rt", "one")
        self.write("crates/ptree/specs/Lib.antt", "")
        self.write("crates.txt", CRATES)
        self.write("bin/rtlib.py", RTLIB)
        path = f"{self.write('path/rt', RT).parent}:{os.environ['PATH']}"
        (self.there / "tmp").mkdir()
        self.env = {"PATH": path, "CDPATH": "/", "TMPDIR": f"{self.there}/tmp", "HOME": "home"}
        self.how = {"cwd": self.there, "env": self.env, **PIPES}

    def write(self, name, text):
        path = self.there / name
        path.parent.mkdir(parents=True, exist_ok=True)
        path.write_text(text)
        path.chmod(0o755)
        return path

    def call(self, *words, **env):
        """A call's status, the calls of `rt`, and what it wrote. Keeps its standard error."""
        self.write("calls", "")
        words, how = words or (LAUNCHER, "a", "b c"), self.how | {"env": self.env | env}
        ran = subprocess.run(words, **how, input=b"in")
        self.err = ran.stderr.decode()
        self.assertEqual(os.listdir(self.there / "tmp"), [])
        said = ran.stdout.decode(errors="replace")
        return ran.returncode, (self.there / "calls").read_text().split(), said

    def expect(self, calls, drawn, *words, **env):
        """A call makes something, and then runs the program within the limits that it needs."""
        wanted = (3, calls.split(), f"{drawn} 1048576\nin")
        self.assertEqual(self.call(*words, **env), wanted, self.err)
        ignored = int(re.search(r"SigIgn:\s*(\w+)", self.err)[1], 16)
        self.assertTrue(ignored >> signal.SIGXFSZ - 1 & 1)

    def expect_build(self, calls, *words):
        self.assertEqual(self.call("bin/build", *words), (0, calls.split(), ""), self.err)

    def refuse(self, text, *words, **env):
        self.assertEqual(self.call(*words, **env)[::2], (1, ""))
        self.assertRegex(self.err, f"^{text}.*\n$")

    def few(self, *tools):
        """A path with few commands."""
        folder = pathlib.Path(tempfile.mkdtemp(dir=self.there))
        for tool in ("sh", "env", "cat", "grep", *tools):
            folder.joinpath(tool).symlink_to(shutil.which(tool, path=self.env["PATH"]))
        return str(folder)

    def copy(self, *words):
        subprocess.run(["cp", *words], cwd=self.there, check=True)

    def test_changes(self):
        fast = {"PATH": self.few("find", "readlink")}
        self.expect("lib run", "one <a b c>")
        (self.there / "link").symlink_to(self.there / LAUNCHER)
        self.expect("", "one <a>", "./link", "a", **fast)
        self.source.touch()
        self.expect("", "one <a b c>")
        self.expect("", "one <a>", LAUNCHER, "a", **fast)
        self.source.write_text("two")
        os.utime(self.source, (1e9, 1e9))
        self.expect("lib run", "two <a b c>")
        new = self.write("crates/ptree_cli/src/deep/new.rt", "mod")
        self.expect("run", "two <a b c>")
        new.unlink()
        self.expect_build("run", "ptree_cli")
        self.write("crates/ptree/proofs/Lemmas.antt", "lemma")
        self.expect("", "two <a>", LAUNCHER, "a", **fast)
        self.expect_build("lib run", "ptree_cli")
        self.write("crates/ptree/specs/Tree.antt", "definition")
        self.expect("lib run", "two <a b c>")
        self.write("crates.txt", CRATES.replace("toml", "serde_json toml"))
        self.expect("lib run", "two <a b c>")
        self.write("KIT-ID", "another kit")
        self.expect_build("lib run", "ptree_cli")
        self.write("at_run", 'rm "$there/at_run"; echo four >"$there/crates/ptree/src/lib.rt"')
        self.source.write_text("three")
        self.expect("lib run lib run", "four <a b c>")

    def test_what_is_made_is_another(self):
        self.expect("lib run", "one <a b c>")
        (self.there / BUILT).chmod(0o644)
        self.expect("", "one <a b c>")
        (self.there / BUILT).unlink()
        self.expect("run", "one <a b c>")
        # A program is made by hand from an edit that is then undone.
        self.source.write_text("edit")
        subprocess.run(["rt", "run"], **self.how | {"cwd": self.there / "crates/ptree_cli"})
        self.source.write_text("one")
        self.expect("run", "one <a b c>")
        # What is made is that of other sources, and a copy is made after an edit.
        self.copy("-al", "crates", "other")
        self.source.unlink()
        self.write("crates/ptree/src/lib.rt", "two")
        self.expect("lib run", "two <a b c>")
        shutil.rmtree(self.there / "crates/ptree_cli/out")
        self.copy("-al", "other/ptree_cli/out", "crates/ptree_cli/out")
        self.expect("run", "two <a b c>")
        self.source.write_text("three")
        self.copy("-r", "crates", "copied")
        shutil.rmtree(self.there / "crates")
        (self.there / "copied").rename(self.there / "crates")
        self.expect("lib run", "three <a b c>")

    def test_files_that_do_not_count(self):
        self.expect("lib run", "one <a b c>")
        self.source.with_name(".#builder.rt").symlink_to("someone@somewhere.1")
        for name in (".lib.rt", ".lib.rt.swp", "lib.rt~", "#lib.rt#"):
            self.source.with_name(name).touch()
        self.expect("", "one <a>", LAUNCHER, "a", PATH=self.few("find"))
        self.expect_build("", "ptree_cli")
        self.source.write_text("two")
        self.expect("lib run", "two <a b c>")

    def test_a_static_library_whose_source_is_touched(self):
        self.expect_build("lib lib", "ptree_c")
        self.source.touch()
        self.expect_build("", "ptree_c", "ptree")
        self.write("crates/ptree_c/out/libptree_c.a", "another")
        self.expect_build("lib", "ptree_c")

    def test_ci(self):
        self.write("at_ci", 'rm "$there/at_ci"; exit 4')
        self.assertEqual(self.call("bin/build", "--ci")[0], 4)
        self.expect_build("ci lib run", "--ci")
        self.expect("", "one <a b c>")
        self.expect_build("lib", "ptree", "ptree_c")
        self.write("at_ci", 'rm "$there/at_ci"; echo two >"$there/crates/ptree/src/lib.rt"')
        self.expect_build("ci lib run", "--ci")
        self.assertFalse((self.there / "crates/ptree/out/rlib/stamp").exists())
        self.expect("lib run", "two <a b c>")

    def test_calls_at_once(self):
        self.write("at_lib", "sleep 2")
        how = self.how | {"stdin": subprocess.DEVNULL}
        calls = [subprocess.Popen([LAUNCHER, str(n)], **how) for n in range(8)]
        said = [call.communicate() for call in calls]
        self.assertEqual([out for out, _ in said], [b"one <%d> 1048576\n" % n for n in range(8)])
        self.assertIn(b"another build is under way", b"".join(err for _, err in said))
        self.assertEqual((self.there / "calls").read_text().split(), ["lib", "run"])

    def test_crates_side_by_side(self):
        self.expect_build("lib", "ptree")
        waits = 'echo >"$there/%s"; until [ -e "$there/%s" ]; do sleep 0.1; done'
        self.write("at_run", waits % ("program", "archive"))
        self.write("at_lib", waits % ("archive", "program"))
        self.assertEqual(self.call("timeout", "20", "bin/build", "ptree_cli", "ptree_c")[0], 0)

    def test_no_build(self):
        self.refuse("ptree_cli: .*python3 is not on the path", PATH=self.few("find"))
        few = self.few("find", "python3")
        self.refuse("ptree_cli: .*rt is not on the path", LAUNCHER, "words", "a", PATH=few)
        at_lib = self.write("at_lib", "echo not proved >&2; exit 1")
        self.refuse("not proved\nptree_cli: ptree could not be built")
        someone = ["setpriv", "--reuid=65534", "--regid=65534", "--clear-groups"]
        words = [*(someone if os.getuid() == 0 else []), LAUNCHER, "a"]
        denied = ["ptree_cli: .*Permission denied"]
        for expect, told in ((self.refuse, denied), (self.expect, ["", "one <a>"])):
            subprocess.run(["chmod", "-R", "a+rX,a-w", self.there])
            expect(*told, *words, TMPDIR="/tmp")
            subprocess.run(["chmod", "-R", "u+w", self.there])
            at_lib.unlink(missing_ok=True)
            self.call()
        self.expect("", "one <a b c>", PATH=self.few("rt", "python3"))

    def test_progress_and_installation(self):
        self.write("at_lib", 'echo "5 of 10 functions checked"; sleep 8')
        self.call("bin/install", "put", "ptree_cli", "trees")
        self.assertRegex(self.err, r"(bin/build: proving ptree 50 %; about \d+ min left\n){2}")
        self.expect("", "one <a>", "put/bin/trees", "a")

    def test_signals(self):
        numbers = (signal.SIGINT, signal.SIGTERM, signal.SIGHUP, signal.SIGKILL)
        calls = {"lib": [LAUNCHER, "a"], "run": ["bin/build", "ptree_cli"]}
        calls["try"] = [LAUNCHER, "words", "a"]
        begun = self.there / "begun"
        for verb, number in ((verb, number) for verb in calls for number in numbers):
            does = 'mkdir -p out; echo >out/half; echo $$ >"$there/begun"; exec sleep 300'
            self.write(f"at_{verb}", does)
            # (a shell ignores SIGINT in what it starts beside itself)
            words = ["env", "--default-signal", *calls[verb]]
            ran = subprocess.Popen(words, stdin=subprocess.DEVNULL, **self.how)
            while not begun.exists() or not begun.read_text().endswith("\n"):
                time.sleep(0.3)
            time.sleep(0.3)
            ran.send_signal(number)
            ended = -9 if number == signal.SIGKILL else 128 + number
            self.assertEqual((ran.communicate()[0], ran.returncode), (b"", ended), (verb, number))
            time.sleep(0.3)
            status = pathlib.Path(f"/proc/{begun.read_text().strip()}/status")
            self.assertTrue(not status.exists() or "State:\tZ" in status.read_text())
            # (what was kept so far is given back, but after SIGKILL nothing is done)
            if number != signal.SIGKILL:
                self.assertEqual(os.listdir(self.there / "tmp"), [])
                self.assertTrue([*self.there.glob("crates/*/out/half")], (verb, number))
            subprocess.run("rm -rf at_* begun tmp/* crates/*/out/half", shell=True, cwd=self.there)
        self.expect("run", "one <a b c>")

    def test_tries(self):
        for words in (["a"], ["-x\n--data", "--"], ["", "b"]):
            drawn = f"one <try -- {' '.join(['words', *words])}>\n"
            self.assertEqual(self.call(LAUNCHER, "words", *words), (3, ["try"], drawn))
            self.assertRegex(self.err, "^ptree_cli: .*unproved.*bin/build ptree_cli.*\nown line\n$")
        unwritten = ((">/dev/full", 1, "cannot write\n"), (">&-", 1, "cannot write\n"))
        for streams, status, said in (*unwritten, (">&- 2>&-", 1, ""), ("<&- 2>&-", 3, "")):
            found = self.call("sh", "-c", f"exec {LAUNCHER} words a {streams}")
            self.assertEqual((*found[:2], self.err[-len(said) :]), (status, ["try"], said), streams)

    def expect_untried(self, calls, *words, by=LAUNCHER, **env):
        last = words[-1] if words[-1] == "a" else "\ufffd"
        self.expect(calls, f"one <{words[0]} {last}>", by, *words, **env)
        shutil.rmtree(self.there / "crates" / by[4:] / "out")

    def test_calls_that_are_built_first(self):
        self.expect_build("lib", "ptree")
        for word in ("no-answer", "ended status=0"):
            said = rf'printf "checked: {word}\nrun={word} .. proved=no\n" >&2; exit 4'
            self.write("at_try", said)
            self.expect_untried("try run", "words", "a")
        for name, home in {"home/.config/ptree.toml": "", "x/ptree.json": "x"}.items():
            file = self.write(name, "")
            self.expect_untried("run", "words", "a", XDG_CONFIG_HOME=home)
            file.unlink()
        self.expect_untried("run", "words", "a", PTREE_INDENT="4")
        self.expect_untried("run", "words", "a", pTree_x="")
        self.expect_untried("run", "json", "a")
        self.expect_untried("run", "words", "a", by="bin/trees")
        self.expect_untried("run", "words", b"\xff")
