"""What bin/install puts in place, programs in C and Rust over it, and what bin/copy_library copies."""
import filecmp
import os
import re
import shlex
import shutil
import signal
import unittest

from tests import support

EXAMPLE = "fruits\n├── apples\n│   ├── green\n│   └── ripe\n└── pears\n0 fruits\n1 apples\n2 green\n2 ripe\n1 pears\n"
USAGE = "usage: bin/install PREFIX [library|python|ptree_cli|trees ..]\n"
INSTALL, COPY = support.TOP / "bin/install", support.TOP / "bin/copy_library"


def setUpModule():
    for command in ("rt", "cc", "ar"):
        if not shutil.which(command):
            raise unittest.SkipTest(f"needs {command}")


class Words(support.Case):
    """Calls of bin/install that put nothing anywhere."""

    def test_usage(self):
        self.expect(support.run([INSTALL, "-h"]), 0, USAGE)
        self.expect(support.run([INSTALL, "--help"]), 0, USAGE)
        for words in ([], ["--library"], [self.folder() / "none", "libraries"]):
            self.expect(support.run([INSTALL, *words]), 2, "", USAGE)

    def test_below_a_file(self):
        at = self.folder()
        (at / "file").touch()
        self.assertEqual(support.run([INSTALL, at / "file/below", "library"]).returncode, 1)

    def test_without_its_commands(self):
        at = self.folder()
        for command in ("bash", "readlink", "dirname"):
            (at / command).symlink_to(shutil.which(command))
        for part, missing in (("library", "rt ar install python3"), ("python", "rt ar install python3 cc")):
            ended = support.run(["bash", INSTALL, at / "none", part], env={"PATH": str(at)})
            self.expect(ended, 1, "", f"bin/install: these commands are not on the path: {missing}\n")
        self.assertEqual(list((at / "none").rglob("*")), [])

    def test_where_cc_cannot_link(self):
        at = self.folder()
        (at / "cc").write_text("#!/bin/sh\nexit 1\n")
        (at / "cc").chmod(0o755)
        ended = support.run([INSTALL, at / "none", "library", "python"], env={"PATH": f"{at}:{os.environ['PATH']}"})
        self.expect(ended, 1, "", "bin/install: nothing is put there, since the shared library cannot be made\n")
        self.assertEqual(list((at / "none").rglob("*")), [])


class Prefix(support.Case):
    """A folder with blanks, where the library and a program are put twice, the second time from another folder."""

    @classmethod
    def setUpClass(cls):
        cls.at = cls.enterClassContext(support.new_folder())
        cls.installed = cls.at / "in stalled"
        for prefix in ("in stalled", cls.installed):
            ended = support.run([INSTALL, prefix, "library", "ptree_cli"], cwd=cls.at)
            if ended.returncode:
                raise AssertionError(ended.stderr.decode())


class Installed(Prefix):
    """Programs over what is put there."""

    def pkg_config(self, *words, prefix=None):
        if not shutil.which("pkg-config"):
            self.skipTest("needs pkg-config")
        env = {"PKG_CONFIG_PATH": str((prefix or self.installed) / "lib/pkgconfig")}
        return support.run(["pkg-config", *words, "ptree"], env=env).stdout.decode()

    def expect_example(self, flags, is_shared):
        linked = self.folder() / "linked"
        made = support.run(["cc", "-std=c11", "-o", linked, support.TOP / "bindings/c/example.c", *flags])
        self.assertEqual(made.returncode, 0, made.stderr.decode())
        needed = support.run(["readelf", "-d", linked]).stdout.decode()
        self.assertEqual(bool(re.search(r"NEEDED.*\[libptree\.so\.0\.5\]", needed)), is_shared)
        self.expect(support.run([linked]), 0, EXAMPLE)

    def test_the_static_library(self):
        self.expect_example([f"-I{self.installed}/include", self.installed / "lib/libptree.a"], False)

    def test_the_flags_of_pkg_config(self):
        self.expect_example(shlex.split(self.pkg_config("--cflags", "--libs")), True)

    def test_the_flags_of_pkg_config_all_static(self):
        self.expect_example(["-static", *shlex.split(self.pkg_config("--cflags", "--libs"))], False)

    def test_the_file_for_pkg_config_with_a_link_at_lib(self):
        prefix = self.at / "by_link"
        (self.at / "far/lib").mkdir(parents=True)
        prefix.mkdir()
        (prefix / "lib").symlink_to("../far/lib")
        self.assertEqual(support.run([INSTALL, prefix, "library"]).returncode, 0)
        self.assertTrue(os.path.exists(self.pkg_config("--variable=includedir", prefix=prefix).strip() + "/ptree.h"))

    def test_without_cc_no_older_shared_library_is_left(self):
        at, few = self.folder(), self.folder()
        for folder in ("/usr/bin", "/bin"):
            for name in os.listdir(folder):
                if name not in ("cc", *os.listdir(few)):
                    (few / name).symlink_to(f"{folder}/{name}")
        path = ":".join([str(few), *(os.path.dirname(shutil.which(name)) for name in ("rt", "python3"))])
        if shutil.which("cc", path=path):
            self.skipTest("cc is beside rt or python3")
        self.assertEqual(support.run([INSTALL, at, "library"]).returncode, 0)
        self.assertTrue((at / "lib/libptree.so").exists())
        self.assertEqual(support.run([INSTALL, at, "library"], env={"PATH": path}).returncode, 0)
        self.assertEqual(sorted(it.name for it in at.rglob("*") if not it.is_dir()), ["libptree.a", "ptree.h", "ptree.pc"])

    def test_the_program_also_by_a_link(self):
        link = self.folder() / "linked"
        link.symlink_to(self.installed / "bin/ptree_cli")
        for program in (self.installed / "bin/ptree_cli", link):
            self.expect(support.run([program, "words", "a", "b"], cwd="/"), 0, "a\n└─ b\n")


@unittest.skipUnless(shutil.which("cargo"), "needs cargo")
class Wrapper(Prefix):
    """The wrapper for Rust over the library that is installed."""

    def cargo(self, command, *words, **env):
        env = {"PTREE_LIB_DIR": str(self.installed / "lib"), "CARGO_TARGET_DIR": str(self.at / "target"), **env}
        for name in ("HOME", "CARGO_HOME", "RUSTUP_HOME"):
            if name in os.environ:
                env[name] = os.environ[name]
        words = ["cargo", command, "--offline", "--quiet", "--manifest-path", support.TOP / "bindings/rust/Cargo.toml", *words]
        return support.run(words, env=env, timeout=600)

    def test_its_tests(self):
        self.assertEqual(self.cargo("test").returncode, 0)

    def test_its_tests_under_valgrind(self):
        if not shutil.which("valgrind"):
            self.skipTest("needs valgrind")
        self.assertEqual(self.cargo("test", "--no-run").returncode, 0)
        for name in ("trees", "sources", "graphs", "blocks"):
            for tests in (path for path in (self.at / "target/debug/deps").glob(f"{name}-*") if os.access(path, os.X_OK)):
                with self.subTest(tests.name):
                    words = ["valgrind", "--quiet", "--error-exitcode=9", "--leak-check=full", "--errors-for-leak-kinds=definite"]
                    self.assertEqual(support.run([*words, tests], timeout=300).returncode, 0)

    def test_over_the_library_that_pkg_config_finds(self):
        env = {"PTREE_LIB_DIR": "", "PKG_CONFIG_PATH": str(self.installed / "lib/pkgconfig")}
        if not shutil.which("pkg-config"):
            self.skipTest("needs pkg-config")
        env = {**os.environ, **env, "CARGO_TARGET_DIR": str(self.at / "target")}
        del env["PTREE_LIB_DIR"]
        words = ["cargo", "test", "--offline", "--quiet", "--manifest-path", support.TOP / "bindings/rust/Cargo.toml", "--test", "trees"]
        self.assertEqual(support.run(words, only=env, timeout=600).returncode, 0)

    def test_the_original_s_features(self):
        self.assertEqual(self.cargo("check", "--no-default-features", "--features", "ansi,conf,value").returncode, 0)

    def test_its_layout_and_the_compiler_s_lints(self):
        for command, *words in (["fmt", "--check"], ["clippy", "--all-targets", "--", "-D", "warnings"]):
            with self.subTest(command):
                if support.run(["cargo", command, "--version"], only=dict(os.environ)).returncode:
                    self.skipTest(f"needs cargo {command}")
                words = ["cargo", command, "--manifest-path", support.TOP / "bindings/rust/Cargo.toml", *words]
                env = {**os.environ, "PTREE_LIB_DIR": str(self.installed / "lib"), "CARGO_TARGET_DIR": str(self.at / "target"), "CARGO_NET_OFFLINE": "true"}
                ended = support.run(words, only=env, timeout=300)
                self.assertEqual(ended.returncode, 0, ended.stderr.decode())

    def test_the_feature_petgraph_is_refused(self):
        ended = self.cargo("check", "--no-default-features", "--features", "petgraph")
        self.assertNotEqual(ended.returncode, 0)
        self.assertRegex(ended.stderr.decode(), "(?m)^error: the feature `petgraph` is not supported: ")


class Copies(support.Case):
    """bin/copy_library replaces an older copy completely or not at all, and leaves its kept proofs."""

    def setUp(self):
        self.there, self.stubs = self.folder(), self.folder()

    def make_older(self):
        (self.there / "crates/ptree/out").mkdir(parents=True)
        (self.there / "crates/ptree/older").touch()
        (self.there / "crates/ptree/out/kept").touch()

    def copy(self, *words, there=None, **how):
        return support.run([COPY, there or self.there, *words], env={"PATH": f"{self.stubs}:{os.environ['PATH']}"}, **how)

    def stub(self, name, script):
        (self.stubs / name).write_text(f"#!/bin/sh\n{script}\n")
        (self.stubs / name).chmod(0o755)

    def expect_newer(self):
        crate = self.there / "crates/ptree"
        self.assertEqual([(crate / name).exists() for name in ("older", "out/kept", "src/lib.rt")], [False, True, True])

    def expect_same(self, name):
        """The copy has the files of the crate's sources."""
        for part in ("src", "specs", "proofs"):
            compared = [filecmp.dircmp(support.TOP / "crates" / name / part, self.there / "crates" / name / part)]
            while compared:
                one = compared.pop()
                self.assertEqual((one.left_only, one.right_only, one.diff_files), ([], [], []), one.left)
                compared += one.subdirs.values()

    def test_a_new_one(self):
        readme = (support.TOP / "README.md").read_text(encoding="utf-8")
        (self.there / "crates.txt").write_text(support.blocks(readme, "text")[2])
        self.expect(self.copy(), 0, "Add to crates.txt, beside the crate that uses the library:\nptree_example: ptree\n")
        self.expect_same("ptree")
        api = (self.there / "crates/ptree/API.md").read_text(encoding="utf-8")
        self.assertEqual(api, (support.TOP / "docs/API.md").read_text(encoding="utf-8"))
        configuration = (self.there / "crates/ptree/CONFIGURATION.md").read_text(encoding="utf-8")
        self.assertEqual(configuration, "## Configuration\n" + support.section("docs/CLI.md", "Configuration"))
        guide = support.blocks((support.TOP / "docs/GUIDE.md").read_text(encoding="utf-8"), "rust")
        self.assertEqual((self.there / "crates/ptree_example/src/main.rt").read_text(encoding="utf-8"), guide[0])

    def test_the_readme_s_program_and_the_example_are_drawn_before_any_proof(self):
        readme = (support.TOP / "README.md").read_text(encoding="utf-8")
        guide = (support.TOP / "docs/GUIDE.md").read_text(encoding="utf-8")
        shutil.copy(support.TOP / "HANDLES", self.there)
        app = self.there / "crates/app/src/main.rt"
        app.parent.mkdir(parents=True)
        app.write_text(support.blocks(readme, "rust")[0], encoding="utf-8")
        (self.there / "crates.txt").write_text(support.blocks(readme, "text")[2] + "ptree_example: ptree\n")
        self.assertEqual(self.copy().returncode, 0)
        example = self.there / "crates/ptree_example"
        words = (support.TOP / "crates/examples/notes/args").read_text().rstrip("\n")
        for folder, drawn, given in ((app.parent.parent, support.blocks(readme, "text")[3], []), (example, support.blocks(guide, "text")[0], [words])):
            with self.subTest(folder.name):
                self.assertEqual(support.run(["rt", "try", "--", *given], cwd=folder, timeout=300).stdout.decode(), drawn)

    def test_the_library_is_not_copied_onto_itself(self):
        self.assertNotEqual(self.copy(there=support.TOP).returncode, 0)
        self.assertTrue((support.TOP / "crates/ptree/src/lib.rt").exists())

    def test_a_copy_that_fails_leaves_the_older_one(self):
        self.make_older()
        self.stub("cp", '/bin/cp "$@"\nexit 1')
        self.assertNotEqual(self.copy().returncode, 0)
        self.assertEqual(sorted(os.listdir(self.there / "crates/ptree")), ["older", "out"])

    def test_copies_of_the_other_libraries_over_it(self):
        for library, crates in (("ptree_sources", ["ptree", "ptree_sources"]), ("ptree_trees", ["ptree", "ptree_sources", "ptree_trees"])):
            ended = self.copy(library)
            line = re.search(f"(?m)^{library}:.*$", (support.TOP / "crates.txt").read_text())[0]
            self.assertIn(line, ended.stdout.decode().splitlines())
            self.assertLessEqual({*crates}, {*os.listdir(self.there / "crates")})
            self.expect_same(library)

    def test_a_newer_copy_wherever_cdpath_leads(self):
        self.make_older()
        elsewhere = self.folder()
        (elsewhere / self.there.name).mkdir()
        ended = support.run([COPY, self.there.name], env={"CDPATH": str(elsewhere)}, cwd=self.there.parent)
        self.assertEqual(ended.returncode, 0)
        self.expect_newer()

    def test_a_copy_after_one_that_was_killed(self):
        """At each of its renames."""
        for rename in (1, 2, 3):
            with self.subTest(rename=rename):
                self.setUp()
                self.make_older()
                self.stub("mv", f'/bin/mv "$@"\necho >>"{self.stubs}/calls"\n[ "$(wc -l <"{self.stubs}/calls")" -lt {rename} ] || kill -KILL $PPID')
                self.assertEqual(self.copy().returncode, -signal.SIGKILL)
                self.assertEqual(support.run([COPY, self.there]).returncode, 0)
                self.assertEqual(sorted(os.listdir(self.there / "crates"))[0][0], "p")
                self.expect_newer()

    def test_a_copy_after_one_of_another_library_that_was_killed_of_files_without_leave_to_write(self):
        (self.there / "crates/.ptree_trees.old/src").mkdir(parents=True)
        (self.there / "crates/.ptree_trees.new").mkdir()
        self.stub("cp", '/bin/cp "$@" || exit\nfor last; do :; done\n[ "$1" != -r ] || chmod -R a-w "$last"')
        self.assertEqual(self.copy().returncode, 0)
        self.assertEqual(sorted(os.listdir(self.there / "crates")), ["ptree", "ptree_example", "ptree_trees"])
        locked = [path for path in (self.there / "crates/ptree").rglob("*") if not path.stat().st_mode & 0o200]
        self.assertEqual(locked, [])

    def test_the_lines_that_are_to_be_added_to_crates_txt(self):
        for text, names in (
            ("# ptree: toml", ["ptree", "ptree_sources", "ptree_trees", "ptree_example"]),
            ("  ptree_trees  :ptree toml  # a: b\nptree_example may_wait=1: ptree", ["ptree", "ptree_sources"]),
            ("ptree\t: toml\nptree_sources: ptree\nptree_trees: ptree #\nptree_example: ptree", []),
        ):
            with self.subTest(text):
                (self.there / "crates.txt").write_text(text + "\n")
                ended = self.copy("ptree_trees", "ptree_trees")
                self.assertEqual(re.findall(r"(?m)^(ptree[a-z_]*):", ended.stdout.decode()), names)


class FirstCall(support.Case):
    def test_a_copy_that_is_not_built_draws_as_the_built_program_does(self):
        """It says that this is unproved, and keeps nothing."""
        there, words = self.folder(), ["words", "petgraph\nfirst", "-x", "", "--data", "a b"]
        for path in ("bin/build", "bin/ptree_cli", "tools/launch", "HANDLES"):
            (there / path).parent.mkdir(exist_ok=True)
            shutil.copy(support.TOP / path, there / path)
        for crate in ("ptree", "ptree_sources", "ptree_cli"):
            for part in ("src", "specs", "proofs"):
                shutil.copytree(support.TOP / "crates" / crate / part, there / "crates" / crate / part)
        lines = re.findall("(?m)^(?:ptree|ptree_sources|ptree_cli):.*\n", (support.TOP / "crates.txt").read_text())
        (there / "crates.txt").write_text("".join(lines))
        ended = support.run([there / "bin/ptree_cli", *words], timeout=300)
        self.assertEqual(ended.stdout, support.run([support.built("ptree_cli"), *words]).stdout)
        self.assertRegex(ended.stderr.decode(), "\\A.*unproved.*\n\\Z")
        self.assertFalse((there / "crates/ptree_cli/out").exists())
