"""Tests the tests. Puts programs that do nothing right in the place of the built ones, and libraries in that of the one for C: each test of
these must then fail, and each subtest over a program, or be named below with a reason. Plants mistakes in what is expected, and in what is
seen of a call, which is what a mistake of the library would look like: each must be noticed.

    python3 -m tests.planted [PLANT | mistakes]
"""
import concurrent.futures
import os
import re
import shutil
import subprocess
import sys
import unittest

from tests import support

SOURCES = {
    "nothing": "int main(void) { return 0; }",
    "its_input": """#include <unistd.h>
int main(void) {
    char room[4096];
    ssize_t n;
    while ((n = read(0, room, sizeof room)) > 0)
        if (write(1, room, (size_t)n) != n) return 0;
    return 0;
}""",
    "a_fixed_drawing": """#include <unistd.h>
int main(void) {
    (void)!write(1, "always\\n\\xe2\\x94\\x94\\xe2\\x94\\x80 this\\n", 19);
    return 0;
}""",
    # (ptree_cli itself, which is given no variables)
    "no_configuration": """#include <unistd.h>
int main(int count, char **words) {
    char *none[] = {0};
    (void)count;
    return execve("PTREE_CLI", words, none);
}""",
}
LIBRARIES = {"a_library_of_nothing": 0, "a_library_without_memory": 1}
LIBRARY_MODULES = ["test_rows.Rows", "test_limits.Limits", "test_random.Library", "test_c.Refusals", "test_python.Package"]
MODULES = ["test_program", "test_trees", "test_faults", "test_random.Program", "test_random.Trees", "test_launcher"]
#: The tests of the configuration.
CONFIGURED = [f"test_program.{name}" for name in ("ConfigurationFiles", "Variables", "Rows.test_configuration")]
MODULES += [f"test_documents.{name}" for name in ("Documents", "Commands", "Configuration")]
MODULES += ["test_limits.Times", "test_limits.Sizes"]
TREES, GRAPHS, DOCUMENTS, SOURCES_OF = (f"test_random.Library.test_{name}" for name in ("trees", "graphs", "documents", "sources"))
CALLS, LIMITS, REFUSALS = "test_random.Program.test_calls", "test_limits.Limits.test_", "test_c.Refusals"
# Each mistake: what notices it, the file, a text that occurs once in it, and what stands there instead.
MISTAKES = [
    (TREES, "reference.py", "bold=1", "bold=2"),
    (TREES, "reference.py", '"navy": "000080"', '"navy": "000081"'),
    (TREES, "reference.py", "[0-9a-fA-F]{6}", "[0-9a-f]{6}"),
    (TREES, "reference.py", 'color_code(style["background"], 40)', 'color_code(style["background"], 30)'),
    (TREES, "reference.py", 'chars["empty"] + empty + blanks', 'chars["empty"] + empty + blanks + " "'),
    (TREES, "reference.py", 'chars["down"] + empty', 'chars["down"] + right'),
    (TREES, "reference.py", 'self.depth = config["continued"], ', 'self.depth = config["continued"] + ".", '),
    (TREES, "reference.py", '== "tty" and is_terminal', '== "tty"'),
    (TREES, "reference.py", "all(a == b or apart(a, b)", "all(apart(a, b)"),
    (TREES, "reference.py", "all(apart(self.marker, piece) for piece in pieces)", "True"),
    (TREES, "reference.py", 'any("\\n" in text for text in [*pieces, self.marker])', 'any("\\n" in text for text in pieces)'),
    (TREES, "reference.py", "level < look.depth", "level <= look.depth"),
    (TREES, "reference.py", "i == len(children) - 1", "i == len(children) - 2"),
    (TREES, "reference.py", "len(path) - 1:\n                return number", "len(path) - 1:\n                return number + 1"),
    (TREES, "reference.py", "level >= look.depth", "level > look.depth"),
    (TREES, "reference.py", "if not all(known) or", "if"),
    (TREES, "reference.py", "& {False}", "& {False, True}"),
    (TREES, "reference.py", "or not all(True in kinds for kinds in lasts)", ""),
    (TREES, "reference.py", "if rest or not path", "if not path"),
    (GRAPHS, "reference.py", "reversed(edges)", "edges"),
    (GRAPHS, "reference.py", "nodes[place] + mark", "nodes[place]"),
    (GRAPHS, "reference.py", "        if level == depth or not", "        expanded.add(place)\n        if level == depth or not"),
    (DOCUMENTS, "reference.py", "key=str.encode", "key=str.lower"),
    (DOCUMENTS, "reference.py", 'raise Refused("date")', 'raise Refused("float")'),
    (DOCUMENTS, "reference.py", "[label or spell(value)", "[label"),
    (DOCUMENTS, "reference.py", 'digits != "-0" and ', ""),
    (SOURCES_OF, "reference.py", "(variable, in_file)", "(in_file, variable)"),
    (SOURCES_OF, "reference.py", '"branch" in file or ', ""),
    (SOURCES_OF, "reference.py", "Name(lowered(text))", "Name(text)"),
    (SOURCES_OF, "reference.py", "[0-9]{1,3}", "[0-9]+"),
    (SOURCES_OF, "reference.py", "lowered(name): value", "name: value"),
    (SOURCES_OF, "reference.py", 'raise Wrong\n    return value\n\n\ndef as_byte', "return value\n    return value\n\n\ndef as_byte"),
    (SOURCES_OF, "reference.py", "{source} isn't {kind.name}", "{source} is not {kind.name}"),
    (TREES, "library.py", '("never", "always", "tty")', '("always", "never", "tty")'),
    (CALLS, "test_random.py", '1, "", "not a drawing\\n"', '1, "", "no drawing\\n"'),
    (CALLS, "test_random.py", 'reference.SETS["ascii-plus"]', 'reference.SETS["ascii"]'),
    (CALLS, "test_random.py", 'tree, Look(config, is_terminal)), ""\n\n\n# Variables', 'tree, Look(config)), ""\n\n\n# Variables'),
    (CALLS, "test_random.py", '"no memory\\n"\n    return 0', '"bad document\\n"\n    return 0'),
    (LIMITS + "texts_of_many_lines", "test_limits.py", '"a\\n" + ": a\\n" * (lines - 1)', '"a\\n" + ": a\\n" * lines'),
    (LIMITS + "many_lines_with_a_wrong_one", "test_limits.py", "found == wrong + 1", "found == wrong"),
    (LIMITS + "a_graph_of_30_layers_expanded_once", "test_limits.py", "layers - below - 1", "layers - below - 2"),
    (LIMITS + "toml_nested_to_its_limits_and_past_them", "test_limits.py", "6_560", "6_559"),
    (LIMITS + "each_call_at_each_size", "test_limits.py", "turns, further = ", "further, turns = "),
    (LIMITS + "each_call_at_each_size", "test_limits.py", "error.line == size + 1", "error.line == size"),
    (REFUSALS, "test_c.py", "ptree_test_held() - before", "ptree_test_held() - before + (refused == (3, 3))"),
    (REFUSALS, "test_c.py", "    return number, (found.bytes", "    return c.DONE if refused == (3, 3) else number, (found.bytes"),
    (REFUSALS, "test_c.py", "[room.state() for room in made]", "[room.state()[refused == (3, 3) :] for room in made]"),
    (REFUSALS, "test_c.py", "(found.bytes, found.items", "(found.bytes + (refused == (3, 3)), found.items"),
    (REFUSALS, "test_c.py", "make(name, given, rooms), usual, f", "make(name, given, rooms, (1, 1)), usual, f"),
    (REFUSALS, "test_c.py", "requests = library.ptree_test_requests()", "requests = min(library.ptree_test_requests(), 2)"),
    (REFUSALS, "test_c.py", '    ("draw_walks", (*GRAPH, *PLAIN), [Room], 59),\n', ""),
]
#: What passes nevertheless: patterns of a plant and of a test with its subtest, and why.
REASONS = [
    ("", r"test_program\.Rows\.test_each_damaged_file_fails", "a damaged file fails with most programs"),
    ("a_library_without_memory", r"test_package\.Package\.test_a_piece_that_is_too_long", "this ends for want of memory"),
    ("no_configuration", r"test_program\.Variables\.test_no_variable_at_all", "it is given none"),
    ("nothing", r"test_limits\.Sizes\.test_two_drawings .*size=0", "two equal drawings differ in nothing"),
    ("its_input", r"test_limits\.Sizes\.test_(a_drawing|an_outline) .*size=0", "a root alone is its own drawing, and its own outline"),
    ("", r"test_launcher\.Signals\.test_sig\w+_to_a_build$", "these call bin/build, which is not replaced"),
    ("", r"test_launcher\.Builds\.test_an_installation_with_a_link", "this calls bin/install, which makes its own launcher"),
    ("", r"test_documents\.Configuration\.test_its_(file|texts)", "these compare the page with rows"),
]


class Result(unittest.TestResult):
    """Notes which tests and subtests pass."""

    def __init__(self):
        super().__init__()
        self.passed, self.wrong, self.count = [], set(), 0

    def addSubTest(self, test, subtest, error):
        self.count += 1
        if error is None:
            self.passed.append(subtest.id())
        else:
            self.wrong.add(test.id())

    def addFailure(self, test, error):
        self.wrong.add(test.id())

    addError = addFailure

    def addSuccess(self, test):
        if test.id() not in self.wrong:
            self.passed.append(test.id())


def count_passing(plant, names, with_subtests):
    """Runs tests with a plant in place. Returns how many of them pass without a reason, and prints these."""
    result = Result()
    for name in names:
        try:
            unittest.defaultTestLoader.loadTestsFromName(f"tests.{name}").run(result)
        except Exception as error:  # (test_c calls the library when it is loaded)
            print(f"{plant}: {name} cannot be loaded: {error}")
    passed = result.passed if with_subtests else [name for name in result.passed if " " not in name]
    found = [name for name in passed if not any(re.search(p, plant) and re.search(t, name) for p, t, _ in REASONS)]
    print(f"{plant}: {result.testsRun} tests, {result.count} subtests, {len(passed)} pass, {len(found)} of them without a reason")
    for name in found:
        print(f"    {name}", flush=True)
    return len(found)


def try_program(plant):
    source = SOURCES[plant].replace("PTREE_CLI", str(support.built("ptree_cli")))
    with support.new_folder() as folder:
        support.run(["cc", "-x", "c", "-o", folder / plant, "-"], source).check_returncode()
        os.environ |= {"PTREE_CLI": str(folder / plant), "TREES": str(folder / plant), "TESTS": str(folder / plant)}
        return count_passing(plant, CONFIGURED if plant == "no_configuration" else MODULES, with_subtests=True)


def try_library(plant):
    """A library whose calls do nothing, and return a number."""
    with support.new_folder() as folder:
        names = sorted(set(re.findall(r"\bptree_[a-z_]+(?=\()", (support.TOP / "bindings/c/ptree.h").read_text())))
        names += ["ptree_test_held", "ptree_test_refuse", "ptree_test_requests"]
        text = "".join(f"unsigned {name}(void) {{ return {LIBRARIES[plant]}; }}\n" for name in names)
        (folder / "libptree_c.a").touch()
        support.run(["cc", "-x", "c", "-shared", "-fPIC", "-o", folder / "libptree_refusing.so", "-"], text).check_returncode()
        os.environ |= {"PTREE_C": str(folder / "libptree_c.a"), "PTREE_LIBRARY": str(folder / "libptree_refusing.so")}
        return count_passing(plant, LIBRARY_MODULES, with_subtests=False)


def is_noticed(mistake):
    """Whether a test fails in a copy of this folder with a mistake."""
    test, name, old, new = mistake
    with support.new_folder() as folder:
        shutil.copytree(support.TESTS, folder / "tests", ignore=shutil.ignore_patterns("__pycache__"))
        (folder / "bindings").symlink_to(support.TOP / "bindings")
        path = folder / "tests" / name
        text = path.read_text(encoding="utf-8")
        path.write_text(text.replace(old, new), encoding="utf-8")
        words = [sys.executable, "-m", "unittest", "-f", f"tests.{test}"]
        ended = subprocess.run(words, cwd=folder, env=os.environ | {"LINES_OF_TEXTS": "100"}, capture_output=True, text=True)
        return text.count(old) == 1 and ended.returncode == 1 and re.search("(?m)^FAIL: ", ended.stderr) is not None


def try_mistakes():
    from tests import library

    for name in ("ptree_c", "ptree_cli"):
        os.environ[name.upper()] = str(support.built(name))
    library.made(is_refusing=True)
    with concurrent.futures.ThreadPoolExecutor(2) as pool:
        missed = [mistake for mistake, found in zip(MISTAKES, pool.map(is_noticed, MISTAKES)) if not found]
    print(f"{len(MISTAKES)} mistakes planted, {len(missed)} of them not noticed")
    for _, name, old, new in missed:
        print(f"    {name}: {old!r} as {new!r}")
    return len(missed)


def main(words):
    kinds = {**dict.fromkeys(SOURCES, try_program), **dict.fromkeys(LIBRARIES, try_library)}
    if words == ["mistakes"]:
        return int(try_mistakes() > 0)
    if len(words) == 1:
        return int(kinds[words[0]](words[0]) > 0)
    # (each in a process of its own, since the library is loaded once)
    return max(subprocess.run([sys.executable, "-m", "tests.planted", plant]).returncode for plant in [*kinds, "mistakes"])


if __name__ == "__main__":
    sys.exit(main(sys.argv[1:]))
