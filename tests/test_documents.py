"""Documents of other programs, and what the pages show and say: commands, blocks of code, links, names and texts."""
import re
import subprocess

from tests import reference, support
from tests.row_files import ROWS

PAGES = ("README.md", "bench", "crates", "docs", "tests", "tools")


def setUpModule():
    global PROGRAM, LAUNCHER
    PROGRAM, LAUNCHER = support.built("ptree_cli"), support.launcher("ptree_cli")


def text_of(path):
    return (support.TOP / path).read_text(encoding="utf-8")


def every_key(language):
    """The file with every key, as a row has it."""
    lines = re.search(f"^row every key in {language.upper()}\n{language}_file\n((?:\\|.*\n)+)", (ROWS / "library/sources/sources.rows").read_text(), re.M)
    return re.sub("^\\|", "", lines[1], flags=re.M)


class Documents(support.Case):
    def test_each_is_drawn_as_the_second_implementation_draws_it(self):
        look, refused = reference.Look(reference.default()), 0
        paths = [path for path in sorted((support.TESTS / "documents").iterdir()) if path.suffix in (".json", ".toml", ".lock")]
        self.assertGreater(len(paths), 9)
        for path in paths:
            with self.subTest(path.name):
                language, text = "json" if path.suffix == ".json" else "toml", path.read_text(encoding="utf-8")
                try:
                    wanted = 0, reference.draw(reference.document_tree(language, text, path.name), look), ""
                except reference.Refused:
                    wanted, refused = (1, "", "bad document\n"), refused + 1
                self.expect(support.run([PROGRAM, language, path.name], text), *wanted)
        self.assertEqual(refused, 1)


class Commands(support.Case):
    """What stands below a command of a page is what it writes."""

    def shell(self, command):
        command = command.replace("/tmp/", f"{self.folder()}/").replace("bin/ptree_cli", str(LAUNCHER))
        return support.run(["sh", "-c", command], cwd=support.TOP, stderr=subprocess.STDOUT).stdout.decode()

    def test_the_readme_s_first_drawing(self):
        command = support.blocks(text_of("README.md"), "sh")[0].partition("\n")[0].partition(" #")[0]
        self.assertEqual(self.shell(command), support.blocks(text_of("README.md"), "text")[0])

    def test_the_program_s_section(self):
        page = support.section("docs/CLI.md", "The program `ptree_cli`")
        usage, *shown = support.blocks(page, "text")
        self.assertEqual(self.shell("bin/ptree_cli"), usage)
        commands = support.blocks(page, "sh")
        self.assertGreater(len(commands), 0)
        for command, drawing in zip(commands, shown):
            with self.subTest(command):
                self.assertEqual(self.shell(command), drawing)


class Configuration(support.Case):
    """The section on the configuration."""

    PAGE = support.section("docs/CLI.md", "Configuration")

    def expect_every_key(self, name, text):
        """The drawing under a file has the value of every key, and that without it none."""
        branch, reset = "\x1b[2m\x1b[38;2;70;130;180m\x1b[48;5;0m", "\x1b[0m"
        leaf = "\x1b[1m\x1b[3m\x1b[4m\x1b[5m\x1b[7m\x1b[8m\x1b[9m\x1b[38;2;70;130;180m\x1b[48;2;16;32;48m"
        drawn = f"{branch}{reset}{leaf}r\n{branch}> {reset}s{reset}\n{branch}┗━━ {reset}{leaf}a{reset}\n"
        path = self.folder() / name
        path.write_text(text, encoding="utf-8")
        call = [PROGRAM, "words", "r\ns", "a"]
        self.expect(support.run(call, env={"PTREE_CONFIG": str(path)}), 0, drawn)
        self.expect(support.run(call, env={"PTREE_CONFIG": f"{path}.none"}), 0, "r\n: s\n└─ a\n")

    def test_its_file_is_that_of_a_row(self):
        self.assertEqual(support.blocks(text_of("docs/CLI.md"), "toml")[0], every_key("toml"))

    def test_every_key_in_toml(self):
        self.expect_every_key("every.toml", every_key("toml"))

    def test_every_key_in_json(self):
        self.expect_every_key("every.json", every_key("json"))

    def test_the_name_of_a_set_in_the_place_of_its_characters(self):
        without = re.sub(r"^\[characters\]\n.*?^\n", "", every_key("toml"), flags=re.M | re.S)
        self.expect_every_key("named.toml", 'characters = "utf-bold"\n' + without)

    def test_its_texts_of_faults_are_those_of_rows(self):
        rows = (ROWS / "library/sources/sources.rows").read_text(encoding="utf-8").splitlines()
        texts = support.blocks(self.PAGE, "text")[0].splitlines()
        self.assertGreater(len(texts), 1)
        for text in texts:
            with self.subTest(text):
                self.assertIn(f"= fault_text {text}", rows)


class Links(support.Case):
    """The links of all pages lead to files and headings."""

    def dead_links(self, *places):
        found = []
        for place in places:
            for page in [place] if place.is_file() else sorted(path for path in place.rglob("*.md") if "out" not in path.parts):
                for link in re.findall(r"\]\(([^)\s]+)\)", self.prose(page)):
                    path, _, anchor = link.partition("#")
                    target = page.parent / path if path else page
                    if not link.startswith("http") and (not target.exists() or anchor and anchor not in self.anchors(target)):
                        found.append(link)
        return found

    def prose(self, page):
        return re.sub(r"^```.*?^```$", "", page.read_text(encoding="utf-8"), flags=re.M | re.S)

    def anchors(self, page):
        found = []
        for title in re.findall(r"^#+ +(.*?) *$", self.prose(page), re.M):
            anchor = re.sub(r"[^\w\- ]", "", title.lower()).replace(" ", "-")
            found.append(anchor + (f"-{found.count(anchor)}" if anchor in found else ""))
        return found

    def test_none_is_dead(self):
        self.assertEqual(self.dead_links(*(support.TOP / place for place in PAGES)), [])

    def test_a_dead_one_is_noticed(self):
        page = self.folder() / "page.md"
        page.write_text("# A `b`\nSee [a](missing.md#b), [b](#a-b), [c](page.md#c).\n```\n# C\n[d](d)\n```\n")
        self.assertEqual(self.dead_links(page), ["missing.md#b", "page.md#c"])

    def test_the_pages_that_sources_name_are_there(self):
        words = ["git", "grep", "-ohIE", r"\bdocs/[A-Z_]+\.md", "--", "bin", "bench", "bindings", "crates", "trials", "tests", "tools"]
        named = set(subprocess.run(words, cwd=support.TOP, capture_output=True, text=True).stdout.split())
        self.assertGreater(len(named), 3)
        self.assertEqual([page for page in sorted(named) if not (support.TOP / page).exists()], [])


class Sources(support.Case):
    """What the pages say of the sources."""

    def test_the_page_of_calls_is_what_they_say(self):
        self.assertEqual(support.run([support.TOP / "tools/api", "--check"]).returncode, 0)

    def test_another_clause_in_them_is_noticed(self):
        at = self.folder()
        for path in ("tools/api", "docs/API.md", *(str(path.relative_to(support.TOP)) for path in support.TOP.glob("crates/*/src/**/*.rt"))):
            (at / path).parent.mkdir(parents=True, exist_ok=True)
            (at / path).write_bytes((support.TOP / path).read_bytes())
        (at / "tools/api").chmod(0o755)
        self.assertEqual(support.run([at / "tools/api", "--check"]).returncode, 0)
        output = at / "crates/ptree/src/output.rt"
        output.write_text(output.read_text().replace("ensures bytes {", "ensures octets {"))
        self.assertNotEqual(support.run([at / "tools/api", "--check"]).returncode, 0)

    def test_the_guide_s_blocks_stand_in_the_crate_that_proves_them(self):
        """Or among the tests, line by line. (The first block is compared as a whole.)"""
        paths = [*support.TOP.glob("crates/examples/src/*.rt"), support.TOP / "trials/src/pages.rs"]
        proved = {line.strip() for path in paths for line in path.read_text(encoding="utf-8").splitlines()}
        tried = 0
        for number, block in enumerate(support.blocks(text_of("docs/GUIDE.md"), "rust")[1:], 2):
            if re.match(r"(pub|fn|const|impl|#\[)", block):
                with self.subTest(block=number):
                    self.assertEqual([line for line in block.splitlines() if line.strip() not in proved], [])
                    tried += 1
        self.assertGreater(tried, 5)

    def test_the_callers_that_the_guarantees_name(self):
        page = text_of("docs/GUARANTEES.md").partition("\n## What is proved of")[0]
        self.assertIn("own_types::", page)
        for path in sorted(support.TOP.glob("crates/examples/src/*.rt")):
            text = path.read_text(encoding="utf-8")
            for name in re.findall(rf"`{path.stem}::(\w+)", page):
                with self.subTest(f"{path.stem}::{name}"):
                    self.assertRegex(text, rf"(?m)^pub (const )?(fn|struct|enum) {name}\b")

    def test_definitions_stand_apart_from_the_code(self):
        """One that took a value from the code would share its mistakes."""
        paths = [*support.TOP.glob("crates/*/specs/**/*.antt")]
        self.assertGreater(len(paths), 20)
        self.assertEqual([path for path in paths if "TheConstants" in path.read_text(encoding="utf-8")], [])


class Gate(support.Case):
    def test_it_runs_the_tests_of_its_own_repository_wherever_cdpath_leads(self):
        at = self.folder()
        for name in ("own", "other"):
            (at / name / ".ci").mkdir(parents=True)
            (at / name / "bin").mkdir()
            (at / name / ".ci/run").write_bytes((support.TOP / ".ci/run").read_bytes())
            (at / name / "bin/test").write_text(f'#!/bin/sh\necho "{name} $*"\n')
            (at / name / "bin/test").chmod(0o755)
        self.expect(support.run(["bash", ".ci/run"], env={"CDPATH": str(at / "other")}, cwd=at / "own"), 0, "own ci\n")
