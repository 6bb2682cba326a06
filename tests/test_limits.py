"""What is long, deep or large is drawn and read, by the library for C and the program trees, each beside the drawing that the rules give.

A call that says that memory ran out has failed: there is enough. At each size all calls that allocate are made.
"""
import os
import unittest

from tests import library as calls
from tests import support
from tests.library import c, ptree
from tests.test_trees import below, written

#: Long texts have so many lines, and there are half as many items.
LINES = int(os.environ.get("LINES_OF_TEXTS", "100000"))
PLAIN = ptree.Config(styled="never")
LEVELS = 300


def steps(blanks, text, levels):
    """Lines of last children, each one level deeper: so many, the first after these blanks."""
    return "".join(f"{blanks}{'   ' * level}└─ {text}\n" for level in range(levels))


def chain(text, levels):
    """So many items below a root, each below the one before it."""
    root = ptree.Tree(text)
    item = root
    for _ in range(levels):
        item = item.add(text)
    return root


def expect(holds, rule):
    if not holds:
        raise AssertionError(rule)


def expect_both(tree, drawing, config=PLAIN):
    """That a tree has a drawing, and that this is read as the tree."""
    expect(ptree.draw(tree, config) == drawing, "a tree has its drawing")
    expect(ptree.read(drawing, config) == tree, "a drawing is read as its tree")


def expect_refused(call, *given):
    """That a text past a limit is no document."""
    try:
        call(*given)
    except ptree.DocumentError as error:
        return expect(error.number == c.SYNTAX, "a text past the limit is refused for its syntax")
    raise AssertionError("a text past the limit is no document")


def try_chain(lines):
    expect_both(chain("x", LEVELS), "x\n" + steps("", "x", LEVELS))


def try_text(lines):
    text = "\n".join(["a"] * lines)
    expect_both(ptree.Tree(text), "a\n" + ": a\n" * (lines - 1))
    expect_both(ptree.Tree("r", [text]), "r\n└─ a\n" + "   : a\n" * (lines - 1))


def try_items(lines):
    count = lines // 2
    expect_both(ptree.Tree("r", [*(ptree.Tree("a", ["b"]) for _ in range(count)), "c"]), "r\n" + "├─ a\n│  └─ b\n" * count + "└─ c\n")


def try_wrong_line(lines):
    """A text of which the second, the middle or the last line has no piece and no marker: items, items over one, further lines."""
    for turns in (["├─ a\n"], ["├─ a\n", "│  └─ b\n"], [": a\n"]):
        for wrong in (1, lines // 2, lines - 1):
            text = ["r\n", *(turns * lines)[: lines - 1]]
            text[wrong] = "x\n"
            try:
                ptree.read("".join(text), PLAIN)
                found = None
            except ptree.ReadError as error:
                found = error.line
            expect(found == wrong + 1, "the first wrong line of a long text is found")


def try_layers(lines):
    """A graph of 30 layers of two nodes, each with edges to both nodes below it, so of 2 to the power of 30 walks. Drawn once, each a is
    below the one before it, and the other nodes follow from the last layer up."""
    layers, nodes, edges, above = 30, ["r"], [], [0]
    for _ in range(layers):
        a, b = len(nodes), len(nodes) + 1
        nodes += ["a", "b"]
        edges += [(node, target) for node in above for target in (b, a)]
        above = [a, b]
    drawing = "r\n" + "".join("│  " * layer + "├─ a\n" for layer in range(layers))
    for below in range(layers):
        front, mark = "│  " * (layers - below - 1), " (*)" if below > 1 else ""
        drawing += f"{front}└─ b\n" + (f"{front}   ├─ a{mark}\n{front}   └─ b{mark}\n" if below else "")
    expect(calls.graph(nodes, edges, 0, PLAIN, " (*)") == drawing, "a graph of many walks has its drawing")


def try_json(lines):
    """127 lists and objects, and 128."""
    for levels, front, inner, end, text in ((127, "[", "", "]", ""), (126, '{"k":', "{}", "}", "k")):
        drawing = ptree.draw_json(front * levels + inner + end * levels, "d", PLAIN)
        expect(drawing == "d\n" + steps("", text, 126), "a document has its drawing")
        expect_refused(ptree.draw_json, front * (levels + 1) + inner + end * (levels + 1))
    expect_refused(ptree.draw_json, '[{"k":' * 64 + "[]" + "}]" * 64)


def try_toml(lines):
    """80 arrays, inline tables and parts of a key, and 81; and 80 inline tables with keys of 80 parts, 6,560 levels in all."""
    for levels, front, inner, end, key, text in (
        (80, "a = ", "[", "]", "a", ""), (79, "a = ", "{ k = ", " }", "a", "k"), (79, "", "k.", "", "k", "k"),
    ):  # fmt: skip
        middle = {"[": "", "{ k = ": "{}", "k.": "k = []"}[inner]
        document = front + inner * levels + middle + end * levels
        expect(ptree.draw_toml(document, "d", PLAIN) == f"d\n└─ {key}\n" + steps("   ", text, 79), "a document has its drawing")
        expect_refused(ptree.draw_toml, front + inner * (levels + 1) + middle + end * (levels + 1))
    key = ".".join(["k"] * 80)
    for count in (80, 81):
        document = f"[{key}]\n{key} = " + f"{{ {key} = " * count + "1" + " }" * count + "\n"
        if count == 80:
            expect(ptree.draw_toml(document, "d", PLAIN) == "d\n" + steps("", "k", 6_560)[:-1] + " = 1\n", "a document has its drawing")
        else:
            expect_refused(ptree.draw_toml, document)


def try_trees(size):
    """Trees of a long text, of many lines, of many children and of many levels."""
    levels = min(size, LEVELS)
    expect_both(ptree.Tree("x" * size), "x" * size + "\n")
    expect_both(ptree.Tree("\n" * size), "\n" + ": \n" * size)
    expect_both(ptree.Tree("x" * size, ["a"] * size), "x" * size + "\n" + "├─ a\n" * (size - 1) + "└─ a\n" * (size > 0))
    expect_both(chain("a\nb", levels), "a\n: b\n" + "".join(f"{'   ' * at}└─ a\n{'   ' * (at + 1)}: b\n" for at in range(levels)))


def try_parts(size):
    """Pieces, texts, names of colours and styles of a size."""
    text, tree = "x" * size, ptree.Tree("r", ["a\nb", "c"])
    names = ptree.Style(ptree.NamedColor(text), ptree.NamedColor(text), bold=True)
    expect(ptree.paint(text, names) == f"\x1b[1m{text}\x1b[0m", "a long text is painted, and long names of no colours set none")
    characters = ptree.Characters(text, text, text, text, text)
    long = ptree.Config(characters=characters, branch=names, leaf=names, continued=text, styled="always")
    end, front = "\x1b[0m", "\x1b[1m"
    piece = text * 3
    wanted = f"{front}{end}{front}r{end}\n{front}{piece}{end}{front}a\n{front}{piece}{text}{end}b{end}\n{front}{piece}{end}{front}c{end}\n"
    expect(ptree.draw(tree, long) == wanted, "a tree with long pieces has its drawing")
    for config in (calls.changed(PLAIN, indent=size), calls.changed(PLAIN, indent=size, padding=size)):
        times = max(0, size - 1 - config.padding)
        turns, further = "─" * times + " " * config.padding, " " * times + " " * config.padding
        expect(ptree.draw(tree, config) == f"r\n├{turns}a\n│{further}: b\n└{turns}c\n", "a tree with wide pieces has its drawing")
        expect(calls.is_readable(config), "wide pieces are readable")


def try_presets(size):
    """Each preset, and each set of characters."""
    for preset in ptree.PRESETS:
        config = ptree.Config.preset(preset)
        expect(calls.is_readable(config) and ptree.draw("r", config, children=lambda node: []) == "r\n", "a preset draws")
    for name in ("utf", "ascii", "ascii-tick", "ascii-plus", "utf-bold", "utf-dashed", "utf-double"):
        expect(ptree.Characters.named(name).turn_right, "each set has its characters")


def try_graphs(size):
    """A node with edges to many others, a chain of nodes, and a node with many edges to itself."""
    star = [(0, place) for place in range(size, 0, -1)]
    below = "├─ a\n" * (size - 1) + "└─ a\n" * (size > 0)
    nodes, loops = ["a"] * (size + 1), [(0, 0)] * size
    levels = min(size, LEVELS)
    path = [(place, place + 1) for place in range(levels)]
    chain = "b\n" + steps("", "b", levels)
    level = calls.changed(PLAIN, depth=1)
    for mark in (None, " (*)"):
        expect(calls.graph(nodes, star, 0, level, mark) == "a\n" + below, "a star has its drawing")
        expect(calls.graph(["b"] * (levels + 1), path, 0, PLAIN, mark) == chain, "a chain of nodes has its drawing")
        expect(calls.graph(["a"], loops, 0, level, mark) == "a\n" + below.replace("a", "a" + (mark or "")), "a loop has its drawing")


def try_documents(size):
    """A text, a list, lists in one another, and many keys."""
    nested = min(size, 79)
    keys = [f"key {number}" for number in range(size)]
    items = "├─ 0\n" + "├─ -1\n" * (size - 1) + "└─ -1\n" if size else "└─ 0\n"
    lists = "".join("   " * level + "└─ \n" for level in range(nested))
    text = "x" * size
    json = f'{{"text":"{text}","list":[0{", -1" * size}],"lists":{"[" * nested + chr(34) * 2 + "]" * nested}'
    json += "".join(f',"{key}":null' for key in keys) + "}"
    toml = f"text = '{text}'\nlist = [0{', -1' * size}]\nlists = {'[' * nested}''{']' * nested}\n"
    toml += "".join(f"\"{key}\" = ''\n" for key in keys)

    def below(lines):
        return "".join(f"│  {line}\n" for line in lines.split("\n")[:-1])

    drawing = f"{text}d\n" + "".join(f"├─ {key} = \n" for key in sorted(keys)) + "├─ list\n" + below(items)
    drawing += ("├─ lists\n" + below(lists) if nested else "├─ lists = \n") + f"└─ text = {text}\n"
    expect(ptree.draw_json(json, text + "d", PLAIN) == drawing, "a document in JSON has its drawing")
    expect(ptree.draw_toml(toml, text + "d", PLAIN) == drawing, "a document in TOML has its drawing")


def try_sources(size):
    """Many variables and keys that set nothing, and long texts; files that go wrong in the line after so many."""
    text = "x" * size
    keys = [f"PTREE_CHARACTERS_{key.upper()}" for key in c.CHARACTERS] + ["PTREE_LEAF_FOREGROUND"]
    variables = [*((f"OTHER_{number}", "1") for number in range(size)), *((key, text) for key in keys)]
    wanted = ptree.Config(characters=ptree.Characters(*[text] * 5), leaf=ptree.Style(ptree.NamedColor(text)))
    toml = "".join(f"other_{number} = 1\n" for number in range(size)) + f"continued = '{text}'\n"
    json = "{" + "".join(f'"other_{number}":1,\n' for number in range(size)) + f'"continued":"{text}"}}'
    both = calls.changed(wanted, continued=text)
    for number, file, config in ((c.NO_FILE, "", wanted), (c.TOML, toml, both), (c.JSON, json, both)):
        given = calls.sources(file, number, variables)
        expect(calls.load(given) == config and calls.faults(given) == [], "good sources are loaded")
    for number in (c.TOML, c.JSON):
        given = calls.sources("\n" * size + "?", number, variables)
        try:
            calls.load(given)
            raise AssertionError("a file with a wrong line is not loaded")
        except ptree.ConfigError as error:
            expect(error.line == size + 1 and len(calls.faults(given)) == 1, "the wrong line is found")


class Limits(unittest.TestCase):
    def test_a_chain_of_300_items(self):
        try_chain(LINES)

    def test_texts_of_many_lines(self):
        try_text(LINES)

    def test_many_items(self):
        try_items(LINES)

    def test_many_lines_with_a_wrong_one(self):
        try_wrong_line(LINES)

    def test_a_graph_of_30_layers_expanded_once(self):
        try_layers(LINES)

    def test_json_nested_to_the_limit_and_past_it(self):
        try_json(LINES)

    def test_toml_nested_to_its_limits_and_past_them(self):
        try_toml(LINES)

    def test_presets_and_sets_of_characters(self):
        try_presets(LINES)

    def test_each_call_at_each_size(self):
        for size in (0, 1, 2, 40, 300, 70_000):
            for try_size in (try_trees, try_graphs, try_documents, try_sources, try_parts):
                with self.subTest(try_size.__name__, size=size):
                    # (what has long pieces grows with the square of the size)
                    try_size(min(size, 2500) if try_size is try_parts else size)


class OfTrees(support.Case):
    @classmethod
    def setUpClass(cls):
        cls.program = support.built("trees")


class Times(OfTrees):
    """Large inputs are drawn within seconds; a time that grows as their square would be minutes."""

    def test_a_million_paths(self):
        """Half of them are names in one folder, and the others lie in a thousand folders."""
        names = (str(number) for number in range(1_000_000, 2_000_000))
        paths = written(self.folder(), "paths", "".join((f"{it[:-3]}/{it[-3:]}\n" if at % 2 == 0 else f"{it}\n") for at, it in enumerate(names)))
        ended = support.run([self.program, "paths", "--sort", paths], timeout=20)
        self.assertEqual((ended.returncode, ended.stdout.count(b"\n"), ended.stderr), (0, 1_001_001, b""))

    def test_two_lists_of_400000_children(self):
        at, half = self.folder(), 200_000
        left = written(at, "left", "r\n" + "├─ a\n" * half + "├─ b\n" * half + "└─ end\n")
        right = written(at, "right", "r\n" + "├─ a\n" * 2 * half + "└─ end\n")
        wanted = "r\n" + "├─ a\n" * half + "├─ - b\n" * half + "├─ + a\n" * half + "└─ end\n"
        self.expect(support.run([self.program, "diff", "--all", left, right], timeout=20), 1, wanted)

    def test_needs_in_a_path_of_10000_folders(self):
        needs = "".join(f'"n{i}": "*",\n' for i in range(1, 10_001)) + '"n0": "*"'
        lock = f'{{"lockfileVersion": 3, "packages": {{"b/node_modules/n1": {{}}, "{"a/" * 10_000}a": {{"dependencies": {{{needs}}}}}}}}}'
        self.expect(support.run([self.program, "deps"], lock, timeout=5), 0, "standard input\n├─ a\n└─ n1\n")

    def test_150000_workspaces(self):
        names = [f"w{i}" for i in range(1, 150_001)]
        packages = "".join(f', "{name}": {{}}, "node_modules/{name}": {{"resolved": "{name}", "link": true}}' for name in names)
        listed = ", ".join(f'"{name}"' for name in names)
        lock = f'{{"lockfileVersion": 3, "packages": {{"": {{"name": "r", "workspaces": [{listed}]}}{packages}}}}}'
        *first, last = sorted(names)
        self.expect(support.run([self.program, "deps"], lock, timeout=20), 0, "r\n" + "".join(f"├─ {name}\n" for name in first) + f"└─ {last}\n")


class Sizes(OfTrees):
    """A call over an input of each size writes what it must, or as many lines. No memory is refused, so it must not run out."""

    SIZES = (0, 1, 2, 40, 2500, 70_000)

    def expect_each(self, make, wanted, *words, status=lambda n: 0):
        """`wanted` makes of a size, and of its levels, of which there are at most 2500, the output or the number of its lines."""
        for n in self.SIZES:
            with self.subTest(words=words, size=n):
                ended, output = support.run([self.program, *words], make(n)), wanted(n, min(n, 2500))
                found = ended.stdout.decode() if isinstance(output, str) else ended.stdout.count(b"\n")
                self.assertEqual(ended.stderr, b"")
                self.assertEqual(found, output)
                self.assertEqual(ended.returncode, status(n))

    def test_json(self):
        def make(n):
            lists = "[" * min(n, 79) + "0" + "]" * min(n, 79)
            keys = "".join(f', "key {i}": 1\n' for i in range(1, n + 1))
            return f'{{"lists": {lists}, "list": [{",".join(map(str, range(n)))}], "text": "{"x" * n}"{keys}}}\n'

        self.expect_each(make, lambda n, k: 2 * n + 4 + min(n, 79), "json")

    def keys(self, n):
        return "".join(f"key_{i} = 1\n" for i in range(1, n + 1))

    def test_toml(self):
        def make(n):
            lists = "[" * min(n, 79) + "0" + "]" * min(n, 79)
            return f'lists = {lists}\nlist = [{",".join(map(str, range(n)))}]\ntext = "{"x" * n}"\n' + self.keys(n)

        self.expect_each(make, lambda n, k: 2 * n + 4 + min(n, 79), "toml")

    def test_pairs(self):
        for words in (["deps"], ["deps", "--walks"]):
            drawn = lambda n, k: below("r", map(str, range(n)))  # noqa: E731
            self.expect_each(lambda n: "r r\n" + "".join(f"r {i}\n" for i in range(n)), drawn, *words)

    def test_a_lock_file_of_cargo(self):
        def make(n):
            needs = ",".join(f'"n{i}"' for i in range(n))
            packages = "".join(f'[[package]]\nname = "n{i}"\nversion = "1"\n' for i in range(n))
            return f'[[package]]\nname = "r"\nversion = "1"\ndependencies = [{needs}]\n{packages}'

        self.expect_each(make, lambda n, k: below("r v1", (f"n{i} v1" for i in range(n))), "deps")

    def test_a_lock_file_of_npm(self):
        def make(n):
            needs = "".join(f', "n{i}": "1"' for i in range(n))
            packages = "".join(f', "node_modules/n{i}": {{"version": "1"}}' for i in range(n))
            return f'{{"lockfileVersion": 3, "packages": {{"": {{"name": "r", "dependencies": {{"none": "1"{needs}}}}}{packages}}}}}'

        self.expect_each(make, lambda n, k: below("r", (f"{name}@1" for name in sorted(f"n{i}" for i in range(n)))), "deps")

    def test_paths(self):
        """As many paths of one name, one of many names, and one whose name has as many bytes."""

        def make(n):
            return "".join(f"{i}\n" for i in range(1, n + 1)) + "n/" * min(n, 2500) + "\n" + "x" * n

        for words in (["paths"], ["paths", "--sort"]):
            self.expect_each(make, lambda n, k: n + k + 2 if n else ".\n", *words)

    def outline(self, n):
        """As many items below the root, and behind them as many as there are levels, each below the one before it."""
        return "r\n" + "  r\n" * n + "".join(f"{'  ' * level}r\n" for level in range(1, min(n, 2500) + 1))

    def drawing(self, n, turn="├─ ", last="└─ "):
        return "r\n" + f"{turn}r\n" * n + "".join(f"{'   ' * level}{last}r\n" for level in range(min(n, 2500)))

    def test_an_outline(self):
        self.expect_each(self.outline, lambda n, k: self.drawing(n), "outline")

    def test_a_drawing(self):
        self.expect_each(self.drawing, lambda n, k: self.outline(n), "indented")
        self.expect_each(self.drawing, lambda n, k: f"standard input: a drawing of {n + k + 1} item{'s' * (n > 0)}\n", "check")
        self.expect_each(self.drawing, lambda n, k: self.drawing(n, "|- ", "`- "), "convert", "--sort", "--keep", "r", "--to", "ascii")

    def test_two_drawings(self):
        left = str(written(self.folder(), "left", "r\n"))
        differs = lambda n: int(n > 0)  # noqa: E731
        self.expect_each(self.drawing, lambda n, k: 3 * (n > 0), "diff", left, "-", status=differs)
        self.expect_each(self.drawing, lambda n, k: (n + k + 1) * (n > 0), "diff", "--all", left, "-", status=differs)

    def test_unknown_settings(self):
        """An unknown name is compared with those of all fields."""
        for n in self.SIZES[:5]:
            with self.subTest(size=n):
                path = written(self.folder(), "strays.toml", self.keys(n))
                only = {"PTREE_CONFIG": str(path), **{f"PTREE_{i}": "1" for i in range(1, n + 1)}}
                ended = support.run([self.program, "config"], only=only)
                self.assertEqual((ended.stderr, ended.returncode, ended.stdout.count(b"\n")), (b"", 0, 2 * n + 31))

    def test_all_faults_that_settings_can_have(self):
        """A wrong value at 30 keys, and in 21 variables. Four more have an unknown colour."""
        flags = ("foreground", "background", "bold", "dimmed", "italic", "underline", "blink", "reverse", "hidden", "strikethrough")
        keys = ["depth", "indent", "padding", "styled", "continued"]
        keys += [f"characters.{key}" for key in ("down_and_right", "down", "turn_right", "right", "empty")]
        keys += [f"{part}.{key}" for part in ("branch", "leaf") for key in flags]
        path = written(self.folder(), "wrong.toml", "".join(f"{key} = []\n" for key in keys))
        variables = {"PTREE_" + key.upper().replace(".", "_"): "?" for key in ["characters", *keys]}
        ended = support.run([self.program, "config"], only={"PTREE_CONFIG": str(path), **variables})
        lines = ended.stdout.decode().splitlines()
        self.assertEqual((ended.returncode, sum(line.startswith("error: ") for line in lines), len(lines)), (1, 51, 189))
