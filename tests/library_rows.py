"""What rows over the library for C say and ask: what is drawn, read, refused and loaded.

Each tree is drawn twice: as an outline, by code of the library for C, and as the graph that has its walks, by the calls of `ptree`. The calls
that C has not, those of a builder, of a graph's neighbours, also where it is turned round, of a `Value`, and of the lines that can follow a
text, are made by the program of trials/rows, by `rt try`.
"""
import json

from tests import library as calls
from tests.library import c, changed, ptree
from tests.row_files import Damaged, lines_form, parse_text, parse_value, value_form
from tests.row_settings import SETS, in_toml, outline_of, parse_edge, parse_number, parse_tree, spelled, with_setting, yes

# The edits of a line: what is made of it and of a text.
EDITS = {
    "lose": lambda line, text: "",
    "twice": lambda line, text: f"{line}\n{line}\n",
    "ahead": lambda line, text: f"{text}{line}\n",
    "behind": lambda line, text: f"{line}{text}\n",
}


def pieces(config):
    """The four pieces, in the order of `Indent`: each is a part of the entry of an empty text."""
    config = changed(config, styled="never")
    regular, last = calls.entry(config, 1, 0, [0]), calls.entry(config, 1, 1, [0])
    below, below_last = calls.entry(config, 2, 0, [0, 0]), calls.entry(config, 2, 1, [1, 0])
    return [regular, below[: len(below) - len(regular)], last, below_last[: len(below_last) - len(last)]]


def reads_back(tree, config):
    return ptree.read(ptree.draw(tree, config), config) == tree


class Row:
    """What a row has set, and the answers that rows of both kinds ask for. `keep_WORD` takes an input, `ask_WORD` answers."""

    def __init__(self, program):
        self.config, self.tree, self.program = ptree.Config(), None, program
        self.nodes, self.edges, self.start, self.mark, self.is_taken = [], [], 0, " (*)", True

    def take(self, line, word, body):
        """The answer to a word, or None if it is an input."""
        if hasattr(self, "ask_" + word):
            return getattr(self, "ask_" + word)()
        if hasattr(self, "keep_" + word):
            getattr(self, "keep_" + word)(body)
            return None
        config = with_setting(self.config, word, body)
        if config is None:
            raise Damaged("no such word")
        self.config = config
        return None

    def given_tree(self):
        if self.tree is None:
            raise Damaged("there is no tree")
        return self.tree

    def drawn(self, config):
        """The drawing of the tree: as an outline, and as a graph. A refusal for memory leaves nothing in `out`."""
        nodes, edges, path = [], [], []
        for level, node in self.given_tree().walk():
            if level:
                edges.append((path[level - 1], len(nodes)))
            path[level:] = [len(nodes)]
            nodes.append(node.label)
        edges.reverse()  # (the newest edge is drawn first)
        found = []
        for draw in (lambda: calls.draw(self.tree, config), lambda: calls.graph(nodes, edges, 0, config)):
            try:
                found.append(lines_form(draw()))
            except MemoryError:
                found.append("out of memory, behind 0 bytes")
        if found[0] != found[1]:
            raise Damaged(f"a tree and the graph of its walks are drawn otherwise: {found}")
        return found[0]

    def keep_tree(self, body):
        self.tree = parse_tree(body)

    def keep_node(self, body):
        self.nodes.append(parse_value(body))

    def keep_start(self, body):
        self.start = parse_number(body, 2**64, "no number of a node")

    def keep_mark(self, body):
        self.mark = parse_value(body)

    def keep_reversed(self, body):
        self.edges = [(target, source) for source, target in self.edges]

    def keep_edges(self, body):
        """The edges are accepted if a drawing with them is not refused for them."""
        pairs = list(map(parse_edge, body.split()))
        try:
            calls.graph(self.nodes, self.edges + pairs, 0, ptree.Config(depth=0))
            self.is_taken, self.edges = True, self.edges + pairs
        except ptree.PtreeError as error:
            if error.number != c.EDGE:
                raise
            self.is_taken = False

    def shown(self, config, is_terminal):
        """The configuration that draws into memory what goes to standard output."""
        return changed(config, styled="always" if calls.is_styled(config, True, is_terminal) else "never")


class Trees(Row):
    """Rows of trees: drawings, what is read, pieces, painting, builders and graphs."""

    def __init__(self, program):
        super().__init__(program)
        self.text = self.edited = self.word = ""
        self.next = []
        self.is_about_builder = False
        program.call("root", "")
        program.call("nodes", "")

    def keep_text(self, body):
        self.text = self.edited = parse_text(body)

    def keep_next(self, body):
        self.next = parse_text(body).removesuffix("\n").split("\n")

    def keep_whole(self, body):
        self.edited = self.text

    def keep_cut_end(self, body):
        self.edited = self.edited.removesuffix("\n")

    def keep_word(self, body):
        self.word = parse_value(body)

    def keep_program(self, body):
        if body not in ptree.PRESETS[1:]:
            raise Damaged("no program of this name")
        self.config = ptree.Config.preset(body)

    def take(self, line, word, body):
        if word in EDITS:
            return self.edit(EDITS[word], body)
        if word == "leaf" and body != "plain" or word in ("root", "begin", "end", "at"):
            return self.build(word, body)
        if word in ("built", "level") or word == "outcome" and self.is_about_builder:
            return self.ask_builder(line, word)
        if word == "neighbors":
            return self.program.ask(line, word, str(self.start)).removeprefix(" ")
        if word == "follow":
            return self.ask_following(line)
        return super().take(line, word, body)

    def ask_following(self, line):
        self.program.call("settings", in_toml(self.config))
        self.program.call("text", self.edited)
        for text in self.next:
            self.program.call("next", text)
        return self.program.ask(line, "follow").removeprefix(" ")

    def edit(self, edit, body):
        number, _, form = body.partition(" ")
        if number != "all":
            number = parse_number(number, 2**64, "an edit without the number of its line")
        text, is_edited, lines = parse_value(form), False, self.edited.split("\n")
        if not lines[-1]:
            lines.pop()
        for at, line in enumerate(lines):
            is_here = number in ("all", at + 1)
            is_edited |= is_here
            lines[at] = edit(line, text) if is_here else line + "\n"
        if not is_edited:
            raise Damaged("an edit of a line that isn't there")
        self.edited = "".join(lines)

    def build(self, word, body):
        """Makes a call of a builder."""
        level, blank, form = body.partition(" ") if word == "at" else ("", "", body)
        if word == "at":
            parse_number(level if blank else "", 2**32, "no number of a level")
            self.is_about_builder = True
        self.program.call(word, level + blank + parse_value(form))

    def ask_builder(self, line, word):
        """Asks the builder. The tree that it builds is used from then on."""
        found = self.program.ask(line, word)
        if word != "built":
            return found
        tree = ptree.Tree("")
        path = [tree]
        while found:
            level, size, found = found.split(" ", 2)
            text = found.encode()[: int(size)].decode()
            path[int(level) + 1 :] = [path[int(level)].add(text)]
            found = found[len(text) + 1 :]
        self.tree = tree.children[0]
        return outline_of(self.tree)

    def ask_outcome(self):
        return "taken" if self.is_taken else "refused"

    def keep_node(self, body):
        super().keep_node(body)
        self.program.call("node", self.nodes[-1])

    def keep_edges(self, body):
        self.is_about_builder = False
        super().keep_edges(body)
        self.program.call("edges", body)

    def keep_reversed(self, body):
        super().keep_reversed(body)
        self.program.call("reversed", "")

    def ask_drawn(self):
        return self.drawn(self.config)

    ask_returned = ask_drawn

    def ask_on_terminal(self):
        return self.drawn(self.shown(self.config, True))

    def ask_elsewhere(self):
        return self.drawn(self.shown(self.config, False))

    def ask_read(self):
        """The outline of what is read. It is drawn as the text, and is the tree from then on."""
        try:
            tree = ptree.read(self.edited, self.config)
        except ptree.ConfigError:
            return "pieces not readable"
        except ptree.ReadError as error:
            return f"wrong at line {error.line}" if error.line else "ends too early"
        if ptree.draw(tree, self.config) != self.edited:
            raise Damaged("what is read is drawn otherwise")
        self.tree = tree
        return outline_of(tree)

    def ask_is_drawing(self):
        return yes(self.ask_read().endswith("\n"))

    def ask_fronts(self):
        """The lengths in bytes of the prefixes that can be read."""
        found = []
        for end in range(len(self.edited) + 1):
            try:
                ptree.read(self.edited[:end], self.config)
                found.append(str(len(self.edited[:end].encode())))
            except (ptree.ReadError, ptree.ConfigError):
                pass
        return " ".join(found)

    def ask_items(self):
        return str(sum(1 for _ in self.given_tree().walk()))

    def ask_reads_back(self):
        if not calls.is_readable(self.config):
            return "pieces not readable"
        try:
            return yes(reads_back(self.given_tree(), self.config))
        except ptree.ReadError:
            return "no drawing"

    def ask_reads_back_in_all(self):
        """Under each set, and under one whose pieces of a kind are equal, plain and styled."""
        sets = [(name, ptree.Characters.named(name)) for name in sorted(SETS)]
        sets.append(("equal pieces", changed(ptree.Characters.named("ascii-plus"), down=" ")))
        for name, characters in sets:
            for styled in ("never", "always"):
                config = ptree.Config(leaf=ptree.Style(bold=True), characters=characters, styled=styled)
                if not calls.is_readable(config) or not reads_back(self.given_tree(), config):
                    return name
        return "yes"

    def ask_pieces(self):
        try:
            return lines_form("".join(piece + "\n" for piece in pieces(self.config)))
        except MemoryError:
            return "out of memory"

    def ask_readable(self):
        return yes(calls.is_readable(self.config))

    def ask_readable_pieces(self):
        """Of two markers that no piece begins with, one at least decides nothing."""
        return yes(any(calls.is_readable(changed(self.config, continued=marker)) for marker in ("\x01", "\x02")))

    def ask_readable_grid(self):
        rows = (("x" if calls.is_readable(changed(self.config, indent=i, padding=p)) else "." for p in range(5)) for i in range(6))
        return "".join("".join(row) + "\n" for row in rows)

    def ask_is_set(self):
        try:
            ptree.Config.load(json.dumps({"characters": self.word}), "json")
            return "yes"
        except ptree.ConfigError:
            return "no"

    def ask_painted(self):
        return value_form(ptree.paint(self.word, self.config.leaf))

    def ask_painted_parts(self):
        return lines_form("".join(ptree.paint(self.word, style) + "\n" for style in (self.config.branch, self.config.leaf)))

    def ask_styled_where(self):
        outputs = ((True, "standard output"), (False, "other output"))
        ends = ((True, "a terminal"), (False, "no terminal"))
        found = [f"{name}, {end}\n" for is_out, name in outputs for is_end, end in ends if calls.is_styled(self.config, is_out, is_end)]
        return "".join(found)

    def ask_graph(self):
        return lines_form(calls.graph(self.nodes, self.edges, self.start, self.config))

    def ask_graph_once(self):
        return lines_form(calls.graph(self.nodes, self.edges, self.start, self.config, self.mark))


# The beginning of the text of a fault, what follows its name, and its form.
FAULTS = (
    ("the file couldn't be read", "", "reading"),
    ("the file has a syntax error", "", "syntax"),
    ("the file's key ", " is not a table", "table "),
    ("the file's key ", " isn't ", "key "),
    ("the variable ", " isn't ", "variable "),
)


def fault_form(text):
    for start, end, form in FAULTS:
        if text.startswith(start) and end in text:
            return f"fault {form}" + (text[len(start) :].partition(end)[0] if end else "")
    raise Damaged(f"the text of no fault: {text}")


class Sources(Row):
    """Rows of sources: configurations that are loaded, drawings under them, and documents."""

    def __init__(self, program):
        super().__init__(program)
        self.format, self.document, self.label = "json", "", ""
        self.file, self.number, self.variables = "", c.NO_FILE, []

    def set_document(self, name, body):
        self.format, self.document = name, parse_text(body)

    def set_file(self, number, body):
        self.file, self.number = parse_text(body), number

    def keep_json(self, body):
        self.set_document("json", body)

    def keep_toml(self, body):
        self.set_document("toml", body)

    def keep_label(self, body):
        self.label = parse_value(body)

    def keep_json_file(self, body):
        self.set_file(c.JSON, body)

    def keep_toml_file(self, body):
        self.set_file(c.TOML, body)

    def keep_no_file(self, body):
        self.set_file(c.NO_FILE, "")

    def keep_unreadable_file(self, body):
        self.set_file(calls.UNREADABLE, "")

    def keep_variable(self, body):
        name, equals, value = parse_value(body).partition("=")
        if not equals:
            raise Damaged("a variable without its =")
        self.variables.append((name, value))

    def keep_no_variables(self, body):
        self.variables = []

    def keep_edges(self, body):
        super().keep_edges(body)
        if not self.is_taken:
            raise Damaged("an edge of a node that isn't there")

    def given(self):
        return calls.sources(self.file, self.number, self.variables)

    def meant(self):
        """The configuration that the sources mean: the default where there is a fault."""
        try:
            return calls.load(self.given())
        except ptree.ConfigError:
            return ptree.Config()

    def ask_loaded(self):
        found = calls.faults(self.given())
        try:
            config = calls.load(self.given())
        except ptree.ConfigError:
            return fault_form(found[0]) if found else "no fault"
        return spelled(config) if not found else "a fault"

    def ask_faults(self):
        return "".join(fault_form(text) + "\n" for text in calls.faults(self.given()))

    def ask_fault_text(self):
        return (calls.faults(self.given()) or ["none"])[0]

    def ask_syntax_line(self):
        try:
            calls.load(calls.sources(self.file, self.number, []))
        except ptree.ConfigError as error:
            return str(error.line) if error.line else "none"
        return "none"

    def ask_painted(self):
        return value_form(ptree.paint("x", self.meant().leaf))

    def ask_written(self):
        return self.drawn(self.meant())

    def ask_on_terminal(self):
        return self.drawn(self.shown(self.meant(), True))

    def ask_elsewhere(self):
        return self.drawn(self.shown(self.meant(), False))

    def graph(self, is_terminal, mark=None):
        return lines_form(calls.graph(self.nodes, self.edges, self.start, self.shown(self.meant(), is_terminal), mark))

    def ask_graph_elsewhere(self):
        return self.graph(False)

    def ask_graph_on_terminal(self):
        return self.graph(True)

    def ask_graph_once_elsewhere(self):
        return self.graph(False, self.mark)

    def ask_graph_once_on_terminal(self):
        return self.graph(True, self.mark)

    def document_under(self, config):
        """The drawing of the document, or the word for why it is refused."""
        try:
            draw = ptree.draw_json if self.format == "json" else ptree.draw_toml
            return lines_form(draw(self.document, self.label, config))
        except ptree.DocumentError as error:
            return {c.SYNTAX: "syntax", c.FLOAT: "float", c.DATE: "date"}[error.number]

    def ask_document(self):
        return self.document_under(self.config)

    def ask_document_on_terminal(self):
        return self.document_under(self.shown(self.config, True))

    def ask_document_under_sources(self):
        return self.document_under(self.meant())

    def take(self, line, word, body):
        if word not in ("value", "labelled_value"):
            return super().take(line, word, body)
        self.program.call("settings", in_toml(self.config))
        self.program.call("label", self.label)
        self.program.call(self.format, self.document)
        found = self.program.ask(line, word)
        return found if found in ("syntax", "float", "date") else lines_form(found)
