"""Files of rows, in the format of docs/CONTRIBUTING.md, and rows of whole calls of a program."""
import os
import re
import tempfile
from dataclasses import dataclass, field

from tests.support import TESTS, Case, run

ROWS = TESTS / "rows"
ESCAPES = {"\x1b": "\\e", "\r": "\\r", "\t": "\\t", "\n": "\\n", "\\": "\\\\"}
MEANT = {form[1]: text for text, form in ESCAPES.items()} | {"s": " "}
UNSEEN = re.compile("[\x00-\x1f\\\\\x7f-\xa0\xad\u200b-\u200f\u2028-\u202e\u2060-\u206f\ufeff\udc80-\udcff]")


class Damaged(ValueError):
    """What no row and no file of rows can have."""


def character_form(found):
    c = found[0]
    return ESCAPES.get(c) or (f"\\x{ord(c) - 0xDC00:02x}" if "\udc80" <= c <= "\udcff" else f"\\u{{{ord(c):x}}}")


def line_form(text):
    """The form of a text in one line. A blank at its end is escaped."""
    form = UNSEEN.sub(character_form, text)
    return form[:-1] + "\\s" if form.endswith(" ") else form


def value_form(text):
    """The form of a text after a word. A blank at its front is escaped too."""
    form = line_form(text)
    return "\\s" + form[1:] if form.startswith(" ") else form


def word_form(text):
    """The form of a word of a call. Every blank is escaped, and a backslash is the empty word."""
    return UNSEEN.sub(character_form, text).replace(" ", "\\s") or "\\"


def lines_form(text):
    """The form of a text in lines. A backslash at the end of the last one says that it has no line feed."""
    *lines, last = text.split("\n")
    return "".join(line_form(line) + "\n" for line in lines) + (line_form(last) + "\\\n" if last else "")


def unescaped(form):
    def meant(found):
        code, byte, letter = found.groups()
        if letter and letter not in MEANT:
            raise Damaged("no such escape")
        return MEANT[letter] if letter else chr(int(code, 16)) if code else chr(0xDC00 + int(byte, 16))

    return re.sub(r"\\(?:u\{([0-9a-f]{1,5}|10[0-9a-f]{4})\}|x([89a-f][0-9a-f])|(.))", meant, form)


def parsed(form, meant, form_of):
    """The text of a form. Each text has exactly one form; anything else is refused."""
    text = meant(form)
    if form_of(text) != form:
        raise Damaged("not the form of a text: escape it, as a blank at the end by \\s")
    return text


def parse_value(form):
    return parsed(form, unescaped, value_form)


def parse_word(form):
    return parsed(form, lambda form: "" if form == "\\" else unescaped(form), word_form)


def parse_text(form):
    def meant(form):
        is_open = [(len(line) - len(line.rstrip("\\"))) % 2 for line in form.split("\n")[:-1]]
        return "".join(unescaped(line[:-1]) if no_end else unescaped(line) + "\n" for line, no_end in zip(form.split("\n"), is_open))

    return parsed(form, meant, lines_form)


@dataclass
class Field:
    """A word with its value, or with the lines below it."""

    line: int
    is_answer: bool
    word: str
    body: str


@dataclass
class Row:
    line: int
    name: str
    fields: list = field(default_factory=list)


def read_rows(path):
    """The rows of a file."""
    rows = []
    *lines, last = path.read_bytes().decode().split("\n")
    if last:
        raise Damaged(f"line {len(lines) + 1}: the last line has no line feed")
    for number, line in enumerate(lines, 1):
        fields = rows[-1].fields if rows else None
        if not line or line.startswith("#"):
            continue
        if line.startswith("row "):
            if any(row.name == line[4:] for row in rows):
                raise Damaged(f"line {number}: a second row of this name")
            rows.append(Row(number, line[4:]))
        elif fields is None:
            raise Damaged(f"line {number}: a field before the first row")
        elif not line.startswith("|"):
            word, _, body = line.removeprefix("= ").partition(" ")
            fields.append(Field(number, line.startswith("= "), word, body))
        elif not fields or fields[-1].body and not fields[-1].body.endswith("\n"):
            raise Damaged(f"line {number}: a line below a word that has a value, or below none")
        else:
            fields[-1].body += line[1:] + "\n"
    if not rows:
        raise Damaged("no rows")
    for row in rows:
        if not any(field.is_answer for field in row.fields):
            raise Damaged(f"line {row.line}: nothing is asked")
    return rows


class CallRows(Case):
    """Rows of whole calls of a program."""

    def try_file(self, program, path):
        for row in read_rows(path):
            with self.subTest(row=row.name, line=row.line), tempfile.TemporaryDirectory(prefix="ptree.") as here:
                self.try_row(program, row, here)

    def try_row(self, program, row, here):
        """Makes the calls of a row, one for each group of answers."""
        self.here, self.variables, self.input, self.words, self.file = here, {"HOME": here}, "", None, None
        wanted = {}
        for at, field in enumerate(row.fields):
            if not field.is_answer:
                self.take(field)
                continue
            if field.word in wanted or field.word not in ("status", "output", "error"):
                raise Damaged(f"line {field.line}: no answer of a call, or a second one")
            wanted[field.word] = field.body
            if not row.fields[at + 1 : at + 2] or not row.fields[at + 1].is_answer:
                self.make_call(program, field.line, {"status": "0", "output": "", "error": ""} | wanted)
                wanted = {}

    def take(self, field):
        """Takes a word that is not an answer."""
        is_text = field.word in ("input", "holds", "call")
        value = None if is_text else parse_value(field.body).replace("{here}", self.here)
        if field.word == "input":
            self.input = parse_text(field.body)
        elif field.word == "holds":
            self.write(parse_text(field.body))
        elif field.word == "call":
            self.words = [parse_word(word).replace("{here}", self.here) for word in field.body.split(" ") if field.body]
        elif field.word == "variable" and "=" in value:
            self.variables.update([value.split("=", 1)])
        elif field.word == "no_variable":
            del self.variables[value]
        elif field.word in ("file", "folder"):
            path = os.path.join(self.here, value)
            os.makedirs(path if field.word == "folder" else os.path.dirname(path), exist_ok=True)
            if field.word == "file":
                self.file = path
                self.write("")
        else:
            raise Damaged(f"line {field.line}: no such word")

    def write(self, text):
        with open(self.file, "w", encoding="utf-8", errors="surrogateescape", newline="") as file:
            file.write(text)

    def make_call(self, program, line, wanted):
        if self.words is None:
            raise Damaged(f"line {line}: there is no call")
        ended = run([program, *map(os.fsencode, self.words)], self.input.encode(errors="surrogateescape"), only=self.variables, cwd=self.here)
        found = {"status": str(ended.returncode)}
        for name, text in (("output", ended.stdout), ("error", ended.stderr)):
            found[name] = lines_form(text.decode(errors="surrogateescape"))
        for name in ("error", "output", "status"):
            self.assertEqual(found[name], wanted[name], f"line {line}: {name}")
