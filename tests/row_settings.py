"""The forms of trees, numbers and settings in rows over the library for C."""
import re

from tests.library import c, changed, ptree
from tests.row_files import Damaged, parse_value, value_form

COLORS = ("black", "red", "green", "yellow", "blue", "purple", "cyan", "white")
SETS = ("utf", "ascii-tick", "ascii-plus", "utf-double", "utf-bold", "utf-dashed")


def parse_number(form, limit, trouble="no number of this setting"):
    if not re.fullmatch("[0-9]+", form) or int(form) >= limit:
        raise Damaged(trouble)
    return int(form)


def parse_edge(pair):
    source, _, target = pair.partition(">")
    return parse_number(source, 2**64, "no number of a node"), parse_number(target, 2**64, "no number of a node")


def parse_label(form):
    if not form:
        raise Damaged("an item without a text: a backslash stands for the empty one")
    return "" if form == "\\" else parse_value(form)


def parse_tree(outline):
    """The tree of an outline: two blanks for each level, and the form of the item's text."""
    lines = outline.split("\n")[:-1]
    if not lines:
        raise Damaged("a tree without an item")
    root = ptree.Tree(parse_label(lines[0]))
    path = [root]
    for line in lines[1:]:
        form = line.lstrip(" ")
        level, odd = divmod(len(line) - len(form), 2)
        if odd:
            raise Damaged("an odd number of blanks before an item")
        if not 0 < level <= len(path):
            raise Damaged("no item can follow at that level")
        path[level:] = [path[level - 1].add(parse_label(form))]
    return root


def outline_of(tree):
    return "".join("  " * level + (value_form(node.label) or "\\") + "\n" for level, node in tree.walk())


def yes(answer):
    return "yes" if answer else "no"


# Settings


def parse_color(body):
    word, _, rest = body.partition(" ")
    if body == "none":
        return None
    if word == "name":
        return ptree.NamedColor(parse_value(rest))
    if word == "number":
        return parse_number(rest, 256)
    if word == "bytes":
        parts = rest.split(" ")
        if len(parts) != 3:
            raise Damaged("no three bytes")
        return tuple(parse_number(part, 256) for part in parts)
    if body not in COLORS:
        raise Damaged("no colour: one of the eight, name .., number .. or bytes ..")
    return body


def parse_style(style, key, body):
    """The style with a field set."""
    if key in ("foreground", "background"):
        return changed(style, **{key: parse_color(body)})
    if body not in ("true", "false"):
        raise Damaged("neither true nor false")
    if key not in c.FLAGS:
        raise Damaged("no such word")
    return changed(style, **{key: body == "true"})


def parse_set(name):
    try:
        return ptree.Characters.named(name)
    except ptree.ConfigError:
        raise Damaged("no set of characters has that name") from None


def with_setting(config, word, body):
    """The configuration with a setting, or None if the word names none."""
    part, dot, key = word.partition(".")
    if dot and part in ("branch", "leaf"):
        return changed(config, **{part: parse_style(getattr(config, part), key, body)})
    if dot and part == "characters" and key in c.CHARACTERS:
        return changed(config, characters=changed(config.characters, **{key: parse_value(body)}))
    if word in ("branch", "leaf"):
        if body != "plain":
            raise Damaged("a style is set by its fields, or is plain")
        return changed(config, **{word: ptree.Style()})
    if word == "depth":
        depth = parse_number(body, 2**32)
        return changed(config, depth=None if depth == c.ALL_LEVELS else depth)
    if word in ("indent", "padding"):
        return changed(config, **{word: parse_number(body, 2**64)})
    if word == "styled":
        if body not in ("never", "always", "tty"):
            raise Damaged("neither never, always nor tty")
        return changed(config, styled=body)
    if word == "characters":
        return changed(config, characters=parse_set(body))
    return changed(config, continued=parse_value(body)) if word == "continued" else None


def color_form(color):
    if isinstance(color, ptree.NamedColor):
        return f"name {value_form(color.name)}".rstrip(" ")
    if isinstance(color, str):
        return color
    return f"number {color}" if isinstance(color, int) else "bytes {} {} {}".format(*color)


def spelled(config):
    """The settings that differ from the default, one a line. Characters are those of the set that is nearest, and what differs from it."""
    default, found = ptree.Config(), []
    sets = {name: ptree.Characters.named(name) for name in SETS}
    turn = config.characters.turn_right
    is_near = [lambda name: sets[name] == config.characters, lambda name: sets[name].turn_right == turn, lambda name: True]
    name = next(name for is_so in is_near for name in SETS if is_so(name))
    for word in ("depth", "indent", "padding", "styled"):
        if getattr(config, word) != getattr(default, word):
            found.append((word, getattr(config, word)))
    if name != "utf":
        found.append(("characters", name))
    for key in c.CHARACTERS:
        if getattr(config.characters, key) != getattr(sets[name], key):
            found.append((f"characters.{key}", value_form(getattr(config.characters, key))))
    for part in ("branch", "leaf"):
        style, usual = getattr(config, part), getattr(default, part)
        for key in ("foreground", "background"):
            if getattr(style, key) is not None:
                found.append((f"{part}.{key}", color_form(getattr(style, key))))
        for key in c.FLAGS:
            if getattr(style, key) != getattr(usual, key):
                found.append((f"{part}.{key}", str(getattr(style, key)).lower()))
    if config.continued != default.continued:
        found.append(("continued", value_form(config.continued)))
    return "".join(f"{word} {value}".rstrip(" ") + "\n" for word, value in found)


def in_toml(config):
    """A file that sets what rows about a `Value`, or about the lines that can follow a text, set."""
    flags = [f"{flag} = true" for flag in c.FLAGS if getattr(config.leaf, flag)]
    depth = [f"depth = {config.depth}"] if config.depth is not None else []
    made = "\n".join([*depth, f'indent = {config.indent}\nstyled = "{config.styled}"\n[leaf]', *flags, ""])
    if changed(config, depth=None, indent=3, styled="tty", leaf=changed(config.leaf, **dict.fromkeys(c.FLAGS, False))) != ptree.Config():
        raise Damaged("a setting that rows of this kind have not")
    return made
