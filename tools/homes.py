"""Finds the homes of imported names: the modules that define them, whichever crates hand them on. A
part of ./wrong-bodies and docs/compare-definitions."""

import functools
import os
import re

TOP = os.path.dirname(os.path.dirname(os.path.abspath(__file__)))
CRATES = f"{TOP}/crates"
COMMENT = re.compile(r"^\s*(?://|--).*\n", re.M)
# An import of Rust or of antt: its words, the path, the names in braces, and the name for a module.
SPEC_USE = re.compile(r"^[ \t]*((?:pub |ghost |unfoldable )*)use (Rattle\.gx_\w+(?:\.\w+)*)(\.\{[^}]*\})?(?: as ([^\s;]+))?;?[ \t]*\n", re.M)
CODE_USE = re.compile(r"^[ \t]*((?:pub )?)use (gx_\w+(?:::\w+)*)(::\{[^}]*\})?(?: as (\w+))?;[ \t]*\n", re.M)
SPEC_PATH = re.compile(r"\bRattle\.gx_\w+(?:\.\w+)+")
CODE_PATH = re.compile(r"(?<![\w.:])gx_\w+(?:::\w+)+")
# What a root says of the files that hand on.
HANDING = re.compile(r"^pub mod (?:below;|Handed)\n", re.M)


@functools.cache
def read(path):
    with open(path, encoding="utf-8") as it:
        return it.read()


@functools.cache
def file_of(module):
    """The file of a module: of src/ by a path with ::, of specs/ and proofs/ by one with dots."""
    crate, *rest = module.split("::") if "::" in module else module.removeprefix("Rattle.").split(".")
    if module.startswith("Rattle."):
        found = [f"{CRATES}/{crate}/{'/'.join(rest)}.antt", f"{CRATES}/{crate}/{'/'.join(rest)}/Lib.antt"]
    else:
        found = [f"{CRATES}/{crate}/src/{'/'.join(rest or ['lib'])}.rt", f"{CRATES}/{crate}/src/main.rt"]
    return next((it for it in found if os.path.isfile(it)), None)


def names_in(braces):
    """The names in braces, each with the name that it gets."""
    names = (it.strip().partition(" as ") for it in re.sub(r"^[.:]*\{|\}$", "", braces).split(","))
    return [(name, alias or name) for name, _, alias in names if name]


@functools.cache
def handed_on(module):
    """What a module hands on: for each name of its own the module of a crate of the repository and the
    name there, or a module alone."""
    file, found = file_of(module), {}
    if not file:
        return found
    text = COMMENT.sub("", read(file))
    if file.endswith(".antt"):
        uses, gap = SPEC_USE.findall(text), "."
    else:
        crate = module.split("::")[0]
        own = re.sub(r"^pub use (?!gx_|std\b|crate\b|super\b|self\b)(?=\w+::)", f"pub use {crate}::", text, flags=re.M)
        uses, gap = CODE_USE.findall(own), "::"
    for words, path, braces, alias in uses:
        if "pub" not in words:
            continue
        if braces:
            found.update({name: (path, own) for own, name in names_in(braces)})
        elif gap == "." or path.startswith("gx_") and gap not in path:
            found[alias or path.rpartition(gap)[2]] = (path, None)
        else:
            front, _, last = path.rpartition(gap)
            found[alias or last] = (front, last)
    return found


@functools.cache
def home(path):
    """The path of a module or an item, by the module that defines it."""
    gap = "." if path.startswith("Rattle.") else "::"
    front, _, last = path.rpartition(gap)
    if not front or front == "Rattle":
        return path
    front = home(front)
    module, name = handed_on(front).get(last, (None, None))
    if module is None or f"{module}{gap}{name}" == f"{front}{gap}{last}":
        return f"{front}{gap}{last}"
    return home(f"{module}{gap}{name}" if name else module)


def use_lines(it):
    """The names that an import brings, each by its home."""
    words, path, braces, alias = it.groups()
    gap, words = "." if path.startswith("Rattle.") else "::", words.replace("pub ", "")
    if not braces:
        own, given = home(path), alias or path.rpartition(gap)[2]
        return [f"{words}use {own}" + f" as {given}" * (own.rpartition(gap)[2] != given)]
    found = []
    for name, given in names_in(braces):
        own = home(f"{home(path)}{gap}{name}")
        found.append(f"{words}use {own}" + f" as {given}" * (own.rpartition(gap)[2] != given))
    return found


def at_home(text):
    """The text of a file with each name at its home: imports that stand one below the other are sorted,
    one name a line, and a path in the text goes to the module that defines what it names."""
    text = HANDING.sub("", COMMENT.sub("", text))
    uses = sorted([*SPEC_USE.finditer(text), *CODE_USE.finditer(text)], key=lambda it: it.start())
    parts, lines, at = [], set(), 0
    for it in uses:
        between = text[at : it.start()]
        if between.strip() and lines:
            parts += ["\n".join(sorted(lines)), "\n"]
            lines = set()
        parts += [paths_at_home(between)] if between.strip() else []
        lines |= {*use_lines(it)}
        at = it.end()
    parts += ["\n".join(sorted(lines)), "\n"] if lines else []
    return "".join([*parts, paths_at_home(text[at:])])


def paths_at_home(text):
    """A text without imports, or an edit, with each path at its home."""
    text = SPEC_PATH.sub(lambda it: home(it[0]), text)
    return CODE_PATH.sub(lambda it: code_home(it[0]), text)


def code_home(path):
    if re.match(r"\w+::(?:specs|proofs)::", path):
        return home("Rattle." + path.replace("::", ".")).removeprefix("Rattle.").replace(".", "::")
    return home(path)


def only_hands_on(path):
    """Whether a file has nothing but names that it hands on."""
    text = HANDING.sub("", COMMENT.sub("", read(path)))
    rest = SPEC_USE.sub("", CODE_USE.sub("", text))
    return not rest.strip() and not re.search(r"^ *(?:ghost )?use ", text, re.M)
