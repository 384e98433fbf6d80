"""Reads the sources of the rows of `sqzlook`: the cells that they add, and their templates.

A row has named cells, and its templates are strings that name cells in braces. A template that
names another cell compiles: the program prints the name in its braces."""

import functools
import re
import typing

from tests.harness.programs import ROOT

CRATES = ROOT / "crates"
STRING = re.compile(r'"((?:[^"\\]|\\.)*)"', re.DOTALL)
# A comment, a raw string, a string or a character.
TOKEN = re.compile(r"""//[^\n]*|\br(#+)".*?"\1|"(?:[^"\\]|\\.)*"|'(?:[^'\\]|\\.)'""", re.DOTALL)
# Macros whose strings have braces of their own.
MACRO = re.compile(r"\b(?:format|write|writeln|panic)!\s*\(")
# A cell in a template, in one of its forms, and the first argument of `part_if`, which is a cell.
NAMED = re.compile(r"\{([a-z_]+)(?:/[^{}]+|(?::[<>](?:\d+|\*))?(?:#[a-z]+)?)\}")
TESTED = re.compile(r'\.part_if\(\s*"([a-z_]+)"')
# The branch of a form of the output.
BRANCH = re.compile(r"\bif\b[^{};]*?(!?)\b(?:out|self)\.is_json\(\)[^{};=>]*\{")
# The methods that take the name of a cell; those for lists and objects of JSON; and those that add
# a cell to the text form alone.
METHOD = re.compile(r"pub fn (\w+)\(\s*&mut self,\s*name: &'static str")
JSON_ALONE = {"begin_list", "begin_object", "words", "words_or_null"}
TEXT_ALONE = {"note", "note_word", "count", "indent", "difference"}
# A call of another function with the name of a cell.
HELPER = re.compile(r'\badd_\w+\(\s*(?:\w+,\s*)*"([a-z_]+)"')
# The crates and the functions that add several cells to rows of other crates.
GROUPS = {
    "sqz_look_view": (
        "object",
        "slot",
        "no_slot",
        "add_method_header",
        "add_first",
        "add_step",
    ),
}


class Source(typing.NamedTuple):
    """What a source has: its templates, the cells that they name, the cells that it adds, and those
    of them that the text form alone has."""

    templates: list
    named: set
    added: set
    text_alone: set


def plain(text):
    """A source without comments, characters and raw strings, and without macros."""
    text = TOKEN.sub(lambda it: it[0] if it[0].startswith('"') else " ", text)
    while found := MACRO.search(text):
        text = text[: found.start()] + text[end_of(text, found.end()) :]
    return text


def end_of(text, at):
    """The place after the bracket that closes the one before a place, or the end."""
    depth = 1
    while depth and at < len(text):
        if text[at] == '"':
            at = STRING.match(text, at).end()
            continue
        depth += (text[at] in "([{") - (text[at] in ")]}")
        at += 1
    return at


def text_branches(text):
    """The parts of a plain source that the text form alone runs."""
    for found in BRANCH.finditer(text):
        end = end_of(text, found.end())
        body = text[found.end() : end]
        if found[1]:
            yield body
        elif other := re.match(r"\s*else\s*\{", text[end:]):
            start = end + other.end()
            yield text[start : end_of(text, start)]
        elif body.split() == ["return;", "}"]:
            yield text[end : end_of(text, end)]


@functools.cache
def row_methods():
    """The methods of rows that take the name of a cell."""
    texts = texts_of("sqz_look_view").values()
    return frozenset(name for text in texts for name in METHOD.findall(text))


def adders():
    """The methods of rows that add a cell of the text form."""
    return row_methods() - JSON_ALONE


def cells_in(text, methods, receiver="(?:out|self)"):
    """The cells that a plain source adds by these methods."""
    names = "|".join(sorted(methods))
    return set(re.findall(rf'\b{receiver}\.(?:{names})\(\s*"([a-z_]+)"', text))


def source_of(text):
    """What a source has."""
    text = plain(text)
    templates = [it for it in STRING.findall(text) if NAMED.search(it)]
    named = {name for it in templates for name in NAMED.findall(it)}
    alone = cells_in(text, TEXT_ALONE, "out")
    for part in text_branches(text):
        alone |= cells_in(part, adders(), "out")
    added = cells_in(text, adders()) | set(HELPER.findall(text))
    return Source(templates, named | set(TESTED.findall(text)), added, alone)


@functools.cache
def groups():
    """The cells that each function of `GROUPS` adds, and what its calls look like."""
    found = {}
    for crate, functions in GROUPS.items():
        text = "\n".join(plain(it) for it in texts_of(crate).values())
        for name in functions:
            body = re.search(rf"(?ms)^( *)pub fn {name}\b.*?^\1\}}", text)[0]
            body = until_text_ends(body)
            found[name] = cells_in(body, adders()) | group_cells(body, found)
    return found


def until_text_ends(body):
    """The part of a function that the text form runs, if it returns before the end."""
    for found in BRANCH.finditer(body):
        if found[1] and body[found.end() :].split()[0] == "return":
            return body[: end_of(body, found.end())]
    return body


def group_cells(text, known):
    """The cells that a plain source adds by calls of functions for several cells."""
    found = set()
    for name, cells in known.items():
        called = name if name.startswith("add_") else rf"(?:out|self)\.{name}"
        if re.search(rf"(?<!fn )\b{called}\(", text):
            found |= cells
    return found


@functools.cache
def texts_of(crate):
    """The sources of a crate, by path."""
    paths = sorted((CRATES / crate / "src").rglob("*.rt"))
    return {path.relative_to(CRATES): path.read_text(encoding="utf-8") for path in paths}


def row_crates():
    """The crates of `sqzlook` that print rows."""
    return sorted(path.name for path in CRATES.glob("sqz_look*"))
