"""Reads the definitions of a file `specs/*.antt`: where each stands, and which names it names, by the rules of binders
(λ, let, do, patterns, the fields of records), so that a variable is never taken for a definition of the same name."""

import re
from typing import NamedTuple

TOKEN = re.compile(r'"[^"]*"|[(){},;]|[^\s(){},;"]+')
OPENING, CLOSING = "({", ")}"
MARKS = ("pub", "unfoldable", "abbrev", "pattern", "axiom")
# What is no name.
RESERVED = frozenset(
    [*"data record deriving module where use mod open as unfold unfolding elim let in do Type".split(), *"λ→×↦=|:[]←._"]
)
NUMERAL = re.compile(r"\d[\dxob_a-fA-F]*$")
LINE_OF_USE = re.compile(r"\s*(pub |ghost )?use ")
WORD = re.compile(r"[^\W\d]")


class Token(NamedTuple):
    text: str
    line: int
    column: int
    is_first: bool


class Name(NamedTuple):
    """A name as it is written, its parts between dots, and the line."""

    parts: tuple
    line: int


class Use(NamedTuple):
    """A line `use`: the path, what it brings as pairs of a name and what it is called here, and whether it passes that
    on. A whole module has no names."""

    path: str
    names: tuple
    alias: str
    is_public: bool


class Item(NamedTuple):
    """A definition with the lines of its comment; its constructors or fields; the tokens that bind parameters of the
    module round it; and its own tokens."""

    name: str
    kind: str
    line: int
    column: int
    first: int
    last: int
    members: tuple
    parameters: tuple
    section: tuple
    tokens: tuple


def tokens_of(lines, first=1):
    """The tokens of lines, without comments."""
    found = []
    for number, line in enumerate(lines, first):
        is_first = True
        for match in TOKEN.finditer(line):
            if match[0].startswith("--"):
                break
            found.append(Token(match[0], number, match.start(), is_first))
            is_first = False
    return found


def is_word(text):
    return bool(WORD.match(text)) and text not in RESERVED


def indent(line):
    return len(line) - len(line.lstrip())


def use_of(text):
    """What a line `use` says."""
    body = text.strip().rstrip(";")
    is_public = body.startswith("pub ")
    body = body.split("use ", 1)[1].strip()
    path, brace, names = body.partition(".{")
    if brace:
        pairs = [it.strip().split(" as ") for it in names.rstrip("} ").split(",")]
        return Use(path, tuple((it[0].strip(), it[-1].strip()) for it in pairs), "", is_public)
    path, _, alias = body.partition(" as ")
    return Use(path.strip(), (), alias.strip() or path.strip().split(".")[-1], is_public)


def uses_of(lines):
    """The lines `use` of a file; one may go on till its brace closes."""
    found, at = [], 0
    while at < len(lines):
        if LINE_OF_USE.match(lines[at]):
            text = lines[at]
            while text.count("{") > text.count("}"):
                at += 1
                text += " " + lines[at].strip()
            found.append(use_of(text))
        at += 1
    return found


class File:
    """The definitions and lines `use` of a file."""

    def __init__(self, text):
        self.lines = text.split("\n")
        self.uses = uses_of(self.lines)
        self.items = []
        self.read(1, len(self.lines), 0, (), ())

    def heads(self, first, last, column):
        """The numbers of the lines that stand at this column, without comments."""
        for number in range(first, last + 1):
            line = self.lines[number - 1]
            if line.strip() and indent(line) == column and not line.strip().startswith("--"):
                yield number

    def read(self, first, last, column, section, parameters):
        """Reads the definitions between two lines that stand at a column."""
        starts = [it for it in self.heads(first, last, column) if self.is_start(it)]
        for number, behind in zip(starts, [*starts[1:], last + 1]):
            line = self.lines[number - 1].strip()
            if line.startswith("module "):
                self.section(number, self.end(number, behind - 1), column, section, parameters)
            elif not LINE_OF_USE.match(line) and not re.match(r"(pub )?mod |infix", line):
                self.item(number, self.end(number, behind - 1), section, parameters)

    def is_start(self, number):
        """Whether a line begins something, and is no clause of what stands before."""
        words = [it.text for it in tokens_of([self.lines[number - 1]])]
        if words[0] in (*MARKS, "use", "mod", "module", "record", "data", "infixl", "infixr", "infix"):
            return True
        return len(words) > 1 and (words[1] == ":" or (words[1] == "{" and ":" in words and "=" not in words))

    def end(self, first, last):
        """The last line that isn't blank and no comment of what comes behind."""
        column = indent(self.lines[first - 1])
        while last > first:
            line = self.lines[last - 1]
            text = line.strip()
            if text and not (indent(line) <= column and (text.startswith("--") or text.startswith("infix"))):
                break
            last -= 1
        return last

    def section(self, number, last, column, section, parameters):
        """Reads a module with parameters, and what stands in it."""
        start = number
        while not self.lines[number - 1].rstrip().endswith("where"):
            number += 1
        inside = tuple(tokens_of(self.lines[start - 1 : number], start))[2:-1]
        inner = next(indent(self.lines[it - 1]) for it in range(number + 1, last + 1) if self.lines[it - 1].strip())
        self.read(number + 1, last, inner, (*section, (start, number)), (*parameters, *inside))

    def item(self, number, last, section, parameters):
        tokens = tokens_of(self.lines[number - 1 : last], number)
        start = next(at for at, it in enumerate(tokens) if it.text not in MARKS)
        kind = tokens[start].text if tokens[start].text in ("record", "data") else "definition"
        start += kind != "definition"
        members = tuple(members_of(tokens)) if kind != "definition" else ()
        first, column = self.beginning(number), tokens[0].column
        name = tokens[start].text
        self.items.append(
            Item(name, kind, number, column, first, last, members, parameters, section, tuple(tokens[start:]))
        )

    def beginning(self, number):
        """The first line of the comment of a definition, and of its fixity."""
        column = indent(self.lines[number - 1])
        while number > 1:
            text = self.lines[number - 2]
            is_said = text.strip().startswith(("-- ", "infix")) and not text.strip().startswith("-- ----")
            if not is_said or indent(text) != column:
                break
            number -= 1
        return number


def members_of(tokens):
    """The names of the fields of a record, or of the constructors of a data type."""
    return [name for group, _ in fields_of(tokens) for name in group]


def fields_of(tokens):
    """The fields or constructors of a declaration: the names of each, and the tokens of the type."""
    at = next((at for at, it in enumerate(tokens) if it.text == "where"), len(tokens))
    body = tokens[at + 1 :]
    if not body:
        return
    column = min(it.column for it in body if it.is_first)
    starts = [at for at, it in enumerate(body) if it.is_first and it.column == column]
    for start, end in zip(starts, [*starts[1:], len(body)]):
        entry = body[start:end]
        colon = next(at for at, it in enumerate(entry) if it.text == ":")
        yield [it.text for it in entry[:colon] if it.text not in MARKS], entry[colon + 1 :]
