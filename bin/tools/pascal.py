"""The tokens of a Pascal source and its statements: as much of its form as is needed to put something beside a place.

Sources are read here as text of one character a byte, so that a place in the text is one of its bytes. What pcom would
refuse may be read wrongly, but never for ever."""

import re
from typing import NamedTuple

ENCODING = "latin-1"
TOKEN = re.compile(
    r"(?P<blank>\s+|(?:\{|\(\*).*?(?:\}|\*\)))|(?P<string>'(?:[^'\n]|'')*')|(?P<number>\d+)|(?P<word>[a-z][a-z0-9]*)"
    r"|(?P<sign>:=|<>|<=|>=|\.\.|\(\.|\.\)|.)",
    re.I | re.S,
)
# Signs that are written in two ways.
SAME = {"(.": "[", ".)": "]", "@": "^"}
RESERVED = frozenset(
    "and array begin case const div do downto else end file for function goto if in label mod nil not of or packed"
    " procedure program record repeat set then to type until var while with".split()
)
REQUIRED = frozenset(
    "abs boolean char chr eof eoln false input integer maxint odd ord output pred read readln sqr succ true write"
    " writeln".split()
)
# More levels than a program may have.
MOST_LEVELS = 200
# What ends a statement that has no end of its own.
BEHIND = (";", "end", "else", "until", "")


def place_of(text, line, column):
    """Where a line and a column, both from 1, are in a text."""
    start = 0
    for _ in range(line - 1):
        start = text.index("\n", start) + 1
    return start + column - 1


class Token(NamedTuple):
    """A token in small letters, what it is, and where it begins and ends in the text."""

    text: str
    kind: str
    start: int
    end: int


def tokens_of(text):
    """The tokens of a text, and one without letters at its end."""
    found = [
        Token(SAME.get(one[0], one[0].lower()) if one.lastgroup != "string" else one[0], one.lastgroup, *one.span())
        for one in TOKEN.finditer(text)
        if one.lastgroup != "blank"
    ]
    return [*found, Token("", "end", len(text), len(text))]


class Statement(NamedTuple):
    """A statement by the numbers of its tokens: its head is what stands before the statements in it, or all of it. The
    condition behind `until` counts as a statement of its own."""

    word: str
    start: int
    head_end: int
    end: int
    # Which statement part it is in, by number.
    block: int


class Statements:
    """The statements of all statement parts of a program, in the order of their beginnings."""

    def __init__(self, tokens):
        self.tokens = tokens
        self.found = []
        self.block = self.level = 0
        # Where the statement parts begin and end.
        self.parts = []
        at = 0
        while at < len(tokens):
            if tokens[at].text == "begin":
                end = self.statement(at)
                self.parts.append((at, end))
                self.block += 1
                at = end
            at += 1
        self.found.sort()

    def holding(self, place):
        """The innermost statement in whose head a place of the text lies; None where there is none."""
        fitting = [it for it in self.found if self.tokens[it.start].start <= place < self.head_place(it)]
        return min(fitting, key=lambda it: self.head_place(it) - self.tokens[it.start].start, default=None)

    def head_place(self, statement):
        return self.tokens[max(statement.start, statement.head_end - 1)].end

    def word(self, at):
        return self.tokens[at].text if at < len(self.tokens) else ""

    def next(self, at, *words):
        """The number of the next token that is one of these words, or the last one."""
        while self.word(at) not in words and at < len(self.tokens) - 1:
            at += 1
        return at

    def keep(self, word, start, head_end, end):
        self.found.append(Statement(word, start, head_end, end, self.block))
        return end

    def statement(self, at):
        """Reads a statement; gives the number of the token behind it."""
        self.level += 1
        end = self.structured(at) if self.level < MOST_LEVELS else self.simple(at)
        self.level -= 1
        return end

    def simple(self, at):
        return self.keep("", at, *2 * (self.next(at, *BEHIND),))

    def structured(self, at):
        word = self.word(at)
        if word == "begin":
            return self.sequence(at + 1, "end") + 1
        if word == "repeat":
            until = self.sequence(at + 1, "until")
            return self.keep("until", until, *2 * (self.next(until + 1, *BEHIND),))
        if word == "case":
            return self.case(at)
        if word in ("if", "while", "for", "with"):
            return self.headed(at, "then" if word == "if" else "do")
        return self.simple(at)

    def headed(self, at, mark):
        """Reads a statement whose head ends with a mark."""
        body = self.next(at + 1, mark) + 1
        end = self.statement(body)
        if self.word(at) == "if" and self.word(end) == "else":
            end = self.statement(end + 1)
        return self.keep(self.word(at), at, body - 1, end)

    def case(self, at):
        head_end = self.next(at + 1, "of")
        end = head_end + 1
        while self.word(end) not in ("end", ""):
            end = self.next(end, ":", "end")
            end = self.statement(end + 1) if self.word(end) == ":" else end
            end += self.word(end) == ";"
        return self.keep("case", at, head_end, end + 1)

    def sequence(self, at, mark):
        """Reads statements up to a mark; gives the number of its token."""
        at = self.statement(at)
        while self.word(at) == ";":
            at = self.statement(at + 1)
        return self.next(at, mark)


def selected(tokens, at):
    """The number of the token behind an access or a call that begins with the name at a number."""
    at += 1
    while tokens[at].text in ("[", "(", "."):
        at = at + 2 if tokens[at].text == "." else behind_brackets(tokens, at)
    return min(at, len(tokens) - 1)


def behind_brackets(tokens, at):
    depth = 0
    for number in range(at, len(tokens)):
        depth += (tokens[number].text in ("[", "(")) - (tokens[number].text in ("]", ")"))
        if depth <= 0:
            return number + 1
    return len(tokens) - 1


def outside(tokens, parts):
    """The tokens outside of the statement parts: those of headings and declarations."""
    inside = {number for start, end in parts for number in range(start, end)}
    return [token for number, token in enumerate(tokens) if number not in inside]


def enumerations(declared):
    """The names of each enumerated type that is declared."""
    text = " ".join(token.text for token in declared)
    return [row.split(" , ") for row in re.findall(r"(?:[=:,[]|\bof|\bpacked) \( ([a-z]\w*(?: , [a-z]\w*)*) \)", text)]


def names_behind(declared, word):
    """The names that stand directly behind a word, as behind `function`."""
    return {name.text for head, name in zip(declared, declared[1:]) if head.text == word}


def constants(declared):
    """The names that are defined as constants, those of enumerated types too."""
    found = {name for row in enumerations(declared) for name in row}
    in_part = False
    for name, sign in zip(declared, declared[1:]):
        if name.text in ("const", "type", "var", "procedure", "function"):
            in_part = name.text == "const"
        elif in_part and name.kind == "word" and sign.text == "=":
            found.add(name.text)
    return found
