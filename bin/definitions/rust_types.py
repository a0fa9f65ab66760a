"""Reads the types of a file `src/*.rt`, each with its model: where they stand, and which types and ghost names they
name."""

import re
from typing import NamedTuple

COMMENT = re.compile(r"//[^\n]*")
ATTRIBUTE = re.compile(r"#!?\[(?:[^\[\]]|\[[^\[\]]*\])*\]")
HEAD = re.compile(r"^(?:pub(?:\([a-z]+\))? )?(struct|enum|type|const) (\w+)", re.M)
PATH = re.compile(r"(?<![\w'])[A-Za-z_]\w*(?:::\w+)*")
MODEL = re.compile(r"^impl(?:<[^{\n]*>)? Model for (\w+)[^{]*\{$", re.M)
GHOST = re.compile(r"^ *ghost \w+ = \{", re.M)
LINE_OF_USE = re.compile(r"^\s*(pub (?:\([a-z]+\) )?)?use ([^;]+);", re.M)
BUILT_IN = frozenset(
    "Vec Box Option Result String Self Some None Ok Err u8 u16 u32 u64 u128 usize i8 i16 i32 i64 i128 isize bool char"
    " str pub crate mut dyn".split()
)


class Type(NamedTuple):
    """A type with its line and the first and last line of its parts, with comment and attributes: its declaration, and
    its model if it has one; the texts of its fields or variants by their names, without ghost ones; and the ghost texts
    of fields and model, each with its line."""

    name: str
    kind: str
    line: int
    spans: tuple
    generics: tuple
    members: tuple
    ghosts: tuple


def blanked(text, pattern):
    """A text without what matches, of which the lines stay."""
    return pattern.sub(lambda it: re.sub(r"[^\n]", " ", it[0]), text)


def end_of(text, at):
    """Where the declaration ends that begins here: behind its brace or its semicolon."""
    depth = 0
    while at < len(text):
        depth += (text[at] in "({[") - (text[at] in ")}]")
        if text[at] == ";" and depth == 0 or text[at] == "}" and depth == 0:
            return at + 1
        at += 1
    return at


def parts_of(text):
    """The parts of a list between commas, each with where it begins."""
    depth = start = 0
    for at, it in enumerate(text):
        depth += (it in "({[<") - (it in ")}]>")
        if it == "," and depth == 0:
            yield start, text[start:at]
            start = at + 1
    if text[start:].strip():
        yield start, text[start:]


class Source:
    """The types and lines `use` of a file; `uses` has each name with its path, and `passed` those that it passes on."""

    def __init__(self, text):
        self.lines = text.split("\n")
        self.text = blanked(blanked(text, COMMENT), ATTRIBUTE)
        models = {it[1]: it for it in MODEL.finditer(self.text)}
        self.types = {it.name: self.with_model(it, models.get(it.name)) for it in self.read()}
        self.uses, self.passed = {}, {}
        for match in LINE_OF_USE.finditer(self.text):
            for path, name in paths_of(re.sub(r"\s+", " ", match[2])):
                self.uses[name] = path
                if match[1]:
                    self.passed[name] = path

    def read(self):
        for match in HEAD.finditer(self.text):
            end = end_of(self.text, match.start())
            line = self.line(match.start())
            members, ghosts = self.members(match, end)
            spans, generics = ((self.beginning(line), self.line(end - 1)),), generics_of(self.text[match.end() :])
            yield Type(match[2], match[1], line, spans, tuple(generics), tuple(members), tuple(ghosts))

    def line(self, at):
        return self.text.count("\n", 0, at) + 1

    def with_model(self, type_, head):
        """A type with its model: what contracts see of it."""
        if head is None:
            return type_
        end = self.text.index("\n}", head.end()) + 2
        ghosts = []
        for match in GHOST.finditer(self.text, head.end(), end):
            close = end_of(self.text, match.end() - 1)
            ghosts.append((self.text[match.end() : close - 1], self.line(match.end())))
        line = self.line(head.start())
        spans = (*type_.spans, (self.beginning(line), self.line(end - 1)))
        return type_._replace(spans=spans, ghosts=(*type_.ghosts, *ghosts))

    def beginning(self, line):
        """The first line of the comment and the attributes before a declaration."""
        while line > 1 and re.match(r"\s*(//|#\[)", self.lines[line - 2]):
            line -= 1
        return line

    def members(self, match, end):
        """The fields or variants of a declaration, and its ghost parts."""
        start = match.end()
        text = self.text[start:end]
        opening = text.find("{") if match[1] in ("struct", "enum") else -1
        bracket = text.find("(")
        if opening < 0 or 0 <= bracket < opening:
            return [("", text)], []
        members, ghosts = [], []
        body = text[opening + 1 : text.rindex("}")]
        for at, part in parts_of(body):
            word = part.strip()
            if re.match(r"(pub )?ghost ", word):
                line = self.line(start + opening + 1 + at + part.index(word[0]))
                ghosts.append((word.split("{", 1)[1].rsplit("}", 1)[0], line))
            elif word:
                name = re.match(r"(?:pub(?:\([a-z]+\))? )?(\w+)", word)
                members.append((name[1], word[name.end() :]))
        return members, ghosts

    def named(self, type_, fields=None):
        """The types that a type names, as they are written; of these fields alone, if some are given."""
        for name, text in type_.members:
            if fields is None or name in fields:
                # The name of a field stands before a colon, and none is a type.
                for path in PATH.findall(re.sub(r"\b[a-z_]\w*\s*:(?!:)", " ", re.sub(r"'\w+", " ", text))):
                    if path not in BUILT_IN and path not in type_.generics:
                        yield path


def paths_of(text):
    """The paths that a line `use` brings, each with what it is called."""
    head, brace, rest = text.strip().partition("{")
    if not brace:
        path, _, alias = text.strip().partition(" as ")
        yield path.strip(), (alias or path.split("::")[-1]).strip()
        return
    for _, part in parts_of(rest.rsplit("}", 1)[0]):
        for path, name in paths_of(part):
            yield head.strip() + path, name


def generics_of(text):
    """The parameters of a type."""
    match = re.match(r"<([^>]*)>", text)
    return re.findall(r"(?<!')\b[A-Z]\w*\b", match[1]) if match else []
