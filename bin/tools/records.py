"""What there is to say of each line that pcom writes to standard error: a record, from which all forms are made."""

import os
from typing import NamedTuple

from pcom_lines import message_of
from tools import pascal
from tools.asking import Asker
from tools.expected import NOTHING, expectation
from tools.hints import Hints
from tools.sentences import Sentences, key_of
from tools.source_lines import shown


class Record(NamedTuple):
    """A line of pcom, and what is known of it."""

    # The line itself, without its end.
    told: str
    # What stands before the name, as `possible error`; nothing where the line is none that is known.
    kind: str = ""
    name: str = ""
    # The file, and the place in it; columns are bytes from 1, and the end is behind the token.
    file: str = ""
    line: int = 0
    column: int = 0
    end_column: int = 0
    # The line of the file with the place marked.
    shown: tuple = ()
    # What is known of operands, what was expected, and what is seen to be wrong.
    known: tuple = ()
    expected: tuple = ()
    hints: tuple = ()
    # What the name means and how to mend it, and whether it is the first of this name.
    means: str = ""
    mend: str = ""
    is_first: bool = False

    @property
    def seen(self):
        return [*self.known, *self.expected, *self.hints]

    @property
    def sentences(self):
        return list(filter(None, [self.means, self.mend]))


class Recorder:
    """Makes the records of a run."""

    def __init__(self, texts, known):
        self.texts, self.known = texts, known
        self.sentences = self.hints = None
        self.names = set()

    def record(self, line):
        """The record of a line."""
        told = line.rstrip(b"\n").decode("utf-8", "surrogateescape")
        message = message_of(line)
        if not message:
            return Record(told)
        self.sentences = self.sentences or Sentences()
        means, mend = (*self.sentences.of(message.name), "", "")[:2]
        is_first = key_of(message.name) not in self.names
        self.names.add(key_of(message.name))
        record = Record(told, message.kind, message.name, means=means, mend=mend, is_first=is_first)
        return self.placed(record, message) if message.line else record._replace(hints=tuple(findings(message)))

    def placed(self, record, message):
        """The same with what is said of its place."""
        source = self.texts.line(message)
        record = record._replace(
            file=self.texts.path(message) or "",
            line=message.line,
            column=message.column,
            end_column=end_column(source or b"", message.column),
            known=tuple(self.known.pop((message.line, message.column), ())),
        )
        if source is None:
            return record
        record = record._replace(shown=tuple(shown(message, source)))
        text = self.texts.source() if message.column else None
        return record if text is None else self.looked_at(record, message, text)

    def looked_at(self, record, message, text):
        """The same with what is seen at its place in the text of the source."""
        expected = expectation_at(text, message)
        self.hints = self.hints or Hints(self.sentences.hints, text)
        hints = self.hints.at(message, expected.fitting)
        return record._replace(expected=tuple(expected.sentences), hints=tuple(hints))


def expectation_at(text, message):
    """What could stand at the place of a refusal."""
    if message.kind != "refused":
        return NOTHING
    with Asker() as asker:
        return expectation(asker, text, message)


def findings(message):
    """What is seen to be wrong with the path of a message."""
    if message.path in (None, b"-"):
        return []
    if os.path.isdir(message.path):
        return ["This is a folder."]
    if message.name == "cannot read":
        return [] if os.path.exists(message.path) else ["There is no such file."]
    return [] if os.path.isdir(os.path.dirname(message.path) or b".") else ["There is no such folder."]


def end_column(line, column):
    """The column behind the token at a column of a line."""
    found = pascal.TOKEN.match(line.decode(pascal.ENCODING), max(0, column - 1))
    return found.end() + 1 if found and column and found.lastgroup != "blank" else column
