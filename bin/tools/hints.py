"""Hints for shapes of the source: what docs/explanations.ini has for a code or a name where the tokens round the place
have a certain form.

The tokens stand in small letters with a blank between two of them, or a line end where their lines differ, and without
comments. A `!` stands in front of the token at the place, and `()` behind the name of a function."""

import re
from bisect import bisect_left
from typing import NamedTuple

from tools import pascal
from tools.terminal import one_line

BEFORE, BEHIND = 1500, 60
# At so many places of a name it is looked for hints.
PLACES = 20


class Hint(NamedTuple):
    """A sentence for the place of a code or a name where the tokens round it have a shape, and, where it says so, a
    certain token would fit there. LINE stands in the sentence for the line of the token before the place."""

    at: str
    shape: re.Pattern
    says: str
    expects: str

    def fits(self, name, round_it, fitting):
        return name == self.at and self.expects in (None, *fitting) and self.shape.search(round_it)


def hint_of(section):
    shape = re.compile(one_line(section["shape"]))
    return Hint(section["at"], shape, one_line(section["says"]), section.get("expects"))


class Hints:
    """Finds the hints for places of one source. Each hint is told once."""

    def __init__(self, hints, source):
        self.hints = hints
        self.text = source.decode(pascal.ENCODING)
        self.tokens = pascal.tokens_of(self.text)
        self.starts = [token.start for token in self.tokens]
        parts = pascal.Statements(self.tokens).parts
        self.functions = pascal.names_behind(pascal.outside(self.tokens, parts), "function")
        self.told = set()
        self.looked = {}

    def at(self, message, fitting):
        """The hint for a message, in a list; nothing where there is none. `fitting` are the tokens that would fit at
        its place."""
        self.looked[message.name] = self.looked.get(message.name, 0) + 1
        if self.looked[message.name] > PLACES:
            return []
        at = bisect_left(self.starts, pascal.place_of(self.text, message.line, message.column))
        round_it = self.round(at)
        for hint in self.hints:
            if hint.fits(message.name, round_it, fitting):
                is_new = hint not in self.told
                self.told.add(hint)
                return [hint.says.replace("LINE", str(self.line_before(at)))] if is_new else []
        return []

    def round(self, at):
        """The tokens round one, as shapes have them."""
        parts = []
        for number in range(max(0, at - BEFORE), min(at + BEHIND, len(self.tokens))):
            token = self.tokens[number]
            between = self.text[self.tokens[number - 1].end : token.start] if number else ""
            parts.append(("\n" if "\n" in between else " ") + "! " * (number == at) + self.spelled(token))
        return "".join(parts)

    def spelled(self, token):
        text = "?" if token.text == "!" else token.text
        return text + "()" if text in self.functions else text

    def line_before(self, at):
        return self.text.count("\n", 0, self.tokens[at - 1].end if at else 0) + 1
