"""A certificate in words: names and lines of the source in place of numbers."""

import re
from collections import Counter

from tools import pascal
from tools.asking import Asker
from tools.declarations import Declarations
from tools.source_lines import bytes_of
from tools.terminal import one_line, paragraph

VARIABLE = re.compile(r"\bv(\d+)")
BOUND = re.compile(r"(v\d+)([+-]\d+)")
# The ends of the range that has no value.
EMPTY = ["1", "0"]
NO_BREAK = "\u00a0"
# The words for where a fact holds.
WHERE = {"entry": "at each call", "exit": "at its end", "fact": "at each turn"}


def certificate_of(files):
    """The text of the certificate that is given or found for a source; None where it is refused."""
    if bytes_of(files.source) is None:
        return None
    with Asker() as asker:
        found = asker.path("certificate")
        given = ["--cert", files.certificate] if files.certificate else []
        asker.run([*given, "--write-cert", found, "--", files.source])
        text = bytes_of(found)
    return None if text is None else text.decode(pascal.ENCODING)


class Words:
    """Says the lines of a certificate of a source in words."""

    def __init__(self, source):
        self.declared = Declarations(source)
        names = Counter(one.name.casefold() for one in self.declared.variables)
        self.names = [self.named(one, names) for one in self.declared.variables]

    def named(self, variable, names):
        """The name of a variable, with its line where others have this name."""
        if names[variable.name.casefold()] == 1:
            return variable.name
        column = variable.place - self.declared.text.rfind("\n", 0, variable.place)
        return f"{variable.name} (of {self.declared.line(variable.place)}:{column})"

    def lines(self, certificate):
        """All of it, in lines of a terminal's width."""
        said = []
        for line in certificate.split("\n")[1:-1]:
            words = line.split()
            if words[0] in ("proc", "loop"):
                said.append((self.heading(*words), {}))
            else:
                head, fact = self.said(words)
                said[-1][1].setdefault(head, []).append(fact)
        return [line for heading, groups in said for line in [heading, *folded(groups)]]

    def heading(self, word, number):
        """The line above what is said of a block or of a loop."""
        if word == "proc":
            block = self.declared.blocks[int(number)]
            return f"{block.name}, line {self.declared.line(block.place)}"
        tokens, at = self.declared.tokens, self.declared.loops[int(number)]
        end = at
        while tokens[end].text not in ("do", "until", "") and tokens[at].text != "repeat":
            end += 1
        written = one_line(self.declared.text[tokens[at].start : tokens[end].end])
        column = tokens[at].start - self.declared.text.rfind("\n", 0, tokens[at].start)
        return f"  loop at {self.declared.line(tokens[at].start)}:{column}, {written}"

    def said(self, words):
        """What a line says: the words above it, and its own."""
        word, *rest = words
        if word == "change":
            return "may change", self.part(rest[0])
        if word == "alias":
            return "may share a place", f"{self.part(rest[0])} and {self.part(rest[1])}"
        kind, path, *values = rest
        if kind == "range":
            lies = "without values" if values == EMPTY else f"in {values[0]}..{values[1]}"
            return WHERE[word], f"{self.part(path)} {lies}"
        if kind == "order":
            return WHERE[word], f"{self.part(path)} <= {self.sum(values[0], int(values[1]))}"
        if kind == "grow":
            least, greatest = (behind(*map(int, ends)) for ends in (values[:2], values[2:]))
            return WHERE[word], f"{self.part(path)} in {least}..{greatest} behind k turns"
        spans = ", ".join(self.span(*ends) for ends in zip(values[::2], values[1::2]))
        return f"{WHERE[word]} defined", self.part(path) + (f"[{spans}]" if spans else "")

    def span(self, first, last):
        """The indexes between two bounds, or the one that both are."""
        return self.bound(first) + ("" if first == last else f"..{self.bound(last)}")

    def bound(self, text):
        found = BOUND.fullmatch(text)
        return self.sum(found[1], int(found[2])) if found else text

    def sum(self, path, number):
        """A variable and a number, without a number that is 0."""
        return self.part(path) + (f" {'-' if number < 0 else '+'} {abs(number)}" if number else "")

    def part(self, path):
        return VARIABLE.sub(lambda found: self.names[int(found[1])], path)


def behind(number, step):
    """What a number is that grows by a step with each of k turns."""
    grown = f"{step}*k"
    return f"{number} + {grown}" if number and step else grown if step else str(number)


def folded(groups):
    """What is said, in lines; none ends within a fact."""
    for head, said in groups.items():
        together = ", ".join(fact.replace(" ", NO_BREAK) for fact in said)
        yield from (line.replace(NO_BREAK, " ") for line in paragraph(together, " " * 6, f"    {head}: "))


def facts(files):
    """What the certificate of a source says, in lines; None where there is none."""
    certificate = certificate_of(files)
    if certificate is None:
        return None
    return Words(bytes_of(files.source).decode(pascal.ENCODING)).lines(certificate)
