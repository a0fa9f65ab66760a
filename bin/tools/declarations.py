"""The blocks, variables and loops of a source by the numbers that certificates have for them."""

from typing import NamedTuple

from tools import pascal

PARTS = ("const", "type", "var", "procedure", "function", "begin")
LOOPS = ("for", "while", "repeat")


class Named(NamedTuple):
    """A block or a variable: its name as it is written, and where that stands."""

    name: str
    place: int


class Declarations:
    """What a source declares, each in the order of its numbers: the blocks from the program's on, the variables with
    results and parameters, and the loops, by the numbers of their first tokens."""

    def __init__(self, text):
        self.text, self.tokens = text, pascal.tokens_of(text)
        self.inside = {one for start, end in pascal.Statements(self.tokens).parts for one in range(start, end)}
        self.blocks, self.variables = [], []
        self.loops = [number for number in self.inside if self.tokens[number].text in LOOPS]
        self.loops.sort()
        self.part = ""
        # The routines whose headings stood before, by how deep they are declared.
        self.forward = set()
        self.depth = 0
        self.read()

    def read(self):
        at = 0
        while at < len(self.tokens):
            at = self.step(at)

    def step(self, at):
        """Reads on from a token outside of statements; gives the number of the next one."""
        word = self.tokens[at].text
        if at in self.inside:
            self.depth = max(0, self.depth - 1)
            while at in self.inside:
                at += 1
            self.part = ""
            return at
        if word == "program":
            self.blocks.append(self.named(at + 1))
            return at + 2
        if word in ("procedure", "function"):
            return self.heading(at)
        if word in PARTS:
            self.part = word
        elif self.part == "var" and self.tokens[at].kind == "word":
            return self.declaration(at)
        return at + 1

    def named(self, at):
        token = self.tokens[at]
        return Named(self.text[token.start : token.end], token.start)

    def heading(self, at):
        """Reads a heading, the results and parameters of which count where it first stands."""
        name, end = self.tokens[at + 1].text, at + 2
        opens = self.tokens[end].text == "("
        end = pascal.behind_brackets(self.tokens, end) if opens else end
        is_new = (self.depth, name) not in self.forward
        if is_new:
            self.blocks.append(self.named(at + 1))
            if self.tokens[at].text == "function":
                self.variables.append(self.named(at + 1)._replace(name=f"result of {self.named(at + 1).name}"))
            if opens:
                self.parameters(at + 3, end - 1)
        self.forward.discard((self.depth, name))
        while self.tokens[end].text not in (";", ""):
            end += 1
        if self.tokens[end + 1].text == "forward":
            self.forward.add((self.depth, name))
            return end + 2
        self.depth += 1
        self.part = ""
        return end + 1

    def parameters(self, at, end):
        is_name = True
        for number in range(at, end):
            word = self.tokens[number].text
            if word in (":", ";"):
                is_name = word == ";"
            elif is_name and self.tokens[number].kind == "word" and word != "var":
                self.variables.append(self.named(number))

    def declaration(self, at):
        """Reads `a, b: TYPE`, of whose type records have semicolons too."""
        while self.tokens[at].text not in (":", ""):
            if self.tokens[at].kind == "word":
                self.variables.append(self.named(at))
            at += 1
        depth = 0
        while self.tokens[at].text != "" and (depth or self.tokens[at].text != ";"):
            depth += (self.tokens[at].text == "record") - (self.tokens[at].text == "end")
            at += 1
        return at

    def line(self, place):
        return self.text.count("\n", 0, place) + 1
