"""What is known at told sites: in which range each variable and component lies there that its statement uses.

The compiler itself is asked. Before the statement, where it knows the same, a statement is put that adds numbers to the
operand, one after another: `overflow` is told at the first that takes its greatest value over `maxint`, and so the
greatest value is known. Taking numbers away finds the least one. The statements stand under `if odd(0) then`, behind
which all is known that was known before; so all operands are asked at once. A certificate that is given is that of the
source; else one is found each time."""

import re
from typing import NamedTuple

from tools import pascal
from tools.asking import Asker
from tools.beside import Beside, Question
from tools.source_lines import bytes_of
from tools.terminal import one_line

MAXINT = 2147483647
# The distance from an end of integer beyond which each integer leaves it.
BEYOND = 2 * MAXINT + 1
MOST_NUMBERS = 60
SECTIONS = 40
# A number of the source or the certificate, and of no name.
NUMBER = re.compile(rb"(?<![\w-])-?\d{1,10}\b")
# Values of the types that each program has. What an operand can be compared with tells its type.
OF_REQUIRED_TYPES = ("0", "'a'", "true")
READING = ("read", "readln")


def known_at_sites(files, most):
    """What is known at the first told sites of a source, in words, by their lines and columns. Of the sites of one
    statement it stands at the first."""
    source = bytes_of(files.source)
    if source is None:
        return {}
    with Asker() as asker:
        # A certificate that is written says what closes sites, and not all that is known: so each text has one found.
        given = ["--cert", files.certificate] if files.certificate else []
        messages = asker.run([*given, "--", files.source])
        places = [(it.line, it.column) for it in messages if it.kind == "possible error"][:most]
        claims = bytes_of(files.certificate) if files.certificate else None
        numbers = {int(number) for number in NUMBER.findall(source + (claims or b""))}
        knowledge = Knowledge(asker, source.decode(pascal.ENCODING), given, numbers)
        known = knowledge.ranges(places)
        return {place: [knowledge.words(*one) for one in ranges] for place, ranges in zip(places, known)}


class Operand(NamedTuple):
    """A variable or a component in the head of a statement, as it is written there and in small letters."""

    written: str
    text: str
    statement: pascal.Statement

    @property
    def key(self):
        """What has the same type."""
        return self.statement.block, self.text


def operand_of(name):
    return name if isinstance(name, Operand) else name[0]


class Range(NamedTuple):
    """The least and the greatest value of an operand by number, and a value of its type."""

    least: int
    greatest: int
    of_type: str


class Knowledge:
    """Finds out what is known in a source under the words that give it a certificate, or under none."""

    def __init__(self, asker, text, given, numbers):
        self.asker, self.given = asker, given
        self.text = text
        self.tokens = pascal.tokens_of(text)
        self.statements = pascal.Statements(self.tokens)
        declared = pascal.outside(self.tokens, self.statements.parts)
        self.enumerations = pascal.enumerations(declared)
        self.no_operands = pascal.RESERVED | pascal.REQUIRED | pascal.constants(declared)
        self.no_operands |= pascal.names_behind(declared, "function")
        self.numbers = nearby(numbers)

    def ranges(self, places):
        """For each of these places the operands there, each with its range, where no place before has them."""
        statements = [self.statements.holding(pascal.place_of(self.text, *place)) for place in places]
        operands = {it: list(self.operands(it)) for it in statements if it}
        found = self.found(self.types({one for group in operands.values() for one in group}))
        return [[(one, found[one]) for one in operands.pop(it, ()) if one in found] for it in statements]

    def operands(self, statement):
        """The operands of a statement, each text once."""
        told = set()
        for at in range(statement.start, statement.head_end):
            operand = self.operand(statement, at)
            if operand and operand.text not in told:
                told.add(operand.text)
                yield operand

    def operand(self, statement, at):
        """The operand that begins at a token; None where that is none, or one that a call is part of."""
        name = self.tokens[at]
        if name.kind != "word" or name.text in self.no_operands or self.tokens[at - 1].text == ".":
            return None
        end = pascal.selected(self.tokens, at)
        if self.is_target(statement, at, end) or any(self.may_call(one) for one in range(at, end)):
            return None
        written = self.text[name.start : self.tokens[end - 1].end]
        return Operand(written, " ".join(one.text for one in self.tokens[at:end]), statement)

    def may_call(self, at):
        text = self.tokens[at].text
        return text == "(" or text in self.no_operands and text in pascal.REQUIRED - {"maxint", "true", "false"}

    def is_target(self, statement, at, end):
        """Whether an access isn't used here but gets a value, or is the name of a procedure."""
        if self.tokens[end].text == ":=" or (at == statement.start and not statement.word):
            return True
        return self.tokens[statement.start].text in READING and self.tokens[at - 1].text in ("(", ",")

    def types(self, operands):
        """The operands that have values of an ordinal type, each with a value of it: one with which it compares."""
        values = [*OF_REQUIRED_TYPES, *(row[0] for row in self.enumerations)]
        tried = {one.key: 0 for one in operands}
        left = sorted(operands)
        while left:
            told, refused = self.ask({one: [f"if {one.text} = {values[tried[one.key]]}"] for one in left})
            if refused is None:
                break
            if refused not in left:
                return {}
            tried[refused.key] += 1
            left = [one for one in left if tried[one.key] < len(values)]
        return {one: values[tried[one.key]] for one in left}

    def found(self, types):
        """The range of each operand that runs come to."""
        searches = {(one, sign): Search(self.numbers, sign) for one in types for sign in "+-"}
        left = searches
        while left:
            told, refused = self.ask({key: search.condition(key[0].text) for key, search in left.items()})
            if refused is not None:
                return {}
            for key, search in left.items():
                search.take(told.get(key, ()))
            left = {key: search for key, search in left.items() if not search.is_done}
        ranges = {one: Range(-searches[one, "-"].end, searches[one, "+"].end, types[one]) for one in types}
        return {one: it for one, it in ranges.items() if it.least <= it.greatest}

    def ask(self, conditions):
        """Asks all these conditions at once, each named by its operand, or by its operand and a sign. Gives for each
        the numbers of its lines at which `overflow` is told, and which of them is refused; nothing of them where that
        is the source."""
        questions = [Question(name, operand_of(name).statement, lines) for name, lines in conditions.items()]
        beside = Beside(self.text, self.tokens, questions)
        told = {}
        for message in self.asker.messages(beside.text.encode(pascal.ENCODING), *self.given):
            name, line = beside.lines.get(message.line, (None, 0))
            if message.kind != "possible error":
                return {}, name or message
            if message.name == "overflow" and name:
                told.setdefault(name, []).append(line)
        return told, None

    def words(self, operand, known):
        """What is known of an operand, in words."""
        least, greatest = (self.value(number, known.of_type) for number in known[:2])
        range_of = f"is {least}" if least == greatest else f"lies in {least}..{greatest}"
        return f"{one_line(operand.written)} {range_of}"

    def value(self, number, of_type):
        """A value of a type as a program would have it."""
        if of_type == "0":
            return str(number)
        if of_type == "'a'":
            return repr_of(chr(number)) if 32 <= number < 127 else f"chr({number})"
        rows = [["false", "true"], *self.enumerations]
        row = next((row for row in rows if of_type in row), [])
        return row[number] if 0 <= number < len(row) else f"value {number}"


def repr_of(character):
    return "'" + character.replace("'", "''") + "'"


class Search:
    """Searches the greatest number that may be added to an operand, or taken away, without an overflow."""

    def __init__(self, numbers, sign):
        self.sign = sign
        # Up to `kept` there is no overflow, and from `passed` on there is one.
        self.kept, self.passed = 0, None
        distances = {MAXINT - number if sign == "+" else MAXINT + number for number in numbers}
        self.ask(it + more for it in distances for more in (0, 1))

    def ask(self, distances):
        """Takes what to ask next. No step from one to the next is larger than a number may be."""
        self.asked = sorted({it for it in distances if 0 < it < BEYOND} | {MAXINT, 2 * MAXINT, BEYOND})

    @property
    def is_done(self):
        return not self.asked

    @property
    def end(self):
        """How far the operand reaches; below everything where no run comes there."""
        return -BEYOND if self.passed is None else MAXINT - self.kept

    def condition(self, operand):
        """The lines of a sum that leaves integer at the first of the numbers asked which is too large."""
        steps = [one - before for before, one in zip([0, *self.asked], self.asked)]
        return [f"if ord({operand})", *(f"{self.sign} {step}" for step in steps), "= 0"]

    def take(self, lines):
        """Takes the lines of the sum at which there is an overflow."""
        first = min((line for line in lines if line), default=0)
        if not first:
            self.asked = []
            return
        self.passed = self.asked[first - 1]
        self.kept = self.asked[first - 2] if first > 1 else 0
        gap = self.passed - self.kept
        if gap == 1:
            self.asked = []
        else:
            self.ask(self.kept + gap * part // SECTIONS for part in range(SECTIONS + 1))


def nearby(numbers):
    """Numbers that are likely to be ends of ranges: those given, and their neighbours."""
    found = {0, MAXINT, -MAXINT}
    for number in sorted(numbers, key=abs)[:MOST_NUMBERS]:
        found |= {near for near in (number - 1, number, number + 1) if -MAXINT <= near <= MAXINT}
    return found
