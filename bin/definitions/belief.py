"""What has to be believed of a contract: all that its clauses name, in an order in which it can be read."""

import re
from typing import NamedTuple

from definitions.named import KIT_FIELDS, Definition, Place, Reading, World

# The public call, its module, and the clauses that are the headline.
CRATE, MODULE, CALL = "report", ("compile",), "compile"
PATH = "crates/report/src/compile.rt"
CLAUSES = ("typed", "headline")
# What the clauses say of the result: the fields of what it is where the call succeeds.
FIELDS = re.compile(r"\bc((?:\.\w+)+)")


class Clause(NamedTuple):
    """A clause of a contract: its text, its line, and its first and last line with its comment."""

    text: str
    line: int
    span: tuple


def head_of(lines):
    """The numbers of the first line of the call, and of that behind its clauses, from 0."""
    start = next(n for n, it in enumerate(lines) if it.startswith(f"pub fn {CALL}("))
    return start, lines.index("{", start)


def clause_of(lines, name):
    """The clause of this name on the call."""
    start, end = head_of(lines)
    number = next(n for n in range(start, end) if lines[n].strip().startswith(f"ensures {name} {{"))
    last = number + 1
    while "".join(lines[number:last]).count("{") > "".join(lines[number:last]).count("}"):
        last += 1
    first = number
    while lines[first - 1].strip().startswith("//"):
        first -= 1
    text = "\n".join(lines[number:last])
    return Clause(text[text.index("{") + 1 : text.rindex("}")], number + 1, (first + 1, last))


class Belief:
    """All that the headline names: `named` has what each definition names, and `by` the one that named it first."""

    def __init__(self, top):
        self.world = World(top)
        self.reading = Reading(self.world)
        lines = self.world.lines_of(PATH)
        self.clauses = [clause_of(lines, name) for name in CLAUSES]
        place = Place(CRATE, PATH, CALL, self.clauses[0].line)
        self.root = Definition(place, tuple(it.span for it in self.clauses), (), (), "call")
        self.named, self.by = {}, {self.root: None}
        # What is named of a type of which only some fields are named.
        self.in_part = {}
        start, end = head_of(lines)
        self.start(" ".join(lines[start:end]))
        self.follow()
        self.order = self.ordered()

    @property
    def unknown(self):
        """The names that aren't found, and the fields that no record has."""
        fields = {name for it in self.named for name in it.members} | KIT_FIELDS
        lost = [it for it in self.reading.fields if it.name not in fields and not it.name.isdigit()]
        return sorted({*self.world.unknown, *self.reading.unknown, *lost})

    def start(self, head):
        """What the clauses name, and of the type of the result the fields that they name."""
        bound = ["result", *re.findall(r"(\w+):", head)]
        found = []
        for clause in self.clauses:
            found += self.reading.clause(clause.text, clause.line, PATH, bound)
        made = self.world.named_type(CRATE, MODULE, re.search(r"-> Result<(\w+)", head)[1])
        for path in FIELDS.findall(" ".join(it.text for it in self.clauses)):
            self.part(made, path.strip(".").split("."))
        self.named[self.root] = list(dict.fromkeys([*found, made]))

    def part(self, definition, fields):
        """Notes that of a type this field is named, and of that this one, and so on."""
        inside = self.reading.names(definition, fields[:1])
        self.in_part.setdefault(definition, []).extend(inside)
        for it in inside:
            if fields[1:] and fields[1] in it.members:
                self.part(it, fields[1:])

    def follow(self):
        """Follows names, those first that are nearest to the headline."""
        waiting, whole = [self.root], set()
        while waiting:
            definition = waiting.pop(0)
            is_clause = definition is self.root or (definition in self.in_part and definition not in whole)
            for it in self.named[definition]:
                self.by.setdefault(it, definition)
                in_part = is_clause and it in self.in_part
                if it not in self.named or not (in_part or it in whole):
                    self.named[it] = self.in_part[it] if in_part else self.reading.names(it)
                    whole.update([] if in_part else [it])
                    waiting.append(it)

    def ordered(self):
        """The definitions, by crates, in a crate by files, in a file by lines, but what is named before what names it.
        Files that name each other are taken as one."""
        found = []
        for crate in self.world.crates:
            inside = [it for it in self.named if it.place.crate == crate]
            named = {it.place.path: set() for it in inside}
            for it in inside:
                named[it.place.path].update(other.place.path for other in self.named[it])
            behind = {path: reached(path, named) for path in named}
            for path in sorted_by_names(set(named), named, file_rank):
                group = {path, *(it for it in behind[path] if path in behind.get(it, ()))}
                here = {it for it in inside if it.place.path in group and it not in found}
                found += sorted_by_names(here, self.named, lambda it: (it.place.path, it.place.line))
        return found

    def chain(self, definition):
        """The definitions from the headline to this one, each named by the one before."""
        found = []
        while definition:
            found.append(definition)
            definition = self.by[definition]
        return found[::-1]

    def sums(self):
        """How many definitions of each crate there are, and of how many lines."""
        for crate in self.world.crates:
            lines = [it.lines for it in self.order if it.place.crate == crate]
            if lines:
                yield crate, len(lines), sum(lines)

    def called(self, name):
        """The definitions of a name, or those that have it as a constructor or a field; CRATE.NAME is that of a
        crate."""
        crate, _, own = name.rpartition(".")
        near = [it for it in self.order if crate in ("", it.place.crate)]
        return [it for it in near if it.place.name == own] or [it for it in near if own in it.members]


def file_rank(path):
    """Types of the code come before definitions."""
    return "/specs/" in path, path


def reached(thing, named):
    """All that a thing names, and what that names in its turn."""
    found, waiting = set(), [thing]
    while waiting:
        more = [it for it in named.get(waiting.pop(), ()) if it not in found]
        found.update(more)
        waiting += more
    return found


def sorted_by_names(things, named, rank):
    """The things in their order, but each behind those that it names; where two name each other, in their order."""
    found, seen = [], set()

    def visit(it):
        seen.add(it)
        for other in sorted({*named.get(it, ())} & things, key=rank):
            if other not in seen:
                visit(other)
        found.append(it)

    for it in sorted(things, key=rank):
        if it not in seen:
            visit(it)
    return found
