"""Makes small Pascal programs by chance for `tests/same_answers`, each from a seed: loops, in one another too, which
fill arrays, matrices and records of them, and others that read these, in routines or not, with whatever else stands
beside such loops. A few are idioms of tests/idioms.py. The compiler takes each of them; any site of them may be
open."""

from dataclasses import dataclass
from itertools import count

from idioms import ALL, IDIOMS, TOKEN, Maker, Program, block, compound, shifted

LEAST_LINES, MOST_LINES = 5, 40
COLOURS = ("red", "green", "blue", "white")
# The kinds of ordinals, of which integers are the most; and what some variable of each begins with.
HOSTS = ("integer", "integer", "integer", "integer", "char", "colour", "Boolean")
FIRST_VALUES = {"integer": "1", "char": "'g'", "colour": "red", "Boolean": "true"}
READ = ("integer", "char")


@dataclass
class Index:
    """An index type: its host, its first and its last value as they are written, and all of its values."""

    host: str
    first: str
    last: str
    values: list

    @property
    def denoter(self):
        return f"{self.first}..{self.last}"


@dataclass
class Table:
    """An array, a matrix, or records that have such: how an element is written, by its indexes, and what it holds; and
    where it has rows or records, their type, how one is written, and how an element of a variable of that type is."""

    name: str
    kind: str
    element: str
    indexes: tuple
    host: str
    part: tuple = None


def bare(statement):
    return statement.removesuffix(";")


class Tables(Maker):
    """Makes a program with tables. A text of statements ends with a semicolon."""

    def __init__(self, seed):
        super().__init__(seed)
        self.made, self.hosts, self.tables, self.calls = 0, {}, [], []

    # ---- names and types; fewer constants and less noise than an idiom has, since each takes a line

    def number(self, value):
        return super().number(value) if self.random() < 0.2 else str(value)

    def noise(self, *more):
        return super().noise(*more) if self.random() < 0.1 else ""

    def fresh(self, word):
        self.made += 1
        return f"{word}{self.made}x"

    def typed(self, word, denoter):
        """A name of a type."""
        name = self.fresh(word)
        self.declare({name: denoter})
        return name

    def colour(self):
        if not any(text.startswith("colour") for text in self.parts["type"]):
            self.declare({"colour": f"({', '.join(COLOURS)})"})
        return "colour"

    def index(self):
        """An index type, mostly of integers."""
        host = self.pick(*HOSTS[:-1])
        if host == "integer":
            low = self.pick(1, 1, 1, 0, -2, 7)
            values = [str(value) for value in range(low, low + self.randint(2, 9))]
            return Index(host, self.number(values[0]), self.number(values[-1]), values)
        if host == "colour":
            self.colour()
        values = [f"'{letter}'" for letter in "fghijk"] if host == "char" else list(COLOURS)
        values = values[self.randint(0, 1):self.randint(3, len(values))]
        return Index(host, values[0], values[-1], values)

    def ordinal(self, host):
        """The name of a type of a host."""
        if host == "integer" and self.random() < 0.4:
            return self.typed("small", f"{self.pick(0, 0, 1, -5)}..{self.number(self.pick(5, 9, 99, 1000))}")
        return self.colour() if host == "colour" else host

    def scalar(self, host):
        """A variable of a host: one that is there, or a new one, which may be the size of a table."""
        known = [name for name, its_host in self.hosts.items() if its_host == host]
        if known and (len(known) > 1 or self.random() < 0.6):
            return self.pick(*known)
        name, kind = self.fresh(host[0]), self.ordinal(host)
        index = self.tables[0].indexes[0] if self.tables else None
        if index and index.host == host == "integer" and self.chance():
            kind = self.typed("size", f"{int(index.values[0]) - self.randint(0, 1)}..{index.values[-1]}")
        self.declare(**{name: kind})
        self.hosts[name] = host
        return name

    def table(self):
        """A table of some form, declared."""
        name, host, rows, columns = self.fresh("a"), self.pick(*HOSTS), self.index(), self.index()
        value, row, entry, f, g = self.ordinal(host), *map(self.fresh, ("row", "entry", "f", "g"))
        cell, both = self.pick("[{0}, {1}]", "[{0}][{1}]"), (rows, columns)
        array, matrix = f"array [{rows.denoter}] of", f"array [{rows.denoter}, {columns.denoter}] of {value}"
        line = f"array [{columns.denoter}] of {value}"
        flat = {}, f"{array} {value}", "[{0}]", (rows,), None
        lines = {row: line}, f"{array} {row}", cell, both, (row, "[{0}]", "[{1}]")
        part = self.pick((row, f"[{{0}}].{f}", "[{1}]"), (entry, "[{0}]", f".{f}[{{1}}]"))
        types, denoter, element, indexes, part = self.pick(
            flat, flat, flat, lines, lines, ({}, matrix, cell, both, None),
            ({}, f"record {g}: integer; {f}: {array} {value} end", f".{f}[{{0}}]", (rows,), None),
            ({}, f"record {f}: {matrix}; {g}: integer end", f".{f}{cell}", both, None),
            ({entry: f"record {f}, {g}: {value} end"}, f"{array} {entry}", f"[{{0}}].{f}", (rows,),
             (entry, "[{0}]", f".{self.pick(f, f, g)}")),
            ({row: line, entry: f"record {f}: {row}; {g}: char end"}, f"{array} {entry}", f"[{{0}}].{f}[{{1}}]", both,
             part))
        self.declare(types)
        kind, part = self.typed("table", denoter), part and (part[0], name + part[1], part[2])
        self.declare(**{name: kind})
        self.tables.append(Table(name, kind, name + element, indexes, host, part))

    # ---- expressions and statements

    def value(self, host, names):
        """An expression of a host, with variables by their hosts: those of the loops round it, now and then others."""
        its = [name for name, its_host in names.items() if its_host == host]
        name = self.pick(*its) if its and self.random() < 0.8 else self.scalar(host)
        if host == "integer":
            other, small, large = self.pick(*its, name), self.randint(1, 9), self.randint(2, 60)
            return self.pick(str(small), name, name, f"-{name}", f"{name} + {small}", f"{name} * {other}",
                             f"{name} - {other}", f"sqr({name})", f"{name} div {small}", f"{name} mod {large}",
                             f"abs({name}) mod {small}", f"({name} + {other}) mod {large}", f"{large} div {name}",
                             f"{small} mod {name}")
        if host == "Boolean":
            return self.pick("true", "false", name, f"not {name}", self.condition(names))
        number = f"chr(abs({self.value('integer', names)}) mod 26 + 97)"
        return self.pick(name, name, f"succ({name})", f"pred({name})",
                         *[number, "'x'", "'g'"] if host == "char" else COLOURS)

    def condition(self, names):
        value, other, limit = self.value("integer", names), self.scalar("integer"), self.randint(1, 9)
        return self.pick(f"{other} > 0", f"{other} <= {limit}", f"odd({value})", f"{value} <> 0", f"{other} < {value}",
                         f"({other} >= 1) and ({other} <= {limit})", f"not ({other} = {limit})")

    def place(self, names, table):
        """An element, at indexes that may lie outside."""
        written = []
        for index in table.indexes:
            its = [name for name, host in names.items() if host == index.host] * 3
            inner = self.pick(*its, self.pick(*index.values))
            written.append(inner if self.random() < 0.9 else self.value(index.host, names))
        return table.element.format(*written)

    def stored(self, target, value):
        """An assignment, at times in a `with`."""
        record, dot, field = target.partition(".")
        if dot and self.random() < 0.3:
            return f"with {record} do {field} := {value};"
        return f"{target} := {value};"

    def statement(self, names, depth=1):
        """A statement that may have to do with tables, with scalars or with routines."""
        kind, table, host = self.randint(0, 11 if depth else 6), self.pick(*self.tables), self.pick(*HOSTS)
        if kind < 3:
            return f"{self.scalar(host)} := {self.value(host, names)};"
        if kind < 5:
            return self.stored(self.place(names, table), self.value(table.host, names))
        if kind == 5:
            return f"{self.scalar(table.host)} := {self.place(names, table)};"
        if kind == 6:
            target = self.place(names, table) if table.host in READ and self.chance() else self.scalar(self.pick(*READ))
            return self.pick(f"read({target});", f"write({self.value('integer', names)}: 4);", *self.calls)
        if kind < 9:
            less, more = self.statement(names, depth - 1), self.statement(names, depth - 1)
            return f"if {self.condition(names)} then {self.pick(less, f'{bare(less)} else {more}')}"
        return self.cases(names, depth) if kind == 9 else self.counted(names, depth)

    def cases(self, names, depth):
        """A `case` over a number or a colour, that may have no arm for it."""
        arms = [bare(self.statement(names, depth - 1)) for _ in range(3)]
        if self.chance():
            head = f"{self.value('integer', names)} mod {self.pick(2, 3, 4)}"
            return f"case {head} of 0: {arms[0]}; 1, 2: {arms[1]}; 3: {arms[2]} end;"
        head, last = self.value(self.colour(), names), self.pick("", f"; white: {arms[2]}")
        return f"case {head} of red: {arms[0]}; green, blue: {arms[1]}{last} end;"

    def counted(self, names, depth):
        """A loop that some variable ends."""
        name, text = self.scalar("integer"), self.statement(names, depth - 1)
        step = self.pick(*(f"{name} := {name} {by};" for by in ("div 2", "- 1", "+ 1")), f"read({name});")
        test = self.pick(f"{name} > 0", f"{name} < {self.randint(2, 9)}", f"{name} <> 0")
        return self.pick(f"while {test} do {compound(text, step)};",
                         f"repeat\n{shifted(step, text)}\nuntil not ({test});")

    # ---- loops over tables

    def ends(self, index):
        """From where to where a loop goes: mostly over all of an index type."""
        if self.random() < 0.65:
            return index.first, index.last
        name, inner = self.scalar(index.host), self.pick(*index.values)
        before = f"{name} - 1" if index.host == "integer" else f"pred({name})"
        return self.pick((index.first, name), (index.first, name), (index.first, before), (index.first, inner),
                         (inner, index.last), (name, index.last))

    def turns(self, name, host, first, last, *texts):
        """A loop of these statements, up or down."""
        if host == "integer" and self.chance():
            return self.loop(name, first, last, *texts, forms=ALL, down=True)
        way = self.pick(f"{first} to {last}", f"{first} to {last}", f"{last} downto {first}")
        is_one = len(texts) == 1 and ";\n" not in texts[0]
        return f"for {name} := {way} do {texts[0] if is_one else compound(*texts) + ';'}"

    def loops(self, indexes, inner):
        """Loops over index types, the first one outside or, at times, inside; `inner` makes their statements of the
        variables with their hosts. Gives the text and the types of the variables."""
        names = {self.fresh("i"): index for index in indexes}
        hosts = {name: index.host for name, index in names.items()}
        texts, order = inner(hosts), list(names.items())
        for name, index in order if self.random() < 0.2 else reversed(order):
            texts = [self.turns(name, index.host, *self.ends(index), *texts)]
        behind = [f"write({name}: 3);" for name in names if hosts[name] == "integer" and self.random() < 0.05]
        kinds = {name: self.pick(*[index.host] * 3, index.denoter) for name, index in names.items()}
        return "\n".join([*texts, *behind]), kinds

    def inside(self, names, text):
        """A statement of a loop, at times with another beside it or with an `if` around it."""
        chance = self.random()
        if chance < 0.1:
            return [f"if {self.condition(names)} then {text}"]
        return [text] if chance < 0.75 else self.shuffled([text, self.statement(names)])

    # ---- paragraphs: statements of some kind, with the types of variables that have to be their own

    def fill(self):
        """Each element of a table gets a value."""
        table = self.pick(*self.tables)

        def inner(names):
            element = table.element.format(*names)
            if table.host in READ and self.random() < 0.2:
                return self.inside(names, f"read({element});")
            return self.inside(names, self.stored(element, self.value(table.host, names)))

        return self.loops(table.indexes, inner)

    def fill_parts(self):
        """Each row or record of a table is filled in a variable of its own, and then stored as a whole."""
        table = self.pick(*self.tables)
        if table.part is None:
            return self.fill()
        (kind, whole, element), name, one = table.part, self.fresh("i"), self.fresh("one")
        first, local, text = table.indexes[0], {}, ""
        if len(table.indexes) == 1:
            text = f"{one}{element} := {self.value(table.host, {name: first.host})};"
        else:
            text, local = self.loops(table.indexes[1:], lambda hosts: [
                f"{one}{element.format('', *hosts)} := {self.value(table.host, {name: first.host} | hosts)};"])
        store = f"{whole.format(name)} := {one};"
        return self.turns(name, first.host, *self.ends(first), text, store), local | {name: first.host, one: kind}

    def fill_some(self):
        """Some elements get values, one by one."""
        table = self.pick(*self.tables)
        places = [[self.pick(*index.values) for index in table.indexes] for _ in range(self.randint(1, 3))]
        texts = [self.stored(table.element.format(*place), self.value(table.host, {})) for place in places]
        return "\n".join(texts), {}

    def show(self):
        """The elements are used: written, compared, added or copied."""
        table = self.pick(*self.tables)

        def inner(names):
            element, name = table.element.format(*names), self.scalar(table.host)
            written = f"write(ord({element}));" if table.host == "colour" else f"write({element});"
            ways = [written, written, f"{name} := {element};", f"if {element} > {name} then {name} := {element};"]
            if table.host == "integer":
                ways += [f"{name} := {name} + {element};", f"{name} := ({name} + {element}) mod 10;",
                         f"{name} := {name} div {element};", f"{name} := {element} mod 5;"]
            return self.inside(names, self.pick(*ways))

        return self.loops(table.indexes, inner)

    def move(self):
        """Elements are moved to those beside them, one part to others, or a whole table to another."""
        table, name = self.pick(*self.tables), self.fresh("i")
        first, *others = table.indexes
        if self.random() < 0.2:
            twin = self.fresh("b")
            self.declare(**{twin: table.kind})
            self.tables.append(Table(twin, table.kind, twin + table.element.removeprefix(table.name), table.indexes,
                                     table.host))
            return self.pick(f"{twin} := {table.name};", f"{twin} := {table.name};", f"{table.name} := {twin};"), {}
        beside, rest = f"{name} + 1" if first.host == "integer" else f"succ({name})", [it.first for it in others]
        one, other = table.element.format(name, *rest), table.element.format(beside, *rest)
        if table.part and self.chance():
            one, other = table.part[1].format(name), table.part[1].format(first.first)
        text = self.pick(f"{one} := {other};", f"{other} := {one};")
        last = self.pick(first.values[-2], first.values[-2], first.last)
        return self.turns(name, first.host, first.first, last, text), {name: first.host}

    def others(self):
        """One or two statements that need no table."""
        makes = [self.pick(self.statement, self.statement, self.cases) for _ in range(self.randint(1, 2))]
        return "\n".join(make({}, 2) for make in makes), {}

    # ---- routines

    def outer(self, text):
        """The variables of the program that a text names, most of them to be passed as variables."""
        named = dict.fromkeys(name.lower() for name in TOKEN.findall(text))
        return ", ".join(self.pick("var ", "var ", "var ", "") + name for name in named if name in self.kinds)

    def paragraph(self, *makes):
        """Statements of one of these kinds, as they are or as a call of a procedure that has them."""
        text, local = self.pick(*makes)()
        outer = self.outer(text)
        if outer == "" or self.random() < 0.55:
            self.declare(**local)
            return text
        name = self.fresh("do")
        self.routine(name, outer, text, **local)
        return self.called(f"{self.call(name)};")

    def called(self, call):
        """A call, which may stand elsewhere too."""
        self.calls.append(call)
        return call

    def recursion(self):
        """A routine that calls itself: it fills a table, or adds its elements."""
        table, name, k = self.pick(*self.tables), self.fresh("go"), self.fresh("k")
        first, *others = table.indexes
        if first.host != "integer" or table.host != "integer":
            return self.paragraph(self.fill, self.show)
        element = table.element.format(k, *(index.last for index in others))
        test, again = f"{k} {self.pick('<', '<=')} {first.last}", f"{name}({k} + 1{{0}})"
        kind = self.pick("integer", self.typed("step", f"{first.first}..{int(first.values[-1]) + self.randint(0, 1)}"))
        if self.chance():
            value = self.value("integer", {k: "integer"})
            text, more = f"if {test} then begin {element} := {value}; {again} end;", {}
        else:
            value = self.pick(element, f"({element} + {again}) mod 9")
            text, more = f"if {test} then {name} := {value} else {name} := 0;", {"result": "integer"}
        outer = self.outer(text)
        passed = "".join(f", {word.removeprefix('var ')}" for word in outer.split(", ") * self.passes)
        self.routine(name, outer, text.replace("{0}", passed), own=[f"{k}: {kind}"], **more)
        call = self.call(name, self.pick(first.first, first.values[1]))
        return self.called(f"write({call}: 4);" if more else f"{call};")

    # ---- the whole

    def begin(self, name, host):
        """A variable gets a value."""
        return self.pick(f"{name} := {FIRST_VALUES[host]};", *[f"read({name});"] * (host in READ))

    def program(self, *body):
        """The program with this body, at times inside a procedure. Routines stand in the order in which they were made,
        since one may call those before it."""
        variables = [text.split(": ") for text in self.shuffled(self.parts["var"])]
        if self.chance():
            kinds = dict.fromkeys(kind for _, kind in variables)
            variables = [(", ".join(name for name, its in variables if its == kind), kind) for kind in kinds]
        parts = self.parts | {"var": [": ".join(pair) for pair in variables], "body": body}
        if self.random() < 0.15:
            run = {part: parts[part] for part in ("var", "routines", "body")}
            parts |= {"var": [], "routines": [f"procedure run;\n{block(run)};"], "body": ["run;"]}
        return Program(parts).renamed(self)


def tables(seed):
    """A program that fills tables and uses them."""
    m = Tables(seed)
    for _ in range(m.pick(1, 1, 2)):
        m.table()
    fills = [m.paragraph(m.fill, m.fill, m.fill_parts) for _ in range(m.pick(0, 1, 1, 2))]
    kinds = m.fill, m.fill, m.fill_parts, m.fill_some, m.show, m.show, m.show, m.move, m.others
    texts = [m.recursion() if m.random() < 0.2 else m.paragraph(*kinds) for _ in range(m.randint(1, 4))]
    return m.program(" ".join(m.begin(*it) for it in m.hosts.items() if m.random() < 0.9), *fills, *texts)


def program(seed):
    """The source of a program of a few lines: in one of ten an idiom, where that isn't too long."""
    for turn in count():
        m = Maker(f"{seed}, {turn}")
        made = m.pick(*IDIOMS)(m) if m.random() < 0.1 else tables(m.random())
        if LEAST_LINES <= made.source.count("\n") <= MOST_LINES:
            return made.source
    return None
