"""Makes Pascal programs for `tests/guesses`: idioms that programs are full of, each from a seed, with names, constants,
loops, routines and the order of declarations by chance. A `~`, of which a line has one at most, stands in front of what
may stay open for a good reason; each other site has to be closed: it can't err, and the checker's rules can tell so."""

import re
import textwrap
from random import Random
from string import ascii_letters as letters, digits

KNOWN = set("""and array begin case const div do downto else end file for function goto if in label mod nil not of or
packed procedure program record repeat set then to type until var while with abs boolean char chr eof eoln false forward
input integer maxint odd ord output pred read readln sqr succ true write writeln""".split())
TOKEN = re.compile(r"'(?:[^']|'')*'|[a-z][a-z0-9]*", re.I)
PARTS = ("const", "type", "var", "routines", "body")
BOTH, ALL = "for while", "for while repeat"


def exchanged(text, names):
    """The text with other names, of a dictionary; strings are no names."""
    return TOKEN.sub(lambda found: names.get(found[0].lower(), found[0]), text)


def fresh_names(names, chance, taken=()):
    """A dictionary from names to new ones, none of which is taken."""
    new, taken = {}, KNOWN | set(taken)
    for name in sorted(names):
        while new.setdefault(name, "if").lower() in taken:
            new[name] = "".join(chance.choices(letters) + chance.choices(letters + digits, k=chance.randrange(9)))
        taken.add(new[name].lower())
    return new


def shifted(*texts):
    return textwrap.indent("\n".join(filter(None, texts)), "  ")


def compound(*texts):
    return f"begin\n{shifted(*texts)}\nend"


def block(parts):
    heads = [f"{word}\n{shifted(*parts[word])}" for word in ("const", "type", "var") if parts.get(word)]
    return "\n".join([*heads, *parts.get("routines", ()), compound(*parts["body"])])


class Program:
    """A program by its parts, lists of texts of whole lines; `may` has the lines and columns that may stay open."""

    def __init__(self, parts):
        self.parts = parts
        marked = f"program p(input, output);\n{block(parts)}.\n"
        self.source = marked.replace("~", "")
        self.names = {name.lower() for name in TOKEN.findall(self.source) if name[0] != "'"} - KNOWN
        self.may = {(line, text.index("~") + 1) for line, text in enumerate(marked.split("\n"), 1) if "~" in text}

    def changed(self, change):
        """The same with a change of each text."""
        return Program({part: [change(text) for text in texts] for part, texts in self.parts.items()})

    def renamed(self, chance, taken=()):
        names = fresh_names(self.names, chance, taken)
        return self.changed(lambda text: exchanged(text, names))

    def beside(self, other):
        """Both in one; no name of one is a name of the other."""
        return Program({part: self.parts[part] + other.parts[part] for part in PARTS})

    def with_copies(self, mark, chance):
        """The same with a copy of each routine, that isn't called, behind them; its lines end with the mark."""
        routines = "\n".join(self.parts["routines"])
        names = {name.lower() for name in re.findall(r"^ *(?:procedure|function) (\w+)", routines, re.M)}
        copies = exchanged(routines, fresh_names(names, chance, self.names)).replace("\n", f" {mark}\n")
        return Program(self.parts | {"routines": [routines, f"{copies} {mark}"] if routines else []})


class Maker(Random):
    """Makes one program, by chance from a seed."""

    def __init__(self, seed):
        super().__init__(seed)
        self.parts, self.passes, self.kinds, self.actuals = {part: [] for part in PARTS}, self.chance(), {}, {}

    def pick(self, *choices):
        return self.choice(choices)

    def chance(self):
        return self.pick(False, True)

    def shuffled(self, texts):
        return self.sample(texts, len(texts))

    def number(self, value):
        """A number as it is, or a new constant of this value."""
        if self.chance():
            return str(value)
        self.parts["const"].append(f"c{len(self.parts['const'])} = {value};")
        return self.parts["const"][-1].split()[0]

    def declare(self, types=(), **variables):
        """Declares types, and variables of types that have names."""
        self.kinds |= variables
        self.parts["type"] += [f"{name} = {denoter};" for name, denoter in dict(types).items()]
        self.parts["var"] += [f"{name}: {kind};" for name, kind in variables.items()]

    def noise(self, *more):
        """A statement that has to do with nothing else, or none."""
        return self.pick("", "", "", "write('.');", "if odd(7) then writeln('''');", "begin end;", *more)

    def loop(self, index, first, last, *texts, forms=BOTH, down=False):
        """A loop over an index, at times down if it may be; `repeat` is for bounds between which there is a turn."""
        form, texts = self.pick(*forms.split()), (self.noise(), *texts)
        word, sign, on, behind = "to", "+", "<=", ">"
        if down and self.chance():
            first, last, word, sign, on, behind = last, first, "downto", "-", ">=", "<"
        begin, step = f"{index} := {first}", f"{index} := {index} {sign} 1"
        return {"for": f"for {begin} {word} {last} do\n{compound(*texts)};",
                "while": f"{begin};\nwhile {index} {on} {last} do\n{compound(*texts, step)};",
                "repeat": f"{begin};\nrepeat\n{shifted(*texts, step)}\nuntil {index} {behind} {last};"}[form]

    def routine(self, name, outer, *texts, own=(), result="", **local):
        """Declares a procedure or function. The variables round it, with `var` where it changes them, are formal
        parameters in half of the programs, behind its own ones."""
        outer = outer.split(", ") * (self.passes and outer != "")
        actuals = self.actuals[name] = [word.removeprefix("var ") for word in outer]
        formals = "; ".join([*own, *(f"{self.pick('var ', word[:-len(actual)])}{actual}1: {self.kinds[actual]}"
                                     for word, actual in zip(outer, actuals))])
        head = f"{'function' if result else 'procedure'} {name}{formals and f'({formals})'}{result and ': '}{result};"
        body = exchanged("\n".join(filter(None, (self.noise(), *texts))), {word: f"{word}1" for word in actuals})
        local = {"var": [f"{variable}: {kind};" for variable, kind in local.items()]}
        self.parts["routines"].append(f"{head}\n{block(local | {'body': [body]})};")

    def call(self, name, *own):
        return f"{name}({', '.join([*own, *self.actuals[name]])})".removesuffix("()")

    def part(self, name, outer, text, **local):
        """Statements as they are, or the call of a procedure of them, which has their variables."""
        if self.chance():
            self.declare(**local)
            return text
        self.routine(name, outer, text, **local)
        return f"{self.call(name)};"

    def program(self, *body):
        """The program with this body: at times in a procedure, and its routines in that or outside of it."""
        extra = self.randint(1, 9)
        noise = f"extra := extra mod {extra} + 1;", "if extra > 3 then write(extra: 2);"
        body = [text for part in body for text in (self.noise(*noise), part)]
        routines = sorted(self.shuffled(self.parts["routines"]), key=lambda routine: "swap(var" not in routine)
        parts = self.parts | {"var": self.shuffled(self.parts["var"]), "const": self.shuffled(self.parts["const"])}
        if self.chance():
            around, within = self.pick(*[([], routines), (routines, [])][:1 + self.passes])
            inner = block({"var": parts["var"], "routines": within, "body": body})
            parts["var"], routines, body = [], [*around, f"procedure run;\n{inner};"], ["run;"]
        parts["var"].insert(self.randint(0, len(parts["var"])), "extra: integer;")
        parts |= {"routines": routines, "body": [f"extra := {extra};", *body]}
        return Program(parts).renamed(self)


def counted_list(m):
    """A list with a counter: values are kept while there is room, and printed."""
    first, room = m.pick(1, 1, 0, -3, 12), m.randint(3, 40)
    low, high = m.number(first), m.number(first + room - 1)
    least, end, test, put = m.pick(
        (first - 1, "count", f"count {m.pick('<', '+ 1 <=')} {high}", "count := count + 1; list[count] := x"),
        (first, "count - 1", f"{high} >= count", "list[count] := x; count := count + 1"))
    m.declare({"table": f"array [{low}..{high}] of integer", "size": m.pick("integer", f"{least}..{least + room}")},
              list="table", count="size", x="integer", k="integer")
    keep = m.part("keep", "var list, var count, x", f"if {m.pick('', '(x <> 7) and ')}({test}) then begin {put} end;")
    fill = m.pick(m.loop("k", 1, m.number(m.randint(2, 60)), m.pick("x := k * k mod 7;", "read(x);"), keep),
                  f"while not eof do\n{compound('readln(x);', keep)};",
                  f"repeat\n{shifted('read(x);', keep)}\nuntil x = 0;")
    show = m.loop("i", low, end, "write(list[i]: 5);", down=True)
    seek = m.loop("j", first + 1, end, "if list[j] > most then most := list[j];")
    seek = f"if {low} <= {end} then\n{compound(f'most := list[{low}];', seek, 'writeln(most: 1)')};"
    return m.program(f"count := {m.number(least)};", fill, m.part("show", "var list, count", show, i="integer"),
                     m.part("greatest", "var list, count", seek, j="integer", most="integer"))


def stack(m):
    """A stack by routines, which test whether it is full or empty, or whose callers do."""
    first, is_tested, is_function = m.pick(1, 1, 0, 5), m.chance(), m.chance()
    low, high, result = m.number(first), m.number(first + m.randint(1, 50)), "pop" if is_function else "x"
    m.declare({"table": f"array [{low}..{high}] of integer", "size": m.pick("integer", f"{first - 1}..{high}")},
              item="table", top="size", k="integer", x="integer")
    room, take = f"if top < {high} then ", f"begin {result} := item[top]; top := top - 1 end"
    take = f"if top >= {low} then {take} else {result} := 0;" if is_tested else f"{take};"
    m.routine("push", "var item, var top", room * is_tested + "begin top := top + 1; item[top] := x end;",
              own=["x: integer"])
    m.routine("pop", "var item, var top", take, **{"result": "integer"} if is_function else {"own": ["var x: integer"]})
    push = f"{room * (not is_tested)}{m.call('push', m.pick('k', 'k * 3 mod 8', '-k'))};"
    pop = f"writeln({m.call('pop')});" if is_function else f"{m.call('pop', 'x')}; writeln(x);"
    ways = [f"while top >= {low} do\n{compound(pop)};", m.loop("k", 1, 9, pop), f"repeat {pop} until top < {low};"]
    return m.program(f"top := {m.number(first - 1)};", m.loop("k", 1, m.randint(2, 60), push, forms=ALL),
                     m.pick(*ways[:3 if is_tested else 1]))


def read_sort_print(m):
    """Values are read, sorted and printed: all of an array, or as many as the input says."""
    room, is_whole = m.randint(3, 30), m.chance()
    high, is_moved = m.number(room), is_whole and m.chance()
    n, before, more = (high, m.number(room - 1), "") if is_whole else ("n", "n - 1", ", n")
    m.declare({"value": m.pick("integer", "0..99", "-1..maxint"), "table": f"array [1..{high}] of value",
               "size": m.pick("integer", f"1..{room}")}, a="table", n="size")
    ask = "" if is_whole else f"read(n);\nif (n < 1) or (n > {high}) then n := {high};\n"
    fill = ask + m.loop("e", 1, n, "read(a[e]);", forms=ALL if is_whole else "for")
    fill = m.part("fill", f"var a{more and ', var n'}", fill, e="integer")
    swap = "begin t := {0}; {0} := {1}; {1} := t end;"
    if m.chance() and not is_moved:
        m.routine("swap", "", swap.format("x", "y"), own=["var x, y: value"], t="value")
        swap = "swap({0}, {1});"
    each = m.loop("j", "i + 1", n, f"if a[j] < a[i] then {swap.format('a[i]', 'a[j]')}")
    beside = m.loop("j", 1, before, f"if a[j] > a[j + 1] then {swap.format('a[j]', 'a[j + 1]')}")
    sort = m.loop("i", 1, *m.pick((before, each), (n, beside)))
    if is_moved:
        move = "if j < 1 then ready := true else if a[j] <= t then ready := true"
        move = f"while not ready do\n{compound(move, 'else begin a[j + 1] := a[j]; j := j - 1 end;')};"
        sort = m.loop("i", 2, n, "t := a[i]; j := i - 1; ready := false;", move, "a[j + 1] := t;")
    show = m.loop("k", 1, n, "write(a[k]: 4);", forms=ALL, down=True)
    return m.program(fill, m.part("sort", f"var a{more}", sort, i="integer", j="integer", t="value", ready="Boolean"),
                     m.part("show", f"var a{more}", show, k="integer"))


def divisor(m):
    """The greatest common divisor, by a function or in the midst of the program."""
    most, form, find = m.randint(2, 1000), m.pick("loop", "recursion", "inline"), "g := divide(x, y);"
    turn, local = "begin t := a mod b; a := b; b := t end;", dict(t="integer", k="integer")
    way = m.pick(f"while b <> 0 do {turn}", f"while b > 0 do {turn}", f"repeat {turn} until b = 0;",
                 m.loop("k", 1, 50, f"if b <> 0 then {turn}", forms=ALL))
    again = f"if {m.pick('b = 0', 'not (b > 0)')} then divide := a else divide := divide(b, a mod b);"
    m.declare({"natural": f"1..{m.number(most)}"}, x="natural", y="natural", g="integer", n="integer")
    if form == "inline":
        m.declare(a="integer", b="integer", **local)
        find = f"a := x; b := y;\n{way}\ng := a;"
    else:
        m.routine("divide", "", again if form == "recursion" else f"{way}\ndivide := a;", own=["a, b: integer"],
                  result="integer", **local)
    ask = m.pick("read(x, y);", f"x := {m.randint(1, most)}; y := {m.randint(1, most)};")
    return m.program(m.loop("n", 1, m.randint(2, 9), ask, find, "writeln(g: 1, x div g: 6, x div g * y: 9);"))


def histogram(m):
    """Values or letters are counted in an array, and the counts shown."""
    first, has_letters, most = m.pick(0, 1, -4), m.chance(), m.randint(5, 900)
    last, forms = first + m.randint(1, 25), "for" if has_letters else ALL
    low, high, kind = ("'a'", "'z'", "char") if has_letters else (m.number(first), m.number(last), "integer")
    bump, value = m.pick(
        (f"begin t := h[x]; if t < {m.number(most)} then h[x] := t + 1 end;", m.pick("integer", f"0..{most}")),
        (f"h[x] := (h[x] + 1) mod {m.number(most)};", m.pick("integer", f"0..{most}")),
        (f"if h[x] < {most} then h[x] ~:= h[x] + 1;", f"0..{most}"), ("h[x] := h[x] ~+ 1;", "integer"))
    m.declare({"value": value, "counts": f"array [{low}..{high}] of value"}, h="counts", x=kind, k="integer")
    test = f"if (x >= {low}) and (x <= {high}) then {bump}"
    if not has_letters and m.chance():
        test = f"x := x mod {last - first + 1};\nx := x {'+-'[first < 0]} {m.number(abs(first))};\n{bump}"
    test = m.part("enter", "var h, var x", test, t="value")
    count = m.pick(m.loop("k", 1, m.randint(2, 60), "read(x);", test, forms=ALL),
                   f"while not eof do\n{compound('read(x);', 'readln;', test)};")
    clear = m.loop("i", low, high, "h[i] := 0;", forms=forms, down=True)
    show = m.pick("write(h[j]: 4);", "if h[j] > 0 then writeln(j, h[j]: 4);", "for star := 1 to h[j] do write('*');")
    show = m.part("show", "var h", m.loop("j", low, high, show, forms=forms, down=True), j=kind, star="integer")
    return m.program(m.part("clear", "var h", clear, i=kind), count, show)


def halves(m):
    """Values are looked for by halves, or one by one, in an array that ascends."""
    first, room = m.pick(1, 1, 0, -8), m.randint(3, 60)
    low, high, none = m.number(first), m.number(first + room - 1), first - 1
    m.declare({"table": f"array [{low}..{high}] of integer", "place": m.pick("integer", f"{none}..{first + room}")},
              a="table", x="integer", k="integer", at="place")
    halve = shifted("mid := (lo + hi) div 2;", "if a[mid] = x then at := mid",
                    "else if a[mid] < x then lo := mid + 1 else hi := mid - 1;")
    begin = f"lo := {low}; hi := {high}; at := {none};\n"
    look = m.pick(f"{begin}while (lo <= hi) and (at = {none}) do begin\n{halve}\nend;",
                  f"{begin}repeat\n{halve}\nuntil (at > {none}) or (lo > hi);",
                  begin + m.loop("n", 1, 10, f"if lo <= hi then begin\n{halve}\nend;", forms=ALL),
                  f"mid := {low};\nwhile (mid < {high}) and (a[mid] < x) do mid := mid + 1;\nat := mid;")
    look = m.part("find", "var a, x, var at", look, lo="place", hi="place", mid="place", n="integer")
    fill = m.loop("i", low, high, f"a[i] := {m.pick('3 * i + 1', 'i * 2', 'i')};", forms=ALL, down=True)
    tell = f"if at > {none} then writeln(x: 1, a[at]: 5) else writeln('none');"
    return m.program(m.part("fill", "var a", fill, i="integer"),
                     m.loop("k", 1, m.randint(2, 9), m.pick("x := 3 * k + 1;", "read(x);"), look, tell, forms=ALL))


def matrix(m):
    """A matrix of all rows, or of as many as the input says; each is filled and then stored as a whole."""
    room, is_whole = m.randint(2, 12), m.chance()
    width, high = m.number(m.randint(2, 12)), m.number(room)
    n, more, ask = (high, "", "") if is_whole else ("n", ", n", "read(n);")
    m.declare({"cell": m.pick("integer", "0..999"), "row": f"array [1..{width}] of cell",
               "grid": f"array [1..{high}] of row", "size": f"1..{room}"}, g="grid", n="size")
    row = m.loop("j", 1, width, f"one[j] := {m.pick('(i * j) mod 50', 'i', '50 * i div j')};", forms=ALL, down=True)
    fill = m.loop("i", 1, n, row, "g[i] := one;", forms=ALL if is_whole else "for")
    fill = m.part("fill", f"var g{more}", fill, i="integer", j="integer", one="row")
    show = m.loop("l", 1, width, f"write({m.pick('g[k, l]', 'g[k][l]')}: 4);", forms=ALL, down=True)
    show = m.loop("k", 1, n, show, forms=ALL, down=True)
    return m.program(ask, fill, m.part("show", f"var g{more}", show, k="integer", l="integer"))


def text(m):
    """A line of text with its length: read, in capitals, printed, and compared from both ends."""
    high = m.number(m.randint(2, 80))
    m.declare({"line": f"{m.pick('', 'packed ')}array [1..{high}] of char", "size": m.pick("integer", f"0..{high}")},
              s="line", len="size")
    keep = f"if len < {high} then begin len := len + 1; s[len] := c end;"
    get = f"len := {m.number(0)};\nwhile not eoln do\n{compound('read(c);', keep)};\nreadln;"
    capital = "d := s[i];\nif (d >= 'a') and (d <= 'z') then d := chr(ord(d) - 32);\ns[i] := d;"
    change, show = (m.loop(i, 1, "len", turn, down=True) for i, turn in (("i", capital), ("k", "write(s[k]);")))
    mirror = "if ~s[p] <> s[q] then same := false;\np := p + 1; q := q - 1;"
    mirror = f"same := true; p := 1; q := len;\nwhile p < q do\n{compound(mirror)};\nwriteln(same);"
    return m.program(m.part("get", "var s, var len", get, c="char"), *m.shuffled([
        m.part("change", "var s, len", change, i="integer", d="char"), m.part("show", "var s, len", show, k="integer"),
        m.part("mirror", "var s, len", mirror, p="integer", q="integer", same="Boolean")]))


def ring(m):
    """A ring of cells by routines: values go in behind the last and come out at the first."""
    room = m.randint(2, 40)
    size, end = m.number(room), m.number(room - 1)
    m.declare({"cells": f"array [0..{end}] of integer", "place": m.pick("integer", f"0..{room}")},
              cell="cells", head="place", used="place", k="integer", x="integer")
    put = f"if used < {size} then begin cell[(head + used) mod {size}] := x; used := used + 1 end;"
    m.routine("enter", "var cell, head, var used", put, own=["x: integer"])
    on = m.pick(f"head := (head + 1) mod {size};", f"if head = {end} then head := 0 else head := head + 1;",
                f"if head < {end} then head := head + 1 else head := 0;")
    take = f"if used > 0 then\n{compound('x := cell[head];', on, 'used := used - 1')}\nelse x := 0;"
    m.routine("leave", "var cell, var head, var used", take, own=["var x: integer"])
    clear = m.part("clear", "var cell", m.loop("i", 0, end, "cell[i] := 0;", forms=ALL, down=True), i="integer")
    leave = f"begin {m.call('leave', 'x')}; write(x: 4) end;"
    turn = f"{m.call('enter', m.pick('k', 'k mod 3'))};", m.pick("", "if odd(k) then ") + leave
    turn = m.loop("k", 1, m.randint(2, 60), *turn, forms=ALL)
    return m.program(*m.shuffled([f"head := {m.number(0)};", f"used := {m.number(0)};", clear]), turn,
                     f"while used > 0 do {leave}")


def sums(m):
    """Sums and counts by the turns of for loops, also of one in another; and those that go on over loops or calls."""
    room, most = m.randint(2, 40), m.randint(1, 900)
    high, least = m.number(room), m.number(m.randint(-99, 99))
    n, more, ask = m.pick((high, "", ""), ("n", ", n", f"read(n);\nif (n < 1) or (n > {high}) then n := {high};"))
    m.declare({"value": f"0..{most}", "table": f"array [1..{high}] of value"}, a="table", n="integer", calls="integer")
    fill = m.part("fill", "var a", m.loop("e", 1, high, f"a[e] := e * 7 mod {most};", forms=ALL), e="integer")

    def turns(index, *texts, last=n):
        return m.loop(index, 1, last, *texts, forms="for", down=True)

    by, test = m.pick("3", "i", "a[i]", "(a[i] - i)", "sqr(i)"), m.pick("odd(i)", "a[i] > 3", "(i > 2) and odd(a[i])")
    step = m.pick(f"s := s + {by};", f"s := {by} + s;", f"s := s - {by};", f"if {test} then s := s + 1;",
                  f"if {test} then s := s + {by} else s := s - 1;", f"s := s + 1; if {test} then s := s + {by};")
    total = f"s := {least};\n{turns('i', step)}\nwrite(s: 1);"
    total = m.part("total", f"var a{more}", total, i="integer", s="integer")
    step = m.pick("t := t + k;", "t := k + t;", "t := t - k;", "if odd(k) then t := t + j;")
    nest = turns("j", f"t := {least};", turns("k", step, last=m.pick(n, "j")), "u := u + t;")
    nest = f"u := 0;\n{nest}\nwrite(u: 1);"
    nest = m.part("nest", more[2:], nest, j="integer", k="integer", t="integer", u="integer")
    on = f"w := 0;\n{turns('p', turns('q', 'w := w ~+ 1;'))}\nwrite(w: 1);"
    on = m.part("continue", more[2:], on, p="integer", q="integer", w="integer")
    m.routine("tick", "var calls", "calls := calls ~+ 1;")
    tick = f"calls := 0;\n{turns('r', m.call('tick') + ';')}\nwrite(calls: 1);"
    m.declare(r="integer")
    return m.program(ask, fill, *m.shuffled([total, nest, on, tick]))



def lengths(m):
    """A list is filled more than once, each time as far as the input says, and how far is kept by another variable."""
    high, less = m.number(m.randint(3, 40)), m.pick("", " - 1")
    m.declare({"table": f"array [1..{high}] of integer"}, a="table", n="integer", t="integer")
    fill = m.loop("i", 1, "k", m.pick("a[i] := i * 3;", "read(a[i]);"), forms="for")
    fill = f"read(k);\nif (k >= 1) and (k <= {high}) then\n{compound(fill, f'n := k{less};')};"
    fill = m.part("fill", "var a, var n", fill, i="integer", k="integer")
    show = m.part("show", "var a, n", m.loop("j", 1, "n", "write(a[j]: 1);", down=True), j="integer")
    return m.program("n := 0;", m.loop("t", 1, m.randint(2, 9), fill, forms=ALL), show)


def constants(m):
    """A routine stores at constants, one beside the other; a loop reads what stands there."""
    first, count, room = m.pick(1, 1, 0, -4, 10), m.randint(2, 8), m.randint(0, 5)
    places = range(first, first + count)
    m.declare({"table": f"array [{first - m.randint(0, 3)}..{first + count + room}] of integer"}, a="table")
    stores = [f"a[{m.number(place)}] := {m.randint(-99, 99)};" for place in m.pick(places, reversed(places))]
    m.routine("enter", "var a", *stores)
    show = m.loop("i", m.number(places[0]), m.number(places[-1]), "write(a[i] + 1: 1);", down=True)
    return m.program(f"{m.call('enter')};", m.part("show", "var a", show, i="integer"))


def passed(m):
    """An array is filled by a loop that steps from one bound to another, up or down, and read between them."""
    high, kind = m.number(m.randint(3, 40)), m.pick("integer", "integer", "bound")
    m.declare({"table": f"array [1..{high}] of integer", "bound": "0..maxint"},
              a="table", low="integer", top=kind, k="integer")
    fill = m.loop("i", "low", "top", "a[i] := i;", forms="while", down=True)
    m.routine("fill", "var a, low, top", fill, i="integer")
    show = m.loop("k", "low", "top", "write(a[k]: 1);", down=True)
    test = f"if (1 <= low) and (top <= {high}) then\n{compound(m.call('fill') + ';', show)};"
    return m.program("read(low, top);", test)


def side_by_side(m):
    """Arrays are filled by loops over one variable, each from a place of its own, and read behind all of them."""
    count, room = m.randint(5, 30), m.randint(6, 20)
    high, names = m.number(room), [f"a{number}" for number in range(count)]
    m.declare({"table": f"array [0..{high}] of integer"}, i="integer", x="integer", **dict.fromkeys(names, "table"))
    firsts = {name: m.randint(0, 5) for name in names}

    def loops(form):
        return [m.loop("i", firsts[name], high, form.format(name), forms="for", down=True) for name in names]

    return m.program("read(x);", *loops(m.pick("{}[i] := x;", "{}[i] := i;")), *loops("write({}[i]: 1);"))


def fields(m):
    """An array in a record is filled and shown by routines that get it alone."""
    high = m.number(m.randint(3, 40))
    m.declare({"table": f"array [1..{high}] of integer", "list": "record id: integer; data: table; size: integer end",
               "pair": "record one, other: list end"}, p="pair", n="integer")
    own = ["var a: table", "last: integer"]
    m.routine("fill", "", m.loop("i", 1, "last", m.pick("a[i] := i;", "read(a[i]);")), own=own, i="integer")
    m.routine("show", "", m.loop("j", 1, "last", "write(a[j]: 1);", down=True), own=own, j="integer")
    name = m.pick("one", "other")
    fill, show = (m.pick(f"{it}(p.{name}.data, n);", f"with p.{name} do {it}(data, n);") for it in ("fill", "show"))
    return m.program("read(n);", f"if (n >= 1) and (n <= {high}) then\n{compound(fill, show)};")


def neighbours(m):
    """Elements that stand some places apart are read together, as far as there are two, by a routine that gets one."""
    gap, high = m.randint(1, 5), m.number(m.randint(6, 40))
    m.declare({"table": f"array [1..{high}] of 0..99"}, a="table", n="integer", i="integer")
    fill = m.part("fill", "var a, n", m.loop("e", 1, "n", "a[e] := e;"), e="integer")
    m.routine("tell", "var a, n", f"writeln(a[k] + a[k + {gap}]: 1);", own=["k: integer"])
    tell = m.loop("i", 1, f"n - {gap}", f"{m.call('tell', 'i')};")
    return m.program("read(n);", f"if (n >= 1) and (n <= {high}) then\n{compound(fill, tell)};")


def remainders(m):
    """A number goes round below another one, by a routine; its type has no other end."""
    most, by = m.number(m.randint(2, 5000)), m.number(m.randint(1, 99))
    m.declare({"natural": "0..maxint"}, x="natural", size="natural", t="integer", k="integer")
    step = m.part("step", "var x, size", f"x := (x + {by}) mod size;")
    turn = m.loop("k", 1, m.randint(2, 99), step, "write(x: 1);", forms=ALL)
    return m.program("read(t);", f"if (t >= 1) and (t <= {most}) then\n{compound('size := t; x := 0;', turn)};")


def records(m):
    """The records of an array are filled field by field, as far as the input says, and shown."""
    high = m.number(m.randint(3, 40))
    m.declare({"item": "record price, stock: integer; mark: char end", "table": f"array [1..{high}] of item"},
              t="table", n="integer")
    stores = m.shuffled(["t[i].price := i * 3;", m.pick("t[i].stock := i;", "read(t[i].stock);"), "t[i].mark := 'a';"])
    fill = m.loop("i", 1, "n", *stores, forms="for", down=True)
    fill = m.part("fill", "var t, n", fill, i="integer")
    show = m.loop("j", 1, "n", "write(t[j].mark, t[j].price: 1, t[j].stock: 1);", down=True)
    show = m.part("show", "var t, n", show, j="integer")
    return m.program("read(n);", f"if (n >= 1) and (n <= {high}) then\n{compound(fill, show)};")


def clock(m):
    """Counters of which each steps where the one before it is full, as those of a clock; the last is never full."""
    units = [f"u{number}" for number in range(m.randint(3, 7))]
    m.declare({}, t="integer", **dict.fromkeys(units, "integer"))
    steps = f"{units[-1]} := {units[-1]} + 1;"
    for unit in reversed(units[:-1]):
        full = compound(f"{unit} := 0;", steps)
        steps = f"{unit} := {unit} + 1;\nif {unit} = {m.number(m.randint(2, 1000))} then\n{full};"
    begin = "\n".join(f"{unit} := 0;" for unit in m.shuffled(units))
    show = f"write({', '.join(units)});"
    return m.program(begin, m.loop("t", 1, m.randint(2, 99999), steps, show, forms="for", down=True))


def distances(m):
    """Distances between the beginnings of two words: the first row and the first column of a table, then row by row."""
    rows, columns = m.number(m.randint(2, 20)), m.number(m.randint(2, 20))
    m.declare({"table": f"array [0..{rows}, 0..{columns}] of integer"}, d="table")
    beside = m.shuffled([m.loop("i", 0, rows, "d[i, 0] := i;", forms="for", down=True),
                         m.loop("j", 0, columns, "d[0, j] := j;", forms="for", down=True)])
    least = "if d[i - 1, j] < d[i, j - 1] then\n  d[i, j] := d[i - 1, j]\nelse\n  d[i, j] := d[i - 1, j - 1];"
    fill = m.loop("i", 1, rows, m.loop("j", 1, columns, least, forms="for"), forms="for")
    fill = m.part("fill", "var d", "\n".join([*beside, fill]), i="integer", j="integer")
    return m.program(fill, f"write(d[{rows}, {columns}]);")


IDIOMS = (
    counted_list, stack, read_sort_print, divisor, histogram, halves, matrix, text, ring, sums, lengths, constants,
    passed, side_by_side, fields, neighbours, remainders, records, clock, distances,
)
