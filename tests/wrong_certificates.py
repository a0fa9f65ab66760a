"""Makes certificates that are wrong out of a right one, by chance, for `tests/same_answers`. Some of them are right
again, and say less or more than it does."""

import re

from forged_cases import exchanged, joined, twice, with_another, without

# Numbers but those of variables, and these.
NUMBER = re.compile(rb"(?<= )-?[0-9]+|(?<=[0-9])[+-][0-9]+")
ROOT = re.compile(rb"(?<= v)[0-9]+")
BOUND = re.compile(rb"(v[0-9]+|)(.*)")
ELEMENTS = re.compile(rb" defined (\S+) (\S+) (\S+)$")
BLOCK = re.compile(rb" defined (\S+) (\S+) (\S+) (\S+) (\S+)$")
GROWTH = re.compile(rb" grow v([0-9]+) (\S+) (\S+) (\S+) (\S+)$")
PARTS = re.compile(rb" defined \S*\[\]")
# What there isn't in a version yet.
LATER = {1: (BLOCK, GROWTH, PARTS), 2: (PARTS,)}
ARRAY = re.compile(rb" (?:range (?=\S*\[)|defined (?=\S+ \S+ \S))(v[0-9]+[.a-z0-9]*)")
ORDINAL = re.compile(rb"(?<= range )v[0-9]+(?= )|(?<= order )v[0-9]+|(?<= )v[0-9]+(?=[+-])")
TOKEN = re.compile(rb"v[0-9]+|\[\]|\.[a-z0-9]+|[+-]?[0-9]+")
FACTS = (b"entry", b"exit", b"fact")
WORDS = (b"alias", b"change", *FACTS)
FORMS = (b"range", b"defined", b"a stretch", b"a block", b"order", b"grow")
BOUNDED = FORMS[2:4]
HEADS = (b"proc ", b"loop ")
LARGE = (0, 999999, 1000000, 2147483647, 2147483648, -2147483647, -2147483648, 10**20)
# None of them is that of a later version, which another compiler may know.
HEADINGS = (b"", b"pcert", b"pcert 0", b"pcert 01", b"pcert 1 ", b" pcert 1", b"Pcert 1", b"pcert -1", b"pcert 1.0",
            b"pcert  1", b"pcert 1 2", b"proc 0", b"pcert 99999999999999999999")


# ---- lines


def left_out(chance, lines):
    return joined(without(lines, chance.randint(1, len(lines))))


def fact_left_out(chance, lines):
    facts = [at for at, line in enumerate(lines, 1) if line.startswith(FACTS)]
    return joined(without(lines, chance.choice(facts))) if facts else left_out(chance, lines)


def doubled(chance, lines):
    return joined(twice(lines, chance.randint(1, len(lines))))


def put_behind_the_next(chance, lines):
    if len(lines) == 1:
        return doubled(chance, lines)
    at = chance.randint(1, len(lines) - 1)
    return joined(exchanged(lines, at, at + 1))


def cut(chance, lines):
    """Cut inside, with an end of the last line or without one, or with another byte."""
    text = joined(lines)
    at = chance.randrange(len(text))
    return chance.choice((text[:at], text[:at] + b"\n", with_another(text, at)))


def with_another_heading(chance, lines):
    return joined([chance.choice(HEADINGS), *lines[1:]])


def in_version(number, lines):
    """A certificate of an earlier version with those lines that there may be in one."""
    return [b"pcert %d" % number, *(line for line in lines[1:] if not any(form.search(line) for form in LATER[number]))]


def of_version_1(_, lines):
    return joined(in_version(1, lines))


def of_version_2(_, lines):
    return joined(in_version(2, lines))


# ---- numbers


def with_changed(chance, lines, pattern, change):
    """With another text in the place of one that a pattern finds below the heading."""
    found = [(at, match) for at, line in enumerate(lines) for match in pattern.finditer(line) if at > 0]
    if not found:
        return fact_left_out(chance, lines)
    at, match = chance.choice(found)
    changed = lines[at][:match.start()] + change(match) + lines[at][match.end():]
    return joined([*lines[:at], changed, *lines[at + 1:]])


def nudged(chance, lines):
    """A number is one more or less, or a large one."""

    def change(match):
        number = int(match[0]) + chance.choice((-1, 1))
        number = chance.choice(LARGE) if chance.random() < 0.25 else number
        is_offset = pattern is NUMBER and match.start() > 0 and match.string[match.start() - 1:match.start()] != b" "
        return (b"%+d" if is_offset else b"%d") % number

    pattern = chance.choice((NUMBER, NUMBER, NUMBER, ROOT))
    return with_changed(chance, lines, pattern, change)


def with_another_variable(chance, lines):
    """A variable's number is that of another one, which the certificate names or not."""
    named = {int(root) for line in lines for root in ROOT.findall(line)} or {0}

    def change(match):
        others = sorted({*named, max(named) + 1, chance.randint(0, max(named))} - {int(match[0])})
        return b"%d" % chance.choice(others)

    return with_changed(chance, lines, ROOT, change)


# ---- stretches and blocks


class Place:
    """A block or a loop below which stretches may be claimed: its lines, and what its certificate has for them."""

    def __init__(self, chance, lines, at):
        self.chance, self.lines, self.at = chance, lines, at
        self.end = min((to for to, line in enumerate(lines) if to > at and line.startswith(HEADS)), default=len(lines))
        self.own = lines[at + 1:self.end]
        self.stretches = [match.groups() for match in map(ELEMENTS.search, self.own) if match]

    def found(self, pattern):
        """What a pattern finds in its own lines, or else in all, or now and then any variable."""
        own, every = (pattern.findall(b"\n".join(lines)) for lines in (self.own, self.lines))
        if not every or self.chance.random() < 0.1:
            return b"v%d" % self.chance.randint(0, 9)
        return self.chance.choice(own if own and self.chance.random() < 0.85 else every)

    def path(self):
        """An array."""
        if self.stretches and self.chance.random() < 0.6:
            return self.chance.choice(self.stretches)[0]
        return self.found(ARRAY)

    def bound(self):
        """A bound by chance."""
        if self.chance.random() < 0.5:
            return b"%d" % self.chance.randint(-2, 9)
        return b"%s%+d" % (self.found(ORDINAL), self.chance.randint(-2, 2))

    def bounds(self, path):
        """Those of a stretch of a path that is there, or others."""
        known = [its[1:] for its in self.stretches if its[0] == path]
        if known and self.chance.random() < 0.8:
            return self.chance.choice(known)
        first = self.bound()
        return first, self.chance.choice((self.bound(), moved(first, self.chance.randint(-1, 4))))

    def with_more(self, path, *added):
        """The certificate with more stretches or blocks of a path there, in order."""
        is_loop = self.lines[self.at].startswith(b"loop")
        word = b"fact" if is_loop else self.chance.choice((b"entry", b"exit"))
        added = {b" ".join((word, b"defined", path, *bounds)) for bounds in added}
        return joined([*self.lines[:self.at + 1], *sorted({*self.own, *added}, key=standing), *self.lines[self.end:]])


def place(chance, lines):
    """A loop mostly, or a block; a certificate without them gets one."""
    lines = lines if len(lines) > 1 else [*lines, b"proc 0", b"loop 0"]
    heads = [at for at, line in enumerate(lines) if line.startswith(HEADS)]
    loops = [at for at in heads if lines[at].startswith(b"loop")]
    return Place(chance, lines, chance.choice(loops if loops and chance.random() < 0.8 else heads))


def moved(bound, by):
    """A bound with a number added."""
    root, number = BOUND.fullmatch(bound).groups()
    return (b"%s%+d" if root else b"%s%d") % (root, int(number) + by)


def with_a_stretch(chance, lines):
    """One more, which lies in one that is there, over its ends or beside it, or elsewhere."""
    it = place(chance, lines)
    path = it.path()
    first, last = it.bounds(path)
    by, more = chance.randint(1, 2), chance.randint(1, 5)
    return it.with_more(path, chance.choice((
        (moved(first, by), last), (first, moved(last, -by)), (first, moved(last, by)), (moved(first, -by), last),
        (moved(last, 1), moved(last, more)), (last, moved(last, more)), (moved(first, -more), moved(first, -1)),
        (moved(last, 1), last), (last, last), (first, it.bound()), (it.bound(), last))))


def with_two_stretches(chance, lines):
    """Two more, which meet, lie over one another or have a gap between them."""
    it = place(chance, lines)
    path = it.path()
    first, last = it.bounds(path)
    middle = moved(*chance.choice(((first, chance.randint(0, 3)), (last, -chance.randint(0, 3)))))
    return it.with_more(path, (first, middle), (moved(middle, chance.choice((1, 1, 1, 0, -1, 2))), last))


def with_another_bound(chance, lines):
    """A bound is by another variable, or another one altogether."""
    found = [at for at, line in enumerate(lines) if form_of(line) in BOUNDED]
    if not found:
        return with_a_stretch(chance, lines)
    at = chance.choice(found)
    match = BLOCK.search(lines[at]) or ELEMENTS.search(lines[at])
    it, side = Place(chance, lines, head_of(lines, at)), chance.randint(2, len(match.groups()))
    root, number = BOUND.fullmatch(match[side]).groups()
    new = it.found(ORDINAL) + number if root and chance.random() < 0.6 else it.bound()
    return joined([*lines[:at], lines[at][:match.start(side)] + new + lines[at][match.end(side):], *lines[at + 1:]])


def with_a_block(chance, lines):
    """One more, which lies in one that is there, over its ends or beside it."""
    found = [at for at, line in enumerate(lines) if BLOCK.search(line)]
    if not found:
        return with_a_stretch(chance, lines)
    at = chance.choice(found)
    path, *bounds = BLOCK.search(lines[at]).groups()
    side = chance.choice((0, 2))
    first, last = bounds[side:side + 2]
    by, more = chance.randint(1, 2), chance.randint(1, 5)
    bounds[side:side + 2] = chance.choice((
        (moved(first, by), last), (first, moved(last, -by)), (first, moved(last, by)), (moved(first, -by), last),
        (moved(last, 1), moved(last, more)), (moved(first, -more), moved(first, -1)), (last, last), (first, first)))
    return Place(chance, lines, head_of(lines, at)).with_more(path, bounds)


# ---- growths


def with_another_growth(chance, lines):
    """One that is there has other numbers or another variable, is one of another loop, or stands there beside it."""
    found = [at for at, line in enumerate(lines) if GROWTH.search(line)]
    if not found:
        return nudged(chance, lines)
    at = chance.choice(found)
    root, *numbers = map(int, GROWTH.search(lines[at]).groups())
    if chance.random() < 0.5:
        return joined([*lines[:at], growth(root, with_one_moved(chance, numbers)), *lines[at + 1:]])
    to = chance.choice([at for at, line in enumerate(lines) if line.startswith(b"loop ")])
    named = sorted({int(root) for line in lines for root in ROOT.findall(line)})
    more = growth(chance.choice([root, root, *named]), chance.choice((numbers, with_one_moved(chance, numbers))))
    kept = lines if chance.random() < 0.5 else without(lines, at + 1)
    return with_growth(kept, lines[to], more)


def growth(root, numbers):
    return b"fact grow v%d %d %d %d %d" % (root, *numbers)


def with_one_moved(chance, numbers):
    """One of the four numbers is another, mostly so that they say more."""
    side = chance.randrange(4)
    inwards = 1 if side < 2 else -1
    by = chance.choice((inwards, inwards, inwards, -inwards, chance.choice((-1, 1)) * chance.randint(2, 99)))
    return [number + by if at == side else number for at, number in enumerate(numbers)]


def with_growth(lines, head, more):
    """The certificate with a growth below a loop, where its others stand."""
    at = lines.index(head)
    end = min((to for to, line in enumerate(lines) if to > at and line.startswith(HEADS)), default=len(lines))
    own = {*lines[at + 1:end], more}
    return joined([*lines[:at + 1], *sorted(own, key=standing), *lines[end:]])


def head_of(lines, at):
    return max(above for above in range(at) if lines[above].startswith(HEADS))


def form_of(line):
    """The form of a fact."""
    return b"a stretch" if ELEMENTS.search(line) else b"a block" if BLOCK.search(line) else line.split(b" ")[1]


def standing(line):
    """Where a line stands among those of its block or loop."""
    word, *more = line.split(b" ")
    form = FORMS.index(form_of(line)) if word in FACTS else 0
    return WORDS.index(word), form, [[token_standing(token) for token in TOKEN.findall(it)] for it in more]


def token_standing(token):
    if token.startswith((b"v", b".")):
        return (1, int(token[1:]), b"") if token.startswith(b"v") else (3, 0, token)
    return (2, 0, b"") if token == b"[]" else (0, int(token), b"")


# ---- all of them

ALWAYS_WRONG = {"a line twice": doubled, "a line behind the next": put_behind_the_next, "cut": cut,
                "another heading": with_another_heading}
WAYS = {"a line left out": left_out, "a fact left out": fact_left_out, "another number": nudged,
        "another variable": with_another_variable, "another bound": with_another_bound,
        "a stretch more": with_a_stretch, "two stretches more": with_two_stretches, "a block more": with_a_block,
        "another growth": with_another_growth, "version 1": of_version_1, "version 2": of_version_2}


def wrong_certificates(chance, text):
    """What is done to each, and its text. Some are of an earlier version."""
    lines = text.split(b"\n")[:-1]
    titles = {*chance.sample(sorted(ALWAYS_WRONG), 2), *WAYS}
    for title, way in (ALWAYS_WRONG | WAYS).items():
        if title in titles:
            yield title, way(chance, chance.choice((lines, lines, in_version(1, lines), in_version(2, lines))))
