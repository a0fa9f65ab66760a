"""What could stand where a source is refused with P1, or with K1. The compiler itself is asked, with each token or
value in turn in place of what stands there.

P1 stands at the first token with which no program goes on; so what is before it is the beginning of one, and a token
fits behind it if P1 doesn't stand at that token too."""

from typing import NamedTuple

from tools import pascal

END_OF_TEXT = "the end of the text"
MOST_LETTERS = 30
# Words that only forms left out have give P3.
WORDS = sorted(pascal.RESERVED - {"file", "goto", "label", "nil"})
SIGNS = "+ - * = <> < > <= >= ( ) [ ] , ; : := .. .".split()
KINDS = {"a name": "x", "a number": "1", "a string": "'ab'"}
TOKENS = {**KINDS, **{text: text for text in [*SIGNS, *WORDS]}}
RELATIONS, SUMS, PRODUCTS = "= <> < > <= >= in".split(), "+ - or".split(), "* div mod and".split()
VALUES = ["a name", "a number", "a string", "+", "-"]
# What is told by one phrase where all of it fits; the first ones come first.
GROUPS = (
    ("an operator", {*RELATIONS, *SUMS, *PRODUCTS}),
    ("a statement", {"a name", "begin", "case", "for", "if", "repeat", "while", "with"}),
    ("an expression", {*VALUES, "(", "[", "not"}),
    ("a type", {*VALUES, "(", "array", "packed", "record", "set"}),
    ("a constant", set(VALUES)),
    ("a factor", {"a name", "a number", "a string", "(", "[", "not"}),
    ("an operator of sums or products", {*SUMS, *PRODUCTS}),
)
# How tightly operators hold their operands. What is left of `:=` is no value.
LEVELS = {":=": 0, "not": 4, **dict.fromkeys(RELATIONS, 1), **dict.fromkeys(SUMS, 2), **dict.fromkeys(PRODUCTS, 3)}
# What an expression ends before.
ENDS = {*", ; : .. ) ] end else then do of to downto until begin".split(), ""}
OPENING = set("( [ , := .. : begin then else do of if while until case to downto".split())
VALUES_BY_KIND = {"an integer": "1", "a Boolean": "true", "a character": "'a'", "a string": "'ab'", "a set": "[]"}


class Expectation(NamedTuple):
    """What is expected at a place, in words, and the tokens that fit there."""

    sentences: list
    fitting: list


NOTHING = Expectation([], [])


def expectation(asker, text, message):
    """What is expected where a source is refused."""
    text = text.decode(pascal.ENCODING)
    place = pascal.place_of(text, message.line, message.column)
    if message.name == "P1":
        fitting = fitting_tokens(asker, text[:place])
        return Expectation([f"expected {alternatives(grouped(fitting))}, found {token_at(text, place)}"], fitting)
    if message.name == "K1":
        return Expectation(list(filter(None, [fitting_values(asker, text, place)])), [])
    return NOTHING


def fitting_tokens(asker, before):
    """The tokens that fit behind the beginning of a program."""
    head = before + "\n"
    at = head.count("\n") + 1, 1
    refusals = asker.first_refusals([f"{head}{token}\n ".encode(pascal.ENCODING) for token in TOKENS.values()])
    return [name for name, refusal in zip(TOKENS, refusals) if not is_at(refusal, "P1", at)]


def is_at(refusal, name, place):
    return refusal is not None and refusal.name == name and (refusal.line, refusal.column) == place


def grouped(names):
    """The same with a phrase for each group of them."""
    left, phrases = list(names), []
    for phrase, group in GROUPS:
        if group <= set(left):
            phrases.append(phrase)
            left = [name for name in left if name not in group]
    return [*phrases, *left] or [END_OF_TEXT]


def alternatives(names):
    *others, last = names
    return f"{', '.join(others)} or {last}" if others else last


def token_at(text, place):
    """The token that begins at a place, as it is written."""
    found = pascal.tokens_of(text[place:])[0]
    written = text[place + found.start : place + found.end].split("\n")[0]
    return END_OF_TEXT if not found.text else written[:MOST_LETTERS] + (".." if len(written) > MOST_LETTERS else "")


class Operand(NamedTuple):
    """The numbers of the tokens of an operand, and how it stands to the place."""

    first: int
    behind: int
    stands: str


def fitting_values(asker, text, place):
    """Which values would fit at a place, or beside it where an operator stands there."""
    tokens = pascal.tokens_of(text)
    at = next((number for number, token in enumerate(tokens) if token.start == place), None)
    if at is None:
        return None
    values = {**VALUES_BY_KIND, **enumerated(tokens)}
    for operand in operands(tokens, at):
        texts = [replaced(text, tokens, operand, at, value) for value in values.values()]
        refusals = asker.first_refusals([changed.encode(pascal.ENCODING) for changed, _ in texts])
        is_here = operand.first == at
        fitting = [kind for kind, (_, spot), it in zip(values, texts, refusals) if fits(it, spot, is_here)]
        if fitting:
            return f"{alternatives(fitting)} fits {operand.stands}"
    return None


def fits(refusal, place, is_here):
    """Whether a value fits: a program with it has the form of one, and isn't refused at the place. A value at the place
    itself mustn't be refused at an operator before it either."""
    if refusal is None:
        return True
    found = refusal.line, refusal.column
    return refusal.name[0] not in "LP" and (found > place if is_here else not is_at(refusal, "K1", place))


def enumerated(tokens):
    parts = pascal.Statements(tokens).parts
    rows = pascal.enumerations(pascal.outside(tokens, parts))
    return {f"a value like {row[0]}": row[0] for row in rows}


def operands(tokens, at):
    """The operands to look at: those of an operator, or the expression that begins at the place."""
    word = tokens[at].text
    level = LEVELS.get(word)
    if level is None:
        return [Operand(at, end_of(tokens, at, 0), "here")]
    right = Operand(at + 1, end_of(tokens, at + 1, level), f"behind {word}")
    is_sign = word in ("+", "-") and tokens[at - 1].text in {*OPENING, *RELATIONS}
    if word in (":=", "not") or is_sign:
        return [right]
    return [right, Operand(start_of(tokens, at - 1, level), at, f"before {word}")]


def end_of(tokens, at, level):
    """The number of the token behind an operand of an operator of a level."""
    number = at + 1 if tokens[at].text in ("+", "-") else at
    while tokens[number].text not in ENDS and not (number > at and LEVELS.get(tokens[number].text, 9) <= level):
        number = pascal.behind_brackets(tokens, number) if tokens[number].text in ("(", "[") else number + 1
    return number


def start_of(tokens, at, level):
    """The number of the first token of the left operand, whose last one is given."""
    while at > 0:
        depth = 0
        while tokens[at].text in (")", "]") or depth:
            depth += (tokens[at].text in (")", "]")) - (tokens[at].text in ("(", "["))
            if not depth:
                break
            at -= 1
        before = tokens[at - 1].text
        if before in OPENING | ENDS or LEVELS.get(before, 9) < level:
            return at
        at -= 1
    return 0


def replaced(text, tokens, operand, at, value):
    """The text with a value in place of an operand, and where the token of the place is then."""
    start, end = tokens[operand.first].start, tokens[operand.behind - 1].end
    before, behind = text[:start] + "\n", "\n" + text[end:]
    changed = before + value + behind
    place = tokens[at].start
    moved = len(before) if operand.first == at else place if place < start else place + len(changed) - len(text)
    return changed, (changed.count("\n", 0, moved) + 1, moved - changed.rfind("\n", 0, moved))
