"""The names that a definition names that aren't bound inside of it."""

import re

from definitions.antt import CLOSING, MARKS, NUMERAL, OPENING, RESERVED, Name, fields_of, is_word

SOFT, HARD = "soft", "hard"


class Frame:
    """The names bound by one binder: till a separator, if it is soft, or till the bracket closes; in a `do` block till
    a line begins before its column."""

    def __init__(self, kind, names=(), column=-1):
        self.kind, self.names, self.column = kind, frozenset(names), column


class Names:
    """Collects the free names of tokens. What is no constructor is bound where it stands alone in a pattern."""

    def __init__(self, is_constructor):
        self.is_constructor = is_constructor
        self.found = []
        self.fields = []
        self.frames = [Frame(HARD)]
        # Names of `let` that hold behind its `in`, and those of statements of `do`, that hold behind them.
        self.lets, self.pending = [], []

    def bind(self, names, column=-1):
        self.frames.append(Frame(SOFT, names, column))

    def is_bound(self, name):
        return any(name in frame.names for frame in self.frames)

    def item(self, item):
        """Reads a definition."""
        self.span(list(item.parameters), is_kept=True)
        tokens = list(item.tokens)
        if item.kind != "definition":
            self.declared(tokens)
            return
        heads = (at for at, it in enumerate(tokens) if at and it.is_first and it.column == item.column)
        starts = [at for at in heads if tokens[at].text != "]"]
        ends = [*starts, len(tokens)]
        self.span(tokens[1 : ends[0]])
        for start, end in zip(starts, ends[1:]):
            self.clause(tokens[start:end], item.name)

    def declared(self, tokens):
        """Reads a record or a data type, whose fields are bound behind them."""
        where = next((at for at, it in enumerate(tokens) if it.text == "where"), len(tokens))
        self.frames.append(Frame(HARD))
        self.span(tokens[1:where], is_kept=True)
        for names, kind in fields_of(tokens):
            self.span(kind)
            self.bind(names)

    def clause(self, tokens, name):
        """Reads `f PATTERNS = TERM`."""
        equal = outside(tokens, "=")
        if equal is None:
            self.span(tokens)
            return
        own = {name, *filter(None, name.split("◌"))}
        self.frames.append(Frame(HARD))
        self.bind(self.pattern([it for it in tokens[:equal] if it.text not in own]))
        self.span(tokens[equal + 1 :])
        del self.frames[-2:]

    def pattern(self, tokens):
        """The names that a pattern binds; it names constructors."""
        bound = []
        for it in tokens:
            text = it.text
            if text in RESERVED or text in OPENING + CLOSING + ",;" or NUMERAL.match(text) or text[0] == '"':
                continue
            if "." in text or not is_word(text) or self.is_constructor(text):
                self.found.append(Name(tuple(text.split(".")), it.line))
            else:
                bound.append(text)
        return bound

    def span(self, tokens, is_kept=False):
        """Reads a term; what its binders bind is forgotten behind it, or kept."""
        depth = len(self.frames)
        lets, pending = len(self.lets), len(self.pending)
        at = 0
        while at < len(tokens):
            at = self.step(tokens, at)
        if not is_kept:
            del self.frames[max(depth, 1) :]
        del self.lets[lets:], self.pending[pending:]

    def step(self, tokens, at):
        """Reads on from a token; gives the number of the next one."""
        it = tokens[at]
        text = it.text
        if it.is_first:
            self.line(it)
        if it.is_first or (at and tokens[at - 1].text == "do"):
            arrow = self.arrow(tokens, at)
            if arrow:
                self.pending.append((it.column, self.pattern(tokens[at:arrow]), len(self.frames)))
                return arrow + 1
        if text in OPENING:
            return self.opened(tokens, at)
        if text in CLOSING or text == "]":
            self.closed()
        elif text in (",", ";"):
            self.separated()
        elif text == "λ":
            return self.lambda_(tokens, at + 1)
        elif text == "let":
            return self.let(tokens, at + 1)
        elif text == "in" and self.lets:
            self.bind(self.lets.pop())
        elif text in ("[", "|"):
            return self.case(tokens, at)
        elif text == "do":
            self.bind((), tokens[at + 1].column)
        else:
            self.name(it)
        return at + 1

    def line(self, it):
        """A line begins: a `do` block may end, and what its statements bound begins to hold."""
        at = len(self.frames)
        while self.frames[at - 1].kind == SOFT:
            at -= 1
            column = self.frames[at].column
            if column == it.column:
                del self.frames[at + 1 :]
                break
            if column > it.column:
                del self.frames[at:]
        while self.pending and self.pending[-1][0] > it.column:
            self.pending.pop()
        if self.pending and self.pending[-1][0] == it.column:
            column, names, depth = self.pending.pop()
            del self.frames[depth:]
            self.bind(names, column)

    def arrow(self, tokens, at):
        """The number of the `←` of a statement of `do` that begins here; None where it has none."""
        line, depth = tokens[at].line, 0
        while at < len(tokens) and tokens[at].line == line:
            depth += (tokens[at].text in OPENING) - (tokens[at].text in CLOSING)
            if tokens[at].text == "←" and depth == 0:
                return at
            if depth < 0 or tokens[at].text in ("do", "λ"):
                return None
            at += 1
        return None

    def opened(self, tokens, at):
        """A bracket opens: it binds names, has the fields of a record or an implicit argument, or is only a bracket."""
        colon = at + 1
        while colon < len(tokens) and (is_word(tokens[colon].text) or tokens[colon].text == "_"):
            colon += 1
        mark = tokens[colon].text if colon < len(tokens) else ""
        if mark == ":" and colon > at + 1:
            names = [it.text for it in tokens[at + 1 : colon]]
            end = behind(tokens, at)
            inner = tokens[colon + 1 : end - 1]
            self.span(inner)
            self.bind(names)
            return end
        self.frames.append(Frame(HARD))
        if tokens[at].text == "{" and mark == "=":
            if self.is_record(tokens, at):
                end = behind(tokens, at)
                self.record(tokens[at + 1 : end - 1])
                self.closed()
                return end
            return colon + 1
        return at + 1

    def is_record(self, tokens, at):
        """Whether the brace is that of `record {` or `record r {`."""
        return any(it.text == "record" for it in tokens[max(0, at - 2) : at]) or tokens[at - 1].text == ")"

    def record(self, tokens):
        """Reads `f = TERM; g = TERM`."""
        start = depth = 0
        for at, it in enumerate([*tokens, None]):
            if it and it.text in OPENING:
                depth += 1
            elif it and it.text in CLOSING:
                depth -= 1
            if it is None or (it.text == ";" and depth == 0):
                entry = tokens[start:at]
                if entry:
                    self.fields.append(Name((entry[0].text,), entry[0].line))
                    self.span(entry[2:])
                start = at + 1

    def closed(self):
        while self.frames[-1].kind == SOFT:
            self.frames.pop()
        if len(self.frames) > 1:
            self.frames.pop()

    def separated(self):
        while self.frames[-1].kind == SOFT:
            self.frames.pop()

    def lambda_(self, tokens, at):
        """Reads the binders of a λ."""
        names, depth = [], 0
        while at < len(tokens):
            text = tokens[at].text
            if text == ":" and depth:
                end = at
                level = 0
                while level >= 0:
                    end += 1
                    level += (tokens[end].text in OPENING) - (tokens[end].text in CLOSING)
                self.span(tokens[at + 1 : end])
                at = end
                continue
            depth += (text in OPENING) - (text in CLOSING)
            if is_word(text.rstrip(".")):
                names.append(text.rstrip("."))
            at += 1
            if text.endswith(".") and depth == 0:
                break
        self.bind(names)
        return at

    def let(self, tokens, at):
        """Reads what a `let` binds."""
        names = []
        while tokens[at].text not in (":", "="):
            names += [tokens[at].text] if is_word(tokens[at].text) else []
            at += 1
        self.lets.append(names)
        return at + 1

    def case(self, tokens, at):
        """Reads the pattern of a case of `elim`, if it is one."""
        if tokens[at].text == "|":
            self.separated()
        else:
            self.frames.append(Frame(HARD))
        end, depth = at + 1, 0
        while end < len(tokens) and not (tokens[end].text == "↦" and depth == 0):
            depth += (tokens[end].text in (*OPENING, "[")) - (tokens[end].text in (*CLOSING, "]"))
            if depth < 0 or tokens[end].text == "|":
                return at + 1
            end += 1
        if end == len(tokens):
            return at + 1
        self.bind(self.pattern(tokens[at + 1 : end]))
        return end + 1

    def name(self, it):
        """Reads a name, or a field behind a bracket."""
        text = it.text
        if text in RESERVED or text in MARKS or NUMERAL.match(text) or text[0] in '"?':
            return
        parts = tuple(text.strip(".").split(".")) if re.search(r"\w", text) else (text,)
        if text.startswith(".") and len(text) > 1:
            self.fields += [Name((part,), it.line) for part in parts]
        elif self.is_bound(parts[0]):
            self.fields += [Name((part,), it.line) for part in parts[1:]]
        else:
            self.found.append(Name(parts, it.line))


def outside(tokens, text):
    """The number of the first token of this text that stands in no bracket; None where there is none."""
    depth = 0
    for at, it in enumerate(tokens):
        depth += (it.text in OPENING) - (it.text in CLOSING)
        if it.text == text and depth == 0:
            return at
    return None


def behind(tokens, at):
    """The number of the token behind the bracket that opens here."""
    depth = 0
    while at < len(tokens):
        depth += (tokens[at].text in OPENING) - (tokens[at].text in CLOSING)
        at += 1
        if depth == 0:
            break
    return at
