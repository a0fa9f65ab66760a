"""A source as a page: the tokens of told sites red, those of closed ones green, with what is said of them."""

import html

from tools import pascal
from tools.libraries import colours

STYLE = """body { font: 16px/1.4 sans-serif; margin: 2em; max-width: 70em }
pre { font: 14px/1.5 monospace; overflow-x: auto }
.told { background: #fcc; border-bottom: 2px solid #c00 }
.closed { background: #dfd }
.number { color: #767676; display: inline-block; text-align: right; width: 4em; margin-right: 1em }
td, th { padding: 0 1em; text-align: right }
td:first-child, th:first-child { text-align: left }
dt { margin-top: 1em; font-family: monospace }
"""


def page(path, source, records, sites):
    """The page of a source, with its records and its sites."""
    marks, rules = marks_of(records, sites), colours()
    text = source.decode(pascal.ENCODING)
    shown = Shown(text, kinds_of(text) if rules else ())
    title = html.escape(path)
    parts = [
        f'<!doctype html>\n<html lang="en">\n<meta charset="utf-8">\n<title>{title}</title>\n',
        f"<style>\n{STYLE}{rules}</style>\n<h1>{title}</h1>\n",
        f"<p>{html.escape(sites.last_line())}</p>\n{table(sites)}" if sites else "",
        f"<pre>\n{''.join(lines_of(text, marks, shown))}</pre>\n",
        f"<dl>\n{''.join(entry(record) for record in records)}</dl>\n</html>\n",
    ]
    return "".join(parts).encode("utf-8", "replace")


def has_colours():
    return bool(colours())


def marks_of(records, sites):
    """What is said at each place: whether something is told there, and the words."""
    marks = {}
    for site in sites.closed if sites else []:
        marks.setdefault((site.line, site.column), []).append((False, f"closed: {site.kind}"))
    for record in records:
        if record.column:
            words = [f"{record.kind}: {record.name}", *record.seen, *record.sentences]
            marks.setdefault((record.line, record.column), []).append((True, "\n".join(words)))
    return marks


class Shown:
    """What a page shows of a text, piece by piece from its beginning, with the kinds of its tokens."""

    def __init__(self, text, kinds):
        self.text, self.at = text, 0
        self.kinds = iter(kinds)
        self.next_kind()

    def next_kind(self):
        size = len(self.text)
        self.start, self.end, self.kind = next(self.kinds, (size, size, ""))

    def upto(self, end):
        """The next piece, which ends there."""
        parts = []
        while self.at < end:
            if self.at < self.start:
                parts.append(self.piece(min(end, self.start)))
            elif self.at < self.end:
                parts.append(f'<span class="{self.kind}">{self.piece(min(end, self.end))}</span>')
            else:
                self.next_kind()
        return "".join(parts)

    def piece(self, end):
        before, self.at = self.at, end
        return html.escape(self.text[before:end].encode(pascal.ENCODING).decode("utf-8", "replace"))


def kinds_of(text):
    """The tokens that have a colour: where they begin and end, and the class of their kind."""
    for token in pascal.TOKEN.finditer(text):
        kind = kind_of(token[0].lower(), token.lastgroup)
        if kind:
            yield *token.span(), kind


def kind_of(text, group):
    if group == "blank":
        return "" if text.isspace() else "c"
    if group == "word":
        return "k" if text in pascal.RESERVED else "nb" if text in pascal.REQUIRED else ""
    return {"string": "s", "number": "mi"}.get(group, "")


def lines_of(text, marks, shown):
    """The lines of the source with their numbers and marks."""
    columns = {}
    for number, column in sorted(marks):
        columns.setdefault(number, []).append(column)
    for number, line in enumerate(text.split("\n"), 1):
        begin, at, parts = shown.at, 0, [f'<span class="number" id="L{number}">{number}</span>']
        for column in columns.get(number, ()):
            start = min(max(at, column - 1), len(line))
            at = max(start, token_end(line, start))
            parts.append(shown.upto(begin + start))
            parts.append(marked(shown.upto(begin + at) or " ", marks[number, column]))
        yield "".join([*parts, shown.upto(begin + len(line)), "\n"])
        shown.at = begin + len(line) + 1


def token_end(line, start):
    found = pascal.TOKEN.match(line, start)
    return found.end() if found and found.lastgroup != "blank" else start


def marked(text, said):
    is_told = any(told for told, _ in said)
    words = html.escape("\n\n".join(words for told, words in said if told == is_told))
    return f'<span class="{"told" if is_told else "closed"}" title="{words}">{text}</span>'


def table(sites):
    head, *rows = sites.rows()
    cells = "".join(f"<th>{cell}" for cell in head)
    lines = ["".join(f"<td>{cell}" for cell in row) for row in rows]
    return f"<table>\n<tr>{cells}\n" + "".join(f"<tr>{line}\n" for line in lines) + "</table>\n"


def entry(record):
    """What the list below the source says of a record."""
    link = f'<a href="#L{record.line}">{html.escape(record.told)}</a>' if record.line else html.escape(record.told)
    said = [*record.seen, *(record.sentences if record.is_first else [])]
    return f"<dt>{link}\n" + "".join(f"<dd>{html.escape(sentence)}\n" for sentence in said)
