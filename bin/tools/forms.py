"""The forms of a record in lines: text for a terminal, and JSON."""

import json
import os

from tools.terminal import paragraphs

# The colours of lines by their kinds, and of the caret.
COLOURS = {"possible error": "33", "refused": "31", "certificate refused": "31", "error": "31", "input": "31"}
CARET = "36"


def is_coloured(stream):
    """Whether a stream is a terminal that is to show colours."""
    return "NO_COLOR" not in os.environ and os.environ.get("TERM") != "dumb" and os.isatty(stream)


def coloured(text, colour):
    return f"\033[1;{colour}m{text}\033[0m" if colour else text


def as_text(record, in_colour):
    """The lines that stand behind the line itself, and the line in its colour."""
    told, lines = record.told, list(record.shown)
    if in_colour:
        told = coloured(told, COLOURS.get(record.kind))
        lines[-1:] = [coloured(line, CARET) for line in lines[-1:]]
    return [told, *lines, *paragraphs([*record.seen, *(record.sentences if record.is_first else [])])]


def as_json(record):
    """The record as an object in one line."""
    return json.dumps(record._asdict())


def json_of_sites(sites):
    """The closed sites as objects, and one that has the numbers of all."""
    for site in sites.closed:
        yield json.dumps({"told": None, "kind": "closed", "name": site.kind, "file": sites.path, **place_of(site)})
    head, *rows = sites.rows()
    kinds = {name: dict(zip(head[1:], numbers)) for name, *numbers in rows}
    yield json.dumps({"told": sites.last_line(), "kind": "sites", "file": sites.path, "kinds": kinds})


def place_of(site):
    return {"line": site.line, "column": site.column}
