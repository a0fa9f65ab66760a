"""What libraries of others are taken for, where they are installed. Without them everything is as right, and a page is
plainer; `bin/explain --libraries` tells which are there."""

import functools
import importlib
import unicodedata
from typing import NamedTuple


class Library(NamedTuple):
    """A library by its name in Python, the package that Debian has of it, and what it is for."""

    name: str
    package: str
    use: str
    without: str


LIBRARIES = (
    Library("wcwidth", "python3-wcwidth", "how wide a character is on a terminal", "Python's own table tells it"),
    Library("pygments", "python3-pygments", "the colours of a source on a page", "the page shows it in one colour"),
)
# The classes that a page gives to tokens, by what pygments calls their kinds.
CLASSES = {"c": "comment", "k": "reserved word", "mi": "number", "nb": "required name", "s": "string"}


@functools.lru_cache(maxsize=None)
def library(name):
    """A library, or a part of one; None where it isn't installed."""
    try:
        return importlib.import_module(name)
    except ImportError:
        return None


def lines():
    """What each library is for, and what happens where it isn't installed."""
    for one in LIBRARIES:
        is_there = library(one.name)
        state = "installed" if is_there else f"not installed ({one.package}): {one.without}"
        yield f"{one.name}, for {one.use}: {state}"


def cells_of(character):
    """How many cells of a terminal a character takes that can be shown."""
    if character.isascii():
        return 1
    wcwidth = library("wcwidth")
    if wcwidth:
        return max(0, wcwidth.wcwidth(character))
    if unicodedata.category(character) in ("Mn", "Me"):
        return 0
    return 2 if unicodedata.east_asian_width(character) in "WF" else 1


def colours():
    """The rules of a page for the classes of tokens; none where there are no colours."""
    formatters = library("pygments.formatters")
    rules = formatters.HtmlFormatter().get_style_defs("pre").split("\n") if formatters else []
    chosen = [rule.partition(" /*")[0] for rule in rules if rule.startswith(tuple(f"pre .{name} " for name in CLASSES))]
    return "".join(f"{rule}\n" for rule in chosen)
