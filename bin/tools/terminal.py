"""How text is written for a terminal: in its encoding, folded to a width, and cell by cell."""

import sys
import textwrap

from tools.libraries import cells_of

WIDTH = 100
MARGIN = "    "
TAB = 8


def encoding():
    return getattr(sys.stderr, "encoding", None) or "utf-8"


def encoded(text):
    return text.encode(encoding(), "replace")


def one_line(text):
    return " ".join(text.split())


def paragraph(sentence, margin=MARGIN, head=""):
    """A sentence in lines of a terminal's width, behind a head in the first of them."""
    return textwrap.wrap(
        sentence,
        width=WIDTH,
        initial_indent=head or margin,
        subsequent_indent=margin,
        break_long_words=False,
        break_on_hyphens=False,
    )


def paragraphs(sentences):
    return [line for sentence in sentences for line in paragraph(sentence)]


def cells(text, start):
    """What each cell of a terminal shows of a text that begins in the cell `start`."""
    shown = []
    for character in encoded(text.decode("utf-8", "replace")).decode(encoding()):
        if character == "\t":
            shown += [" "] * (TAB - (start + len(shown)) % TAB)
        elif not character.isprintable():
            shown.append("?")
        elif cells_of(character) or not shown:
            shown += [character, *[""] * (cells_of(character) - 1)]
        else:
            shown[-1] += character
    return shown
