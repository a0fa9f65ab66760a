"""The lines of the source or the certificate that messages name, each shown with a caret below its place."""

import functools
import os
import re

from tools.terminal import MARGIN, WIDTH, cells

CUT = ".."
# The size of the largest source.
MOST_BYTES = 1048576
# Bytes that no line of a text has: those below 32, but for a tab, a form feed and the return that ends lines elsewhere.
OF_NO_TEXT = re.compile(rb"[^\t\f\r\x20-\xff]")


class Texts:
    """The files that messages name. Each is read where a message asks for it, if it is a file that can be read
    twice."""

    def __init__(self, files):
        self.files = files
        self.read = {}

    def path(self, message):
        """The path of the file that a message is of."""
        return self.files.certificate if message.is_of_certificate else self.files.source

    def line(self, message):
        """The line of a message; None where there is none."""
        return self.line_of(self.path(message), message.line)

    def line_of(self, path, number):
        lines = self.lines(path)
        return lines[number - 1] if 0 < number <= len(lines) else None

    def lines(self, path):
        """The lines of a file, as pcom counts them; none where it can't be read."""
        if path not in self.read:
            text = bytes_of(path)
            self.read[path] = [] if text is None else text.split(b"\n")
        return self.read[path]

    @functools.lru_cache(maxsize=None)
    def source(self):
        """The text of the source; None where it can't be read, or pcom wouldn't."""
        text = b"\n".join(self.lines(self.files.source))
        return text if len(text) <= MOST_BYTES else None


def can_be_read_twice(path):
    """Whether a path is that of a file, and of none that pcom gets as its input."""
    return path not in (None, "-", "/dev/stdin") and os.path.isfile(path)


def bytes_of(path):
    """What a file holds; None where it can't be read twice."""
    if not can_be_read_twice(path):
        return None
    try:
        with open(path, "rb") as file:
            return file.read()
    except (OSError, MemoryError):
        return None


def shown(message, line):
    """The line of a message with the caret; nothing where there is none, or one of a file that is no text."""
    return [] if line is None or OF_NO_TEXT.search(line) else pointed(message.line, line, message.column)


def pointed(number, line, column):
    """The line with its number and the caret below its place; a line without a column is meant as a whole."""
    text, before = window(line, max(1, column))
    head = f"{MARGIN}{number} | "
    return [(head + text).rstrip(), " " * (len(head) - 2) + "| " + " " * before + "^"]


def window(line, column):
    """The part of a line round a column, a byte's number from 1, and how many cells lie before it."""
    start, place, end = beginning(line, column), column - 1, column - 1 + WIDTH
    before = cells(line[start:place], 0)
    before += [" "] * (place - max(start, len(line)))
    behind = cells(line[place:end], len(before))
    room = WIDTH - min(len(behind), WIDTH // 2)
    kept, taken = before[-room:], behind[: WIDTH - min(len(before), room)]
    if kept[:1] == [""]:
        # The other half of a wide character.
        kept[0] = " "
    left = CUT if start or len(kept) < len(before) else ""
    right = CUT if end < len(line) or len(taken) < len(behind) else ""
    return left + "".join(kept + taken) + right, len(left) + len(kept)


def beginning(line, column):
    """Where the part of a line begins that is looked at: not in the middle of a character."""
    start = max(0, column - 1 - WIDTH)
    while start and start < len(line) and 0x80 <= line[start] < 0xC0:
        start += 1
    return min(start, column - 1)
