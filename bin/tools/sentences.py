"""The sentences of docs/explanations.ini: what each code and name means and how to mend it, and hints for shapes of the
source."""

import configparser
import difflib
import os
import re

from pcom_lines import ERRORS, TOP, Stream
from tools.hints import hint_of
from tools.terminal import encoded, one_line

FILE = os.path.join(TOP, "docs", "explanations.ini")
KEYS = ("means", "mend")
HINT = "hint: "
# A comment that stands alone above a section.
HEADING = re.compile(r"# (.*)\.\n\n(?=\[)|^\[(.*)\]$", re.M)
CODE = re.compile(r"[a-z]\d+")


class Sentences:
    """All of them; none where the file can't be read."""

    def __init__(self):
        self.by_name, self.hints, self.groups = {}, [], []
        try:
            with open(FILE, encoding="utf-8") as file:
                self.take(file.read())
        except (OSError, ValueError, KeyError, re.error, configparser.Error) as error:
            Stream(ERRORS).put(encoded(f"explain: cannot read {FILE}: {one_line(str(error))}\n"))

    def take(self, text):
        parser = configparser.RawConfigParser()
        parser.read_string(text)
        by_name = {name: section for name, section in parser.items() if name != parser.default_section}
        self.hints = [hint_of(section) for name, section in by_name.items() if name.startswith(HINT)]
        self.by_name = {key_of(name): said(by_name[name]) for name in by_name if not name.startswith(HINT)}
        self.groups = groups_of(text)

    def of(self, name):
        """The sentences of a name: what it means, and how to mend it."""
        return self.by_name.get(key_of(name), [])

    def similar(self, name):
        """The names, as they are written, that are like one that there isn't: for a code those of its letter, or else
        of its number, and for another name those of nearly the same letters."""
        names = {key_of(one): one for _, group in self.groups for one in group if not one.startswith(HINT)}
        key = key_of(name)
        if CODE.fullmatch(key):
            codes = list(filter(CODE.fullmatch, names))
            found = [one for one in codes if one[0] == key[0]] or [one for one in codes if one[1:] == key[1:]]
        else:
            found = difflib.get_close_matches(key, names)
        return [names[one] for one in found]


def said(section):
    return [one_line(section[key]) for key in KEYS if section.get(key)]


def groups_of(text):
    """The headings of the file, each with the names below it."""
    groups = []
    for heading, name in HEADING.findall(text):
        if heading:
            groups.append((heading, []))
        elif groups:
            groups[-1][1].append(name)
    return groups


def key_of(name):
    return one_line(name).casefold()
