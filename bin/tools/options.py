"""The words of bin/explain that aren't those of pcom."""

import re
from typing import NamedTuple

WHY = re.compile(r"--why(?:=([1-9]\d{0,8}))?")
# How many sites are asked about where no number is given.
SITES = 10
# The options of pcom behind which a path stands.
WITH_PATH = ("--cert", "--write-cert")


# Those of bin/explain, and the fields that they set.
FLAGS = {"--table": "table", "--json": "json", "--facts": "facts"}
FILES = {"--html": "html", "--sarif": "sarif"}


class Options(NamedTuple):
    """What is asked for beside the lines of pcom."""

    # At how many told sites what is known there is told.
    why: int = 0
    table: bool = False
    # Whether lines are objects.
    json: bool = False
    # Whether the certificate is told in words.
    facts: bool = False
    # The paths of a page and of a log.
    html: str = ""
    sarif: str = ""


def split(words):
    """The options, and the words that are those of pcom."""
    found, rest = {}, []
    left = list(words)
    while left:
        word = left.pop(0)
        option, _, value = word.partition("=")
        why = WHY.fullmatch(word)
        if why:
            found["why"] = int(why[1] or SITES)
        elif word in FLAGS:
            found[FLAGS[word]] = True
        elif option in FILES and (value or left):
            found[FILES[option]] = value or left.pop(0)
        elif word == "--":
            rest += [word, *left]
            break
        else:
            rest.append(word)
            if word in WITH_PATH:
                rest += left[:1]
                del left[:1]
    return Options(**found), rest
