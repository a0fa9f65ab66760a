"""All sites of a source, told and closed, as the code with all checks lists them."""

import re
from collections import Counter
from typing import NamedTuple

from tools.asking import Asker
from tools.source_lines import bytes_of

# The kinds of errors by their numbers in a code.
KINDS = (
    "index",
    "subrange",
    "undefined variable",
    "undefined result",
    "division by zero",
    "mod by zero or less",
    "case",
    "chr",
    "succ",
    "pred",
    "overflow",
    "width",
    "set member",
)
SITE = re.compile(rb"^site (\d+) (\d+) (\d+)$", re.M)


class Site(NamedTuple):
    """A place at which an error would happen, its kind, and whether it is told."""

    line: int
    column: int
    kind: str
    is_told: bool


class Sites(NamedTuple):
    """The sites of a source, in the order of the code."""

    path: str
    all: list

    @property
    def told(self):
        return [site for site in self.all if site.is_told]

    @property
    def closed(self):
        return [site for site in self.all if not site.is_told]

    def last_line(self):
        """How many sites there are, how many of them are closed, and how many are told, by kind."""
        kinds = Counter(site.kind for site in self.told)
        by_kind = ", ".join(f"{kind} {kinds[kind]}" for kind in KINDS if kinds[kind])
        sites = "1 site" if len(self.all) == 1 else f"{len(self.all)} sites"
        told = f"{len(self.told)} told" + (f" ({by_kind})" if by_kind else "")
        return f"{self.path}: {sites}, {len(self.closed)} closed, {told}"

    def rows(self):
        """The same by kind: a head, a row for each kind that there is, and one for all."""
        by_kind = [(kind, [site for site in self.all if site.kind == kind]) for kind in KINDS]
        rows = [row(kind, sites) for kind, sites in by_kind if sites]
        return [("kind", "sites", "closed", "told"), *rows, row("all", self.all)]

    def table(self):
        """The rows in lines."""
        return [f"{name:22}{sites:>7}{closed:>8}{told:>6}" for name, sites, closed, told in self.rows()]


def row(name, sites):
    told = sum(site.is_told for site in sites)
    return name, len(sites), len(sites) - told, told


def sites_of(files):
    """The sites of a source under its certificate; None where it is refused or can't be read again."""
    if bytes_of(files.source) is None:
        return None
    with Asker() as asker:
        certificate = ["--cert", files.certificate] if files.certificate else []
        code = asker.path("code")
        messages = asker.run([*certificate, "--keep-checks", "--", files.source, code])
        listed = SITE.findall(bytes_of(code) or b"")
        is_code = bytes_of(code) is not None
    told = {(it.line, it.column, it.name) for it in messages if it.kind == "possible error"}
    found = [(int(line), int(column), KINDS[int(kind) - 1]) for line, column, kind in listed]
    return Sites(files.source, [Site(*site, site in told) for site in found]) if is_code else None
