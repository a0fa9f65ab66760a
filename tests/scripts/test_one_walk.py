"""That the checker walks over a program once, as far as no contract says it: in the crates that the analyser stands on
one type counts entries, a counter is made at one place, and the walk over all blocks is begun there."""

import os
import re
import sys
import unittest

TOP = os.path.dirname(os.path.dirname(os.path.dirname(os.path.abspath(__file__))))
CRATES = os.path.join(TOP, "crates")
CHECKER = "cert_checker"

sys.path.insert(0, os.path.join(TOP, "bin"))

from programs import rows_of

ROWS = rows_of(TOP)


def below(name):
    """The crates of this repository that a crate stands on."""
    found = set()
    left = [name]
    while left:
        new = [it for it in ROWS[left.pop()] if it in ROWS and it not in found]
        found.update(new)
        left.extend(new)
    return found


def code(name):
    """The lines of a crate's sources, without comments, each with its file."""
    for at, _, names in os.walk(os.path.join(CRATES, name, "src")):
        for it in sorted(names):
            with open(os.path.join(at, it), encoding="utf-8") as file:
                for line in file:
                    yield os.path.relpath(os.path.join(at, it), CRATES), line.partition("//")[0]


def places(names, pattern):
    """The files of crates in which a pattern stands, one as often as it does."""
    return [path for name in sorted(names) for path, line in code(name) for _ in re.findall(pattern, line)]


class OneWalk(unittest.TestCase):
    def setUp(self):
        self.below = below("analyser")
        self.assertIn(CHECKER, self.below)

    def test_one_type_counts_entries(self):
        counters = places(self.below, r"\bimpl\b.*\bCount for\b")
        self.assertEqual(counters, [f"{CHECKER}/src/visits.rt"])

    def test_one_counter_is_made(self):
        self.assertEqual(places(self.below, r"\bVisits::new\b"), [f"{CHECKER}/src/program.rt"])

    def test_the_walk_is_called_once(self):
        self.assertEqual(places(self.below, r"(?<!fn )\bprogram\("), [f"{CHECKER}/src/lib.rt"])
        self.assertEqual(places(self.below, r"\.blocks\("), [f"{CHECKER}/src/program.rt"])


if __name__ == "__main__":
    unittest.main()
