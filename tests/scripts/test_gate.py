"""bin/test, with suites that only say which programs are at hand, and a kit that proves nothing."""

import json
import os
import re
import shutil
import subprocess
import sys
import unittest

from kit_stand_in import CRATES, TOP, Repository, write

sys.path.insert(0, os.path.join(TOP, "bin"))

from programs import PROGRAMS

SUITES = ("run", "guesses", "visits", "pairs", "documents", "house")
# A suite, which writes that it ran and what the program at hand is.
SUITE = """#!/bin/sh
echo "{name}: $(bin/at_hand.py pcom)"
echo {says}
"""


class Gate(Repository):
    def setUp(self):
        super().setUp()
        shutil.copy2(os.path.join(TOP, "bin", "test"), os.path.join(self.top, "bin", "test"))
        more = [name for name in PROGRAMS if f"\n{name}:" not in CRATES]
        write(CRATES + "".join(f"{name}: low\n" for name in more), self.top, "crates.txt")
        for name in more:
            write(f"text of {name}\n", self.top, "crates", name, "src", "main.rt")
        for name in SUITES:
            self.put_suite(name, "2 passed, 0 failed")

    def put_suite(self, name, says):
        write(SUITE.format(name=name, says=says), self.top, "tests", name)
        os.chmod(os.path.join(self.top, "tests", name), 0o755)

    def outcome(self, *words, says="3 passed, 0 failed (all)", **how):
        how = {"GATE": json.dumps(PROGRAMS), "SAYS": says, **how}
        ran = self.ran("test", *words, **how)
        return ran.stdout.splitlines(), ran.returncode

    def said_by_suites(self, kind):
        path = os.path.join(self.top, "out", kind, "pcom", "pcom")
        return [line for name in SUITES for line in (f"{name}: {kind} {path}", "2 passed, 0 failed")]

    def test_the_suites_run_on_tried_programs(self):
        lines, status = self.outcome()
        wanted = [f"{name}: tried" for name in PROGRAMS] + self.said_by_suites("tried") + ["12 passed, 0 failed"]
        self.assertEqual((lines, status), (wanted, 0))
        self.assertEqual({line[0] for line in self.calls()}, {"try", "clang"})

    def test_the_suites_run_on_proved_programs(self):
        self.proved(*PROGRAMS)
        lines, status = self.outcome()
        wanted = [f"{name}: proved" for name in PROGRAMS] + self.said_by_suites("proved") + ["12 passed, 0 failed"]
        self.assertEqual((lines, status), (wanted, 0))

    def test_the_gate_comes_first_and_its_programs_are_proved(self):
        lines, status = self.outcome("--proofs")
        wanted = ["all of it", "3 passed, 0 failed (all)", *[f"{name}: proved" for name in PROGRAMS]]
        self.assertEqual((lines, status), (wanted + self.said_by_suites("proved") + ["15 passed, 0 failed"], 0))
        self.assertEqual(self.calls(), [["ci"]])

    def test_a_gate_that_fails_ends_it(self):
        for says, last in (("3 passed, 2 failed", "3 passed, 2 failed"), ("rt: stopped", "0 passed, 1 failed")):
            lines, status = self.outcome("--proofs", says=says)
            self.assertEqual((lines[-2:], status), (["the gate failed, so the suites aren't run", last], 1))

    def test_a_suite_that_fails_or_breaks_off_is_counted(self):
        self.put_suite("pairs", "1 passed, 4 failed")
        self.put_suite("house", "no such line")
        lines, status = self.outcome()
        self.assertEqual((lines[-1], status), ("9 passed, 5 failed", 1))

    def test_programs_that_cannot_be_built_end_it(self):
        write("wrong\n", self.top, "crates", "pint", "src", "main.rt")
        lines, status = self.outcome()
        self.assertEqual((lines, status), (["0 passed, 1 failed"], 1))

    def test_other_words_are_refused(self):
        lines, status = self.outcome("--bogus")
        self.assertEqual(status, 2)
        self.assertTrue(any(re.search("bin/test --proofs", line) for line in lines))


if __name__ == "__main__":
    unittest.main()
