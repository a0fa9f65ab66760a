"""Texts of code of 64 MiB: the built program that runs a code has no limit for their length, and tells the line of a
fault wherever it stands."""

import os
import subprocess
import tempfile
import unittest

TOP = os.path.dirname(os.path.dirname(os.path.dirname(os.path.abspath(__file__))))
PROGRAM = os.environ["PINT"]
LENGTH = 64 * 1024 * 1024
SECONDS = 60
# The most lines of a kind that a code has, but for labels.
MOST = 1_000_000
HEAD = b"pcode 1\n"
END = b"end\n"
SITE = b"site 1048576 1048576 13\n"
POINT = b"point 1048576 1048576\n"
SET = b"lds 0123456789abcdef0123456789abcdef\n"
# A run writes a number and goes to the last instruction.
START = b"ent 0 2\nldc 7\nldc 1\nwri\nujp 999999\n"
LABEL = b"label 999999\n"


def of_most_lines(last):
    """A code whose first instructions go to its last one, over sets that no run comes to, and the number of the last
    one's line. It has as many sites and instructions as a code can have, and points that make it so long."""
    instructions = START + SET * (MOST - START.count(b"\n") - 1) + LABEL + last
    points = LENGTH - len(HEAD + SITE * MOST + instructions + END)
    text = HEAD + SITE * MOST + POINT * (points // len(POINT)) + instructions + END
    return text, text.count(b"\n") - 1


def filled(before, piece, after):
    """A text of that length between two others."""
    return before + piece * ((LENGTH - len(before) - len(after)) // len(piece)) + after


class LongCodes(unittest.TestCase):
    def told(self, text):
        """What is written and told of a code, and the status."""
        self.assertIn(len(text), range(LENGTH - len(POINT), LENGTH + 1))
        with tempfile.NamedTemporaryFile(suffix=".code") as file:
            file.write(text)
            file.flush()
            ran = subprocess.run([PROGRAM, file.name], capture_output=True, text=True, timeout=SECONDS)
        return ran.stdout, ran.stderr, ran.returncode

    def test_a_code_of_most_lines_is_run(self):
        text, _ = of_most_lines(b"err 999999\n")
        self.assertEqual(self.told(text), ("7", "1048576:1048576: error: set member\n", 4))

    def test_a_fault_in_the_last_of_most_lines(self):
        text, line = of_most_lines(b"err 1000000\n")
        self.assertEqual(self.told(text), ("", f"code:{line}: refused A2\n", 2))

    def test_a_line_that_is_no_code_s(self):
        self.assertEqual(self.told(filled(HEAD, b"a", b"\n" + END)), ("", "code:2: refused A1\n", 2))

    def test_an_operand(self):
        self.assertEqual(self.told(filled(HEAD + b"adi\nldc ", b"1", b"\n" + END)), ("", "code:3: refused A2\n", 2))

    def test_one_label_over_and_over(self):
        self.assertEqual(self.told(filled(HEAD, b"label 0\n", END)), ("", "code:3: refused A4\n", 2))

    def test_line_ends_without_an_end(self):
        text = filled(HEAD, b"\n", b"")
        self.assertEqual(self.told(text), ("", f"code:{text.count(10)}: refused A6\n", 2))


if __name__ == "__main__":
    unittest.main()
