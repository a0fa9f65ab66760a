"""What the scripts bin/pcom and bin/pint say without a program: the help, to which they add a part of their own, and
the version."""

import os
import re
import subprocess
import unittest

TOP = os.path.dirname(os.path.dirname(os.path.dirname(os.path.abspath(__file__))))
BESIDE = r", (not )?proved(, commit [0-9a-f]+(-dirty)?)?(, rattle-kit-.+)?\n"
OWN = "\nWhat the script bin/{} does beside:\n"


def told(*words):
    """What a command writes to standard output."""
    return subprocess.run(words, stdout=subprocess.PIPE, text=True, check=True).stdout


class Words(unittest.TestCase):
    def both(self, name, word):
        """What the script says for a word, and what the program does."""
        return told(os.path.join(TOP, "bin", name), word), told(os.environ[name.upper()], word)

    def test_the_help_is_the_program_s_with_a_part_more(self):
        for name in ("pcom", "pint"):
            ours, theirs = self.both(name, "--help")
            self.assertEqual(ours[: len(theirs) + 1], f"{theirs}\n")
            self.assertTrue(ours[len(theirs) :].startswith(OWN.format(name)))
            self.assertTrue(name == "pint" or "\n  CODE is written" in ours)

    def test_the_version_is_the_program_s_with_what_is_proved(self):
        for name in ("pcom", "pint"):
            ours, theirs = self.both(name, "--version")
            self.assertRegex(ours, f"^{re.escape(theirs.rstrip())}{BESIDE}$")


if __name__ == "__main__":
    unittest.main()
