"""That no line of code, of a definition, of a test or of a page is over 120 columns, and none of a proof over 160."""

import os
import subprocess
import unittest

TOP = os.path.dirname(os.path.dirname(os.path.dirname(os.path.abspath(__file__))))
# A case of tests/cases may hold a line of any width, since the compiler takes such lines.
TEXTS = (".rt", ".antt", ".md", ".py", ".ini", ".pas", ".cert", ".c")


def files():
    """The paths of the files that the repository keeps and that have lines of text."""
    listed = subprocess.run(["git", "ls-files", "-z"], cwd=TOP, stdout=subprocess.PIPE, text=True, check=True)
    for path in filter(None, listed.stdout.split("\0")):
        in_scripts = os.path.dirname(path) in ("bin", "tests")
        if (path.endswith(TEXTS) or in_scripts) and os.path.isfile(os.path.join(TOP, path)):
            yield path


def widest(path):
    """The number of the widest line, and its columns."""
    with open(os.path.join(TOP, path), encoding="utf-8", errors="replace") as file:
        return max(((len(line.rstrip("\n")), number) for number, line in enumerate(file, 1)), default=(0, 0))


class Widths(unittest.TestCase):
    def test_lines_are_narrow(self):
        wide = []
        for path in files():
            columns, number = widest(path)
            if columns > (160 if "/proofs/" in path else 120):
                wide.append(f"{path}:{number} has {columns} columns")
        self.assertEqual(wide, [])


if __name__ == "__main__":
    unittest.main()
