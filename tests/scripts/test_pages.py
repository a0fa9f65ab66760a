"""That what the pages say of the crates is so: a name with a file stands in that file, a path is there, a crate of a
table is one of crates.txt, wrong bodies are there, and numbers of crates and of wrong bodies are counted."""

import glob
import os
import re
import sys
import unittest

TOP = os.path.dirname(os.path.dirname(os.path.dirname(os.path.abspath(__file__))))
CRATES = os.path.join(TOP, "crates")
PAGES = [os.path.join(TOP, "README.md"), *sorted(glob.glob(f"{TOP}/docs/*.md"))]
FILE = r"`([\w/]+\.(?:antt|rt))`"
# A name with its file: `Waits` in `interpreter/specs/Pending.antt`, or `ran` (`specs/Ran.antt`).
NAMED = re.compile(rf"`([\w:]+)`(?: is| stands)?(?: in |\s+\(){FILE}")
PATH = re.compile(r"`((?:crates/)?[a-z_]+/(?:src|specs|proofs|must-fail)/[\w/+.]*)`")
# How many wrong bodies there are, in how many crates.
COUNTED = re.compile(r"\(now (\d+) in (\d+)\b|(\d+) edits in folders `must-fail/`")
CRATES_IN_ALL = re.compile(r"(\d+) crates in all")

sys.path[:0] = [os.path.join(TOP, "bin"), os.path.join(TOP, "tests")]

from case_files import read_cases
from programs import rows_of

ROWS = rows_of(TOP)


def text_of(path):
    with open(path, encoding="utf-8") as file:
        return file.read()


def name_of(page):
    return os.path.relpath(page, TOP)


def files():
    """The paths of all files of the crates, below crates/."""
    for name in ROWS:
        for at, folders, names in os.walk(os.path.join(CRATES, name)):
            folders[:] = [folder for folder in folders if folder != "out"]
            yield from (os.path.relpath(os.path.join(at, it), CRATES) for it in names)


def edits():
    """The numbers of wrong bodies of the crates that have some."""
    counts = [len(glob.glob(os.path.join(CRATES, name, "must-fail", "*.edit"))) for name in ROWS]
    return [count for count in counts if count]


def tables(text):
    """The rows of each table of a page, its head first, each as the texts of its cells."""
    for table in re.findall(r"(?:^\|.*\n)+", text, re.M):
        yield [[cell.strip() for cell in line.strip().strip("|").split("|")] for line in table.splitlines()]


class Pages(unittest.TestCase):
    def test_names_stand_in_the_files_that_are_told(self):
        paths = list(files())
        for page in PAGES:
            for name, path in NAMED.findall(text_of(page)):
                word = re.compile(rf"(?<![\w-]){re.escape(name.split('::')[-1])}(?![\w-])")
                found = [it for it in paths if f"/{it}".endswith(f"/{path.removeprefix('crates/')}")]
                with self.subTest(page=name_of(page), name=name, path=path):
                    self.assertTrue(any(word.search(text_of(os.path.join(CRATES, it))) for it in found))

    def test_paths_are_there(self):
        for page in PAGES:
            for path in PATH.findall(text_of(page)):
                with self.subTest(page=name_of(page), path=path):
                    self.assertTrue(os.path.exists(os.path.join(CRATES, path.removeprefix("crates/"))))

    def test_crates_of_tables_are_crates(self):
        for page in PAGES:
            for head, _, *rows in tables(text_of(page)):
                for row in rows if head[0] in ("crate", "crates") else ():
                    with self.subTest(page=name_of(page), crate=row[0]):
                        self.assertTrue(row[0].strip("`") in [*ROWS, "all"])

    def test_the_page_of_crates_has_each_with_a_file(self):
        """And the files of definitions that it tells are there."""
        rows = [row for head, _, *rows in tables(text_of(os.path.join(TOP, "docs", "CRATES.md"))) for row in rows]
        crates = [[cell.strip("`") for cell in row] for row in rows if len(row) == 3]
        self.assertEqual([name for name, *_ in crates], list(ROWS))
        told = [(name, path) for name, _, path in crates]
        for name, words in (row for row in rows if len(row) == 2):
            files_told = words.partition(", but for")[0]
            told += [(name.strip("`"), f"specs/{it}.antt") for it in re.findall("`([^`]+)`", files_told)]
        for name, path in told:
            with self.subTest(crate=name, path=path):
                self.assertTrue(os.path.exists(os.path.join(CRATES, name, path)))

    def test_the_table_of_seconds_has_every_crate(self):
        first = next(rows for rows in tables(text_of(os.path.join(TOP, "docs", "GATE.md"))) if rows[0][0] == "crate")
        self.assertEqual(sorted(row[0] for row in first[2:] if row[0] != "all"), sorted(ROWS))

    def test_wrong_bodies_are_there(self):
        """Each edit of the table of wrong bodies is one of its crate; without a crate it is a case or a file."""
        cases = {case.name for case in read_cases()[0]}
        found = 0
        for head, _, *rows in tables(text_of(os.path.join(TOP, "docs", "CONTRACTS.md"))):
            for _, crate, names, _ in rows if head[0] == "a body that" else ():
                for name in re.findall("`([^`]+)`", names):
                    found += 1
                    with self.subTest(crate=crate, name=name):
                        edit = os.path.join(CRATES, crate, "must-fail", f"{name}.edit")
                        path = edit if crate else os.path.join(TOP, name)
                        self.assertTrue(os.path.exists(path) or (not crate and name in cases))
        self.assertGreater(found, 26)

    def test_crates_with_wrong_bodies_and_without(self):
        """CONTRACTS lists the crates that keep some; GATE names some that keep none."""
        keep = [name for name in ROWS if glob.glob(os.path.join(CRATES, name, "must-fail", "*.edit"))]
        listed = re.search(r"crates keep them: ([^.]*)\.", text_of(os.path.join(TOP, "docs", "CONTRACTS.md")))[1]
        self.assertEqual(sorted(re.findall(r"`(\w+)`", listed)), sorted(keep))
        said = re.search(r"crates without wrong bodies \(([^)]*)\)", text_of(os.path.join(TOP, "docs", "GATE.md")))
        self.assertFalse(set(re.findall(r"`(\w+)`", said[1])) & set(keep))

    def test_numbers_are_counted(self):
        wanted = (sum(edits()), len(edits()))
        found = 0
        for page in PAGES:
            text = re.sub(r"\s+", " ", text_of(page))
            for groups in COUNTED.findall(text):
                numbers = tuple(int(it) for it in groups if it)
                found += 1
                with self.subTest(page=name_of(page), numbers=numbers):
                    self.assertEqual(numbers, wanted[: len(numbers)])
            for number in CRATES_IN_ALL.findall(text):
                found += 1
                with self.subTest(page=name_of(page), number=number):
                    self.assertEqual(int(number), len(ROWS))
        self.assertGreater(found, 2)


if __name__ == "__main__":
    unittest.main()
