"""That the programs of examples/ which the pages speak of are there, and do what the pages say."""

import glob
import os
import re
import subprocess
import tempfile
import unittest

TOP = os.path.dirname(os.path.dirname(os.path.dirname(os.path.abspath(__file__))))
PROGRAM = os.environ["PCOM"]
SECONDS = 60
PASCAL = re.compile(r"^```pascal\n(.*?)^```", re.M | re.S)


def text_of(*path):
    with open(os.path.join(TOP, *path), encoding="utf-8") as file:
        return file.read()


class TooFar(unittest.TestCase):
    """The first program of the README, as a file."""

    def test_the_file_is_the_program(self):
        self.assertEqual(text_of("examples", "too_far.pas"), PASCAL.search(text_of("README.md"))[1])

    def test_it_fails(self):
        words = [PROGRAM, "--go", os.path.join(TOP, "examples", "too_far.pas")]
        ran = subprocess.run(words, stdin=subprocess.DEVNULL, capture_output=True, text=True, timeout=SECONDS)
        told = ["12:10: possible error: index", "13:17: possible error: index", "12:10: error: index"]
        self.assertEqual((ran.returncode, ran.stdout, ran.stderr.splitlines()), (4, "", told))

    def test_the_mended_one_differs_by_one_turn(self):
        mended = text_of("examples", "too_far.pas").replace("to last do\n    if", "to last - 1 do\n    if")
        self.assertEqual(text_of("examples", "largest.pas"), mended)


class Written(unittest.TestCase):
    """The certificates that are written of the examples."""

    def setUp(self):
        holder = tempfile.TemporaryDirectory()
        self.addCleanup(holder.cleanup)
        self.certificate, self.less = (os.path.join(holder.name, name) for name in ("a.cert", "less.cert"))

    def told(self, *words):
        ran = subprocess.run([PROGRAM, *words], stdin=subprocess.DEVNULL, capture_output=True, timeout=SECONDS)
        return ran.returncode, ran.stdout, ran.stderr

    def without(self, lines, at):
        """The same without one of the lines, and without what then says nothing."""
        left = lines[:at] + lines[at + 1 :]
        for word, ends in ("loop", ("loop", "proc")), ("proc", ("proc",)):
            left = [line for line, next_line in zip(left, [*left[1:], "proc"])
                    if line.split()[0] != word or next_line.split()[0] not in ends]
        return left

    def test_they_give_the_same_lines_and_need_each_fact(self):
        for path in sorted(glob.glob(os.path.join(TOP, "examples", "**", "*.pas"), recursive=True)):
            with self.subTest(path=os.path.basename(path)):
                told = self.told(path)
                self.assertEqual(self.told("--write-cert", self.certificate, path), told)
                self.assertEqual(self.told("--cert", self.certificate, path), told)
                with open(self.certificate, encoding="ascii") as file:
                    lines = file.read().splitlines()
                for at, line in enumerate(lines):
                    if line.split()[0] in ("entry", "exit", "fact"):
                        with open(self.less, "w", encoding="ascii") as file:
                            file.writelines(f"{one}\n" for one in self.without(lines, at))
                        self.assertNotEqual(self.told("--cert", self.less, path), told, line)


if __name__ == "__main__":
    unittest.main()
