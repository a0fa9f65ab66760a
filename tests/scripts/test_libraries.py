"""Tests of what bin/explain does with the libraries that it takes where they are installed, and without them."""

import os
import re
import subprocess
import sys
import tempfile
import unittest

from stand_in import make_stand_in, put, python_with, taken

TOP = os.path.dirname(os.path.dirname(os.path.dirname(os.path.abspath(__file__))))
NAMES = ("wcwidth", "pygments")
SECONDS = 60
# Wide characters, one of two parts, one that can't be shown, and a mixed comment, which begins and ends in two ways.
SOURCE = """program p(output);
var x: integer;
begin
  { \u6f22\u5b57 e\u0301 \u202e } write(x: 1);\t{ \U0001f600 *) write('it''s', x: 1)
end.
"""
LINE = SOURCE.splitlines()[3].encode()
TOLD = "".join(f"4:{find(b'x: 1') + 1}: possible error: undefined variable\n" for find in (LINE.index, LINE.rindex))
# How many cells stand before the first of them.
BEFORE = len("  { ____ e ? } write(")
COLOURED = re.compile(r'<span class="(c|k|mi|nb|s)">([^<]*)</span>')
RULE = re.compile(r"^pre \.\w+ \{.*\n", re.M)


class Libraries(unittest.TestCase):
    def setUp(self):
        holder = tempfile.TemporaryDirectory()
        self.addCleanup(holder.cleanup)
        self.folder = holder.name
        self.program = make_stand_in(self.folder, TOLD.encode())
        put(self.folder, "p.pas", SOURCE.encode())
        os.mkdir(os.path.join(self.folder, "without"))
        for name in NAMES:
            put(self.folder, f"without/{name}.py", b"raise ImportError\n")
        self.python = python_with(*NAMES)

    def explain(self, *words, has_them):
        """What is written, in a Python that has the libraries or in one that doesn't."""
        if has_them and not self.python:
            self.skipTest("Debian's python3-wcwidth and python3-pygments aren't installed")
        command = [self.python if has_them else sys.executable, os.path.join(TOP, "bin", "explain"), *words]
        environment = {**os.environ, "PCOM": self.program, "PYTHONIOENCODING": "utf-8"}
        if not has_them:
            environment["PYTHONPATH"] = os.path.join(self.folder, "without")
        ran = subprocess.run(command, cwd=self.folder, env=environment, capture_output=True, timeout=SECONDS)
        self.assertNotIn(b"Traceback", ran.stderr)
        return (ran.stdout + ran.stderr).decode()

    def page(self, has_them):
        self.explain("--html", "p.html", "p.pas", has_them=has_them)
        return taken(self.folder, "p.html").decode()

    def carets(self, said):
        lines = said.splitlines()
        return [(lines[number - 1], line) for number, line in enumerate(lines) if line.lstrip(" |") == "^"]

    def test_which_are_there(self):
        without = self.explain("--libraries", has_them=False)
        for name in NAMES:
            self.assertRegex(without, rf"(?m)^{name}, for .*: not installed \(python3-{name}\): .+$")
        self.assertEqual(self.explain("--libraries", has_them=True).count(": installed\n"), len(NAMES))

    def test_widths(self):
        """The same lines with and without the library, and the caret below its place."""
        said = self.explain("p.pas", has_them=False)
        (line, caret), _ = self.carets(said)
        self.assertEqual(line.partition(" | ")[2][:12].rstrip(), "  { \u6f22\u5b57 e\u0301 ?")
        self.assertEqual(len(caret.partition(" | ")[2]) - 1, BEFORE)
        self.assertEqual(self.explain("p.pas", has_them=True), said)

    def test_without_colours_that_is_told(self):
        said = "explain: python3-pygments isn't installed, so the page's source has one colour\n"
        self.assertIn(said, self.explain("--html", "p.html", "p.pas", has_them=False))
        self.assertNotIn(said, self.explain("p.pas", has_them=False))
        self.assertNotIn(said, self.explain("--html", "p.html", "p.pas", has_them=True))

    def test_colours(self):
        """With the library the page has colours, and is else the same."""
        plain, coloured = self.page(False), self.page(True)
        self.assertEqual(len(RULE.findall(coloured)), 5)
        kinds = dict.fromkeys(("c", "k", "mi", "nb", "s"), ())
        for kind, text in COLOURED.findall(coloured):
            kinds[kind] = (*kinds[kind], text)
        self.assertEqual(kinds["k"], ("program", "var", "begin", "end"))
        self.assertEqual(kinds["nb"], ("output", "integer", "write", "write"))
        self.assertEqual((kinds["mi"], kinds["s"]), (("1", "1"), ("&#x27;it&#x27;&#x27;s&#x27;",)))
        self.assertEqual(kinds["c"], ("{ \u6f22\u5b57 e\u0301 \u202e }", "{ \U0001f600 *)"))
        self.assertEqual(COLOURED.sub(r"\2", RULE.sub("", coloured)), plain)
        self.assertEqual((COLOURED.findall(plain), RULE.findall(plain)), ([], []))


if __name__ == "__main__":
    unittest.main()
