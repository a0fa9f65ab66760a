"""Tests of the hints of docs/explanations.ini: each of them has a program here that gets it, and one like it that
doesn't."""

import configparser
import os
import subprocess
import sys
import tempfile
import unittest

TOP = os.path.dirname(os.path.dirname(os.path.dirname(os.path.abspath(__file__))))
PROGRAM = os.environ["PCOM"]
FILE = os.path.join(TOP, "docs", "explanations.ini")
SECONDS = 60
HEAD = """program p(input, output);
const size = 9;
type color = (red, green); row = array [1..9] of integer;
var x, y, n, i, j: integer; t: color; a: row; c: char;
  b: array [1..2] of record count: 0..9 end; m: array [1..3] of array [1..9] of integer;
  d: array [1..9] of integer; k: array ['0'..'9'] of integer;
function f(x: integer): integer; begin f := x end;
function g: integer; begin g := 7 end; function h: integer; begin n := 2; h := 7 end;
begin
  read(x, y, n, c);
"""
# For each hint, statements that get it and others that are told at the same code or name and don't.
STATEMENTS = {
    "quotation marks": ('write("hello")', "x := ?1"),
    "underline": ("first_name := 1", "x := ?1"),
    "closing brace": ("{ one { two } three }", "x := ?1"),
    "number sign": ("write(#65)", "x := ?1"),
    "dollar sign": ("x := $FF", "x := ?1"),
    "assigned by an equals sign": ("x = 5", "x := 5 = 6 = 7"),
    "sum and assignment in one": ("x += 1", "x := * 1"),
    "comment of two strokes": ("x := 1; // one", "x := 4 / 2"),
    "stroke": ("x := 4 / 2", "x := 4 4"),
    "number with a point": ("x := 1.5", "x := 1.a"),
    "range before an arm": ("case x of 1..5: y := 1 end", "x := 1..2"),
    "else behind a semicolon": ("if x = 1 then y := 1;\n  else y := 2", "if x = 1 else y := 2"),
    "apostrophe in a string": ("write('It's mine, isn't it')", "write('It' 's')"),
    "empty parentheses": ("x := f()", "x := f(1 2)"),
    "missing semicolon": ("x := 1\n  { one }\n\n  y := 2", "x := (1\n  y := 2"),
    "type of strings": ("string(x)", "strings(x)"),
    "reals": ("x := trunc(x)", "x := trunk(x)"),
    "other integers": ("x := longint(x)", "x := longer(x)"),
    "ways out": ("while x > 0 do break", "while x > 0 do brake"),
    "counting": ("inc(x)", "include(x)"),
    "files": ("reset(x)", "resets(x)"),
    "pointers": ("new(x)", "news(x)"),
    "chance": ("x := random(6)", "x := randoms(6)"),
    "functions of strings": ("x := length(c)", "x := lengths(c)"),
    "screens": ("clrscr", "clearscreen"),
    "values that are written": ("writeln(x, t)", "x := t"),
    "types written apart": ("a := d", "a[1] := t"),
    "element that gets the value of a call": (
        "n := 1; a[n] := h; write(a[n])",
        "a[1] := 2; write(a[2])",
    ),
    "tables of two indexes": (
        "for j := 1 to 8 do for i := 1 to 3 do m[i, j] := 0; write(m[2, 9])",
        "m[1] := a; write(x div m[2, 2])",
    ),
    "condition that isn't 0": ("if y <> 0 then x := x div y", "x := x div y"),
    "component in a condition of an index": ("a[1] := n; if a[1] < 9 then a[a[1]] := 1", "if n > 2 then a[n] := 1"),
    "component in a condition of a subrange": (
        "b[1].count := 0; while n > 1 do begin n := n - 1; if b[1].count < size then b[1].count := b[1].count + 1 end",
        "b[1].count := n",
    ),
    "counter": ("while not eof do begin n := n + 1; read(c) end", "n := x + y"),
}
# The same with a whole source.
SOURCES = {
    "byte order mark": (b"\xef\xbb\xbfprogram p; begin end.", b"\xefprogram p; begin end."),
    "end mark of old files": (b"program p; begin end.\x1a", b"program p; begin end.\x1b"),
    "units": (b"program p; uses crt; begin end.", b"program p; crt; begin end."),
    "order of declarations": (
        b"program p; type t = 1..9; const c = 5; begin end.",
        b"program p; type t = 1..9 const c = 5; begin end.",
    ),
}


def hints():
    """What each hint says, and at which code or name."""
    parser = configparser.RawConfigParser()
    parser.read(FILE, encoding="utf-8")
    names = [name for name in parser.sections() if name.startswith("hint: ")]
    return {name.partition(": ")[2]: (parser[name]["at"], " ".join(parser[name]["says"].split())) for name in names}


class Hints(unittest.TestCase):
    def said(self, source):
        """What bin/explain says of a source, in one line."""
        with tempfile.NamedTemporaryFile(suffix=".pas") as file:
            file.write(source)
            file.flush()
            words = [sys.executable, os.path.join(TOP, "bin", "explain"), file.name]
            ran = subprocess.run(words, env={**os.environ, "PCOM": PROGRAM}, stderr=subprocess.PIPE, timeout=SECONDS)
        said = " ".join(ran.stderr.decode().split())
        self.assertNotIn("Traceback", said)
        return said

    def assert_hint(self, name, source, other):
        at, says = hints()[name]
        # The line before the place, in the cases where it is told.
        says = says.replace("LINE", "11")
        said = self.said(source)
        self.assertRegex(said, rf"^(.* )?\d+:\d+: (refused|possible error:) {at} ")
        self.assertIn(f" {says} ", f" {said} ", name)
        self.assertNotIn(f" {says} ", self.said(other), name)

    def test_each_hint_has_a_case(self):
        self.assertEqual(sorted([*STATEMENTS, *SOURCES]), sorted(hints()))

    def test_statements(self):
        for name, statements in STATEMENTS.items():
            with self.subTest(hint=name):
                self.assert_hint(name, *(f"{HEAD}  {statement}\nend.\n".encode() for statement in statements))

    def test_sources(self):
        for name, sources in SOURCES.items():
            with self.subTest(hint=name):
                self.assert_hint(name, *sources)

    def test_once(self):
        said = self.said(f"{HEAD}  while n > x do begin x := x + 1; y := y + 1 end\nend.\n".encode())
        self.assertEqual(said.count("How often a loop turns"), 1)

    def test_any_text(self):
        """No text breaks the search."""
        for text in (b"", b"\0", b"!", b"begin " * 3000, b"(" * 3000, b"program p; begin " + b"if a then " * 500):
            self.said(text)


if __name__ == "__main__":
    unittest.main()
