"""The eleven forms at the head of docs/CERTIFICATES.md: each stands in a program here that is told for it, and with
what the page has in its place fewer lines are told."""

import os
import re
import subprocess
import tempfile
import unittest

TOP = os.path.dirname(os.path.dirname(os.path.dirname(os.path.abspath(__file__))))
PROGRAM = os.environ["PCOM"]
PAGE = os.path.join(TOP, "docs", "CERTIFICATES.md")
SECONDS = 60
ROW = re.compile(r"^\| (\d+) \| `([^`]+)`[^|]* \| `([^`]+)` \|$", re.M)
# For each form a program, in which `@` stands for it, and what is told at its place or at a later one.
PROGRAMS = (
    (
        "undefined variable",
        """var a: array [1..5] of integer; i, k: integer;
        function next: integer; begin i := 2; next := 7 end;
        begin
          i := 1;
          @;
          i := 1;
          writeln(a[i]: 1)
        end.""",
    ),
    (
        "subrange",
        """const size = 8;
        var b: array [1..2] of record k: 0..size end; i, n: integer;
        procedure put(i: integer); begin @ end;
        begin
          b[1].k := 0; b[2].k := 0;
          while not eof do for i := 1 to 2 do put(i)
        end.""",
    ),
    (
        "undefined variable",
        """type row = array [1..4] of integer;
        var c: array [1..4, 1..4] of row; r: row; i, j, k: integer;
        begin
          for i := 1 to 4 do for j := 1 to 4 do begin @ end;
          writeln(c[2, 2, 2]: 1)
        end.""",
    ),
    ("division by zero", "var x, y, q: integer; begin readln(x, y); @ end."),
    (
        "division by zero",
        """var a: array [1..5] of integer; i, x, most: integer;
        begin
          for i := 1 to 5 do read(a[i]);
          most := 1;
          for i := 1 to 5 do begin @ end;
          writeln(100 div most: 1)
        end.""",
    ),
    (
        "undefined variable",
        """const most = 100;
        var a: array [1..most] of integer; i, n, low, high, mid, x: integer;
        begin
          read(x, n);
          if (n >= 1) and (n <= most) then
          begin
            for i := 1 to n do read(a[i]);
            low := 1; high := n;
            while low < high do
            begin
              @;
              if a[mid] < x then low := mid + 1 else high := mid
            end
          end
        end.""",
    ),
    (
        "overflow",
        """var n: integer; c: char;
        begin
          n := 0;
          while not eof do begin read(c); @ end;
          writeln(n: 1)
        end.""",
    ),
    (
        "overflow",
        """var i, j, n: integer; b: array [0..2] of boolean;
        begin
          for i := 0 to 2 do b[i] := odd(i);
          n := 0;
          for i := 0 to 2 do for j := 0 to 2 do @;
          writeln(n: 1)
        end.""",
    ),
    (
        "overflow",
        """var d, sum: integer; c: char;
        begin
          sum := 0;
          while not eoln do begin read(c); d := ord(c) mod 10; @ end;
          writeln(sum mod 10: 1)
        end.""",
    ),
    (
        "subrange",
        """var x: integer; level: 0..100;
        function limit(x, low, high: integer): integer;
        begin if x < low then limit := low else if x > high then limit := high else limit := x end;
        begin read(x); writeln(limit(x, -5, 200): 1); @ end.""",
    ),
    (
        "index",
        """const last = 7;
        type place = (free, wall, seen); row = array [0..last] of place;
        var m: array [0..last] of row; line: row; i: integer;
        procedure go(i, j: integer); begin @ end;
        begin
          for i := 0 to last do line[i] := wall;
          for i := 1 to last - 1 do line[i] := free;
          for i := 0 to last do m[i] := line;
          go(1, 1)
        end.""",
    ),
)


def forms():
    """The forms of the page, each with what to write instead."""
    with open(PAGE, encoding="utf-8") as file:
        page = file.read()
    section = re.search(r"^## Eleven forms.*?(?=^## )", page, re.M | re.S)[0]
    return ROW.findall(section), section


class Forms(unittest.TestCase):
    def told(self, program, statement):
        """The lines that are told of a program with a statement."""
        with tempfile.NamedTemporaryFile("w", suffix=".pas", encoding="ascii") as file:
            file.write("program p(input, output);\n" + program.replace("@", statement) + "\n")
            file.flush()
            streams = {"stdin": subprocess.DEVNULL, "stdout": subprocess.DEVNULL, "stderr": subprocess.PIPE}
            lines = subprocess.run([PROGRAM, file.name], timeout=SECONDS, **streams).stderr.decode().splitlines()
        self.assertNotIn("refused", " ".join(lines))
        return lines

    def test_eleven(self):
        rows, section = forms()
        self.assertEqual([int(number) for number, _, _ in rows], list(range(1, 12)))
        self.assertEqual(len(PROGRAMS), 11)
        self.assertEqual(re.findall(r"^(\d+)\. `", section, re.M), [number for number, _, _ in rows])

    def test_fewer_lines_are_told(self):
        rows, section = forms()
        for (number, told, instead), (name, program) in zip(rows, PROGRAMS):
            with self.subTest(form=number):
                before, after = self.told(program, told), self.told(program, instead)
                self.assertTrue(any(line.endswith(f": possible error: {name}") for line in before), before)
                self.assertLess(len(after), len(before))
                # The page says which name is told.
                self.assertIn(f"`{name}`", re.search(rf"^{number}\. .*", section, re.M)[0])

    def test_what_is_written_instead_is_silent(self):
        for (number, _, instead), (_, program) in zip(forms()[0], PROGRAMS):
            if number != "11":
                self.assertEqual(self.told(program, instead), [], number)


if __name__ == "__main__":
    unittest.main()
