"""Tests of `bin/explain --why`: what is known at told sites is what the compiler itself holds there.

Each range is tested by a store beside the place: to a variable of just that subrange it is silent, to one that is
narrower at either end it is told."""

import glob
import os
import re
import resource
import subprocess
import sys
import tempfile
import unittest
from zlib import crc32

TOP = os.path.dirname(os.path.dirname(os.path.dirname(os.path.abspath(__file__))))
PROGRAM = os.environ["PCOM"]
sys.path[:0] = [os.path.join(TOP, "bin"), os.path.join(TOP, "tests")]

from case_files import read_cases
from pcom_lines import Files, message_of
from tools import pascal
from tools.asking import Asker
from tools.known import Knowledge, known_at_sites

SECONDS = 60
MAXINT = 2147483647
# Which cases are taken, and how long their sources are.
EACH, MOST_BYTES = 13, 2000
FORMS = b"""program forms(input, output);
type
  color = (red, green, blue);
  row = array [1..9] of integer;
  pair = record first, last: 0..99; tint: color end;
var
  a: row; p: pair; c: char; t: color; b: boolean; i, n, most: integer;
  s: array (.color.) of pair;

procedure inner(k: integer; var m: integer);
var j: integer;
  procedure deeper; begin m := m + k * k { with { braces } end;
begin
  j := k mod 7;
  if k > 5 then if k < 9 then m := m + k else m := m - k else deeper;
  repeat j := j - 1; m := m * j until m * 2 > j;
  for j := m - 1 to m + k do a[j] := j
end;

begin
  read(i, n, c); p.first := 3; p.last := 60; p.tint := green; t := blue; most := 0;
  for i := 1 to 9 do a[i] := i;
  i := n;
  while i + n < 70 do begin i := i + 1; n := n + i end;
  with p do begin
    first := last + first;
    case first mod 3 of 0: t := succ(tint); 1: begin t := red end; 2: ; end
  end;
  s[t] := p;
  if (c >= 'a') and (c <= 'y') then c := chr(ord(c) * 2) else if n = 5 then n := n div (n - 5);
  inner(i, n); inner(3, most);
  b := a[n] > a[i];
  t := succ(t);
  if b then write(a[i * 2]: p.first);
  while (n > 3) and (a[n] <> 0) do n := n - ord(c)
end.
"""


def ran(source):
    """The lines that the program says of a source."""
    streams = {"stdin": subprocess.DEVNULL, "stdout": subprocess.DEVNULL, "stderr": subprocess.PIPE}
    return subprocess.run([PROGRAM, source], timeout=SECONDS, **streams).stderr.decode().splitlines()


class Store:
    """A source with a store of an operand to a variable of a subrange, beside the statement that uses it."""

    def __init__(self, text, operand):
        self.text, self.operand = text, operand
        self.tokens = pascal.tokens_of(text)

    def places(self):
        """Where the store is to stand, with what closes behind the statement that follows it."""
        statement = self.operand.statement
        start = self.tokens[statement.start].start
        if statement.word == "until":
            return [(start, start, "")]
        end = self.tokens[statement.end - 1].end
        if statement.word != "while":
            return [(start, end, " end")]
        # What the condition knows is known in the turn or behind the last one.
        return [(self.tokens[statement.head_end + 1].start, end, " end"), (start, end, "behind")]

    def with_store(self, least, greatest, place):
        """The source, and the line of the store."""
        start, end, closing = place
        store = f"\nprobe := ord({self.operand.written})\n"
        if closing == "behind":
            changed = f"{self.text[:start]}begin {self.text[start:end]};{store}end{self.text[end:]}"
            before = self.text[:end]
        elif closing:
            changed = f"{self.text[:start]}begin {store};{self.text[start:end]}{closing}{self.text[end:]}"
            before = self.text[:start]
        else:
            changed = f"{self.text[:start]};{store}{self.text[start:]}"
            before = self.text[:start]
        declared = f"var probe: {least}..{greatest};"
        first = next(token for token in self.tokens if token.text in ("var", "procedure", "function", "begin"))
        if first.text == "var":
            changed = f"{changed[:first.start]}{declared}{changed[first.end:]}"
        else:
            changed = f"{changed[:first.start]}{declared}{changed[first.start:]}"
        return changed, before.count("\n") + 2

    def is_told(self, least, greatest, folder):
        """Whether the store of the operand to a variable of this range is told."""
        path = os.path.join(folder, "store.pas")
        said = []
        for place in self.places():
            text, line = self.with_store(least, greatest, place)
            with open(path, "wb") as file:
                file.write(text.encode(pascal.ENCODING))
            lines = ran(path)
            if any("refused" in one for one in lines):
                raise AssertionError(f"{self.operand.written}: {lines}\n{text}")
            said.append(any(re.fullmatch(f"{line}:\\d+: possible error: subrange", one) for one in lines))
        return any(said)


class Known(unittest.TestCase):
    def setUp(self):
        holder = tempfile.TemporaryDirectory()
        self.addCleanup(holder.cleanup)
        self.folder = holder.name

    def put(self, text):
        path = os.path.join(self.folder, "a.pas")
        with open(path, "wb") as file:
            file.write(text)
        return path

    def ranges(self, path):
        """What is known at all sites of a source: the text, and each operand with its range."""
        with Asker() as asker, open(path, "rb") as file:
            text = file.read().decode(pascal.ENCODING)
            messages = asker.run([path])
            places = [(one.line, one.column) for one in messages if one.kind == "possible error"]
            knowledge = Knowledge(asker, text, [], set())
            return text, [one for known in knowledge.ranges(places) for one in known]

    def assert_just(self, path):
        """Each range is neither too wide nor too narrow; gives how many there are."""
        text, found = self.ranges(path)
        for operand, known in found:
            store = Store(text, operand)
            with self.subTest(path=os.path.basename(path), operand=operand.written, known=known):
                self.assertFalse(store.is_told(known.least, known.greatest, self.folder))
                if known.least == known.greatest:
                    other = known.least - 1 if known.least == MAXINT else known.least + 1
                    self.assertTrue(store.is_told(other, other, self.folder))
                else:
                    self.assertTrue(store.is_told(known.least + 1, known.greatest, self.folder))
                    self.assertTrue(store.is_told(known.least, known.greatest - 1, self.folder))
        return len(found)

    def test_ranges_are_just(self):
        count = self.assert_just(self.put(FORMS))
        self.assertGreaterEqual(count, 20)
        for path in sorted(glob.glob(os.path.join(TOP, "examples", "**", "*.pas"), recursive=True)):
            count += self.assert_just(path)
        self.assertGreaterEqual(count, 25)

    def test_ranges_in_cases(self):
        """The same of programs of tests/cases, which have forms that no other has; one in so many, by their names."""
        count = 0
        for case in read_cases()[0]:
            if crc32(case.name.encode()) % EACH == 0 and case.source and len(case.source) < MOST_BYTES:
                path = self.put(case.source)
                count += self.assert_just(path) if not any("refused" in line for line in ran(path)) else 0
        self.assertGreater(count, 25)

    def known(self, text, most=10):
        return known_at_sites(Files(self.put(text)), most)

    def test_words(self):
        text = b"""program p(input, output);
type color = (red, green, blue);
var c: char; t: color; b: boolean; n: integer; a: array [1..3] of 4..5;
begin
  read(n, c, a[2]); t := blue; b := true;
  if odd(n) then t := green;
  n := n + a[2] - ord(t) - ord(c) - ord(b);
  if (c >= 'b') and (c <= 'd') then c := chr(ord(c) + n);
  if n = 6 then n := n * maxint
end.
"""
        # In line 8 the result of line 7: at most maxint, less 1 of ord(t), 0 of ord(c) and 1 of ord(b).
        known = {
            (7, 10): [
                "n lies in -2147483647..2147483647",
                "a[2] lies in 4..5",
                "t lies in green..blue",
                "c lies in chr(0)..chr(127)",
                "b is true",
            ],
            (8, 42): ["c lies in 'b'..'d'", "n lies in -2147483647..2147483645"],
            (9, 24): ["n is 6"],
        }
        found = self.known(text)
        for place in known:
            self.assertEqual(found[place], known[place])

    def test_apostrophe(self):
        text = b"""program p(input, output);
var c: char; n: integer;
begin
  read(c, n);
  if (c >= '''') and (c <= '.') then n := n + ord(c)
end.
"""
        self.assertIn("c lies in ''''..'.'", [one for known in self.known(text).values() for one in known])

    def test_first_sites_alone(self):
        lines = "".join(f"  n := n + {number};\n" for number in range(15))
        text = f"program p(input, output);\nvar n: integer;\nbegin\n  read(n);\n{lines}end.\n".encode()
        self.assertEqual(len(self.known(text)), 10)
        self.assertEqual(len(self.known(text, 3)), 3)
        self.assertEqual(len(self.known(text, 99)), 14)

    def test_what_has_no_sites(self):
        self.assertEqual(self.known(b"program p;\nbegin\nend.\n"), {})
        self.assertEqual(self.known(b"program p;\nbegin x\nend.\n"), {})
        self.assertEqual(self.known(b""), {})
        self.assertEqual(self.known(b"\xff\0"), {})
        self.assertEqual(known_at_sites(Files(), 10), {})
        self.assertEqual(known_at_sites(Files(os.path.join(self.folder, "nothing.pas")), 10), {})

    def test_certificate(self):
        # By this certificate nothing is known of i behind the loop's head but its type.
        path = self.put(b"program p;\nvar i: integer;\nbegin\ni := 1;\nwhile i < 9 do i := i + 1;\ni := i * i\nend.\n")
        certificate = os.path.join(self.folder, "a.cert")
        with open(certificate, "w", encoding="ascii") as file:
            file.write("pcert 1\nproc 0\nloop 0\nchange v0\n")
        self.assertEqual(known_at_sites(Files(path), 10), {})
        found = known_at_sites(Files(path, certificate), 10)
        self.assertIn(["i lies in 9..2147483647"], found.values())

    def test_time(self):
        """Less than a second of processor for a program of 300 lines. Other work on the machine doesn't count."""
        body = "".join(f"  x{n} := x{n} + {n};\n" for n in range(280))
        names = ",\n".join(", ".join(f"x{n}" for n in range(row, row + 28)) for row in range(0, 280, 28))
        text = f"program p(input, output);\nvar\n{names}: integer;\nbegin read({names});\n{body}end.\n"
        self.assertGreaterEqual(text.count("\n"), 300)
        before = resource.getrusage(resource.RUSAGE_CHILDREN)
        path = self.put(text.encode())
        words = [sys.executable, os.path.join(TOP, "bin", "explain"), "--why", path]
        environment = {**os.environ, "PCOM": PROGRAM, "PWHY": ""}
        said = subprocess.run(words, env=environment, stderr=subprocess.PIPE, timeout=SECONDS).stderr
        after = resource.getrusage(resource.RUSAGE_CHILDREN)
        self.assertEqual(said.count(b" lies in -2147483647..2147483647\n"), 10)
        self.assertLess(after.ru_utime + after.ru_stime - before.ru_utime - before.ru_stime, 1)


class Heads(unittest.TestCase):
    """Which statement a place belongs to."""

    def head(self, text, mark):
        """The text of the statement that a place stands in, which is told by a mark behind it."""
        place = text.index(mark)
        text = text.replace(mark, "")
        tokens = pascal.tokens_of(text)
        statement = pascal.Statements(tokens).holding(place)
        return statement and text[tokens[statement.start].start : tokens[statement.end - 1].end]

    def test_heads(self):
        for text, wanted in (
            ("begin x := |y end.", "x := y"),
            ("begin if |a then b else c end.", "if a then b else c"),
            ("begin if a then |b else c end.", "b"),
            ("begin if a then if b then c else |d else e end.", "d"),
            ("begin while |a do begin b; c end; d end.", "while a do begin b; c end"),
            ("begin for i := |1 to 2 do begin end end.", "for i := 1 to 2 do begin end"),
            ("begin repeat a; b until |c; d end.", "until c"),
            ("begin case |a of 1, 2: b; 3: begin c end end; d end.", "case a of 1, 2: b; 3: begin c end end"),
            ("begin case a of 1: ; 2: |b end end.", "b"),
            ("begin with |a[1] do b end.", "with a[1] do b"),
            ("procedure p; begin |a end; begin b end.", "a"),
            ("type r = record a: integer end; begin (* ; } x(|'end') end.", "x('end')"),
            ("begin a { |; } end.", None),
        ):
            self.assertEqual(self.head(text, "|"), wanted, text)

    def test_any_text_has_an_end(self):
        for text in ("begin", "begin if", "begin case a of", "begin case a of 1", "begin repeat", "end begin ( [", "'"):
            pascal.Statements(pascal.tokens_of(text))


class Lines(unittest.TestCase):
    def test_kinds(self):
        for line, kind in (
            (b"1:2: possible error: index", "possible error"),
            (b"1:2: error: index", "error"),
            (b"1:2: input: end of input", "input"),
            (b"1:2: refused P1", "refused"),
            (b"1:2: certificate refused C3", "certificate refused"),
            (b"refused G1", "refused"),
            (b"certificate:4: refused F2", "refused"),
            (b"machine fault M1", "machine fault"),
            (b"no memory", ""),
        ):
            self.assertEqual(message_of(line).kind, kind)
        for line in (b"1:2: refused: P1", b"1:2: error index", b"1:2: possible error index", b"1:2: refused"):
            self.assertIsNone(message_of(line))


if __name__ == "__main__":
    unittest.main()
