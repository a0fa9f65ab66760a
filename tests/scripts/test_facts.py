"""Tests of `bin/explain --facts`: what it says is read back to the certificate that pcom writes, and its names have the
numbers that docs/CERTIFICATES.md counts."""

import glob
import os
import re
import subprocess
import sys
import tempfile
import unittest

TOP = os.path.dirname(os.path.dirname(os.path.dirname(os.path.abspath(__file__))))
PROGRAM = os.environ["PCOM"]
sys.path[:0] = [os.path.join(TOP, "bin"), os.path.join(TOP, "tests")]

from case_files import read_cases
from pcom_lines import Files
from tools import pascal
from tools.declarations import Declarations
from tools.facts import Words, facts

SECONDS = 60
# Which cases are taken, and how long their sources are.
EACH, MOST_BYTES = 13, 20000
# Where a fact ends, and not a span in its brackets.
FACT_ENDS = re.compile(r", (?![^\[]*\])")
HEADS = {"at each call": "entry", "at its end": "exit", "at each turn": "fact"}
# Names that stand in several blocks, headings with `forward`, records, and blocks in blocks.
FORMS = b"""program forms(input, output);
type pair = record a, b: integer; c: array [1..3] of record d: 0..9; e: char end end;
var n, i: integer; p, q: pair; r: record n: 0..5 end;
procedure later(var n: pair; k: integer); forward;
function f(n, m: integer; var k: integer): integer;
var i: 0..9;
  function h(i: integer): integer; begin h := i mod 7 + n mod 5; n := 3 end;
  procedure g; begin k := k mod 100; while k > 3 do k := k - h(k) - 1 end;
begin
  i := 0; repeat i := i + 1; g until i = 9;
  f := i
end;
procedure later; var i: integer; begin n.a := k mod 9; for i := 1 to 3 do begin n.c[i].d := i; n.c[i].e := 'x' end end;
begin
  r.n := 2; i := 5;
  while r.n < 5 do begin r.n := r.n + 1; later(p, r.n) end;
  later(q, 4);
  for n := 1 to 4 do i := f(n, 2, p.a) mod 50 + i mod 9
end.
"""


class FactsCase(unittest.TestCase):
    def setUp(self):
        holder = tempfile.TemporaryDirectory()
        self.addCleanup(holder.cleanup)
        self.folder = holder.name

    def path(self, name):
        return os.path.join(self.folder, name)

    def put(self, text):
        with open(self.path("a.pas"), "wb") as file:
            file.write(text)
        return self.path("a.pas")

    def run_words(self, *words):
        environment = {**os.environ, "PCOM": PROGRAM, "PYTHONIOENCODING": "utf-8"}
        streams = {"stdin": subprocess.DEVNULL, "stdout": subprocess.PIPE, "stderr": subprocess.PIPE}
        return subprocess.run(words, env=environment, timeout=SECONDS, **streams)

    def certificate(self, path, *words):
        """The certificate that pcom writes."""
        self.run_words(PROGRAM, *words, "--write-cert", self.path("a.cert"), path)
        with open(self.path("a.cert"), encoding="ascii") as file:
            return file.read()

    def facts(self, *words):
        """What is said of a source."""
        ran = self.run_words(sys.executable, os.path.join(TOP, "bin", "explain"), "--facts", *words)
        self.assertNotIn(b"Traceback", ran.stderr)
        return ran.stdout.decode()


class Reader:
    """Reads what is said back to a certificate."""

    def __init__(self, text):
        self.words = Words(text)
        declared = self.words.declared
        self.blocks = {f"{one.name}, line {declared.line(one.place)}": n for n, one in enumerate(declared.blocks)}
        self.loops = {}
        for number, at in enumerate(declared.loops):
            place = declared.tokens[at].start
            self.loops[f"{declared.line(place)}:{place - text.rfind(chr(10), 0, place)}"] = number
        self.numbers = {name: number for number, name in enumerate(self.words.names)}

    def part(self, words):
        name, path = re.fullmatch(r"(.*?\)|[\w ]+)((?:\.\w+|\[\])*)", words).groups()
        return f"v{self.numbers[name]}{path}"

    def bound(self, words):
        if re.fullmatch(r"-?\d+", words):
            return words
        name, sign, number = re.fullmatch(r"(.*?)(?: ([+-]) (\d+))?", words).groups()
        return f"v{self.numbers[name]}{sign or '+'}{number or 0}"

    def span(self, words):
        first, _, last = words.partition("..")
        return f"{self.bound(first)} {self.bound(last or first)}"

    def grown(self, words):
        """A number and its step."""
        number, step = re.fullmatch(r"(-?\d+(?!\*|\d))?(?: \+ )?(?:(-?\d+)\*k)?", words).groups()
        return f"{number or 0} {step or 0}"

    def fact(self, head, words):
        if head == "may change":
            return f"change {self.part(words)}"
        if head == "may share a place":
            return "alias {} {}".format(*(self.part(one) for one in words.split(" and ")))
        word, _, is_defined = head.partition(" defined")
        word = HEADS[head.removesuffix(" defined")]
        spans = re.fullmatch(r"(.*)\[(.+)\]", words)
        if head.endswith(" defined") and spans:
            ends = " ".join(self.span(one) for one in spans[2].split(", "))
            return f"{word} defined {self.part(spans[1])} {ends}"
        if head.endswith(" defined"):
            return f"{word} defined {self.part(words)}"
        order = words.partition(" <= ")
        if order[1]:
            variable, number = re.fullmatch(r"(v\d+)\+?(-?\d+)", self.bound(order[2])).groups()
            return f"{word} order {self.part(order[0])} {variable} {number}"
        if words.endswith(" without values"):
            return f"{word} range {self.part(words.removesuffix(' without values'))} 1 0"
        grown = re.fullmatch(r"(.*) in (.+)\.\.(.+) behind k turns", words)
        if grown:
            return f"{word} grow {self.part(grown[1])} {self.grown(grown[2])} {self.grown(grown[3])}"
        path, least, greatest = re.fullmatch(r"(.*) in (-?\d+)\.\.(-?\d+)", words).groups()
        return f"{word} range {self.part(path)} {least} {greatest}"

    def sections(self, said):
        """The headings of the certificate, each with its lines in any order."""
        sections = []
        for line in re.sub(r"\n      (?=\S)", " ", said).splitlines():
            if line.startswith("    "):
                head, _, facts = line.strip().partition(": ")
                sections[-1][1].update(self.fact(head, fact) for fact in FACT_ENDS.split(facts))
            elif line.startswith("  loop at "):
                sections.append((f"loop {self.loops[line[10:].partition(',')[0]]}", set()))
            else:
                sections.append((f"proc {self.blocks[line]}", set()))
        return sections


def sections_of(certificate):
    sections = []
    for line in certificate.splitlines()[1:]:
        if line.startswith(("proc ", "loop ")):
            sections.append((line, set()))
        else:
            sections[-1][1].add(line)
    return sections


class Facts(FactsCase):
    def assert_read_back(self, path, *words):
        certificate = self.certificate(path, *words)
        with open(path, encoding=pascal.ENCODING) as file:
            read = Reader(file.read()).sections(self.facts(*words, path))
        self.assertEqual(read, sections_of(certificate), path)
        return certificate.count("\n")

    def test_read_back(self):
        self.assertGreater(self.assert_read_back(self.put(FORMS)), 40)
        count = 0
        for path in sorted(glob.glob(os.path.join(TOP, "examples", "**", "*.pas"), recursive=True)):
            count += self.assert_read_back(path)
            given = path[: -len("pas")] + "cert"
            if os.path.exists(given):
                count += self.assert_read_back(path, "--cert", given)
        self.assertGreater(count, 200)

    def test_cases(self):
        """The same of programs of tests/cases, which have forms that no other has; one in so many."""
        count = 0
        for case in read_cases()[0][::EACH]:
            if case.source and len(case.source) < MOST_BYTES:
                said = facts(Files(self.put(case.source)))
                if said is not None:
                    read = Reader(case.source.decode(pascal.ENCODING)).sections("\n".join(said))
                    self.assertEqual(read, sections_of(self.certificate(self.path("a.pas"))), case.name)
                    count += 1
        self.assertGreater(count, 50)

    def test_words(self):
        text = b"program p;\nvar i, n: integer;\nbegin\n  n := 0;\n  for i := 1 to 9 do\n    n := i\nend.\n"
        lines = ("pcert 3", "proc 0", "loop 0", "change v1", "fact range v1 0 9")
        orders = ("fact order v0 v1 1", "fact order v1 v0 -1")
        with open(self.path("given.cert"), "w", encoding="ascii") as file:
            file.writelines(f"{line}\n" for line in (*lines, *orders))
        self.assertEqual(
            self.facts("--cert", self.path("given.cert"), self.put(text)),
            "p, line 1\n  loop at 5:3, for i := 1 to 9 do\n    may change: n\n"
            "    at each turn: n in 0..9, i <= n + 1, n <= i - 1\n",
        )

    def test_spans(self):
        """Stretches, with points among them, and blocks."""
        text = b"program p; var m: array [1..3, 1..4] of integer; n: 0..3; begin end."
        for line, said in (
            ("fact defined v0 1 v1-1", "m[1..n - 1]"),
            ("fact defined v0 v1+0 v1+0", "m[n]"),
            ("fact defined v0 2 2 v1+1 4", "m[2, n + 1..4]"),
        ):
            words = Words(text.decode())
            self.assertEqual(words.said(line.split()), ("at each turn defined", said))
            self.assertEqual(Reader(text.decode()).fact("at each turn defined", said), line)

    def test_growths(self):
        """Numbers that grow, that stay, and that do both."""
        text = b"program p; var i, n: integer; begin for i := 1 to 3 do end."
        for line, said in (
            ("fact grow v1 0 1 0 100", "n in 1*k..100*k behind k turns"),
            ("fact grow v1 -5 0 7 0", "n in -5..7 behind k turns"),
            ("fact grow v1 -9 -2 9 12", "n in -9 + -2*k..9 + 12*k behind k turns"),
        ):
            words = Words(text.decode())
            self.assertEqual(words.said(line.split()), ("at each turn", said))
            self.assertEqual(Reader(text.decode()).fact("at each turn", said), line)

    def test_refused(self):
        self.assertEqual(self.facts(self.put(b"program p; begin x end.")), "")
        self.assertEqual(self.facts(self.path("nothing.pas")), "")

    def test_how_to_count(self):
        """The numbers that the page writes beside its program."""
        with open(os.path.join(TOP, "docs", "CERTIFICATES.md"), encoding="utf-8") as file:
            page = file.read()
        text = re.search(r"^```pascal\n(program numbers.*?)^```", page, re.M | re.S)[1]
        declared = Declarations(text)
        lines = text.split("\n")
        for number, block in enumerate(declared.blocks):
            self.assertIn(f"block {number}", lines[declared.line(block.place) - 1])
        for number, variable in enumerate(declared.variables):
            self.assertRegex(lines[declared.line(variable.place) - 1], rf"\bv{number}\b")
        for number, at in enumerate(declared.loops):
            self.assertIn(f"loop {number}", lines[declared.line(declared.tokens[at].start) - 1])
        counts = len(declared.blocks), len(declared.variables), len(declared.loops)
        self.assertEqual(counts, (3, 7, 3))


if __name__ == "__main__":
    unittest.main()
