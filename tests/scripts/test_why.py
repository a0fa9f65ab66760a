"""Tests of pwhy: its lines of each kind of error, the statuses of pcom, and that it ends on every text."""

import os
import random
import re
import resource
import subprocess
import sys
import tempfile
import unittest

TOP = os.path.dirname(os.path.dirname(os.path.dirname(os.path.abspath(__file__))))
PROGRAM = os.environ["PWHY"]
PCOM = os.environ["PCOM"]
PAGE = os.path.join(TOP, "docs", "TOOLS.md")
EXAMPLE = re.compile(r"^```pascal\n([^`]*)^```\n[^`]*^```text\n\$ bin/pwhy (\S+)\n(.*?)^```", re.M | re.S)
SECONDS = 60
SMALL = 24 << 20
HEAD = """program it(input, output);
type color = (red, green, blue); row = array [1..9] of integer;
var i, k, n: integer; d: 1..9; a, b: row; c: color; s: set of 1..9; r: record x: integer end;
"""
NO_MORE = "nothing more of it was known before"
# Statements with the sites that are told of them: the name, and the two lines below.
KINDS = {
    "read(i); a[i] := 1": [("index", "i is any integer here; it fits if it is in 1..9", NO_MORE)],
    "read(i); if i > 0 then a[i + 1] := 1": [
        ("index", "the value is at least 2 here; it fits if it is in 1..9", NO_MORE),
        ("overflow", "i is at least 1 here; it fits if it is at most 2147483646", NO_MORE),
    ],
    "read(k); d := k": [("subrange", "k is any integer here; it fits if it is in 1..9", NO_MORE)],
    "for d := 0 to 9 do": [("subrange", "the value is 0 here; it fits if it is in 1..9", NO_MORE)],
    "writeln(r.x)": [
        (
            "undefined variable",
            "r.x isn't known to be defined here; it is, if each way here gives it a value",
            NO_MORE,
        )
    ],
    "read(n, k); if (n > 0) and (n < 9) and (k > 0) and (k < 9) then begin "
    "for i := 1 to n do a[i] := i; for i := 1 to k do writeln(a[i]) end": [
        (
            "undefined variable",
            "a[i]: 1..n is known to be defined, i is in 1..8; i <= n is not known",
            "i <= k is known, but nothing between k and n",
        )
    ],
    "read(n, k); writeln(k div n)": [("division by zero", "n is any integer here; it fits if it isn't 0", NO_MORE)],
    "read(n, k); writeln(k mod n)": [
        ("mod by zero or less", "n is any integer here; it fits if it is at least 1", NO_MORE)
    ],
    "read(i); case i of 1: ; 2: end": [
        ("case", "i is any integer here; it fits if it is one of the constants", NO_MORE)
    ],
    "read(k); writeln(chr(k))": [("chr", "k is any integer here; it fits if it is in 0..127", NO_MORE)],
    "c := red; read(n); if n > 4 then c := blue; c := succ(c)": [
        ("succ", "c is in 0..2 here; it fits if it is in 0..1", NO_MORE)
    ],
    "c := red; read(n); if n > 4 then c := blue; c := pred(c)": [
        ("pred", "c is in 0..2 here; it fits if it is in 1..2", NO_MORE)
    ],
    "read(n); writeln(sqr(n))": [("overflow", "n is any integer here; it fits if it is in -46340..46340", NO_MORE)],
    "read(n); writeln(n + n)": [
        ("overflow", "n is any integer, n is any integer here; the result fits if it is an integer", NO_MORE)
    ],
    "n := 0; read(k); while k > 0 do begin n := n + 1; read(k) end": [
        (
            "overflow",
            "n is at least 0 here; it fits if it is at most 2147483646",
            "n is 0 before the loop that changes it, at 4:24",
        )
    ],
    "read(n, k); writeln(n: k)": [("width", "k is any integer here; it fits if it is at least 1", NO_MORE)],
    "read(k); s := [k]": [
        ("set member", "the value is in 0..127 here; it fits if it is in 1..9", NO_MORE),
        ("set member", "k is any integer here; it fits if it is in 0..127", NO_MORE),
    ],
}


def ran(*words, **how):
    return subprocess.run([PROGRAM, *words], capture_output=True, stdin=subprocess.DEVNULL, timeout=SECONDS, **how)


class Why(unittest.TestCase):
    def setUp(self):
        holder = tempfile.TemporaryDirectory()
        self.addCleanup(holder.cleanup)
        self.folder = holder.name

    def put(self, text, name="it.pas"):
        path = os.path.join(self.folder, name)
        with open(path, "wb") as file:
            file.write(text if isinstance(text, bytes) else text.encode())
        return path

    def told(self, text, *words):
        """The sites of a source with their two lines."""
        done = ran(*words, self.put(text))
        self.assertEqual(done.stdout, b"")
        lines = done.stderr.decode().splitlines()
        self.assertEqual(len(lines) % 3, 0)
        self.assertEqual(done.returncode, 1 if lines else 0)
        return [lines[at : at + 3] for at in range(0, len(lines), 3)]

    def test_kinds(self):
        for statement, sites in KINDS.items():
            with self.subTest(statement):
                told = self.told(f"{HEAD}begin {statement} end.")
                found = [(first.partition("error: ")[2], *(line[2:] for line in rest)) for first, *rest in told]
                self.assertEqual(found, sites)

    def test_page(self):
        with open(PAGE, encoding="utf-8") as file:
            source, name, shown = EXAMPLE.search(file.read()).groups()
        self.assertEqual(ran(self.put(source, name), cwd=self.folder).stderr.decode(), shown)

    def test_explain(self):
        """bin/explain --why shows the lines in place of its own, at so many sites."""
        path = self.put(f"{HEAD}begin read(n, k); writeln(k div n); writeln(n div k) end.")
        words = [sys.executable, os.path.join(TOP, "bin", "explain"), "--why=1", path]
        told = subprocess.run(words, capture_output=True, timeout=SECONDS).stderr.decode()
        self.assertIn(f"    n is any integer here; it fits if it isn't 0\n    {NO_MORE}\n", told)
        self.assertNotIn("k is any integer", told)

    def test_first_lines_are_those_of_pcom(self):
        for name in sorted(os.listdir(os.path.join(TOP, "examples"))):
            if name.endswith(".pas"):
                path = os.path.join(TOP, "examples", name)
                wanted = subprocess.run([PCOM, path], capture_output=True, timeout=SECONDS)
                done = ran(path)
                self.assertEqual(done.stderr.splitlines()[::3], wanted.stderr.splitlines(), name)
                self.assertEqual(done.returncode, wanted.returncode, name)

    def test_result(self):
        text = (
            "program it(input, output); var n: integer; function f(p: integer): integer; "
            "begin if p > 0 then f := p end; begin read(n); writeln(f(n)) end."
        )
        wanted = ["  the result isn't known to be set where the function ends", f"  {NO_MORE}"]
        self.assertEqual([site[1:] for site in self.told(text)], [wanted])

    def test_certificate(self):
        text = f"{HEAD}begin n := 0; while n <> 9 do n := n + 1 end."
        path = self.put("pcert 1\nproc 0\nloop 0\nchange v2\n", "it.cert")
        ((_, known, before),) = self.told(text, "--cert", path)
        self.assertEqual(known, "  n is any integer here; it fits if it is at most 2147483646")
        self.assertEqual(before, "  n is 0 before the loop that changes it, at 4:15")

    def test_calls(self):
        text = (
            "program it(input, output);\nvar n, k: integer;\n"
            "procedure p(m: integer);\nbegin read(k); writeln(m div k) end;\n"
            "procedure q(m: integer);\nbegin writeln(9 div m) end;\n"
            "begin\n  k := 3;\n  p(1);\n  writeln(9 div k);\n  q(2);\n  read(n);\n  q(n)\nend."
        )
        wanted = [
            ["  k is any integer here; it fits if it isn't 0", f"  {NO_MORE}"],
            ["  m is any integer here; it fits if it isn't 0", "  m is any integer where it is passed, at 13:3"],
            ["  k is any integer here; it fits if it isn't 0", "  k is 3 before the call that changes it, at 9:3"],
        ]
        self.assertEqual([site[1:] for site in self.told(text)], wanted)

    def test_whole_values(self):
        wanted = ["  a isn't known to be defined here; it is, if each way here gives it a value", f"  {NO_MORE}"]
        self.assertEqual([site[1:] for site in self.told(f"{HEAD}begin b := a end.")], [wanted])

    def test_set_members(self):
        told = self.told(f"{HEAD}begin read(k, n); if k = 3 then s := s - [k..n, 4] end.")
        names = [known for _, known, _ in told]
        self.assertIn("  n is any integer here; it fits if it is in 0..127", names)

    def test_refusals(self):
        for text in (b"", b"program", b"program p; begin x := 1 end.", b"\xff\x00[", b"program p(output); begin end."):
            path = self.put(text)
            wanted = subprocess.run([PCOM, path], capture_output=True, timeout=SECONDS)
            self.assertEqual((ran(path).stderr, ran(path).returncode), (wanted.stderr, wanted.returncode), text)

    def test_hostile_texts(self):
        chance = random.Random(7)
        text = f"{HEAD}begin read(i); a[i] := b[a[i] + 1] * k end."
        for _ in range(60):
            at = chance.randrange(len(text))
            done = ran(self.put(text[:at] + chance.choice("[].;\n{}'^@0") + text[at + chance.randrange(3) :]))
            self.assertIn(done.returncode, (0, 1, 2))

    def test_comments_in_an_index(self):
        told = self.told(f"{HEAD}begin a[1] := 2; writeln(b[{{ ] \x1b[2J\n}} 1]) end.")
        self.assertTrue(all("\x1b" not in line for site in told for line in site))

    def test_files(self):
        self.assertEqual(ran("none").stderr, b"cannot read none\n")
        self.assertEqual(ran("none").returncode, 3)
        path = self.put("program p; begin end.")
        self.assertEqual(ran("--cert", "none", path).stderr, b"cannot read none\n")
        self.assertEqual(ran().returncode, 3)
        self.assertEqual(ran(b"\xff").returncode, 3)
        self.assertEqual(ran("--help").returncode, 0)

    def test_memory(self):
        text = HEAD + "begin " + "read(i); a[i] := 1; " * 20000 + "end."
        done = ran(self.put(text), preexec_fn=lambda: resource.setrlimit(resource.RLIMIT_AS, (SMALL, SMALL)))
        self.assertEqual((done.stderr, done.returncode), (b"no memory\n", 3))


if __name__ == "__main__":
    unittest.main()
