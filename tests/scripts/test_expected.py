"""Tests of what bin/explain says that was expected: at P1 just the tokens with which a program goes on, of each case of
tests/cases; at K1 what the rules of docs/LANGUAGE.md ask for."""

import os
import re
import resource
import subprocess
import sys
import tempfile
import unittest
from concurrent.futures import ThreadPoolExecutor

TOP = os.path.dirname(os.path.dirname(os.path.dirname(os.path.abspath(__file__))))
PROGRAM = os.environ["PCOM"]
sys.path[:0] = [os.path.join(TOP, "bin"), os.path.join(TOP, "tests")]

from case_files import read_cases
from pcom_lines import Message
from tools import pascal
from tools.asking import Asker
from tools.expected import expectation

SECONDS = 60
# Each token that a program may have, once, and a number, a name and a string for all of these.
SPELLED = """x 1 'ab' + - * = < > [ ] . , : ; ( ) <> <= >= := .. and array begin case const div do downto else end for
function if in mod not of or packed procedure program record repeat set then to type until var while with""".split()
NAMED = {"x": "a name", "1": "a number", "'ab'": "a string"}
# What the phrases stand for, by the syntax of ISO 7185.
PHRASES = {
    "an operator": "+ - * = <> < > <= >= and div in mod or",
    "an operator of sums or products": "+ - * and div mod or",
    "a statement": "x begin case for if repeat while with",
    "an expression": "x 1 'ab' + - ( [ not",
    "a factor": "x 1 'ab' ( [ not",
    "a constant": "x 1 'ab' + -",
    "a type": "x 1 'ab' + - ( array packed record set",
    "the end of the text": "",
}
PHRASED = sorted([*PHRASES, *NAMED.values(), *SPELLED], key=len, reverse=True)
DECLARED = """program p(input, output);
type color = (red, green);
var n: integer; b: boolean; c: char; t: color; s: set of 1..9; w: packed array [1..2] of char;
  a: array [1..2] of integer;
procedure q(n: integer; c: char); begin end;
begin
"""
# Statements that K1 refuses, with what has to be said by the rules of operators, assignments and conditions.
VALUES = (
    ("n := 1 + true", "an integer fits behind +"),
    ("n := true + 1", "an integer fits before +"),
    ("n := n * (1 + 2) * true", "an integer fits behind *"),
    ("n := true div n mod 2", "an integer fits before div"),
    ("b := not n", "a Boolean fits behind not"),
    ("n := -b", "an integer fits behind -"),
    ("n := 'a'", "an integer fits behind :="),
    ("c := 65", "a character fits behind :="),
    ("t := 1", "a value like red fits behind :="),
    ("w := 'a'", "a string fits behind :="),
    ("s := 3", "a set fits behind :="),
    ("b := n = c", "an integer fits behind ="),
    ("b := b and n", "a Boolean fits behind and"),
    ("if n then b := true", "a Boolean fits here"),
    ("while n + 1 do b := true", "a Boolean fits here"),
    ("repeat n := 1 until n", "a Boolean fits here"),
    ("n := abs(b)", "an integer fits here"),
    ("a[b] := 1", "an integer fits here"),
    ("q(1, 2)", "a character fits here"),
    ("write(1: b)", "an integer fits here"),
    ("for n := 1 to b do", "an integer fits here"),
    ("n := n - ord(c) - c", "an integer fits behind -"),
    ("n := integer", "an integer fits here"),
)
# Where no value would do.
NO_VALUES = ("n", "a := w")


def first_refusal(text):
    with tempfile.NamedTemporaryFile(suffix=".pas") as file:
        file.write(text)
        file.flush()
        streams = {"stdin": subprocess.DEVNULL, "stdout": subprocess.DEVNULL, "stderr": subprocess.PIPE}
        said = subprocess.run([PROGRAM, file.name], timeout=SECONDS, **streams).stderr
    found = re.match(rb"(\d+):(\d+): refused (\w+)\n", said)
    return found and (int(found[1]), int(found[2]), found[3].decode())


def goes_on(before, token):
    """Whether a program that begins so goes on with this token."""
    head = before + b"\n\n"
    return first_refusal(head + token.encode() + b"\n") != (head.count(b"\n") + 1, 1, "P1")


def spelled(token):
    """A token without what distinguishes names, numbers and strings."""
    return token.text if token.text in pascal.RESERVED or token.kind == "sign" else token.kind


def named_in(words):
    """The tokens that words such as `an operator, ; or end` name."""
    found, left = set(), words + " or "
    while left:
        phrase = next(one for one in PHRASED if re.match(re.escape(one) + "(, | or )", left))
        left = re.sub("^(, | or )", "", left[len(phrase) :])
        found |= {NAMED.get(token, token) for token in PHRASES[phrase].split()} if phrase in PHRASES else {phrase}
    return found


class Expected(unittest.TestCase):
    def setUp(self):
        holder = tempfile.TemporaryDirectory()
        self.addCleanup(holder.cleanup)
        self.folder = holder.name

    def explain(self, text, name="a.pas"):
        path = os.path.join(self.folder, name)
        with open(path, "wb") as file:
            file.write(text)
        words = [sys.executable, os.path.join(TOP, "bin", "explain"), path]
        ran = subprocess.run(words, env={**os.environ, "PCOM": PROGRAM}, stderr=subprocess.PIPE, timeout=SECONDS)
        self.assertNotIn(b"Traceback", ran.stderr)
        return ran.stderr

    def assert_expected(self, source, line, column):
        """What is named at P1 is each token that fits there and no other."""
        with Asker() as asker:
            message = Message("P1", "refused", line, column)
            (said,) = expectation(asker, source, message).sentences
        words = re.fullmatch("expected (.*), found .*", said)[1]
        before = source.decode("latin-1")
        before = before[: pascal.place_of(before, line, column)].encode("latin-1")
        wanted = {NAMED.get(token, token) for token in SPELLED if goes_on(before, token)}
        self.assertEqual(named_in(words), wanted, f"{source}\n{said}")

    def test_each_case(self):
        """Each source of tests/cases that P1 refuses, at its place; those with the same tokens before it once."""
        sources = {}
        for case in read_cases()[0]:
            told = re.fullmatch(rb"(\d+):(\d+): refused P1\n", case.tells or b"")
            if told and case.source and len(case.source) < 10000:
                line, column = int(told[1]), int(told[2])
                text = case.source.decode("latin-1")
                tokens = pascal.tokens_of(text[: pascal.place_of(text, line, column)])
                sources[tuple(spelled(token) for token in tokens)] = case.source, line, column
        self.assertGreater(len(sources), 100)
        with ThreadPoolExecutor(len(os.sched_getaffinity(0))) as pool:
            for done in [pool.submit(self.assert_expected, *source) for source in sources.values()]:
                done.result()

    def test_words(self):
        for text, wanted in (
            ("program p\nbegin\nend.\n", "expected ( or ;, found begin"),
            ("program p;\nbegin\n  x := 1\n  y := 2\nend.\n", "expected an operator, ; or end, found y"),
            ("program p; begin x = 5 end.\n", "expected (, [, ;, :=, . or end, found ="),
            ("program p; begin if a then b; else c end.\n", "expected a statement, ; or end, found else"),
            ("program p; begin end", "expected ., found the end of the text"),
            ("program p; begin end. 'more'", "expected the end of the text, found 'more'"),
            ("{ only } { comments }\n", "expected program, found the end of the text"),
            ("program p; const c = ;", "expected a constant, found ;"),
            ("program p; type t = ;", "expected a type, found ;"),
            ("program p; begin x := ) end.", "expected an expression, found )"),
            ("program p; begin x := a * + b end.", "expected a factor, found +"),
            ("program p; begin x := 1 = 2 = 3 end.", "expected an operator of sums or products, ; or end, found ="),
        ):
            self.assertIn(f"\n    {wanted}\n", self.explain(text.encode()).decode(), text)

    def test_values(self):
        for statement, wanted in VALUES:
            said = self.explain(f"{DECLARED}{statement}\nend.\n".encode()).decode()
            self.assertIn("refused K1", said, statement)
            self.assertIn(f"\n    {wanted}\n", said, statement)

    def test_no_value(self):
        for statement in NO_VALUES:
            said = self.explain(f"{DECLARED}{statement}\nend.\n".encode()).decode()
            self.assertIn("refused K1", said, statement)
            self.assertNotIn(" fits ", said, statement)

    def test_time(self):
        """Less than a second of processor. Other work on the machine doesn't count."""
        before = resource.getrusage(resource.RUSAGE_CHILDREN)
        text = "program p(output);\nbegin\n" + "  writeln(1);\n" * 1000 + "  writeln(1)\n  writeln(2)\nend.\n"
        said = self.explain(text.encode())
        after = resource.getrusage(resource.RUSAGE_CHILDREN)
        self.assertIn(b"expected ; or end, found writeln\n", said)
        self.assertLess(after.ru_utime + after.ru_stime - before.ru_utime - before.ru_stime, 1)


if __name__ == "__main__":
    unittest.main()
