"""Tests of bin/explain: over the built program, and over one that stands in for it."""

import configparser
import os
import re
import shutil
import signal
import subprocess
import sys
import tempfile
import unittest

from stand_in import make_stand_in, put, taken

TOP = os.path.dirname(os.path.dirname(os.path.dirname(os.path.abspath(__file__))))
PROGRAM = os.environ["PCOM"]
SECONDS = 60
LAST_LINE = re.compile(r"^.*: \d+ sites?, \d+ closed, \d+ told.*\n\Z", re.M)
OPEN = b"program p(output);\nvar x: integer;\nbegin\n\twrite(1: 1); write(x: 1)\nend.\n"
# What the stand-in's sentences are.
SENTENCES = b"""[index]
means = An index is outside
    its type.
mend = Keep it inside.

[store full]
means = The store was full.
mend = Let fewer calls stand in one another.

[M1]
means = The machine found a fault.
mend = Tell us.

[K5]
means = The control variable isn't the own one.
mend = Declare one.
"""
INDEX = "    An index is outside its type.\n    Keep it inside.\n"
FULL = "    The store was full.\n    Let fewer calls stand in one another.\n"


class ExplainCase(unittest.TestCase):
    """Has a folder of its own, and runs bin/explain."""

    top = TOP
    program = PROGRAM
    encoding = "utf-8"

    def setUp(self):
        holder = tempfile.TemporaryDirectory()
        self.addCleanup(holder.cleanup)
        self.folder = holder.name

    def command(self, words):
        return [sys.executable, os.path.join(self.top, "bin", "explain"), *words]

    def environment(self):
        return {**os.environ, "PCOM": self.program, "PWHY": "", "PYTHONIOENCODING": self.encoding}

    def explain(self, *words, **given):
        given = {"stdout": subprocess.PIPE, "stderr": subprocess.PIPE, "cwd": self.folder, "input": b"", **given}
        ran = subprocess.run(self.command(words), env=self.environment(), timeout=SECONDS, **given)
        self.output, self.errors = ran.stdout, (ran.stderr or b"").decode()
        self.assertNotIn("Traceback", self.errors)
        return ran.returncode


class OverTheProgram(ExplainCase):
    """What the built program tells, with the sentences of docs/explanations.ini."""

    def assert_told(self, text, *names):
        """Standard error is the text, with the sentences of the next name in place of each `<>`, and its white space
        doesn't matter in them; and the line with the number of sites, where a program was taken."""
        parser = configparser.RawConfigParser()
        parser.read(os.path.join(TOP, "docs", "explanations.ini"), encoding="utf-8")
        for name in names:
            text = text.replace("<>", f"{parser[name]['means']} {parser[name]['mend']}", 1)
        self.assertEqual(LAST_LINE.sub("", self.errors).split(), text.split())

    def assert_shown(self, lines):
        self.assertIn(lines, self.errors)

    def test_refusal(self):
        put(self.folder, "a.pas", b"program p(output);\nbegin\n  write(x: 1)\nend.\n")
        self.assertEqual(self.explain("a.pas"), 2)
        self.assert_shown("3:9: refused S3\n    3 |   write(x: 1)\n      |         ^\n    ")
        self.assert_told("3:9: refused S3 3 | write(x: 1) | ^ <>", "S3")

    def test_end_of_the_text(self):
        put(self.folder, "a.pas", b"program p;\nbegin\nend")
        self.assertEqual(self.explain("a.pas"), 2)
        self.assert_shown("3:4: refused P1\n    3 | end\n      |    ^\n    ")

    def test_open_site(self):
        self.assertEqual(self.explain(os.path.join(TOP, "examples", "undefined.pas")), 1)
        self.assert_shown("    8 |   writeln(first + second)\n      |                   ^\n    ")
        self.assert_told(
            "8:19: possible error: undefined variable 8 | writeln(first + second) | ^ <>", "undefined variable"
        )

    def test_error_with_output(self):
        put(self.folder, "a.pas", OPEN)
        self.assertEqual(self.explain("--go", "a.pas"), 4)
        self.assertEqual(self.output, b"1")
        place = "4 | write(1: 1); write(x: 1) | ^"
        self.assert_told(
            f"4:21: possible error: undefined variable {place} <> 4:21: error: undefined variable {place}",
            "undefined variable",
        )
        self.assert_shown("    4 |         write(1: 1); write(x: 1)\n      |                            ^\n")

    def test_why(self):
        text = b"program p(input, output);\nvar x: integer;\nbegin\n  read(x);\n  if x > 7 then writeln(x * x)\nend.\n"
        put(self.folder, "a.pas", text)
        place = "5:27: possible error: overflow 5 | if x > 7 then writeln(x * x) | ^"
        for words in (["--why", "a.pas"], ["a.pas", "--why=1"]):
            self.assertEqual(self.explain(*words), 1)
            self.assert_told(f"{place} x lies in 8..2147483647 <>", "overflow")
        self.assertEqual(self.explain("--go", "--why", "a.pas", input=b"99999"), 4)
        self.assert_told(
            f"{place} x lies in 8..2147483647 <> {place.replace('possible error', 'error')}", "overflow"
        )
        # These are no options of bin/explain.
        for words in (["--why=0", "a.pas"], ["--cert", "--why", "a.pas"], ["--", "--why"]):
            self.assertNotIn(self.explain(*words), (0, 1))

    def test_certificate(self):
        put(self.folder, "a.pas", OPEN)
        put(self.folder, "a.cert", b"pcert 1\n  foo\n")
        for words in (["--cert", "a.cert", "a.pas"], ["a.pas", "--cert=a.cert"], ["--cert", "a.cert", "--", "a.pas"]):
            self.assertEqual(self.explain(*words), 2)
            self.assert_shown("certificate:2: refused F2\n    2 |   foo\n      | ^\n    ")
            self.assert_told("certificate:2: refused F2 2 | foo | ^ <>", "F2")

    def test_claim(self):
        put(self.folder, "a.pas", b"program p;\nvar x: integer;\nbegin\n  while x > 0 do x := 1\nend.\n")
        put(self.folder, "a.cert", b"pcert 1\n")
        self.assertEqual(self.explain("--cert", "a.cert", "a.pas"), 2)
        self.assert_shown("    4 |   while x > 0 do x := 1\n      |                    ^\n    ")
        self.assert_told("4:20: certificate refused C7 4 | while x > 0 do x := 1 | ^ <>", "C7")

    def test_claim_without_place(self):
        put(self.folder, "a.pas", OPEN)
        put(self.folder, "a.cert", b"pcert 1\nproc 9\nchange v0\n")
        self.assertEqual(self.explain("--cert", "a.cert", "a.pas"), 2)
        self.assert_told("certificate refused C1 <>", "C1")

    def test_cannot_write(self):
        put(self.folder, "a.pas", OPEN)
        self.assertEqual(self.explain("--write-cert", "none/a.cert", "--go", "a.pas"), 3)
        self.assertEqual(self.output, b"")
        self.assert_told("cannot write none/a.cert There is no such folder. <>", "cannot write")

    def test_good_program(self):
        words = ["--go", os.path.join(TOP, "examples", "sum.pas")]
        wanted = subprocess.run([PROGRAM, *words], stdout=subprocess.PIPE, timeout=SECONDS, check=True).stdout
        self.assertEqual(self.explain(*words), 0)
        self.assertEqual(self.output, wanted)
        self.assert_told("")
        self.assertTrue(wanted)

    def test_cannot_read(self):
        self.assertEqual(self.explain("nothing.pas"), 3)
        self.assert_told("cannot read nothing.pas There is no such file. <>", "cannot read")
        self.assertEqual(self.explain("--cert", "nothing.cert", "nothing.pas"), 3)
        self.assertIn("There is no such file.", self.errors)
        self.assertEqual(self.explain("."), 3)
        self.assert_told("cannot read . This is a folder. <>", "cannot read")

    def test_byte_order_mark(self):
        put(self.folder, "a.pas", b"\xef\xbb\xbf" + OPEN)
        self.assertEqual(self.explain("a.pas"), 2)
        hint = "This is a byte order mark: save the file as UTF-8 without a byte order mark."
        self.assert_told(f"1:1: refused L1 1 | ?program p(output); | ^ {hint} <>", "L1")
        put(self.folder, "a.pas", b"program p; begin \xe9 end.\n")
        self.assertEqual(self.explain("a.pas"), 2)
        self.assert_told("1:18: refused L1 1 | program p; begin \ufffd end. | ^ <>", "L1")

    def test_letters_of_two_bytes(self):
        put(self.folder, "a.pas", "program p(output);\nbegin\n  { äöü } write(x: 1)\nend.\n".encode())
        self.assertEqual(self.explain("a.pas"), 2)
        self.assert_shown("3:20: refused S3\n    3 |   { äöü } write(x: 1)\n      |                 ^\n    ")

    def test_binary_file(self):
        self.assertEqual(self.explain(sys.executable), 2)
        self.assert_told("1:1: refused L1 <>", "L1")
        put(self.folder, "a.pas", b"program p;\tbegin\x0c end.\r\n")
        self.assertEqual(self.explain("a.pas"), 2)
        self.assert_shown("    1 | program p;      begin? end.?\n      |                      ^\n")

    def test_source_from_a_pipe(self):
        words = ["--go", os.path.join(TOP, "examples", "sum.pas")]
        wanted = subprocess.run([PROGRAM, *words], stdout=subprocess.PIPE, timeout=SECONDS, check=True).stdout
        command = 'exec "$@" --go <(cat "$SOURCE")'
        ran = subprocess.run(
            ["bash", "-c", command, "bash", *self.command([])],
            env={**self.environment(), "SOURCE": words[1]},
            stdin=subprocess.DEVNULL,
            stdout=subprocess.PIPE,
            stderr=subprocess.PIPE,
            timeout=SECONDS,
        )
        # What is read once has no sites to count.
        self.assertEqual((ran.returncode, ran.stdout, ran.stderr), (0, wanted, b""))

    def test_source_as_input(self):
        put(self.folder, "a.pas", OPEN)
        with open(os.path.join(self.folder, "a.pas"), "rb") as source:
            self.assertEqual(self.explain("/dev/stdin", input=None, stdin=source), 1)
        self.assert_told("4:21: possible error: undefined variable <>", "undefined variable")

    def test_wrong_words(self):
        for words in (["--stop", "x.pas"], ["x.pas", "x.code", "y.code"], ["--cert"], ["--go"]):
            self.assertEqual(self.explain(*words), 3)
            self.assertIn("error: ", self.errors)

    def test_one_stream(self):
        # Lines and output stand in their order where both go to one place.
        put(self.folder, "a.pas", OPEN)
        self.assertEqual(self.explain("--go", "a.pas", stderr=subprocess.STDOUT), 4)
        self.assertRegex(
            self.output.decode(),
            r"(?s)^4:21: possible error: .*\n14:21: error: undefined variable\n.*\na.pas: 3 sites, 2 closed, 1 told",
        )

    def test_name_alone(self):
        for words, name in ((["K5"], "K5"), (["k5"], "K5"), (["Undefined", "variable"], "undefined variable")):
            self.assertEqual(self.explain(*words), 0)
            self.errors = self.output.decode()
            self.assert_told(f"{' '.join(words)} <>", name)

    def test_list(self):
        self.assertEqual(self.explain("--list"), 0)
        self.assertEqual(self.errors, "")
        parser = configparser.RawConfigParser()
        parser.read(os.path.join(TOP, "docs", "explanations.ini"), encoding="utf-8")
        names = [name for name in parser.sections() if "means" in parser[name]]
        wanted = " ".join(f"{name}: {parser[name]['means']}" for name in names)
        groups = [group.split("\n", 1) for group in self.output.decode().split("\n\n")]
        self.assertEqual(" ".join(listed for _, listed in groups).split(), wanted.split())
        self.assertEqual([heading.rsplit(None, 1)[-1] for heading, _ in groups[:3]], ["(L)", "(P)", "(S)"])
        # All codes of a letter stand in one group.
        for heading, listed in groups:
            of_group = {line.split(":")[0].strip() for line in listed.split("\n")} & set(names)
            for letter in {name[0] for name in of_group if name[1:].isdigit()}:
                self.assertLessEqual({name for name in names if name[0] == letter and name[1:].isdigit()}, of_group)

    def test_similar_names(self):
        for name, similar in (
            ("P4", "did you mean `P1`, `P2` or `P3`?"),
            ("g11", "did you mean `G1`?"),
            ("X10", "did you mean `K10`?"),
            ("undefined varable", "did you mean `undefined variable`"),
            ("store fll", "did you mean `store full`?"),
            ("E11", "bin/explain --list lists them"),
            ("something else", "bin/explain --list lists them"),
        ):
            self.assertEqual(self.explain(*name.split()), 3)
            self.assertIn(similar, self.errors)


class OverTheStandIn(ExplainCase):
    """The rest, with a program that stands in for pcom and sentences of its own."""

    def setUp(self):
        super().setUp()
        self.top = os.path.join(self.folder, "top")
        for name in ("bin", "docs"):
            os.makedirs(os.path.join(self.top, name))
        for name in ("explain", "pcom_lines.py"):
            shutil.copy(os.path.join(TOP, "bin", name), os.path.join(self.top, "bin", name))
        shutil.copytree(os.path.join(TOP, "bin", "tools"), os.path.join(self.top, "bin", "tools"))
        put(os.path.join(self.top, "docs"), "explanations.ini", SENTENCES)

    def run_stand_in(self, errors=b"", source=b"abc\n", words=("a.pas",), given=None, **parts):
        self.program = make_stand_in(self.folder, errors, **parts)
        put(self.folder, "a.pas", source)
        return self.explain(*words, **(given or {}))

    def assert_marked(self, *rows):
        """Of each row, a line of the source with a column, it is shown how a terminal is to show the line, with the
        caret behind so many cells."""
        told, wanted = "", ""
        for number, (_, column, shown, before) in enumerate(rows, 1):
            told += f"{number}:{column}: error: a fault\n"
            head = f"    {number} | {shown}".rstrip()
            wanted += f"{number}:{column}: error: a fault\n{head}\n      | {' ' * before}^\n"
        self.assertEqual(self.run_stand_in(told.encode(), b"\n".join(row[0] for row in rows), status=4), 4)
        self.assertEqual(self.errors, wanted)

    def test_words_streams_status(self):
        words = ("--cert", "b.cert", "--go", "a.pas")
        output = bytes(range(256)) * 1000
        given = {"input": b"one\ntwo"}
        self.assertEqual(self.run_stand_in(output=output, status=9, reads=True, words=words, given=given), 9)
        self.assertEqual(taken(self.folder, "words").decode().split("\n")[:-1], list(words))
        self.assertEqual(taken(self.folder, "input"), b"one\ntwo")
        self.assertEqual(self.output, output)

    def test_lines_handed_on(self):
        errors = b"pcom: not proved here (bin/prove proves it)\n"
        errors += b"pcom: a line\n\xff\n8: refused\n1:x: error: index\nx1:1: error: index\nno end"
        with open(os.path.join(self.folder, "told"), "w+b") as told:
            self.assertEqual(self.run_stand_in(errors, given={"stderr": told}), 0)
        self.assertEqual(taken(self.folder, "told"), errors)

    def test_killed(self):
        self.program = put(self.folder, "pcom", b"#!/bin/sh\nkill -9 $$\n", mode=0o755)
        put(self.folder, "a.pas", b"")
        self.assertEqual(self.explain("a.pas"), 137)

    def test_no_program(self):
        self.program = os.path.join(self.folder, "nothing")
        self.assertEqual(self.explain("a.pas"), 3)
        self.assertIn("cannot run ", self.errors)

    def test_stops(self):
        for text, sentences in (
            ("store full", FULL),
            ("machine fault M1", "    The machine found a fault.\n    Tell us.\n"),
            ("machine fault M9", ""),
            ("refused G9", ""),
            ("budget used up", ""),
        ):
            self.assertEqual(self.run_stand_in(stop=text.encode() + b"\n", output=b"7", status=6), 6)
            self.assertEqual((self.output, self.errors), (b"7", f"{text}\n{sentences}"))

    def test_one_stream(self):
        # A stop stands behind all of the output, though that takes longer to come.
        output = b"7" * 1000000
        errors = b"1:1: possible error: no name\n"
        given = {"stderr": subprocess.STDOUT}
        self.run_stand_in(errors, output=output, stop=b"store full\n", given=given)
        told = errors + b"    1 | abc\n      | ^\n"
        self.assertEqual(self.output, told + output + b"store full\n" + FULL.encode())

    def test_sentences_once(self):
        place = "1:2: possible error: index\n    1 | abc\n      |  ^\n"
        self.run_stand_in(b"1:2: possible error: index\n" * 3 + b"1:2: input: index\n")
        self.assertEqual(self.errors, place + INDEX + place * 2 + place.replace("possible error", "input"))

    def test_places(self):
        self.assert_marked(
            (b"abc", 2, "abc", 1),
            (b"", 1, "", 0),
            (b"de", 3, "de", 2),
            (b"abc\r", 2, "abc?", 1),
            (b"abc", 0, "abc", 0),
            (b"de", 9, "de", 8),
        )

    def test_places_that_are_not_there(self):
        for line in ("9:1", "0:1", "999999999999999999:1", "1:99999999999999999999999"):
            text = f"{line}: error: a fault\n"
            self.run_stand_in(text.encode())
            self.assertEqual(self.errors, text)
        self.run_stand_in(b"certificate:1: refused F1\n")
        self.assertEqual(self.errors, "certificate:1: refused F1\n")

    def test_tabs(self):
        shown = "        x       y := 1"
        self.assert_marked((b"\tx\ty := 1", 4, shown, 16), (b"\tx\ty := 1", 1, shown, 0), (b"x\t", 3, "x", 8))

    def test_bytes(self):
        self.assert_marked(
            ("{ \u00e9 \u6f22\u5b57 e\u0301 } x".encode(), 19, "{ \u00e9 \u6f22\u5b57 e\u0301 } x", 13),
            (b"{ \xff\x7f } x", 8, "{ \ufffd? } x", 7),
        )

    def test_lines_of_no_text(self):
        for byte in (b"\0", b"\x1b", b"\x1f", b"\x0b"):
            self.assertEqual(self.run_stand_in(b"1:1: error: a fault\n", b"a" + byte + b"\nb\n"), 0)
            self.assertEqual(self.errors, "1:1: error: a fault\n")
        self.run_stand_in(b"2:1: error: a fault\n", b"a\x1b\nb\n")
        self.assertEqual(self.errors, "2:1: error: a fault\n    2 | b\n      | ^\n")

    def test_bytes_in_ascii(self):
        self.encoding = "ascii"
        self.assert_marked(("{ \u00e9 \u6f22\u5b57 e\u0301 } x".encode(), 19, "{ ? ?? e? } x", 12))

    def test_long_lines(self):
        self.assert_marked(
            (b"a" * 100, 100, "a" * 100, 99),
            (b"a" * 5000 + b"b" + b"c" * 5000, 5001, ".." + "a" * 50 + "b" + "c" * 49 + "..", 52),
            (b"a" * 20 + b"b" + b"c" * 5000, 21, "a" * 20 + "b" + "c" * 79 + "..", 20),
            (b"a" * 70 + b"b" * 35, 71, ".." + "a" * 65 + "b" * 35, 67),
            ("\u6f22".encode() * 5000 + b"b" * 37, 15001, ".. " + "\u6f22" * 31 + "b" * 37, 65),
            (b"a" * 5000, 5001, ".." + "a" * 100, 102),
        )

    def test_paths(self):
        os.mkdir(os.path.join(self.folder, "a folder"))
        for text, said in (
            ("cannot read a folder", "    This is a folder.\n"),
            ("cannot read no file", "    There is no such file.\n"),
            ("cannot read a.pas", ""),
            ("cannot read -", ""),
            ("cannot write a folder", "    This is a folder.\n"),
            ("cannot write no/file", "    There is no such folder.\n"),
            ("cannot write file", ""),
        ):
            self.run_stand_in(f"{text}\n".encode())
            self.assertEqual(self.errors, f"{text}\n{said}")

    def test_source_that_is_a_pipe_by_its_name(self):
        # A file of this name isn't what pcom reads.
        put(self.folder, "-", b"abc\n")
        self.run_stand_in(b"1:1: error: a fault\n", words=("-",))
        self.assertEqual(self.errors, "1:1: error: a fault\n")

    def test_file_that_is_read_once(self):
        os.mkfifo(os.path.join(self.folder, "pipe"))
        self.program = make_stand_in(self.folder, b"1:1: error: a fault\n")
        self.assertEqual(self.explain("pipe"), 0)
        self.assertEqual(self.errors, "1:1: error: a fault\n")

    def test_broken_sentences(self):
        for text in (b"no section\n", b"[index]\n[index]\n", b"\xff", b"[index]\nmeans\n", b"", b"[index]\nmend =\n"):
            put(os.path.join(self.top, "docs"), "explanations.ini", text)
            self.run_stand_in(b"1:1: error: index\n", status=4)
            self.assertIn("1:1: error: index\n", self.errors)
            self.assertIn("    1 | abc\n      | ^\n", self.errors)
        os.remove(os.path.join(self.top, "docs", "explanations.ini"))
        self.assertEqual(self.run_stand_in(b"1:1: error: index\n", status=4), 4)
        self.assertIn("explain: cannot read ", self.errors)

    def test_names(self):
        self.assertEqual(self.explain("store", "FULL"), 0)
        self.assertEqual(self.output.decode(), "store FULL\n" + FULL)
        for words in (["K6"], ["no", "name"], [""], ["\udcff"]):
            self.assertEqual(self.explain(*words), 3)
            self.assertEqual(self.output, b"")
            self.assertIn("no code or name", self.errors)

    def test_file_of_a_name(self):
        put(self.folder, "K5", b"abc\n")
        self.assertEqual(self.run_stand_in(b"1:1: error: index\n", words=("K5",), status=4), 4)
        self.assertIn("    1 | abc\n", self.errors)

    def test_usage(self):
        self.assertEqual(self.explain("--help"), 0)
        self.assertIn("bin/explain [--cert FILE] [--write-cert FILE] [--go] SOURCE", self.output.decode())
        self.assertEqual(self.explain(), 3)
        self.assertIn("bin/explain [--cert FILE] [--write-cert FILE] [--go] SOURCE", self.errors)

    def test_closed_pipe(self):
        self.program = make_stand_in(self.folder, b"1:1: error: index\n" * 100000, output=b"7" * 1000000)
        put(self.folder, "a.pas", b"abc\n")
        for streams in ({"stderr": subprocess.STDOUT}, {"stderr": subprocess.DEVNULL}):
            ran = subprocess.Popen(
                self.command(["a.pas"]),
                cwd=self.folder,
                env=self.environment(),
                stdin=subprocess.DEVNULL,
                stdout=subprocess.PIPE,
                **streams,
            )
            self.assertTrue(ran.stdout.read(10))
            ran.stdout.close()
            self.assertNotEqual(ran.wait(timeout=SECONDS), 1)

    def test_interrupt(self):
        script = b"#!/bin/sh\necho '1:1: possible error: index' >&2\nexec sleep 600\n"
        self.program = put(self.folder, "pcom", script, mode=0o755)
        put(self.folder, "a.pas", b"abc\n")
        ran = subprocess.Popen(
            self.command(["a.pas"]),
            cwd=self.folder,
            env=self.environment(),
            stderr=subprocess.PIPE,
            bufsize=0,
            preexec_fn=lambda: signal.signal(signal.SIGINT, signal.default_int_handler),
        )
        begun = ran.stderr.readline()
        ran.send_signal(signal.SIGINT)
        rest = ran.communicate(timeout=SECONDS)[1]
        self.assertEqual(ran.returncode, 130)
        self.assertEqual((begun + rest).decode(), "1:1: possible error: index\n    1 | abc\n      | ^\n" + INDEX)


if __name__ == "__main__":
    unittest.main()
