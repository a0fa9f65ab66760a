"""Tests of editors/: of the script that names the files, and of what vim, Emacs, VS Code and a language server make of
its lines. vim and Emacs run without a screen."""

import json
import os
import re
import shutil
import subprocess
import sys
import tempfile
import threading
import unittest
from urllib.parse import quote

from stand_in import make_stand_in, put, taken

TOP = os.path.dirname(os.path.dirname(os.path.dirname(os.path.abspath(__file__))))
EDITORS = os.path.join(TOP, "editors")
PROGRAM = os.environ["PCOM"]
SECONDS = 60
SOURCE, CERTIFICATE = "a b.pas", "a b.cert"
TEXT = b"program p(output);\nvar x: integer;\nbegin\n\twrite(1: 1); write(x: 1)\nend.\n"
# Each form of a line with a place, and whether it is only a warning; and lines without a place.
PLACED = (
    ("4:15: possible error: undefined variable", True),
    ("4:2: refused S3", False),
    ("5:4: error: index", False),
    ("3:1: input: end of input", False),
    ("4:8: certificate refused C3", False),
)
CLAIMED = "certificate:2: refused F2"
OTHERS = (
    "refused G1",
    "certificate refused C1",
    "store full",
    "machine fault M1",
    "no memory",
    "cannot read x",
    "pcom: 4:2: a line",
    "pcom: not proved here (bin/prove proves it)",
)

# Writes the list of places that :make gives.
VIM = """set nocompatible
set runtimepath^={editors}/vim
edit a\\ b.pas
compiler pcom
silent make {words}
let places = map(getqflist(), {{_, it -> [it.valid ? bufname(it.bufnr) : '', it.lnum, it.col, it.type, it.text]}})
call writefile([json_encode(places)], 'places')
qall!
"""

# Prints each place to which next-error goes, with the kind of the message (1 is a warning, 2 an error).
EMACS = """
(require 'json)
(find-file "a b.pas")
(setq compilation-ask-about-save nil)
{run}
(let ((buffer {buffer}) places)
  (while (get-buffer-process buffer) (accept-process-output nil 0.05))
  (ignore-errors
    (while t
      (next-error)
      (let ((kind (with-current-buffer buffer
                    (compilation--message->type (get-text-property (point) 'compilation-message)))))
        (with-current-buffer (window-buffer (selected-window))
          (goto-char (window-point))
          (push (vector (buffer-name) (line-number-at-pos) (- (point) (line-beginning-position) -1) kind) places)))))
  (with-temp-file "places" (insert (json-encode (vconcat (nreverse places))))))
"""


class EditorCase(unittest.TestCase):
    """Has a folder with a source and a certificate."""

    program = PROGRAM

    def setUp(self):
        holder = tempfile.TemporaryDirectory()
        self.addCleanup(holder.cleanup)
        self.folder = holder.name
        put(self.folder, SOURCE, TEXT)
        put(self.folder, CERTIFICATE, b"pcert 1\nfoo\n")

    def stand_in(self, lines, **parts):
        self.program = make_stand_in(self.folder, "".join(line + "\n" for line in lines).encode(), **parts)

    def run_words(self, *words):
        return subprocess.run(
            words,
            cwd=self.folder,
            env={**os.environ, "PCOM": self.program},
            stdin=subprocess.DEVNULL,
            stdout=subprocess.PIPE,
            stderr=subprocess.PIPE,
            timeout=SECONDS,
        )

    def pcom_lines(self, *words):
        ran = self.run_words(sys.executable, os.path.join(EDITORS, "pcom-lines"), *words)
        return ran.stdout, ran.stderr.decode(), ran.returncode

    def command(self, *names):
        """The path of an editor; without it the test is skipped."""
        found = [path for path in map(shutil.which, names) if path]
        if not found:
            self.skipTest(f"{names[0]} isn't installed")
        return found[0]

    def places(self):
        return json.loads(taken(self.folder, "places"))


class Lines(EditorCase):
    """The script that names the files."""

    def test_names(self):
        lines = [line for line, _ in PLACED]
        self.stand_in([*lines, CLAIMED, *OTHERS], output=b"7", status=2)
        wanted = [f"{SOURCE}:{line}" for line in lines] + [f"{CERTIFICATE}:2: refused F2", *OTHERS]
        words = ["--cert", CERTIFICATE, "--go", SOURCE]
        output, errors, status = self.pcom_lines(*words)
        self.assertEqual((output, status), (b"7", 2))
        # Those that tell how a run ended stand behind the others.
        self.assertEqual(sorted(errors.splitlines()), sorted(wanted))
        self.assertEqual(taken(self.folder, "words").decode().splitlines(), words)

    def test_words(self):
        self.stand_in(["1:1: error: index"], status=4)
        for words in ([SOURCE], ["--cert", "x", SOURCE], [SOURCE, "--cert=x"], ["--cert=x", "--", SOURCE]):
            self.assertEqual(self.pcom_lines(*words), (b"", f"{SOURCE}:1:1: error: index\n", 4))

    def test_program(self):
        self.program = PROGRAM
        place = f"{SOURCE}:4:21: possible error: undefined variable\n"
        self.assertEqual(self.pcom_lines(SOURCE), (b"", place, 1))
        stop = f"{SOURCE}:4:21: error: undefined variable\n"
        self.assertEqual(self.pcom_lines("--go", SOURCE), (b"1", place + stop, 4))
        self.assertEqual(self.pcom_lines("--cert", CERTIFICATE, SOURCE), (b"", f"{CERTIFICATE}:2: refused F2\n", 2))


class Vim(EditorCase):
    def make(self, words=""):
        vim = self.command("vim", "vim.basic", "vim.nox", "vim.tiny")
        features = self.run_words(vim, "--version").stdout.split()
        if not {b"+quickfix", b"+eval"} <= set(features):
            self.skipTest("this vim has no quickfix list, or no expressions")
        script = VIM.format(editors=EDITORS.replace(" ", "\\ "), words=words)
        path = put(self.folder, "script.vim", script.encode())
        ran = self.run_words(vim, "-u", "NONE", "-i", "NONE", "-n", "-es", "-S", path)
        self.assertEqual(ran.returncode, 0, ran)
        return self.places()

    def test_places(self):
        self.stand_in([line for line, _ in PLACED], output=b"1:2\n", stop=b"store full\n")
        wanted = []
        for line, is_warning in PLACED:
            number, column, text = line.split(":", 2)
            wanted.append([SOURCE, int(number), int(column), "W" if is_warning else "E", text.strip()])
        wanted += [["", 0, 0, "", "1:2"], ["", 0, 0, "", "store full"]]
        # Those that tell how a run ended stand behind the output.
        self.assertEqual(sorted(self.make()), sorted(wanted))

    def test_certificate(self):
        self.stand_in([CLAIMED])
        self.assertEqual(self.make("--cert %:r:S.cert"), [[CERTIFICATE, 2, 0, "E", "refused F2"]])
        self.assertEqual(taken(self.folder, "words").decode().splitlines(), ["--cert", CERTIFICATE, SOURCE])


class Emacs(EditorCase):
    def next_errors(self, run, buffer):
        emacs = self.command("emacs", "emacs-nox")
        script = EMACS.format(run=run, buffer=buffer)
        path = put(self.folder, "script.el", script.encode())
        ran = self.run_words(emacs, "-Q", "-batch", "-l", os.path.join(EDITORS, "emacs", "pcom.el"), "-l", path)
        self.assertEqual(ran.returncode, 0, ran)
        return sorted(self.places())

    def wanted(self):
        places = [(*map(int, line.split(":")[:2]), 1 if is_warning else 2) for line, is_warning in PLACED]
        return sorted([SOURCE, *place] for place in places)

    def test_places(self):
        # A tab stands for one column.
        self.stand_in([line for line, _ in PLACED], output=b"1:2\n", stop=b"store full\n")
        self.assertEqual(self.next_errors('(pcom "--go")', '"*pcom*"'), self.wanted())
        self.assertEqual(taken(self.folder, "words").decode().splitlines(), ["--go", SOURCE])

    def test_certificate(self):
        self.stand_in([CLAIMED])
        places = self.next_errors('(pcom "--cert a\\\\ b.cert")', '"*pcom*"')
        self.assertEqual(places, [[CERTIFICATE, 2, 1, 2]])

    def test_compile(self):
        put(self.folder, SOURCE, TEXT.replace(b"\t", b" "))
        self.stand_in([line for line, _ in PLACED])
        run = '(compile (concat (shell-quote-argument pcom-lines) " a\\\\ b.pas"))'
        self.assertEqual(self.next_errors(run, '"*compilation*"'), self.wanted())


class Efm(EditorCase):
    """What efm-langserver makes of it, as a client of the Language Server Protocol sees it."""

    def setUp(self):
        super().setUp()
        server = self.command("efm-langserver")
        with open(os.path.join(EDITORS, "efm", "config.yaml"), encoding="utf-8") as file:
            config = file.read()
        self.assertEqual(config.count('"CLONE/bin/pcom"'), 1)
        self.config, self.server = config, server

    def start(self):
        path = put(self.folder, "config.yaml", self.config.replace("CLONE/bin/pcom", self.program).encode())
        streams = {"stdin": subprocess.PIPE, "stdout": subprocess.PIPE, "stderr": subprocess.DEVNULL}
        self.ran = subprocess.Popen([self.server, "-c", path], cwd=self.folder, **streams)
        self.addCleanup(self.stop)
        root = {"processId": None, "rootUri": f"file://{self.folder}", "capabilities": {}}
        self.send(id=1, method="initialize", params=root)
        self.receive()
        self.send(method="initialized", params={})

    def stop(self):
        # No answer is waited for longer than a test may take.
        self.timer.cancel()
        self.ran.kill()
        self.ran.wait()
        self.ran.stdin.close()
        self.ran.stdout.close()

    def send(self, **message):
        text = json.dumps({"jsonrpc": "2.0", **message}).encode()
        self.ran.stdin.write(b"Content-Length: %d\r\n\r\n" % len(text) + text)
        self.ran.stdin.flush()

    def receive(self):
        self.timer = threading.Timer(SECONDS, self.ran.kill)
        self.timer.start()
        length = 0
        for line in iter(self.ran.stdout.readline, b"\r\n"):
            self.assertTrue(line, "the server has ended")
            name, _, value = line.partition(b":")
            length = int(value) if name.lower() == b"content-length" else length
        text = self.ran.stdout.read(length)
        self.timer.cancel()
        return json.loads(text)

    def marked(self, name, text):
        """What is marked in a file that is opened: line and column from 0, 1 for an error and 2 for a warning, text."""
        put(self.folder, name, text)
        uri = f"file://{quote(os.path.join(self.folder, name))}"
        document = {"uri": uri, "languageId": "pascal", "version": 1, "text": text.decode()}
        self.send(method="textDocument/didOpen", params={"textDocument": document})
        return self.marks()

    def changed(self, name, text):
        """The same of a file that is open and gets another text, without being saved."""
        document = {"uri": f"file://{quote(os.path.join(self.folder, name))}", "version": 2}
        change = {"textDocument": document, "contentChanges": [{"text": text.decode()}]}
        self.send(method="textDocument/didChange", params=change)
        return self.marks()

    def marks(self):
        while True:
            message = self.receive()
            if message.get("method") == "textDocument/publishDiagnostics":
                break
        marks = message["params"]["diagnostics"]
        return sorted((*it["range"]["start"].values(), it["severity"], it["message"]) for it in marks)

    def test_program(self):
        self.start()
        self.assertEqual(self.marked(SOURCE, TEXT), [(3, 20, 2, "undefined variable")])
        self.assertEqual(self.marked("b.pas", TEXT.replace(b"write(x", b"write(y")), [(3, 20, 1, "S3")])
        self.assertEqual(self.marked("c.pas", TEXT.replace(b"write(x: 1)", b"x := 1")), [])
        self.assertEqual(self.changed("c.pas", TEXT), [(3, 20, 2, "undefined variable")])

    def test_places(self):
        self.stand_in([line for line, _ in PLACED] + ["pcom: not proved here (bin/prove proves it)"])
        self.start()
        wanted = []
        for line, is_warning in PLACED:
            number, column, text = line.split(":", 2)
            name = re.sub("^ (possible error: |error: |input: |(certificate )?refused )", "", text)
            wanted.append((int(number) - 1, int(column) - 1, 2 if is_warning else 1, name))
        self.assertEqual(self.marked(SOURCE, TEXT), sorted(wanted))


class VsCode(EditorCase):
    """The problem matchers, by Python's regular expressions. They hold nothing that JavaScript reads otherwise."""

    def matchers(self):
        with open(os.path.join(EDITORS, "vscode", "tasks.json"), encoding="utf-8") as file:
            tasks = json.load(file)["tasks"]
        self.assertTrue(tasks)
        return [task["problemMatcher"] for task in tasks]

    def problems(self, matchers, line):
        found = []
        for matcher in matchers:
            pattern = matcher["pattern"]
            match = re.search(pattern["regexp"], line)
            if match:
                keys = ("file", "line", "column", "message")
                found.append([matcher["severity"], *(match[pattern[key]] if key in pattern else None for key in keys)])
        return found

    def test_places(self):
        for matchers in self.matchers():
            for line, is_warning in PLACED:
                number, column, text = line.split(":", 2)
                wanted = ["warning" if is_warning else "error", f"/x/{SOURCE}", number, column, text.strip()]
                self.assertEqual(self.problems(matchers, f"/x/{SOURCE}:{line}"), [wanted])
            wanted = ["error", CERTIFICATE, "2", None, "refused F2"]
            self.assertEqual(self.problems(matchers, f"{CERTIFICATE}:2: refused F2"), [wanted])

    def test_other_lines(self):
        for matchers in self.matchers():
            for line in [*OTHERS, "1:2: 3", "a.pas:1:2: 3", ""]:
                self.assertEqual(self.problems(matchers, line), [])

    def test_common_forms(self):
        for matchers in self.matchers():
            for matcher in matchers:
                self.assertNotRegex(matcher["pattern"]["regexp"], r"\(\?[^:]|\\[AZz]|\[\[")


if __name__ == "__main__":
    unittest.main()
