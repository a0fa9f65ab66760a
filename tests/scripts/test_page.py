"""Tests of the page that bin/page makes: of which program it is, with a kit that proves nothing; its module does what
the program does, by node; and the page runs a program in a browser without a screen. Where the page isn't made, or one
of them isn't installed, that is said."""

import base64
import functools
import http.server
import json
import os
import shutil
import subprocess
import sys
import tempfile
import threading
import time
import unittest
from concurrent.futures import ThreadPoolExecutor

TOP = os.path.dirname(os.path.dirname(os.path.dirname(os.path.abspath(__file__))))
PAGE = os.path.join(TOP, "out", "page")
HERE = os.path.dirname(os.path.abspath(__file__))
SECONDS = 600
sys.path.insert(0, os.path.join(TOP, "tests"))

from case_files import A_FOLDER, NOWHERE, read_cases
from kit_stand_in import Repository

# What a case may ask of the compiler that the page can be asked too.
WORDS = {b"--go", b"--keep-checks"}
# Longer ones take a second or more each.
MOST_BYTES = 20000
# The kilobytes of the stack for node.
STACK = 6000


def is_of_the_page(case):
    """Whether a case names no file but its source, and its streams can be read and written."""
    if case.program != "pcom" or case.source is None or case.certificate is not None or case.code_path is not None:
        return False
    if case.saves is not None or case.input is A_FOLDER or NOWHERE in (case.writes, case.tells):
        return False
    return set(case.words) <= WORDS and max(len(case.source), len(case.input)) <= MOST_BYTES


class PageCase(unittest.TestCase):
    def setUp(self):
        if not os.path.isfile(os.path.join(PAGE, "pcom.wasm")):
            self.skipTest("the page isn't made; bin/page makes it")

    def command(self, *names):
        found = [path for path in map(shutil.which, names) if path]
        if not found:
            self.skipTest(f"{names[0]} isn't installed")
        return found[0]


class Module(PageCase):
    def on_the_page(self, cases):
        """What the module does on each case."""
        asked = [
            {
                "words": [*(word.decode() for word in case.words), "source.pas"],
                "source": base64.b64encode(case.source).decode(),
                "input": base64.b64encode(case.input).decode(),
            }
            for case in cases
        ]
        # Programs that nest as deep as they may need more stack than an engine of JavaScript has by itself.
        words = [self.node, "--experimental-wasm-memory64", f"--stack-size={STACK}", f"{HERE}/run_page.mjs", PAGE]
        ran = subprocess.run(words, input=json.dumps(asked).encode(), capture_output=True, timeout=SECONDS)
        self.assertEqual(ran.returncode, 0, ran.stderr[-2000:])
        parts = [[base64.b64decode(one[part]) for part in ("output", "messages")] for one in json.loads(ran.stdout)]
        return [(*part, one["status"]) for part, one in zip(parts, json.loads(ran.stdout))]

    def test_cases(self):
        """Each case of tests/cases that names no file but its source: the same bytes and the same status."""
        self.node = self.command("node", "nodejs")
        cases = [case for case in read_cases()[0] if is_of_the_page(case)]
        self.assertGreater(len(cases), 1000)
        count = len(os.sched_getaffinity(0))
        parts = [cases[start::count] for start in range(count)]
        with ThreadPoolExecutor(count) as pool:
            for part, ran in zip(parts, pool.map(self.on_the_page, parts)):
                for case, came in zip(part, ran):
                    with self.subTest(case=case.name):
                        self.assertEqual(came, (case.writes, case.tells, case.status))


class Made(Repository):
    """Of which program the page is made, and what it says of that."""

    PARTS = ("bin/page", "bin/pcom_lines.py", "bin/tools", "page", "docs/explanations.ini", "examples/gallery")

    def setUp(self):
        super().setUp()
        for part in self.PARTS:
            one, other = os.path.join(TOP, part), os.path.join(self.top, part)
            os.makedirs(os.path.dirname(other), exist_ok=True)
            copy = shutil.copytree if os.path.isdir(one) else shutil.copy2
            copy(one, other)

    def page(self, **how):
        """What is told while it is made."""
        ran = self.ran("page", **how)
        self.assertEqual(ran.returncode, 0, ran.stderr)
        return ran.stderr

    def text_of(self, name):
        with open(os.path.join(self.top, "out", "page", name), encoding="utf-8") as file:
            return file.read()

    def is_of(self, kind):
        self.assertEqual(self.text_of("pcom.wasm"), f"a module, {kind} text of pcom")
        said = json.loads(self.text_of("about.json"))["words"]
        self.assertEqual("It isn't proved" in said, kind == "tried")
        self.assertEqual("the code that was proved" in said, kind == "proved")
        self.assertIn("a kit of no worth, 1", said)

    def test_of_the_tried_program(self):
        told = self.page()
        self.is_of("tried")
        self.assertIn("pcom: building it without proofs", told)
        self.assertEqual([line[0] for line in self.calls()], ["try", "clang", "clang", "clang"])
        self.assertIn("the page is ", self.page())
        self.assertEqual(self.calls(), [])

    def test_of_the_proved_program(self):
        self.page()
        self.proved("pcom")
        self.calls()
        self.assertIn("page: making the module of the proved program", self.page())
        self.is_of("proved")
        self.assertEqual(self.calls(), [["clang", "-O1"]])
        self.page()
        self.assertEqual(self.calls(), [])

    def test_an_edit_brings_the_tried_one_back(self):
        self.proved("pcom")
        self.page()
        self.is_of("proved")
        with open(os.path.join(self.top, "crates", "left", "src", "lib.rt"), "a", encoding="utf-8") as file:
            file.write("more\n")
        self.page()
        self.is_of("tried")

    def test_of_a_program_whose_bitcode_was_not_kept(self):
        self.proved("pcom")
        os.remove(os.path.join(self.top, "out", "proved", "pcom", "pcom.bc"))
        self.assertIn("page: the bitcode of the proved program wasn't kept", self.page())
        self.is_of("tried")

    def test_what_lies_there(self):
        self.page()
        names = os.listdir(os.path.join(self.top, "out", "page"))
        for name in ("index.html", "page.mjs", "host.mjs", "worker.mjs", "sentences.json", "examples.json"):
            self.assertIn(name, names)
        self.assertIn("gallery/primes", [one["name"] for one in json.loads(self.text_of("examples.json"))])

    def test_without_the_kit_that_is_told(self):
        ran = self.ran("page", has_kit=False)
        self.assertEqual((ran.returncode, ran.stderr), (3, "page: the Rattle kit's command rt is not on the path\n"))


class Browser(PageCase):
    """A browser without a screen, which is spoken to over two pipes, in Chromium's protocol for tools."""

    def start(self, browser):
        folder = tempfile.mkdtemp()
        # What the browser still writes may come back.
        self.addCleanup(shutil.rmtree, folder, ignore_errors=True)
        (theirs, to_them), (from_them, others) = os.pipe(), os.pipe()
        words = [browser, "--headless", "--no-sandbox", "--disable-gpu", "--remote-debugging-pipe"]
        words = ["sh", "-c", f'exec "$@" 3<&{theirs} 4>&{others}', "sh", *words, f"--user-data-dir={folder}"]
        streams = {"stdin": subprocess.DEVNULL, "stdout": subprocess.DEVNULL, "stderr": subprocess.DEVNULL}
        ran = subprocess.Popen(words, pass_fds=(theirs, others), **streams)
        timer = threading.Timer(SECONDS, ran.kill)
        timer.start()
        for clean in (ran.wait, ran.kill, timer.cancel):
            self.addCleanup(clean)
        os.close(theirs)
        os.close(others)
        self.to_them, self.from_them = open(to_them, "wb", buffering=0), open(from_them, "rb", buffering=0)
        self.addCleanup(self.to_them.close)
        self.addCleanup(self.from_them.close)
        self.left, self.count = b"", 0

    def ask(self, method, session=None, **given):
        """The answer to a call."""
        self.count += 1
        message = {"id": self.count, "method": method, "params": given, **({"sessionId": session} if session else {})}
        self.to_them.write(json.dumps(message).encode() + b"\0")
        while True:
            while b"\0" not in self.left:
                piece = self.from_them.read(65536)
                self.assertTrue(piece, "the browser has ended")
                self.left += piece
            text, _, self.left = self.left.partition(b"\0")
            answer = json.loads(text)
            if answer.get("id") == self.count:
                self.assertNotIn("error", answer)
                return answer["result"]

    def test_program(self):
        browser = self.command("chromium", "chromium-browser", "google-chrome")
        handler = functools.partial(Quiet, directory=PAGE)
        server = http.server.ThreadingHTTPServer(("127.0.0.1", 0), handler)
        self.addCleanup(server.server_close)
        threading.Thread(target=server.serve_forever, daemon=True).start()
        self.addCleanup(server.shutdown)
        self.start(browser)
        address = f"http://127.0.0.1:{server.server_address[1]}/?example=gallery/vending&run"
        target = self.ask("Target.createTarget", url=address)["targetId"]
        self.session = self.ask("Target.attachToTarget", targetId=target, flatten=True)["sessionId"]
        end = time.monotonic() + SECONDS
        while not self.text_of("#status").startswith("status") and time.monotonic() < end:
            time.sleep(0.1)
        self.assertEqual(self.text_of("#status"), "status 1")
        self.assertEqual(
            self.text_of("#output"), "ticket, change 0\nreturned 10\nticket, change 30\n2 tickets sold\n"
        )
        self.assertTrue(self.text_of("#told").startswith("14:3: possible error: case"))
        self.assertIn("29:18: possible error: overflow", self.text_of("#told"))
        self.assertTrue(self.text_of("#certificate").startswith("pcert 3\n"))
        with open(os.path.join(PAGE, "about.json"), encoding="utf-8") as file:
            self.assertEqual(self.text_of("#about"), json.load(file)["words"])
        self.assertEqual(self.text_of("mark.told"), "case|+")
        # The marks lie behind the text, place for place.
        heights = self.value_of("['marks', 'text'].map((name) => document.getElementById(name).offsetHeight).join()")
        self.assertEqual(*heights.split(","))

    def text_of(self, selector):
        """The text of what is shown."""
        return self.value_of(f"[...document.querySelectorAll({selector!r})].map((one) => one.textContent).join('|')")

    def value_of(self, expression):
        return self.ask("Runtime.evaluate", self.session, expression=expression)["result"].get("value", "")


class Quiet(http.server.SimpleHTTPRequestHandler):
    def log_message(self, *_):
        pass


if __name__ == "__main__":
    unittest.main()
