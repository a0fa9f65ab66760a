"""The examples of docs/TOOLS.md: what its consoles show is what bin/explain writes."""

import os
import re
import subprocess
import sys
import tempfile
import unittest

TOP = os.path.dirname(os.path.dirname(os.path.dirname(os.path.abspath(__file__))))
PROGRAM = os.environ["PCOM"]
PAGE = os.path.join(TOP, "docs", "TOOLS.md")
SECONDS = 60
BLOCK = re.compile(r"^```(pascal|console)\n(.*?)^```", re.M | re.S)


def examples():
    """The commands of the page, each with the program before it and what is shown."""
    source = ""
    with open(PAGE, encoding="utf-8") as file:
        for kind, text in BLOCK.findall(file.read()):
            if kind == "pascal":
                source = text
            else:
                command, _, shown = text.partition("\n")
                yield command.removeprefix("$ bin/explain ").split(), source, shown


class Page(unittest.TestCase):
    def test_examples(self):
        found = list(examples())
        self.assertGreaterEqual(len(found), 4)
        for words, source, shown in found:
            with self.subTest(words=words), tempfile.TemporaryDirectory() as folder:
                with open(os.path.join(folder, words[-1]), "w", encoding="utf-8") as file:
                    file.write(source)
                command = [sys.executable, os.path.join(TOP, "bin", "explain"), *words]
                environment = {**os.environ, "PCOM": PROGRAM, "PWHY": ""}
                streams = {"stdin": subprocess.DEVNULL, "stdout": subprocess.PIPE, "stderr": subprocess.STDOUT}
                ran = subprocess.run(command, cwd=folder, env=environment, timeout=SECONDS, **streams)
                self.assertEqual(ran.stdout.decode(), shown)


if __name__ == "__main__":
    unittest.main()
