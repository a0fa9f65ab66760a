"""Asks pcom itself what it says of a text: what a tool wants to know of a source is asked by changes of it."""

import os
import subprocess
import tempfile
from concurrent.futures import ThreadPoolExecutor

from pcom_lines import message_of, program

SECONDS = 60
AT_ONCE = 4
# The runs that ask aren't those that the user called for, so they don't say which program they run.
QUIET = {"PCOM_UNPROVED": "quiet"}


class Asker:
    """Runs pcom on texts, in a folder of its own. It is a context, behind which the folder is gone."""

    def __init__(self):
        self.holder = tempfile.TemporaryDirectory(prefix="explain")
        self.count = 0

    def __enter__(self):
        return self

    def __exit__(self, *_):
        self.holder.cleanup()

    def path(self, name):
        return os.path.join(self.holder.name, name)

    def run(self, words):
        """The messages of a run with these words; none where it comes to no end."""
        try:
            ran = subprocess.run(
                [program(), *words],
                env={**os.environ, **QUIET},
                stdin=subprocess.DEVNULL,
                stdout=subprocess.DEVNULL,
                stderr=subprocess.PIPE,
                timeout=SECONDS,
            )
        except (OSError, ValueError, subprocess.SubprocessError):
            return []
        return list(filter(None, map(message_of, ran.stderr.split(b"\n"))))

    def messages(self, text, *words):
        """What is said of the text of a source, under these words."""
        self.count += 1
        path = self.path(f"{self.count}.pas")
        with open(path, "wb") as file:
            file.write(text)
        return self.run([*words, path])

    def first_refusals(self, texts):
        """The first refusal of each of these texts, or None; several are asked at once."""
        with ThreadPoolExecutor(AT_ONCE) as pool:
            return list(pool.map(self.first_refusal, texts))

    def first_refusal(self, text):
        return next((it for it in self.messages(text) if it.kind == "refused"), None)
