"""For tests of the scripts: a program that stands in for pcom and writes what it is told, and a Python that has some
libraries."""

import os
import shlex
import subprocess
import sys

SCRIPT = """#!/bin/sh
{read}
printf '%s\\n' "$@" > {folder}/words
cat {folder}/errors >&2
cat {folder}/output
cat {folder}/stop >&2
exit {status}
"""


def make_stand_in(folder, errors=b"", output=b"", stop=b"", status=0, reads=False):
    """Puts the program into a folder and gives its path. It keeps its words, and its input where it is to read any, in
    files of the folder."""
    quoted = shlex.quote(folder)
    script = SCRIPT.format(folder=quoted, status=status, read=f"cat > {quoted}/input" if reads else ":")
    for name, text in (("errors", errors), ("output", output), ("stop", stop)):
        put(folder, name, text)
    return put(folder, "pcom", script.encode(), mode=0o755)


def put(folder, name, text, mode=0o644):
    """Puts a text into a file of a folder and gives its path."""
    path = os.path.join(folder, name)
    with open(path, "wb") as file:
        file.write(text)
    os.chmod(path, mode)
    return path


def taken(folder, name):
    """What a file of a folder holds."""
    with open(os.path.join(folder, name), "rb") as file:
        return file.read()


# Where Debian puts what it has for Python.
DEBIANS = "/usr/bin/python3"


def python_with(*libraries):
    """A Python that has these libraries, the one that runs this or Debian's; None where neither has all of them."""
    for python in (sys.executable, DEBIANS):
        words = [python, "-c", f"import {', '.join(libraries)}"]
        if os.path.exists(python) and not subprocess.run(words, stderr=subprocess.DEVNULL, check=False).returncode:
            return python
    return None
