"""Compiling takes time in proportion to the length of the source: each program of bench/compile, a quarter of a MiB
long, takes at most four seconds of processor time, of which half a second is usual. Where what is known was gone over
at each assignment, the arrays of the program took more than ten, and no contract tells the difference."""

import os
import subprocess
import tempfile
import unittest
from importlib.machinery import SourceFileLoader
from importlib.util import module_from_spec, spec_from_loader

TOP = os.path.dirname(os.path.dirname(os.path.dirname(os.path.abspath(__file__))))
PROGRAM = os.environ["PCOM"]
SECONDS = 4


def bench():
    """The module bench/compile."""
    loader = SourceFileLoader("compile", os.path.join(TOP, "bench", "compile"))
    module = module_from_spec(spec_from_loader("compile", loader))
    loader.exec_module(module)
    return module


def seconds(path):
    """The processor's seconds of a compilation."""
    child = subprocess.Popen([PROGRAM, path], stdout=subprocess.DEVNULL, stderr=subprocess.DEVNULL)
    _, status, used = os.wait4(child.pid, 0)
    child.returncode = os.waitstatus_to_exitcode(status)
    return used.ru_utime + used.ru_stime


class Seconds(unittest.TestCase):
    def test_time_grows_as_the_source(self):
        measured = bench()
        with tempfile.TemporaryDirectory() as folder:
            path = os.path.join(folder, "source.pas")
            for title, made in measured.PROGRAMS.items():
                with open(path, "w", encoding="ascii") as source:
                    source.write(made(measured.QUARTER))
                with self.subTest(title):
                    self.assertLess(seconds(path), SECONDS)


if __name__ == "__main__":
    unittest.main()
