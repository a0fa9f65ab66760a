"""What a walk would take minutes over that went over the changes of all ways again wherever two of them meet, or in
which each counter waited for the turns of those before it: the compiler takes seconds, and little memory."""

import os
import resource
import subprocess
import tempfile
import unittest
from importlib.machinery import SourceFileLoader
from importlib.util import module_from_spec, spec_from_loader

TOP = os.path.dirname(os.path.dirname(os.path.dirname(os.path.abspath(__file__))))
PROGRAM = os.environ["PCOM"]
SECONDS, MEMORY = 10, 40 << 20
# The functions of bench/compile that make the programs, and how many parts these have.
STEEP = {"arms_in_loop": 3000, "ifs_in_turn": 8000, "waiting": 1000, "copying": 1000, "nested_fors": 60}


def bench():
    """The module bench/compile."""
    loader = SourceFileLoader("compile", os.path.join(TOP, "bench", "compile"))
    module = module_from_spec(spec_from_loader("compile", loader))
    loader.exec_module(module)
    return module


def limit():
    resource.setrlimit(resource.RLIMIT_CPU, (SECONDS, SECONDS))
    resource.setrlimit(resource.RLIMIT_AS, (MEMORY, MEMORY))


class Steep(unittest.TestCase):
    def test_steep_programs(self):
        measured = bench()
        for shape, count in STEEP.items():
            with self.subTest(shape), tempfile.NamedTemporaryFile("w", encoding="ascii", suffix=".pas") as file:
                file.write(getattr(measured, shape)(count)[0])
                file.flush()
                ran = subprocess.run([PROGRAM, file.name], stderr=subprocess.DEVNULL, preexec_fn=limit)
                self.assertIn(ran.returncode, (0, 1))


if __name__ == "__main__":
    unittest.main()
