"""That a refused allocation gives `no memory` and nothing else: three programs are compiled and run once for each of
their allocations, with that one refused. `tests/refuse_memory` does the same with every case."""

import os
import shutil
import sys
import tempfile
import unittest

TOP = os.path.dirname(os.path.dirname(os.path.dirname(os.path.abspath(__file__))))
PROGRAM = os.environ["PCOM"]
sys.path.insert(0, os.path.join(TOP, "tests"))

from refusing import NO_MEMORY, behind_the_machine, built_library, each_program, each_refused, run_anew, without_files

FAULT_OF_WORDS = b"error: unexpected argument 'c' found\n"


@unittest.skipUnless(shutil.which("cc"), "there is no cc")
class Memory(unittest.TestCase):
    @classmethod
    def setUpClass(cls):
        room = tempfile.TemporaryDirectory()
        cls.addClassCleanup(room.cleanup)
        cls.folder = room.name
        cls.library = built_library(room.name)

    def test_each_allocation_is_refused(self):
        """The answer is that of ample memory, the same certificate and code with it, or want of memory alone."""
        for (program, has_certificate), (wanted, told) in each_program(each_refused, self.library, PROGRAM):
            with self.subTest(program=program.name, has_certificate=has_certificate):
                self.assertNotIn(None, wanted)
                self.assertNotEqual(wanted[0], NO_MEMORY[0])
                self.assertEqual([it for it in told if it not in (wanted, NO_MEMORY, *without_files(wanted))], [])
                self.assertGreater(told.count(NO_MEMORY), 100)
                self.assertEqual(told[-1], wanted)

    def test_a_run_takes_no_memory(self):
        """Behind the machine nothing is asked for, and the run is the same where it would be refused."""
        for (program, has_certificate), done in each_program(behind_the_machine, self.library, PROGRAM):
            wanted, counts, told = done
            with self.subTest(program=program.name, has_certificate=has_certificate):
                self.assertGreater(counts.machine, 100)
                self.assertEqual(counts.all, counts.machine)
                self.assertEqual(told, wanted)

    def test_words_are_refused(self):
        """While words are read too, also of words that aren't taken."""
        words = [PROGRAM, "a.pas", "b.code", "c"]
        wanted, counts = run_anew(self.library, words, self.folder)
        self.assertTrue(wanted[2].startswith(FAULT_OF_WORDS))
        told = [run_anew(self.library, words, self.folder, refused=at)[0] for at in range(1, counts.all + 1)]
        self.assertEqual({*told} - {NO_MEMORY, wanted}, set())
        self.assertIn(NO_MEMORY, told)


if __name__ == "__main__":
    unittest.main()
