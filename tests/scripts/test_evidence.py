"""Want of memory is told with its evidence alone: a fault `Memory` carries the refusal of an allocation, and no code of
the crates makes such a refusal of its own."""

import glob
import os
import re
import unittest

TOP = os.path.dirname(os.path.dirname(os.path.dirname(os.path.abspath(__file__))))
# Where the error stands as a value: in a variant, as what is asked, assigned, returned, handed over or put in a struct.
MADE = re.compile(
    r"\b(?:Ok|Err|Some)\(AllocError\)|\bAllocError\s*\.|[=(]\s*AllocError\s*[;,)]|\breturn AllocError\b"
    r"|^\s*AllocError\s*,?$|\{[^{}]*: AllocError\b[^{}]*\}|\bAllocFailed\s*\{"
)
# The refusals that come without an error of the allocator: that of clap, and that of the system.
TOLD = re.compile(r"\bErrorKind::OutOfMemory =>")


def code_lines():
    """The lines of code of all crates: its place and itself, without what is said of it."""
    for path in sorted(glob.glob(os.path.join(TOP, "crates", "*", "src", "**", "*.rt"), recursive=True)):
        with open(path, encoding="utf-8") as file:
            for number, line in enumerate(file, 1):
                yield f"{os.path.relpath(path, TOP)}:{number}", re.sub(r"//.*", "", line).rstrip("\n")


class Evidence(unittest.TestCase):
    def test_no_refusal_is_made(self):
        made = [place for place, line in code_lines() if MADE.search(line) and not TOLD.search(line)]
        self.assertEqual(made, [])

    def test_the_system_s_refusals_are_taken_in_two_places(self):
        self.assertEqual(sum(bool(TOLD.search(line)) for _, line in code_lines()), 2)

    def test_each_fault_carries_its_evidence(self):
        bare, carrying = [], 0
        before = ""
        for place, line in code_lines():
            if before.strip() == '#[error("no memory")]':
                carrying += line.strip() == "Memory(Refused),"
                bare += [place] if line.strip() != "Memory(Refused)," else []
            before = line
        self.assertEqual(bare, [])
        self.assertGreater(carrying, 0)

    def test_what_is_a_value_is_seen(self):
        for line in (
            "return Err(AllocError);",
            "_ => Err(AllocError),",
            "WordsFault::Memory(AllocError.into())",
            "let error = AllocError;",
            "refuse(AllocError)",
            "Refused { by: AllocError }",
            "Err(AllocFailed { value })",
            "    AllocError",
        ):
            self.assertTrue(MADE.search(line), line)
        for line in (
            "use std::alloc::{AllocError, AllocFailed};",
            "fn end(&self) -> Result<(), AllocError> {",
            "    by: AllocError,",
            "fn from(error: AllocError) -> Fault {",
            "impl From<AllocError> for Fault {",
            "Err(AllocError::from(refused).into())",
            "refused: Option<AllocError>,",
        ):
            self.assertFalse(MADE.search(line), line)


if __name__ == "__main__":
    unittest.main()
