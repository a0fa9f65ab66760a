"""bin/census --seconds, with files of a check that were saved at known times; and that the table of lines in
docs/DECISIONS.md is what bin/census counts, to some two hundredths, and within the limits that stand below it."""

import os
import re
import shutil
import subprocess
import sys
import tempfile
import unittest

TOP = os.path.dirname(os.path.dirname(os.path.dirname(os.path.abspath(__file__))))
# The modules in the order in which a check saves them, each with the seconds that it took.
MODULES = (
    ("Rattle-low.specs.Words", 9),
    ("Rattle-low-specs.Words", 2),
    ("Rattle-low-proofs.Lemma", 1),
    ("Rattle-low-proofs.one.Machine.obey.Lts", 4),
    ("Rattle-low-proofs.one.Machine.obey.Lts.Part2", 3),
    ("Rattle-low-proofs.one.Machine.obey.Proof", 0.5),
    ("Rattle-low-proofs.two.small.Tie", 0.25),
    ("Rattle-low-proofs.two.small.Lts", 0.5),
    # Another check, later.
    ("Rattle-low-proofs.two.late.Lts", 1000),
)
INTERPRETER = ("interpreter_state", "interpreter")
LAYER = re.compile(r"^# ([A-Z][a-z ]+): |^(\w+):", re.M)
TABLE = re.compile(r"^\| ([A-Za-z ]+) \| (\d+) \| ([\d,]+) \|[\d, ]*\| ([\d,]+) \| ([\d,]+) \|$", re.M)
LIMITS = re.compile(r"limit is ([\d,]+) lines without the trials, or ([\d,]+) if .* and ([\d,]+) a crate")


def number(text):
    return int(text.replace(",", ""))


def counted():
    """Of each crate the lines of code, of definitions and of proofs."""
    ran = subprocess.run([os.path.join(TOP, "bin", "census")], stdout=subprocess.PIPE, text=True, check=True)
    rows = [line.split() for line in ran.stdout.splitlines()[1:]]
    return {name: [int(cells[at]) for at in (0, 5, 6)] for name, *cells in rows}


def layers():
    """The names of crates by layer, as crates.txt has them, and the sums of the table."""
    with open(os.path.join(TOP, "crates.txt"), encoding="utf-8") as file:
        found, layer = {}, None
        for head, crate in LAYER.findall(file.read()):
            layer = head or layer
            found.setdefault(layer, []).extend([crate] if crate else [])
    compiler = [name for layer, names in found.items() if layer != "Trials" for name in names]
    others = [name for name in compiler if name not in INTERPRETER]
    return {**found, "all of these": compiler, "all without the interpreter": others}


class Lines(unittest.TestCase):
    def test_the_table_of_lines(self):
        with open(os.path.join(TOP, "docs", "DECISIONS.md"), encoding="utf-8") as file:
            section = file.read().partition("## Lines of code\n")[2].partition("\n## ")[0]
        lines = counted()
        told = {layer: [int(crates), *map(number, numbers)] for layer, crates, *numbers in TABLE.findall(section)}
        self.assertEqual(sorted(told), sorted(layers()))
        for layer, names in layers().items():
            self.assertEqual(told[layer][0], len(names), layer)
            for said, is_so in zip(told[layer][1:], (sum(lines[it][at] for it in names) for at in range(3))):
                self.assertLessEqual(abs(said - is_so), max(150, is_so // 50), layer)
        limits = [number(it) for it in LIMITS.search(re.sub(r"\s+", " ", section)).groups()]
        compiler, others = (layers()[it] for it in ("all of these", "all without the interpreter"))
        sizes = [sum(lines[it][0] for it in names) for names in (compiler, others)]
        for size, most in zip([*sizes, max(lines[it][0] for it in compiler)], limits):
            self.assertLessEqual(size, most)


class Seconds(unittest.TestCase):
    def setUp(self):
        self.top = tempfile.mkdtemp()
        self.addCleanup(shutil.rmtree, self.top)
        os.makedirs(os.path.join(self.top, "bin"))
        for name in ("census", "seconds.py"):
            shutil.copy2(os.path.join(TOP, "bin", name), os.path.join(self.top, "bin", name))
        folder = os.path.join(self.top, "crates", "low", "out", "incremental", "of-this-kit")
        os.makedirs(folder)
        now = 1_000_000
        for name, seconds in MODULES:
            now += seconds
            path = os.path.join(folder, f"{name}.oantt")
            with open(path, "w", encoding="ascii"):
                os.utime(path, (now, now))

    def test_seconds_are_added_up(self):
        words = [sys.executable, os.path.join(self.top, "bin", "census"), "--seconds"]
        for more in ([], ["low"]):
            ran = subprocess.run([*words, *more], stdout=subprocess.PIPE, text=True, check=True)
            lines = [re.sub(r" +", " ", line).strip() for line in ran.stdout.splitlines()]
            self.assertEqual(lines[0], "seconds function")
            self.assertEqual(lines[1], "7.5 low::one::Machine::obey (Lts 7.0, Proof 0.5)")
            self.assertEqual(lines[2], "0.8 low::two::small (Lts 0.5, Tie 0.2)")
            kinds = ["7.5 Lts, 67 %", "2.0 definitions, 18 %", "1.0 lemmas, 9 %", "0.5 Proof, 4 %", "0.2 Tie, 2 %"]
            self.assertEqual(lines[3:10], ["", "seconds kind", *kinds])
            self.assertEqual(lines[10:], ["", "seconds crate", "11.2 low"])


if __name__ == "__main__":
    unittest.main()
