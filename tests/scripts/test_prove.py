"""bin/prove, with a repository of a few crates and a kit that proves nothing: the order, what is told, what it stops
at, and what isn't proved twice."""

import fcntl
import json
import os
import pty
import re
import shutil
import signal
import struct
import subprocess
import termios
import time
import unittest

from kit_stand_in import CRATES, TABLE, Repository, write

FIRST = "prove: proving pcom and pint, once for these sources, "


class Order(Repository):
    def test_the_longest_chain_comes_first(self):
        self.proved()
        self.assertEqual(self.begun(), ["low", "right", "left", "top_left", "wide", "pcom", "pint"])

    def test_measured_seconds_stand_over_the_table(self):
        seconds = {"wide": {"wall": 1, "processor": 500}, "left": {"wall": 1, "processor": 90}}
        write(json.dumps(seconds), self.top, "out", "seconds.json")
        self.proved()
        self.assertEqual(self.begun(), ["wide", "low", "left", "right", "top_left", "pcom", "pint"])

    def test_what_it_measures_is_kept(self):
        self.proved(SLOW="left=1")
        with open(os.path.join(self.top, "out", "seconds.json"), encoding="utf-8") as file:
            seconds = json.load(file)
        self.assertEqual(sorted(seconds), ["left", "low", "pcom", "pint", "right", "top_left", "wide"])
        self.assertGreaterEqual(seconds["left"]["wall"], 1)
        table = self.ran("prove", "--table").stdout.splitlines()
        names = ["low", "left", "top_left", "right", "wide", "aside", "pcom", "pint"]
        self.assertEqual([line.split()[0] for line in table], names)
        self.assertEqual(table[5], "aside 900")

    def test_no_crate_begins_before_those_below(self):
        self.proved(processors=4, SLOW="low=0.5 left=0.3 right=0.6 top_left=0.3")
        ended = set()
        below = {"left": {"low"}, "right": {"low"}, "top_left": {"left"}, "pcom": {"top_left", "right", "wide"}}
        for word, name, *_ in self.calls():
            if word == "end":
                ended.add(name)
            else:
                self.assertLessEqual(below.get(name, set()), ended)

    def allowed(self, processors):
        """How many lanes there may be."""
        with open("/proc/meminfo", encoding="utf-8") as lines:
            free = [int(line.split()[1]) for line in lines if line.startswith("MemAvailable:")][0]
        return max(1, min(processors, len(os.sched_getaffinity(0)), 1024 * free // 4_000_000_000))

    def test_the_longest_chain_gets_two_jobs_where_a_lane_would_stay_idle(self):
        ran = self.proved("pcom", processors=2, SLOW="wide=1")
        jobs = {line[1]: line[3] for line in self.calls() if line[0] == "begin"}
        self.assertEqual((jobs["low"], jobs["pcom"]), ("1", "2" if " 2 crates at a time" in ran.stderr else "1"))

    def test_there_are_as_many_lanes_as_allowed(self):
        for processors in (1, 2, 3):
            write(f"{processors}\n", self.top, "crates", "low", "src", "lib.rt")
            write(f"{processors}\n", self.top, "crates", "wide", "src", "lib.rt")
            before = self.allowed(processors)
            ran = self.proved(processors=processors, SLOW="left=2 right=2 wide=4 pint=2")
            allowed = {before, self.allowed(processors)}
            running = most = 0
            for line in self.calls():
                running += {"begin": 1, "end": -1}.get(line[0], 0)
                most = max(most, running)
            told = int(re.search(r"(\d) crates? at a time", ran.stderr)[1])
            self.assertEqual(most, told)
            # Other work may take or leave memory meanwhile.
            self.assertTrue(min(allowed) <= told <= max(allowed), (told, allowed))

    def test_early_returns_tell_the_seconds_where_no_table_has_them(self):
        write("low 10\n", self.top, "bin", "prove_seconds.txt")
        write("a()?;\nb()?.c\n" * 100, self.top, "crates", "left", "src", "lib.rt")
        self.assertRegex(self.proved().stderr, "about 6 min left")
        self.assertEqual(self.begun()[:2], ["low", "left"])

    def test_named_crates_alone_are_proved(self):
        ran = self.proved("top_left", "wide")
        self.assertEqual(sorted(self.begun()), ["left", "low", "top_left", "wide"])
        self.assertTrue(ran.stderr.endswith("prove: top_left and wide: proved and built, after 0 min\n"), ran.stderr)
        ran = self.ran("prove", "nosuch")
        self.assertEqual((ran.stderr, ran.returncode), ("prove: crates.txt has no crate nosuch\n", 3))


class Kept(Repository):
    """What lies there of a program once it is proved."""

    def kept(self, name):
        return sorted(os.listdir(os.path.join(self.top, "out", "proved", name)))

    def test_the_program_and_its_bitcode(self):
        self.proved()
        for name in ("pcom", "pint"):
            self.assertEqual(self.kept(name), ["key", name, f"{name}.bc"])
            path = os.path.join(self.top, "out", "proved", name, f"{name}.bc")
            with open(path, encoding="utf-8") as file:
                self.assertEqual(file.readline(), f"proved text of {name}\n")
        self.assertEqual(self.kept("low"), ["key", "low.rlib"])

    def test_the_compiler_gets_the_words_of_the_kit(self):
        self.proved("pint")
        self.assertEqual([line for line in self.calls() if line[0] == "clang"], [["clang", "-O3"]])


class Text(Repository):
    def test_a_line_a_crate_is_told(self):
        ran = self.proved()
        self.assertEqual(ran.stdout, "")
        lines = ran.stderr.splitlines()
        self.assertEqual(lines[0], FIRST + "1 crate at a time: 0 of 7 proved, about 2 min left")
        self.assertIn("may be cut off", lines[1])
        wanted = ["low: 1", "right: 2", "left: 3", "top_left: 4", "wide: 5", "pcom: 6", "pint: 7"]
        for line, start in zip(lines[2:9], wanted):
            self.assertRegex(line, rf"^prove: {start} of 7 proved, about \d+ min left$")
        self.assertEqual(lines[9:], ["prove: pcom and pint: proved and built, after 0 min"])

    def test_one_line_is_rewritten_on_a_terminal(self):
        above, below = pty.openpty()
        fcntl.ioctl(below, termios.TIOCSWINSZ, struct.pack("HHHH", 24, 58, 0, 0))
        how = self.how(2, SLOW="low=1 left=2 right=2")
        proof = subprocess.Popen(self.words("prove"), stdin=below, stdout=below, stderr=below, **how)
        os.close(below)
        shown = b""
        while True:
            try:
                some = os.read(above, 4096)
            except OSError:
                break
            shown += some
            if not some:
                break
        os.close(above)
        self.assertEqual(proof.wait(), 0)
        rewritten = re.findall(r"\r(prove: \d of 7[^\x1b\r]*)\x1b\[K", shown.decode())
        self.assertRegex(rewritten[0], r"^prove: 0 of 7 proved, about \d min left: low")
        self.assertTrue(all(len(line) <= 57 for line in rewritten), rewritten)
        self.assertEqual(shown.decode().count("\n"), 3, shown)

    def test_without_the_kit_that_is_told(self):
        ran = self.ran("prove", has_kit=False)
        self.assertEqual((ran.returncode, ran.stderr), (3, "prove: the Rattle kit's command rt is not on the path\n"))

    def test_help(self):
        ran = self.ran("prove", "--help")
        self.assertEqual((ran.returncode, ran.stderr), (0, ""))
        self.assertTrue(ran.stdout.startswith("Proves and builds"))
        self.assertEqual(self.ran("prove", "--bogus").returncode, 2)


class Stops(Repository):
    def test_it_stops_at_a_crate_that_is_not_proved(self):
        write("wrong\n", self.top, "crates", "right", "src", "lib.rt")
        ran = self.ran("prove", processors=2, SLOW="left=90 right=1 wide=90")
        self.assertEqual(ran.returncode, 3)
        path = os.path.join(self.top, "crates", "right", "src", "lib.rt")
        why = f"{path}:1: not proved\nprove: right is not proved, so nothing above it was\n"
        self.assertTrue(ran.stderr.endswith(why), ran.stderr)
        self.assertNotIn("fn right: proved", ran.stderr)
        self.assertNotIn("end left", " ".join(map(" ".join, self.nothing_runs())))

    def nothing_runs(self):
        """That what was begun has ended, and left nothing; what was done."""
        calls = self.calls()
        for line in calls:
            if line[0] == "begin":
                self.assertFalse(self.is_running(int(line[2])), line)
        proved = os.path.join(self.top, "out", "proved")
        self.assertTrue(all(os.path.isfile(os.path.join(proved, name, "key")) for name in os.listdir(proved)))
        return calls

    def is_running(self, process):
        for _ in range(200):
            try:
                os.kill(process, 0)
            except ProcessLookupError:
                return False
            time.sleep(0.05)
        return True

    def test_it_goes_on_where_it_was_cut_off(self):
        for number in (signal.SIGINT, signal.SIGTERM):
            for name in ("low", "wide"):
                write(f"{number}\n", self.top, "crates", name, "src", "lib.rt")
            write("{}", self.top, "out", "seconds.json")
            how = {**self.how(SLOW="right=90"), "stderr": subprocess.PIPE}
            proof = subprocess.Popen(self.words("prove"), text=True, **how)
            self.wait_for("begin right")
            proof.send_signal(number)
            told = proof.communicate(timeout=60)[1]
            self.assertEqual(proof.returncode, 130)
            self.assertNotIn("Traceback", told)
            self.assertTrue(told.endswith("prove: cut off; started again, it goes on from here\n"), told)
            self.nothing_runs()
            self.assertIn("1 of 7 proved", self.proved().stderr.splitlines()[0])
            self.assertEqual(sorted(self.begun()), ["left", "pcom", "pint", "right", "top_left", "wide"])

    def test_it_goes_on_after_it_was_killed(self):
        proof = subprocess.Popen(self.words("prove"), stderr=subprocess.DEVNULL, **self.how(SLOW="right=3"))
        self.wait_for("begin right")
        proof.kill()
        proof.wait()
        self.proved()
        self.assertEqual(self.begun(), ["low", "right", "right", "left", "top_left", "wide", "pcom", "pint"])
        self.assertEqual(len(os.listdir(os.path.join(self.top, "out", "proved"))), 7)

    def test_two_at_once_prove_each_crate_once(self):
        proof = subprocess.Popen(self.words("prove"), stderr=subprocess.DEVNULL, **self.how(SLOW="right=2"))
        self.wait_for("begin right")
        self.assertIn("another bin/prove is at work here", self.proved().stderr)
        self.assertEqual(proof.wait(), 0)
        self.assertEqual(len(self.begun()), 7)

    def test_an_edit_meanwhile_is_told(self):
        proof = subprocess.Popen(self.words("prove"), stderr=subprocess.PIPE, text=True, **self.how(SLOW="right=2"))
        self.wait_for("begin right")
        write("another text\n", self.top, "crates", "right", "src", "lib.rt")
        told = proof.communicate(timeout=60)[1]
        self.assertEqual(proof.returncode, 3)
        self.assertTrue(told.endswith("prove: the files of crates/ changed meanwhile; start it again\n"), told)
        self.calls()
        self.proved()
        self.assertEqual(sorted(self.begun()), ["left", "pcom", "pint", "right", "top_left", "wide"])


class Again(Repository):
    def setUp(self):
        super().setUp()
        self.proved()
        self.calls()

    def test_nothing_is_proved_twice(self):
        self.assertEqual(self.proved().stderr, "prove: pcom and pint: proved and built\n")
        self.assertEqual(self.begun(), [])

    def test_what_changed_and_what_stands_above_is_proved(self):
        write("another text\n", self.top, "crates", "left", "src", "lib.rt")
        self.proved()
        self.assertEqual(self.begun(), ["left", "top_left", "pcom"])
        write("another proof\n", self.top, "crates", "right", "proofs", "Lib.antt")
        self.proved()
        self.assertEqual(self.begun(), ["right", "pcom"])
        write(CRATES.replace("right: low", "right: low thiserror"), self.top, "crates.txt")
        self.proved()
        self.assertEqual(self.begun(), ["right", "pcom"])
        write("another text\n", self.top, "crates", "aside", "src", "lib.rt")
        self.proved()
        self.assertEqual(self.begun(), [])

    def test_no_comment_and_no_wrong_body_is_a_change(self):
        write("# More words.\n\n" + CRATES.replace(": ", ":   ", 1), self.top, "crates.txt")
        write("another edit\n", self.top, "crates", "low", "must-fail", "one.edit")
        self.proved()
        self.assertEqual(self.begun(), [])

    def test_another_kit_proves_all(self):
        self.proved(KIT="2")
        self.assertEqual(len(self.begun()), 7)

    def test_a_library_that_is_gone_is_proved_again(self):
        shutil.rmtree(os.path.join(self.top, "out", "proved", "wide"))
        self.proved()
        self.assertEqual(self.begun()[0], "wide")


class Noted(Repository):
    """The programs that the gate built."""

    def gate_builds(self):
        for name in ("pcom", "pint"):
            write("#!/bin/sh\necho by the gate\n", self.top, "crates", name, "out", name)
            os.chmod(os.path.join(self.top, "crates", name, "out", name), 0o755)

    def test_what_the_gate_built_is_noted(self):
        sum = self.ran("prove", "--sum").stdout.strip()
        self.gate_builds()
        self.proved("--note", sum)
        for name in ("pcom", "pint"):
            ran = self.ran(name, "a b.pas")
            self.assertEqual((ran.stdout, ran.stderr), ("by the gate\n", ""))
        self.assertEqual(self.calls(), [])

    def test_nothing_is_noted_where_files_changed_meanwhile(self):
        sum = self.ran("prove", "--sum").stdout.strip()
        self.gate_builds()
        write("another text\n", self.top, "crates", "left", "src", "lib.rt")
        self.proved("--note", sum)
        self.assertEqual(self.ran("pcom", "a b.pas").stdout, "tried a b.pas\n")


if __name__ == "__main__":
    unittest.main()
