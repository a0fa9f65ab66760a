"""Which program bin/pcom and bin/pint run, with a repository of a few crates and a kit that proves nothing: the proved
one, the tried one, or none; and what they say of it."""

import os
import re
import signal
import subprocess
import time
import unittest

from kit_stand_in import CRATES, TOP, Repository, write

LINE = "pcom: not proved here (bin/prove proves it)\n"
BUILDS = "pcom: building it without proofs, once for these sources; that takes some three minutes\n"
BUILT = re.compile(re.escape(BUILDS) + r"pcom: built, after \d+ s\n" + re.escape(LINE))


class AtHand(Repository):
    def runs(self, kind, line, words, how):
        words = words or ("a b.pas",)
        ran = self.ran("pcom", *words, **how)
        self.assertEqual((ran.stdout, ran.stderr, ran.returncode), (f"{kind} {' '.join(words)}\n", line, 5))
        self.assertEqual(self.calls(), [])

    def is_proved(self, *words, **how):
        """That the proved program runs, with these words, and nothing is said or built."""
        self.runs("proved", "", words, how)

    def is_tried(self, *words, **how):
        """That the tried program runs, which says so, and nothing is built."""
        self.runs("tried", LINE, words, how)

    def builds_tried(self, **how):
        ran = self.ran("pcom", "a b.pas", **how)
        self.assertRegex(ran.stderr, BUILT)
        self.assertEqual((ran.stdout, ran.returncode), ("tried a b.pas\n", 5))
        self.assertEqual(self.calls(), [["try", "pcom"], ["clang", "-O0", "-fsanitize=address"], ["clang", "-O2"]])

    def edit(self, name, text="another text\n"):
        write(text, self.top, "crates", name, "src", self.root_of(name))


class Nothing(AtHand):
    """Where neither program is built."""

    def test_the_tried_one_is_built_and_runs(self):
        self.builds_tried()
        self.is_tried("--go", "a b.pas")

    def test_what_is_written_meanwhile_is_nothing_but_the_program(self):
        self.builds_tried()
        self.assertEqual(sorted(os.listdir(os.path.join(self.top, "out"))), ["pcom.at_hand", "pcom.lock", "tried"])
        self.assertEqual(os.listdir(os.path.join(self.top, "out", "tried")), ["pcom"])
        kept = sorted(os.listdir(os.path.join(self.top, "out", "tried", "pcom")))
        self.assertEqual(kept, ["key", "pcom", "pcom.bc"])

    def test_help_and_version_and_a_source_that_cannot_be_read_need_no_build(self):
        with open(os.path.join(TOP, "bin", "help", "pcom"), encoding="utf-8") as file:
            wanted = file.read()
        for word in ("--help", "-h"):
            ran = self.ran("pcom", word)
            self.assertEqual((ran.stdout, ran.stderr, ran.returncode), (wanted, "", 0))
        ran = self.ran("pcom", "--version")
        self.assertEqual((ran.stdout, ran.stderr), ("pcom 0.1.0, not proved, a kit of no worth, 1\n", ""))
        for words in (["nosuch.pas"], ["--cert", "a b.pas", "nosuch.pas", "b"], ["--go", "--", "nosuch.pas"]):
            ran = self.ran("pcom", *words)
            self.assertEqual((ran.stdout, ran.stderr, ran.returncode), ("", "cannot read nosuch.pas\n", 3))
        ran = self.ran("pcom", self.folder)
        self.assertEqual((ran.stderr, ran.returncode), (f"cannot read {self.folder}\n", 3))
        self.assertEqual(self.calls(), [])

    def test_what_would_be_overwritten_is_told_without_a_build(self):
        ran = self.ran("pcom", "a b.pas", "a b.pas")
        self.assertEqual((ran.stderr, ran.returncode), ("pcom: a b.pas is the source, it isn't overwritten\n", 3))
        self.assertEqual(self.calls(), [])

    def test_sources_that_are_wrong_are_told_with_their_place(self):
        self.edit("pcom", "wrong\n")
        ran = self.ran("pcom", "a b.pas")
        self.assertEqual((ran.stdout, ran.returncode), ("", 3))
        path = os.path.join(self.top, "crates", "pcom", "src", "main.rt")
        self.assertEqual(ran.stderr, f"{BUILDS}error: {path}:1: wrong\npcom: it can't be built from these sources\n")
        self.edit("pcom")
        self.calls()
        self.builds_tried()

    def test_without_the_kit_that_is_told(self):
        ran = self.ran("pcom", "a b.pas", has_kit=False)
        self.assertEqual((ran.stdout, ran.returncode), ("", 3))
        self.assertEqual(ran.stderr, "pcom: the Rattle kit's command rt is not on the path\n")

    def test_a_build_that_is_cut_off_leaves_nothing(self):
        for number in (signal.SIGINT, signal.SIGTERM):
            how = {
                **self.how(SLOW="pcom=60"),
                "stderr": subprocess.PIPE,
                "start_new_session": True,
                # Where this run ignores the signal, as one in the background does, its child would too.
                "preexec_fn": lambda: signal.signal(signal.SIGINT, signal.SIG_DFL),
            }
            build = subprocess.Popen(self.words("pcom", "a b.pas"), **how)
            self.wait_for("try pcom")
            os.killpg(build.pid, number)
            told = build.communicate(timeout=60)[1].decode()
            self.assertIn(build.returncode, (130, -number))
            self.assertNotIn("Traceback", told)
            for _ in range(600):
                if os.listdir(os.path.join(self.top, "out", "tried")) == []:
                    break
                time.sleep(0.05)
            self.assertEqual(os.listdir(os.path.join(self.top, "out", "tried")), [])
            self.calls()
        self.builds_tried()

    def test_two_at_once_build_once(self):
        how = {**self.how(SLOW="pcom=2"), "stdout": subprocess.PIPE, "stderr": subprocess.PIPE}
        build = subprocess.Popen(self.words("pcom", "a b.pas"), **how)
        self.wait_for("try pcom")
        ran = self.ran("pcom", "a b.pas")
        self.assertEqual(ran.stderr, f"pcom: another run builds it; waiting for its end\n{LINE}")
        self.assertEqual((ran.stdout, build.communicate()[0]), ("tried a b.pas\n", b"tried a b.pas\n"))
        self.assertEqual([line[0] for line in self.calls()], ["try", "clang", "clang"])

    def test_an_edit_made_meanwhile_is_seen_by_the_next_run(self):
        how = {**self.how(SLOW="pcom=2"), "stdout": subprocess.DEVNULL, "stderr": subprocess.DEVNULL}
        build = subprocess.Popen(self.words("pcom", "a b.pas"), **how)
        self.wait_for("try pcom")
        self.edit("low")
        self.assertEqual(build.wait(), 5)
        self.calls()
        self.builds_tried()
        self.is_tried()

    def test_pint_is_built_by_itself(self):
        ran = self.ran("pint", "a b.pas")
        self.assertEqual((ran.stdout, ran.returncode), ("tried a b.pas\n", 5))
        self.assertTrue(ran.stderr.endswith("pint: not proved here (bin/prove proves it)\n"))
        self.assertEqual(self.calls()[0], ["try", "pint"])

    def test_nothing_is_proved(self):
        self.builds_tried()
        self.edit("left")
        self.builds_tried()
        self.assertFalse(os.path.exists(os.path.join(self.top, "out", "proved")))


class Tried(AtHand):
    """Where the tried program is built."""

    def setUp(self):
        super().setUp()
        self.builds_tried()

    def test_the_line_is_left_out_where_that_is_asked_for(self):
        ran = self.ran("pcom", "a b.pas", PCOM_UNPROVED="quiet")
        self.assertEqual((ran.stdout, ran.stderr, ran.returncode), ("tried a b.pas\n", "", 5))

    def test_the_version_says_so(self):
        for words in (["git", "init", "-q"], ["git", "add", "."], ["git", "commit", "-qm", "all"]):
            names = {f"GIT_{who}_{what}": "a" for who in ("AUTHOR", "COMMITTER") for what in ("NAME", "EMAIL")}
            subprocess.run(words, cwd=self.top, check=True, env={**os.environ, **names})
        words = ["git", "rev-parse", "--short", "HEAD"]
        commit = subprocess.run(words, cwd=self.top, stdout=subprocess.PIPE, text=True, check=True).stdout.strip()
        told = f"pcom 0.1.0, not proved, commit {commit}, a kit of no worth, 1\n"
        self.assertEqual(self.ran("pcom", "--version").stdout, told)
        self.edit("low")
        told = f"pcom 0.1.0, not proved, commit {commit}-dirty, a kit of no worth, 1\n"
        self.assertEqual(self.ran("pcom", "-V").stdout, told)

    def test_an_edit_of_the_code_builds_anew(self):
        self.edit("left")
        self.builds_tried()
        os.rename(*(os.path.join(self.top, "crates", "right", "src", name) for name in ("lib.rt", "other.rt")))
        write("text of right\n", self.top, "crates", "right", "src", "lib.rt")
        self.builds_tried()
        write(CRATES.replace("right: low", "right: low itoa"), self.top, "crates.txt")
        self.builds_tried()

    def test_an_edit_of_what_it_is_not_made_of_builds_nothing(self):
        self.edit("aside")
        write("another proof\n", self.top, "crates", "left", "proofs", "Lib.antt")
        write("another edit\n", self.top, "crates", "low", "must-fail", "one.edit")
        write("# More words.\n\n" + CRATES.replace(": ", ":   ", 1), self.top, "crates.txt")
        self.is_tried()

    def test_an_edit_that_is_taken_back_builds_nothing(self):
        self.edit("left")
        self.edit("left", "text of left\n")
        self.is_tried()

    def test_no_other_program_is_run(self):
        write("#!/bin/sh\necho another\n", self.top, "out", "tried", "pcom", "pcom")
        self.builds_tried()

    def test_another_kit_builds_anew(self):
        os.utime(os.path.join(self.kit, "bin", "rt"))
        self.is_tried()
        os.utime(os.path.join(self.kit, "bin", "rt"))
        self.builds_tried(KIT="2")

    def test_without_the_kit_it_runs_as_long_as_nothing_changed(self):
        self.is_tried(has_kit=False)
        self.edit("aside")
        self.is_tried(has_kit=False)
        self.edit("low")
        ran = self.ran("pcom", "a b.pas", has_kit=False)
        self.assertEqual((ran.stdout, ran.returncode), ("", 3))

    def test_proofs_are_taken_when_they_are_there(self):
        self.proved()
        self.calls()
        self.is_proved()

    def test_it_runs_by_a_link(self):
        link = os.path.join(self.folder, "link")
        os.symlink(os.path.join(self.top, "bin", "pcom"), link)
        ran = subprocess.run([link, "a b.pas"], stdout=subprocess.PIPE, stderr=subprocess.PIPE, text=True, **self.how())
        self.assertEqual((ran.stdout, ran.stderr), ("tried a b.pas\n", LINE))

    def test_a_dash_is_standard_input(self):
        self.is_tried("/dev/stdin")
        ran = self.ran("pcom", "--go", "-")
        self.assertEqual(ran.stdout, "tried --go /dev/stdin\n")
        ran = self.ran("pint", "--cells", "9", "-")
        self.assertEqual(ran.stdout, "tried --cells 9 /dev/stdin\n")


class Proved(AtHand):
    """Where the proved program is built."""

    def setUp(self):
        super().setUp()
        self.proved()
        self.calls()

    def test_it_runs_at_once(self):
        self.is_proved("--go", "a b.pas")
        self.is_proved()

    def test_the_version_says_so(self):
        ran = self.ran("pcom", "--version")
        self.assertEqual((ran.stdout, ran.stderr), ("pcom 0.1.0, proved, a kit of no worth, 1\n", ""))

    def test_no_time_of_a_file_is_taken_for_a_change(self):
        self.is_proved()
        for folder, _, names in os.walk(os.path.join(self.top, "crates")):
            for name in names:
                os.utime(os.path.join(folder, name))
        self.is_proved()

    def test_an_edit_of_a_proof_brings_the_tried_one(self):
        write("another proof\n", self.top, "crates", "left", "proofs", "Lib.antt")
        self.builds_tried()
        self.is_tried()
        write("proof of left\n", self.top, "crates", "left", "proofs", "Lib.antt")
        self.is_proved()

    def test_an_edit_of_what_it_does_not_stand_on_changes_nothing(self):
        self.edit("aside")
        self.is_proved()

    def test_an_edit_that_keeps_size_and_time_is_seen(self):
        path = os.path.join(self.top, "crates", "low", "src", "lib.rt")
        self.is_proved()
        was = os.stat(path)
        write("TEXT of low\n", self.top, "crates", "low", "src", "lib.rt")
        os.utime(path, ns=(was.st_atime_ns, was.st_mtime_ns))
        self.builds_tried()

    def test_no_other_program_is_run(self):
        write("#!/bin/sh\necho another\n", self.top, "out", "proved", "pcom", "pcom")
        self.builds_tried()

    def test_without_the_kit_it_runs(self):
        self.is_proved(has_kit=False)
        os.utime(os.path.join(self.top, "crates.txt"))
        self.is_proved(has_kit=False)

    def test_another_kit_brings_the_tried_one(self):
        os.utime(os.path.join(self.kit, "bin", "rt"))
        self.is_proved()
        os.utime(os.path.join(self.kit, "bin", "rt"))
        self.builds_tried(KIT="2")

    def test_a_run_reads_no_source(self):
        self.is_proved()
        words = ["strace", "-f", "-e", "trace=open,openat", "-o", f"{self.folder}/trace"]
        how = {**self.how(), "stdout": subprocess.DEVNULL, "stderr": subprocess.DEVNULL}
        try:
            subprocess.run([*words, *self.words("pcom", "a b.pas")], check=False, **how)
        except FileNotFoundError:
            self.skipTest("strace isn't installed")
        with open(f"{self.folder}/trace", encoding="utf-8") as file:
            opened = file.read()
        self.assertIn("pcom.at_hand", opened)
        self.assertNotIn(".rt\"", opened)


class Written(AtHand):
    """A file that holds something else isn't overwritten, and then nothing runs."""

    TEXTS = {
        "p.pas": "program p; begin end.\n",
        "q.pas": "program q; begin end.\n",
        "in": "1 2 3\n",
        "code": "pcode 1\nend\n",
        "cert": "pcert 1\n",
        "cert2": "pcert 2\n",
        "none": "",
        "later": "pcode 10\n",
        "near": " pcode 1\n",
        "bytes": "\x00\x01\n",
        "unended": "pcode 1",
    }

    def setUp(self):
        super().setUp()
        self.proved()
        for name, text in self.TEXTS.items():
            write(text, self.folder, name)
        os.link(os.path.join(self.folder, "p.pas"), os.path.join(self.folder, "link.pas"))
        os.symlink("p.pas", os.path.join(self.folder, "way.pas"))

    def told(self, words):
        ran = self.ran("pcom", *words.split())
        for name, text in self.TEXTS.items():
            with open(os.path.join(self.folder, name), encoding="utf-8") as file:
                self.assertEqual(file.read(), text)
        return ran.stdout, ran.stderr, ran.returncode

    def test_what_is_no_code_is_kept(self):
        for name in ("q.pas", "in", "cert", "later", "near", "bytes"):
            for words in (f"p.pas {name}", f"--go p.pas {name}", f"p.pas --keep-checks {name}", f"-- p.pas {name}"):
                told = f"pcom: {name} is no code, it isn't overwritten\n"
                self.assertEqual(self.told(words), ("", told, 3))

    def test_what_is_no_certificate_is_kept(self):
        for name in ("q.pas", "in", "code", "bytes"):
            for words in ("--write-cert {} p.pas", "p.pas --write-cert={} --go", "p.pas none --write-cert {}"):
                told = f"pcom: {name} is no certificate, it isn't overwritten\n"
                self.assertEqual(self.told(words.format(name)), ("", told, 3))

    def test_the_source_is_kept(self):
        for words in ("p.pas p.pas", "p.pas link.pas", "p.pas way.pas", "p.pas ./p.pas", "--write-cert p.pas p.pas"):
            name = words.replace("--write-cert ", "").split()[-1 if words[0] == "p" else 0]
            told = f"pcom: {name} is the source, it isn't overwritten\n"
            self.assertEqual(self.told(words), ("", told, 3))

    def test_the_certificate_that_is_read_is_kept(self):
        for words in ("--cert cert p.pas cert", "--cert cert --write-cert cert p.pas", "--cert=cert p.pas ./cert"):
            name = "./cert" if "./cert" in words else "cert"
            told = f"pcom: {name} is the certificate that is read, it isn't overwritten\n"
            self.assertEqual(self.told(words), ("", told, 3))

    def test_code_and_certificate_do_not_go_to_one_file(self):
        for name, other in (("new", "new"), ("new", "./new"), ("none", "none")):
            told = f"pcom: {name} can't be both, the code and the certificate\n"
            self.assertEqual(self.told(f"--write-cert {other} p.pas {name}"), ("", told, 3))
        self.assertFalse(os.path.exists(os.path.join(self.folder, "new")))

    def test_what_may_be_written_goes_to_the_program(self):
        for words in (
            *("p.pas new", "p.pas code", "p.pas none", "p.pas unended", "p.pas /dev/null", "p.pas /dev/stdout"),
            *("--write-cert cert p.pas", "--write-cert=cert2 p.pas", "--write-cert none p.pas code"),
            *("--cert cert p.pas code", "--write-cert /dev/null p.pas /dev/null", "--cert=", "--cert"),
            *("p.pas", "p.pas code in", "--bogus p.pas q.pas", "p.pas ."),
        ):
            self.assertEqual(self.told(words), (f"proved {words}\n", "", 5))

    def test_a_pipe_passes(self):
        path = os.path.join(self.folder, "pipe")
        os.mkfifo(path)
        self.assertEqual(self.told("p.pas pipe"), ("proved p.pas pipe\n", "", 5))


if __name__ == "__main__":
    unittest.main()
