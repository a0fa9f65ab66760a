"""Tests of bin/release, on a clone of this repository with the programs at hand: what is in the archive and in the
package, that the archive runs without the kit, and that two releases of one commit are the same bytes."""

import os
import re
import shutil
import subprocess
import sys
import tempfile
import unittest

TOP = os.path.dirname(os.path.dirname(os.path.dirname(os.path.abspath(__file__))))
SECONDS = 600
sys.path.insert(0, os.path.join(TOP, "bin"))

from programs import MAIN_PROGRAMS, PARTS, PROVED, TRIED, Sources, key_text, rows_of

KIT = "a kit of tests"
# The folders of commands but those that have a kit.
PATH = [one for one in os.environ["PATH"].split(os.pathsep) if not os.path.exists(os.path.join(one, "rt"))]
EXAMPLE = os.path.join("examples", "sum.pas")
# What the gate says of a crate, of its tests, of one that is kept, and at its end.
OF_CRATE = """== {name}
fn {name}::one: proved
logic=proved functions=3 sum=dac8 logic-built=trusted
rt: {name} proved
"""
OF_TESTS = """== {name}: its tests
logic=proved functions=4 tests=1 sum=dac8 logic-built=trusted
rt: {name}: its tests are proved
"""
KEPT = "rt: {name} is kept: an earlier run on this machine proved the same files over the same libraries\n"
END = """rt: must-fail lexer/one.edit: refused
rt: lexer: its tests passed
rt: ok; handles allowed: Abort; must-fail edits: 1 refused; every proof and must-fail edit was done in this run
3 passed, 0 failed
pcom: proved
run: proved out/proved/pcom/pcom
7 passed, 0 failed
"""


def gate_of(names, end=END):
    """What the gate says of these crates, the last of them kept."""
    *names, last = names
    proved = [OF_CRATE.format(name=name) for name in names]
    return "".join([*proved, OF_TESTS.format(name="lexer"), KEPT.format(name=last), end])


def run(words, **given):
    return subprocess.run(words, stdin=subprocess.DEVNULL, capture_output=True, text=True, timeout=SECONDS, **given)


def put_text(path, text):
    with open(path, "w", encoding="utf-8") as file:
        file.write(text)


class Release(unittest.TestCase):
    """One release is made for all tests."""

    @classmethod
    def setUpClass(cls):
        cls.missing = [name for name in ("git", "tar", "xz") if not shutil.which(name)]
        if cls.missing:
            return
        cls.folder = tempfile.mkdtemp()
        cls.addClassCleanup(shutil.rmtree, cls.folder, ignore_errors=True)
        cls.clone = os.path.join(cls.folder, "clone")
        run(["git", "clone", "-q", "--shared", TOP, cls.clone], check=True)
        run(["bash", "-c", 'cp -a "$0"/bin/. "$1"/bin', TOP, cls.clone], check=True)
        run(["bash", "-c", 'cp "$0"/CHANGELOG.md "$1"', TOP, cls.clone], check=True)
        git = ["git", "-C", cls.clone, "-c", "user.name=a", "-c", "user.email=b"]
        run([*git, "add", "-A"], check=True)
        run([*git, "commit", "-qm", "x", "--allow-empty"], check=True)
        cls.environment = {**os.environ, "PATH": os.pathsep.join(PATH)}
        for name in MAIN_PROGRAMS:
            cls.put_program(name, os.environ[name.upper()])
        cls.made = cls.release("--tried")
        cls.tree = cls.unpacked(cls.made)

    @classmethod
    def put_program(cls, name, program, kind=TRIED):
        """Puts a program where one of this kind lies, as built of these sources."""
        folder = os.path.join(cls.clone, "out", kind, name)
        os.makedirs(folder)
        shutil.copy(program, os.path.join(folder, name))
        put_text(os.path.join(folder, f"{name}.bc"), "bitcode")
        key = Sources(cls.clone, KIT, PARTS[kind]).key(name)
        put_text(os.path.join(folder, "key"), key_text(key, KIT, program))

    @classmethod
    def release(cls, *words):
        return run([sys.executable, os.path.join(cls.clone, "bin", "release"), *words], env=cls.environment)

    @classmethod
    def unpacked(cls, made, name="waupikoe-0.1.0-tried-x86_64"):
        if made.returncode:
            return None
        run(["tar", "-xf", os.path.join(cls.clone, "out", "release", f"{name}.tar.xz"), "-C", cls.folder], check=True)
        return os.path.join(cls.folder, name)

    def setUp(self):
        if self.missing:
            self.skipTest(f"{self.missing[0]} isn't installed")
        self.assertEqual(self.made.returncode, 0, self.made.stderr)

    def text_of(self, *path, tree=None):
        with open(os.path.join(tree or self.tree, *path), encoding="utf-8") as file:
            return file.read()

    def package(self):
        path = os.path.join(self.clone, "out", "release", "waupikoe_0.1.0~tried_amd64.deb")
        if not shutil.which("dpkg-deb"):
            self.skipTest("dpkg-deb isn't installed")
        return path

    def test_archive_runs_without_a_kit(self):
        ran = run([os.path.join(self.tree, "bin", "pcom"), "--go", EXAMPLE], cwd=self.tree, env=self.environment)
        wanted = run([os.environ["PCOM"], "--go", os.path.join(TOP, EXAMPLE)])
        self.assertEqual((ran.stdout, ran.returncode), (wanted.stdout, 0))
        self.assertEqual(ran.stderr, "pcom: not proved here (bin/prove proves it)\n")
        code = os.path.join(self.folder, "sum.code")
        quiet = {**self.environment, "PCOM_UNPROVED": "quiet"}
        run([os.path.join(self.tree, "bin", "pcom"), EXAMPLE, code], cwd=self.tree, env=quiet, check=True)
        ran = run([os.path.join(self.tree, "bin", "pint"), code], env=quiet)
        self.assertEqual((ran.stdout, ran.stderr, ran.returncode), (wanted.stdout, "", 0))
        explained = {name: value for name, value in quiet.items() if name != "PCOM"}
        ran = run([os.path.join(self.tree, "bin", "explain"), EXAMPLE], cwd=self.tree, env=explained)
        self.assertRegex(ran.stderr, r"^examples/sum.pas: \d+ sites, \d+ closed, 0 told\n$")

    def test_what_it_says(self):
        lines = self.text_of("RELEASE").splitlines()
        commit = run(["git", "-C", self.clone, "rev-parse", "HEAD"]).stdout.strip()
        self.assertEqual(lines[:3], ["version 0.1.0", f"commit {commit}", "not proved"])
        for name, line in zip(MAIN_PROGRAMS, lines[3:]):
            summed = run(["sha256sum", os.environ[name.upper()]]).stdout.split()[0]
            self.assertEqual(line, f"{name} {summed} built with {KIT}")

    def test_sums(self):
        folder = os.path.join(self.clone, "out", "release")
        ran = run(["sha256sum", "--check", "--strict", "SHA256SUMS"], cwd=folder)
        self.assertEqual(ran.returncode, 0, ran.stderr)
        listed = sorted(os.listdir(folder))
        self.assertEqual(len(ran.stdout.splitlines()), len(listed) - 1)

    def test_manual(self):
        if not shutil.which("help2man"):
            self.skipTest("help2man isn't installed")
        for name in ("pcom", "pint", "pcom-explain"):
            page = self.text_of("share", "man", "man1", f"{name}.1")
            self.assertIn(f"\n.SH NAME\n{name} \\- ", page)
        self.assertIn("\\-\\-write\\-cert", self.text_of("share", "man", "man1", "pcom.1"))

    def test_the_same_bytes(self):
        before = self.made.stdout
        again = self.release("--tried")
        self.assertEqual((again.returncode, again.stdout), (0, before))

    def test_package(self):
        listed = run(["dpkg-deb", "--contents", self.package()], check=True).stdout
        for name in ("usr/bin/pcom", "usr/bin/pint", "usr/bin/pcom-explain", "usr/share/doc/waupikoe/copyright"):
            self.assertRegex(listed, rf"(?m) \./{re.escape(name)}$")
        root = os.path.join(self.folder, "root")
        run(["dpkg-deb", "--extract", self.package(), root], check=True)
        wanted = run([os.environ["PCOM"], "--go", os.path.join(TOP, EXAMPLE)]).stdout
        program = os.path.join(root, "usr", "bin", "pcom")
        self.assertEqual(run([program, "--go", os.path.join(TOP, EXAMPLE)]).stdout, wanted)
        explain = os.path.join(root, "usr", "share", "waupikoe", "bin", "explain")
        ran = run([sys.executable, explain, "K5"])
        self.assertTrue(ran.stdout.startswith("K5\n    The control variable"), ran)

    def test_lintian(self):
        if not shutil.which("lintian"):
            self.skipTest("lintian isn't installed")
        ran = run(["lintian", "--fail-on", "error", "--allow-root", self.package()])
        self.assertEqual(re.findall(r"(?m)^E: .*", ran.stdout), [], ran.stdout + ran.stderr)

    def test_what_stops_it(self):
        ran = self.release()
        self.assertEqual(ran.returncode, 3)
        self.assertIn("isn't proved of just these sources; bin/prove proves it", ran.stderr)
        with open(os.path.join(self.clone, "README.md"), "a", encoding="utf-8") as file:
            file.write("\n")
        ran = self.release("--tried")
        self.assertEqual(ran.returncode, 3)
        self.assertIn("what is released has to be committed first", ran.stderr)
        run(["git", "-C", self.clone, "checkout", "-q", "README.md"], check=True)
        # What lay there is still there.
        self.test_sums()

    def put_gate(self, text):
        put_text(os.path.join(self.folder, "gate"), text)
        return "--gate", os.path.join(self.folder, "gate")

    def test_proved(self):
        """A release of programs that are proved, with the lines of the gate."""
        made, aside = (os.path.join(self.clone, "out", name) for name in ("release", "aside"))
        os.rename(made, aside)
        self.addCleanup(os.rename, aside, made)
        self.addCleanup(shutil.rmtree, made)
        self.addCleanup(shutil.rmtree, os.path.join(self.clone, "out", PROVED))
        for name in MAIN_PROGRAMS:
            self.put_program(name, os.environ[name.upper()], PROVED)
        *names, last = rows_of(self.clone)
        made = self.release(*self.put_gate(gate_of([*names, last])))
        self.assertEqual((made.returncode, made.stderr.replace("\n", "")), (0, self.said_of_commands()))
        tree = self.unpacked(made, "waupikoe-0.1.0-x86_64")
        self.assertEqual(self.text_of("RELEASE", tree=tree).splitlines()[2], "proved")
        verdicts = self.text_of("VERDICTS", tree=tree).splitlines()
        self.assertEqual(verdicts[0], f"{names[0]}: logic=proved functions=3 sum=dac8 logic-built=trusted")
        self.assertEqual(len(verdicts), len(names) + 5)
        self.assertIn("lexer: its tests: logic=proved functions=4 tests=1 sum=dac8 logic-built=trusted", verdicts)
        self.assertTrue(verdicts[-4].startswith(f"{last} is kept: "), verdicts[-4])
        self.assertEqual(verdicts[-3], "must-fail lexer/one.edit: refused")
        self.assertTrue(verdicts[-2].startswith("ok; handles allowed: Abort; "), verdicts[-2])
        self.assertEqual(verdicts[-1], "7 passed, 0 failed")
        ran = run([os.path.join(tree, "bin", "pcom"), "--go", EXAMPLE], cwd=tree, env=self.environment)
        self.assertEqual((ran.stderr, ran.returncode), ("", 0))
        self.assertEqual(sorted(os.listdir(os.path.join(tree, "out", PROVED, "pcom"))), ["key", "pcom"])

    def said_of_commands(self):
        """What is told where commands that it takes aren't installed."""
        manual = "release: help2man isn't installed, so there are no pages of manual"
        package = "release: dpkg-deb isn't installed, so there is no package"
        told = {"help2man": manual, "dpkg-deb": package}
        return "".join(line for name, line in told.items() if not shutil.which(name))

    def test_no_gate(self):
        """What is no output of a gate that has passed over all crates is refused."""
        names = list(rows_of(self.clone))
        for text, why in (
            ("nothing\n", "is no output of a gate that has passed"),
            (gate_of(names, "7 passed, 1 failed\n"), "is no output of a gate that has passed"),
            (gate_of(names[:-1]), f"says nothing of a proof of {names[-1]}"),
            (gate_of(names).replace(f"== {names[0]}\n", "== other\n"), f"says nothing of a proof of {names[0]}"),
        ):
            made = self.release("--tried", *self.put_gate(text))
            self.assertEqual(made.returncode, 3)
            self.assertTrue(made.stderr.endswith(f"{why}\n"), made.stderr)
        # What lay there is still there.
        self.test_sums()


if __name__ == "__main__":
    unittest.main()
