"""The programs of examples/gallery: what is told of each, by its file NAME.told; what docs/GALLERY.md says of them; and
the changes that the page makes to them, of which fewer lines are told."""

import glob
import os
import re
import shutil
import subprocess
import tempfile
import unittest

TOP = os.path.dirname(os.path.dirname(os.path.dirname(os.path.abspath(__file__))))
PROGRAM = os.environ["PCOM"]
GALLERY = os.path.join(TOP, "examples", "gallery")
PAGE = os.path.join(TOP, "docs", "GALLERY.md")
SECONDS = 60
COUNT = re.compile(r"\]\(\.\./examples/gallery/(\w+)\.pas\): (none|\d+) of (\d+) sites (?:is|are) told\. ")
DIFF = re.compile(r"^With this (none|\d+) (?:is|are) told:\n\n```diff\n(.*?)^```$", re.M | re.S)
NUMBERS = {"none": 0, "five": 5, "ten": 10, "twenty-seven": 27}
# The one that fails with its own input, and what it is told then; and others with an input of which they fail.
FAILS = {"triangle": "16:10: error: index"}
FAILING = (
    ("primes", b"2147483647\n", "11:12: error: overflow"),
    ("vending", b"1x\n", "14:3: error: case"),
)
# By this compiler the same programs are run: whatever else it does, it writes the same.
OTHERS = ["fpc", "-Miso", "-Cr", "-Co", "-Ci", "-CR", "-v0"]


def text_of(path):
    with open(path, encoding="ascii") as file:
        return file.read()


def names():
    return sorted(os.path.basename(path)[: -len(".pas")] for path in glob.glob(os.path.join(GALLERY, "*.pas")))


def number(word):
    return NUMBERS[word] if word in NUMBERS else int(word.replace(",", ""))


def hunks(diff):
    """What a diff takes away and what it puts there, lines with what stands round them."""
    for hunk in diff.split("\n..\n"):
        lines = hunk.strip("\n").split("\n")
        yield tuple("".join(line[1:] + "\n" for line in lines if line[:1] in (" ", sign)) for sign in "-+")


class GalleryCase(unittest.TestCase):
    def setUp(self):
        holder = tempfile.TemporaryDirectory()
        self.addCleanup(holder.cleanup)
        self.folder = holder.name

    def source(self, name):
        return text_of(os.path.join(GALLERY, f"{name}.pas"))

    def input(self, name):
        path = os.path.join(GALLERY, f"{name}.in")
        return text_of(path).encode() if os.path.exists(path) else b""

    def put(self, text):
        path = os.path.join(self.folder, "p.pas")
        with open(path, "w", encoding="ascii") as file:
            file.write(text)
        return path

    def ran(self, *words, given=b""):
        """The output, the lines and the status of a run."""
        ran = subprocess.run([PROGRAM, *words], input=given, capture_output=True, timeout=SECONDS)
        return ran.stdout, ran.stderr.decode().splitlines(), ran.returncode

    def sites(self, path):
        """How many sites a program has, and how many are told."""
        code = os.path.join(self.folder, "code")
        _, told, _ = self.ran("--keep-checks", path, code)
        return len(re.findall("^site ", text_of(code), re.M)), len(told)


class Programs(GalleryCase):
    def test_lines_that_are_told(self):
        self.assertEqual(len(names()), 27)
        for name in names():
            with self.subTest(program=name):
                wanted = text_of(os.path.join(GALLERY, f"{name}.told")).splitlines()
                path = os.path.join(GALLERY, f"{name}.pas")
                self.assertEqual(self.ran(path), (b"", wanted, 1 if wanted else 0))
                output, told, status = self.ran("--go", path, given=self.input(name))
                fault = [FAILS[name]] if name in FAILS else []
                self.assertEqual((told, status), (wanted + fault, 4 if fault else 1 if wanted else 0))
                self.assertTrue(output)

    def test_each_file_is_of_a_program(self):
        for path in glob.glob(os.path.join(GALLERY, "*")):
            name, ending = os.path.basename(path).rsplit(".", 1)
            self.assertIn(name, names())
            self.assertIn(ending, ("pas", "in", "told"))
            if ending == "in":
                self.assertIn("(input, output);", self.source(name))

    def test_those_that_fail(self):
        for name, given, fault in FAILING:
            _, told, status = self.ran("--go", os.path.join(GALLERY, f"{name}.pas"), given=given)
            self.assertEqual((told[-1], status), (fault, 4))
            self.assertIn(fault.replace("error", "possible error"), told)

    def test_another_compiler_writes_the_same(self):
        if not shutil.which(OTHERS[0]):
            self.skipTest("fpc isn't installed")
        for name in names():
            with self.subTest(program=name):
                path = self.put("{$B+}" + self.source(name))
                subprocess.run([*OTHERS, path], cwd=self.folder, stdout=subprocess.DEVNULL, timeout=SECONDS, check=True)
                program = os.path.join(self.folder, "p")
                other = subprocess.run(program, input=self.input(name), capture_output=True, timeout=SECONDS).stdout
                ours, _, _ = self.ran("--go", os.path.join(GALLERY, f"{name}.pas"), given=self.input(name))
                # Booleans and what stands behind a fault apart, both write the same.
                self.assertEqual(other[: len(ours)] if name in FAILS else other, ours)


class Page(GalleryCase):
    """What the page says."""

    @classmethod
    def setUpClass(cls):
        with open(PAGE, encoding="utf-8") as file:
            cls.page = file.read()
        parts = re.split(r"^### (\w+)\n", cls.page, flags=re.M)
        # The heading of the next group may stand behind a program's text.
        cls.sections = {name: text.partition("\n## ")[0] for name, text in zip(parts[1::2], parts[2::2])}

    def test_faults(self):
        for name, fault in [*FAILS.items(), *((name, fault) for name, _, fault in FAILING)]:
            self.assertIn(f"`{fault}`", self.sections[name])

    def test_each_program_has_a_section(self):
        self.assertEqual(sorted(self.sections), names())
        self.assertEqual(list(self.sections)[:3], ["primes", "triangle", "vending"])

    def test_numbers(self):
        sites = told = silent = 0
        for name, section in self.sections.items():
            found = COUNT.search(" ".join(section.split()))
            numbers = self.sites(os.path.join(GALLERY, f"{name}.pas"))
            self.assertEqual((found[1], number(found[3]), number(found[2])), (name, *numbers))
            sites, told, silent = sites + numbers[0], told + numbers[1], silent + (numbers[1] == 0)
        folded = " ".join(self.page.split())
        found = re.search(r"Of their (\S+) sites (\S+) are told, and (\S+) of the programs are silent\.", folded)
        self.assertEqual([number(one) for one in found.groups()], [sites, told, silent])
        self.assertEqual(number(re.search(r"learn: (\S+) programs", folded)[1]), len(names()))

    def test_changes(self):
        """With the changes that stand there fewer lines are told, and the programs write the same."""
        changed = 0
        for name, section in self.sections.items():
            for left, diff in DIFF.findall(section):
                with self.subTest(program=name):
                    text = self.source(name)
                    for old, new in hunks(diff):
                        self.assertEqual(text.count(old), 1, old)
                        text = text.replace(old, new)
                    path = os.path.join(GALLERY, f"{name}.pas")
                    before = self.ran("--go", path, given=self.input(name))
                    after = self.ran("--go", self.put(text), given=self.input(name))
                    self.assertEqual(after[0], before[0])
                    self.assertEqual(len(after[1]), number(left))
                    self.assertLess(len(after[1]), self.sites(path)[1])
                    changed += 1
        self.assertGreaterEqual(changed, 15)

    def test_mended_primes(self):
        """The mended test for primes is right, for the number too at which the other fails."""
        ((_, diff),) = DIFF.findall(self.sections["primes"])
        text = self.source("primes")
        for old, new in hunks(diff):
            text = text.replace(old, new)
        numbers = [*range(-3, 400), 32749, 46337 * 46337, 46341, 2147483646, 2147483647]
        output, _, status = self.ran("--go", self.put(text), given="".join(f"{n}\n" for n in numbers).encode())
        primes = {n for n in numbers if n > 1 and all(n % d for d in range(2, int(n**0.5) + 1))}
        wanted = [f"{n} is {'' if n in primes else 'not '}prime" for n in numbers]
        self.assertEqual((output.decode().splitlines(), status), (wanted, 0))

    def test_calendar_needs_its_test(self):
        text = self.source("calendar")
        start = text.index("  if (y >= 1583)")
        _, told, _ = self.ran(self.put(text[:start] + "  print(y, m)\nend.\n"))
        self.assertIn("Without this test five of them are told.", " ".join(self.sections["calendar"].split()))
        self.assertEqual(len(told), 5)


if __name__ == "__main__":
    unittest.main()
