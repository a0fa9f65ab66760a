"""docs/explanations.ini explains each code and name that the programs can print, and docs/LANGUAGE.md, or docs/CODE.md
of the text of code, says the same.

What can be printed is searched in the sources of all crates but those of tests, wherever it stands there: a new
refusal, kind of error, input fault, machine fault or line fails here until it is explained. The pages list each of
them once, with exactly the sentence that the file has for it, and shows an example of each refusal of a source."""

import configparser
import glob
import os
import re
import unittest

TOP = os.path.dirname(os.path.dirname(os.path.dirname(os.path.abspath(__file__))))
FILE = os.path.join(TOP, "docs", "explanations.ini")
PAGE = os.path.join(TOP, "docs", "LANGUAGE.md")
CODE_PAGE = os.path.join(TOP, "docs", "CODE.md")
COLUMNS = 120

# How the sources spell a code. A fault's comment names it too: `/// K4, at a component ..`.
CODES = (
    re.compile(r"///\s+([LPSKYGFCM])(\d+)[,:]\s"),
    re.compile(r"b'([A-Z])',\s*(?:number:\s*)?(\d+)\b"),
    re.compile(r'=>\s*"([A-Z])(\d+)"'),
)
# The same where the letter stands elsewhere, in the same function.
NUMBERS = (
    ("F", re.compile(r"\bReadFault::\w+[^=\n]*=>\s*\(line, (\d+)\)")),
    ("C", re.compile(r"\bRule::\w+ => (\d+),")),
    ("A", re.compile(r"\bAsmRule::\w+ => (\d+),")),
)
# A function that answers one of several names, the names, and those that are kinds of errors.
NAMING = re.compile(r"^( *)(?:pub )?fn (?:name|\w+_name|\w+_text)\([^)]*\) -> &'static str\n.*?^\1\}", re.M | re.S)
NAME = re.compile(r'=>\s*"([a-z][a-z ]*)"')
KIND = re.compile(r'\bSiteKind::\w+ =>\s*"([a-z ]+)"')
# A whole line, and a line that ends with a path.
LINE = re.compile(r'\bsentence\([^;"]*"([a-z][a-z ]*[a-z])", ""\)')
PATH_LINE = re.compile(r'\.tell\(&\[\s*"([a-z][a-z ]*) "\.as_bytes\(\),\s*path\b')
# So many are there at the least. Where fewer are found they moved to where this test doesn't look.
LEAST = {"L": 8, "P": 3, "S": 4, "K": 10, "Y": 2, "G": 1, "F": 5, "C": 7, "A": 6, "M": 4, "names": 19, "lines": 7}

# The crates of tests.
OF_TESTS = re.compile(r"/crates/(test_words|\w+_trials)/")
# Kinds of errors that no program has.
WITHOUT_SITE = {}

# New ones, spelled as the sources spell theirs.
NEW_SOURCE = """
    /// P4, where something new is at fault.
        LexFault::New(place) => at(place, b'L', 9),
        GenFault::New => Refusal::Whole(RuleCode {
            letter: b'G',
            number: 2,
        }),
        ReadFault::New { line } => (line, 6),
        Rule::New => 8,
        AsmRule::New => 7,
        Stop::New => (sentence(empty, "time up", ""), 3),
    outside.tell(&["cannot rename ".as_bytes(), path.as_bytes(), "\\n".as_bytes()]);
    pub fn name(self) -> &'static str
        ensures short { length result.now ≤ 19 }
    {
        match self {
            SiteKind::New => "odd number",
        }
    }
fn fault_name(fault: MachineFault) -> &'static str
{
    match fault {
        MachineFault::New => "M5",
    }
}
"""

HINT = "hint: "
SENTENCE = re.compile(r"[A-Z`](?:[^.\n]|\.(?! |$))*\.")
ITEM = re.compile(r"- \[?`([^`]+)`(?:\]\(#\w+\))?(?:, .*?)?: ")
ROW = re.compile(r"\| `(?:machine fault )?(.+?)(?: PATH)?` \|")


def sources():
    """The text of the sources of all crates that the programs stand on."""
    texts = []
    for path in sorted(glob.glob(os.path.join(TOP, "crates", "*", "src", "**", "*.rt"), recursive=True)):
        if not OF_TESTS.search(path):
            with open(path, encoding="utf-8") as file:
                texts.append(file.read())
    return "\n".join(texts)


def found_codes(text):
    codes = {letter + number for shape in CODES for letter, number in shape.findall(text)}
    return codes | {letter + number for letter, shape in NUMBERS for number in shape.findall(text)}


def found_names(text):
    return {name for function in NAMING.finditer(text) for name in NAME.findall(function[0])}


def found_lines(text):
    return {line for shape in (LINE, PATH_LINE) for line in shape.findall(text)}


def sections():
    """The sections of the file, each with its keys, the white space of their values folded."""
    parser = configparser.RawConfigParser()
    with open(FILE, encoding="utf-8") as file:
        parser.read_file(file)
    return {name: {key: folded(text) for key, text in parser[name].items()} for name in parser.sections()}


def explanations():
    """Those of codes and names."""
    return {name: keys for name, keys in sections().items() if not name.startswith(HINT)}


def folded(text):
    return " ".join(text.split())


def page_text(path=PAGE):
    with open(path, encoding="utf-8") as file:
        return file.read()


def listed(page):
    """What the page says of each name with which an item of a list or a row of a table begins, folded."""
    text = re.sub(r"^```.*?^```", "", page, flags=re.M | re.S)
    found = {}
    for item in re.findall(r"^- .*(?:\n  +\S.*)*", text, flags=re.M):
        start = ITEM.match(folded(item))
        if start:
            found.setdefault(start[1], []).append(folded(item))
    for row in re.findall(r"^\|.*\|$", text, flags=re.M):
        start = ROW.match(row)
        if start:
            found.setdefault(start[1], []).append(row)
    return found


def has_sentence(said, sentence):
    """Whether an item or a row says this sentence, behind its colon or as its last cell."""
    return f": {sentence} " in f"{said} " or said.endswith(f"| {sentence} |")


def shown(page):
    """What the consoles of each section show, by the section's heading."""
    found = {}
    for section in re.split(r"^##+ ", page, flags=re.M)[1:]:
        heading = section.split("\n", 1)[0]
        found[heading] = "".join(re.findall(r"^```console\n(.*?)^```", section, flags=re.M | re.S))
    return found


class Explanations(unittest.TestCase):
    @classmethod
    def setUpClass(cls):
        cls.text = sources()
        cls.codes, cls.names, cls.lines = found_codes(cls.text), found_names(cls.text), found_lines(cls.text)
        cls.explained = explanations()
        cls.page = page_text()

    def test_the_sources_were_found(self):
        counts = {letter: sum(code[0] == letter for code in self.codes) for letter in LEAST if len(letter) == 1}
        counts.update(names=len(self.names), lines=len(self.lines))
        for group, least in LEAST.items():
            self.assertGreaterEqual(counts[group], least, group)

    def test_what_is_printed_is_explained_and_nothing_else(self):
        self.assertEqual(sorted(self.codes | self.names | self.lines), sorted(self.explained))

    def test_each_explanation_is_two_sentences(self):
        for name, keys in self.explained.items():
            self.assertEqual(sorted(keys), ["means", "mend"], name)
            for key, text in keys.items():
                self.assertIsNotNone(SENTENCE.fullmatch(text), f"{name}: {key}: {text}")

    def test_each_hint_is_a_sentence_for_a_name(self):
        hints = {name: keys for name, keys in sections().items() if name.startswith(HINT)}
        self.assertTrue(hints)
        for name, keys in hints.items():
            self.assertLessEqual({"at", "shape", "says"}, set(keys), name)
            self.assertLessEqual(set(keys), {"at", "shape", "says", "expects"}, name)
            self.assertIn(keys["at"], self.explained, name)
            self.assertIsNotNone(SENTENCE.fullmatch(keys["says"]), f"{name}: {keys['says']}")

    def test_lines_keep_their_width(self):
        for path in (FILE, PAGE, CODE_PAGE):
            with open(path, encoding="utf-8") as file:
                wide = [number for number, line in enumerate(file, 1) if len(line.rstrip("\n")) > COLUMNS]
            self.assertEqual(wide, [], path)

    def test_the_page_says_the_same(self):
        said = {**listed(self.page), **listed(page_text(CODE_PAGE))}
        for name, keys in self.explained.items():
            fitting = [text for text in said.get(name, []) if has_sentence(text, keys["means"])]
            self.assertEqual(len(fitting), 1, f"{name}: {keys['means']}: {said.get(name)}")
            if name in self.codes:
                self.assertEqual(len(said[name]), 1, name)

    def test_each_refusal_of_a_source_has_its_example(self):
        sections = shown(self.page)
        for code in sorted(code for code in self.codes if code[0] in "LPSKYG"):
            self.assertRegex(sections.get(code, ""), rf"(?m)^([0-9:]+ )?refused {code}$")

    def test_each_kind_of_error_has_its_example(self):
        shows = set(re.findall(r": possible error: (.+)$", shown(self.page)["Errors"], flags=re.M))
        self.assertEqual(shows, set(KIND.findall(self.text)) - set(WITHOUT_SITE))

    def test_what_is_new_would_be_found(self):
        self.assertEqual(found_codes(NEW_SOURCE), {"L9", "P4", "G2", "F6", "C8", "A7", "M5"})
        self.assertEqual(found_names(NEW_SOURCE), {"odd number"})
        self.assertEqual(found_lines(NEW_SOURCE), {"time up", "cannot rename"})


if __name__ == "__main__":
    unittest.main()
