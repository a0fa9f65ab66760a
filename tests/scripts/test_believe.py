"""bin/believe: what the headline names, in the tree as it is and in a small one with each form of a name, and that the
pages tell how much that is."""

import functools
import os
import re
import shutil
import subprocess
import sys
import tempfile
import unittest

TOP = os.path.dirname(os.path.dirname(os.path.dirname(os.path.abspath(__file__))))
sys.path.insert(0, os.path.join(TOP, "bin"))

from definitions.belief import Belief, reached

BELONG = (
    *("report.Headline", "report.IsTypedTreeOf", "cert_checker.ClosedNeverErr", "code_generator.Follows"),
    *("lexer.IsTokenList", "parser.IsTreeOf", "typing.IsTyped", "typing.statement_step", "typed_tree.Tree"),
    *("meaning.meaning", "meaning.effect_step", "meaning.value_step", "meaning.State", "text_input.completed"),
    *("stack_machine.machine_on", "stack_machine.step", "stack_machine.deed_of", "pcode_assembler.Instr"),
    *("code_scheme.living_need", "run_ports.failing", "members.Operator"),
)
# What the headline says nothing of: the walk of the checker and its states, what finds certificates, and what computes.
DO_NOT = (
    *("cert_checker.statement_step", "cert_checker.Valid", "cert_checker.StatesHold", "checker_state.joined_states"),
    *("report.IsStripped", "report.IsRefusal", "code_scheme.program_code", "certificate.Certificate"),
)
SILENT = re.compile("checker_|analyser|plain_|certificate|domain|interpreter|prepare|_finder|check_remover")
CRATES = "# All.\nlow:\nmeaning: low\nreport: low meaning\n"
COMPILE = """ghost use Rattle.std.specs.Prelude.{IfOk, ℕ};
ghost use Rattle.meaning.specs.Top.{Top as Whole, IsOf};

use low::tree::Tree;

pub struct Compiled {
    pub tree: Tree,
    pub other: Unnamed,
}

pub struct Unnamed;

/// Compiles.
pub fn compile(source: &[u8]) -> Result<Compiled, Fault>
    // What it is of.
    ensures typed { IfOk result (λ c. IsOf c.tree source.now) }
    ensures other { IfOk result (λ c. Else c.other) }
    ensures headline { IfOk result (λ c. Whole c.tree) }
{
    whole(source)
}
"""
TREE = """use crate::part::Part as Piece;

/// A tree.
#[derive(Drop)]
pub enum Tree {
    /// Nothing.
    Empty { kind: Kind },
    Two(Box<Tree>, Vec<Piece>),
}

#[derive(Clone, Copy)]
pub enum Kind {
    Small,
    Large,
}

pub struct Away;
"""
PART = "/// A part.\npub struct Part {\n    pub width: u32,\n    ghost narrow: { IsNarrow width },\n}\n"
PART_USES = "ghost use Rattle.std.specs.Prelude.{ℕ};\nghost use Rattle.low.specs.Words.{IsNarrow, shown};\n\n"
MODEL = """
impl Model for Part {
    ghost Value = { ℕ };

    ghost view = { λ part. shown part.width };
}
"""
WORDS = """-- Words.
use Rattle.std.specs.Prelude.{ℕ, zero, suc, ◌<◌}

-- a limit
-- of two lines
abbrev pub limit : ℕ
limit = 12

abbrev pub IsNarrow : ℕ → Type 0
IsNarrow width = width < limit

abbrev pub shown : ℕ → ℕ
shown = suc

-- not named by anything
abbrev pub size : ℕ → ℕ
size n = limit

abbrev pub place : ℕ
place = 1

infixl 10 ◌>>=◌
abbrev pub ◌>>=◌ : ℕ → (ℕ → ℕ) → ℕ
a >>= f = f a

pub data Way : Type 0 where
  Left : ℕ → Way
  Right : Way

pub record Pair : Type 0 where
  pub first second : ℕ

-- what a section binds
abbrev pub Bound : Type 0
Bound = ℕ

module _ (table : Bound) where
  abbrev helper : ℕ
  helper = table

  -- in a section
  abbrev pub sectioned : ℕ → ℕ
  sectioned n = helper
"""
TOP_FILE = """use Rattle.std.specs.Prelude.{ℕ, List, ◌≡◌, ◌+◌}
use Rattle.low.specs.declared.tree.Tree.{Tree}
use Rattle.low.specs.declared.tree.Tree.TheVariants.{Empty, Two as Twice}
use Rattle.low.specs.declared.tree.Kind.TheVariants as kind
use Rattle.low.specs.Words as word
use Rattle.low.specs.Words.{place, size, limit, Left, Pair, ◌>>=◌}
use Rattle.meaning.specs.Passing.{sectioned}

-- what a tree is worth: each name that it binds is that of a definition
abbrev pub worth : Tree → ℕ
worth (Empty kind.Small) = 0
worth (Empty size) = size
worth (Twice left parts) = sectioned 1 ((λ limit. limit) 2) >>= λ size. size

abbrev pub weight : ℕ → ℕ
weight n = do
  limit ← n
  place
  limit

pub record Top (tree : Tree) : Type 0 where
  pub size : worth tree ≡ weight 1
  pub is : size ≡ (Left 1)

abbrev pub IsOf : Tree → List ℕ → Type 0
IsOf tree source = elim tree [
  | Empty limit ↦ ℕ
  | Twice left right ↦ (pair : Pair) × (pair.first ≡ 1)
]
"""
TOP_PATH = "crates/meaning/specs/Top.antt"
NAMED = {
    "crates/low/src/part.rt": {"Part"},
    "crates/low/src/tree.rt": {"Kind", "Tree"},
    "crates/low/specs/Words.antt": set("limit IsNarrow shown place ◌>>=◌ Way Pair Bound helper sectioned".split()),
    TOP_PATH: {"worth", "weight", "Top", "IsOf"},
    "crates/report/src/compile.rt": {"Compiled", "compile"},
}


def put(text, *path):
    os.makedirs(os.path.dirname(os.path.join(*path)), exist_ok=True)
    with open(os.path.join(*path), "w", encoding="utf-8") as file:
        file.write(text)


def ran(top, *words):
    """What the script writes to both streams, and its status."""
    done = subprocess.run([sys.executable, os.path.join(top, "bin", "believe"), *words], capture_output=True, text=True)
    return done.stdout, done.stderr, done.returncode


@functools.lru_cache(maxsize=None)
def headline():
    """What the headline names in the tree as it is."""
    return Belief(TOP)


def name_of(it):
    return f"{it.place.crate}.{it.place.name}"


class Headline(unittest.TestCase):
    @classmethod
    def setUpClass(cls):
        cls.belief = headline()
        cls.names = {name_of(it) for it in cls.belief.order}

    def test_each_name_is_found(self):
        self.assertEqual(self.belief.unknown, [])

    def test_what_belongs_is_there(self):
        self.assertEqual([it for it in BELONG if it not in self.names], [])

    def test_of_what_the_headline_is_silent_nothing_is_there(self):
        self.assertEqual([it for it in DO_NOT if it in self.names], [])
        self.assertEqual([it for it in sorted(self.names) if SILENT.match(it)], [])

    def test_what_it_is_silent_of_is_defined(self):
        """So that the test above says something."""
        for it in DO_NOT:
            crate, name = it.split(".")
            texts = ""
            for at, _, files in os.walk(os.path.join(TOP, "crates", crate)):
                for file in files if at.partition(crate)[2].startswith(("/specs", "/src")) else ():
                    texts += self.belief.world.text_of(os.path.join(at, file))
            with self.subTest(name=it):
                self.assertRegex(texts, rf"(?m)^ *(abbrev |unfoldable )*pub (record |data |struct )?{name}\b")

    def test_what_is_named_stands_before_what_names_it(self):
        places = {it: number for number, it in enumerate(self.belief.order)}
        self.assertEqual(len(places), len(self.belief.named))
        for it, named in self.belief.named.items():
            for other in named:
                # Types of the code may name each other.
                if places[other] > places[it]:
                    self.assertIn(it, reached(other, self.belief.named), (it.place, other.place))
                    self.assertEqual((it.kind, other.kind), ("type", "type"))

    def test_crates_and_files_stand_together(self):
        crates = [it.place.crate for it in self.belief.order]
        self.assertEqual(crates, sorted(crates, key=self.belief.world.crates.index))
        paths = [it.place.path for it in self.belief.order if it.kind != "type"]
        beginnings = [path for before, path in zip(["", *paths], paths) if before != path]
        self.assertEqual(len(beginnings), len(set(paths)))

    def test_lines_are_counted_once(self):
        seen = set()
        for it in self.belief.order:
            for first, last in it.spans:
                here = {(it.place.path, line) for line in range(first, last + 1)}
                self.assertFalse(seen & here, it.place)
                seen |= here
        self.assertEqual(len(seen), sum(it.lines for it in self.belief.order))

    def test_each_definition_has_its_head(self):
        for it in self.belief.order:
            line = self.belief.world.lines_of(it.place.path)[it.place.line - 1]
            self.assertTrue(it.place.name in line or it.kind == "call", it.place)

    def test_a_chain_leads_from_the_headline(self):
        for it in self.belief.order:
            chain = self.belief.chain(it)
            self.assertEqual((chain[0], chain[-1]), (self.belief.root, it))
            for one, other in zip(chain, chain[1:]):
                self.assertIn(other, self.belief.named[one])


class Script(unittest.TestCase):
    def test_the_list(self):
        out, err, status = ran(TOP)
        belief = headline()
        self.assertEqual((err, status), ("", 0))
        lines = [line.split() for line in out.splitlines()]
        for it in belief.order:
            self.assertIn([str(it.lines), it.place.name, f"{it.place.path}:{it.place.line}"], lines)
        for crate, count, number in belief.sums():
            self.assertIn([crate, str(count), str(number)], lines)

    def test_the_text_has_all_of_it(self):
        out, _, status = ran(TOP, "--text")
        belief = headline()
        self.assertEqual(status, 0)
        for it in belief.order:
            for first, last in it.spans:
                self.assertIn("\n".join(belief.world.lines_of(it.place.path)[first - 1 : last]), out)

    def test_a_chain(self):
        out, _, status = ran(TOP, "machine_on")
        names = [line.split()[0] for line in out.splitlines()]
        self.assertEqual((names, status), (["compile", "Headline", "Follows", "machine_on"], 0))

    def test_a_name_that_is_not_there(self):
        self.assertEqual(ran(TOP, "joined_states"), ("", "believe: the headline names no joined_states\n", 3))

    def test_other_words(self):
        for word, status in (("--help", 0), ("--bogus", 2)):
            out, _, found = ran(TOP, word)
            self.assertEqual(found, status)
            self.assertIn("bin/believe --text", out)


class Small(unittest.TestCase):
    """A tree with each form of a name, and names that are bound where definitions of the same name are in scope."""

    def setUp(self):
        folder = tempfile.TemporaryDirectory()
        self.addCleanup(folder.cleanup)
        self.top = folder.name
        shutil.copytree(os.path.join(TOP, "bin", "definitions"), os.path.join(self.top, "bin", "definitions"))
        shutil.copy2(os.path.join(TOP, "bin", "believe"), os.path.join(self.top, "bin", "believe"))
        put(CRATES, self.top, "crates.txt")
        put(COMPILE, self.top, "crates/report/src/compile.rt")
        put(TREE, self.top, "crates/low/src/tree.rt")
        put(PART_USES + PART + MODEL, self.top, "crates/low/src/part.rt")
        put(WORDS, self.top, "crates/low/specs/Words.antt")
        put(TOP_FILE, self.top, TOP_PATH)
        put("pub use Rattle.low.specs.Words.{sectioned}\n", self.top, "crates/meaning/specs/Passing.antt")

    def named(self):
        found = {}
        for it in Belief(self.top).order:
            found.setdefault(it.place.path, set()).add(it.place.name)
        return found

    def test_what_is_named_is_there_and_nothing_else(self):
        self.assertEqual(Belief(self.top).unknown, [])
        self.assertEqual(self.named(), NAMED)

    def test_a_type_that_a_definition_names_is_there_whole(self):
        """Of the result only the fields that the clauses name are followed, but not where a definition names it."""
        more = "use Rattle.report.specs.declared.compile.Compiled.{Compiled}\n"
        put(more + TOP_FILE.replace("elim tree [", "(compiled : Compiled) × elim tree ["), self.top, TOP_PATH)
        put(CRATES.replace("meaning: low\nreport: low meaning", "report: low\nmeaning: low"), self.top, "crates.txt")
        wanted = {"Compiled", "Unnamed", "compile"}
        self.assertEqual(self.named()["crates/report/src/compile.rt"], wanted)

    def test_lines(self):
        lines = {it.place.name: it.lines for it in Belief(self.top).order}
        wanted = {"limit": 4, "place": 2, "◌>>=◌": 3, "Way": 3, "sectioned": 3, "Tree": 7, "Part": 10, "IsOf": 5}
        wanted.update({"compile": 3, "Compiled": 4, "weight": 5})
        self.assertEqual({name: lines[name] for name in wanted}, wanted)

    def test_the_text_has_the_heads_of_sections_once(self):
        out, _, status = ran(self.top, "--text")
        self.assertEqual((out.count("module _ (table : Bound) where\n"), status), (1, 0))
        self.assertNotIn("not named by anything", out)
        self.assertNotIn("ensures other", out)

    def test_a_constructor_stands_for_its_type(self):
        out, _, status = ran(self.top, "Left", "low.limit")
        told = [line.split()[0] for line in out.splitlines()]
        self.assertEqual(told, ["compile", "Top", "Way", "compile", "IsOf", "Tree", "Part", "IsNarrow", "limit"])
        self.assertEqual(status, 0)

    def test_a_name_that_leads_nowhere_is_told(self):
        for old, new, line, name in (
            ("weight n = do", "weight n = no_such n >>= do", 16, "no_such"),
            ("kind.Small", "kind.Tiny", 11, "kind.Tiny"),
            ("pair.first", "pair.third", 28, "third"),
            ("size, limit, Left", "size, limit, Lost, Left", 6, "Rattle.low.specs.Words.Lost"),
            ("use Rattle.low.specs.Words as word\n", "use Rattle.low.specs.Words as word\n\nextra : Lost\n", 0, ""),
        ):
            put(TOP_FILE.replace(old, new), self.top, TOP_PATH)
            told = f"believe: {TOP_PATH}:{line}: nothing is found for {name}\n" if line else ""
            with self.subTest(name=name):
                self.assertEqual(ran(self.top)[1:], (told, 3 if line else 0))


class Pages(unittest.TestCase):
    @classmethod
    def setUpClass(cls):
        belief = headline()
        cls.rows = [[crate, str(count), str(lines)] for crate, count, lines in belief.sums()]
        cls.lines = sum(it.lines for it in belief.order)
        cls.rows.append(["all", str(len(belief.order)), str(cls.lines)])
        cls.kit = len(belief.reading.kit)

    def text_of(self, *path):
        with open(os.path.join(TOP, *path), encoding="utf-8") as file:
            return re.sub(r"(?<=\d),(?=\d{3})", "", file.read())

    def test_the_sentence_of_the_readme(self):
        text = re.sub(r"\s+", " ", self.text_of("README.md"))
        said = re.findall(r"(\d+) lines in (\d+) definitions, which `bin/believe` lists", text)
        self.assertEqual(said, [(str(self.lines), self.rows[-1][1])])

    def test_the_table_by_crate(self):
        text = self.text_of("docs", "PROVED.md")
        section = text.partition("## What has to be believed")[2].partition("\n## ")[0]
        rows = [re.findall(r"[^|\s`]+", line) for line in section.splitlines() if line.startswith("|")]
        self.assertEqual(rows[2:], self.rows)
        self.assertIn(f"{self.kit} names of the kit", re.sub(r"\s+", " ", section))


if __name__ == "__main__":
    unittest.main()
