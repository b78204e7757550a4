"""What `definitions`, `crates` and `renew` of tools/pages say, and what is said of a stale page, on a small tree; and that what
this repository lists in several places is the same in each: predicates, commands, kinds of slips, and what pages and crates name.
"""
from __future__ import annotations

import os
import re
import shutil
from glob import glob

from tests.cases import TOP, Cases, Done, read, run, tool, write
from tests.test_pages import shown_by

from tools.ending import Refusal
from tools.pages.antt import first_sentence, read_file
from tools.pages.crates import crates_of
from tools.pages.definitions import Meaning, Top, by_crate, only
from tools.second.predicates import PREDICATES

# A top call with two commands. `Unused` stands in a file that is reached, and `Spare` in one that is imported alone.
TREE = {
    "crates.txt": """# a comment
## low
base: thiserror
says: base
## top
above: says base
## tests of crates
tries: above
""",
    "crates/base/src/lib.rt": """//! The base: lists,
//! as `a. b`. And more.
//!
//! Clause: `f` is
//! right.

mod n;
""",
    "crates/base/src/n.rt": "pub enum Kind { A }\n",
    "crates/base/specs/Case.antt": """-- What a test says.
use Rattle.std.specs.Prelude.{ℕ, List}
use Rattle.base.specs.{declared.n.Kind.{Kind},
    Spare.{Spare}}

-- of a test
pub record Case : Type 0 where
  pub ops : List ℕ
  pub kind : Kind  -- and not Unused

abbrev pub Unused : Type 0
Unused = Spare
""",
    "crates/base/specs/Spare.antt": "pub data Spare : Type 0 where\n  spare : Spare\n",
    "crates/says/src/lib.rt": "//! What a test says.\n//!\n//! Clause: a | b.\n",
    "crates/says/specs/Observable.antt": """use Rattle.base.specs.Case.{Case as Test}

module _ (c : Test)
    (d : Test) where
  abbrev pub Observable : Type 0
  Observable = \"Case\" ≡ some d

pub mutual
  pub data Even : Type 0 where
    none : Even

  pub some : Test → Type 0
  some c = Even
""",
    "crates/says/specs/Command.antt": """use Rattle.base.specs.Case.{Case}

pub data Command : Type 0 where
  check : Case → Command
  gen : Command

abbrev pub words_of : Command → Type 0
words_of (check c) = codes \"check\" ∷ c
words_of gen = codes \"gen\" ∷ []

abbrev pub IsCommand : Command → Type 0
IsCommand c = words_of c
""",
    "crates/above/src/lib.rt": "//! The top call [`run`]?\n//!\n//! Clause: c.\n",
    "crates/above/src/top.rt": """ghost use Rattle.base.specs.Spare.{Spare};
ghost use Rattle.above.specs.Headline.{IsTrueTo};

pub fn run() -> bool
    ensures { IsTrueTo result × Spare }
{
    true
}
""",
    "crates/above/specs/Headline.antt": """use Rattle.says.specs.{Command.{Command, check, gen, IsCommand}, Observable.{Observable}}

abbrev pub IsTrueTo : Command → Type 0
IsTrueTo (check c) =
    Observable c
IsTrueTo gen = ⊤
""",
    "crates/above/specs/Answers.antt": """use Rattle.says.specs.Command.{IsCommand}

abbrev pub Answers : Type 0
Answers = IsCommand
""",
    "crates/tries/src/lib.rt": "//! Tests.\n",
    "PAGE.md": "# Page\n\n<!-- python3 tools crates --names -->\nold\n<!-- end -->\n\nEnd.\n",
}

OBSERVABLE = """   3 of 5   crates/base/specs/Case.antt                      What a test says.
            these: Case
   9        crates/says/specs/Observable.antt
2 files, 12 lines; with all that they import 3 files, 16 lines
They speak of these types and constants of the code:
  crates/base/src/n.rt: Kind
"""
COUNTS = """what                   status: files  lines    all: files  lines    with all that they import
observable                                              2     12          3 files,    16 lines
check                              4     17             5     23          6 files,    29 lines
gen                                2      4             3     10          5 files,    19 lines
all                                                     6     28          6 files,    30 lines
"""
STATUS = """   2 of 8   crates/says/specs/Command.antt
            these: Command
   2        crates/above/specs/Headline.antt
2 files, 4 lines; with all that they import 4 files, 17 lines
They speak of these types and constants of the code:
"""
PAGE = """| what | of its status: files | lines | with its text: files | lines |
|---|---|---|---|---|
| `observable` | | | 2 | 12 |
| `check` | 4 | 17 | 5 | 23 |
| `gen` | 2 | 4 | 3 | 10 |
| `all` | | | 6 | 28 |

"""
NAMES = "| heading | crates |\n|---|---|\n| low | `base`, `says` |\n| top | `above` |\n| tests of crates | `tries` |\n"
TABLES = """### Low

| crate | what it is for | main clause | stands on |
|---|---|---|---|
| `base` | The base: lists, as `a. b`. | `f` is right. | `thiserror` |
| `says` | What a test says. | A \\| b. | `base` |

### Top

| crate | what it is for | main clause | stands on |
|---|---|---|---|
| `above` | The top call `run`? | C. | `says`, `base` |

### Tests of crates

| crate | what it is for | stands on |
|---|---|---|
| `tries` | Tests. | `above` |
"""


def in_file(path: str, pattern: str) -> list[str]:
    """What a pattern finds in the one file of this repository that has such a path, each once."""
    return sorted(set(re.findall(pattern, read(only(f"{TOP}/{path}")), re.M)))


class Scripts(Cases):
    """What the scripts say of the tree."""

    def setUp(self) -> None:
        super().setUp()
        self.work = os.path.realpath(self.work)
        shutil.copytree(f"{TOP}/tools", f"{self.work}/tools")
        for path, text in TREE.items():
            self.put(path, text)

    def put(self, path: str, text: str) -> None:
        """A file of the tree."""
        write(f"{self.work}/{path}", text)

    def said(self, script: str, *words: str) -> Done:
        """What a script of the tree writes."""
        done = run([*tool(script, self.work), *words])
        return Done(done.status, done.out, done.err.replace(self.work, "TOP"))

    def fails(self, name: str, said: str, *words: str) -> None:
        """A script says this on standard error, and ends with 1."""
        self.judge(name, self.said(*words), 1, "", f"{words[0]}: {said}\n")

    def spoilt(self, name: str, path: str, old: str, new: str, said: str, *words: str) -> None:
        """A script says this where a file has another text."""
        self.put(path, TREE[path].replace(old, new))
        self.fails(name, said, *words)
        self.put(path, TREE[path])

    def test_definitions(self) -> None:
        of_word = self.said("definitions", "observable")
        self.judge("the definitions of a word, each after what it takes from", of_word, 0, OBSERVABLE)
        self.judge("how many definitions each word has", self.said("definitions"), 0, COUNTS)
        self.judge("the definitions of a command's status", self.said("definitions", "--status", "gen"), 0, STATUS)
        page = self.said("definitions", "--page")
        self.same("how many there are of each command's status, on a page", (page.status, page.out[: len(PAGE)]), (0, PAGE))
        said = "no such word: chek. There are observable, check, gen, all"
        self.fails("a word that stands for nothing", said, "definitions", "chek")
        self.fails("two words", "definitions takes one word", "definitions", "check", "gen")
        self.fails("the status of nothing", "definitions takes one word", "definitions", "--status")
        said = "no such command: all. There are check, gen"
        self.fails("the status of what is no command", said, "definitions", "--status", "all")
        case, observable = "crates/base/specs/Case.antt", "crates/says/specs/Observable.antt"
        words = "definitions", "observable"
        said = f"TOP/{observable} imports Case, which TOP/{case} does not define"
        self.spoilt("an import of what is not defined", case, "pub record Case", "pub record Other", said, *words)
        said = f"TOP/{observable} has an import of another form: use super.base.specs.Case.{{Case as Test}}"
        self.spoilt("an import of another form", observable, "use Rattle.base", "use super.base", said, *words)

    def test_crates(self) -> None:
        found = by_crate(["/crates/top/crates/base/specs/Case.antt"])
        self.same("the crate of a file, in a checkout within a folder crates", found, {"base": ["Case"]})
        self.judge("tables of crates", self.said("crates"), 0, TABLES)
        self.judge("names of crates", self.said("crates", "--names"), 0, NAMES)
        self.fails("another word", "no such words: names. There is --names", "crates", "names")
        root = "crates/says/src/lib.rt"
        said = f"TOP/{root} has 0 lines '//! Clause:'"
        self.spoilt("a crate without a clause", root, "Clause: ", "", said, "crates")
        said = f"TOP/{root}: no sentence ends in: What a test says"
        self.spoilt("a crate without a sentence", root, "says.", "says", said, "crates")
        said, new = "crates.txt has says before base, on which it stands", "says: base\nbase: thiserror"
        self.spoilt("a crate below one that it stands on", "crates.txt", "base: thiserror\nsays: base", new, said, "crates")
        said = "crates.txt has base under no heading"
        self.spoilt("a crate under no heading", "crates.txt", "## low\n", "", said, "crates")
        for text, wanted in (("A b. C", "A b."), ("Is `a.b? c` so? No.", "Is `a.b? c` so?"), ("To x.y of z.", "To x.y of z.")):
            self.same(f"the first sentence of {text}", first_sentence(text), wanted)

    def test_pages(self) -> None:
        page = f"{self.work}/PAGE.md"
        shown = [("PAGE.md has what python3 tools crates --names writes", False)]
        self.same("a stale page is told", [(it.name, it.is_there()) for it in shown_by(page, self.work, self.work)], shown)
        self.judge("a stale page is renewed", self.said("renew", page), 0, "PAGE.md\n")
        self.judge("a page is renewed once", self.said("renew", page))
        self.same("what is renewed of it", read(page), TREE["PAGE.md"].replace("old\n", NAMES))
        self.same("a page that is not stale", all(it.is_there() for it in shown_by(page, self.work, self.work)))
        self.put("PAGE.md", "nothing\n")
        with self.case("a page that shows nothing"), self.assertRaisesRegex(Refusal, "^PAGE.md shows nothing$"):
            shown_by(page, self.work, self.work)

    def test_mutual(self) -> None:
        """definitions that are mutual go by the name of the first of them"""
        path = "crates/says/specs/Observable.antt"
        self.put(path, TREE[path].replace("some", "u") + "abbrev pub Other : Type 0\nOther = Test\n")
        self.assertIn("            these: Observable, Even\n", self.said("definitions", "observable").out)


class Lists(Cases):
    """What this repository says of itself."""

    def test_imports(self) -> None:
        """each import of a file of definitions names one"""
        for path in sorted(glob(f"{TOP}/crates/*/specs/*.antt")):
            if not path.endswith("/Lib.antt"):
                meaning = Meaning([])
                for it in read_file(path).imports.values():
                    list(meaning.imported(path, it))

    def test_clauses(self) -> None:
        """a clause names what stands in its crate"""
        for crate in crates_of():
            texts = map(read, glob(f"{TOP}/crates/{crate.name}/src/**/*.rt", recursive=True))
            code = {word for text in texts for word in re.findall(r"\w+", re.sub(r"^//!.*", "", text, flags=re.M))}
            for name in re.findall(r"`([\w:]+)`", crate.clause):
                self.assertIn(name.split("::")[-1], code, crate.name)

    def test_files(self) -> None:
        """a page names files that are there"""
        folders = "bench|crates|docs|editors|examples|script|tests|tools"
        # what a function's proof has, in a folder of its own
        proofs = {"Answers.antt", "Invariants.antt", "Proof.antt"}
        files = {os.path.basename(it) for it in glob(f"{TOP}/crates/*/*/**/*.antt", recursive=True)} | proofs
        for page in sorted([*glob(f"{TOP}/*.md"), *glob(f"{TOP}/docs/*.md")]):
            for it in re.findall(rf"`((?:{folders})/[\w./-]+)`", read(page)):
                self.assertTrue("/out" in it or glob(f"{TOP}/{it}"), f"{page}: {it}")
            self.assertLessEqual(set(re.findall(r"`(\w+\.antt)`", read(page))), files, page)

    def test_predicates(self) -> None:
        names = in_file("crates/*/specs/Predicates.antt", r'^row_of \w+ =\s+row \(codes "(\w+)"\)')
        of_test = sorted({*names} - {"True", "False"})
        page = read("docs/language.md").partition("\n## Static predicates\n")[2].partition("\n## ")[0]
        textmate = in_file("editors/textmate/uspec.tmLanguage.json", r'"support.type.uspec", "match": "\\\\b\((.*)\)')
        vim = in_file("editors/vim/syntax/uspec.vim", r"^syntax keyword uspecPredicate (.*)")
        for place, found, wanted in (
            ("the code", in_file("crates/*/src/pred.rt", r'^    b"(\w+)",$'), names),
            ("the code's list", in_file("crates/*/src/pred.rt", r"^        Pred::(\w+),$"), names),
            ("docs/language.md", sorted(re.findall(r"^\| `(\w+)[^`]*` \|", page, re.M)), names),
            ("the second implementation", sorted(PREDICATES), names),
            ("editors/vim", sorted(" ".join(vim).split()), of_test),
            ("editors/textmate", sorted("".join(textmate).split("|")), of_test),
            ("tests of names", in_file("crates/language_tests/src/parsers/formulas.rt", r'\(\s*b"(\w+)",\s*Pred::'), names),
            ("tests of answers", in_file("crates/language_tests/src/readers/predicates.rt", r"^    \(\s*Pred::(\w+), b"), names),
        ):
            self.same(f"the predicates of {place} are those of the table", found, wanted)

    def test_slips_and_commands(self) -> None:
        rows = read("docs/lint.md").partition("\n## What is meant\n")[0]
        said = "".join(map(read, glob(f"{TOP}/tools/lint/*.py")))
        kinds = set(re.findall(r"""\b(?:Slip|say)\([^"\n]*"([\w'-]+)",""", said))
        self.same("docs/lint.md has each kind of slip", sorted(re.findall(r"^\| `([\w'-]+)` \|", rows, re.M)), sorted(kinds))
        texts = map(read, glob(f"{TOP}/tests/*lint*"))
        tried = {it for text in texts for it in re.findall(r"(?:\d: |NO_ORDER = \")([\w'-]+): ", text)}
        self.same("tests have each kind of slip", kinds - tried, set())
        words = in_file("commands.txt", r"^program\|([\w-]+)\|")
        self.same("the table `commands.txt` has what the definitions spell", words, sorted(Top().words))
        second = in_file("tools/second/main.py", r'^    "([\w-]+)": \(\d, ')
        # formats of solvers, which no command writes, and what needs no second implementation, since it makes its own texts
        self.same("the second implementation has each command", second, sorted({*words, "dimacs", "smt"} - {"gen"}))
