"""The tables of examples/suite: what it, and the machines beside it, say of all that is shipped; and what it says of tests of
one's own, of listings, patterns and queries, and beside other tables."""
from __future__ import annotations

import glob
import json
import os
import re
import shutil
import signal
import stat
import subprocess
import threading
import time
from typing import Any, Iterator
from xml.etree import ElementTree

from tests.cases import PATIENCE, TOP, apart, program, read, text_of, tool, write
from tests.suite_cases import (
    BUFFER, CORR, EARLY, GOOD, MP, SB, SC, TSO, TUTORIAL, SuiteCases, no_lint, of_suite, tabled, without_first_line
)

from tools.second.cores import without
from tools.second.scopes import read_model
from tools.texts.answers import cut_text

BROKEN = 'Litmus "broken"'
# the test of message passing without what it states
UNSTATED_MP = "".join(it for it in read(MP).splitlines(keepends=True) if not it.startswith("Forbidden"))
INSIDE, TWICE = "a memory model is named inside another comment", "a memory model is named a second time"
NONE, UNKNOWN = "the model names no memory model", "no row and no machine has the memory model x86-tso"
# how a model begins that names no memory model, with the place and the sentence that say why
UNNAMED = (
    ("a model that names no memory model", "1:1", NONE, ""),
    ("a memory model that nothing knows", "1:1", UNKNOWN, "% Memory model: x86-tso"),
    ("a memory model with more than its name", "2:1", "the comment on a memory model is not % Memory model: NAME",
     "% In order.\n% Memory model: tso, for now"),
    ("two memory models in one model", "2:1", TWICE, "% Memory model: sc\n% Memory model: tso"),
    ("one memory model, named twice", "3:1", TWICE, "% Memory model: tso\n%\n% memory model: TSO"),
    ("a memory model in a comment in brackets", "2:1", INSIDE, "(* as in\n% Memory model: tso\n*)"),
    ("a memory model in brackets", "1:4", INSIDE, "(* % Memory model: tso *)"),
    ("a memory model in a comment of another form", "1:4", INSIDE, "// % Memory model: tso"),
)
# the in-order pipeline as a model of TSO, which it is too strict for, and its table beside one that shows too much
STRICT = "% Memory model: tso\n" + without_first_line(SC)
STRICT_TABLE = "strict tutorial-early", "MP ok BUG, SB stricter ok", "2 ok, 1 BUG, 1 stricter"


def names_of(pattern: str) -> list[str]:
    """The files of the examples that such a name stands for, in order."""
    return [f"examples/{it}" for it in sorted(glob.glob(pattern, root_dir=f"{TOP}/examples"))]


MODELS, TESTS, LISTINGS = names_of("models/*.uspec"), names_of("tests/*.test"), names_of("x86/*.litmus")
LOCKED, TRANSLATION = names_of("locked/*.test"), names_of("translation/*.test")


class Shipped(SuiteCases):
    """All shipped tests and listings on all shipped models, and those with locked instructions."""

    def test_all(self) -> None:
        """The first suite is ended when it has some, and the next one goes on from there."""
        self.lint_lines = no_lint
        env = {"SUITE_TESTS": f"{TOP}/examples/tests", "SUITE_FOLDER": "WORK/ended"}
        process = self.begun(env={**env, "SUITE_JOBS": "1"}, stderr=subprocess.PIPE)
        while process.poll() is None and len(glob.glob(f"{self.work}/ended/*/*.certificate")) < 50:
            time.sleep(0.1)
        process.send_signal(signal.SIGTERM)
        _, said = process.communicate(timeout=PATIENCE)
        kept = "suite: N pairs are kept, and the next suite goes on from there\n"
        self.same("a suite that is ended", (process.returncode, numbered(text_of(said))), (-signal.SIGTERM, kept))
        self.same("a suite that is ended leaves no part", glob.glob(f"{self.work}/ended/*/*.part"), [])
        self.counts("a suite goes on from what it has: all shipped tests on all shipped models", TESTS,
                    "suite: N pairs stand from a suite that was interrupted\n", **env)
        self.counts("all shipped listings on all shipped models", LISTINGS, "", **{**env, "SUITE_TESTS": f"{TOP}/examples/x86"})
        self.same("tests that are written in both forms have one verdict", self.verdicts_of_both_forms(), (630, []))

    def counts(self, name: str, tests: list[str], said: str, **env: str) -> None:
        """All models are right on all of these, by the last line."""
        done = of_suite(self.called(**env), self.work)
        pairs = len(tests) * len(MODELS)
        last = f"{pairs} pairs: {pairs} ok, 0 BUG, 0 stricter, 0 time, 0 faults, in N s\n"
        self.same(name, (done.status, done.out.splitlines(keepends=True)[-1], numbered(done.err)), (0, last, said))

    def verdicts_of_both_forms(self) -> tuple[int, list[str]]:
        """How many pairs of a model and a listing have the verdict of the test that says the same, and those that have another."""
        same, others = 0, []
        for listing in (it.rpartition("/")[2] for it in LISTINGS):
            test = listing.replace("mfence", "fence").removesuffix(".litmus") + ".test"
            if f"examples/tests/{test}" in TESTS:
                for model in (it.rpartition("/")[2].removesuffix(".uspec") for it in MODELS):
                    paths = (f"{self.work}/ended/{model}/{it}.certificate" for it in (test, listing))
                    first, second = (read(it).partition("\n")[0] for it in paths)
                    same += first == second
                    others += [] if first == second else [f"{model} {listing}"]
        return same, others

    def test_locked(self) -> None:
        names = sorted(it.rpartition("/")[2].removesuffix(".test") for it in LOCKED)
        text = tabled("tso-buffer", ", ".join(f"{it} ok" for it in names), "18 ok")
        self.table("the shipped tests with locked instructions", 0, text, BUFFER, SUITE_TESTS=f"{TOP}/examples/locked")


def numbered(text: str) -> str:
    """What is said of pairs, without how many there are."""
    return re.sub("^suite: [1-9][0-9]+ pairs", "suite: N pairs", text)


class Agreement(SuiteCases):
    """Whether the machines agree with the shipped models, and with the tables."""

    def agree(self, name: str, status: int, text: str, *words: str) -> None:
        """This is what `agree` writes."""
        self.gives(name, [*tool("agree", apart()), *words], status, text)

    def test_files(self) -> None:
        listings = (f"examples/x86/{it}.litmus" for it in ("n6", "SB+mfences", "R+po+mfence"))
        self.agree("the machines agree on final values, on locked instructions, on page tables and on listings", 0,
                   "208 agree, 0 differ\n", *names_of("tests/Final*.test"), *LOCKED, *TRANSLATION, *listings)
        self.agree("the buggy TLBs differ from their machine where they should", 1, """\
tlb-late-hold.uspec remap+invalidate+walk.test: shown yes, tlb allows no
tlb-late-hold.uspec shootdown.test: shown yes, tlb allows no
tlb-late-hold.uspec wrong-frame.test: shown yes, tlb allows no
tlb-lazy-mark.uspec accessed.test: shown yes, tlb allows no
tlb-lazy-mark.uspec dirty.test: shown yes, tlb allows no
39 agree, 5 differ
""", *names_of("translation/buggy/*.uspec"), *TRANSLATION)
        self.agree("what the reads get on all shipped models is what they get on the machines", 0, """\
swept by the program
498 agree, 0 differ
""", *names_of("patterns/*.pattern"))

    def test_table(self) -> None:
        self.gives("the table of the tests with page-table entries is the one that the machine gives",
                   [*tool("table"), "translation"], 0, read("examples/translation/memory-models.tsv"))


class OwnTests(SuiteCases):
    """Tests of one's own: the table of memory models has no row for them, and the machine may say otherwise."""

    def test_refused(self) -> None:
        self.copy("tests", MP)
        self.put("tests/broken.test", BROKEN)
        self.put("axiom.uspec", "Axiom\n")
        self.rows("a refused test and a refused model beside others", 2, [SC, "WORK/axiom.uspec"],
                  "MP ok model:syntax, broken test:syntax model:syntax",
                  "WORK/tests/broken.test:1:16: syntax: no test can continue with this token",
                  "WORK/axiom.uspec:2:1: syntax: no model can continue with this token")
        for name in "ab":
            self.put(f"refused/{name}.litmus", read("examples/x86/SB.litmus").replace("\nexists", "\nforall"))
        forall = ("left-out: a test states one outcome: write a listing with ~exists for each that must not come; beside a log, "
                  "compare answers forall")
        self.rows("what to do about a refused listing", 2, [SC, EARLY],
                  "a.litmus test:syntax test:syntax, b.litmus test:syntax test:syntax",
                  "WORK/refused/a.litmus:10:1: syntax: no test can continue with this token",
                  f"WORK/refused/a.litmus:10:1: {forall}",
                  "WORK/refused/b.litmus:10:1: syntax: no test can continue with this token",
                  f"WORK/refused/b.litmus:10:1: {forall}", SUITE_TESTS="WORK/refused")

    def test_stated(self) -> None:
        for state in ("Forbidden", "Permitted"):
            self.put(f"tests/{state}.test", f"{UNSTATED_MP}{state}.\n")
        self.put("tests/unstated.test", UNSTATED_MP)
        self.rows("where the table has no row the test decides", 1, [SC, EARLY],
                  "Forbidden ok BUG, Permitted stricter ok, unstated unobservable observable",
                  "WORK/tests/Permitted.test: the test says permitted, and the machine of sc forbidden",
                  f"WORK/tests/Permitted.test: the test says permitted, and {TSO} forbidden",
                  f"WORK/tests/unstated.test: tutorial-early says observable, and {TSO} unobservable")
        self.put("twice.tsv", "memory model\ttest\tallowed\nTSO\tMP\tno\ntso\tMP\tyes\n")
        line = r"the table WORK/twice.tsv has yes and no for one test: $'tso\tMP\tyes'"
        self.refuses("a table with two rows that differ", line, EARLY, SUITE_TABLE="WORK/twice.tsv")
        self.put("nameless.uspec", without_first_line(EARLY))
        line = ("WORK/nameless.uspec:1:1: unnamed: the model names no memory model; known are NAMES, named once by a comment "
                "% Memory model: NAME")
        self.rows("without a memory model the word of a test of one's own decides", 1,
                  ["WORK/nameless.uspec", "WORK/tests/Forbidden.test", "WORK/tests/Permitted.test"], "Forbidden BUG, Permitted ok",
                  line)
        self.rows("without a memory model the word of a shipped test does not", 2,
                  ["WORK/nameless.uspec", "WORK/tests/Permitted.test", MP], "MP unnamed, Permitted ok", line)

    def test_memory_models(self) -> None:
        self.put("tests/unstated.test", UNSTATED_MP)
        self.rows("no expectation is no fault", 0, [EARLY], "unstated observable",
                  f"WORK/tests/unstated.test: tutorial-early says observable, and {TSO} unobservable")
        table = self.put("table.tsv", "memory model\ttest\tallowed\tsource\nTSO\tunstated\tno\tmine\n")
        self.rows("a table of one's own", 1, [EARLY], "unstated BUG", SUITE_TABLE=table)
        self.put("misspelt.tsv", "memory model\ttest\tallowed\nTSO\tunstatd\tno\nSC\tunstatd\tno\nTSO\tunstated\tno\n")
        self.rows("a table of one's own that misspells a test", 1, [EARLY], "unstated BUG",
                  "not in this suite, but in the table of SUITE_TABLE: 1 test, the first unstatd", SUITE_TABLE="WORK/misspelt.tsv")
        self.refuses("a table that is not there", "the table WORK/gone cannot be read", EARLY, SUITE_TABLE="WORK/gone")
        self.put("maybe.tsv", "memory model\ttest\tallowed\nTSO\tunstated\tmaybe\n")
        line = r"the table WORK/maybe.tsv has a row without yes or no: $'TSO\tunstated\tmaybe'"
        self.refuses("a table with a row that decides nothing", line, EARLY, SUITE_TABLE="WORK/maybe.tsv")
        self.put("short.tsv", "memory model\tallowed\ttest\nTSO\tyes\n")
        line = r"the table WORK/short.tsv has a row without test: $'TSO\tyes'"
        self.refuses("a table with a row that names no test", line, EARLY, SUITE_TABLE="WORK/short.tsv")
        self.put("nameless.uspec", without_first_line(EARLY))
        self.put("mine.uspec", f"% Memory Model: TSO \t\r\n{without_first_line(EARLY)}")
        self.rows(r"a memory model in capitals, and ' \t\r' after it", 1, ["WORK/mine.uspec"], "unstated BUG", SUITE_TABLE=table)
        known = self.called("WORK/nameless.uspec", SUITE_TABLE=table).out.partition("known are ")[2].partition(", named")[0]
        for name in ("nmca", "pso", "sc", "tlb", "tso", "weak"):
            self.same(f"the memory models that are known have {name}", name in known.replace(" and ", ", ").split(", "))
        for name, place, sentence, head in UNNAMED:
            self.put("mine.uspec", f"{head}\n{without_first_line(EARLY)}")
            line = f"WORK/mine.uspec:{place}: unnamed: {sentence}; known are NAMES, named once by a comment % Memory model: NAME"
            self.rows(name, 2, ["WORK/mine.uspec"], "unstated unnamed", line, SUITE_TABLE=table)

    def test_names_of_shipped_ones(self) -> None:
        """A row of the table of memory models is for the shipped test, and not for another one of its name."""
        self.put("named/SB.test", read(SB) + "% mine\n")
        self.put("named/SB.litmus", read("examples/x86/SB.litmus").replace("\nexists", "\n~exists"))
        self.copy("named", MP)
        self.put("named/LB.test", read(MP).replace("(Data 0)", "(Data 1)"))
        self.rows("tests of one's own with the names of shipped ones", 1, [TUTORIAL], "LB BUG, MP ok, SB BUG, SB.litmus BUG",
                  f"WORK/named/LB.test: the test says forbidden, and {TSO} permitted",
                  f"WORK/named/SB.litmus: the test says forbidden, and {TSO} permitted",
                  f"WORK/named/SB.test: the test says forbidden, and {TSO} permitted", SUITE_TESTS="WORK/named")
        self.put("three.tsv", "".join(it for it in read("examples/memory-models.tsv").splitlines(True)
                                      if it.split("\t")[1] in ("test", "LB", "MP", "SB", "SB.litmus")))
        self.rows("tests with the names of shipped ones go by the rows of a table that is named", 1, [TUTORIAL],
                  "LB BUG, MP ok, SB ok, SB.litmus ok", SUITE_TESTS="WORK/named", SUITE_TABLE="WORK/three.tsv")


class Words(SuiteCases):
    """What words and options ask for."""

    def test_options(self) -> None:
        self.copy("tests", MP, SB)
        self.rows("--differ shows the tests on which models differ", 1, ["--differ", TUTORIAL, EARLY], "MP ok BUG",
                  counts="3 ok, 1 BUG")
        self.same("a certificate has the whole name of its test", self.is_kept("tutorial-early/MP.test"))
        kept = "tutorial\tMP\tok\ntutorial\tSB\tok\ntutorial-early\tMP\tBUG\ntutorial-early\tSB\tok\n"
        with self.case("the rows of a table are kept"):
            self.assertEqual(read(f"{self.work}/kept/cells"), kept)
        self.rows("--bad shows the tests that are not ok", 1, ["--bad", EARLY, TUTORIAL], "MP BUG ok", counts="3 ok, 1 BUG")
        self.rows("--bad shows no test where all are ok", 0, ["--bad", TUTORIAL], "", counts="2 ok")
        twice = (SC, f"{TOP}/{SC}", "WORK/tests", "WORK/tests/../tests/MP.test")
        self.table("a file that is named twice is taken once", 0, GOOD, *twice)
        self.put("tests/typo.test", read(MP).replace("(Data 0)", "(Data 7)"))
        said = "unwritten: the read gets 7, which is not the value of PA 0 0 at the start, and nothing writes it there"
        self.rows("what lint says comes once, for all models and tests", 1, [SC, EARLY], "MP ok BUG, SB ok ok, typo ok ok",
                  f"WORK/tests/typo.test:7:47: {said}")

    def is_kept(self, pair: str) -> bool:
        """Whether there is a certificate of a pair."""
        return os.path.exists(f"{self.work}/kept/{pair}.certificate")

    def test_listings(self) -> None:
        listing = read("examples/x86/SB.litmus")
        self.copy("both", SB, "examples/x86/SB.litmus")
        self.put("both/mine.litmus", listing)
        self.put("both/never.litmus", listing.replace("\nexists", "\n~exists"))
        self.put("both/open.litmus", listing.replace(" /\\ 1:EAX=0", ""))
        self.rows("tests and listings in one folder", 2, [TUTORIAL],
                  "SB ok, SB.litmus ok, mine.litmus observable, never.litmus BUG, open.litmus test:x86-open",
                  f"WORK/both/never.litmus: the test says forbidden, and {TSO} permitted",
                  "WORK/both/open.litmus:9:20: x86-open: the condition gives this register no value", SUITE_TESTS="WORK/both")
        self.same("the certificate of a listing has the whole name of it", self.is_kept("tutorial/SB.litmus"))
        self.same("the certificate of a listing stands beside that of the test", self.is_kept("tutorial/SB.test"))
        self.same("nothing is kept of a refused listing", self.is_kept("tutorial/open.litmus"), False)
        os.rename(f"{self.work}/both/SB.test", f"{self.work}/both/SB.litmus.test")
        two = "SB.litmus: WORK/both/SB.litmus and WORK/both/SB.litmus.test; a link gives one of them another name"
        self.refuses("a test that is named as a listing", f"two tests have one name: {two}", SC, SUITE_TESTS="WORK/both")

    def test_words_in_any_order(self) -> None:
        """The endings of words say what they are."""
        self.copy("tests", MP, SB)
        self.copy("patterns", "examples/patterns/MP.pattern")
        table = tabled("tutorial tutorial-early", "CoRR ok BUG, MP ok BUG, MP.pattern ok BUG, SB ok ok, SB.litmus ok ok",
                       "7 ok, 3 BUG", "WORK/patterns/MP.pattern: tutorial-early: shown though tso does not allow it: 1 0")
        first, *rest = ("examples/x86/SB.litmus", "WORK/patterns", TUTORIAL, "WORK/tests", EARLY, CORR)
        self.table("a listing, a folder of patterns, a model, a folder of tests, a model, a test", 1, table, first, *rest)
        self.table("such words behind --, beside a folder of tests that no word names", 1, table, "--", first, *rest)
        bad = "".join(it for it in table.splitlines(keepends=True) if not it.endswith(" ok\n"))
        self.table("an option among such words", 1, bad, first, "--bad", *rest)
        self.rows("a test before its model", 0, [MP, SC], "MP ok")

    def test_what_machines_see(self) -> None:
        """Bytes that are no ASCII, values at the start, addresses that no micro-op names, memory models of one's own."""
        self.put("latin.pattern", b"% by M\303\274ller\n" + read("examples/patterns/MP.pattern").encode("ascii"))
        self.rows("a pattern with a comment that is not ASCII", 1, ["WORK/latin.pattern", EARLY], "latin.pattern BUG",
                  "WORK/latin.pattern: tutorial-early: shown though tso does not allow it: 1 0")
        self.put("untouched.pattern", """\
Litmus "f".
Microop 0 0 0 0 (Write (VA 0 0) (PA 0 0) (Data 1)).
Microop 1 0 0 0 (Read (VA 0 0) (PA 0 0) (Data Any)).
Final (PA 9 0) 0.
""")
        self.rows("a final value of an address that no micro-op names", 0, ["WORK/untouched.pattern", SC], "untouched.pattern ok",
                  "WORK/untouched.pattern:4:1: nobody's: no micro-op is at PA 9 0, so that no axiom can see this")
        self.put("percent.test", """\
Litmus "100%". Init (PA 0 0) 5.
Microop 0 0 0 0 (Read (VA 0 0) (PA 0 0) (Data 5)).
Permitted.
""")
        self.rows("a value at the start behind the sign of a comment in the title", 0, ["WORK/percent.test", SC], "percent ok")
        self.put("large.test", """\
Litmus "100%". Microop 0 0 0 0 (Write (VA 0 0) (PA 0 0) (Data 1)). Microop 1 0 0 0 (Write (VA 1 0) (PA 1 0) (Data 1)).
Microop 2 1 1 0 (Read (VA 1 0) (PA 1 0) (Data 1)). Microop 3 1 1 0 (Read (VA 0 0) (PA 0 0) (Data 1)). Permitted.
""")
        self.rows("micro-ops behind the sign of a comment in the title", 0, ["WORK/large.test", EARLY], "large ok")
        self.put("table.tsv", "mine\tMP\tno\n")
        self.put("mine.uspec", "% Memory model: mine\n" + without_first_line(EARLY))
        pattern = "examples/patterns/MP.pattern"
        self.rows("a pattern whose memory model has rows and no machine", 1, ["WORK/mine.uspec", pattern, MP, SB],
                  "MP BUG, MP.pattern swept, SB BUG", SUITE_TABLE="WORK/table.tsv")

    def test_locked(self) -> None:
        """A model that asks for the type of locked instructions, and one that does not."""
        said = "type Locked: no axiom of examples/models/tso-ooo.uspec asks for it, here and in 7 more places"
        self.rows("a model without locked instructions takes no test that has some", 0,
                  [BUFFER, "examples/models/tso-ooo.uspec", "examples/locked/SB+xchgs.test", "examples/patterns/SB+xchgs.pattern",
                   "examples/tests/SB+fences.test"],
                  "SB+fences ok ok, SB+xchgs ok not_taken, SB+xchgs.pattern ok not_taken",
                  f"examples/locked/SB+xchgs.test:4:23: not-asked: {said}")
        buggy = (f"examples/buggy/tso-buffer-{it}.uspec" for it in ("newest-alone", "merges-older"))
        self.table("two store buffers, each with a test that alone tells it", 1,
                   tabled("tso-buffer tso-buffer-newest-alone tso-buffer-merges-older",
                          "CoWR+other ok BUG ok, MP+merge ok ok BUG", "4 ok, 2 BUG"), BUFFER, *buggy,
                   "examples/tests/CoWR+other.test", "examples/tests/MP+merge.test")


class Beside(SuiteCases):
    """What is new beside an earlier suite, and reports for other programs."""

    tests = (MP, SB)

    def setUp(self) -> None:
        super().setUp()
        self.put("strict.uspec", STRICT)
        self.put("broken.test", BROKEN)

    def test_status(self) -> None:
        """The status parts what is lost from what is too much."""
        self.rows("what is lost alone", 3, ["WORK/strict.uspec"], "MP ok, SB stricter")
        self.table("what is lost, and too much beside it", 1, tabled(*STRICT_TABLE), "WORK/strict.uspec", EARLY)

    def test_baselines(self) -> None:
        cells = self.put("cells", "strict\tMP\tok\nstrict\tSB\tstricter\ntutorial-early\tMP\tBUG\ntutorial-early\tSB\tok\n")
        both = ("WORK/strict.uspec", EARLY)
        text = tabled(*STRICT_TABLE, "nothing is new beside WORK/cells")
        self.writes("nothing is new", self.called("--baseline", cells, *both), 0, text)
        self.same("a baseline is what a suite keeps", read(f"{self.work}/kept/cells"), read(cells))
        self.table("a BUG and a fault are new", 2,
                   tabled("strict tutorial-early", "CoRR ok BUG, MP ok BUG, SB stricter ok, broken test:syntax test:syntax",
                          "3 ok, 2 BUG, 1 stricter, 2 faults",
                          "WORK/broken.test:1:16: syntax: no test can continue with this token", "1 new BUG: tutorial-early CoRR",
                          "2 new test:syntax: strict broken, tutorial-early broken"), "--baseline", cells, *both, "WORK/tests",
                   CORR, "WORK/broken.test")
        self.rows("a BUG is new", 1, [EARLY, MP, CORR, "--baseline", cells], "CoRR BUG, MP BUG", "1 new BUG: tutorial-early CoRR",
                  "2 gone: model strict, test SB")
        write(cells, read(cells).replace("stricter", "ok").replace("strict\tMP\tok", "strict\tMP\tBUG"))
        text = tabled(*STRICT_TABLE, "1 new stricter: strict SB", "1 gone: strict MP (BUG)")
        self.table("what was ok and is lost is new, and a BUG that is mended is gone", 3, text, "--baseline", cells, *both)
        write(cells, "MP ok\n")
        gone = "the baseline WORK/gone cannot be read: No such file or directory"
        none = r"the baseline WORK/cells has a line that is no model, test and cell: MP\ ok"
        one_file = "takes one file, which is named behind it"
        for name, line, *words in (
            ("a baseline that is not there", gone, "--baseline", "WORK/gone"),
            ("a baseline that is none", none, "--baseline", cells),
            ("--baseline without a file", f"--baseline {one_file}", SC, "--baseline"),
            ("--junit twice", f"--junit {one_file}", "--junit", "WORK/a", "--junit", "WORK/b"),
            ("a report where no folder is", "--sarif: WORK/gone/sarif cannot be written", "--sarif", "WORK/gone/sarif", SC),
        ):
            self.refuses(name, line, *words)

    def test_reports(self) -> None:
        """Reports of files whose names are not what XML and JSON take."""
        self.put("reports/<a>&\"b'c]]>\udcff%.test", read(MP))
        self.copy("reports", f"{self.work}/broken.test", "examples/patterns/MP.pattern")
        self.put("reports/slip.test", read(MP).replace("(Data 0)", "(Data 7)"))
        self.put("reports/<m>.uspec", read(EARLY))
        self.called("--junit", "WORK/junit", "--sarif", "WORK/sarif", "WORK/reports/<m>.uspec", "WORK/strict.uspec", "WORK/reports",
                    SB)
        lines = [*junit_lines(f"{self.work}/junit"), *sarif_lines(f"{self.work}/sarif")]
        self.same("the reports are well-formed, whatever the names", "\n".join(lines), """\
testsuites 10 2 4 0
<m> '<a>&"b\\'c]]>\\\\udcff%' error status:8
<m> 'MP.pattern' failure BUG
<m> 'broken' error test:syntax
<m> 'slip'
<m> 'SB'
strict '<a>&"b\\'c]]>\\\\udcff%' error status:8
strict 'MP.pattern'
strict 'broken' error test:syntax
strict 'slip'
strict 'SB' failure stricter
2.1.0 True True
error BUG BUG %3Cm%3E.uspec 1 1 MP.pattern
warning stricter stricter strict.uspec 1 1 SB.test
error syntax syntax broken.test 1 16
warning unwritten unwritten slip.test 7 47""")

    def test_report_into_a_pipe(self) -> None:
        pipe, got = f"{self.work}/report", []
        os.mkfifo(pipe)
        reader = threading.Thread(target=lambda: got.append(read(pipe)))
        reader.start()
        self.called("--junit", pipe, SC)
        reader.join()
        self.same("a report goes into a pipe", "\n</testsuites>\n" in got[0])
        self.same("a pipe that gets a report stays one", stat.S_ISFIFO(os.stat(pipe).st_mode))


class Keeping(SuiteCases):
    """Verdicts that are kept over suites."""

    tests = (MP, SB)

    def setUp(self) -> None:
        super().setUp()
        self.store = f"{self.work}/store"

    def stand(self, name: str, number: int, **env: str) -> None:
        """Of the two pairs so many stand from the folder of kept verdicts."""
        said = f"suite: {number} pairs stand from WORK/store\n" if number else ""
        self.writes(name, self.called(SC, SUITE_KEPT=self.store, **env), 0, GOOD, said)

    def test_kept(self) -> None:
        self.stand("verdicts are kept", 0)
        shutil.rmtree(f"{self.work}/kept/sc-inorder")
        self.stand("verdicts that are kept stand in another suite", 2)
        self.shows("verdicts that are kept stand with their certificates", 1, "verified unobservable\n", "verify", SC, MP,
                   f"{self.work}/kept/sc-inorder/MP.test.certificate")
        self.put("tests/MP.test", read(MP) + "% another test\n")
        self.stand("verdicts stand for the same bytes of a test alone", 1)
        self.copy("tests", MP)
        entries = [f"{self.store}/{it}" for it in sorted(os.listdir(self.store))]
        for it in entries:
            lines = read(it).splitlines(keepends=True)
            write(it, "".join([lines[0], lines[1].replace("un", ""), *lines[2:]]))
        self.stand("spoilt verdicts are made anew", 0)
        self.stand("what was spoilt stands once it is made anew", 2)
        for it in entries:
            os.remove(it)
        os.mkfifo(entries[0])
        os.mkdir(entries[1])
        write(entries[2], "")
        self.stand("what is no file is no verdict", 0)

    def test_at_once(self) -> None:
        for it in [self.begun(SC, env={"SUITE_KEPT": self.store, "SUITE_FOLDER": f"WORK/{it}"}) for it in range(4)]:
            it.wait()
        self.stand("four suites may keep verdicts in one folder at once", 2)
        self.same("four suites that keep verdicts at once leave no part", len(os.listdir(self.store)), 2)
        done = self.called(SC, SUITE_KEPT=self.store, PIPECHECK=f"env '{program()}'")
        said = "suite: nothing is kept in WORK/store: PIPECHECK is not one binary\n"
        self.writes("of more than one binary nothing is kept", done, 0, GOOD, said)
        line = "the folder /dev/null/kept cannot be made: Not a directory"
        self.refuses("a folder of verdicts that cannot be made", line, SC, SUITE_KEPT="/dev/null/kept")

    def test_axioms(self) -> None:
        self.put("few.uspec", 'StageName 0 "S".\nAxiom "none": forall microops "i", NodeExists (i, S).\n')
        for name, said in (
            ("verdicts without an axiom are kept", ""),
            ("verdicts without an axiom stand in another suite", "suite: 2 pairs stand from WORK/store\n"),
        ):
            done = self.called("--axioms", "WORK/few.uspec", "WORK/tests/MP.test", SUITE_KEPT=self.store)
            self.judge(name, of_suite(done, self.work), 0, """\
axiom     changes  first
0 "none"  0        untested or not needed
1 axioms on 1 tests: 0 change a verdict, 1 change none, 0 time, 0 faults, in N s
""", said)

    def test_queries(self) -> None:
        for name, stage, expected in (
            ("overtakes", "Execute", "sometimes"), ("commits", "Commit", "never"), ("wrong", "Commit", "sometimes"),
            ("none", "None", "never"), ("other", "Fetch", "never"),
        ):
            self.put(f"queries/{name}.query", f"""\
% Test: MP+seen
% Expect: {expected}
exists microop "i", exists microop "j",
  IsAnyRead i /\\ IsAnyRead j /\\ ProgramOrder i j /\\ EdgeExists ((j, {stage}), (i, {stage}))
""")
        # it says nothing, and is passed over
        other = f"{self.work}/queries/other.query"
        write(other, read(other).split("\n", 2)[2])
        text = tabled("tutorial", "commits.query ok, none.query query:stage-unknown, overtakes.query ok, wrong.query BUG_(never)",
                      "2 ok, 1 BUG, 1 faults", "WORK/queries/none.query:4:69: stage-unknown: no stage has the name")
        for name, said in (
            ("a query is a row", ""), ("the answer to a query is kept", "suite: 3 pairs stand from WORK/store\n"),
        ):
            self.writes(name, self.called("WORK/queries", TUTORIAL, SUITE_KEPT=self.store), 2, text, said)
        form = "% Expect: always, sometimes or never, and % Test: NAME"
        line = f"WORK/queries/other.query is no row of a table: it says so by one comment each, {form}"
        self.refuses("a query that does not say what it is asked of", line, other, SC)
        for comment in ("% Expect: never", "% test: MP+seen"):
            write(other, f"{comment}\nTrue\n")
            self.refuses(f"a query of a folder that says only {comment}", line, "WORK/queries", SC)
        self.put("gone.query", read(f"{self.work}/queries/wrong.query").replace("MP+seen", "gone"))
        line = "WORK/gone.query is asked of a test that is not there: gone.test"
        self.refuses("a query of a test that is not there", line, "WORK/gone.query", SC)


class Axioms(SuiteCases):
    """What each axiom of a model is for."""

    def changes(self, name: str, text: str, *words: str) -> None:
        """The suite writes this table of axioms."""
        self.judge(name, lambda: of_suite(self.called("--axioms", *words), self.work), 0, text)

    def test_axioms(self) -> None:
        self.put("axioms.uspec", """\
% Memory model: tso
StageName 0 "S". (* Axiom "none": True. *)
Axiom "order": forall microops "i", forall microops "j",
  ProgramOrder i j => % Axiom
  AddEdge ((i, S), (j, S), "Axiom"). Axiom "back":
  forall microops "i", forall microops "j", ProgramOrder i j => AddEdge ((j, S), (i, S), "back").
Axiom "idle": forall microops "i", NodeExists (i, S).
""")
        self.changes("each axiom taken out", """\
axiom      changes  first
0 "order"  1        two
1 "back"   1        two
2 "idle"   0        untested or not needed
3 axioms on 1 tests: 2 change a verdict, 1 change none, 0 time, 0 faults, in N s
""", "WORK/axioms.uspec", "examples/two.test")
        self.same("to take axioms out keeps nothing", os.path.exists(f"{self.work}/kept"), False)
        one_model = "--axioms takes one model, which is named"
        self.put("axiom.uspec", "Axiom\n")
        self.copy("tests", MP)
        for name, line, *words in (
            ("--axioms with two models", one_model, SC, EARLY),
            ("--axioms without a model", one_model),
            ("--axioms with another option", "--axioms takes no other option beside it", "--bad", SC),
            ("--axioms of a model that is refused", "the model is refused: WORK/axiom.uspec:2:1: syntax", "WORK/axiom.uspec"),
        ):
            self.refuses(name, line, "--axioms", *words)

    def test_without(self) -> None:
        """A model without an axiom is the model with blanks in its place."""
        text = b'StageName 0 "S". Axiom "a": True % Axiom "no": .\n. (* b *) Axiom "b": False.\nDefineMacro "M": True.'
        wanted = (b'StageName 0 "S".' + b" " * 32 + b'\n  (* b *) Axiom "b": False.\nDefineMacro "M": True.',
                  b'StageName 0 "S". Axiom "a": True % Axiom "no": .\n. (* b *)' + b" " * 18 + b'\nDefineMacro "M": True.')
        model = read_model(text)
        for number, rest in enumerate(wanted):
            axiom = model.axioms[number]
            self.same(f"a model without axiom {axiom.title}", cut_text(model, text, without([0, 1], number)), rest)
            self.same(f"a model without axiom {axiom.title} has no such axiom", axiom in read_model(rest).axioms, False)


def junit_lines(path: str) -> Iterator[str]:
    """What a report in XML has: its counts, and each case with what came of it."""
    root = ElementTree.parse(path).getroot()
    yield " ".join([root.tag, *(root.attrib[name] for name in ("tests", "failures", "errors", "skipped"))])
    for case in root.iter("testcase"):
        yield " ".join([case.attrib["classname"], ascii(case.attrib["name"]), *(f"{it.tag} {it.get('type')}" for it in case)])


def sarif_lines(path: str) -> Iterator[str]:
    """What a report in JSON has: whether its rules are those of the pages, each once, and each result with its place."""
    with open(path, encoding="utf-8") as file:
        log = json.load(file)
    (part,) = log["runs"]
    rules = [it["id"] for it in part["tool"]["driver"]["rules"]]
    yield f"{log['version']} {len({*rules}) == len(rules)} {({'BUG', 'stricter', 'not-asked', 'free-node', 'syntax'} <= {*rules})}"
    for it in part["results"]:
        (place,) = it["locations"]
        region = place["physicalLocation"]["region"]
        beside = [name_of(it) for it in it.get("relatedLocations", ())]
        rule = f"{it['level']} {it['ruleId']} {rules[it['ruleIndex']]}"
        yield " ".join([rule, name_of(place), str(region["startLine"]), str(region["startColumn"]), *beside])


def name_of(place: Any) -> str:
    """The name of the file of a place."""
    return str(place["physicalLocation"]["artifactLocation"]["uri"].rpartition("/")[2])
