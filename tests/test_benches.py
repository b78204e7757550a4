"""The scripts of bench/, each on its smallest question, so that they can be run at all; and splits beside those that were counted
by a model of the search, a program of its own that makes the same choices.

    SPLITS=yes tests/program benches splits     all questions of the splits; some minutes

A solver may be missing where this runs, so one stands in for each: it answers what its name says, if the question is one.
So a case shows that the question was written and that verdicts are compared, and measures nothing. Programs that refuse all
stand in for two builds, and one that leaves an empty library for the prover. What counts is counted by valgrind itself once for
each kind of count, and skipped where that is missing; in the other cases one stands in that counts bytes of files.
"""
from __future__ import annotations

import os
import re
import shutil
import signal
import sys

from tests.cases import LONGEST, TOP, Cases, Done, call, command, program, read, run, script_entry, write

# a question is whole where its last line, or its first, is there
SMT = """\
[ "$(tail -n 1 "$1")" = '(check-sat)' ] || exit 1
echo {}
"""
DIMACS = """\
case $(head -n 1 "$2") in 'c '* | 'p cnf '*) ;; *) exit 1 ;; esac
echo {}ISFIABLE
"""
# it runs the program, and counts the bytes of its last file
VALGRIND = """\
: >"${2#*=}"
shift 2
"$@"
for last; do :; done
echo "Collected : $(wc -c <"$last")" >&2
"""
# in the place of the toolchain: its prover takes some seconds, leaves a library, and judges crates, and edits, with these statuses
TOOLCHAIN = '[ "$*" = doc ] && echo {folder}/kit/START.md\n'
PROVER = """\
echo "$3" >>{folder}/proved
sleep {seconds}
for it; do [ "$before" != -o ] || : >"$it"; before=$it; done
[ "$1" = build ] || exit {of_edits}
exit {of_crates}
"""
# a program under test that refuses all, so many seconds after it was asked
REFUSER = "sleep {}\necho refused\nexit 2\n"

# what a case shows, the words, the verdict of the solvers, or what the prover does, the status, and what is printed among other
# things
Row = tuple[str, tuple[str, ...], str, int, str]
COUNTED: Row = ("bench/signs.py on one random question", ("signs", "24", "1"), "sat", 0, "24 axioms, seed 1: ")
PAIR, RINGS = ("peers", "--shipped", "--test", "MP", "sc-inorder"), ("peers", "2")
OTHERS: list[Row] = [
    ("bench/signs.py on one random question, and a judge that knows no verdict", ("signs", "24", "1"), "unknown", 1,
     "VERDICTS DIFFER"),
    ("bench/runs.py on a ring of 8 cores, and judges of another verdict", ("runs", "--counting", "0", "ring-8"), "sat", 1,
     "VERDICTS DIFFER"),
    ("bench/commands.py of the cores of one model", ("commands", "core", "sc-inorder"), "unsat", 0, "of 3 pairs with a core "),
    ("bench/reading.py of listings", ("reading", "listings"), "unsat", 0, "\n2,000 lines of comments"),
    ("bench/peers.py on one shipped pair, and a judge of the same verdict", PAIR, "unsat", 0, "1 pairs: "),
    ("bench/peers.py on one shipped pair, and a judge of another verdict", PAIR, "sat", 1, "VERDICTS DIFFER: sc-inorder MP"),
    ("bench/peers.py on one shipped pair, and a judge that knows no verdict", PAIR, "unknown", 1, "VERDICTS DIFFER: sc-inorder MP"),
    ("bench/peers.py with a test that is not there", ("peers", "--shipped", "--test", "none", "sc-inorder"), "unsat", 2, ""),
    ("bench/runs.py of a question that is not there", ("runs", "none"), "unsat", 2, ""),
    ("bench/families.py of one seed on one model", ("families", "1", "1", "sc-inorder"), "unsat", 0, " 6 questions: 0 over 1 s"),
    ("bench/families.py of a model that is not there", ("families", "1", "1", "none"), "unsat", 2, ""),
    ("bench/families.py of a family that is not there", ("families", "none", "1"), "unsat", 2, ""),
    ("bench/families.py of seeds that end before they begin", ("families", "2", "1"), "unsat", 2, ""),
    ("bench/growth.py of a question that is not there", ("growth", "none"), "unsat", 2, ""),
    ("bench/commands.py of a model that is not there", ("commands", "ask", "none"), "unsat", 2, ""),
    ("bench/commands.py of a command that is not there", ("commands", "none"), "unsat", 2, ""),
    ("bench/reading.py of long names", ("reading", "names", "a variable"), "unsat", 0, "a variable of 450,000 bytes, "),
    ("bench/reading.py of a model that asks for memory", ("reading", "memory", "80,000"), "unsat", 0,
     "predicate-unknown; with half of it want of memory"),
    ("bench/reading.py of a part that is not there", ("reading", "none"), "unsat", 2, ""),
]
RANDOM = ("same", "--random", "1", "--seconds", "5")
SLOW: list[Row] = [
    ("bench/same.py on a random pair that the new program answers a little later than the old one may",
     (*RANDOM, "refuses_at_once", "refuses_late"), "unsat", 0, "1 random pairs, 0 with a verdict, 0 wrong; 0 answers"),
    ("bench/same.py on a random pair that the old program answers too late",
     (*RANDOM, "refuses_late", "refuses_at_once"), "unsat", 0, "1 random pairs, 0 with a verdict, 0 wrong; 2 answers"),
    ("bench/peers.py on a ring of 2 cores, and judges of another verdict for shipped tests", RINGS, "sat", 1, "ring of 2 "),
]
COSTS: list[Row] = [
    ("bench/costs.py of a commit and itself", ("costs", "--between", "HEAD", "HEAD", "pc_case"), "0 0 1", 0, "\npc_case "),
    ("bench/costs.py of a commit that is not proved", ("costs", "--between", "HEAD", "HEAD", "--gate", "pc_common"), "0 1 1", 1,
     "\nall "),
    ("bench/costs.py whose time is over", ("costs", "--minutes", "0.01", "--between", "HEAD", "HEAD", "pc_common"), "9 0 1", 1,
     "\nall "),
    ("bench/costs.py of a crate with an edit that is not refused", ("costs", "ll_grammar"), "0 0 0", 1, "\nall "),
    ("bench/costs.py of a crate that is not there", ("costs", "none"), "0 0 1", 2, ""),
    ("bench/costs.py of a commit that is not there", ("costs", "--between", "none", "HEAD"), "0 0 1", 2, ""),
]
# what that model counted of `check` and of `check2`
SPLITS = {
    "lock-4-lost": (164, 164), "lock-5-lost": (224, 224), "lock-6-lost": (306, 306), "lock-8": (481, 481),
    "lock-8-lost": (504, 504), "lock-12-lost": (1194, 1194), "run-1": (58, 50), "run-3": (263, 263), "run-9": (252, 247),
    "run-5": (550, 546), "run-7": (526, 525), "run-8": (1100, 1090), "lines-11": (62, 62), "lines-12": (165, 165),
    "lines-13": (1123, 1085), "ring-16": (226, 198), "ring-32": (962, 902),
}
FAMILIES = ("locks", "readers", "runs", "dekker", "chains", "iriw")
# how many times these the search may make; a period of its count of failures may end elsewhere
MOST = 1.2
# a line of bench/runs.py: the turns of the program, and the splits of the second implementation, where it counted
TURNS = re.compile(r"^    check2? .* (\d+) turns,(?: .* x (\d+) )?", re.M)


class Benches(Cases):
    """Calls of the scripts beside programs that stand in for others."""

    def called(self, words: tuple[str, ...], says: str, is_counted: bool = False) -> Done:
        """A call beside programs that say, or do, this."""
        shutil.rmtree(self.work)
        texts = {"refuses_at_once": REFUSER.format(0), "refuses_late": REFUSER.format(8)}
        if words[0] == "costs":
            seconds, of_crates, of_edits = says.split()
            prover = PROVER.format(folder=self.work, seconds=seconds, of_crates=of_crates, of_edits=of_edits)
            texts |= {"rt": TOOLCHAIN.format(folder=self.work), "kit/bin/rattle": prover}
        if not is_counted:
            texts["valgrind"] = VALGRIND
        # rings are asked of the one alone, since each kind of question takes long to write
        for name in ("minisat",) if words == RINGS else ("cadical", "z3"):
            texts[name] = SMT.format(says) if name == "z3" else DIMACS.format(says.upper())
        for name, text in texts.items():
            command(f"{self.work}/{name}", text)
        return self.again(*words)

    def again(self, name: str, *words: str) -> Done:
        """A call beside the programs that are there."""
        def entry() -> None:
            # no call may wait for what never comes
            signal.alarm(LONGEST)
            sys.path[0] = f"{TOP}/bench"
            script_entry(f"{TOP}/bench/{name}.py")()

        return call(entry, [name, *words], env={"PATH": f"{self.work}:{os.environ['PATH']}", "PIPECHECK": program()})

    def judge_rows(self, *rows: Row, is_counted: bool = False) -> None:
        """Each call ends as it should."""
        for name, words, says, status, prints in rows:
            if self.is_wanted(name):
                with self.case(name):
                    done = self.called(words, says, is_counted)
                    self.assertEqual(done.status, status, done.err)
                    self.assertIn(prints, done.out)
                    self.assertNotIn("Traceback", done.err)


class Counted(Benches):
    """What counts instructions and splits, by valgrind itself."""

    def test_counts(self) -> None:
        ring = "bench/runs.py on a ring of 8 cores"
        names = ring, "bench/runs.py counts the splits of a ring of 8 cores that were counted before"
        if shutil.which("valgrind") is None:
            for it in (COUNTED[0], *names):
                self.skips(it, "there is no valgrind")
            return
        self.judge_rows(COUNTED, is_counted=True)
        if any(map(self.is_wanted, names)):
            done = self.called(("runs", "--counting", "600", "ring-8"), "unsat", True)
            with self.case(names[0]):
                self.assertEqual(done.status, 0, done.err)
                self.assertIn(" 50 turns,  1.00 x 50 ", done.out)
            with self.case(names[1]):
                # n² - 2n + 2 of n cores, and with signs n² - 4n + 6, as of the rings of 16 and of 32
                counts = [(str(it), str(it)) for it in (8 * 8 - 2 * 8 + 2, 8 * 8 - 4 * 8 + 6)]
                self.assertEqual(TURNS.findall(done.out), counts)
        if "SPLITS" in os.environ:
            self.judge_splits()

    def judge_splits(self) -> None:
        """All questions whose splits were counted before."""
        for name in ("lock-4-lost", "run-1", "lines-11"):
            with self.case(f"the second implementation makes the splits of {name} that were counted before"):
                found = TURNS.findall(self.called(("runs", "--counting", "600", name), "unsat", True).out)
                self.assertEqual([of_second for _, of_second in found], [str(it) for it in SPLITS[name]])
        for name, (one, other) in SPLITS.items():
            with self.case(f"bench/runs.py makes at most {MOST} times {one} and {other} splits of {name}"):
                found = [int(it) for it, _ in TURNS.findall(self.called(("runs", "--counting", "0", name), "unsat", True).out)]
                self.assertEqual([it <= MOST * most for it, most in zip(found, (one, other), strict=True)], [True, True], found)


class Others(Benches):
    """What counts nothing."""

    def test_rows(self) -> None:
        self.judge_rows(*OTHERS)

    def test_families(self) -> None:
        # by another interpreter, whose hashes are others
        asked = "from makers import drawn; print(*(drawn(it, seed) for it in {} for seed in (1, 2, 3)), sep='|', end='')"
        texts = iter(run([sys.executable, "-S", "-c", asked.format(FAMILIES)], cwd=f"{TOP}/bench").out.split("|"))
        for family in FAMILIES:
            drawn = [next(texts) for _ in range(3)]
            name = f"bench/families.py draws tests of 40 to 64 micro-ops for {family} by their seeds"
            if self.is_wanted(name):
                with self.case(name):
                    for text, seed in zip(drawn, "123"):
                        self.assertEqual(self.again("families", family, seed), Done(0, text, ""))
                        self.assertTrue(text.startswith('Litmus "t".\n'))
                        self.assertIn(text.count("\nMicroop "), range(40, 65))
                    self.assertEqual(len(set(drawn)), 3)


class Slow(Benches):
    """What takes long by the clock."""

    def test_rows(self) -> None:
        self.judge_rows(*SLOW)


class Costs(Benches):
    """What proofs cost."""

    def test_rows(self) -> None:
        self.judge_rows(*COSTS)

    def test_goes_on(self) -> None:
        """bench/costs.py that goes on where another call ended"""
        self.called(("costs", "none"), "0 0 1")
        for crate, wanted in (("pc_common", {"pc_common"}), ("ll_grammar", {"ll_grammar"}), ("ll_grammar", set())):
            write(f"{self.work}/proved", "")
            self.again("costs", "--into", f"{self.work}/kept", crate)
            self.assertEqual({*read(f"{self.work}/proved").split()}, wanted)
