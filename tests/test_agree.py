"""`pipecheck agree` on small sets: random programs, wrong models, machines with slips; how many small programs there are,
counted in another way; and what examples/told-apart.tsv and comments of tests say that tests tell apart."""
from __future__ import annotations

import contextlib
import os
import re
import signal
import tempfile
import time
from functools import cache
from itertools import permutations, product
from typing import Callable, Iterable, Iterator

from tests.cases import (
    PATIENCE, TOP, Cases, Done, apart, call, comes, command, done_by_unseen, pipecheck, program, read, replaced, run, tool,
    tool_entry, without_output, write
)

# what is imported here is there in each process that is forked from this one
from tools import ending
from tools.agree import comments, comparing_programs, table, working
from tools.agree.machines import tso
from tools.agree.programs import Program
from tools.agree.small_programs import Family, Shape, shapes_of
from tools.agree.verdicts import rows_of_file

AGREE = tool("agree", apart())
BUFFER, DRAIN = "examples/models/tso-buffer.uspec", "examples/models/tso-drain.uspec"
EARLY, PAGES = "examples/buggy/tso-ooo-commit-early.uspec", "examples/translation/tlb.uspec"
MP, LOCKED, PATTERN = "examples/tests/MP.test", "examples/locked/SB+xchgs.test", "examples/patterns/MP.pattern"
SWEPT = "swept by the program\n"
NOT_TAKEN = (
    ("--random makes the programs: there are no tests beside it", "--random", "1", "6", MP),
    ("--all makes the programs: there are no tests beside it", "--all", "2", "--open"),
    ("--random and --all make programs in two ways", "--all", "2", "--random", "1", "6"),
    ("--locations, --fences and --locked say what --all makes", "--fences"),
    ("--between compares two models on the programs of --all or --random, and with no machine", "--between", "a.uspec", "b.uspec"),
    ("--random makes at least one program", "--random", "1", "0"),
    ("argument --all: 3+ is no shape, such as 4, 3+3 or 2+2+2, of at most 8 accesses", "--all", "3+"),
    ("argument --all: 5+4 is no shape, such as 4, 3+3 or 2+2+2, of at most 8 accesses", "--all", "5+4"),
)
FAULT = "fault.uspec:1:33: syntax: no model can continue with this token"
# files that cannot be compared, each with its text
FILES = {
    "fault.uspec": 'Axiom "a": forall microops "i", .\n% Memory model: tso\n',
    "none.uspec": '% Memory model: none-such\nAxiom "a": forall microops "i", IsAnyRead i.\n',
    "fault.test": "nothing\n",
    "fault.litmus": "X86 a\n{ x=0; }\n P0 ;\n MFENCE ;\nexists (0:EAX=1)\n",
    "locked.test": 'Litmus "a".\nMicroop 0 0 0 0 (Read Locked (VA 0 0) (PA 0 0) (Data 0)).\nMicroop 0 0 0 1 (Fence).\n',
}
NO_MACHINE = "there is no machine of the memory model {}; there are nmca, pc, pso, rvwmo, sc, tlb, tso, weak"
# what is told of each: on standard output where the status is that of a fault, and otherwise by agree on standard error
TOLD: tuple[tuple[str, int, str, list[str]], ...] = (
    ("a model with a fault is told, and compared with no test", 3, f"WORK/{FAULT}", ["WORK/fault.uspec", MP]),
    ("a model with a fault is told, and compared with no program", 3, f"WORK/{FAULT}", ["--random", "1", "3", "WORK/fault.uspec"]),
    ("a test with a fault is told", 3, "WORK/fault.test:1:1: syntax: no test can continue with this token",
     [BUFFER, "WORK/fault.test"]),
    ("a listing with a fault is told", 3, "WORK/fault.litmus:5:9: x86-unloaded: the thread does not load this register",
     [BUFFER, "WORK/fault.litmus"]),
    ("a file that is missing is told", 4, "WORK/no.test: No such file or directory", [BUFFER, "WORK/no.test"]),
    ("what is no file is told", 125, "/dev/null is no file, and each one is read more than once", [BUFFER, "/dev/null"]),
    ("that no machine runs the test is no agreement", 125,
     "nothing is compared: no model here takes one of these tests with a machine that runs it", [DRAIN, LOCKED]),
    ("a memory model that has no machine is told", 125, NO_MACHINE.format("none-such"), ["WORK/none.uspec", MP]),
    ("a module that is no machine is none", 125, NO_MACHINE.format("os"), ["--as", "os", BUFFER, MP]),
    ("no random programs are made for page tables", 125, f"{PAGES}: no programs are made for a machine with page tables",
     ["--random", "1", "6", PAGES]),
)
ONE_READ = "Microop 1 0 0 0 (Read (VA 0 0) (PA 0 0) (Data 1))."
ONE_WRITE = "Microop 0 0 0 0 (Write (VA 0 0) (PA 0 0) (Data 1))."
LAYOUTS = (
    ("a number of 5,000 digits", f'Litmus "a".\n{ONE_WRITE}\n{ONE_READ.replace("1)", f"{1:05000})")}\n'),
    ("words of comments in its title", f'Litmus "(* % //". Init (PA 0 0) 1.\n{ONE_READ}\n'),
    ("comments between its words", f'Litmus % "b".\n"a" (* . *). Init (PA % 1\n0 0) // 0\n1 .{ONE_READ.replace(" ", " (**) ")}\n'),
    ("a read that stands before an earlier write", f'Litmus "a".\n{ONE_READ}\n{ONE_WRITE}\n'),
)
FEW = [f"examples/patterns/{it}.pattern" for it in ("CoRR", "CoWRR", "MP", "MP+own+read", "R", "SB", "SB+fences")]
ANY_READ, OLDEST_READ = (f"examples/buggy/tso-lines-{it}-read.uspec" for it in ("any", "oldest"))
# caches whose lines are invalidated before their data come: with the mend, without it, and with half of it
CACHES: tuple[tuple[str, str, list[str]], ...] = (
    ("tso-lines agrees with a machine with cache lines", "", ["--as", "caches.lines", "examples/models/tso-lines.uspec"]),
    ("tso-lines-any-read agrees with the machine that has its slip", "", ["--as", "caches.any_read", ANY_READ]),
    ("tso-lines-oldest-read agrees with the machine that has its slip", "", ["--as", "caches.oldest_read", OLDEST_READ]),
    ("what half of the mend shows is a read from before its fence",
     "tso-lines-oldest-read.uspec SB+fences.pattern: shown though tso does not allow it: 0 0\n", [OLDEST_READ]),
)


class AgreeCases(Cases):
    """Cases of agree; in their words and texts WORK stands for the folder of the cases."""

    def agree(self, *words: str, **env: str) -> Done:
        """Calls agree in a process that is forked from this one."""
        said = call(tool_entry("agree.main"), ["agree", *(it.replace("WORK", self.work) for it in words)], env=self.variables(env))
        return Done(said.status, said.out.replace(self.work, "WORK"), said.err.replace(self.work, "WORK"))

    def variables(self, env: dict[str, str]) -> dict[str, str | None]:
        """The environment of agree, whose comparisons that are ended are kept in WORK/kept."""
        return {"PIPECHECK": program(), "SUITE_FOLDER": f"{self.work}/kept", **env}

    def agrees(self, name: str, status: int, out: str, err: str, *words: str, **env: str) -> None:
        """Agree writes these two texts."""
        self.judge(name, lambda: self.agree(*words, **env), status, out, err)


class Programs(AgreeCases):
    """Random programs, and all small ones; the family `pages` runs what docs/agree.md shows of them."""

    def test_random(self) -> None:
        """The programs of a seed are the same each time. Of a wrong model the smallest one is shown: without one of its micro-ops
        the two would not differ."""
        name = "all models and their machines agree on random programs"
        self.agrees(name, 0, f"{SWEPT}84 agree, 0 differ\n", "", "--random", "1", "6")
        words = ("--random", "8", "16", "examples/buggy/tso-squash-not-forwarded.uspec")
        first = self.agree(*words)
        self.same("a wrong model and its machine differ on a random program", first.status, 1)
        self.same("random programs are made from their seed", self.agree(*words).out, first.out)
        name = "the smallest program on which they differ has a write that is seen too early, and one that took its line"
        self.same(name, sum(it.startswith("Microop") for it in first.out.splitlines()), 4)

    def test_words(self) -> None:
        for said, *words in NOT_TAKEN:
            done = self.agree(*words)
            last = done.err.splitlines(keepends=True)[-1]
            self.judge(f"words that are not taken: {' '.join(words)}", Done(done.status, done.out, last), 2, "",
                       f"pipecheck agree: error: {said}\n")

    def test_small(self) -> None:
        self.gives("a model and its machine agree on all small programs with fences",
                   [pipecheck(), "agree", "--all", "2+2", "--fences", BUFFER], 0,
                   f"tso-buffer.uspec: 232 programs\n{SWEPT}232 agree, 0 differ\n", env=self.variables({}))
        done = self.agree("--all", "1+1")
        last = "".join(done.out.splitlines(keepends=True)[-2:])
        name = "without a word for models all of examples/models are compared"
        self.judge(name, Done(done.status, last, done.err), 0, f"{SWEPT}28 agree, 0 differ\n")
        self.agrees("exchanges are made where model and machine take them", 0, f"""\
tso-buffer.uspec: 100 programs
tso-drain.uspec: 24 programs
{SWEPT}124 agree, 0 differ
""", "", "--all", "2+1", "--locked", BUFFER, DRAIN)
        self.agrees("the other model agrees with itself", 0, """\
tso-buffer.uspec: 6 programs
swept by the second implementation
6 agree, 0 differ
""", "", "--all", "1+1+1", "--reading", "--between", BUFFER, BUFFER)
        self.agrees("a folder that cannot be written changes no answer", 0, f"""\
tso-buffer.uspec: 2 programs
{SWEPT}2 agree, 0 differ
""", "", "--all", "1+1", BUFFER, SUITE_FOLDER=write(f"{self.work}/file", ""))


class Ended(AgreeCases):
    """Comparisons that are ended, and standard output that fails."""

    def wait_until(self, is_so: Callable[[], bool]) -> None:
        """Waits until something comes true, or fails."""
        self.assertTrue(comes(is_so), "it did not come true in time")

    def test_goes_on(self) -> None:
        """What it has got goes when it is done, and is taken up for the same bytes alone. The program is called by a script that
        waits at its 40th call, up to a sign."""
        waits = command(f"{self.work}/waits", f"""\
[ ! -e "{self.work}/go" ] || exec "{program()}" "$@"
echo >>"{self.work}/calls"
[ $(wc -l <"{self.work}/calls") -lt 40 ] || sleep 600
exec "{program()}" "$@"
""")
        calls, words = write(f"{self.work}/calls", ""), ("--all", "2+2", EARLY)
        whole = self.agree(*words, PIPECHECK=program())
        process = self.begin([*AGREE, *words], self.variables({"PIPECHECK": waits}))
        self.wait_until(lambda: len(read(calls)) >= 40)
        time.sleep(0.5)
        process.terminate()
        process.wait()
        (kept,) = (f"{folder}/{it}" for folder, _, names in os.walk(f"{self.work}/kept/.agree") for it in names)
        state = read(kept)
        self.same("a comparison that is ended keeps what it has got", state != "")
        write(f"{self.work}/go", "")
        first, _, rest = self.agree(*words, PIPECHECK=waits).out.partition("\n")
        head, _, said = first.partition(", ")
        has_some = said.removesuffix(" of them compared before").isdigit()
        self.same("the next one goes on", has_some and head == "tso-ooo-commit-early.uspec: 60 programs")
        self.same("the next one says all in all what one that is not ended says", f"{head}\n{rest}", whole.out)
        self.same("a comparison that is done leaves nothing", os.path.exists(kept), False)
        makes: dict[str, Callable[[], object]] = {
            "of other bytes": lambda: write(kept, state.replace('"origin": "', '"origin": "x')),
            "not of this form": lambda: write(kept, re.sub('"agree": [0-9]+', '"agree": 61', state)),
            "too deep": lambda: write(kept, 200_000 * "["),
            "a pipe": lambda: os.mkfifo(kept),
        }
        for name, make in makes.items():
            make()
            self.same(f"what was kept is {name}: it begins anew", self.agree(*words, PIPECHECK=waits).out, whole.out)
            with contextlib.suppress(FileNotFoundError):
                os.remove(kept)

    def test_signals(self) -> None:
        """What ends agree ends the processes that compare, and the programs that they called, and leaves nothing."""
        for name in ("TERM", "INT", "PIPE"):
            room, asked = tempfile.mkdtemp(dir=self.work), tempfile.mkdtemp(dir=self.work)
            waits = command(f"{self.work}/waits", f'[ -s "$3" ] || exec "{program()}" "$@"\n: >"{asked}/$$"\nexec sleep 600\n')
            process = self.begin(["env", f"--default-signal={name}", *AGREE, "--random", "7", "100000", BUFFER],
                                 self.variables({"PIPECHECK": waits, "TMPDIR": room}))
            # each process that compares waits for the program
            self.wait_until(lambda: len(os.listdir(asked)) >= len(os.sched_getaffinity(0)))
            workers = [*map(int, run(["pgrep", "-P", str(process.pid)]).out.split())]
            number = signal.Signals[f"SIG{name}"]
            process.send_signal(number)
            self.same(f"{name} ends agree", process.wait(PATIENCE), -number)
            self.wait_until(lambda: not any(map(is_group, workers)))
            self.same(f"{name} ends all processes that compare", [it for it in workers if is_group(it)], [])
            self.same(f"{name} leaves no file", os.listdir(room), [])

    def test_unseen(self) -> None:
        """A signal that Python does not see at once, while all processes that compare have long to do."""

        def work() -> None:
            with contextlib.closing(working.answers(time.sleep, [600])) as found:
                list(found)

        done = done_by_unseen(ending.SIGNALS, work)
        self.same("a signal that Python does not see at once ends agree", done.status, 128 + signal.SIGTERM)

    def test_full_device(self) -> None:
        with without_output("full") as how:
            self.gives("a full device is no answer", [*AGREE, BUFFER, MP], 5, env=self.variables({}), **how)


def is_group(number: int) -> bool:
    return run(["pgrep", "-g", str(number)]).status == 0


class Files(AgreeCases):
    """Files that cannot be compared, of which nothing waits for what never comes, and files that are compared."""

    def test_told(self) -> None:
        for name, text in FILES.items():
            write(f"{self.work}/{name}", text)
        for name, status, said, words in TOLD:
            self.agrees(name, status, *((f"{said}\n", "") if status == 3 else ("", f"agree: {said}\n")), *words)
        self.agrees(
            "a test that the machine does not run is told, and the others are compared", 125, "1 agree, 0 differ, 1 not compared\n",
            "agree: tso-buffer.uspec locked.test: WORK/locked.test: the machine tso does not run it: instruction 0 is no locked "
            "read-modify-write of one address\n",
            BUFFER, "WORK/locked.test", LOCKED,
        )
        self.agrees("tests that no model takes are told, and the others are compared", 0, "1 agree, 0 differ\n",
                    "agree: not taken by a model here with a machine that runs it: WORK/locked.test and 1 more\n",
                    DRAIN, LOCKED, MP, "WORK/locked.test")

    def test_names(self) -> None:
        """These are read by what the environment says of names."""
        env = self.variables({"LC_ALL": "C"})
        fault = write(f"{self.work}/a\u009bb.uspec", FILES["fault.uspec"])
        self.gives("a path that would break a line is one word of bash", [*AGREE, fault, MP], 3,
                   f"$'{self.work}/a\\u009bb.uspec':{FAULT.partition(':')[2]}\n", env=env)
        link = f"{self.work}/c\u009b.uspec"
        os.symlink(f"{TOP}/{EARLY}", link)
        self.gives("so is the name of a model in a line of what differs", [*AGREE, link, PATTERN], 1, f"""\
$'c\\u009b.uspec' MP.pattern: shown though tso does not allow it: 1 0
{SWEPT}0 agree, 1 differ
""", env=env)

    def test_layouts(self) -> None:
        """Whatever the layout of a test, the machines run what the program reads of it: its outcome comes up."""
        for name, text in LAYOUTS:
            path = write(f"{self.work}/layout.test", text)
            self.agrees(f"a test with {name} is compared", 0, "1 agree, 0 differ\n", "", BUFFER, path)
            self.same(f"a test with {name} is run", rows_of_file(tso, path), ["row"])
            self.agrees(f"a test with {name} is compared with open reads", 0, f"{SWEPT}1 agree, 0 differ\n", "", "--open", BUFFER, path)

    def test_caches(self) -> None:
        for name, said, words in CACHES:
            count = "6 agree, 1 differ" if said else "7 agree, 0 differ"
            self.agrees(name, 1 if said else 0, f"{said}{SWEPT}{count}\n", "", *words, *FEW)

    def test_one_test_alone(self) -> None:
        tests = [f"examples/tests/{it}" for it in sorted(os.listdir(f"{TOP}/examples/tests")) if it.endswith(".test")]
        self.agrees("one test alone shows that no write between is not enough", 1, """\
tso-buffer-no-write-between.uspec SB+fences+old.test: shown yes, tso allows no
137 agree, 1 differ
""", "", "examples/buggy/tso-buffer-no-write-between.uspec", *tests)

    def test_told_apart(self) -> None:
        """Each row is a test that came with these machines: its outcome is shown by the second model, and not by the first."""
        others = []
        for row in read("examples/told-apart.tsv").splitlines()[1:]:
            test, *models = row.split("\t")
            for model, verdict in zip(models, ("unobservable", "observable")):
                done = run([program(), "check", f"examples/{model}.uspec", f"examples/tests/{test}.test"])
                if done.out.partition("\n")[0] != verdict:
                    others.append(f"{test}: {model}:{verdict}")
        self.same("told-apart.tsv names what the models say", others, [])
        self.gives("the comments of tests are what the table says", [*tool("comments"), "--check"])

        def check_without_table() -> int:
            with replaced(table, "TOP", self.work):
                return comments.main("--check")

        self.same("without a table nothing says what they are", call(check_without_table, []).status, 1)
        self.same("verdicts of two tests are asked for one by one", run([*tool("verdicts"), "sc", MP, MP]).status, 1)


# the types of fences
FENCES = "ab"
# a core's accesses and fences, each a text
Core = tuple[str, ...]
# shapes, addresses, kinds of fences, whether there are exchanges, and how many programs there are, where that is known
# from counting apart from this repository
ROWS: tuple[tuple[str, int, int, bool, int | None], ...] = (
    ("4", 2, 0, False, 412),
    ("2+2", 2, 1, False, 232),
    ("3+3", 2, 0, False, 1016),
    ("3+3", 2, 1, False, 15968),
    ("2+2+2", 2, 0, False, 388),
    ("2+2+2", 2, 1, False, 2872),
    ("3+2+1", 2, 0, False, 1984),
    ("2+1+1", 2, 1, False, 136),
    ("2+2", 3, 2, False, 900),
    ("1+1+1+1", 4, 0, False, 23),
    ("2+1+1", 2, 1, True, 732),
    ("3", 3, 1, True, 819),
)
# the row that takes too long to make all
LONG = ("3+3", 1)


class Small(Cases):
    """How many small programs there are, counted in another way than `agree --all` does: all of them are made, and of each the
    least of its exchanges is kept. Where this takes too long, those that `agree` makes are told apart in this way."""

    def test_count(self) -> None:
        for words, locations, fences, has_exchanges, wanted in ROWS:
            more = f", {fences} kinds of fences" * (fences > 0) + ", exchanges" * has_exchanges
            name = f"{words} over {locations} addresses{more}: {wanted} programs"
            if self.is_wanted(name):
                shapes = shapes_of(words)
                family = Family(shapes, locations, tuple(FENCES[:fences]), has_exchanges)
                found = [least(texts_of(program), locations) for program in family.programs]
                every = {*found}
                if (words, fences) != LONG:
                    every = {*all_programs(shapes, locations, fences, "RWX" if has_exchanges else "RW")}
                with self.case(name):
                    self.assertEqual({*found}, every)
                    self.assertEqual((len(found), len(every), family.count), (wanted, wanted, wanted))


def all_programs(shapes: Iterable[Shape], locations: int, fences: int, kinds: str) -> Iterator[tuple[Core, ...]]:
    """The least exchange of each program of these shapes."""
    for shape in shapes:
        for made in product(*(list(cores(length, locations, fences, kinds)) for length in shape)):
            if has_both(made):
                yield least(made, locations)


def cores(length: int, locations: int, fences: int, kinds: str) -> Iterator[Core]:
    """All that a core of so many accesses may do. A number stands for an address."""
    accesses = [f"{kind}{address}" for kind in kinds for address in range(locations)]
    gaps = ["", *(f"F{name}" for name in FENCES[:fences])]
    yield from product(*([accesses, gaps] * (length - 1) + [accesses]))


@cache
def turned(core: Core, locations: int) -> list[Core]:
    """A core under each exchange of addresses."""
    turns = (str.maketrans({str(k): str(new[k]) for k in range(locations)}) for new in permutations(range(locations)))
    return [tuple(part.translate(turn) for part in core) for turn in turns]


def least(made: tuple[Core, ...], locations: int) -> tuple[Core, ...]:
    """The least of a program's exchanges of cores and of addresses."""
    return min(tuple(sorted(turn)) for turn in zip(*(turned(core, locations) for core in made)))


def has_both(made: tuple[Core, ...]) -> bool:
    """Whether there is a read and a write; an exchange is both."""
    kinds = {part[0] for core in made for part in core if part and part[0] != "F"}
    return "X" in kinds or {"R", "W"} <= kinds


def texts_of(made: Program) -> tuple[Core, ...]:
    """A program that `agree` makes, in the same texts."""
    found: dict[int, list[str]] = {}
    for op in made.ops:
        core = found.setdefault(op.core, [])
        if op.kind == "Fence":
            core.append(f"F{op.types[0]}")
            continue
        if core and not core[-1].startswith("F"):
            core.append("")
        core.append(f"{'X' if op.kind == 'Exchange' else op.kind[0]}{op.address}")
    return tuple(map(tuple, found.values()))
