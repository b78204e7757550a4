"""How examples/suite is called, and what may go wrong with it: words, names, programs, machines, files, streams and signals."""
from __future__ import annotations

import contextlib
import fcntl
import glob
import io
import os
import pty
import re
import resource
import shutil
import signal
import struct
import subprocess
import sys
import termios
import time
from dataclasses import replace
from functools import partial
from typing import Any, Callable

from tests.cases import (
    PATIENCE, TOP, Done, apart, comes, done_by_unseen, files_below, program, read, replaced, text_of, tool, within,
    without_output, write
)
from tests.suite_cases import CORR, EARLY, GOOD, MP, SB, SC, TUTORIAL, SuiteCases, no_lint, of_suite, tabled
from tests.test_answers import lines, op

from tools.ending import SIGNALS as RECEIVED
from tools.texts.memory_models import memory_model_of
from tools.suite import keeping
from tools.suite.calling import Calls, side_by_side
from tools.suite.files import model_file, test_file
from tools.suite.keeping import Folder, Kept
from tools.suite.pairs import Found
from tools.suite.running import lint_lines
from tools.suite.telling import table_of_models

PATTERN = "examples/patterns/MP.pattern"
BAD_ROW = f"{PATTERN}: tutorial-early: shown though tso does not allow it: 1 0"
BAD_PATTERN = tabled("tutorial-early", "MP.pattern BUG", "1 BUG", BAD_ROW)
BAD_PAIR = tabled("tutorial-early", "MP BUG, SB ok", "1 ok, 1 BUG")
# those that end a process without a fault of its own
SIGNALS = (signal.SIGTERM, signal.SIGHUP, signal.SIGINT, signal.SIGQUIT, signal.SIGUSR1, signal.SIGUSR2, signal.SIGALRM,
           signal.SIGVTALRM, signal.SIGPROF, signal.SIGXCPU)


def contents_in(folder: str) -> dict[str, dict[str, str]]:
    """What the files below a folder have, by the folders that they are in."""
    return {place: {it: read(f"{place}/{it}") for it in names} for place, _, names in os.walk(folder)}


class Words(SuiteCases):
    """Words, names and variables of the environment."""

    tests = (MP, SB)

    def test_words(self) -> None:
        os.mkdir(f"{self.work}/none")
        self.refuses("a folder without tests", "there is no test in WORK/none", SC, SUITE_TESTS="WORK/none")
        self.refuses("a folder without tests among the words", "there is no test in WORK/none", SC, "WORK/none")
        for word in ("gone.uspec", "gone.test", "gone"):
            self.refuses(f"a word that names nothing: {word}", f"WORK/{word} is not there", SC, f"WORK/{word}", "WORK/tests")
        twice = "/dev/null is neither a file nor a folder: it is read more than once"
        self.refuses("a pipe, which cannot be read twice", twice, "/dev/null")
        self.refuses("an option that there is not", "there is no option -n; --help shows how it is called", "-n", SC)
        form = "examples/suite [--differ] [--bad] [--baseline CELLS] [--junit FILE] [--sarif FILE] [MODEL | TEST | FOLDER].."
        self.same("--help is help", f"    {form}\n" in self.called("--help").out)
        for value, word in (("x", "x"), ("0", "0"), ("0.0", "0.0"), ("-1", "-1"), ("1 2", r"1\ 2")):
            for name, kind in (("SUITE_SECONDS", "a number above 0"), ("SUITE_JOBS", "a number from 1 to 9999")):
                self.refuses(f"{name} is '{value}'", f"{name} is {kind}, and not {word}", SC, **{name: value})

    def test_names(self) -> None:
        """Nothing is written or removed outside the folder of the model."""
        for name, word in (
            (".", "."), ("..", ".."), ("cells", "cells"), ("cells.part", "cells.part"), ("-n", "-n"), ("a\tb", r"$'a\tb'"),
            ("a\nb", r"$'a\nb'"), ("", "''"),
        ):
            self.put(f"names/{name}.uspec", read(EARLY))
            self.put("MP.test.certificate", "precious\n")
            self.put("kept/MP.test.certificate", "precious\n")
            before = contents_in(self.work)
            self.refuses(f"a model that is named {word}", f"no model may be named {word}", f"WORK/names/{name}.uspec")
            self.same(f"a model that is named {word} changes no file", contents_in(self.work), before)
        self.refuses("a model that is a folder", "there is no test in WORK/names/", "WORK/names/")
        self.put("tabs/a\tb.test", read(MP))
        self.refuses("a test whose name has a tab", r"no test may be named $'a\tb'", SC, SUITE_TESTS="WORK/tabs")
        self.put("names/sc-inorder.uspec", read(EARLY))
        two = f"sc-inorder: {SC} and WORK/names/sc-inorder.uspec; a link gives one of them another name"
        self.refuses("two models of one name", f"two models have one name: {two}", SC, "WORK/names/sc-inorder.uspec")
        os.mkdir(f"{self.work}/none")
        os.symlink(f"{self.work}/none", f"{self.work}/kept/elsewhere")
        self.put("names/elsewhere.uspec", read(EARLY))
        link = "the folder WORK/kept/elsewhere cannot be written"
        self.refuses("a folder that is a link to another", link, "WORK/names/elsewhere.uspec")

    def test_odd_names(self) -> None:
        """Models and tests with blanks, quotes and the like in their names."""
        odd = ("a b", "it's", '"', "&", "\\", "$(touch called)", "*")
        for name in odd:
            self.put(f"files/{name}.test", read(MP))
            self.put(f"files/{name}.uspec", read(EARLY))
        done = of_suite(self.called("WORK/files", *(f"WORK/files/{it}.uspec" for it in odd)), self.work)
        found = (done.status, done.out.splitlines()[-1], done.err)
        wanted = (1, "49 pairs: 0 ok, 49 BUG, 0 stricter, 0 time, 0 faults, in N s", "")
        self.same("models and tests with blanks, quotes and the like in their names", found, wanted)
        for name in odd:
            words = ("verify", EARLY, MP, f"{self.work}/kept/{name}/{name}.test.certificate")
            self.shows(f"the certificate of a test that is named {name}", 0, "verified observable\n", *words)

    def test_programs(self) -> None:
        """PIPECHECK names a file, or has words that are taken apart as by a shell, where nothing is replaced."""
        shutil.copy2(program(), f"{self.work}/my program")
        for words in ("WORK/my program", "'WORK/my program'", "env UNUSED=1 'WORK/my program'", r"env WORK/my\ program"):
            self.table(f"PIPECHECK is {words.replace('WORK', '..')}", 0, GOOD, SC, PIPECHECK=words)
        for name, words, line in (
            ("PIPECHECK with a substitution", "$(touch called)", r"no checker: \$\(touch called\)"),
            ("PIPECHECK with one quote", "'", r"PIPECHECK is no command: No closing quotation: \'"),
            ("PIPECHECK is a blank", " ", r"PIPECHECK is no command: \ "),
            (r"PIPECHECK \'\' has no words", "''", r"PIPECHECK is no command: \'\'"),
            ("the words of PIPECHECK a '' $HOME * `b` $(c) ; d", "a '' $HOME * `b` $(c) ; d",
             r"no checker: a '' \$HOME \* \`b\` \$\(c\) \; d"),
            ("a command that is no checker", "true", "no checker: true"),
        ):
            self.refuses(name, line, SC, PIPECHECK=words)


class Checkers(SuiteCases):
    """Checkers that lie, are late, or are replaced."""

    tests = (MP, SB)

    def liar(self, checks: str, verifies: str) -> str:
        """A checker that does these commands of the shell when it is to check, and to verify."""
        return self.script("liar", f'case $1 in "") exit 2 ;; check) {checks} ;; verify) {verifies} ;; esac')

    def test_liars(self) -> None:
        said, judged = "echo unobservable; echo test forbidden: ok; exit 1", "echo verified unobservable; exit 1"
        for name, checks, verifies, cell in (
            ("a status without its verdict", "exit 1", judged, "status:1"),
            ("a status with another verdict", "echo observable; echo test forbidden: BUG; exit 1", judged, "status:1"),
            ("a judge that is late", said, "sleep 600", "time"),
            ("a checker that is late", "sleep 600", "exit 1", "time"),
            ("a judge without its line", said, "exit 1", "certificate"),
            ("a certificate that is refused", said, "echo certificate refused at line 3; exit 6", "certificate"),
            ("a checker that a signal ends", "kill -9 $$", "exit 1", "status:137"),
            ("a judge that a signal ends", said, "kill -9 $$", "certificate"),
        ):
            text = tabled("sc-inorder", f"MP {cell}, SB {cell}", "2 time" if cell == "time" else "2 faults")
            limit = {"SUITE_SECONDS": "10"} if "late" in name else {}
            self.table(name, 2, text, SC, PIPECHECK=self.liar(checks, verifies), **limit)
        leaving = self.liar(f"sleep 600 & {said}", f"sleep 600 & {judged}")
        self.table("a checker that leaves something running", 0, GOOD, SC, PIPECHECK=leaving)

    def test_memory(self) -> None:
        self.lint_lines = no_lint
        axiom = 'Axiom "a": forall microop "i", forall microop "j", ProgramOrder i j => AddEdge ((i, S), (j, S), "").\n'
        self.put("many.uspec", '% Memory model: tso\nStageName 0 "S".\n' + 3_000 * axiom)
        self.rows("a check under the limit of memory", 2, ["WORK/many.uspec", "examples/two.test"], "two status:7",
                  PIPECHECK_MEMORY="6")
        said = "PIPECHECK_MEMORY is 1 MiB, and the program takes more to start"
        self.refuses("a limit of memory that the program cannot start in", said, SC, PIPECHECK_MEMORY="1")
        said = "pipecheck: PIPECHECK_MEMORY is a number of MiB, or none, and not much\n"
        self.judge("a limit of memory that is no number", self.called(SC, PIPECHECK_MEMORY="much"), 2, "", said)
        self.put("four.test", lines('Litmus "four".', *(op(k, "Write", k, 1) for k in range(4))))
        stages = "".join(f'StageName {k} "S{k}".\n' for k in range(32))
        nodes = "".join(f"(i, S{k});" for k in range(32))
        self.put("nodes.uspec", f'% Memory model: tso\n{stages}Axiom "n": forall microops "i", NodesExist [{nodes}].\n')
        limited = within(resource.RLIMIT_FSIZE, 1024)
        self.writes("a limit of the size of files", self.started("WORK/nodes.uspec", "WORK/four.test", preexec_fn=limited), 2,
                    tabled("nodes", "four status:5", "1 faults"))
        os.mkdir(f"{self.work}/temporary")
        done = self.started(EARLY, "WORK/four.test", preexec_fn=limited, env={"TMPDIR": "WORK/temporary"})
        self.judge("a limit of the size of files that a copy of a model passes",
                   Done(done.status, done.out, re.sub("tmp[a-z0-9_]*:", "FOLDER:", done.err.replace(self.work, "WORK"))), 2, "",
                   f"suite: {EARLY} cannot be copied into WORK/temporary/FOLDER: File too large\n")
        self.same("a copy of a model that passes the limit of size leaves nothing", os.listdir(f"{self.work}/temporary"), [])
        done = self.started(SC, preexec_fn=within(resource.RLIMIT_AS, 20_000 << 10))
        self.judge("a limit of memory that Python cannot load the suite in", Done(done.status, done.out, ""), 2)

    def test_replaced(self) -> None:
        """Files and programs that others take the place of while the suite runs."""
        self.copy("replaced", MP, CORR)
        self.put("replaced/mine.uspec", read(EARLY))
        folder = f"{self.work}/replaced"
        replacing = self.script("replacing", f"""\
[ $# -eq 0 ] || [ -e "{folder}/done" ] || {{
    cp examples/tests/SB.test "{folder}/MP.test"
    rm "{folder}/CoRR.test" "{folder}/mine.uspec"
    : >"{folder}/done"
}}
exec "{program()}" "$@\"""")
        done = self.called("WORK/replaced", EARLY, "WORK/replaced/mine.uspec", PIPECHECK=replacing, SUITE_JOBS="1")
        self.writes("files that are replaced or taken away are judged by what they were", done, 1,
                    tabled("tutorial-early mine", "CoRR BUG BUG, MP BUG BUG", "4 BUG"))
        self.copy_suite()
        self.two_programs()
        self.table("a program that is replaced while the suite runs", 1, BAD_PAIR, EARLY, SUITE_JOBS="1")
        self.same("the suite's program is replaced after its first answer", os.path.exists(f"{self.work}/second"), False)
        self.two_programs()
        patterns = (f"examples/patterns/{it}.pattern" for it in ("MP", "R", "SB"))
        self.gives("a program that is replaced while agree runs",
                   [*tool("agree", self.top), "examples/models/tso-ooo.uspec", *patterns], 0,
                   "swept by the program\n3 agree, 0 differ\n")
        self.same("agree's program is replaced after its first answer", os.path.exists(f"{self.work}/second"), False)

    def two_programs(self) -> None:
        """A program stands in the copy, and a second one, which has no answers, takes its place at its first answer."""
        first = self.script("first", f"""\
case $1/$2 in check/?* | sweep/?*) [ ! -e "{self.work}/second" ] || mv -f "{self.work}/second" "{self.top}/pipecheck_cli" ;; esac
exec "{program()}" "$@\"""")
        os.replace(first, f"{self.top}/pipecheck_cli")
        self.script("second", "exit 9")

    def test_odd_copies(self) -> None:
        """What an installation has, in a folder with an odd name, beside a false program that finds no bug: a shell that takes the
        path apart calls that one with the rest of the path as its first word."""
        self.script("odd/a", """\
touch "$0.called"
case $2 in
'') exit 2 ;;
check) echo unobservable; echo test forbidden: ok ;;
verify) echo verified unobservable ;;
esac
exit 1""")
        self.lint_lines = lint_lines
        self.copy_suite("odd/copy")
        for name, word in (
            ("a b", r"a\ b"), ("a\nb", r"$'a\nb'"), ("a&b", r"a\&b"), ("a\\b", r"a\\b"), ("a'b", r"a\'b"), ('a"b', r"a\"b"),
            ("a;b", r"a\;b"), ("a*", r"a\*"),
        ):
            before, self.top = self.top, f"{self.work}/odd/{name}"
            os.rename(before, self.top)
            self.table(f"a copy in a folder that is named {word}", 1, BAD_PAIR, EARLY)
            is_called = os.path.exists(f"{self.work}/odd/a.called")
            self.same(f"a copy in a folder that is named {word} calls no other file", is_called, False)


class Machines(SuiteCases):
    """Machines that are late, fail, or are not there."""

    def test_late(self) -> None:
        """Eight cores with eight writes each have some 40 million states."""
        self.put("large.test", lines('Litmus "large".', *(op(k, "Write", k, 1, k // 8) for k in range(64))))
        liar = self.script("liar", """\
case $1 in "") exit 2 ;; check) echo observable; echo test unstated ;; verify) echo verified observable ;; esac""")
        self.rows("a machine that is late", 0, [SC, "WORK/large.test"], "large observable",
                  "not compared with a machine within the limit of time: 1 test, the first WORK/large.test", PIPECHECK=liar,
                  SUITE_SECONDS="5")

    def test_environment(self) -> None:
        """What the suite starts of Python has nothing of the environment."""
        self.put("shadow/fractions.py", "raise SystemExit(3)\n")
        self.put("shadow/enum.py", "raise SystemExit(3)\n")
        for name, value in (
            ("PYTHONSAFEPATH", "1"), ("PYTHONIOENCODING", "utf-16"), ("PYTHONWARNINGS", "error"), ("PYTHONPATH", "WORK/shadow"),
        ):
            done = self.started(EARLY, PATTERN, env={name: value})
            self.writes(f"with {name}={value.replace('WORK', '..')} a machine says the same", done, 1, BAD_PATTERN)
        done = self.started(EARLY, PATTERN, preexec_fn=within(resource.RLIMIT_AS, 1_000_000 << 10))
        self.writes("under a limit of address space, which a machine has then", done, 1, BAD_PATTERN)

    def test_layouts(self) -> None:
        """Two writes in one instruction, and a walk of another page than the access's."""
        for machine, text in (
            ("tso", """\
Litmus "two". Microop 0 0 0 0 (Write (VA 0 0) (PA 0 0) (Data 1)).
Microop 0 0 0 1 (Write (VA 1 0) (PA 1 0) (Data 1)). Microop 1 1 1 0 (Read (VA 1 0) (PA 1 0) (Data Any)).
"""),
            ("tlb", """\
Litmus2 "walk". Microop 0 0 0 0 (Read Walk (VA 1 0) (Entry 1) (Maps 1 0 0)).
Microop 0 0 0 1 (Read (VA 0 0) (PA 0 0) (Data Any)).
"""),
        ):
            words = [*tool("verdicts"), machine, self.put(f"{machine}.pattern", text)]
            self.gives(f"a layout that the machine of {machine} does not run", words, 3)

    def machine(self, text: str) -> None:
        """The suite's copy gets this as its machine of TSO."""
        if self.top == apart():
            self.copy_suite()
        write(f"{self.top}/tools/agree/machines/tso.py", text)

    def test_failing(self) -> None:
        unstated = "".join(it for it in read(MP).splitlines(keepends=True) if not it.startswith("Forbidden"))
        self.put("own/mine.test", unstated)
        for name, reason, fails in (
            ("crashes", "status 1: KeyError: 1", "{}[1]"),
            ("wants more memory than there is", "status 1: MemoryError", "bytes(1 << 62)"),
            ("ends by a signal", "status 137", "os.kill(os.getpid(), 9)"),
            ("gives an answer that is none", "its answer is none", "os._exit(0)"),
        ):
            self.machine(f"import os\ndef outcomes(test: object) -> object:\n    return {fails}\n")
            self.rows(f"a machine that {name}", 2, [EARLY, PATTERN, "WORK/own", MP], "MP BUG, MP.pattern machine, mine machine",
                      f"{PATTERN}: the machine of tso failed: {reason}",
                      f"WORK/own/mine.test: tutorial-early says observable, and the machine of tso failed: {reason}")
        shutil.rmtree(f"{self.top}/tools/agree/machines")
        self.rows("a copy without machines", 0, [TUTORIAL, "WORK/own"], "mine unobservable",
                  "not compared with machines: there are none in WORK/copy/tools/agree/machines")

    def test_several(self) -> None:
        """A machine runs one test after another in one process as long as it does not fail, and the clock has its time."""
        self.machine(f"""\
import time
with open("{self.work}/started", "a", encoding="ascii") as file:
    file.write("started\\n")
def outcomes(test):
    time.sleep(1)
    if len(test.ops) == 3:
        raise KeyError(3)
    return set()
""")
        patterns = (f"examples/patterns/{it}.pattern" for it in ("CoRR", "MP", "R", "SB"))
        done = self.called(EARLY, *patterns, SUITE_JOBS="1")
        lines = done.out.splitlines(keepends=True)
        self.judge("a machine that fails on one test of several", Done(done.status, "".join(lines[:5]), done.err), 2, """\
test          tutorial-early
CoRR.pattern  machine
MP.pattern    BUG
R.pattern     BUG
SB.pattern    BUG
""")
        self.same("a machine is started again after it fails, and then alone", read(f"{self.work}/started"), "started\nstarted\n")
        seconds = int(lines[-1].rpartition("in ")[2].partition(" s")[0])
        self.same("the clock has the time of machines", seconds >= 4)


class Folders(SuiteCases):
    """What cannot be written, and what an interrupted suite has got."""

    tests = (MP, SB)

    def test_unwritten(self) -> None:
        self.put("kept/sc-inorder/MP.test.certificate.part/x", "")
        self.rows("a certificate that cannot be written", 2, [SC], "MP unwritten, SB ok")
        shutil.rmtree(f"{self.work}/kept")
        os.makedirs(f"{self.work}/kept/cells")
        said = "suite: WORK/kept/cells cannot be written: Is a directory\n"
        self.writes("rows that cannot be kept", self.called(SC), 2, GOOD, said)
        line = "the folder /dev/null/suite cannot be written"
        self.refuses("a folder that cannot be made", line, SC, SUITE_FOLDER="/dev/null/suite")

    def test_links(self) -> None:
        precious = self.put("precious", "precious\n")
        os.makedirs(f"{self.work}/kept/sc-inorder")
        places = [f"{self.work}/kept/{it}" for it in ("cells", "sc-inorder/MP.test.certificate")]
        for place in (*places, *(f"{it}.part" for it in places)):
            os.symlink(precious, place)
        self.writes("files that are links", self.called(SC), 0, GOOD)
        self.same("links are not followed", read(precious), "precious\n")
        for name, place in zip(("rows take", "a certificate takes"), places):
            self.same(f"{name} the place of a link", not os.path.islink(place) and os.path.getsize(place) > 0)
        self.same("beside links no part is left", parts_in(f"{self.work}/kept"), [])

    def test_streams(self) -> None:
        """Standard output and standard error that are full, closed, or not read."""
        said = "suite: standard output could not be written: what it got is not the whole answer\n"
        for kind, name, line in (
            ("full", "a full device as standard output", said), ("closed", "a closed standard output", said),
            ("unread", "a standard output whose reader has enough", ""),
        ):
            with without_output(kind) as how:
                self.judge(name, self.started(SC, **how), 2, "", line)
        self.writes("a closed standard error", self.started(SC, preexec_fn=partial(os.close, 2)), 0, GOOD)

    def test_states(self) -> None:
        """What an interrupted suite has got is read where a suite can have written it."""
        place = f"{self.work}/kept/.state"
        os.mkdir(f"{self.work}/kept")
        kinds: dict[str, Callable[[], object]] = {
            "deep": lambda: write(place, 200_000 * "["),
            "pipe": lambda: os.mkfifo(place),
            "link": lambda: os.symlink(f"{TOP}/{MP}", place),
            "link to a folder": lambda: os.symlink(f"{self.work}/tests", place),
        }
        for kind, make in kinds.items():
            make()
            said = "suite: WORK/kept/.state is spoilt: it is made anew\n"
            self.writes(f"what an interrupted suite has got is a {kind}", self.called(SC), 0, GOOD, said)
        self.same("a link in the place of that folder is not followed", sorted(os.listdir(f"{self.work}/tests")), ["MP.test", "SB.test"])

    def test_at_once(self) -> None:
        """Of two suites in one folder at once one waits for the other."""
        started = [(it, self.begun(it, stdout=subprocess.PIPE)) for it in (EARLY, SC, EARLY, SC)]
        found = []
        for model, process in started:
            out, _ = process.communicate(timeout=PATIENCE)
            rows = [line for line in text_of(out).splitlines() if line.split()[:1] == ["MP"]]
            found.append((model, process.returncode, rows))
        early, good = (EARLY, 1, ["MP    BUG"]), (SC, 0, ["MP    ok"])
        self.same("four suites in one folder at once", found, [early, good, early, good])


def parts_in(folder: str) -> list[str]:
    """The files that are half written."""
    return [f"{folder}/{it}" for it in files_below(folder) if it.endswith(".part")]


class Signals(SuiteCases):
    """Signals end the suite, the programs that it calls, and what builds one; nothing half written is left."""

    def setUp(self) -> None:
        super().setUp()
        # a shell has what it starts beside itself ignore Ctrl-C, and who runs this may ignore the others
        for number in SIGNALS:
            signal.signal(number, signal.SIG_DFL)
        signal.signal(signal.SIGINT, signal.default_int_handler)
        # a child of the checker goes on where the checker alone is ended, and so does one that ignores signals
        ignored = " ".join(number.name.removeprefix("SIG") for number in SIGNALS)
        self.checker = self.script("checker", f'[ $# -gt 0 ] || exit 2\ntrap "" {ignored}\necho observable\nsleep 600 &\nwait')
        self.env = {"PIPECHECK": self.checker, "SUITE_SECONDS": "600"}

    def begun_with_part(self, **how: Any) -> subprocess.Popen[bytes]:
        """Starts a suite, and waits until its checker has written a part of a certificate."""
        process = self.begun(TUTORIAL, MP, env=self.env, **how)
        self.assertTrue(comes(lambda: any(map(os.path.getsize, parts_in(f"{self.work}/kept")))))
        return process

    def test_each(self) -> None:
        for number in SIGNALS:
            process = self.begun_with_part()
            process.send_signal(number)
            status = process.wait(PATIENCE)
            self.same(f"{number.name} ends a suite", status, -number)
            self.same(f"{number.name} ends a suite's programs", comes(lambda: not running_in(self.work)))
            self.same(f"{number.name} leaves no part", parts_in(f"{self.work}/kept"), [])

    def test_ignored(self) -> None:
        process = self.begun_with_part(before=["sh", "-c", 'trap "" HUP; exec "$@"', "sh"])
        process.send_signal(signal.SIGHUP)
        time.sleep(0.5)
        self.same("HUP does not end a suite that ignores it, as behind nohup", process.poll(), None)
        process.send_signal(signal.SIGTERM)
        process.wait(PATIENCE)

    def test_unseen(self) -> None:
        """Python does not see at once what comes just before it waits, nor what another thread gets, as here."""
        calls = Calls()
        with open(os.devnull, "wb") as out:
            waits = partial(side_by_side, calls, 1, [lambda: calls.status(["sleep", "600"], None, 600, out)])
            done = done_by_unseen(RECEIVED, waits)
        self.same("a signal that Python does not see at once ends a call", done.status, 128 + signal.SIGTERM)
        Folder(f"{self.work}/kept").wait_in_turn()
        done = done_by_unseen(RECEIVED, lambda: Folder(f"{self.work}/kept").wait_in_turn())
        said = f"suite: another suite writes into {self.work}/kept: waiting for it\n"
        self.same("... and a suite that waits for another one", done, Done(128 + signal.SIGTERM, "", said))

    def test_early(self) -> None:
        """Ctrl-C while Python still loads what the suite is made of ends it without a word. What Python says is what it loads."""
        for module in ("os", "tools.texts.quoting", "tools.suite.files", "tools.suite.running"):
            # another Python may stand before the one that is meant
            before = [sys.executable, "-E", "-S", "-X", "importtime"]
            process = self.begun(TUTORIAL, MP, env=self.env, before=before, stderr=subprocess.PIPE)
            assert process.stderr is not None
            lines = iter(process.stderr.readline, b"")
            is_loaded = any(text_of(it).rpartition("|")[2].strip() == module for it in lines)
            process.send_signal(signal.SIGINT)
            said = [it for it in lines if not it.startswith(b"import time:")]
            found = (is_loaded, said, process.wait(PATIENCE))
            self.same(f"Ctrl-C when Python has loaded {module}", found, (True, [], -signal.SIGINT))

    def test_waiting(self) -> None:
        folder = Folder(f"{self.work}/kept")
        folder.wait_in_turn()
        process = self.begun(TUTORIAL, MP, env=self.env, stderr=subprocess.PIPE)
        assert process.stderr is not None
        said = text_of(process.stderr.readline())
        process.send_signal(signal.SIGTERM)
        status = process.wait(PATIENCE)
        os.close(folder.lock)
        wanted = f"suite: another suite writes into {self.work}/kept: waiting for it\n"
        self.same("TERM ends a suite that waits for another one", (said, status), (wanted, -signal.SIGTERM))

    def test_limits(self) -> None:
        """A call has a limit of processor time, which holds where its suite was ended by force; one that stands is kept."""
        checker = self.script("limited", '[ $# -gt 0 ] || exit 2\nulimit -S -t >"$0.limit"')
        whole = 30 * len(os.sched_getaffinity(0)) + 1
        for name, shell, wanted in (
            ("30 seconds on each processor, and one more", 'exec "$@"', whole),
            ("a lower limit that stands", 'ulimit -S -t 30; exec "$@"', 30),
        ):
            self.started(TUTORIAL, MP, env={"PIPECHECK": checker, "SUITE_SECONDS": "29.5"}, before=["sh", "-c", shell, "sh"])
            self.same(f"the processor time of a call: {name}", read(f"{checker}.limit"), f"{wanted}\n")

    def test_build(self) -> None:
        """A build ends with the suite, and may clean up before."""
        self.copy_suite()
        note = f"{self.work}/built"
        write(f"{self.top}/script/calls", f"ensure_built() {{ trap 'rm -f {note}' EXIT; : >{note}; sleep 600; }}\n")
        process = self.begun(TUTORIAL, MP)
        self.assertTrue(comes(lambda: os.path.exists(note)))
        process.send_signal(signal.SIGTERM)
        status = process.wait(PATIENCE)
        self.same("TERM ends a suite that builds", status, -signal.SIGTERM)
        self.same("TERM ends a suite's build", (os.path.exists(note), comes(lambda: not running_in(self.work))), (False, True))


def running_in(work: str) -> list[str]:
    """The processes that have this folder in their environment, as a suite has it and all that it starts."""
    found = []
    for path in glob.glob("/proc/[0-9]*/environ"):
        # one of another user, or one that has ended, says nothing
        with contextlib.suppress(OSError):
            found += [path] if work in read(path) else []
    return found


class Terminals(SuiteCases):
    """A table on a terminal has numbers where it is too narrow, and in a file it has none."""

    def test_tables(self) -> None:
        rows = [["MP", "ok", "BUG"], ["2+2W", "stricter", "ok"]]
        wide = ["test  one-model  other-model", "MP    ok         BUG", "2+2W  stricter   ok"]
        narrow = ["1  one-model", "2  other-model", "test  1         2", "MP    ok        BUG", "2+2W  stricter  ok"]
        for name, width, wanted in (
            ("no terminal", None, wide),
            ("a terminal as wide as the table", 28, wide),
            ("a terminal narrower by one", 27, narrow),
        ):
            self.same(name, table_of_models(["one-model", "other-model"], rows, width), wanted)

    def test_terminals(self) -> None:
        checker = self.script("checker", """\
case $1 in "") exit 2 ;; verify) echo verified unobservable ;; *) echo unobservable; echo test unstated ;; esac
exit 1""")
        table = ["test  tutorial  tutorial-early", "MP    ok        ok"]
        numbered = ["1  tutorial", "2  tutorial-early", "test  1   2", "MP    ok  ok"]
        for name, width, columns, wanted in (
            ("a wide terminal", 80, "", table),
            ("a narrow terminal", 20, "", numbered),
            ("a wide terminal that COLUMNS says is narrow", 80, "20", numbered),
            ("a narrow terminal that COLUMNS says is wide", 20, "80", table),
            ("a narrow terminal and COLUMNS of 5,000 digits", 20, 5000 * "9", numbered),
        ):
            lines = self.shown_on_terminal(width, {"PIPECHECK": checker, "COLUMNS": columns})
            self.same(name, lines[: len(wanted)], wanted)

    def shown_on_terminal(self, width: int, env: dict[str, str]) -> list[str]:
        """The lines that the suite writes to a terminal of this width."""
        ours, theirs = pty.openpty()
        fcntl.ioctl(theirs, termios.TIOCSWINSZ, struct.pack("HHHH", 24, width, 0, 0))
        process, text = self.begun(TUTORIAL, EARLY, MP, env=env, stdout=theirs), b""
        os.close(theirs)
        # so a terminal ends
        with contextlib.suppress(OSError):
            while part := os.read(ours, 4096):
                text += part
        process.wait(PATIENCE)
        os.close(ours)
        return text_of(text).replace("\r\n", "\n").splitlines()


class Parts(SuiteCases):
    """Parts of the suite that need no program."""

    def test_memory_models(self) -> None:
        """What a model names, and why it names nothing."""
        none = "the model names no memory model"
        inside, form = "a memory model is named inside another comment", "the comment on a memory model is not % Memory model: NAME"
        for text, wanted in (
            ("% Memory model: tso\n", "tso"),
            ("% MEMORY MODEL:\tx86-TSO \r\n", "x86-tso"),
            ("%Memory model:tso", "tso"),
            ('StageName 0 "S". % Memory model: tso', "tso"),
            ("% Memory model: tso, for now\n", form),
            ("% the memory model: tso\n", none),
            ("// Memory model: tso\n", none),
            ('Axiom "% Memory model: tso": True.', none),
            ("%% Memory model: tso", inside),
            ("(*\n% Memory model: tso\n*)\n% Memory model: sc\n", inside),
            ("% such as % Memory model: tso\n", inside),
            ("% such as `% Memory model: NAME`\n% Memory model: tso\n", "tso"),
        ):
            named = memory_model_of(text.encode("ascii"))
            self.same(f"a model with {text!r}", named.name or named.fault, wanted)

    def test_stands(self) -> None:
        """A verdict that is kept stands for the same bytes alone, and as it was kept."""
        model, test = model_file(f"{TOP}/{TUTORIAL}"), test_file(f"{TOP}/{MP}")
        listing = replace(test, path=test.path.removesuffix(".test") + ".litmus")
        certificate, other = b"unobservable\ntest forbidden: ok\nend\n", "other bytes"
        store = Kept(self.work, "the program", "a suite")
        store.keep(model, test, io.BytesIO(certificate))
        place = store.place(model, test)
        entry = read(place).encode()
        self.same("a verdict of the same bytes stands", store.found(model, test), (Found("unobservable", "forbidden"), certificate))
        for name, program, of_model, of_test in (
            ("another program", other, model, test),
            ("a program whose bytes are not known", "", model, test),
            ("another model", "the program", replace(model, digest=other), test),
            ("another test", "the program", model, replace(test, digest=other)),
            ("a test that another word checks", "the program", model, listing),
        ):
            self.same(f"a verdict of {name} does not stand", Kept(self.work, program, "a suite").found(of_model, of_test), None)
        for name, text in (
            ("with another certificate", entry + b"more"),
            ("that its certificate does not say", entry.replace(b"unobservable", b"observable")),
            ("without its certificate", entry.partition(b"\n")[0]),
            *((f"kept as {spoilt!r}", spoilt) for spoilt in (b"", b"{", b"[]", b'{"verdict": 1}\n')),
        ):
            write(place, text)
            self.same(f"a verdict {name} does not stand", store.found(model, test), None)
        for name, text in (("of no verdict", b"observable\n"), ("that is empty", b"")):
            store.keep(model, test, io.BytesIO(text))
            self.same(f"a text {name} does not stand", store.found(model, test), None)

    def test_kept(self) -> None:
        """What was not taken for longest goes, where there is more than the limit; and nothing else in the folder does."""
        model, found = model_file(f"{TOP}/{TUTORIAL}"), Found("unobservable", "forbidden")
        tests = [replace(test_file(f"{TOP}/{MP}"), digest=letter) for letter in "abc"]
        text = b"unobservable\ntest forbidden: ok\n" + b"x" * 1000
        store = f"{self.work}/store"
        for name in ("mine", "0" * 64 + ".part", "0" * 64 + "." + "0" * 32 + ".part"):
            os.utime(self.put(f"store/{name}", text), (0, 0))
        verdicts = Kept(store, "the program", "a suite")
        for age, test in enumerate(tests):
            verdicts.keep(model, test, io.BytesIO(text))
            os.utime(verdicts.place(model, test), (1000 - age, 1000 - age))
        self.same("a verdict is taken", verdicts.found(model, tests[2]), (found, text))
        with replaced(keeping, "MOST_BYTES", 2500):
            verdicts.shorten()
        left = {os.path.basename(verdicts.place(model, test)) for test in (tests[0], tests[2])}
        name = "the one that was not taken for longest goes, with what is half written"
        self.same(name, {*os.listdir(store)}, left | {"mine", "0" * 64 + ".part"})
