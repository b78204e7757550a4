"""What the families of the suite share: a call of it, and a judge of its table.

In the words of calls, in variables of the environment and in what is wanted, WORK stands for the folder of the cases. Of what the
suite writes N stands for the seconds, and NAMES for the memory models that are known.
"""
from __future__ import annotations

import contextlib
import io
import os
import re
import shutil
import signal
import subprocess
import threading
from collections import Counter
from functools import partial
from typing import Any, Callable, Sequence

from tests.cases import LONGEST, PATIENCE, Cases, Done, apart, call, command, read, replaced, run, script_entry, write

# what a suite imports where it is needed is there before it is forked
from tools.lint import main as lint
import tools.suite.axioms
import tools.suite.reports
from tools.explain import files as explaining_files
from tools.lint import linting
from tools.second import queries
from tools.second.standard_output import FAILED
from tools.suite import running
from tools.suite.files import File
from tools.telling.ended import status_told

SC = "examples/models/sc-inorder.uspec"
TUTORIAL = "examples/models/tutorial.uspec"
BUFFER = "examples/models/tso-buffer.uspec"
EARLY = "examples/buggy/tutorial-early.uspec"
MP = "examples/tests/MP.test"
SB = "examples/tests/SB.test"
CORR = "examples/tests/CoRR.test"
TSO = "the machine of tso"
# the table of message passing and store buffering on the in-order pipeline, which many calls are asked for
GOOD = """\
test  sc-inorder
MP    ok
SB    ok
2 pairs: 2 ok, 0 BUG, 0 stricter, 0 time, 0 faults, in N s
"""
# what the last line counts, some of it where there is any
COUNTED, SOMETIMES = ("ok", "BUG", "stricter", "unstated", "not taken", "time", "faults"), ("unstated", "not taken")
# how it counts these cells; what it does not name otherwise is a fault
KINDS = {**dict.fromkeys(("observable", "unobservable", "swept"), "unstated"), "BUG (never)": "BUG"}
LINTING = threading.Lock()


def tabled(models: str, rows: str, counts: str = "", *below: str) -> str:
    """The table of these models, with rows of a test and its cells, in which `_` stands for a blank; the lines below it; and the
    last line, of which all other counts are 0. Where nothing is said of them it counts the cells."""
    cells = [[it.replace("_", " ") for it in row.split()] for row in (f"test {models}", *filter(None, rows.split(", ")))]
    widths = [max(map(len, column)) for column in zip(*cells, strict=True)]
    lines = ["  ".join(map(str.ljust, row, widths)).rstrip() for row in cells]
    kinds = [KINDS.get(it, it) for row in cells[1:] for it in row[1:]]
    found = dict(Counter(it if it in COUNTED else "faults" for it in kinds))
    if counts:
        found = {word: int(number) for number, word in (it.split(" ", 1) for it in counts.split(", "))}
    said = ", ".join(f"{found.get(it, 0)} {it}" for it in COUNTED if it in found or it not in SOMETIMES)
    return "".join(f"{line}\n" for line in (*lines, *below, f"{sum(found.values())} pairs: {said}, in N s"))


def lint_here(_: str, tests: Sequence[File], __: object, ___: float, model: File) -> list[str]:
    """What lint says of a model and the tests, by its entry in this process."""
    with LINTING, contextlib.redirect_stdout(io.StringIO()) as out, contextlib.redirect_stderr(io.StringIO()):
        words = [model.path, *(it.path for it in tests)]
        status = status_told(partial(lint.main, *words), words, lint.TELLER, FAILED)
    if status not in running.LINTED:
        raise AssertionError(f"lint ended with {status}")
    return out.getvalue().split("\n")[:-1]


def no_lint(*_: object) -> list[str]:
    """Nothing, where a case is about much that lint takes long for, and that others ask it of."""
    return []


def without_first_line(path: str) -> str:
    """The text of a file behind its first line, which in a model names the memory model."""
    return read(path).partition("\n")[2]


def of_suite(done: Done, work: str) -> Done:
    """What a suite wrote, with the names for what differs from call to call."""
    out = re.sub(r"in [0-9]+ s(,.*)?$", r"in N s\1", done.out.replace(work, "WORK"), flags=re.MULTILINE)
    out = re.sub("known are .* and [a-z]*, named", "known are NAMES, named", out)
    return Done(done.status, out, done.err.replace(work, "WORK"))


class SuiteCases(Cases):
    """Cases of the suite, with copies of these tests in WORK/tests, and certificates in WORK/kept."""

    tests: Sequence[str] = ()

    def setUp(self) -> None:
        super().setUp()
        # the folder of the suite that is called, and how it is told what lint says
        self.top = apart()
        self.lint_lines: Callable[..., list[str]] = lint_here
        os.mkdir(f"{self.work}/tests")
        self.copy("tests", *self.tests)

    def copy_suite(self, folder: str = "copy") -> None:
        """Has the suite be called that stands in a folder of WORK."""
        self.top = f"{self.work}/{folder}"
        shutil.copytree(apart(), self.top, symlinks=True)

    def put(self, name: str, text: str | bytes) -> str:
        """Writes a file in WORK, in a folder that is made where it is not there. Returns its path."""
        os.makedirs(os.path.dirname(f"{self.work}/{name}"), exist_ok=True)
        return write(f"{self.work}/{name}", text)

    def copy(self, folder: str, *paths: str) -> None:
        """Copies files into a folder of WORK."""
        for it in paths:
            self.put(f"{folder}/{os.path.basename(it)}", read(it))

    def script(self, name: str, text: str) -> str:
        """Writes a script of the shell in WORK, which can be called. Returns its path."""
        return command(f"{self.work}/{name}", text)

    def at(self, text: str) -> str:
        """A text with the folder that WORK stands for."""
        return text.replace("WORK", self.work)

    def variables(self, env: dict[str, str]) -> dict[str, str | None]:
        """The environment of a suite; SUITE_TESTS and SUITE_FOLDER are in WORK where nothing else is said, and no call is late."""
        said = {"SUITE_TESTS": "WORK/tests", "SUITE_FOLDER": "WORK/kept", "SUITE_SECONDS": str(PATIENCE), **env}
        return {**dict.fromkeys(("PIPECHECK", "SUITE_KEPT", "COLUMNS")), **{name: self.at(it) for name, it in said.items()}}

    def called(self, *words: str, **env: str) -> Done:
        """Calls the suite in a process that is forked from this one."""
        path = f"{self.top}/examples/suite"

        def entry() -> None:
            # no call may wait for what never comes
            signal.alarm(LONGEST)
            with replaced(running, "lint_lines", self.lint_lines), replaced(tools, "TOP", self.top):
                script_entry(path)()

        return call(entry, [path, *map(self.at, words)], env=self.variables(env))

    def begun(
        self, *words: str, env: dict[str, str] | None = None, before: Sequence[str] = (), **how: Any
    ) -> subprocess.Popen[bytes]:
        """Starts the suite as a process of its own; these words stand before it."""
        return self.begin([*before, f"{self.top}/examples/suite", *map(self.at, words)], self.variables(env or {}), **how)

    def started(self, *words: str, env: dict[str, str] | None = None, before: Sequence[str] = (), **how: Any) -> Done:
        """Runs the suite as a process of its own; these words stand before it."""
        return run([*before, f"{self.top}/examples/suite", *map(self.at, words)], env=self.variables(env or {}), **how)

    def writes(self, name: str, done: Done, status: int, text: str, said: str = "") -> None:
        """The suite wrote this table with the folder of certificates above the last line, which counts."""
        *lines, count = text.splitlines(keepends=True)
        self.judge(name, of_suite(done, self.work), status, "".join([*lines, "certificates: WORK/kept\n", count]), said)

    def table(self, name: str, status: int, text: str, *words: str, **env: str) -> None:
        """The suite writes this table."""
        if self.is_wanted(name):
            self.writes(name, self.called(*words, **env), status, text)

    def rows(self, name: str, status: int, words: Sequence[str], rows: str, *below: str, counts: str = "", **env: str) -> None:
        """The suite writes the table of the models that are among these words."""
        models = " ".join(os.path.basename(it).removesuffix(".uspec") for it in words if it.endswith(".uspec"))
        self.table(name, status, tabled(models, rows, counts, *below), *words, **env)

    def refuses(self, name: str, line: str, *words: str, **env: str) -> None:
        """The suite says this line and prints no table."""
        self.judge(name, lambda: of_suite(self.called(*words, **env), self.work), 2, "", f"suite: {line}\n")
