"""What memory models allow: the rows of a table, and the machines of tools/agree, of which a process runs one test after another."""
import json
import math
import os
import signal
import subprocess
import tempfile
import threading
import time
from contextlib import suppress
from dataclasses import dataclass, field
from glob import glob
from typing import NamedTuple

from tools.ending import Refusal
from tools.suite.calling import GRACE, PYTHON, Calls, limited, memory_limit
from tools.suite.files import Copies, File
from tools.texts.memory_models import FORM, memory_model_of
from tools.texts.quoting import line_of, quoted, shown

COLUMNS = ("memory model", "test", "allowed")


class Rows:
    """The rows of a table. They go by the name of a test alone where the table is named on purpose, and otherwise by
    its bytes too: a test of one's own that is named as a shipped one is not that test."""

    def __init__(self, path: str, by_name: bool) -> None:
        self.by_name = by_name
        # by memory model and test, each by the names of the columns
        self.rows: dict[tuple[str, str], dict[str, str]] = {}
        try:
            with open(path, encoding="utf-8", errors="surrogateescape") as file:
                lines = [line.split("\t") for line in file.read().splitlines()]
        except OSError as error:
            raise Refusal(f"the table {shown(path)} cannot be read") from error
        head = lines.pop(0) if lines and lines[0][:1] == [COLUMNS[0]] else [*COLUMNS]
        missing = [name for name in COLUMNS if name not in head]
        if missing:
            raise Refusal(f"the table {shown(path)} has no column {missing[0]}")
        for cells in lines:
            row = dict(zip(head, cells))
            lacking = "yes or no" if row.get("allowed") not in ("yes", "no") else next((it for it in COLUMNS if it not in row), "")
            if lacking:
                raise Refusal(f"the table {shown(path)} has a row without {lacking}: {quoted(chr(9).join(cells))}")
            name = row[COLUMNS[0]].lower(), row[COLUMNS[1]]
            if self.rows.setdefault(name, row)["allowed"] != row["allowed"]:
                raise Refusal(f"the table {shown(path)} has yes and no for one test: {quoted(chr(9).join(cells))}")
            self.rows[name] = row

    @property
    def memory_models(self) -> set[str]:
        return {name for name, _ in self.rows}

    def has(self, test: File) -> bool:
        """Whether a row of any memory model is of this test."""
        return any(self.allowed(name, test) is not None for name in self.memory_models)

    def allowed(self, memory_model: str, test: File) -> bool | None:
        """What the row of a test says; None where the test has none."""
        row = self.rows.get((memory_model, test.name))
        if row is None or not (self.by_name or row.get("sha256", "") == test.digest != ""):
            return None
        return row["allowed"] == "yes"


class Machines:
    """The machines of a checkout, or of an installed copy, each a file by the name of its memory model."""

    def __init__(self, top: str) -> None:
        self.tools = os.path.join(top, "tools")
        self.folder = os.path.join(self.tools, "agree", "machines")
        self.names = {file.removesuffix(".py") for file in glob("[!_]*.py", root_dir=self.folder)}

    def command(self, name: str, *words: str) -> list[str]:
        """What says what the machine of this name allows of a test, which the word names."""
        return [*PYTHON, self.tools, "verdicts", name, *words]


def line_of_unnamed(model: File, known: set[str]) -> str:
    """Why a model names no memory model that is known, as a line."""
    text = model.text or b""
    named = memory_model_of(text)
    sentence = named.fault or f"no row and no machine has the memory model {named.name}"
    *names, last = sorted(known) or ["none"]
    listed = " and ".join([", ".join(names), last] if names else [last])
    said = f"unnamed: {sentence}; known are {listed}, named once by a comment {FORM}"
    return line_of(model.path, text, named.at, said)


class Answer(NamedTuple):
    """What a machine says of a test: which rows come up, of a test without open reads the one without values, or none. Nothing where
    it does not run such tests; or it is late, or fails, and how."""

    rows: frozenset[str] | None = None
    is_late: bool = False
    fault: str = ""


class Machine:
    """A process of the machine of one memory model, which has a limit of time of its own. It is asked a line at a time."""

    def __init__(self, name: str, command: list[str], calls: Calls) -> None:
        self.name = name
        self.calls = calls
        self.said = tempfile.TemporaryFile()
        under_limits = limited(command, memory_limit(""), None)
        self.process = calls.started(under_limits, subprocess.PIPE, self.said, signal.SIGKILL, subprocess.PIPE)

    def answer(self, path: str, seconds: float) -> list[str] | None:
        """The rows of a test, or None where it does not run it. Where it ends in these seconds, or is ended after them, that is a
        ValueError."""
        questions, answers = self.process.stdin, self.process.stdout
        assert questions is not None and answers is not None
        with self.calls.limit(self.process, seconds):
            with suppress(BrokenPipeError):
                questions.write(json.dumps(path).encode("ascii") + b"\n")
                questions.flush()
            found: list[str] | None = json.loads(answers.readline())
        return found

    def end(self) -> Answer:
        """Ends the process, which has some time to end by itself, and answers what was wrong with it."""
        assert self.process.stdin is not None and self.process.stdout is not None
        with suppress(BrokenPipeError):
            self.process.stdin.close()
        status = self.calls.finished(self.process, GRACE)
        self.process.stdout.close()
        with self.said as said:
            said.seek(0)
            lines = said.read().decode("ascii", "backslashreplace").splitlines()
        said_last = ": ".join([f"status {status}", *lines[-1:]])
        return Answer(is_late=True) if status is None else Answer(fault=said_last if status else "its answer is none")


@dataclass
class Judges:
    """The machines that are asked: each thread has a process of its own, which it keeps for tests of one memory model."""

    machines: Machines
    copies: Copies
    # the limit of one test
    seconds: float
    calls: Calls
    by_thread: dict[int, Machine] = field(default_factory=dict)

    def answer(self, name: str, test: File, deadline: float | None) -> Answer:
        """What the machine of this name says of a test up to a moment of the clock, or within the limit of one test."""
        seconds = self.seconds if deadline is None else deadline - time.monotonic()
        if seconds <= 0:
            return Answer(is_late=True)
        machine = self.by_thread.pop(threading.get_ident(), None)
        # the limit may have come with the last answer
        if machine is not None and (machine.name != name or machine.process in self.calls.late):
            machine.end()
            machine = None
        if machine is None:
            command = self.machines.command(name, "--within", str(math.ceil(self.seconds) + 1))
            machine = Machine(name, command, self.calls)
        try:
            rows = machine.answer(self.copies.path(test), seconds)
        except ValueError:
            return machine.end()
        self.by_thread[threading.get_ident()] = machine
        return Answer(None if rows is None else frozenset(rows))
