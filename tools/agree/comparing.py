"""A model beside a machine: whether both say the same of a test, or of what the open reads of a pattern get."""
import os
import re
import subprocess
from functools import lru_cache
from importlib import import_module
from types import ModuleType
from typing import Callable, NamedTuple

from tools import TOP
from tools.agree.litmus import NotRun, Test, test_of_text
from tools.agree.verdicts import rows_in, runs
from tools.ending import Ended, Refusal
from tools.lint.asked import Asked
from tools.second.models import Model
from tools.second.patterns import ENDING as PATTERN
from tools.second.patterns import read_pattern, sweep, sweep_text
from tools.second.scopes import read_model
from tools.second.searching import is_observable
from tools.second.tokens import Fault
from tools.standing import standing
from tools.suite.allowing import Machines
from tools.suite.pairs import rows_found, rows_told, words_beside
from tools.suite.programs import command_of, held
from tools.telling.files import sentence
from tools.texts.contents import Read, contents, read_within
from tools.texts.memory_models import comments, memory_model_of
from tools.texts.quoting import line_of, shown

READ = re.compile(rb"(\(\s*Read\b[^()]*(?:\([^()]*\)\s*){2})\(\s*(?:Data|Maps)[^()]*\)")
OPEN = rb"\1(Data Any)"
LOCKED = "Locked"
REFUSED = 3
# a module of the folder of machines, or of one in it
NAME = re.compile(r"[a-z0-9][a-z0-9_-]*(?:\.[a-z0-9][a-z0-9_-]*)*")


class Pair(NamedTuple):
    """A model, its machine and a test; whether all reads of the test are opened, and whether the program sweeps it."""

    model: str
    machine: str
    test: str
    is_opened: bool
    by_program: bool

    @property
    def is_swept(self) -> bool:
        """Whether the test is compared as a pattern."""
        return self.is_opened or self.test.endswith(PATTERN)


class Other(NamedTuple):
    """What a model is compared with: a machine by its name, or another model by its path."""

    name: str
    is_model: bool = False

    def words(self, model: str) -> tuple[str, str]:
        """What is said of rows that the model alone shows, and of those that the other alone has."""
        if self.is_model:
            return f"shown by {shown(model)} alone", f"shown by {shown(self.name)} alone"
        return words_beside(self.name)

    def rows_of(self, pattern: bytes, by_program: bool) -> frozenset[str]:
        if self.is_model:
            return rows_shown(self.name, pattern, by_program)
        return rows_in(machine_of(self.name), test_of_text(PATTERN, pattern))


def judged(kind: str, path: str, text: bytes, read: Callable[[bytes], Read]) -> Read:
    """What a reader makes of a file's text, or the line that tells its fault."""
    try:
        return read_within(read, text)
    except Fault as fault:
        line = line_of(path, text, fault.place, f"{fault.word}: {sentence(TOP, kind, fault.word)}")
        raise Ended(REFUSED, text=f"{line}\n") from fault


def named_memory_model(path: str) -> str:
    named = memory_model_of(contents(path))
    if not named.name:
        raise Refusal(f"{shown(path)}: {named.fault}")
    return named.name


@lru_cache(None)
def machine_of(name: str) -> ModuleType:
    machines = Machines(TOP)
    if NAME.fullmatch(name) is None or not os.path.isfile(os.path.join(machines.folder, *name.split(".")) + ".py"):
        known = ", ".join(sorted(machines.names))
        raise Refusal(f"there is no machine of the memory model {shown(name)}; there are {known}")
    return import_module(f"tools.agree.machines.{name}")


@lru_cache(None)
def model_of(path: str) -> Model:
    """The model of a file, as the second implementation reads it."""
    return judged("model", path, contents(path), read_model)


@lru_cache(None)
def test_of(path: str) -> Test:
    """The test of a file, as the machines run it."""
    return judged("test", path, contents(path), lambda text: test_of_text(path, text))


@lru_cache(None)
def rows_allowed(name: str, path: str, is_opened: bool) -> frozenset[str]:
    """What the open reads get in the outcomes that come up on a machine. Each machine runs each test once."""
    test = test_of_text(PATTERN, pattern_of(path, True)) if is_opened else test_of(path)
    try:
        return rows_in(machine_of(name), test)
    except NotRun as error:
        raise Refusal(f"{shown(path)}: the machine {name} does not run it: {error}") from error


def is_allowed(name: str, path: str) -> bool:
    return bool(rows_allowed(name, path, False))


def take(model: str, machine: str, path: str) -> bool:
    """Whether a machine runs tests of this kind, and a model asks which micro-ops are locked where some are."""
    test = test_of(path)
    return runs(machine_of(machine), test) and (test.has_entries or not test.has_locked or asks_for_locked(model))


def pattern_of(path: str, is_opened: bool) -> bytes:
    """The text of a pattern; of a test whose reads are opened, the pattern that it is then, with blanks for its comments."""
    text = contents(path)
    if is_opened:
        for at, comment in comments(text):
            text = text[:at] + re.sub(rb"[^\n]", b" ", comment) + text[at + len(comment) :]
        text = READ.sub(OPEN, text)
    judged("test", path, text, read_pattern)
    return text


def rows_shown(model: str, pattern: bytes, by_program: bool) -> frozenset[str]:
    """The rows of a pattern that a sweep calls observable."""
    if not by_program:
        return rows_found(sweep_text(sweep(model_of(model), read_pattern(pattern))).encode("ascii")).rows
    # in memory alone, so that nothing is left of it, however this process ends
    with open(os.memfd_create("pattern"), "wb") as file:
        file.write(pattern)
        file.flush()
        command = [*sweeper().words, "sweep", model, f"/proc/{os.getpid()}/fd/{file.fileno()}"]
        done = subprocess.run(command, capture_output=True, check=False)
    found = rows_found(done.stdout)
    if done.returncode != 0 or found.fault:
        said = f"status {done.returncode} {done.stdout.decode('utf-8', 'replace')[:100]!r}"
        raise Refusal(f"{shown(model)}: the program swept no pattern: {said}")
    return found.rows


class Sweeper(NamedTuple):
    """The words that call what sweeps, none where nothing has the command `sweep`, and what the last line says of it."""

    words: list[str]
    said: str


@lru_cache(maxsize=None)
def sweeper() -> Sweeper:
    """What PIPECHECK says, or the program that stands."""
    value = os.environ.get("PIPECHECK", "")
    try:
        if value:
            found = Sweeper(command_of(value), "")
        else:
            stands = standing(TOP)
            found = Sweeper([held(stands.path)], stands.said)
        done = subprocess.run([*found.words, "sweep", "", ""], stdout=subprocess.DEVNULL, check=False)
        if done.returncode != 2:
            return found
    except (OSError, SystemExit) as error:
        if value:
            raise Refusal(f"PIPECHECK: {error}") from error
    return Sweeper([], "")


def difference(pair: Pair) -> str:
    """How the model and its machine differ on the test; nothing where they do not."""
    if pair.is_swept:
        seen = rows_shown(pair.model, pattern_of(pair.test, pair.is_opened), pair.by_program)
        wanted = rows_allowed(pair.machine, pair.test, pair.is_opened)
        return "; ".join(rows_told(words_beside(pair.machine), seen, wanted))
    is_seen = is_observable(model_of(pair.model), test_of(pair.test).case)
    is_wanted = is_allowed(pair.machine, pair.test)
    said = f"shown {'yes' if is_seen else 'no'}, {pair.machine} allows {'yes' if is_wanted else 'no'}"
    return "" if is_seen == is_wanted else said


def types_asked(model: str) -> set[str]:
    """The types that a model asks for, but that of locked instructions."""
    return Asked(model_of(model)).types.keys() - {LOCKED}


def asks_for_locked(model: str) -> bool:
    return LOCKED in Asked(model_of(model)).types
