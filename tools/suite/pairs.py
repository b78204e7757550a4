"""A pair of a model and a test: what the program says of it, and what the table shows of that."""
import os
import re
import tempfile
from dataclasses import dataclass
from functools import lru_cache
from typing import IO, Iterator, NamedTuple

from tools.suite.calling import Calls
from tools.suite.files import Copies, File

OBSERVABLE, UNOBSERVABLE = "observable", "unobservable"
# by the status of `check` with its first line, and that of `verify` with its line
VERDICTS = (OBSERVABLE, UNOBSERVABLE)
SWEPT, ASKED = "swept", "asked"
OK, BUG, STRICTER, TIME, UNNAMED, FAULT = "ok", "BUG", "stricter", "time", "unnamed", "fault"
NOT_TAKEN, LOCKED = "not taken", "Locked"
# cells that are no bug, nothing lost and no fault
GOOD = (OK, OBSERVABLE, UNOBSERVABLE, SWEPT, NOT_TAKEN)
CERTIFICATE, UNREADABLE, UNWRITTEN, MACHINE = "certificate", "unreadable", "unwritten", "machine"
REFUSED = re.compile(rb"refused ([a-z]+) ([a-z0-9-]+) at ([0-9]+:[0-9]+)")
UNSTATED, PERMITTED, FORBIDDEN = "unstated", "permitted", "forbidden"
STATED = re.compile(r"test (?:(unstated)|(permitted|forbidden): (?:ok|BUG|stricter))")
SUMMARY = re.compile(rb"sweep [0-9]+")
# the lines that are looked at are short
HEAD = 4096

# what reads tests and models is imported where one has to be read, which few calls need: it takes as long as all the rest
# pylint: disable=import-outside-toplevel


class Found(NamedTuple):
    """What is known of a pair: a verdict whose certificate is judged, with what the test states of its outcome; or the
    rows of a sweep that are observable, each as the sweep writes it; or the word that answers a query, as what is stated;
    or the cell of a fault, with the place in a file that is refused."""

    verdict: str = ""
    stated: str = ""
    fault: str = ""
    rows: frozenset[str] = frozenset()
    place: str = ""


@dataclass
class Checker:
    """The program, within limits; and what the last line says of it."""

    command: list[str]
    kib: int | None
    seconds: float
    calls: Calls
    said: str = ""

    def status(self, words: list[str], out: IO[bytes]) -> int | None:
        return self.calls.status([*self.command, *words], self.kib, self.seconds, out)

    def found(self, copies: Copies, model: File, test: File, out: IO[bytes]) -> Found:
        """Checks a pair. The certificate goes to a file, which has a path; the answer to a query has several."""
        if test.is_query:
            return self.answered(copies.path(model), test, copies.path_of_asked(test), copies.path(test), out)
        return self.checked(copies.path(model), test, copies.path(test), out)

    def answered(self, model: str, query: File, test: str, path: str, out: IO[bytes]) -> Found:
        """Asks the query at this path of a model on its test. Each certificate is judged in the model that it is of."""
        from tools.texts.answers import AnswerRefused, read_answer
        from tools.explain.files import parts_of
        from tools.second.scopes import read_model
        from tools.second.tokens import Fault

        status = self.status([query.kind.check, model, test, path], out)
        out.seek(0)
        said = out.read()
        found = answer_found(said)
        if status != 0 or found.fault:
            return fault_of(status, said.split(b"\n", 1)[0])
        with open(model, "rb") as file:
            text = file.read()
        try:
            read = read_model(text)
            parts = [*parts_of(read, text, read_answer(said, read), query.text or b"")]
        except (AnswerRefused, Fault):
            return Found(fault=CERTIFICATE)
        with tempfile.TemporaryDirectory() as folder:
            of_part, part = os.path.join(folder, "model"), os.path.join(folder, "part")
            for _, wanted, written, certificate in parts:
                for place, content in ((of_part, written), (part, certificate)):
                    with open(place, "wb") as file:
                        file.write(content)
                fault = self.fault_of_judge(VERDICTS[wanted], [str(query.kind.verify), of_part, test, part])
                if fault:
                    return Found(fault=fault)
        return found

    def checked(self, model: str, test: File, path: str, out: IO[bytes]) -> Found:
        """Checks the test at this path, and has the certificate judged."""
        status = self.status([test.kind.check, model, path], out)
        said = os.pread(out.fileno(), HEAD, 0)
        first = said.split(b"\n", 1)[0]
        if test.kind.verify is None and status == 0 and SUMMARY.fullmatch(first):
            out.seek(0)
            return rows_found(out.read())
        verdict = first.decode("latin-1")
        if test.kind.verify is None or verdict not in VERDICTS or status != VERDICTS.index(verdict):
            return fault_of(status, first)
        fault = self.fault_of_judge(verdict, [test.kind.verify, model, path, out.name])
        return Found(fault=fault) if fault else verdict_found(said)

    def fault_of_judge(self, verdict: str, words: list[str]) -> str:
        """The cell where the judge of certificates does not say this verdict; nothing where it does."""
        with tempfile.TemporaryFile() as out:
            status = self.status(words, out)
            said = os.pread(out.fileno(), HEAD, 0)
        if status is None:
            return TIME
        is_same = status == VERDICTS.index(verdict) and said.rstrip(b"\n") == b"verified " + verdict.encode("ascii")
        return "" if is_same else CERTIFICATE


def fault_of(status: int | None, first: bytes) -> Found:
    refused = REFUSED.fullmatch(first)
    if status is None:
        return Found(fault=TIME)
    if status == 3 and refused is not None:
        kind, word, place = (part.decode("ascii") for part in refused.groups())
        return Found(fault=f"{kind}:{word}", place=place)
    return Found(fault=UNREADABLE if status == 4 else f"status:{status}")


def found_in(test: File, text: bytes) -> Found:
    """What the program's text on a test says."""
    return rows_found(text) if test.is_pattern else answer_found(text) if test.is_query else verdict_found(text)


def verdict_found(text: bytes) -> Found:
    """The verdict that a certificate says in its first line, and in its second what the test states."""
    first, second, *_ = [*text[:HEAD].decode("latin-1").split("\n"), ""]
    stated = STATED.fullmatch(second)
    if first not in VERDICTS or stated is None:
        return Found(fault=FAULT)
    return Found(first, stated[1] or stated[2])


def rows_found(text: bytes) -> Found:
    """The rows of a sweep that are observable."""
    lines = text.decode("latin-1").splitlines()
    if lines[-1:] != ["end"]:
        return Found(fault=FAULT)
    ending = f" {OBSERVABLE}"
    rows = (line.removesuffix(ending) for line in lines if line.startswith("row ") and line.endswith(ending))
    return Found(SWEPT, rows=frozenset(rows))


def answer_found(text: bytes) -> Found:
    from tools.texts.answers import WORLDS

    first, _, word = text.split(b"\n", 1)[0].decode("latin-1").partition(" ")
    return Found(ASKED, word) if first == "ask" and word in WORLDS else Found(fault=FAULT)


def cell_of(found: Found, is_allowed: bool | None) -> str:
    """What the table shows of a verdict, where a row says what is allowed, or else the test itself."""
    if is_allowed is None:
        if found.stated == UNSTATED:
            return found.verdict
        is_allowed = found.stated == PERMITTED
    if found.verdict == OBSERVABLE:
        return OK if is_allowed else BUG
    return STRICTER if is_allowed else OK


def cell_of_rows(found: Found, allowed: frozenset[str]) -> str:
    """What the table shows of a sweep, where a machine says which rows come up."""
    return BUG if found.rows - allowed else STRICTER if allowed - found.rows else OK


def words_beside(machine: str) -> tuple[str, str]:
    """What is said of rows that a model alone shows, and of those that its machine alone has."""
    return f"shown though {machine} does not allow it", f"allowed by {machine} and not shown"


def rows_told(words: tuple[str, str], seen: frozenset[str], wanted: frozenset[str]) -> Iterator[str]:
    """The rows that only one of two has, those of each behind its words."""
    for said, rows in zip(words, (seen - wanted, wanted - seen)):
        if rows:
            yield f"{said}: {', '.join(row.removeprefix('row').strip() or 'the only row' for row in sorted(rows))}"


def kind_of(cell: str) -> str:
    """A cell without the answer in its brackets."""
    return BUG if cell.startswith(f"{BUG} (") else cell


def takes(model: File, test: File) -> bool:
    """Whether the axioms of a model ask for the type of locked micro-ops, where a test has some: else the model does not know what
    these mean. Of a file with a fault the fault is told, and not this."""
    return not has_locked(test) or asks_for_locked(model)


@lru_cache(None)
def has_locked(test: File) -> bool:
    """Whether a test has micro-ops of locked instructions, or that of a query."""
    if test.asked_of is not None:
        return has_locked(test.asked_of)
    if test.text is None or LOCKED.encode("ascii") not in test.text:
        return False
    from tools.second.listings import read_file_case
    from tools.second.tokens import Fault

    try:
        case = read_file_case(test.path, test.text)
    except Fault:
        return False
    return any(LOCKED in op.types for op in case.ops)


@lru_cache(None)
def asks_for_locked(model: File) -> bool:
    from tools.lint.asked import Asked
    from tools.second.scopes import read_model
    from tools.second.tokens import Fault

    try:
        return LOCKED in Asked(read_model(model.text or b"")).types
    except Fault:
        return True
