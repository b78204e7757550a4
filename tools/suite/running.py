"""The run of a suite: all pairs, side by side, and then the table with what stands below it."""
import os
import tempfile
import time
from collections import defaultdict
from contextlib import suppress
from dataclasses import dataclass
from functools import partial
from typing import Iterator, Sequence

from tools.suite.allowing import Answer, Judges, Machines, Rows, line_of_unnamed
from tools.suite.calling import PYTHON, Calls, side_by_side
from tools.suite.files import Copies, File, in_order
from tools.suite.keeping import Folder, Kept, new_file, write_anew
from tools.suite.pairs import BUG, FAULT, FORBIDDEN, MACHINE, NOT_TAKEN, OBSERVABLE, OK, PERMITTED, SWEPT, TIME, UNNAMED
from tools.suite.pairs import UNOBSERVABLE, UNSTATED, UNWRITTEN, Checker, Found, cell_of, cell_of_rows, rows_told, takes, words_beside
from tools.suite.telling import table_of_models, tell
from tools.suite.words import Words
from tools.texts.memory_models import memory_model_of
from tools.texts.quoting import shown

# how the cell of a refused test begins; where a model is refused nothing is known of the test
REFUSED = "test:"
# how long lint may take, where a call may not take longer
LINT_SECONDS = 60.0
# the statuses of lint that come with all its lines
LINTED = (0, 1, 3, 4)

Pair = tuple[File, File]


def checked(checker: Checker, stores: Sequence[Kept], copies: Copies, model: File, test: File, place: str) -> Found:
    """Checks a pair, or takes what is kept of it, and has its certificate at a place."""
    try:
        for store in stores:
            known = store.found(model, test)
            if known is not None:
                write_anew(place, known[1])
                return known[0]
        with new_file(place) as out:
            try:
                found = checker.found(copies, model, test, out)
            except OSError:
                found = Found(fault=FAULT)
            if found.verdict:
                for store in stores:
                    store.keep(model, test, out)
                os.replace(out.name, place)
            else:
                with suppress(FileNotFoundError):
                    os.unlink(place)
    except OSError:
        return Found(fault=UNWRITTEN)
    return found


def lint_lines(top: str, tests: Sequence[File], calls: Calls, seconds: float, model: File) -> list[str]:
    """What lint says of a model and the tests. A call has so many seconds, or as many as lint may take."""
    command = [*PYTHON, os.path.join(top, "tools"), "lint", model.path, *(test.path for test in tests)]
    with tempfile.TemporaryFile() as out:
        try:
            status = calls.status(command, None, max(LINT_SECONDS, seconds), out)
        except OSError:
            # more tests than one call takes
            status = None
        out.seek(0)
        said = os.fsdecode(out.read()).split("\n")[:-1]
    return said if status in LINTED else [*said, f"not linted: {shown(model.path)}"]


def counted(tests: set[str]) -> str:
    """How many tests these are, and the first of them."""
    return f"{len(tests)} {'test' if len(tests) == 1 else 'tests'}, the first {shown(min(tests))}"


@dataclass
class Suite:
    """All models on all tests."""

    top: str
    words: Words
    copies: Copies
    rows: Rows
    checker: Checker
    folder: Folder
    # what an interrupted suite has got, and what is kept over suites
    state: Kept
    kept: Kept

    def __post_init__(self) -> None:
        self.machines = Machines(self.top)
        self.known = self.rows.memory_models | self.machines.names
        named = {model.name: memory_model_of(model.text or b"").name for model in self.words.models}
        self.memory_models = {model: name if name in self.known else None for model, name in named.items()}
        # model by model
        self.pairs = [(model, test) for model in self.words.models for test in self.words.tests]
        self.found: dict[Pair, Found] = {}
        # by memory model and test
        self.answers: defaultdict[tuple[str, File], Answer] = defaultdict(Answer)
        # what is found of them all: the cells by the names of model and test, the lines below their table, and how long it took
        self.cells: dict[tuple[str, str], str] = {}
        self.below: list[str] = []
        self.seconds = 0.0

    def run(self, jobs: int, seconds: float) -> None:
        begun = time.monotonic()
        self.check_pairs(jobs)
        self.ask_machines(jobs, seconds)
        calls = self.checker.calls
        lint = [partial(lint_lines, self.top, self.words.tests, calls, seconds, model) for model in self.words.models]
        self.below = self.lines_below(side_by_side(calls, jobs, lint))
        self.cells = {(model.name, test.name): self.cell(model, test) for model, test in self.pairs}
        self.seconds = time.monotonic() - begun

    # what is found

    def check_pairs(self, jobs: int) -> None:
        """Finds each pair."""
        stores = (self.state, self.kept)
        tasks = [partial(checked, self.checker, stores, self.copies, *pair, self.folder.place(*pair)) for pair in self.pairs]
        try:
            self.found = dict(zip(self.pairs, side_by_side(self.checker.calls, jobs, tasks, is_long=True)))
        except BaseException:
            count = sum(1 for _ in self.state.entries())
            if count:
                tell(f"suite: {count} pairs are kept, and the next suite goes on from there")
            raise
        for store in stores:
            store.tell_taken()

    def ask_machines(self, jobs: int, seconds: float) -> None:
        """Asks the machines of patterns, each within the limit of a call, and of tests of one's own, all within it."""
        judges = Judges(self.machines, self.copies, seconds, self.checker.calls)
        named = {(self.named_judge(model, test), test): None for model, test in self.pairs}
        for is_pattern in (True, False):
            asked = [(name, test) for name, test in named if name in self.machines.names and test.is_pattern == is_pattern]
            deadline = None if is_pattern else time.monotonic() + seconds
            tasks = [partial(judges.answer, name, test, deadline) for name, test in asked]
            self.answers.update(zip(asked, side_by_side(self.checker.calls, jobs, tasks)))
        for machine in judges.by_thread.values():
            machine.end()

    def named_judge(self, model: File, test: File) -> str | None:
        """The memory model whose machine is to say what a pair should be: the pair has a verdict, or rows, that mean something, and
        no row of the table says it."""
        name = self.memory_models[model.name]
        has_verdict = self.found[model, test].verdict != "" and not test.is_query and takes(model, test)
        return name if name is not None and has_verdict and self.rows.allowed(name, test) is None else None

    # what is shown

    def cell(self, model: File, test: File) -> str:
        found = self.found[model, test]
        name = self.memory_models[model.name]
        if found.fault:
            return found.fault
        if not takes(model, test):
            return NOT_TAKEN
        if test.is_query:
            return OK if found.stated == test.expected else f"{BUG} ({found.stated})"
        if name is None:
            # its own word decides on a test of one's own, whatever the memory model
            return UNNAMED if test.is_pattern or self.rows.has(test) else cell_of(found, None)
        answer = self.answers[name, test]
        if answer.fault:
            return MACHINE
        if not test.is_pattern:
            return cell_of(found, self.rows.allowed(name, test))
        if answer.rows is None:
            return TIME if answer.is_late else SWEPT
        return cell_of_rows(found, answer.rows)

    def lines_below(self, linted: Sequence[Sequence[str]]) -> list[str]:
        """What stands below the table, each line once: of models without a memory model, of machines, of a table that is
        named, and of lint."""
        lines = [
            line_of_unnamed(model, self.known)
            for model in self.words.models
            if self.memory_models[model.name] is None and any(not self.found[model, test].fault for test in self.words.tests)
        ]
        lines += self.lines_of_machines()
        others = {name for _, name in self.rows.rows} - {test.name for test in self.words.tests}
        if self.rows.by_name and others:
            lines.append(f"not in this suite, but in the table of SUITE_TABLE: {counted(others)}")
        lines += (line for said in linted for line in said)
        left_out = list(self.lines_left_out())
        below = []
        for line in dict.fromkeys(lines):
            below += [line, *(said for place, said in left_out if line.startswith(place))]
        return below

    def lines_left_out(self) -> Iterator[tuple[str, str]]:
        """What to do about what of herd's is not read here, behind the place with which the line of a refused listing begins."""
        for test in self.words.tests:
            of_models = (self.found[model, test] for model in self.words.models)
            refused = next((found for found in of_models if found.fault.startswith(REFUSED)), None)
            if refused is not None and test.path.endswith(".litmus"):
                # few suites need it
                from tools.telling.refusals import left_out, refusal_of

                place = f"{shown(test.path)}:{refused.place}: "
                refusal = refusal_of(f"refused test {refused.fault.removeprefix(REFUSED)} at {refused.place}")
                for said in left_out(self.top, test.text or b"", refusal):
                    yield place, f"{place}left-out: {said.removeprefix('pipecheck: ')}"

    def lines_of_machines(self) -> Iterator[str]:
        """Where a machine says otherwise than a test of one's own, or than a verdict on a test that states nothing; and
        which rows of a pattern differ."""
        judged = [(model, test, name) for model, test in self.pairs if (name := self.named_judge(model, test)) is not None]
        for model, test, _ in judged:
            yield from self.lines_of_pair(model, test)
        late = {test.path for _, test, name in judged if self.answers[name, test].is_late}
        if late:
            yield f"not compared with a machine within the limit of time: {counted(late)}"
        if judged and not self.machines.names:
            yield f"not compared with machines: there are none in {shown(self.machines.folder)}"

    def lines_of_pair(self, model: File, test: File) -> Iterator[str]:
        """What a machine says of a pair that differs from it."""
        name = self.named_judge(model, test)
        if name is None:
            return
        found, answer = self.found[model, test], self.answers[name, test]
        if answer.fault:
            verdict = "" if test.is_pattern else f"{model.name} says {found.verdict}, and "
            yield f"{shown(test.path)}: {verdict}the machine of {name} failed: {answer.fault}"
        elif answer.rows is not None and test.is_pattern:
            for said in rows_told(words_beside(name), found.rows, answer.rows):
                yield f"{shown(test.path)}: {model.name}: {said}"
        elif answer.rows is not None:
            stated, verdict = (PERMITTED, OBSERVABLE) if answer.rows else (FORBIDDEN, UNOBSERVABLE)
            if found.stated not in (UNSTATED, stated):
                yield f"{shown(test.path)}: the test says {found.stated}, and the machine of {name} {stated}"
            elif found.stated == UNSTATED and found.verdict != verdict:
                yield f"{shown(test.path)}: {model.name} says {found.verdict}, and the machine of {name} {verdict}"

    def table(self, width: int | None) -> list[str]:
        """The table, with the rows that the options ask for."""
        models = [model.name for model in self.words.models]
        rows = []
        for test in in_order(self.words.tests):
            row = [self.cells[model, test.name] for model in models]
            is_shown = "--differ" not in self.words.options or len(set(row)) > 1
            if is_shown and not ("--bad" in self.words.options and set(row) == {OK}):
                rows.append([test.name, *row])
        return table_of_models(models, rows, width)
