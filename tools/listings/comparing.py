"""A test of a log beside what a model shows of the listing of the same name, by sweeps of the built program: one for each combination
of values at the end."""
import tempfile
from dataclasses import dataclass, field
from itertools import product
from math import prod
from typing import Iterator, Mapping, NamedTuple

from tools.listings.logs import Result, State
from tools.listings.programs import Program
from tools.listings.reading import Variable, register_name
from tools.second.cases import Page
from tools.second.patterns import ENDING, MOST_ROWS
from tools.second.standard_output import FAILED
from tools.suite.pairs import OBSERVABLE, Checker
from tools.suite.telling import aligned

# how many sweeps there are of a test at most
MOST_SWEEPS = 4_096
# the values of the open reads in each row that is observable, or the status of a sweep that has no answer
Swept = set[tuple[int, ...]] | int
BOTH = "shown by both"
# what the log alone has, and what the model alone shows, by whether the log is of a machine, which counts, or of herd
LOG_ALONE = {True: "BUG: the machine does what the model forbids", False: "herd allows what the model forbids"}
MODEL_ALONE = {True: "shown by the model and not seen", False: "the model shows what herd forbids"}
ANSWERS = {True: "Ok", False: "No"}


class Unasked(Exception):
    """A test is not asked of the model, and why."""


class Sweep(NamedTuple):
    """What one sweep asks: what some reads get, and the values at the end."""

    reads: Mapping[int, int]
    finals: Mapping[Page, int]


@dataclass
class Comparison:
    """A result of a log with the program of its listing, and the states that the model shows."""

    result: Result
    program: Program
    shown: set[State] = field(default_factory=set)
    # the status of a sweep that has no answer
    failed: int | None = None

    @property
    def variables(self) -> list[Variable]:
        """Those of the states of the log, by the names that the listing has; where it has no state, those of the condition."""
        if not self.result.states:
            return self.program.condition.variables
        is_wide = self.program.written.is_wide
        return [it if it.thread is None else Variable(it.thread, register_name(it.name, is_wide)) for it in self.result.variables]

    @property
    def asked(self) -> list[Variable]:
        """The log's variables, and after them those that the condition asks for, too."""
        return list(dict.fromkeys([*self.variables, *self.program.condition.variables]))

    def sweeps(self) -> list[Sweep]:
        """What is asked: for each combination of the values at the end, and of what so many of the first reads get that the others
        have no more combinations than one sweep takes. A variable that the listing has not is refused."""
        program = self.program
        for variable in self.asked:
            if variable.thread is None and variable.name not in program.locations:
                raise Unasked(f"the listing has no location {variable.name}")
            if variable.thread is not None and variable.thread >= len(program.written.head):
                raise Unasked(f"the listing has no thread {variable.thread}")
        choices = [program.choices(number) for number in program.reads]
        closed = 0
        while prod(map(len, choices[closed:])) > MOST_ROWS:
            closed += 1
        locations = dict.fromkeys(program.locations[it.name] for it in self.asked if it.thread is None)
        written = {it: values for it in locations if (values := program.writes_to(it))}
        sides = [*choices[:closed], *written.values()]
        if prod(map(len, sides)) > MOST_SWEEPS:
            raise Unasked(f"it takes more than {MOST_SWEEPS} sweeps")
        return [Sweep(dict(zip(program.reads[:closed], it)), dict(zip(written, it[closed:]))) for it in product(*sides)]

    def take(self, sweep: Sweep, found: Swept) -> None:
        """Notes the states of the rows that are observable in a sweep, or that it has no answer."""
        if isinstance(found, int):
            self.failed = found
            return
        asked = self.asked
        opened = [number for number in self.program.reads if number not in sweep.reads]
        for row in found:
            reads = {**sweep.reads, **dict(zip(opened, row))}
            self.shown.add(tuple(self.program.value(variable, reads, sweep.finals) for variable in asked))

    @property
    def projected(self) -> set[State]:
        """What the model shows of the log's variables."""
        count = len(self.variables)
        return {state[:count] for state in self.shown}

    def counts(self) -> tuple[int, int, int]:
        """How many states both have, the log alone, and the model alone."""
        seen, shown = set(self.result.states), self.projected
        return len(seen & shown), len(seen - shown), len(shown - seen)

    def lines(self) -> Iterator[str]:
        """A line for each state, and one for the condition."""
        is_counted, shown = self.result.is_counted, self.projected
        found = []
        for state, times in self.result.states.items():
            count = f", {times} {'time' if times == 1 else 'times'}" if is_counted else ""
            found.append((self.text(state), (BOTH if state in shown else LOG_ALONE[is_counted]) + count))
        found += [(self.text(state), MODEL_ALONE[is_counted]) for state in sorted(shown - set(self.result.states))]
        yield from (f"{self.result.name}: {line}" for line in aligned(found))
        yield f"{self.result.name}: {self.answers()}"

    def text(self, state: State) -> str:
        """A state as the log spells it."""
        names = self.result.spelled if self.result.states else map(str, self.variables)
        return " ".join(f"{name}={value};" for name, value in zip(names, state))

    def met_by_log(self, quantifier: str) -> bool | None:
        """Whether the states of the log meet the listing's condition, by this quantifier; None where they lack a variable."""
        condition = self.program.condition._replace(quantifier=quantifier)
        has_all = set(condition.variables) <= set(self.variables)
        return condition.is_met(self.variables, self.result.states) if has_all else None

    def answers(self) -> str:
        """What the model and the log say to the condition of the listing."""
        condition = self.program.condition
        said = f"{condition.quantifier}: {ANSWERS[condition.is_met(self.asked, self.shown)]} in the model"
        in_log = self.met_by_log(condition.quantifier)
        return said if in_log is None else f"{said}, {ANSWERS[in_log]} in the log"


def swept(checker: Checker, model: str, program: Program, sweep: Sweep) -> Swept:
    """What the program that stands answers to a sweep."""
    with tempfile.NamedTemporaryFile(suffix=ENDING) as pattern, tempfile.TemporaryFile() as out:
        pattern.write(program.pattern(sweep.reads, sweep.finals).encode("ascii"))
        pattern.flush()
        status = checker.status(["sweep", model, pattern.name], out)
        out.seek(0)
        lines = out.read().decode("latin-1").splitlines()
    rows = [line.split(" ") for line in lines if line.startswith("row ")]
    is_whole = status == 0 and lines[:1] == [f"sweep {len(rows)}"] and lines[-1] == "end"
    if not is_whole:
        return FAILED if status is None else status
    return {tuple(map(int, values)) for _, *values, verdict in rows if verdict == OBSERVABLE}
