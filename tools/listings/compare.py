"""Compares the states in a log, of herd7 or of litmus7, with those that a model shows of the listings of the same names.

    python3 tools compare MODEL LISTING.. LOG

The states of the model come from sweeps of the built program, which is built first where it is not. Each state is a line
on standard output, and the last line counts; what cannot be compared is told on standard error. docs/compare.md has
the exit statuses.
"""
import os
from collections import Counter
from functools import partial
from typing import Mapping, Sequence

from tools import TOP
from tools.ending import SIGNALS
from tools.lint.asked import Asked
from tools.listings.comparing import MOST_SWEEPS, Comparison, Sweep, Unasked, swept
from tools.listings.logs import Log, Result
from tools.listings.programs import LOCKED, Program
from tools.listings.reading import Notes
from tools.second.scopes import read_model
from tools.second.standard_output import FAILED
from tools.second.tokens import Fault
from tools.suite.calling import ENDING, Calls, side_by_side
from tools.suite.pairs import Checker
from tools.suite.programs import checker_of
from tools.suite.telling import tell
from tools.texts.contents import contents, read_within
from tools.texts.quoting import line_of, shown

TELLER = "compare"
LOG_LIMIT = 67_108_864
# a sweep has no limit of time of its own
SECONDS = 1e9
# how many lines of one kind are told
MOST_TOLD = 20
NONE, SOME, REFUSED, MEMORY = 0, 1, 3, 7


# those of listings by their names, each with its path
Programs = dict[str, tuple[str, Program]]


class Answer:
    """What is found, and what stands in the way of an answer."""

    def __init__(self) -> None:
        self.problem = NONE
        self.told: Counter[str] = Counter()

    def tell(self, kind: str, line: str, status: int = NONE) -> None:
        """Tells a line, one of so many of its kind. The first one with a status says which."""
        self.told[kind] += 1
        if self.told[kind] <= MOST_TOLD:
            tell(line)
        self.problem = self.problem or status

    def tell_rest(self) -> None:
        """Tells how many lines were not told."""
        for kind, count in self.told.items():
            if count > MOST_TOLD:
                tell(f"compare: {kind}: {count - MOST_TOLD} more")

    def read_listings(self, listings: Sequence[tuple[str, bytes]]) -> Programs:
        """The programs of the listings by their names, each with its path. What is refused is told."""
        found: Programs = {}
        for path, text in listings:
            try:
                program = read_within(lambda it: Program(it, Notes()), text)
            except Fault as fault:
                sentence = f"{fault.word}: the listing is refused; pipecheck test86 says what to do"
                self.tell("refused listings", line_of(path, text, fault.place, sentence), REFUSED)
                continue
            name = program.written.title
            earlier, kept = found.setdefault(name, (path, program))
            if kept is not program:
                line = f"compare: {shown(path)} has the name of {shown(earlier)}: {shown(name)}"
                self.tell("listings of one name", line, REFUSED)
        return found

    def read_log(self, path: str, text: bytes) -> list[Result]:
        """The results of the log. What is wrong with it is told."""
        if len(text) > LOG_LIMIT:
            self.tell("faults of the log", f"compare: {shown(path)} has more than {LOG_LIMIT} bytes", REFUSED)
            return []
        log = Log(text)
        for line, sentence in log.faults:
            self.tell("faults of the log", f"{shown(path)}:{line}: {sentence}", REFUSED)
        for line, sentence in log.notes:
            self.tell("tests that come again", f"{shown(path)}:{line}: {sentence}")
        return list(log.results.values())

    def joined(self, path: str, result: Result, programs: Programs, asked: Mapping[str, int]) -> Comparison | None:
        """A result with the program of its listing; None where that cannot be asked, which is told."""
        _, program = programs.get(result.name, ("", None))
        if program is None:
            why = f"no listing that is read has the name {result.name}"
        elif LOCKED not in asked and any(LOCKED in op.types for op in program.made):
            why = f"{result.name} has locked instructions, and the model asks for no type {LOCKED}"
        else:
            comparison = Comparison(result, program)
            # what the log says to its condition its states have to say to that of the listing
            if len(result.answers) != 1 or comparison.met_by_log(result.quantifier) in result.answers:
                return comparison
            why = f"the condition of the listing {result.name} is not met as the log says: is it another listing?"
        self.tell("tests that are not compared", f"{shown(path)}:{result.line}: not compared: {why}", REFUSED)
        return None

    def tell_unused(self, programs: Programs, results: Sequence[Result]) -> None:
        """Tells how many listings are not in the log."""
        names = {result.name for result in results}
        unused = [path for name, (path, _) in programs.items() if name not in names]
        if unused:
            count = "1 listing is" if len(unused) == 1 else f"{len(unused)} listings are"
            self.tell("unused listings", f"compare: {count} of no test of the log, the first {shown(unused[0])}")

    def ask(self, comparisons: Sequence[Comparison], checker: Checker, model: str) -> list[Comparison]:
        """Asks the program for what it shows, and answers those that it could be asked of."""
        done = []
        waiting: list[tuple[Comparison, Sweep]] = []
        for comparison in comparisons:
            try:
                waiting += [(comparison, sweep) for sweep in comparison.sweeps()]
                done.append(comparison)
            except Unasked as problem:
                line = f"compare: not compared: {comparison.result.name}: {problem}"
                self.tell("tests that are not compared", line, REFUSED)
            if len(waiting) >= MOST_SWEEPS:
                run(waiting, checker, model)
                waiting = []
        run(waiting, checker, model)
        for comparison in done:
            if comparison.failed is not None:
                why = f"a sweep of it has no answer, and the status {comparison.failed}"
                status = comparison.failed if comparison.failed in (REFUSED, MEMORY) else FAILED
                self.tell("tests that are not compared", f"compare: not compared: {comparison.result.name}: {why}", status)
        return [comparison for comparison in done if comparison.failed is None]


def compare(model_path: str, listing_paths: Sequence[str], log_path: str) -> tuple[list[str], int]:
    """The lines and the status."""
    model_text = contents(model_path)
    listings = [(path, contents(path)) for path in listing_paths]
    log_text = contents(log_path, LOG_LIMIT)
    answer = Answer()
    asked = None
    try:
        asked = Asked(read_within(read_model, model_text)).types
    except Fault as fault:
        line = line_of(model_path, model_text, fault.place, f"{fault.word}: the model is refused")
        answer.tell("a refused model", line, REFUSED)
    programs = answer.read_listings(listings)
    results = answer.read_log(log_path, log_text)
    if asked is None:
        answer.tell_rest()
        return [], answer.problem
    found = [answer.joined(log_path, result, programs, asked) for result in results]
    answer.tell_unused(programs, results)
    with SIGNALS.temporary_folder() as folder:
        checker = checker_of(os.environ, TOP, SECONDS, Calls())
        copy = os.path.join(folder, "model.uspec")
        with open(copy, "wb") as file:
            file.write(model_text)
        done = answer.ask([it for it in found if it is not None], checker, copy)
    answer.tell_rest()
    both, log_alone, model_alone = (sum(column) for column in zip((0, 0, 0), *(one.counts() for one in done)))
    said = f"{both} states shown by both, {log_alone} in the log alone, {model_alone} in the model alone{checker.said}"
    lines = [line for comparison in done for line in comparison.lines()]
    return [*lines, f"{len(done)} of {len(results)} tests compared: {said}"], SOME if log_alone else answer.problem


def run(waiting: Sequence[tuple[Comparison, Sweep]], checker: Checker, model: str) -> None:
    """Runs sweeps side by side, and notes what each shows."""
    tasks = [partial(swept, checker, model, comparison.program, sweep) for comparison, sweep in waiting]
    answers = side_by_side(checker.calls, len(os.sched_getaffinity(0)), tasks, is_long=True)
    for (comparison, sweep), found in zip(waiting, answers):
        comparison.take(sweep, found)


def main(model: str, *paths: str) -> int:
    """The status. A signal ends what was called, and then this process."""
    SIGNALS.receive(ENDING)
    lines, status = compare(model, paths[:-1], paths[-1])
    for line in lines:
        print(line)
    return status
