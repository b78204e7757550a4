"""Names the order that a model lacks, of an outcome that it shows. The program says all verdicts.

    python3 tools mend MODEL TEST

docs/mend.md has the exit statuses.
"""
import os
from functools import cached_property
from pathlib import Path
from typing import Iterator

from tools import TOP
from tools.ending import SIGNALS, Ended, Refusal
from tools.lint.asked import Asked
from tools.mend.asking import Questions, SuiteTests, Unanswered, is_shown
from tools.mend.copies import Outcome, free_name, program_of
from tools.mend.orders import Found, Search
from tools.mend.telling import MOST_CHOICES, MOST_SHOWN, MOST_STRONGER, TITLE, Telling
from tools.second.listings import ENDING
from tools.second.scopes import read_model
from tools.suite.allowing import Machines
from tools.suite.calling import Calls, side_by_side
from tools.suite.pairs import Checker
from tools.suite.programs import checker_of
from tools.telling.refusals import told
from tools.texts.contents import contents
from tools.texts.memory_models import memory_model_of
from tools.texts.naming import Names, case_with_names
from tools.texts.wrapping import width_of_output, within

TELLER = "pipecheck"
# how long one call of the program may take, in seconds
SECONDS = 60.0
# what checks a test, and a listing
CHECKS = ("check", "check86")
# of a call without an answer, those that stand for themselves
REFUSED, NO_MEMORY = 3, 7


def checked(checker: Checker, model_path: str, test_path: str) -> None:
    """Has the program check the files; what is no verdict, and that nothing is to mend, is all that is said."""
    try:
        is_there = is_shown(checker, CHECKS[test_path.endswith(ENDING)], model_path, test_path)
    except Unanswered as unanswered:
        if unanswered.status in (REFUSED, NO_MEMORY):
            raise Ended(unanswered.status, text=unanswered.said.decode("ascii", "replace")) from unanswered
        raise
    if not is_there:
        raise Ended(1, text="The model does not show this outcome: there is nothing to mend. `core` says what forbids it.\n")


class Mending:
    """A model and a test whose outcome it shows."""

    def __init__(self, checker: Checker, folder: str, model_text: bytes, test_path: str, test_text: bytes) -> None:
        model = read_model(model_text)
        case = case_with_names(test_path, test_text)
        self.checker = checker
        self.program = program_of(case)
        self.questions = Questions(checker, folder, model, model_text, self.program, free_name(model_text, test_text))
        self.machines = Machines(TOP)
        self.memory_model = memory_model_of(model_text).name
        predicates = Asked(model).predicates
        self.telling = Telling(Names(model, case, model_text), self.program, self.memory_model, predicates)

    def lines(self) -> tuple[list[str], int]:
        """What is said, and the status."""
        shown = list(self.questions.shown(self.questions.model_path))
        stated = self.program.stated
        others = [outcome for outcome in shown if outcome != stated]
        allowed = None
        if self.memory_model in self.machines.names:
            allowed = self.questions.allowed(self.machines, self.memory_model)
        kept = others if allowed is None else [outcome for outcome in others if outcome in allowed]
        heading = [*self.telling.heading(None if allowed is None else stated in allowed, len(others), len(kept)), ""]
        if not kept:
            return [*heading, "So no order can be told from one that forbids the whole program: take a test with more."], 1
        found = Search(self.questions, stated, kept).found()
        lines = [*heading, *self.orders(found, kept)]
        is_mended = bool(found.choices) or any(not order.lost for order in found.orders)
        return [*lines, f"The program was asked {self.questions.count} times."], 0 if is_mended else 1

    def orders(self, found: Found, kept: list[Outcome]) -> Iterator[str]:
        """The orders, the first of them with their axioms, and then those that order more."""
        if found.choices:
            yield "No order of two nodes forbids it and keeps all of these. These choices do:"
        elif not found.orders:
            yield "No order of two nodes forbids it and keeps some other outcome."
        elif found.orders[0].lost:
            yield "No order forbids it and keeps all of these. The ones that lose the fewest:"
        else:
            yield "Each of these orders forbids it and keeps all of these; the nearest first:"
        yield ""
        for choice in found.choices[:MOST_CHOICES]:
            yield from self.telling.choice(choice)
            yield from self.axiom(choice.axiom(self.questions.model, TITLE), kept)
            yield ""
        for order in found.orders[:MOST_SHOWN]:
            yield self.telling.order(order)
            yield from self.telling.lost(order)
            if order.relation is not None:
                yield from self.axiom(order.relation.axiom(self.questions.model, TITLE), kept)
            yield ""
        more = [*found.orders[MOST_SHOWN:], *found.stronger]
        if more:
            yield "These do it as well, and most of them order more:"
            yield from (f"    {self.telling.order(order)}" for order in more[:MOST_STRONGER])
            if len(more) > MOST_STRONGER:
                yield f"    and {len(more) - MOST_STRONGER} more"
            yield ""

    @cached_property
    def tests(self) -> SuiteTests:
        """The shipped tests, which are asked about where an axiom is shown."""
        return SuiteTests(self.checker, TOP, self.memory_model, self.questions.model_path)

    def axiom(self, lines: list[str], kept: list[Outcome]) -> Iterator[str]:
        """An axiom, with what it does to the program and to the shipped tests."""
        path = self.questions.file("with", self.questions.text + "\n".join(["", *lines, ""]).encode("ascii"))
        shown = set(self.questions.shown(path))
        yield from self.telling.axiom(lines, sum(outcome in shown for outcome in kept), len(kept), self.tests.counts(path))


def answer(model_path: str, test_path: str) -> tuple[list[str], int]:
    """What is said of the files, and the status."""
    model_text, test_text = contents(model_path), contents(test_path)
    calls = Calls()
    with SIGNALS.temporary_folder() as folder:
        checker = checker_of(os.environ, TOP, SECONDS, calls)
        paths = os.path.join(folder, "given_model"), os.path.join(folder, f"given_test{os.path.splitext(test_path)[1]}")
        for path, text in zip(paths, (model_text, test_text)):
            Path(path).write_bytes(text)

        def work() -> tuple[list[str], int]:
            checked(checker, *paths)
            return Mending(checker, folder, model_text, test_path, test_text).lines()

        # a signal comes to this thread, and ends the calls of the other one
        (said,) = side_by_side(calls, 1, [work])
    return said


def main(model_path: str, test_path: str) -> int:
    """Writes what is said of the files, and answers the exit status."""
    SIGNALS.receive()
    try:
        lines, status = answer(model_path, test_path)
    except Ended as ended:
        if ended.status != REFUSED:
            raise
        words = [CHECKS[test_path.endswith(ENDING)], model_path, test_path]
        raise Ended(REFUSED, *told(TOP, ended.text, words, "mend"), text=ended.text) from ended
    except OSError as error:
        raise Refusal(f"mend: {error.strerror}; TMPDIR names another folder for temporary files") from error
    for line in within(lines, width_of_output()):
        print(line)
    return status
