"""What is said of a test and of the orders that forbid it, in the words of the model and of the test."""
from typing import Iterator, Sequence

from tools.explain.files import key
from tools.mend.asking import Counts
from tools.mend.copies import Outcome, Program
from tools.mend.orders import Order
from tools.mend.relations import Choice
from tools.second.cases import Case
from tools.second.patterns import value_text
from tools.texts.naming import Names

TITLE = "mend"
# how many orders are shown with an axiom, and how many that order more
MOST_SHOWN = 4
MOST_CHOICES = 2
MOST_STRONGER = 24


class Telling:
    """The words for micro-ops, nodes and outcomes."""

    def __init__(self, names: Names, program: Program, memory_model: str, predicates: set[str]) -> None:
        self.names = names
        self.program = program
        self.case: Case = program.case
        self.memory_model = memory_model
        self.is_final_unasked = bool(self.case.final) and "DataFromFinalStateAtPA" not in predicates

    def heading(self, is_allowed: bool | None, shown: int, kept: int) -> Iterator[str]:
        """The micro-ops, the outcome, and what else the program does."""
        yield from key(self.case, self.names)
        yield ""
        yield "The model shows this outcome." + {
            True: f" {self.memory_model} allows it: no order has to forbid it.",
            False: f" {self.memory_model} forbids it.",
            None: "",
        }[is_allowed]
        if is_allowed is None:
            yield f"What else of this program is allowed is not known: the {shown} other outcomes that are shown count."
        else:
            yield f"Of this program {shown} other outcomes are shown, {kept} of them allowed by {self.memory_model}."
        if self.is_final_unasked:
            yield "No axiom asks for the value at the end, which this test states: first write one that does."

    def order(self, order: Order) -> str:
        reads = dict.fromkeys(op for part in order.parts for op in part.where)
        where = f", where {' and '.join(map(self.read, reads))}" if reads else ""
        return "add " + " and ".join(self.names.fact((*part.edge, True)) for part in order.parts) + where

    def choice(self, choice: Choice) -> Iterator[str]:
        """A choice in the words of the test, a line for each read and write."""
        for read, write, source in choice.nodes(self.case):
            node = self.names.node
            yield f"add {node(read)} before {node(write)}, or {node(write)} before {node(source)}"

    def read(self, op: int) -> str:
        one = self.case.ops[op]
        assert one.pa is not None and one.value is not None
        return f"{self.names.microop(op)} reads {self.names.page(one.pa)} = {value_text(one.value)}"

    def outcome(self, outcome: Outcome) -> str:
        reads = [f"{self.names.microop(op)} = {value_text(value)}" for op, value in zip(self.program.opens, outcome.reads)]
        final = [f"at the end {self.names.page(page)} = {value_text(value)}" for page, value in outcome.final]
        return ", ".join([*reads, *final])

    def lost(self, order: Order) -> Iterator[str]:
        yield from (f"    forbids, too: {self.outcome(outcome)}" for outcome in order.lost[:3])
        if len(order.lost) > 3:
            yield f"    and {len(order.lost) - 3} more"

    def axiom(self, lines: Sequence[str], keeps: int, others: int, counts: Counts | None) -> Iterator[str]:
        """The axiom of a relation, and what it does to this program and to other tests."""
        yield from (f"    {line}" for line in lines)
        of_program = "all other outcomes" if keeps == others else f"{keeps} of {others} other outcomes"
        said = f"With it this program keeps {of_program}"
        if counts is not None:
            said += f"; of the shipped tests {counts.stricter} of {counts.allowed} turn to stricter, and "
            said += f"{counts.mended} of {counts.bugs} BUGs are gone"
        yield f"    {said}."
