"""Copies of a test in which each micro-op has a type name of its own, so that a formula can speak of it alone; and the
outcomes of its program, of each of which there is such a copy.
"""
from dataclasses import dataclass, replace
from itertools import islice, product
from math import prod
from typing import Iterator, NamedTuple

from tools.second.cases import Address, Case, Value
from tools.second.patterns import Pattern, values_at, written_at
from tools.texts.writing_tests import item_lines

# how many outcomes of a program are looked at, and how many final values among them
MOST_OUTCOMES = 256
MOST_FINALS = 64
NAME = "Named"

Final = tuple[tuple[Address, Value], ...]


class Outcome(NamedTuple):
    """What the open reads of a program get, in the order of the test, and final values."""

    reads: tuple[Value, ...]
    final: Final


@dataclass(frozen=True)
class Program(Pattern):
    """A test without its outcome, whose reads are left open; and what the addresses may have at the end that it states."""

    finals: tuple[Final, ...]

    @property
    def stated(self) -> Outcome:
        values = (self.case.ops[place].value for place in self.opens)
        return Outcome(tuple(value for value in values if value is not None), tuple(self.case.final.items()))

    def rows(self, final: Final) -> Iterator[Outcome]:
        """The outcomes with these final values, as a sweep has its rows."""
        return (Outcome(reads, final) for reads in product(*self.choices))

    def case_of(self, outcome: Outcome) -> Case:
        return replace(self.row_case(outcome.reads), final=dict(outcome.final))


def program_of(case: Case) -> Program:
    """The program of a test. Of a large one fewer reads are open."""
    # what an address may have at the end: the values of its writes, or without any the one at the start
    addresses = {it: dict.fromkeys(written_at(case, it) or [case.initial_at(it)]) for it in case.final}
    finals = [tuple(zip(addresses, values)) for values in islice(product(*addresses.values()), MOST_FINALS)]
    opens: list[int] = []
    choices: list[tuple[Value, ...]] = []
    for place, op in enumerate(case.ops):
        if op.access == "Read" and prod(map(len, [*choices, values_at(case, place), finals])) <= MOST_OUTCOMES:
            opens.append(place)
            choices.append(values_at(case, place))
    return Program(case, tuple(opens), tuple(choices), tuple(finals))


def free_name(*texts: bytes) -> str:
    """What the type names of the micro-ops begin with, which none of these texts has."""
    name = NAME
    while any(name.encode("ascii") in text for text in texts):
        name += "d"
    return name


def text_of(case: Case, name: str, opens: tuple[int, ...] = ()) -> bytes:
    """The test of a case, in which each micro-op has a type of this name and its place, with these reads open."""
    ops = [
        (replace(op, types=op.types | {f"{name}{place}"}, value=None if place in opens else op.value), "")
        for place, op in enumerate(case.ops)
    ]
    lines = [line for line, _ in item_lines(case.initial.items(), ops, case.final.items())]
    for kind, i, j in sorted(case.dependencies):
        lines.append(f"Relationship {kind} {case.ops[i].g} {case.ops[i].n} -> {case.ops[j].g} {case.ops[j].n}.")
    # the older format has no page-table entries
    has_entries = any("(Entry " in line or "(Maps " in line for line in lines)
    return "\n".join([f'{"Litmus2" if has_entries else "Litmus"} "mend".', *lines, ""]).encode("ascii")
