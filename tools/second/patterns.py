"""Patterns: tests in which reads may be open, each of which stands for one test for every combination of what the open
reads may get; and the sweep, which says of each combination whether it is observable."""
from dataclasses import dataclass, replace
from itertools import product

from tools.second.cases import Address, Case, Entry, Value, read_case
from tools.second.models import Model
from tools.second.searching import is_observable
from tools.second.tokens import Fault

MOST_ROWS = 4096
# the ending of a file that is read as a pattern where no command says how
ENDING = ".pattern"


@dataclass(frozen=True)
class Pattern:
    """A case in which the open reads have 0, and of each open read its place in test order and what it may get."""

    case: Case
    opens: tuple[int, ...]
    choices: tuple[tuple[Value, ...], ...]

    def row_case(self, row: tuple[Value, ...]) -> Case:
        """The case in which the open reads get these values."""
        ops = self.case.ops[:]
        for place, value in zip(self.opens, row):
            ops[place] = replace(ops[place], value=value)
        return replace(self.case, ops=ops)


def values_at(case: Case, place: int) -> tuple[Value, ...]:
    """What a read may get: the value at the start at its physical address, then those of the writes there in test order."""
    address = case.ops[place].pa
    assert address is not None
    return tuple(dict.fromkeys([case.initial_at(address), *written_at(case, address)]))


def written_at(case: Case, address: Address) -> list[Value]:
    """The values of the writes at an address, in test order."""
    return [op.value for op in case.ops if op.access == "Write" and op.pa == address and op.value is not None]


def read_pattern(data: bytes) -> Pattern:
    """The pattern that the bytes say, or their first fault. That it has too many rows is judged last."""
    case = read_case(data, takes_open=True)
    ops = case.op_items
    opens = [place for place, item in enumerate(ops) if item.is_open]
    choices = [values_at(case, place) for place in opens]
    count = 1
    for place, values in zip(opens, choices):
        count *= len(values)
        if count > MOST_ROWS:
            raise Fault("too-many-rows", ops[place].value_at)
    return Pattern(case, tuple(opens), tuple(choices))


def sweep(model: Model, pattern: Pattern) -> list[tuple[tuple[Value, ...], bool]]:
    """Each row, the last open read changing fastest, and whether it is observable."""
    return [(row, is_observable(model, pattern.row_case(row))) for row in product(*pattern.choices)]


def value_text(value: Value) -> str:
    """A number, or the three parts of an entry."""
    return f"Maps:{value.tag}:{value.accessed}:{value.dirty}" if isinstance(value, Entry) else str(value)


def sweep_text(rows: list[tuple[tuple[Value, ...], bool]]) -> str:
    verdicts = {True: "observable", False: "unobservable"}
    lines = [f"sweep {len(rows)}"]
    lines += [" ".join(["row", *map(value_text, row), verdicts[is_seen]]) for row, is_seen in rows]
    seen = sum(is_seen for _, is_seen in rows)
    return "\n".join([*lines, f"observable {seen}", f"unobservable {len(rows) - seen}", "end", ""])
