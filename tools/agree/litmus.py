"""Litmus tests as the machines run them: each core's micro-ops in program order, and the stated outcome. A listing and a pattern, whose
reads may be open, are tests too. What a file says is read by the second implementation, and judged by nothing of it.
"""
from dataclasses import dataclass
from functools import cached_property
from typing import Callable, Hashable, Iterable, Iterator, NamedTuple, TypeVar

from tools.second.cases import Address as Place
from tools.second.cases import Case, Page, Value
from tools.second.listings import ENDING as LISTING
from tools.second.listings import read_file_case
from tools.second.tokens import tokens
from tools.texts.contents import contents

# the types of a full fence: that of tests, and that of herd's X86 listings
FULL = frozenset({"Full", "MFENCE"})

# a tag and an index, or the virtual tag of a page-table entry
Address = tuple[int, ...]
# the values of reads in test order
Reads = tuple[Value, ...]
# the value of each address
Memory = tuple[tuple[Address, Value], ...]
# the reads that were done, in test order, by their places with what they got
ReadValues = tuple[tuple[int, Value], ...]
# the values of all reads, and the last value of each address
Outcome = tuple[Reads, Memory]

Key = TypeVar("Key", bound=Hashable)
Item = TypeVar("Item")
Reached = TypeVar("Reached", bound=Hashable)


class NotRun(ValueError):
    """A machine does not run tests of this layout, and why."""


class Op(NamedTuple):
    """A micro-op. `place` is its number in test order; `core` is the place of its core in `Test.cores`; `instruction` is
    the number of its instruction. The value of an open read is not looked at."""

    place: int
    core: int
    kind: str
    types: frozenset[str]
    address: Address = (0, 0)
    value: Value = 0
    instruction: int = 0
    virtual: Address = (0, 0)
    is_open: bool = False

    @property
    def is_full_fence(self) -> bool:
        """Whether it orders all of its core before it and after it."""
        return self.kind == "Fence" and not FULL.isdisjoint(self.types)

    @property
    def is_at_entry(self) -> bool:
        return self.kind != "Fence" and len(self.address) == 1


@dataclass(frozen=True)
class Test:
    """A test: its cores, what else it says, and whether it may name page-table entries."""

    cores: tuple[tuple[Op, ...], ...]
    case: Case
    has_entries: bool

    @property
    def ops(self) -> list[Op]:
        """All micro-ops in test order."""
        return sorted((op for core in self.cores for op in core), key=lambda op: op.place)

    @property
    def dependencies(self) -> set[tuple[str, int, int]]:
        """The kind and the places of each dependency."""
        return self.case.dependencies

    @property
    def has_locked(self) -> bool:
        """Whether an instruction has more than one micro-op, as a locked read-modify-write has."""
        return len({op.instruction for op in self.ops}) < len(self.ops)

    @cached_property
    def memory(self) -> Memory:
        """The memory at the start: each address in use with its value. One that only a final value names keeps its own."""
        places = [*(op.pa for op in self.case.ops if op.pa is not None), *self.case.final]
        return tuple(sorted({address_of(it): self.case.initial_at(it) for it in places}.items()))

    def rows_shown_by(self, outcomes: Iterable[Outcome]) -> set[Reads]:
        """What the open reads get in those of the outcomes that are stated ones: by the values of the reads that are not open,
        and by the final values. Without open reads it is the one empty row, or none."""
        ops = [op for op in self.ops if op.kind == "Read"]
        final = {address_of(it): value for it, value in self.case.final.items()}
        return {
            tuple(value for op, value in zip(ops, reads) if op.is_open)
            for reads, memory in outcomes
            if all(op.is_open or op.value == value for op, value in zip(ops, reads))
            and final.items() <= dict(memory).items()
        }


def read_file(path: str) -> Test:
    """The test of a file, which is a listing or a pattern where its name says so."""
    return test_of_text(path, contents(path))


def test_of_text(path: str, text: bytes) -> Test:
    """The test of a text that stands in a file of this name."""
    case = read_file_case(path, text)
    open_places = [item.is_open for item in case.op_items]
    threads = sorted({(op.core, op.thread) for op in case.ops})
    lines: dict[tuple[int, int], list[Op]] = {thread: [] for thread in threads}
    for place, op in sorted(enumerate(case.ops), key=lambda placed: (placed[1].g, placed[1].n)):
        here = Op(place, threads.index((op.core, op.thread)), op.access, op.types, instruction=op.g, is_open=open_places[place])
        if op.pa is not None and op.va is not None:
            here = here._replace(address=address_of(op.pa), virtual=address_of(op.va), value=op.value or 0)
        lines[op.core, op.thread].append(here)
    has_entries = not path.endswith(LISTING) and tokens(text)[0].piece == "Litmus2"
    return Test(tuple(map(tuple, lines.values())), case, has_entries)


def address_of(place: Place) -> Address:
    """An address of the second implementation as the machines have it."""
    return (place.tag, place.index) if isinstance(place, Page) else (place.tag,)


def replaced(pairs: tuple[tuple[Key, Item], ...], key: Key, value: Item) -> tuple[tuple[Key, Item], ...]:
    """A tuple of pairs, with this value at the key; a key that is not there comes last."""
    return tuple({**dict(pairs), key: value}.items())


def with_item(items: tuple[Item, ...], place: int, item: Item) -> tuple[Item, ...]:
    """A tuple with another item at a place."""
    return (*items[:place], item, *items[place + 1 :])


def with_read(reads: ReadValues, op: Op, value: Value) -> ReadValues:
    """The reads with one more, in test order: in which order they were done makes no other state."""
    return tuple(sorted((*reads, (op.place, value))))


def ends(start: Reached, steps: Callable[[Reached], Iterable[Reached]]) -> Iterator[Reached]:
    """The states that can be reached from the start and have no further step."""
    seen = {start}
    waiting = [start]
    while waiting:
        state = waiting.pop()
        following = list(steps(state))
        if not following:
            yield state
        for state in following:
            if state not in seen:
                seen.add(state)
                waiting.append(state)


def values_of(reads: ReadValues) -> Reads:
    return tuple(value for _, value in reads)
