"""Small tests that lint makes up, of the types, kinds and cores that a model asks for.

They say what an axiom may ask of some test, so that one that the tests given leave alone is not called idle: an axiom
on fences is right also where no test has a fence. They are the same at each call.
"""
import random
from dataclasses import replace
from typing import Iterator, NamedTuple, Sequence, TypeVar

from tools.lint.asked import Asked
from tools.second.cases import Case, Entry, EntryAddress, Op, Page

FEWEST = 40
ENTRY_PREDICATES = {"EntryOf", "MapsTagOf", "MarkedAccessed", "MarkedDirty"}
# what may depend on a read, by the kind of the dependency
DEPENDENTS = {"addr": {"Read", "Write"}, "data": {"Write"}, "ctrl": {"Read", "Write", "Fence"}}
# with more of them the micro-ops of one instruction have the same types, or one of them has none
MOST_TYPES_IN_PAIRS = 12
# for a model that asks for more types, or for more kinds of dependencies, no test is made
MOST_NAMES = 256

Types = frozenset[str]
PLAIN: Types = frozenset()


class Part(NamedTuple):
    """A micro-op of an instruction: its access, its types, and whether it is at the page-table entry of the page."""

    access: str
    types: Types
    is_at_entry: bool = False


Instruction = tuple[Part, ...]
Choice = TypeVar("Choice")


def made_tests(asked: Asked) -> list[Case]:
    """The tests for what a model asks: each has accesses without a type, two instructions of one micro-op and one of
    several, until each of these stood in two tests. There are none for more names than MOST_NAMES."""
    if max(len(asked.types), len(asked.kinds)) > MOST_NAMES:
        return []
    source = random.Random(0)
    types = type_sets(asked)
    singles: list[Instruction] = [(Part(access, names),) for access in ("Read", "Write", "Fence") for names in types]
    # what reads and writes one address
    several: list[Instruction] = [(Part("Read", first), Part("Write", second)) for first, second in pairs(types)]
    plain = [(Part("Read", PLAIN),), (Part("Write", PLAIN),)]
    if asked.predicates & ENTRY_PREDICATES:
        several.extend(walks(types))
        plain.append((Part("Write", PLAIN, True),))
    decks = [dealt(singles, source), dealt(singles, source), dealt(several, source)]
    count = max(FEWEST, 2 * len(singles), 2 * len(several))
    return [Maker(asked, source).case([*plain, *(next(deck) for deck in decks)]) for _ in range(count)]


def type_sets(asked: Asked) -> list[Types]:
    """No type, each alone, two of them, all but one, and all. With many types there are no two of them."""
    names = frozenset(asked.types)
    one = [frozenset({name}) for name in sorted(names)]
    two = [first | second for first in one for second in one] if len(one) <= MOST_TYPES_IN_PAIRS else []
    return list(dict.fromkeys([PLAIN, *one, *two, *(names - first for first in one), names]))


def pairs(types: list[Types]) -> list[tuple[Types, Types]]:
    """The types of two micro-ops of one instruction."""
    every = [(first, second) for first in types for second in types]
    if len(types) <= MOST_TYPES_IN_PAIRS:
        return every
    return [(first, second) for first, second in every if first == second or PLAIN in (first, second)]


def walks(types: list[Types]) -> Iterator[Instruction]:
    """Accesses behind the walk of their page, with a mark and without one."""
    for access in ("Read", "Write"):
        plain = Part(access, PLAIN)
        yield from ((Part("Read", first, True), Part("Write", second, True), plain) for first, second in pairs(types))
        yield from ((Part("Read", names, True), plain) for names in types)


def dealt(choices: Sequence[Choice], source: random.Random) -> Iterator[Choice]:
    """The choices in mixed order, each once before one comes again."""
    while True:
        yield from reversed(mixed(choices, source))


def mixed(choices: Sequence[Choice], source: random.Random) -> list[Choice]:
    """The choices in another order. `random` is the same in each version of Python; other methods need not be."""
    return [choice for _, _, choice in sorted((source.random(), k, choice) for k, choice in enumerate(choices))]


class Maker:
    """Makes one test. A few values, addresses and cores for all, so that much is alike."""

    def __init__(self, asked: Asked, source: random.Random) -> None:
        self.source = source
        self.kinds = sorted(asked.kinds)
        self.cores = sorted({0, 1, *asked.cores})
        self.has_entries = bool(asked.predicates & ENTRY_PREDICATES)
        self.made = Case("made")

    def case(self, instructions: list[Instruction]) -> Case:
        """The test with these instructions, in some order."""
        for instruction in mixed(instructions, self.source):
            self.add(instruction)
        ends = [(i, j) for i in range(len(self.made.ops)) for j in range(i + 1, len(self.made.ops))]
        self.made.dependencies = {
            (kind, i, j) for kind in self.kinds for i, j in ends if self.may_depend(kind, i, j) and self.one_in(3)
        }
        for values in (self.made.initial, self.made.final):
            values.update({Page(tag, 0): self.one_of((0, 1)) for tag in (0, 1) if not self.one_in(4)})
            if self.has_entries:
                values.update({EntryAddress(tag): self.entry() for tag in (0, 1) if not self.one_in(4)})
        return self.made

    def may_depend(self, kind: str, i: int, j: int) -> bool:
        """Whether a dependency of this kind makes sense; what other kinds than the usual ones mean is not known."""
        start, end = self.made.ops[i].access, self.made.ops[j].access
        return kind not in DEPENDENTS or (start == "Read" and end in DEPENDENTS[kind])

    def one_in(self, count: int) -> bool:
        """True once in so many times."""
        return self.source.random() * count < 1

    def one_of(self, choices: Sequence[Choice]) -> Choice:
        """One of these."""
        return choices[int(self.source.random() * len(choices))]

    def entry(self) -> Entry:
        """What a page-table entry may hold."""
        return Entry(self.one_of((0, 1)), self.one_of((0, 1)), self.one_of((0, 1)))

    def add(self, instruction: Instruction) -> None:
        """One instruction more, on some core and at some page."""
        core = self.one_of(self.cores)
        # now and then a second thread of a core
        thread = core + 1 if self.one_in(6) else core
        va = Page(self.one_of((0, 1)), 0 if not self.one_in(6) else 1)
        # and a page that is mapped elsewhere
        pa = Page(va.tag if not self.one_in(6) else 1 - va.tag, va.index)
        g = len(self.made.ops)
        for n, part in enumerate(instruction):
            op = Op(g, n, core, thread, part.access, part.types)
            if part.is_at_entry:
                op = replace(op, va=va, pa=EntryAddress(va.tag), value=self.entry())
            elif part.access != "Fence":
                op = replace(op, va=va, pa=pa, value=self.one_of((0, 1)))
            self.made.ops.append(op)
