"""Programs for `agree`, as patterns whose reads are all open; and random ones, of at most eight micro-ops.

They ask what a model and its machine make of the same program, and search for no test. A program is made smaller part
by part as long as a question about it keeps its answer.
"""
from collections import Counter
from math import prod
from random import Random
from typing import Callable, Iterator, NamedTuple, Sequence, TypeVar

from tools.agree.litmus import with_item

MOST_OPS = 8
KINDS = ("addr", "data", "ctrl")
NAMES = "xyzabcde"
# an exchange is written as in herd's `XCHG`
LETTERS = {"Exchange": "X"}

Item = TypeVar("Item")


class Made(NamedTuple):
    """An instruction: the number of its core, what it is, its type names, the number of its address, what it writes. It
    is one micro-op, but for an exchange, which is a locked read and write."""

    core: int
    kind: str
    types: tuple[str, ...] = ()
    address: int = 0
    value: int = 0

    @property
    def reads(self) -> bool:
        return self.kind in ("Read", "Exchange")

    @property
    def writes(self) -> bool:
        return self.kind in ("Write", "Exchange")

    @property
    def accesses(self) -> list[str]:
        """What stands in the brackets of its micro-ops in a pattern."""
        if self.kind == "Exchange":
            return [self.access("Read Locked", "Any"), self.access("Write Locked", str(self.value))]
        words = " ".join((self.kind,) + self.types)
        return [words] if self.kind == "Fence" else [self.access(words, "Any" if self.reads else str(self.value))]

    def access(self, words: str, value: str) -> str:
        return f"{words} (VA {self.address} 0) (PA {self.address} 0) (Data {value})"


class Program(NamedTuple):
    """The instructions core by core, each core's in program order; dependencies by their places; the final value that
    is stated of an address; what the pattern is called."""

    ops: tuple[Made, ...]
    dependencies: tuple[tuple[str, int, int], ...] = ()
    final: tuple[int, int] | None = None
    name: str = "random"

    @property
    def pattern(self) -> str:
        lines = [f'Litmus "{self.name}".']
        for g, op in enumerate(self.ops):
            lines += [f"Microop {g} {op.core} {op.core} {n} ({access})." for n, access in enumerate(op.accesses)]
        lines += [f"Relationship {kind} {i} 0 -> {j} 0." for kind, i, j in self.dependencies]
        lines += [f"Final (PA {self.final[0]} 0) {self.final[1]}."] if self.final is not None else []
        return "\n".join(lines) + "\n"

    def without(self, place: int) -> "Program":
        """The program without a micro-op. A final value goes where no write of it is left: no model can see it."""
        ops = self.ops[:place] + self.ops[place + 1 :]
        rest = [(kind, i, j) for kind, i, j in self.dependencies if place not in (i, j)]
        moved = tuple((kind, i - (i > place), j - (j > place)) for kind, i, j in rest)
        is_written = self.final in [(op.address, op.value) for op in ops if op.writes]
        return self._replace(ops=ops, dependencies=moved, final=self.final if is_written else None)

    @property
    def rows(self) -> int:
        """How many ways there are for the reads to get values, each write of an address having one of its own."""
        written = Counter(op.address for op in self.ops if op.writes)
        return prod(1 + written[op.address] for op in self.ops if op.reads)

    @property
    def smaller(self) -> Iterator["Program"]:
        """The programs that have one part less: a micro-op, the final value, a dependency, a type."""
        yield from map(self.without, range(len(self.ops)))
        if self.final is not None:
            yield self._replace(final=None)
        for dependency in self.dependencies:
            yield self._replace(dependencies=tuple(other for other in self.dependencies if other != dependency))
        for place, op in enumerate(self.ops):
            for name in op.types:
                less = op._replace(types=tuple(other for other in op.types if other != name))
                yield self._replace(ops=with_item(self.ops, place, less))


def choose(random: Random, items: Sequence[Item]) -> Item:
    """One of these items. Python promises the same numbers in all its versions of `random()` alone."""
    return items[int(random.random() * len(items))]


def random_program(random: Random, types: tuple[str, ...]) -> Program:
    """A program of at least one read: every other one is made around a ring. Its fences have some of these types, if
    there are any, and now and then an access has one."""
    while True:
        ops = choose(random, (ring_ops, loose_ops))(random, types)
        if any(op.kind == "Read" for op in ops):
            valued = tuple(with_value(random, op, place) for place, op in enumerate(sorted(ops, key=lambda op: op.core)))
            return Program(valued, random_dependencies(random, valued), random_final(random, valued))


def loose_ops(random: Random, types: tuple[str, ...]) -> list[Made]:
    cores = choose(random, (1, 2, 2, 3, 4))
    addresses = choose(random, (1, 2, 2, 2, 3))
    size = choose(random, range(2, MOST_OPS + 1))
    return [random_op(random, choose(random, range(cores)), addresses, types) for _ in range(size)]


def ring_ops(random: Random, types: tuple[str, ...]) -> list[Made]:
    """Two or three cores, each with an access of its own address and then one of the next core's, with a fence between
    the two or none; and micro-ops of any kind among them. Few loose programs have these."""
    cores = choose(random, (2, 2, 3))
    lines = [[random_access(random, core, address % cores, types) for address in (core, core + 1)] for core in range(cores)]
    left = MOST_OPS - 2 * cores
    for core, line in enumerate(lines):
        if left and random.random() < 0.5:
            line.insert(1, random_fence(random, core, types))
            left -= 1
    while left and random.random() < 0.4:
        core = choose(random, range(cores))
        lines[core].insert(choose(random, range(len(lines[core]) + 1)), random_op(random, core, cores, types))
        left -= 1
    return [op for line in lines for op in line]


def random_op(random: Random, core: int, addresses: int, types: tuple[str, ...]) -> Made:
    if random.random() < 1 / 6:
        return random_fence(random, core, types)
    return random_access(random, core, choose(random, range(addresses)), types)


def random_fence(random: Random, core: int, types: tuple[str, ...]) -> Made:
    return Made(core, "Fence", some_types(random, types, choose(random, (1, 2, 3))))


def random_access(random: Random, core: int, address: int, types: tuple[str, ...]) -> Made:
    return Made(core, choose(random, ("Read", "Write")), some_types(random, types, choose(random, (0, 0, 1))), address)


def with_value(random: Random, op: Made, place: int) -> Made:
    """A micro-op at its place in the program. A write has a value of its own most of the time."""
    return op._replace(value=choose(random, (place + 1,) * 4 + (1,))) if op.kind == "Write" else op


def some_types(random: Random, types: tuple[str, ...], count: int) -> tuple[str, ...]:
    """This many of the types, or fewer where one is chosen twice."""
    return tuple(sorted({choose(random, types) for _ in range(count)})) if types else ()


def random_dependencies(random: Random, ops: tuple[Made, ...]) -> tuple[tuple[str, int, int], ...]:
    """Dependencies of later accesses of a core on its reads; those of data are of writes."""
    pairs = [
        (i, j)
        for i, read in enumerate(ops)
        for j, op in enumerate(ops)
        if i < j and read.core == op.core and read.kind == "Read" and op.kind != "Fence"
    ]
    chosen = [pair for pair in pairs if random.random() < 0.3]
    kinds = [choose(random, KINDS if ops[j].kind == "Write" else ("addr", "ctrl")) for _, j in chosen]
    return tuple((kind, i, j) for kind, (i, j) in zip(kinds, chosen))


def random_final(random: Random, ops: tuple[Made, ...]) -> tuple[int, int] | None:
    """A value that is written, in one of three programs."""
    writes = [op for op in ops if op.kind == "Write"]
    if not writes or random.random() < 2 / 3:
        return None
    write = choose(random, writes)
    return write.address, write.value


def smallest(program: Program, holds: Callable[[Program], bool]) -> Program:
    """A program of which it holds, and of none of those that have one part less."""
    for less in program.smaller:
        if holds(less):
            return smallest(less, holds)
    return program


def named(program: Program) -> str:
    """The program in one line: R for read, W for write, X for exchange, F for fence; cores are parted by a bar."""
    cores = sorted({op.core for op in program.ops})
    return " | ".join("; ".join(word(op) for op in program.ops if op.core == core) for core in cores)


def word(op: Made) -> str:
    types = "".join(f".{name}" for name in op.types)
    if op.kind == "Fence":
        return f"F{types}"
    value = str(op.value) if op.writes else ""
    return f"{LETTERS.get(op.kind, op.kind[0])}{NAMES[op.address]}{value}{types}"
