"""All small programs of given shapes, each up to exchange of its cores and of its addresses; and how many there are.

A shape says how many accesses each core has. Every access is a read or a write, or an exchange where these are asked
for, of one of a few addresses; between two accesses of a core stands no fence, or one. Programs without a read or
without a write are left out: no row of theirs depends on anything.
"""
from collections import Counter
from dataclasses import dataclass
from itertools import combinations_with_replacement, groupby, permutations, product
from math import factorial, prod
from typing import Iterator, NamedTuple, Sequence

from tools.agree.programs import Made, Program

# one number stands for all shapes of up to so many accesses on up to so many cores
MOST_CORES = 3
MOST_ACCESSES = 8
MOST_LOCATIONS = 8
READ, WRITE, EXCHANGE = "Read", "Write", "Exchange"

# how many accesses each core has, the longest core first
Shape = tuple[int, ...]
# places of the accesses in another order
Order = tuple[int, ...]


class Line(NamedTuple):
    """What a core does, but for the addresses: its accesses, and between two of them a fence's type or nothing."""

    accesses: tuple[str, ...]
    fences: tuple[str, ...]


@dataclass(frozen=True)
class Family:
    """All programs of these shapes, over so many addresses, with fences of these types, and with exchanges or not."""

    shapes: tuple[Shape, ...]
    locations: int
    fences: tuple[str, ...] = ()
    has_exchanges: bool = False

    @property
    def kinds(self) -> tuple[str, ...]:
        """What an access may be."""
        return (READ, WRITE, EXCHANGE) if self.has_exchanges else (READ, WRITE)

    @property
    def programs(self) -> Iterator[Program]:
        """Each program once, smaller shapes first."""
        for shape in self.shapes:
            for lines in self.lines_of(shape):
                kinds = {kind for line in lines for kind in line.accesses}
                if kinds not in ({READ}, {WRITE}):
                    for addresses in addresses_of(lines, self.locations):
                        yield program_of(lines, addresses)

    def lines_of(self, shape: Shape) -> Iterator[tuple[Line, ...]]:
        """The lines of the cores, those of one length in order."""
        if not shape:
            yield ()
            return
        length, count = shape[0], shape.count(shape[0])
        one = self.lines(length)
        # where one core has this length, its lines are not kept
        for lines in combinations_with_replacement(one, count) if count > 1 else ((line,) for line in one):
            for rest in self.lines_of(shape[count:]):
                yield lines + rest

    def lines(self, length: int) -> Iterator[Line]:
        for accesses in product(self.kinds, repeat=length):
            for fences in product(("", *self.fences), repeat=length - 1):
                yield Line(accesses, fences)

    @property
    def count(self) -> int:
        """How many programs there are, by Burnside's lemma: as many as an exchange of cores and of addresses leaves as
        they are, on average over all exchanges."""
        return sum(map(self.count_of, self.shapes))

    def count_of(self, shape: Shape) -> int:
        """How many programs a shape has."""
        lengths = Counter(shape)
        total = 0
        for addresses in cycles(self.locations):
            for cores in product(*map(cycles, lengths.values())):
                ways = prod(map(exchanges_of, (addresses, *cores)))
                turns = [(length, cycle) for length, cycled in zip(lengths, cores) for cycle in cycled]
                # all but those of reads alone and those of writes alone
                all_kinds, one_kind = (self.left(turns, addresses, kinds) for kinds in (len(self.kinds), 1))
                total += ways * (all_kinds - 2 * one_kind)
        return total // (factorial(self.locations) * prod(map(factorial, lengths.values())))

    def left(self, turns: list[tuple[int, int]], addresses: tuple[int, ...], kinds: int) -> int:
        """How many programs of so many kinds of accesses an exchange leaves as they are: the cores of a cycle do the
        same, but for the addresses, which come back to themselves when the cycle is gone through once."""
        found = 1
        for length, cycle in turns:
            back = sum(one for one in addresses if cycle % one == 0)
            found *= (kinds * back) ** length * (1 + len(self.fences)) ** (length - 1)
        return found


def shapes_of(words: str) -> tuple[Shape, ...]:
    """The shapes that words name, each once, smaller ones first: `3+3`, or `4` for all of up to four accesses; a comma
    stands between two. A ValueError says what is none."""
    found: set[Shape] = set()
    for word in words.split(","):
        parts = [int(part) for part in word.split("+") if part.isascii() and part.isdigit() and len(part) < 4]
        if len(parts) != word.count("+") + 1 or 0 in parts or sum(parts) > MOST_ACCESSES:
            raise ValueError(word)
        if len(parts) == 1:
            found |= {shape for most in range(1, parts[0] + 1) for shape in cycles(most) if len(shape) <= MOST_CORES}
        else:
            found.add(tuple(sorted(parts, reverse=True)))
    return tuple(sorted(found, key=lambda shape: (sum(shape), len(shape), shape)))


def cycles(count: int, longest: int | None = None) -> Iterator[tuple[int, ...]]:
    """All ways in which so many things are parted, the longest part first: as cycles of an exchange, or as accesses of cores."""
    if count == 0:
        yield ()
    for part in range(min(count, longest or count), 0, -1):
        for rest in cycles(count - part, part):
            yield (part, *rest)


def exchanges_of(lengths: tuple[int, ...]) -> int:
    """How many exchanges have cycles of these lengths."""
    same = prod(factorial(count) for count in Counter(lengths).values())
    return factorial(sum(lengths)) // (prod(lengths) * same)


def addresses_of(lines: Sequence[Line], locations: int) -> Iterator[tuple[int, ...]]:
    """The addresses of the accesses, in one of the ways that exchanges make of each other: the first in order."""
    orders = orders_that_keep(lines)
    for addresses in named_as_they_come(sum(len(line.accesses) for line in lines), locations):
        if all(addresses <= renamed([addresses[place] for place in order]) for order in orders):
            yield addresses


def named_as_they_come(count: int, most: int, begun: tuple[int, ...] = ()) -> Iterator[tuple[int, ...]]:
    """So many addresses. A new one is the next number, up to so many."""
    if len(begun) == count:
        yield begun
        return
    for address in range(min(most, max(begun, default=-1) + 2)):
        yield from named_as_they_come(count, most, (*begun, address))


def renamed(addresses: Sequence[int]) -> tuple[int, ...]:
    """The addresses with numbers as they come."""
    names: dict[int, int] = {}
    return tuple(names.setdefault(address, len(names)) for address in addresses)


def orders_that_keep(lines: Sequence[Line]) -> list[Order]:
    """The orders of the accesses after an exchange of cores that do the same."""
    places: list[Order] = []
    for line in lines:
        start = sum(map(len, places))
        places.append(tuple(range(start, start + len(line.accesses))))
    alike = [[core for core, _ in group] for _, group in groupby(enumerate(lines), key=lambda pair: pair[1])]
    return [
        tuple(place for cores in exchanged for core in cores for place in places[core])
        for exchanged in product(*(permutations(cores) for cores in alike))
    ]


def program_of(lines: Sequence[Line], addresses: Sequence[int]) -> Program:
    """The program; each write of an address has a value of its own."""
    rest = iter(addresses)
    written: Counter[int] = Counter()
    ops = []
    for core, line in enumerate(lines):
        for kind, fence in zip(line.accesses, ("", *line.fences)):
            if fence:
                ops.append(Made(core, "Fence", (fence,)))
            address = next(rest)
            written[address] += kind != READ
            ops.append(Made(core, kind, (), address, 0 if kind == READ else written[address]))
    return Program(tuple(ops), name="small")
