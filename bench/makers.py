"""Makers of long tests, as an architect writes or records them; and six families of hard ones, each drawn by a seed.

A *lock* has sections, each of a core that takes a lock by a locked exchange, adds 1 to a counter, and frees the lock; in a
lost one the last addition is lost. A *run* is one of an interleaving machine: some cores with some accesses each, of so many
addresses, half of them by chance writes of one of so many values, in an order drawn by a seed. Where values are few many
writes have one, so that it is not said which of them a read sees. A stale read gets a value that its address had at another
time.
"""
import random
from collections.abc import Callable, Iterable, Sequence
from dataclasses import dataclass

from questions import access, test_of

LEAST_OPS, MOST_OPS = 40, 64
FENCE = "Fence Full"
# what a core does, each micro-op an instruction
Core = list[str]


def lock(order: Sequence[int], is_lost: bool) -> str:
    """The cores take the lock at address 0 in this order, and add 1 to the counter at address 1."""
    exchange = [access("Read Locked", 0, 0), access("Write Locked", 0, 1)]
    instructions = []
    for place, core in enumerate(order):
        loses = is_lost and place == len(order) - 1
        adds = [access("Read", 1, max(0, place - 1) if loses else place), access("Write", 1, 100 if loses else place + 1)]
        instructions += [(core, exchange), *((core, [op]) for op in adds), (core, [access("Write", 0, 0)])]
    return test_of(instructions)


@dataclass
class Access:
    """What a core of a run does; a read gets the value."""

    kind: str
    address: int
    value: int


def run(seed: int, cores: int, each: int, addresses: int, values: int, stale: int) -> str:
    """A run of an interleaving machine. So many reads are stale."""
    chance = random.Random(seed)
    memory = {address: 0 for address in range(addresses)}
    had = {address: [0] for address in range(addresses)}
    accesses: list[list[Access]] = [[] for _ in range(cores)]
    order = [core for core in range(cores) for _ in range(each)]
    chance.shuffle(order)
    for core in order:
        address = chance.randrange(addresses)
        if chance.random() < 0.5:
            memory[address] = chance.randrange(values)
            had[address].append(memory[address])
            accesses[core].append(Access("Write", address, memory[address]))
        else:
            accesses[core].append(Access("Read", address, memory[address]))
    reads = [it for row in accesses for it in row if it.kind == "Read"]
    for _ in range(stale):
        read = chance.choice(reads)
        read.value = chance.choice(had[read.address])
    return test_of((core, [access(it.kind, it.address, it.value)]) for core, row in enumerate(accesses) for it in row)


def of_cores(cores: Iterable[Core]) -> str:
    return test_of((core, [op]) for core, ops in enumerate(cores) for op in ops)


def drawn_fences(chance: random.Random, each: int, beside: int = 0) -> list[Core]:
    """The fence of each core, or nothing, in a test of so many micro-ops a core without it and so many beside: all cores have one,
    none has, or all but one have."""
    has_fences, lacks_one = chance.choice(((False, False), (True, False), (True, True)))
    least, most = LEAST_OPS - beside + lacks_one, MOST_OPS - beside
    count = chance.randint(-(-least // (each + has_fences)), most // (each + has_fences))
    fences = [[FENCE] if has_fences else [] for _ in range(count)]
    if lacks_one:
        fences[chance.randrange(count)] = []
    return fences


def drawn_lock(chance: random.Random) -> str:
    """A lock of 8 to 12 sections, of two cores to as many as sections; half of them are lost."""
    sections = chance.randint(8, 12)
    cores = chance.randint(2, sections)
    order = [place % cores for place in range(sections)]
    chance.shuffle(order)
    return lock(order, chance.random() < 0.5)


def drawn_readers(chance: random.Random) -> str:
    """A ring of readers: a core writes each address, and one reads it as written and then the next address as not written. In half
    of the tests one reader sees that as written, too."""
    fences = drawn_fences(chance, 3)
    count = len(fences)
    seen = chance.choice((count, chance.randrange(count)))
    writers = [[access("Write", k, 1)] for k in range(count)]
    readers = [[access("Read", k, 1), *fence, access("Read", (k + 1) % count, int(k == seen))] for k, fence in enumerate(fences)]
    return of_cores(writers + readers)


def drawn_run(chance: random.Random) -> str:
    """A run of four to eight cores, one to four addresses, two to four values and at most two stale reads."""
    cores = chance.randint(4, 8)
    each = chance.randint(-(-LEAST_OPS // cores), MOST_OPS // cores)
    return run(chance.randrange(1 << 32), cores, each, chance.randint(1, 4), chance.randint(2, 4), chance.randint(0, 2))


def drawn_dekker(chance: random.Random) -> str:
    """Dekker's flags in a ring: each core raises its own, and sees that of the next one down, or those of the next two. In half of
    the tests one core sees them raised."""
    reach = chance.randint(1, 2)
    fences = drawn_fences(chance, 1 + reach)
    count = len(fences)
    seen = chance.choice((count, chance.randrange(count)))
    return of_cores(
        [access("Write", k, 1), *fence, *(access("Read", (k + n) % count, int(k == seen)) for n in range(1, reach + 1))]
        for k, fence in enumerate(fences)
    )


def drawn_chain(chance: random.Random) -> str:
    """A message passed on from core to core, by values that rise, at a few addresses or at as many as cores. The last core reads
    what the first one wrote before as not written; in a third of the tests as written."""
    fences = drawn_fences(chance, 2)
    addresses = chance.choice((2, 3, len(fences)))
    last = len(fences) - 1
    sends = [access("Write", 1 + k % addresses, 1 + k) for k in range(last)]
    gets = [access("Read", 1 + k % addresses, 1 + k) for k in range(last)]
    firsts = [access("Write", 0, 1), *gets]
    seconds = [*sends, access("Read", 0, chance.choice((0, 0, 1)))]
    return of_cores([first, *fence, second] for first, fence, second in zip(firsts, fences, seconds))


def drawn_iriw(chance: random.Random) -> str:
    """Two to four cores that write an address each, and many that read two of these, the first as written, the other mostly not."""
    addresses = chance.randint(2, 4)
    readers = []
    for fence in drawn_fences(chance, 2, addresses):
        first, second = chance.sample(range(addresses), 2)
        readers.append([access("Read", first, 1), *fence, access("Read", second, chance.choice((0, 0, 1)))])
    return of_cores([*([access("Write", k, 1)] for k in range(addresses)), *readers])


FAMILIES: dict[str, Callable[[random.Random], str]] = {
    "locks": drawn_lock, "readers": drawn_readers, "runs": drawn_run,
    "dekker": drawn_dekker, "chains": drawn_chain, "iriw": drawn_iriw,
}


def drawn(family: str, seed: int) -> str:
    """The test of a family and a seed. It has 40 to 64 micro-ops."""
    return FAMILIES[family](random.Random(f"{family} {seed}"))


def is_fenced_ring(family: str, test: str) -> bool:
    """Whether it is a ring of store buffers with a fence on each core, and no flag that is seen raised."""
    return family == "dekker" and test.count("(Write") == test.count(FENCE) == test.count("(Data 1)")
