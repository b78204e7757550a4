"""Total store order by caches: in-order cores with store buffers, over caches whose lines may be invalidated before
their data come.

A cache has one line of an address at a time, or none. A read that has no line of its address asks for it, and may do so
before the micro-ops before it are executed, as soon as the reads that its address depends on are. The answer, with the
value of that moment, is on its way from then on. When it comes the cache has a line, which reads of its core may use; a
line may be given up at any time. The oldest write of a buffer goes to its cache, which then has the only line of the
address: each other cache gives its line up, and an answer that is on its way there is marked as late. A cache that
waits for an answer takes no write of that address.

A late answer is good for one use, by the read that asked; it is thrown away where that read takes its value elsewhere.
With the mend it is used only where the read was the oldest of its core that was not executed when it asked: this is
total store order. Without, any read may use it (any_read.py). Half a mend is that no *read* before it was left, while
a fence may have been (oldest_read.py).
"""
from typing import Callable, Iterator, NamedTuple

from tools.agree.litmus import Address, Memory, Op, Outcome, ReadValues, Test, ends, replaced, values_of, with_item
from tools.agree.litmus import with_read
from tools.second.cases import Value


class Line(NamedTuple):
    """A line, which has the value of memory; or, of the read that asked, an answer on its way, with its value once it is late."""

    asker: int | None = None
    is_oldest: bool = False
    late: Value | None = None


class Core(NamedTuple):
    """How many micro-ops are executed, the buffer with the oldest entry first, the lines of the cache."""

    done: int = 0
    buffer: Memory = ()
    lines: frozenset[tuple[Address, Line]] = frozenset()


class State(NamedTuple):
    """The cores, the newest value of each address, and the values that reads got."""

    cores: tuple[Core, ...]
    memory: Memory
    reads: ReadValues


# whether a read is the oldest: by the micro-ops before it that are not executed
IsOldest = Callable[[tuple[Op, ...]], bool]


def outcomes(test: Test, is_oldest: IsOldest = lambda waiting: not waiting) -> set[Outcome]:
    def steps(state: State) -> Iterator[State]:
        for k, (core, ops) in enumerate(zip(state.cores, test.cores)):
            for asking in asks(test, core, ops, is_oldest):
                yield with_core(state, k, asking)
            yield from comes_or_goes(state, k, core)
            yield from drains(state, k, core)
            if core.done < len(ops):
                yield from executes(state, k, core, ops[core.done])

    start = State((Core(),) * len(test.cores), test.memory, ())
    return {(values_of(end.reads), end.memory) for end in ends(start, steps)}


def asks(test: Test, core: Core, ops: tuple[Op, ...], is_oldest: IsOldest) -> Iterator[Core]:
    """A read that is not executed asks for its line."""
    there = dict(core.lines)
    executed = {op.place for op in ops[: core.done]}
    for number, op in enumerate(ops[core.done :], core.done):
        sources = {i for kind, i, j in test.dependencies if kind == "addr" and j == op.place}
        if op.kind == "Read" and op.address not in there and sources <= executed:
            yield with_line(core, op.address, Line(op.place, is_oldest(ops[core.done : number])))


def comes_or_goes(state: State, k: int, core: Core) -> Iterator[State]:
    """An answer comes, or a line is given up."""
    for address, line in core.lines:
        if line.asker is None or line.late is not None:
            yield with_core(state, k, with_line(core, address, None))
        else:
            yield with_core(state, k, with_line(core, address, Line()))


def drains(state: State, k: int, core: Core) -> Iterator[State]:
    """The oldest write of a buffer goes to the cache, and from all others."""
    if not core.buffer:
        return
    address, value = core.buffer[0]
    own = dict(core.lines).get(address)
    if own is not None and own.asker is not None:
        return
    old = dict(state.memory)[address]
    cores = [invalidated(other, address, old) for other in state.cores]
    cores[k] = with_line(core._replace(buffer=core.buffer[1:]), address, Line())
    yield state._replace(cores=tuple(cores), memory=replaced(state.memory, address, value))


def invalidated(core: Core, address: Address, old: Value) -> Core:
    """A core whose line goes, or whose answer, with the old value, is late from now on."""
    line = dict(core.lines).get(address)
    if line is None or line.late is not None:
        return core
    return with_line(core, address, None if line.asker is None else line._replace(late=old))


def executes(state: State, k: int, core: Core, op: Op) -> Iterator[State]:
    after = core._replace(done=core.done + 1)
    if op.kind == "Write":
        yield with_core(state, k, after._replace(buffer=core.buffer + ((op.address, op.value),)))
    elif op.kind == "Fence":
        if not (op.is_full_fence and core.buffer):
            yield with_core(state, k, after)
    else:
        line = dict(core.lines).get(op.address)
        if op.address in dict(core.buffer) or line is not None and line.asker is None:
            value = dict(state.memory + core.buffer)[op.address]
            yield with_core(state, k, after)._replace(reads=with_read(state.reads, op, value))
        elif line is not None and line.late is not None and line.asker == op.place and line.is_oldest:
            without = with_core(state, k, with_line(after, op.address, None))
            yield without._replace(reads=with_read(state.reads, op, line.late))


def with_core(state: State, k: int, core: Core) -> State:
    return state._replace(cores=with_item(state.cores, k, core))


def with_line(core: Core, address: Address, line: Line | None) -> Core:
    """The core with this line of an address, or with none."""
    rest = frozenset((other, there) for other, there in core.lines if other != address)
    return core._replace(lines=rest if line is None else rest | {(address, line)})
