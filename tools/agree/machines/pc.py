"""Processor consistency: in-order cores with store buffers, over first-in first-out channels from each to each other.

A write goes into its core's buffer. The oldest write of a buffer drains when its core has seen all writes of the
address that have drained: then its own core sees it, it is the last write of its address, and it is sent to the other
cores. The writes of one core arrive at another in the order in which they were sent, and each one when that core has
seen the writes of the address that are before it. A read takes the youngest entry of its address in its own buffer, and
the last write that its core has seen where there is none.

A full fence waits until its buffer is empty and every write that its core has seen, of whichever core, is seen by all.
A fence of type `Own` waits until its buffer is empty and every write of its own core is seen by all.

After Goodman, Cache Consistency and Sequential Consistency (1989), and the machine nWR of Trippel, Manerkar, Lustig,
Pellauer, Martonosi, TriCheck (ASPLOS 2017).
"""
from typing import Iterator, NamedTuple

from tools.agree.litmus import Address, Memory, Op, Outcome, ReadValues, Test, ends, values_of, with_item, with_read
from tools.second.cases import Value


class Core(NamedTuple):
    """How many micro-ops have run, the buffer with the oldest write first, the writes that were sent, and how many of
    each core's this core has seen."""

    done: int
    buffer: tuple[Op, ...]
    sent: tuple[Op, ...]
    seen: tuple[int, ...]


class State(NamedTuple):
    """The cores, the drained writes, address by address in their order, and the values that reads got."""

    cores: tuple[Core, ...]
    drained: tuple[Op, ...]
    reads: ReadValues

    def order(self, address: Address) -> tuple[Op, ...]:
        """The drained writes of an address."""
        return tuple(write for write in self.drained if write.address == address)


def outcomes(test: Test) -> set[Outcome]:
    machine = Machine(test)
    count = len(test.cores)
    start = State((Core(0, (), (), (0,) * count),) * count, (), ())
    return {(values_of(end.reads), machine.memory(end)) for end in ends(start, machine.steps)}


class Machine:
    def __init__(self, test: Test) -> None:
        self.test = test

    def memory(self, state: State) -> Memory:
        """The last value of each address."""
        written = ((write.address, write.value) for write in state.drained)
        return tuple(dict((*self.test.memory, *written)).items())

    def steps(self, state: State) -> Iterator[State]:
        """A core runs its next micro-op, drains a write or sees one."""
        for k, (core, ops) in enumerate(zip(state.cores, self.test.cores)):
            if core.done < len(ops):
                yield from self.runs(state, k, ops[core.done])
            if core.buffer and self.has_seen(state, k, state.order(core.buffer[0].address)):
                yield self.drained(state, k)
            for other, sender in enumerate(state.cores):
                if core.seen[other] < len(sender.sent):
                    yield from self.sees(state, k, other, sender.sent[core.seen[other]])

    def has_seen(self, state: State, k: int, writes: tuple[Op, ...]) -> bool:
        return all(write in state.cores[write.core].sent[: state.cores[k].seen[write.core]] for write in writes)

    def seen_by_all(self, state: State, source: int, count: int) -> bool:
        return all(core.seen[source] >= count for core in state.cores)

    def runs(self, state: State, k: int, op: Op) -> Iterator[State]:
        core = state.cores[k]
        after = with_core(state, k, core._replace(done=core.done + 1))
        if op.kind == "Write":
            yield with_core(after, k, after.cores[k]._replace(buffer=core.buffer + (op,)))
        elif op.kind == "Read":
            yield after._replace(reads=with_read(state.reads, op, self.value(state, k, op)))
        elif not self.waits(state, k, op):
            yield after

    def waits(self, state: State, k: int, fence: Op) -> bool:
        """Whether a fence is not done yet."""
        core = state.cores[k]
        if fence.is_full_fence:
            return bool(core.buffer) or not all(self.seen_by_all(state, j, count) for j, count in enumerate(core.seen))
        return "Own" in fence.types and (bool(core.buffer) or not self.seen_by_all(state, k, len(core.sent)))

    def value(self, state: State, k: int, op: Op) -> Value:
        """What a read of core k gets."""
        seen = [write for write in state.order(op.address) if self.has_seen(state, k, (write,))]
        written = ((write.address, write.value) for write in (*seen, *state.cores[k].buffer))
        return dict((*self.test.memory, *written))[op.address]

    def drained(self, state: State, k: int) -> State:
        """The oldest write of a buffer is seen by its own core and sent to the others."""
        core = state.cores[k]
        write = core.buffer[0]
        seen = with_item(core.seen, k, core.seen[k] + 1)
        after = with_core(state, k, core._replace(buffer=core.buffer[1:], sent=core.sent + (write,), seen=seen))
        # addresses apart: only the order within one address makes another state
        return after._replace(drained=tuple(sorted((*state.drained, write), key=lambda one: one.address)))

    def sees(self, state: State, k: int, other: int, write: Op) -> Iterator[State]:
        """The next write of another core reaches core k, when it has seen the writes of the address before that."""
        order = state.order(write.address)
        if self.has_seen(state, k, order[: order.index(write)]):
            core = state.cores[k]
            yield with_core(state, k, core._replace(seen=with_item(core.seen, other, core.seen[other] + 1)))


def with_core(state: State, k: int, core: Core) -> State:
    return state._replace(cores=with_item(state.cores, k, core))
