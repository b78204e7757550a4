"""Total store order: a first-in first-out store buffer for each core, over one memory.

The machine of Owens, Sarkar, Sewell, x86-TSO (2009). A write goes into its core's buffer. A read takes the youngest entry
of its address in its own buffer, and memory where there is none. The oldest entry of a buffer may drain to memory at any
time. A full fence waits until its buffer is empty.

A locked read-modify-write is an instruction of two micro-ops of type `Locked`, a read and then a write of one address. It
waits until its buffer is empty; then the read takes its value from memory and the write goes there, at one moment.

With `by_address` the buffer keeps order for each address alone: any entry that is the oldest of its address may
drain. That is partial store order (The SPARC Architecture Manual, version 8); see pso.py.
"""
from typing import Iterator, NamedTuple

from tools.agree.litmus import Memory, NotRun, Op, Outcome, ReadValues, Test, ends, replaced, values_of, with_item, with_read

# whether a test may have instructions of two micro-ops
TAKES_LOCKED = True


class State(NamedTuple):
    """How many micro-ops each core has run, the buffers with the oldest entry first, the memory, the reads."""

    done: tuple[int, ...]
    buffers: tuple[Memory, ...]
    memory: Memory
    reads: ReadValues


def outcomes(test: Test, by_address: bool = False) -> set[Outcome]:
    def steps(state: State) -> Iterator[State]:
        for core, ops in enumerate(test.cores):
            yield from drains(state, core, by_address)
            if state.done[core] < len(ops):
                yield from runs(state, core, ops[state.done[core] :])

    start = State((0,) * len(test.cores), ((),) * len(test.cores), test.memory, ())
    return {(values_of(end.reads), end.memory) for end in ends(start, steps)}


def runs(state: State, core: int, ops: tuple[Op, ...]) -> Iterator[State]:
    """The next micro-op of a core, the first of these, or the next locked instruction."""
    op = ops[0]
    if len(ops) > 1 and ops[1].instruction == op.instruction:
        yield from runs_locked(state, core, op, ops[1])
        return
    buffer = state.buffers[core]
    after = state._replace(done=with_item(state.done, core, state.done[core] + 1))
    if op.kind == "Write":
        yield after._replace(buffers=with_item(state.buffers, core, buffer + ((op.address, op.value),)))
    elif op.kind == "Read":
        # what comes later in such pairs stands
        yield after._replace(reads=with_read(state.reads, op, dict(state.memory + buffer)[op.address]))
    elif not (op.is_full_fence and buffer):
        yield after


def runs_locked(state: State, core: int, read: Op, write: Op) -> Iterator[State]:
    """Both micro-ops of a locked instruction at one moment."""
    is_pair = (read.kind, write.kind) == ("Read", "Write") and read.address == write.address
    if not is_pair or "Locked" not in read.types & write.types:
        raise NotRun(f"instruction {read.instruction} is no locked read-modify-write of one address")
    if not state.buffers[core]:
        yield state._replace(
            done=with_item(state.done, core, state.done[core] + 2),
            memory=replaced(state.memory, write.address, write.value),
            reads=with_read(state.reads, read, dict(state.memory)[read.address]),
        )


def drains(state: State, core: int, by_address: bool) -> Iterator[State]:
    """An entry of a core's buffer goes to memory."""
    buffer = state.buffers[core]
    for k, (address, value) in enumerate(buffer):
        if k == 0 or by_address and address not in dict(buffer[:k]):
            rest = buffer[:k] + buffer[k + 1 :]
            memory = replaced(state.memory, address, value)
            yield state._replace(buffers=with_item(state.buffers, core, rest), memory=memory)
