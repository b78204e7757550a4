"""Sequential consistency: all interleavings of the cores over one memory (Lamport 1979)."""
from typing import Iterator, NamedTuple

from tools.agree.litmus import Memory, Outcome, ReadValues, Test, ends, replaced, values_of, with_item, with_read


class State(NamedTuple):
    """How many micro-ops each core has run, the memory, and the values that reads got."""

    done: tuple[int, ...]
    memory: Memory
    reads: ReadValues


def outcomes(test: Test) -> set[Outcome]:
    def steps(state: State) -> Iterator[State]:
        for core, ops in enumerate(test.cores):
            if state.done[core] == len(ops):
                continue
            op = ops[state.done[core]]
            after = state._replace(done=with_item(state.done, core, state.done[core] + 1))
            if op.kind == "Read":
                yield after._replace(reads=with_read(state.reads, op, dict(state.memory)[op.address]))
            elif op.kind == "Write":
                yield after._replace(memory=replaced(state.memory, op.address, op.value))
            else:
                yield after

    start = State((0,) * len(test.cores), test.memory, ())
    return {(values_of(end.reads), end.memory) for end in ends(start, steps)}
