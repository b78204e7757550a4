"""A weak memory model with coherence, dependencies and full fences, over one memory.

Each core runs its micro-ops in any order that keeps these rules. A micro-op *executes* once: a read gets its value, a
write has its address and its data and can be forwarded, a fence is done. A write is *performed* once, later: it goes to
memory, where all cores see it at the same moment.

  1. What has an address or data dependency on a read executes after it.
  2. A write that has a control dependency on a read is performed after it.
  3. A full fence executes when the earlier reads of its core have executed and the earlier writes are performed. What
     is after it executes after it.
  4. Of one address and one core: reads execute in order; a write is performed after earlier reads; writes are
     performed in order.
  5. A read whose youngest earlier write of its address on its own core is not performed takes the value of that write,
     which has to have executed. Otherwise it takes the value in memory.
"""
from typing import Iterator, NamedTuple

from tools.agree.litmus import Memory, Op, Outcome, ReadValues, Test, ends, replaced, values_of, with_read
from tools.second.cases import Value


class State(NamedTuple):
    """The places of what has executed and of the writes that are performed, the memory, and the reads. nmca.py alone has the
    performed writes, those of one address in their order, and the places of those that each core has seen."""

    executed: frozenset[int]
    performed: frozenset[int]
    memory: Memory
    reads: ReadValues
    order: tuple[Op, ...]
    seen: tuple[frozenset[int], ...]


def outcomes(test: Test) -> set[Outcome]:
    return Rules(test).outcomes()


class Rules:
    def __init__(self, test: Test) -> None:
        self.test = test
        self.earlier = {op.place: ops[:k] for ops in test.cores for k, op in enumerate(ops)}

    def outcomes(self) -> set[Outcome]:
        nothing: frozenset[int] = frozenset()
        start = State(nothing, nothing, self.test.memory, (), (), (nothing,) * len(self.test.cores))
        return {(values_of(end.reads), end.memory) for end in ends(start, self.steps)}

    def steps(self, state: State) -> Iterator[State]:
        """One micro-op executes, or one write is performed."""
        for op in self.test.ops:
            if op.place not in state.executed:
                if self.may_execute(state, op):
                    yield from self.execute(state, op)
            elif op.kind == "Write" and op.place not in state.performed and self.may_perform(state, op):
                yield self.perform(state, op)

    def perform(self, state: State, op: Op) -> State:
        """A write goes to memory."""
        return state._replace(performed=state.performed | {op.place}, memory=replaced(state.memory, op.address, op.value))

    def value_seen(self, state: State, op: Op) -> Value:
        """What a read gets that forwards nothing."""
        return dict(state.memory)[op.address]

    def is_done(self, state: State, op: Op) -> bool:
        """Whether nothing of it is left to do."""
        return op.place in (state.performed if op.kind == "Write" else state.executed)

    def follows(self, state: State, op: Op, *kinds: str) -> bool:
        """Whether all that it depends on, in these ways, has executed."""
        sources = {source for kind, source, target in self.test.dependencies if target == op.place and kind in kinds}
        return sources <= state.executed

    def may_execute(self, state: State, op: Op) -> bool:
        """Rules 1 and 3, and of rule 4 the order of reads."""
        earlier = self.earlier[op.place]
        if op.kind == "Fence":
            return not op.is_full_fence or all(self.is_done(state, other) for other in earlier)
        fences_done = all(other.place in state.executed for other in earlier if other.is_full_fence)
        reads_done = op.kind == "Write" or all(other.place in state.executed for other in same_address(earlier, op, "Read"))
        return fences_done and reads_done and self.follows(state, op, "addr", "data")

    def execute(self, state: State, op: Op) -> Iterator[State]:
        """Rule 5, where it is a read."""
        after = state._replace(executed=state.executed | {op.place})
        if op.kind != "Read":
            yield after
            return
        own = same_address(self.earlier[op.place], op, "Write")
        if not own or own[-1].place in state.performed:
            yield after._replace(reads=with_read(state.reads, op, self.value_seen(state, op)))
        elif own[-1].place in state.executed:
            yield after._replace(reads=with_read(state.reads, op, own[-1].value))

    def may_perform(self, state: State, op: Op) -> bool:
        """Rule 2, and of rule 4 what speaks of writes."""
        same = same_address(self.earlier[op.place], op, "Read", "Write")
        return self.follows(state, op, "ctrl") and all(self.is_done(state, other) for other in same)


def same_address(ops: tuple[Op, ...], op: Op, *kinds: str) -> list[Op]:
    """Those of these kinds and of the address of a micro-op."""
    return [other for other in ops if other.kind in kinds and other.address == op.address]
