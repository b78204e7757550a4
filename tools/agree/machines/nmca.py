"""A weak memory model that is not multi-copy atomic: a write reaches the cores one after another.

Each core runs its micro-ops by rules 1 to 5 of weak.py, with these changes. A write that is performed is seen by its own
core, and later by each other core, at a moment of its own. All cores see the writes of one address in one order, the
order in which they were performed, so that a core performs a write when it has seen all earlier ones of the address. A
read that forwards nothing takes the last write of its address that its core has seen. A full fence also waits until each
write that its core has seen, of whichever core, is seen by all cores.
"""
from typing import Iterator

from tools.agree.litmus import Op, Outcome, Test, with_item
from tools.agree.machines import weak
from tools.agree.machines.weak import State
from tools.second.cases import Value


def outcomes(test: Test) -> set[Outcome]:
    return Rules(test).outcomes()


class Rules(weak.Rules):
    def steps(self, state: State) -> Iterator[State]:
        """One micro-op executes, one write is performed, or one write reaches one more core."""
        yield from super().steps(state)
        for write in state.order:
            for core, seen in enumerate(state.seen):
                if write.place not in seen and self.has_seen_earlier(state, write, core):
                    yield with_seen(state, core, write)

    def has_seen_earlier(self, state: State, write: Op, core: int) -> bool:
        """Whether the core has seen the writes of the address that were performed before this one."""
        before = state.order[: state.order.index(write)] if write in state.order else state.order
        return all(op.place in state.seen[core] for op in before if op.address == write.address)

    def may_execute(self, state: State, op: Op) -> bool:
        """A full fence is cumulative."""
        if op.is_full_fence and any(state.seen[op.core] - seen for seen in state.seen):
            return False
        return super().may_execute(state, op)

    def may_perform(self, state: State, op: Op) -> bool:
        """The core has seen the earlier writes of the address."""
        return super().may_perform(state, op) and self.has_seen_earlier(state, op, op.core)

    def perform(self, state: State, op: Op) -> State:
        """The own core sees the write."""
        # addresses apart: only the order within one address makes another state
        order = tuple(sorted(state.order + (op,), key=lambda write: write.address))
        return with_seen(super().perform(state, op)._replace(order=order), op.core, op)

    def value_seen(self, state: State, op: Op) -> Value:
        """The last write of the address that the core has seen."""
        seen = [(write.address, write.value) for write in state.order if write.place in state.seen[op.core]]
        return dict((*self.test.memory, *seen))[op.address]


def with_seen(state: State, core: int, write: Op) -> State:
    """The state in which one core has seen one write more."""
    return state._replace(seen=with_item(state.seen, core, state.seen[core] | {write.place}))
