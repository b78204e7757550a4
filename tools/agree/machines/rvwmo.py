"""RISC-V's memory model, by its rules: all global memory orders that keep what has to be kept of program order.

The RISC-V Instruction Set Manual, volume I (20191213), chapter RVWMO. A *global memory order* is one order of the reads
and writes of all cores. It is made here from its first access on, an access at a time; an access may come next where
each one that has to be before it has come. Of two accesses of a core, i before j in program order, i has to come first
where one of these rules says so:

   1. j is a write, and both are of one address.
   2. Both are reads of one address, no write of it is between them in program order, and they take their values from
      different writes.
   4. A fence is between them, i is one of its predecessors and j one of its successors: type PR is for reads before it,
      PW for writes, SR for reads behind it and SW for writes. A full fence has all four.
   5. i is a read of type Acquire.            6. j is a write of type Release.
   7. Both are a read of type Acquire or a write of type Release.
   9. j has an address dependency on i.      10. j has a data dependency on i.
  11. j is a write and has a control dependency on i.
  12. j is a read that takes the value of a write between the two, which has an address or data dependency on i.
  13. j is a write, and an access between the two has an address dependency on i.

The value of a read is that of the last write, in the global memory order, among the writes of its address that come
before it in the global memory order or in program order. Rules 3 and 8 are of atomic instructions, of which tests here
have none. There is no pipeline here, and no queue.
"""
from typing import Iterator, NamedTuple

from tools.agree.litmus import Address, Op, Outcome, Test, ends, replaced
from tools.second.cases import Value


class State(NamedTuple):
    """The places that have come, the last write of each address, and where each read has its value from: the place of a
    write, or nothing where the value is the initial one."""

    come: frozenset[int]
    last: tuple[tuple[Address, int | None], ...]
    sources: tuple[tuple[int, int | None], ...]


def outcomes(test: Test) -> set[Outcome]:
    rules = Rules(test)
    whole = len(rules.accesses)
    start = State(frozenset(), tuple((address, None) for address, _ in test.memory), ())
    return {rules.outcome(end) for end in ends(start, rules.steps) if len(end.come) == whole}


class Rules:
    def __init__(self, test: Test) -> None:
        self.test = test
        self.ops = {op.place: op for op in test.ops}
        self.accesses = [op for op in test.ops if op.kind != "Fence"]
        self.earlier = {op.place: ops[:k] for ops in test.cores for k, op in enumerate(ops)}
        # the places that have to come before an access by the rules that look at no values
        self.before = {
            j.place: {i.place for i in self.earlier[j.place] if i.kind != "Fence" and self.is_kept(i, j)}
            for j in self.accesses
        }

    def depends(self, i: Op, j: Op, *kinds: str) -> bool:
        """Whether j has a dependency of one of these kinds on i."""
        return any((kind, i.place, j.place) in self.test.dependencies for kind in kinds)

    def is_kept(self, i: Op, j: Op) -> bool:
        """Whether i has to come before j by a rule other than 2 and 12."""
        between = self.earlier[j.place][self.earlier[j.place].index(i) + 1 :]
        is_write = j.kind == "Write"
        return (
            (is_write and i.address == j.address)
            or any(names(op, "P", i) and names(op, "S", j) for op in between if op.kind == "Fence")
            or is_acquire(i)
            or is_release(j)
            or (is_release(i) and is_acquire(j))
            or self.depends(i, j, "addr", "data")
            or (is_write and self.depends(i, j, "ctrl"))
            or (is_write and any(self.depends(i, op, "addr") for op in between))
        )

    def steps(self, state: State) -> Iterator[State]:
        """One access comes next."""
        for op in self.accesses:
            if op.place in state.come or not self.before[op.place] <= state.come:
                continue
            come = state.come | {op.place}
            if op.kind == "Write":
                yield state._replace(come=come, last=replaced(state.last, op.address, op.place))
                continue
            source = self.source(state, op)
            if self.keeps_reads(state, op, source) and self.keeps_forwarded(state, op, source):
                yield state._replace(come=come, sources=tuple(sorted(state.sources + ((op.place, source),))))

    def source(self, state: State, read: Op) -> int | None:
        """The write that a read has its value from: the youngest of its core where that comes later, else the last."""
        own = [op.place for op in self.earlier[read.place] if op.kind == "Write" and op.address == read.address]
        return own[-1] if own and own[-1] not in state.come else dict(state.last)[read.address]

    def keeps_reads(self, state: State, read: Op, source: int | None) -> bool:
        """Rule 2: a read that comes before an earlier one has the same source; that one is looked at when it comes."""
        sources = dict(state.sources)
        return all(
            sources[other.place] == source
            for other in self.accesses
            if other.place in sources and read in self.earlier[other.place] and self.is_pair(read, other)
        )

    def is_pair(self, i: Op, j: Op) -> bool:
        """Whether two reads, i before j, are of one address with no write of it between them."""
        between = self.earlier[j.place][self.earlier[j.place].index(i) + 1 :]
        return i.address == j.address and not any(op.kind == "Write" and op.address == i.address for op in between)

    def keeps_forwarded(self, state: State, read: Op, source: int | None) -> bool:
        """Rule 12."""
        if source is None or self.ops[source] not in self.earlier[read.place]:
            return True
        write = self.ops[source]
        return all(i.place in state.come for i in self.earlier[source] if self.depends(i, write, "addr", "data"))

    def outcome(self, state: State) -> Outcome:
        """The values of the reads in test order, and the last value of each address."""
        reads = tuple(self.value(self.ops[read].address, source) for read, source in state.sources)
        return reads, tuple((address, self.value(address, last)) for address, last in state.last)

    def value(self, address: Address, source: int | None) -> Value:
        """The value that an address has from a write, or the initial one."""
        return dict(self.test.memory)[address] if source is None else self.ops[source].value


def names(fence: Op, side: str, op: Op) -> bool:
    """Whether an access is one of the predecessors, P, or the successors, S, of a fence."""
    return fence.is_full_fence or f"{side}{op.kind[0]}" in fence.types


def is_acquire(op: Op) -> bool:
    return op.kind == "Read" and "Acquire" in op.types


def is_release(op: Op) -> bool:
    return op.kind == "Write" and "Release" in op.types
