"""Page tables, a TLB for each core, and total store order.

Each core translates its instructions in program order, and does their accesses in program order after that; translation
may run ahead of the accesses. There is one memory, which has pages and page-table entries, and each core has a first-in
first-out store buffer as in tso.py.

A read or a write of a page is translated in one of two ways:

  1. It *walks*: the core reads the entry of the virtual tag from memory, not from a buffer. At the same moment it sets the
     entry's accessed mark, and for a write the dirty mark, where they lack. The TLB has this translation from then on,
     in place of one that it has of the tag.
  2. It *hits*: the TLB has a translation of the tag; for a write it is one with the dirty mark.

The access goes to the page of the physical tag that the translation has, with the index of the virtual address. A
translation stays in the TLB until another one of the tag takes its place or an invalidation comes; an instruction may walk
though it could hit.

A plain read or write of an entry is not translated. A full fence waits until its core's buffer is empty. An invalidation
(`Fence Invalidate`) waits so, too, and empties the TLB of its core; what stands after it is translated after it.

A test says how each access is translated: an instruction that walks has a read of type `Walk`, and a write of type `Mark`
where it sets a mark. A run that translates otherwise, or goes to another page, is not of the test.
"""
from typing import Iterator, NamedTuple

from tools.agree.litmus import Memory, NotRun, Op, Outcome, ReadValues, Test, ends, replaced, values_of, with_item, with_read
from tools.second.cases import Entry

# the machine runs tests of format 2, and no others
TAKES_ENTRIES = True


class Core(NamedTuple):
    """How many instructions are translated and how many are done; the TLB, which has entries by their virtual tags; and the
    buffer with the oldest entry first."""

    translated: int = 0
    done: int = 0
    tlb: tuple[tuple[int, Entry], ...] = ()
    buffer: Memory = ()


class State(NamedTuple):
    """The cores, the memory, and the values that reads got."""

    cores: tuple[Core, ...]
    memory: Memory
    reads: ReadValues


class Instruction(NamedTuple):
    """The micro-ops of an instruction: what it does, and how it is translated."""

    access: Op
    walk: Op | None
    mark: Op | None

    @property
    def is_invalidation(self) -> bool:
        return self.access.kind == "Fence" and "Invalidate" in self.access.types

    @property
    def is_translated(self) -> bool:
        """Whether it reads or writes a page."""
        return self.access.kind != "Fence" and not self.access.is_at_entry


def outcomes(test: Test) -> set[Outcome]:
    """All outcomes of the runs that are of the test."""
    lines = tuple(tuple(instructions(ops)) for ops in test.cores)

    def steps(state: State) -> Iterator[State]:
        for k, (core, line) in enumerate(zip(state.cores, lines)):
            yield from drains(state, k, core)
            yield from translates(state, k, core, line)
            yield from does(state, k, core, line)

    def is_whole(state: State) -> bool:
        return all(core.done == len(line) and not core.buffer for core, line in zip(state.cores, lines))

    start = State((Core(),) * len(lines), test.memory, ())
    return {(values_of(end.reads), end.memory) for end in ends(start, steps) if is_whole(end)}


def instructions(ops: tuple[Op, ...]) -> Iterator[Instruction]:
    """The instructions of a core, in program order."""
    for number in sorted({op.instruction for op in ops}):
        rest = [op for op in ops if op.instruction == number]
        walks = [op for op in rest if op.kind == "Read" and "Walk" in op.types]
        marks = [op for op in rest if op.kind == "Write" and "Mark" in op.types]
        accesses = [op for op in rest if op not in walks + marks]
        if len(accesses) != 1 or len(walks) > 1 or len(marks) > len(walks):
            raise NotRun(f"instruction {number} has not one access, and at most a walk and its mark")
        found = Instruction(accesses[0], *[one[0] if one else None for one in (walks, marks)])
        for op in walks + marks:
            if not found.is_translated or op.address != found.access.virtual[:1]:
                raise NotRun(f"instruction {number} has a walk that is not of the page it accesses")
        yield found


def with_core(state: State, k: int, core: Core) -> State:
    return state._replace(cores=with_item(state.cores, k, core))


def drains(state: State, k: int, core: Core) -> Iterator[State]:
    """The oldest entry of the buffer goes to memory."""
    if core.buffer:
        address, value = core.buffer[0]
        after = with_core(state, k, core._replace(buffer=core.buffer[1:]))
        yield after._replace(memory=replaced(state.memory, address, value))


def translates(state: State, k: int, core: Core, line: tuple[Instruction, ...]) -> Iterator[State]:
    """The next instruction is translated, unless an invalidation before it is to be done."""
    if core.translated == len(line) or any(one.is_invalidation for one in line[core.done : core.translated]):
        return
    following = core._replace(translated=core.translated + 1)
    instruction = line[core.translated]
    if not instruction.is_translated:
        yield with_core(state, k, following)
    elif instruction.walk is not None:
        yield from walks(state, k, following, instruction, instruction.walk)
    else:
        tag, index = instruction.access.virtual
        entry = dict(core.tlb).get(tag)
        if entry is not None and instruction.access.address == (entry.tag, index):
            if entry.dirty or instruction.access.kind == "Read":
                yield with_core(state, k, following)


def walks(state: State, k: int, core: Core, instruction: Instruction, walk: Op) -> Iterator[State]:
    """The entry is read and marked at one moment, and the TLB has it."""
    entry = dict(state.memory)[walk.address]
    if isinstance(entry, int):
        return
    marked = Entry(entry.tag, 1, 1 if instruction.access.kind == "Write" else entry.dirty)
    mark = instruction.mark
    is_as_stated = mark is None if marked == entry else mark is not None and mark.value == marked
    if is_as_stated and instruction.access.address == (entry.tag, instruction.access.virtual[1]):
        tlb = replaced(core.tlb, walk.address[0], marked)
        after = with_core(state, k, core._replace(tlb=tuple(sorted(tlb, key=lambda one: one[0]))))
        memory = replaced(state.memory, walk.address, marked)
        yield after._replace(memory=memory, reads=with_read(state.reads, walk, entry))


def does(state: State, k: int, core: Core, line: tuple[Instruction, ...]) -> Iterator[State]:
    """The next instruction that is translated does its access."""
    if core.done == core.translated:
        return
    instruction = line[core.done]
    op = instruction.access
    after = core._replace(done=core.done + 1)
    if op.kind == "Write":
        yield with_core(state, k, after._replace(buffer=core.buffer + ((op.address, op.value),)))
    elif op.kind == "Read":
        value = dict(state.memory + core.buffer)[op.address]
        yield with_core(state, k, after)._replace(reads=with_read(state.reads, op, value))
    # an invalidation and a full fence are done only when the buffer is empty
    elif not (core.buffer and (instruction.is_invalidation or op.is_full_fence)):
        yield with_core(state, k, after._replace(tlb=() if instruction.is_invalidation else core.tlb))
