"""The static predicates: what each takes, and when it holds in a case."""
from typing import Callable

from tools.second.cases import Case, Entry, EntryAddress, Op, Page

# what a place in the arguments asks for
MICROOP = "microop"
CORE = "core"
PLAIN = "plain"

# what a predicate takes, and the test of a case and of the values of the arguments
Row = tuple[tuple[str, ...], Callable[..., bool]]


def of_one(test: Callable[[Op], bool]) -> Row:
    return (MICROOP,), lambda case, i: test(case.ops[i])


def of_pair(test: Callable[[Op, Op], bool]) -> Row:
    return (MICROOP, MICROOP), lambda case, i, j: test(case.ops[i], case.ops[j])


def of_accesses(part: Callable[[Op], object]) -> Row:
    """Two reads or writes are alike in this part of them."""
    return of_pair(lambda i, j: "Fence" not in (i.access, j.access) and part(i) == part(j))


def virtual(op: Op) -> Page:
    """The virtual address of a read or a write."""
    assert op.va is not None
    return op.va


def of_state(test: Callable[[Case, Op], bool]) -> Row:
    return (MICROOP,), lambda case, i: test(case, case.ops[i])


PREDICATES: dict[str, Row] = {
    "True": ((), lambda case: True),
    "False": ((), lambda case: False),
    "IsAnyRead": of_one(lambda i: i.access == "Read"),
    "IsAnyWrite": of_one(lambda i: i.access == "Write"),
    "IsAnyFence": of_one(lambda i: i.access == "Fence"),
    "AccessType": ((PLAIN, MICROOP), lambda case, word, i: word in case.ops[i].types),
    "OnCore": ((CORE, MICROOP), lambda case, core, i: bool(case.ops[i].core == core)),
    "SameCore": of_pair(lambda i, j: i.core == j.core),
    "SameThread": of_pair(lambda i, j: i.thread == j.thread),
    "SameMicroop": of_pair(lambda i, j: (i.g, i.n) == (j.g, j.n)),
    "SameInstruction": of_pair(lambda i, j: i.g == j.g),
    "SameIntra": of_pair(lambda i, j: i.n == j.n),
    "ProgramOrder": of_pair(lambda i, j: i.core == j.core and i.thread == j.thread and i.g < j.g),
    "SameVirtualAddress": of_accesses(virtual),
    "SamePhysicalAddress": of_accesses(lambda op: op.pa),
    "SameVirtualTag": of_accesses(lambda op: virtual(op).tag),
    "SamePhysicalTag": of_pair(lambda i, j: isinstance(i.pa, Page) and isinstance(j.pa, Page) and i.pa.tag == j.pa.tag),
    "SameIndex": of_accesses(lambda op: virtual(op).index),
    "SameData": of_accesses(lambda op: op.value),
    "DataFromInitialStateAtPA": of_state(lambda case, i: i.pa is not None and i.value == case.initial_at(i.pa)),
    "DataFromFinalStateAtPA": of_state(lambda case, i: i.pa in case.final and i.value == case.final[i.pa]),
    "HasDependency": ((PLAIN, MICROOP, MICROOP), lambda case, kind, i, j: (kind, i, j) in case.dependencies),
    # i is at the page-table entry of j's virtual tag
    "EntryOf": of_pair(lambda i, j: j.va is not None and i.pa == EntryAddress(j.va.tag)),
    # i's value is an entry that maps to the tag of j's page
    "MapsTagOf": of_pair(lambda i, j: isinstance(i.value, Entry) and isinstance(j.pa, Page) and i.value.tag == j.pa.tag),
    "MarkedAccessed": of_one(lambda i: isinstance(i.value, Entry) and i.value.accessed == 1),
    "MarkedDirty": of_one(lambda i: isinstance(i.value, Entry) and i.value.dirty == 1),
}
