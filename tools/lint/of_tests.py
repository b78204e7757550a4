"""What a test says by itself: program order that it may not have as its writer thought, since the instruction numbers and the
threads make it; fences that have nothing to order; values that nothing writes, that are written twice or for nothing, and that
nobody has; and one address with two pages."""
from typing import Iterator

from tools.lint.slips import Slip, TestFile
from tools.second.cases import Address, EntryAddress, OpItem, Page, Value, ValueItem


def order_slips(test: TestFile) -> Iterator[Slip]:
    """Micro-ops that stand behind a later one of their core and thread."""
    last: dict[tuple[int, int], int] = {}
    for item in test.case.op_items:
        here = item.op.core, item.op.thread
        if item.op.g < last.get(here, 0):
            behind = f"instruction {item.op.g} stands behind instruction {last[here]} of its core"
            yield Slip(test.path, item.g_at, "order", "", f"{behind}, and comes before it in program order")
        last[here] = item.op.g


def thread_slips(test: TestFile) -> Iterator[Slip]:
    """Cores with micro-ops of several threads, each told where its second thread stands first."""
    # of each core and each thread of it the first micro-op
    threads: dict[int, dict[int, OpItem]] = {}
    # the cores with several, in the order in which their second threads stand
    several: dict[int, OpItem] = {}
    for item in test.case.op_items:
        known = threads.setdefault(item.op.core, {})
        known.setdefault(item.op.thread, item)
        if len(known) == 2:
            several.setdefault(item.op.core, item)
    for core, item in several.items():
        *names, last = map(str, threads[core])
        sentence = f"core {core} runs threads {', '.join(names)} and {last}, and there is no program order between two threads"
        yield Slip(test.path, item.thread_at, "threads", "", sentence)


def fence_slips(test: TestFile) -> Iterator[Slip]:
    """Fences with no access before or behind them on their core."""
    for item in test.case.op_items:
        if item.op.access == "Fence":
            accesses = [op.g for op in test.case.ops if op.access != "Fence" and op.core == item.op.core]
            sides = [] if any(g < item.op.g for g in accesses) else ["before"]
            sides += [] if any(g > item.op.g for g in accesses) else ["behind"]
            if sides:
                sentence = f"no access stands {' or '.join(sides)} this fence on core {item.op.core}, so that it orders nothing"
                yield Slip(test.path, item.at, "lonely-fence", "", sentence)


def value_slips(test: TestFile) -> Iterator[Slip]:
    """Values that nothing writes, and values that are written twice."""
    writes = {(op.pa, op.value) for op in test.case.ops if op.access == "Write"}
    pages = {pa for pa, _ in writes}
    seen: set[tuple[Address, Value]] = set()
    for item in test.case.items:
        if isinstance(item, OpItem) and item.op.pa is not None and item.op.value is not None:
            pa, value = item.op.pa, item.op.value
            if item.op.access == "Write":
                if (pa, value) in seen:
                    sentence = f"{value} is written to {pa} a second time: a read does not tell which of the two it sees"
                    yield Slip(test.path, item.value_at, "same-value", "", sentence)
                seen.add((pa, value))
            elif not item.is_open and (pa, value) not in writes and test.case.initial_at(pa) != value:
                other = f"which is not the value of {pa} at the start, and nothing writes it there"
                yield Slip(test.path, item.value_at, "unwritten", "", f"the read gets {value}, {other}")
        elif isinstance(item, ValueItem) and item.word == "Final" and (item.pa, item.value) not in writes:
            # without a write the value at the start stays
            if item.pa in pages or test.case.initial_at(item.pa) != item.value:
                sentence = f"no write of {item.pa} has the value {item.value}, so that no axiom about writes can see this"
                yield Slip(test.path, item.at, "final-unwritten", "", sentence)


def initial_write_slips(test: TestFile) -> Iterator[Slip]:
    """Writes of the value at the start, where no earlier write of the core made it another one."""
    changed: set[tuple[Address, int, int]] = set()
    for item in sorted(test.case.op_items, key=lambda one: (one.op.g, one.op.n)):
        op = item.op
        if op.access != "Write" or op.pa is None:
            continue
        if op.value != test.case.initial_at(op.pa):
            changed.add((op.pa, op.core, op.thread))
        elif (op.pa, op.core, op.thread) not in changed:
            sentence = f"{op.value} is the value of {op.pa} at the start: a read does not tell which of the two it sees"
            yield Slip(test.path, item.value_at, "initial-write", "", sentence)


def address_slips(test: TestFile) -> Iterator[Slip]:
    """Values that are stated of an address that no micro-op has. What `final-unwritten` says is not said again."""
    addresses = {op.pa for op in test.case.ops}
    for item in test.case.items:
        if isinstance(item, ValueItem) and item.pa not in addresses:
            if item.word == "Init" or test.case.initial_at(item.pa) == item.value:
                yield Slip(test.path, item.at, "nobody's", "", f"no micro-op is at {item.pa}, so that no axiom can see this")


def page_slips(test: TestFile) -> Iterator[Slip]:
    """One virtual address with two physical ones, where the test does not speak of the page-table entry of its tag."""
    first: dict[Page, Page] = {}
    spoken = {*test.case.initial, *(op.pa for op in test.case.ops)}
    for item in test.case.op_items:
        if item.op.va is not None and isinstance(item.op.pa, Page):
            known = first.setdefault(item.op.va, item.op.pa)
            if known != item.op.pa and EntryAddress(item.op.va.tag) not in spoken:
                sentence = f"VA {item.op.va.tag} {item.op.va.index} stands beside {known} in an earlier micro-op"
                yield Slip(test.path, item.pa_at, "two-pages", "", sentence)


OF_TEST = order_slips, thread_slips, fence_slips, value_slips, initial_write_slips, address_slips, page_slips
