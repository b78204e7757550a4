"""Tokens to what a litmus test says, by docs/tests.md."""
from dataclasses import dataclass, field, replace

from tools.second.tokens import Fault, Reader, Token, tokens

GREATEST_CORE = 63
MOST_OPS = 64
GREATEST_MARK = 1
# stands for the number of a read that a pattern leaves open
OPEN = "Any"


@dataclass(frozen=True)
class Page:
    """An address: a tag, and an index inside the page; and the name that a listing has for it."""

    tag: int
    index: int
    name: str = field(default="", compare=False, repr=False)

    def __str__(self) -> str:
        return self.name or f"PA {self.tag} {self.index}"


@dataclass(frozen=True)
class EntryAddress:
    """The address of the page-table entry of a virtual tag."""

    tag: int

    def __str__(self) -> str:
        return f"Entry {self.tag}"


@dataclass(frozen=True)
class Entry:
    """What a page-table entry holds: the physical tag that it maps to, its accessed mark and its dirty mark."""

    tag: int
    accessed: int
    dirty: int

    def __str__(self) -> str:
        return f"Maps {self.tag} {self.accessed} {self.dirty}"


# a physical address, and what is read or written there
Address = Page | EntryAddress
Value = int | Entry


@dataclass(frozen=True)
class Op:
    """A micro-op. A fence has no addresses and no value."""

    g: int
    n: int
    core: int
    thread: int
    access: str
    types: frozenset[str]
    va: Page | None = None
    pa: Address | None = None
    value: Value | None = None


@dataclass
class Case:
    """What a test says. Micro-ops stand in test order and are named by their places in it. No axiom can ask for a title or a name,
    so that cases are the same without them."""

    title: str = field(compare=False)
    ops: list[Op] = field(default_factory=list)
    dependencies: set[tuple[str, int, int]] = field(default_factory=set)
    initial: dict[Address, Value] = field(default_factory=dict)
    final: dict[Address, Value] = field(default_factory=dict)
    expectation: str = "unstated"
    # what comments call addresses, where that was looked for
    names: dict[Address, str] = field(default_factory=dict, compare=False)
    # what says all of it, as it is written
    items: "list[Item]" = field(default_factory=list, compare=False, repr=False)

    @property
    def op_items(self) -> "list[OpItem]":
        """The micro-ops as they are written."""
        return [item for item in self.items if isinstance(item, OpItem)]

    @property
    def cores(self) -> range:
        """The cores from 0 to the greatest one in use."""
        return range(1 + max((op.core for op in self.ops), default=-1))

    def initial_at(self, address: Address) -> Value:
        """The value at the start: without a line 0 at a page, and at the entry of a tag that very tag without marks."""
        default: Value = 0 if isinstance(address, Page) else Entry(address.tag, 0, 0)
        return self.initial.get(address, default)

    def find(self, g: int, n: int) -> int | None:
        """The place of a micro-op, where the test has it so far."""
        return next((place for place, op in enumerate(self.ops) if (op.g, op.n) == (g, n)), None)


def read_case(data: bytes, takes_open: bool = False) -> Case:
    """The case that the bytes say, or their first fault. All of the grammar is judged before any item. A pattern takes open
    reads."""
    return case_of(*CaseReader(tokens(data), takes_open).items())


def case_of(title: str, items: "list[Item]") -> Case:
    """The case that these items say, each of which is judged by those before it."""
    case = Case(title, items=items)
    for item in items:
        item.add_to(case)
    return case


def judge_marks(marks: tuple[Token, ...]) -> None:
    """The marks of an item are 0 or 1, the accessed one first. It is the last that is asked of the item."""
    for mark in marks:
        if mark.value > GREATEST_MARK:
            raise Fault("mark-value", mark.at)


@dataclass(frozen=True)
class OpItem:
    """A `Microop`, with the places where its faults stand, and of what a reader may want to see."""

    op: Op
    at: int
    g_at: int
    core_at: int
    thread_at: int
    # each type name with its place
    types_at: tuple[tuple[str, int], ...] = ()
    pa_at: int = 0
    value_at: int = 0
    marks: tuple[Token, ...] = ()
    # whether a pattern leaves the value open; it is 0 then
    is_open: bool = False

    def add_to(self, case: Case) -> None:
        """Judges the micro-op by the earlier ones and puts it last."""
        if self.op.core > GREATEST_CORE:
            raise Fault("core-number", self.core_at)
        if len(case.ops) == MOST_OPS:
            raise Fault("too-many-ops", self.at)
        for earlier in case.ops:
            if earlier.g == self.op.g and earlier.core != self.op.core:
                raise Fault("split-instruction", self.core_at)
            if earlier.g == self.op.g and earlier.thread != self.op.thread:
                raise Fault("split-instruction", self.thread_at)
        if case.find(self.op.g, self.op.n) is not None:
            raise Fault("duplicate-op", self.g_at)
        judge_marks(self.marks)
        case.ops.append(self.op)


@dataclass(frozen=True)
class DependencyItem:
    """A `Relationship`; `at` is the place of its kind, and each end is g and n."""

    kind: str
    at: int
    ends: tuple[list[Token], list[Token]]

    def add_to(self, case: Case) -> None:
        """Judges the ends, the first one first."""
        found = []
        for g, n in self.ends:
            op = case.find(g.value, n.value)
            if op is None:
                raise Fault("op-unknown", g.at)
            found.append(op)
        case.dependencies.add((self.kind, found[0], found[1]))


@dataclass(frozen=True)
class ValueItem:
    """An `Init` or a `Final`."""

    word: str
    at: int
    pa: Address
    value: Value
    marks: tuple[Token, ...] = ()

    def add_to(self, case: Case) -> None:
        """A second value at one address is a fault."""
        values, fault = {"Init": (case.initial, "again-initial"), "Final": (case.final, "again-final")}[self.word]
        if self.pa in values:
            raise Fault(fault, self.at)
        judge_marks(self.marks)
        values[self.pa] = self.value


@dataclass(frozen=True)
class ExpectationItem:
    word: str
    at: int

    def add_to(self, case: Case) -> None:
        """A second one is a fault."""
        if case.expectation != "unstated":
            raise Fault("again-expectation", self.at)
        case.expectation = self.word.lower()


Item = OpItem | DependencyItem | ValueItem | ExpectationItem


class CaseReader(Reader):
    """Reads tests. None of their words is reserved: its place says what it is. A file that begins with `Litmus2` may have
    page-table entries as addresses and values, one that begins with `Litmus` may not. Where open reads are taken, a read may
    have `Any` for its number."""

    def __init__(self, all_tokens: list[Token], takes_open: bool = False) -> None:
        super().__init__(all_tokens)
        self.takes_open = takes_open
        self.has_entries = False
        # the words of physical addresses and of values
        self.physical: tuple[str, ...] = ("PA",)
        self.kinds: tuple[str, ...] = ("Data",)

    def items(self) -> tuple[str, list[Item]]:
        """The title and the items of the whole file."""
        self.has_entries = self.expect("Litmus", "Litmus2").piece == "Litmus2"
        if self.has_entries:
            self.physical, self.kinds = ("PA", "Entry"), ("Data", "Maps")
        title = self.expect_kind("text").content
        self.expect(".")
        found = []
        while self.next.kind != "end":
            found.append(self.item())
            self.expect(".")
        return title, found

    def item(self) -> Item:
        """One item without its dot."""
        first = self.expect("Microop", "Relationship", "Init", "Final", "Permitted", "Forbidden")
        if first.piece == "Microop":
            return self.microop(first)
        if first.piece == "Relationship":
            kind = self.expect_kind("name")
            start = self.numbers(2)
            self.expect("->")
            return DependencyItem(kind.piece, kind.at, (start, self.numbers(2)))
        if first.piece in ("Init", "Final"):
            address = self.address(*self.physical)
            if self.has_entries and self.passes("("):
                self.expect("Maps")
                return ValueItem(first.piece, first.at, address, *self.entry())
            return ValueItem(first.piece, first.at, address, self.number())
        return ExpectationItem(first.piece, first.at)

    def numbers(self, count: int) -> list[Token]:
        return [self.expect_kind("number") for _ in range(count)]

    def address(self, *words: str) -> Address:
        """An address after one of these words, in brackets."""
        self.expect("(")
        word = self.expect(*words)
        tag = self.number()
        address: Address = EntryAddress(tag) if word.piece == "Entry" else Page(tag, self.number())
        self.expect(")")
        return address

    def entry(self) -> tuple[Entry, tuple[Token, ...]]:
        """An entry after its word, up to its bracket, and its marks."""
        tag, accessed, dirty = self.numbers(3)
        self.expect(")")
        return Entry(tag.value, accessed.value, dirty.value), (accessed, dirty)

    def microop(self, first: Token) -> OpItem:
        """A micro-op, after its first word."""
        g, core, thread, n = self.numbers(4)
        self.expect("(")
        access = self.expect("Read", "Write", "Fence").piece
        types = []
        while self.sees_kind("name"):
            types.append(self.take())
        op = Op(g.value, n.value, core.value, thread.value, access, frozenset(it.piece for it in types))
        item = OpItem(op, first.at, g.at, core.at, thread.at, tuple((it.piece, it.at) for it in types))
        if access != "Fence":
            item = self.with_access(item)
        self.expect(")")
        return item

    def with_access(self, item: OpItem) -> OpItem:
        """A read or a write with its addresses and its value, which come next."""
        va = self.address("VA")
        pa_at = self.next.at
        pa = self.address(*self.physical)
        assert isinstance(va, Page)
        self.expect("(")
        is_entry = self.expect(*self.kinds).piece == "Maps"
        value_at = self.next.at
        is_open = not is_entry and self.takes_open and item.op.access == "Read" and self.passes(OPEN)
        value: Value = 0
        marks: tuple[Token, ...] = ()
        if is_entry:
            value, marks = self.entry()
        else:
            value = 0 if is_open else self.number()
            self.expect(")")
        op = replace(item.op, va=va, pa=pa, value=value)
        return replace(item, op=op, pa_at=pa_at, value_at=value_at, marks=marks, is_open=is_open)
