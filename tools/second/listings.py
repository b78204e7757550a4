"""Herd's X86 listings: bytes to the case that a listing says, by docs/tests.md."""
import re
from typing import Callable, NamedTuple, Sequence

from tools.second.cases import GREATEST_CORE, MOST_OPS, Case, ExpectationItem, Item, Op, OpItem, Page, ValueItem
from tools.second.cases import case_of, read_case
from tools.second.patterns import ENDING as PATTERN_ENDING
from tools.second.patterns import read_pattern
from tools.second.tokens import Fault, Part, Reader, Token, tokens

# the ending of a file that is read as a listing where no command says how
ENDING = ".litmus"
BLANKS = b" \t\r"
FIRST_LINE = re.compile(rb"X86 +([^ \t\r\n]+)[ \t\r]*(?:\n|\Z)")


def pieces(more: bytes) -> re.Pattern[bytes]:
    """The pieces of a listing, with more symbols."""
    return re.compile(
        rb"""(?P<blank>[ \t\r\n]+)
           | (?P<comment>\(\*.*?\*\))
           | (?P<name>[A-Za-z][A-Za-z0-9_]*)
           | (?P<number>[0-9]+)
           | (?P<symbol>""" + more + rb"""/\\|\((?!\*)|[{};|\[\],$:=)~])""",
        re.VERBOSE | re.DOTALL,
    )


PIECE = pieces(b"")


class Instruction(NamedTuple):
    """What stands in a cell: its word, and of a store or a load the location; a store has a number, a load a register."""

    word: Token
    location: Token | None = None
    number: Token | None = None
    register: Token | None = None


# the cells of a line, and the `;` after them
Row = tuple[tuple[Instruction | None, ...], Token]


class Equation(NamedTuple):
    """A name with a number: of a location, or of a register where there is a thread."""

    name: Token
    number: Token
    thread: Token | None = None


class Listing(NamedTuple):
    """A listing as it is written, after its header."""

    inits: tuple[Equation, ...]
    head: tuple[Token, ...]
    rows: tuple[Row, ...]
    # `~`, or else `exists`
    condition: Token
    equations: tuple[Equation, ...]

    @property
    def instructions(self) -> list[tuple[int, Instruction]]:
        """What becomes a micro-op each, column by column, with the column."""
        columns = enumerate(zip(*(cells for cells, _ in self.rows)))
        return [(column, one) for column, cells in columns for one in cells if one is not None]


def read_file_case(path: str, data: bytes) -> Case:
    """The case of a file, which is a listing, a pattern or a test, as its ending says. Open reads have 0."""
    if path.endswith(PATTERN_ENDING):
        return read_pattern(data).case
    return read_listing(data) if path.endswith(ENDING) else read_case(data)


def read_listing(data: bytes) -> Case:
    """The case that the bytes say, or their first fault. Its items are those that a test would have, where the listing says them."""
    title, start = behind_header(data)
    return case_of(title, Judge(ListingReader(tokens(data, PIECE, start)).listing()).items())


def behind_header(data: bytes) -> tuple[str, int]:
    """The name of the listing, and the place of the first line that begins with `{`, whatever blanks stand before it."""
    first = FIRST_LINE.match(data)
    if first is None:
        raise Fault("syntax", 0, ("`X86` with a name behind it",))
    at = first.end()
    for line in data[at:].split(b"\n"):
        rest = line.lstrip(BLANKS)
        if rest.startswith(b"{"):
            return first.group(1).decode("latin-1"), at
        if rest and not line.startswith(b'"') and b"=" not in line:
            raise Fault("syntax", at + len(line) - len(rest), ('a line with `"` in its first byte', "one with `=`", "`{`"))
        at += len(line) + 1
    raise Fault("syntax", len(data), ("a line that begins with `{`",))


class ListingReader(Reader):
    """Reads what stands after the header. No word is reserved: its place says what it is."""

    def listing(self) -> Listing:
        inits = self.within("{", "}", self.of_location)
        head, _ = self.cells(lambda: self.expect_kind("name"))
        rows = []
        while not self.sees("~", "exists"):
            rows.append(self.cells(self.cell))
        condition = self.next
        self.passes("~")
        self.expect("exists")
        equations = self.equations()
        self.expect_kind("end")
        return Listing(tuple(inits), head, tuple(rows), condition, tuple(equations))

    def cells(self, read: Callable[[], Part]) -> tuple[tuple[Part, ...], Token]:
        """The cells of a line, as this reads them, and the `;` after them."""
        cells = [read()]
        while self.passes("|"):
            cells.append(read())
        return tuple(cells), self.expect(";")

    def cell(self) -> Instruction | None:
        if self.sees("MFENCE"):
            return Instruction(self.take())
        if not self.sees("MOV"):
            return None
        word = self.take()
        if self.sees("["):
            location = self.in_brackets()
            self.expect(",")
            self.expect("$")
            return Instruction(word, location, number=self.expect_kind("number"))
        register = self.expect_kind("name")
        self.expect(",")
        return Instruction(word, self.in_brackets(), register=register)

    def equations(self) -> list[Equation]:
        """The equations of the condition, with or without brackets."""
        is_bracketed = self.passes("(")
        found = [self.equation()]
        while self.passes("/\\"):
            found.append(self.equation())
        if is_bracketed:
            self.expect(")")
        return found

    def equation(self) -> Equation:
        if self.next.kind != "number":
            return self.of_location()
        thread = self.take()
        self.expect(":")
        name = self.expect_kind("name")
        self.expect("=")
        return Equation(name, self.expect_kind("number"), thread)

    def of_location(self) -> Equation:
        name = self.in_brackets() if self.sees("[") else self.expect_kind("name")
        self.expect("=")
        return Equation(name, self.expect_kind("number"))

    def in_brackets(self) -> Token:
        self.expect("[")
        name = self.expect_kind("name")
        self.expect("]")
        return name


# a thread, and a register of it
Register = tuple[int, str]


def judge_head(head: Sequence[Token]) -> None:
    """Column k has the name P and k."""
    for number, name in enumerate(head):
        if number > GREATEST_CORE:
            raise Fault("core-number", name.at)
        if name.piece != f"P{number}":
            raise Fault("x86-column", name.at)


class Judge:
    """Judges a listing in the order of its text, and makes the items of its case."""

    def __init__(self, listing: Listing) -> None:
        self.listing = listing
        self.locations: dict[str, Page] = {}
        self.inits: dict[Page, Equation] = {}
        self.finals: dict[Page, Equation] = {}
        # each load by its register, in the order of the text
        self.loads: dict[Register, Token] = {}
        self.values: dict[Register, Token] = {}

    def items(self) -> list[Item]:
        """The items, or the first fault."""
        for init in self.listing.inits:
            self.judge_state(init, self.inits, "again-initial")
        judge_head(self.listing.head)
        self.judge_rows()
        for equation in self.listing.equations:
            if equation.thread is None:
                self.judge_state(equation, self.finals, "again-final")
            else:
                self.judge_register(equation, equation.thread)
        for register, token in self.loads.items():
            if register not in self.values:
                raise Fault("x86-open", token.at)
        condition = self.listing.condition
        forbids: list[Item] = [ExpectationItem("Forbidden", condition.at)] if condition.piece == "~" else []
        ops = (self.op(g, column, one) for g, (column, one) in enumerate(self.listing.instructions))
        return [*self.states("Init", self.inits), *ops, *self.states("Final", self.finals), *forbids]

    def location(self, name: Token) -> Page:
        """The location of a name. Locations are numbered as they are named first."""
        return self.locations.setdefault(name.piece, Page(len(self.locations), 0, name.piece))

    def judge_state(self, equation: Equation, known: dict[Page, Equation], fault: str) -> None:
        """A location has one value at the start, and one at the end."""
        location = self.location(equation.name)
        if location in known:
            raise Fault(fault, equation.name.at)
        known[location] = equation

    def judge_rows(self) -> None:
        """The instructions, and how many cells a line has."""
        count = 0
        for cells, end in self.listing.rows:
            for column, one in enumerate(cells):
                if one is None:
                    continue
                if count == MOST_OPS:
                    raise Fault("too-many-ops", one.word.at)
                count += 1
                if one.register is not None:
                    # a thread loads a register once
                    if (column, one.register.piece) in self.loads:
                        raise Fault("x86-reload", one.register.at)
                    self.loads[column, one.register.piece] = one.register
                if one.location is not None:
                    self.location(one.location)
            if len(cells) != len(self.listing.head):
                raise Fault("x86-column", end.at)

    def judge_register(self, equation: Equation, thread: Token) -> None:
        """A register that its thread loads has one value."""
        register = thread.value, equation.name.piece
        if register not in self.loads:
            raise Fault("x86-unloaded", thread.at)
        if register in self.values:
            raise Fault("x86-again", thread.at)
        self.values[register] = equation.number

    def states(self, word: str, known: dict[Page, Equation]) -> list[Item]:
        """The values at the start, or at the end."""
        return [ValueItem(word, one.name.at, location, one.number.value) for location, one in known.items()]

    def op(self, g: int, column: int, one: Instruction) -> OpItem:
        at = one.word.at
        if one.location is None:
            fence = Op(g, 0, column, column, "Fence", frozenset({one.word.piece}))
            return OpItem(fence, at, at, at, at, ((one.word.piece, at),))
        access, value = "Write", one.number
        if one.register is not None:
            access, value = "Read", self.values[column, one.register.piece]
        assert value is not None
        place = self.location(one.location)
        op = Op(g, 0, column, column, access, frozenset(), place, place, value.value)
        return OpItem(op, at, at, at, at, (), one.location.at, value.at)
