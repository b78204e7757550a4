"""What a listing says: micro-ops with all reads open, what the registers hold at the end, and a condition."""
from dataclasses import replace
from typing import Mapping, NamedTuple

from tools.listings.reading import Beyond, HerdReader, Instruction, Notes, Variable
from tools.second.cases import MOST_OPS, Op, Page
from tools.second.listings import judge_head
from tools.second.tokens import Fault, Token
from tools.texts.writing_tests import item_lines, printable, written

LOCKED = "Locked"


class Loaded(NamedTuple):
    """What a register holds that was loaded: the number of the read, and the register in its instruction."""

    op: int
    token: Token


class Program:
    """What the bytes of a listing say, which are judged in their order up to the first fault. A read has no value: it is open."""

    def __init__(self, data: bytes, notes: Notes) -> None:
        self.written = written = HerdReader(data, notes).written()
        self.condition = written.condition
        self.notes = notes
        # by their names, and numbered as they are named first
        self.locations: dict[str, Page] = {}
        # the values at the start that are stated, in the order of the text
        self.initial: dict[Page, int] = {}
        # what the registers hold at the end; those that are not named hold 0
        self.registers: dict[Variable, int | Loaded] = {}
        # where a register that was loaded gets another value, in the order of the text: what was loaded is not to be seen
        self.reloads: list[Token] = []
        # the micro-ops in the order of the text, and how the listing has each, with its thread; a read up to the value that its
        # register gets
        self.made: list[Op] = []
        self.texts: list[str] = []
        for start in written.starts:
            self.judge_start(*start)
        judge_head(written.head)
        self.judge_rows()
        for variable in self.condition.variables:
            if variable.thread is None:
                self.location(variable.name)
        self.ops = self.in_test_order()

    def in_test_order(self) -> dict[int, Op]:
        """The micro-ops column by column, each with its g, by their numbers in the order of the text."""
        found: dict[int, Op] = {}
        g = -1
        for number in sorted(range(len(self.made)), key=lambda it: self.made[it].core):
            g += self.made[number].n == 0
            found[number] = replace(self.made[number], g=g)
        return found

    @property
    def reads(self) -> list[int]:
        """The numbers of the reads, in test order."""
        return [number for number, op in self.ops.items() if op.access == "Read"]

    def writes_to(self, location: Page) -> list[int]:
        """What is written to a location, each value once, in test order."""
        values = (op.value for op in self.ops.values() if op.access == "Write" and op.pa == location)
        return list(dict.fromkeys(value for value in values if isinstance(value, int)))

    def choices(self, number: int) -> list[int]:
        """What a read may get: the value at the start, and what is written there."""
        location = self.ops[number].pa
        assert isinstance(location, Page)
        return list(dict.fromkeys([self.initial.get(location, 0), *self.writes_to(location)]))

    def value(self, variable: Variable, reads: Mapping[int, int], finals: Mapping[Page, int]) -> int:
        """What a variable has at the end, where the reads get these values."""
        if variable.thread is None:
            location = self.locations[variable.name]
            return finals.get(location, self.initial.get(location, 0))
        held = self.registers.get(variable, 0)
        return reads[held.op] if isinstance(held, Loaded) else held

    def lines(self, reads: Mapping[int, int], finals: Mapping[Page, int]) -> list[tuple[str, str]]:
        """The items of a test or of a pattern, each with a comment. These reads get these values, and the others are open."""
        ops = []
        for number, op in self.ops.items():
            text = printable(self.texts[number])
            if number in reads:
                op, text = replace(op, value=reads[number]), f"{text} = {reads[number]}"
            ops.append((op, text))
        return item_lines(self.initial.items(), ops, finals.items(), self.condition.quantifier == "~exists")

    def pattern(self, reads: Mapping[int, int], finals: Mapping[Page, int]) -> str:
        """A pattern whose reads are open, but for those that get these values, with these values at the end."""
        return written(self.written.title, [], [(line, "") for line, _ in self.lines(reads, finals)])

    def location(self, name: str) -> Page:
        return self.locations.setdefault(name, Page(len(self.locations), 0, name))

    def judge_start(self, variable: Variable, value: int, token: Token) -> None:
        """A location, or a register, has one value at the start."""
        location = self.location(variable.name) if variable.thread is None else None
        if location in self.initial or variable in self.registers:
            raise Fault("again-initial", token.at)
        if location is None:
            self.registers[variable] = value
        else:
            self.initial[location] = value

    def judge_rows(self) -> None:
        """The instructions, and how many cells a line has."""
        columns = len(self.written.head)
        for cells, end in self.written.rows:
            for column, one in enumerate(cells[:columns]):
                if one is not None:
                    self.make(column, one)
                    if len(self.made) > MOST_OPS:
                        raise Fault("too-many-ops", one.word.at)
            if len(cells) != columns:
                raise Fault("x86-column", end.at)

    def make(self, column: int, one: Instruction) -> None:
        target, source = one.target, one.source
        if target is None or source is None:
            self.add(column, "Fence", "MFENCE", types=("MFENCE",))
        elif one.is_exchange:
            # a locked read, and a locked write of what the register held
            value = self.number_in(column, source)
            text = f"XCHG [{target.piece}],{source.piece}"
            self.hold(column, source, Loaded(len(self.made), source))
            self.add(column, "Read", f"{text}, and {source.piece}", target, types=(LOCKED,))
            self.add(column, "Write", f"{text}, which held {value}", target, value, (LOCKED,), 1)
        elif target.kind == "location":
            value = self.number_in(column, source)
            stored = f"${value}" if source.kind == "number" else f"{source.piece}, which holds {value}"
            self.add(column, "Write", f"MOV [{target.piece}],{stored}", target, value)
        elif source.kind == "number":
            self.notes.note(Beyond.CONSTANT, one.word.at)
            self.hold(column, target, source.value)
        else:
            self.hold(column, target, Loaded(len(self.made), target))
            self.add(column, "Read", f"MOV {target.piece},[{source.piece}], and {target.piece}", source)

    def add(
        self, column: int, access: str, text: str, name: Token | None = None, value: int | None = None,
        types: tuple[str, ...] = (), number: int = 0,
    ) -> None:
        """One more micro-op, by its number in its instruction. Its g is counted later."""
        place = None if name is None else self.location(name.piece)
        self.made.append(Op(0, number, column, column, access, frozenset(types), place, place, value))
        self.texts.append(f"P{column}: {text}")

    def number_in(self, column: int, source: Token) -> int:
        """What is written: a number, or what a register holds that was not loaded."""
        if source.kind == "number":
            return source.value
        held = self.registers.get(Variable(column, source.piece), 0)
        if isinstance(held, Loaded):
            raise Fault("syntax", source.at)
        self.notes.note(Beyond.STORED, source.at)
        return held

    def hold(self, column: int, register: Token, value: int | Loaded) -> None:
        """A register holds this from here on."""
        variable = Variable(column, register.piece)
        if isinstance(self.registers.get(variable), Loaded):
            self.reloads.append(register)
        self.registers[variable] = value
