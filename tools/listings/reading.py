"""Herd's listings for X86 and X86_64 as they are written: bytes to threads of instructions, and a condition."""
import re
from enum import Enum
from typing import Callable, Iterable, Mapping, NamedTuple, Sequence

from tools.lint.slips import counted
from tools.second.listings import BLANKS, ListingReader, pieces
from tools.second.tokens import Fault, Token, tokens

FIRST_LINE = re.compile(rb"(X86|X86_64) +([^ \t\r\n]+)[ \t\r]*(?:\n|\Z)")
PIECE = pieces(rb"\\/|=>|%|")
# a word with the size of what it moves, as it may be spelled
MOVE = re.compile("MOV[LQ]?", re.IGNORECASE)
EXCHANGE = re.compile("XCHG[LQ]?", re.IGNORECASE)
# registers that have a number, and parts of them; and others
PART = re.compile("(R[0-9]+)[DWB]?|[ER]([A-D]X|[SD]I|[SB]P)")


class Beyond(Enum):
    """What is read of a listing though `check86` refuses it, and what becomes of it."""

    ARCHITECTURE = "X86_64 is read as X86"
    HEADER = "a comment in the header is kept as a comment"
    TYPE = "a type is left out, since all values are numbers"
    UNSET = "a location without a value is 0 at the start"
    START = "the value of a register at the start is left out, but for what is stored of it"
    SPELLING = "another spelling of MOV or MFENCE is read as these"
    CONSTANT = "a number in a register is no micro-op, but for what is stored of it"
    STORED = "what is stored of a register is the number that it holds"
    EXCHANGE = "XCHG is read as a locked read and a locked write of one instruction"
    UNLOADED = "a register that no instruction loads is left out of the condition, since it holds this value"
    LOCATIONS = "locations are left out, since a test states one outcome"


class Notes:
    """What is read of one listing beyond `check86`, each with the places where it stands."""

    def __init__(self) -> None:
        self.places: dict[Beyond, list[int]] = {}

    def note(self, what: Beyond, at: int) -> None:
        self.places.setdefault(what, []).append(at)

    def lines(self) -> list[tuple[int, str]]:
        """The first place of each, with what is said of it, in the order of the text."""
        found = []
        for what, places in self.places.items():
            rest = f", here and in {counted(len(places) - 1, 'more place')}" if places[1:] else ""
            found.append((places[0], what.value + rest))
        return sorted(found)


class Variable(NamedTuple):
    """A register of a thread, or a location where there is no thread."""

    thread: int | None
    name: str

    def __str__(self) -> str:
        return self.name if self.thread is None else f"{self.thread}:{self.name}"


class Equation(NamedTuple):
    """A variable has a value. The token is where a fault of it stands."""

    variable: Variable
    value: int
    token: Token


# the operators by their words: how strongly each binds, and of those with two sides what they say
BINDING = {"not": 4, "~": 4, "/\\": 3, "\\/": 2, "=>": 1}
SIDES: dict[str, Callable[[bool, bool], bool]] = {
    "/\\": lambda left, right: left and right,
    "\\/": lambda left, right: left or right,
    "=>": lambda left, right: not left or right,
}
NEGATIONS = ("not", "~")
CONSTANTS = {"true": True, "false": False}


class Condition(NamedTuple):
    """`exists`, `~exists` or `forall`, and a formula: equations, constants and operators, each behind what it is of."""

    quantifier: str
    formula: tuple[Equation | Token, ...]
    token: Token

    @property
    def variables(self) -> list[Variable]:
        """Those that it names, each once."""
        return list(dict.fromkeys(part.variable for part in self.formula if isinstance(part, Equation)))

    def equations(self) -> list[Equation]:
        """The equations of a condition that states one outcome, which has no other operator than that all hold."""
        if self.quantifier == "forall":
            raise Fault("syntax", self.token.at)
        others = [part.at for part in self.formula if isinstance(part, Token) and part.piece != "/\\"]
        if others:
            raise Fault("syntax", min(others))
        return [part for part in self.formula if isinstance(part, Equation)]

    def is_met(self, variables: Sequence[Variable], states: Iterable[tuple[int, ...]]) -> bool:
        """Whether it holds of these states of these variables as all that come up."""
        truths = (self.holds(dict(zip(variables, state))) for state in states)
        return all(truths) if self.quantifier == "forall" else any(truths) == (self.quantifier == "exists")

    def holds(self, state: Mapping[Variable, int]) -> bool:
        known: list[bool] = []
        for part in self.formula:
            if isinstance(part, Equation):
                known.append(state[part.variable] == part.value)
            elif part.piece in CONSTANTS:
                known.append(CONSTANTS[part.piece])
            elif part.piece in NEGATIONS:
                known.append(not known.pop())
            else:
                right = known.pop()
                known.append(SIDES[part.piece](known.pop(), right))
        return known.pop()


class Instruction(NamedTuple):
    """A fence without operands, or what is moved or exchanged: the operand that is written, and the other one. The kind of an
    operand is `number`, `location` or `register`."""

    word: Token
    target: Token | None = None
    source: Token | None = None
    is_exchange: bool = False


class Written(NamedTuple):
    """A listing as it is written. Where its tokens begin stands beside it, for the comments before them."""

    # whether it is of X86_64
    is_wide: bool
    title: str
    start: int
    # values at the start
    starts: tuple[Equation, ...]
    head: tuple[Token, ...]
    # the cells of each line, and the `;` after them
    rows: tuple[tuple[tuple[Instruction | None, ...], Token], ...]
    condition: Condition


def behind_header(data: bytes, notes: Notes) -> tuple[bool, str, int]:
    """Whether the listing is of X86_64, its name, and the place of the first line that begins with `{`."""
    first = FIRST_LINE.match(data)
    if first is None:
        raise Fault("syntax", 0)
    is_wide = first[1] == b"X86_64"
    if is_wide:
        notes.note(Beyond.ARCHITECTURE, 0)
    at = first.end()
    while at < len(data):
        end = data.find(b"\n", at)
        line = data[at : len(data) if end < 0 else end]
        rest = line.lstrip(BLANKS)
        place = at + len(line) - len(rest)
        closing = data.find(b"*)", place + 2) if rest.startswith(b"(*") else -1
        if closing >= 0:
            notes.note(Beyond.HEADER, place)
            at = closing + 2
            continue
        if rest.startswith(b"{"):
            return is_wide, first[2].decode("latin-1"), at
        if rest and not line.startswith(b'"') and b"=" not in line:
            raise Fault("syntax", place)
        at += len(line) + 1
    raise Fault("syntax", len(data))


class HerdReader(ListingReader):
    """Reads the listing that the bytes say, or their first fault. What `check86` does not read is noted."""

    def __init__(self, data: bytes, notes: Notes) -> None:
        self.is_wide, self.title, self.start = behind_header(data, notes)
        super().__init__(tokens(data, PIECE, self.start))
        self.notes = notes

    @property
    def later(self) -> Token:
        """The token behind the next one, which is not the end."""
        return self.all_tokens[self.next_index + 1]

    def sees_after(self, *pieces: str) -> bool:
        """Whether the token behind the next one is one of these symbols."""
        return self.later.kind == "symbol" and self.later.piece in pieces

    def written(self) -> Written:
        starts = self.within("{", "}", self.start_value)
        head, _ = self.cells(lambda: self.expect_kind("name"))
        rows = []
        while not self.sees("~", "exists", "forall", "locations"):
            rows.append(self.cells(self.instruction))
        # what herd is to print beside the condition's
        while self.sees("locations"):
            self.notes.note(Beyond.LOCATIONS, self.take().at)
            self.within("[", "]", self.variable)
        condition = self.condition()
        self.expect_kind("end")
        return Written(self.is_wide, self.title, self.start, tuple(starts), head, tuple(rows), condition)

    # the first block

    def start_value(self) -> Equation:
        """The value of a location, or of a register, at the start; a type may stand before it."""
        first = self.next
        while self.next.kind == "name" and not self.sees_after("=", ";", "}"):
            self.take()
        if self.next.at != first.at:
            self.notes.note(Beyond.TYPE, first.at)
        token = self.next
        variable = self.variable()
        if variable.thread is not None:
            self.notes.note(Beyond.START, token.at)
        elif self.sees(";", "}"):
            self.notes.note(Beyond.UNSET, token.at)
            return Equation(variable, 0, token)
        self.expect("=")
        return Equation(variable, self.number(), token)

    # the threads

    def instruction(self) -> Instruction | None:
        """A cell, which may be empty."""
        word = self.next
        if word.kind != "name":
            return None
        if word.piece.upper() == "MFENCE":
            self.take()
            if word.piece != "MFENCE":
                self.notes.note(Beyond.SPELLING, word.at)
            return Instruction(word)
        if word.piece.upper() == "LOCK" and EXCHANGE.fullmatch(self.later.piece):
            self.take()
        is_exchange = EXCHANGE.fullmatch(self.next.piece) is not None
        if not is_exchange and MOVE.fullmatch(self.next.piece) is None:
            return None
        return self.moved(word, is_exchange)

    def moved(self, first: Token, is_exchange: bool) -> Instruction:
        """What stands behind the word of an instruction. Where a register or a location is spelled so, or a number is first, the
        source stands first."""
        word = self.take()
        begun = self.next_index
        one = self.operand()
        self.expect(",")
        other = self.operand()
        spelled = {token.piece for token in self.all_tokens[begun : self.next_index]}
        is_turned = one.kind == "number" or bool(spelled & {"%", "("})
        target, source = (other, one) if is_turned else (one, other)
        kinds = {target.kind, source.kind}
        if is_exchange:
            if kinds != {"register", "location"}:
                raise Fault("syntax", other.at)
            if target.kind == "register":
                target, source = source, target
            self.notes.note(Beyond.EXCHANGE, first.at)
        elif target.kind == "number" or len(kinds) == 1:
            raise Fault("syntax", other.at)
        elif is_turned or word.piece != "MOV":
            self.notes.note(Beyond.SPELLING, first.at)
        return Instruction(first, target, source, is_exchange)

    def operand(self) -> Token:
        """A number, a location or a register."""
        if self.passes("$"):
            return self.expect_kind("number")
        if self.sees("["):
            return self.in_brackets()._replace(kind="location")
        if self.passes("("):
            name = self.expect_kind("name")
            self.expect(")")
            return name._replace(kind="location")
        return self.register()

    def register(self) -> Token:
        """A register by the name that all its parts have."""
        self.passes("%")
        token = self.expect_kind("name")
        return Token("register", register_name(token.piece, self.is_wide), token.at)

    # what stands behind them

    def condition(self) -> Condition:
        first = self.next
        quantifier = "~exists" if self.passes("~") else "forall" if self.sees("forall") else "exists"
        self.expect(quantifier.lstrip("~"))
        return Condition(quantifier, tuple(self.formula()), first)

    def formula(self) -> list[Equation | Token]:
        """Equations, constants and operators, each behind what it is of; what binds as strongly is read from the left."""
        found: list[Equation | Token] = []
        waiting: list[Token] = []
        depth = 0
        while True:
            while self.sees("(") or self.sees_word(*NEGATIONS):
                depth += self.sees("(")
                waiting.append(self.take())
            found.append(self.take() if self.sees_word(*CONSTANTS) else self.condition_equation())
            while depth and self.passes(")"):
                depth -= 1
                while waiting[-1].piece != "(":
                    found.append(waiting.pop())
                waiting.pop()
            if not self.sees(*SIDES):
                break
            while waiting and BINDING.get(waiting[-1].piece, 0) >= BINDING[self.next.piece]:
                found.append(waiting.pop())
            waiting.append(self.take())
        if depth:
            raise self.refuse()
        return [*found, *reversed(waiting)]

    def sees_word(self, *words: str) -> bool:
        """Whether one of these words comes next, and no location that is named so."""
        return self.sees(*words) and not self.sees_after("=")

    def condition_equation(self) -> Equation:
        """One equation."""
        token = self.next
        variable = self.variable()
        self.expect("=")
        return Equation(variable, self.number(), token)

    def variable(self) -> Variable:
        """A register of a thread, or a location."""
        if self.next.kind != "number":
            return Variable(None, (self.in_brackets() if self.sees("[") else self.expect_kind("name")).piece)
        thread = self.number()
        self.expect(":")
        return Variable(thread, self.register().piece)


def register_name(name: str, is_wide: bool) -> str:
    """The name of a register in capitals; in X86_64 the parts of a register have the name of the whole."""
    upper = name.upper()
    found = PART.fullmatch(upper) if is_wide else None
    return upper if found is None else found[1] or f"R{found[2]}"
