"""Tokens to a written model, by the grammar of docs/language.md."""
import re
from dataclasses import dataclass
from functools import cached_property
from typing import NamedTuple, Union

from tools.second.tokens import Fault, Reader, Token

RESERVED = frozenset(
    """StageName Axiom DefineMacro ExpandMacro forall exists microop microops core cores AddEdge AddEdges EdgeExists
    EdgesExist NodeExists NodesExist""".split()
)
NAME = re.compile(r"[A-Za-z][A-Za-z0-9_']*\Z")
OPENERS = 128
QUOTED_NAME = "a name in quotes"
# the connectives, the loosest first
CONNECTIVES = ("=>", "\\/", "/\\")


@dataclass(frozen=True)
class Word:
    """A name with its place."""

    name: str
    at: int


@dataclass(frozen=True)
class Number:
    """A number with its place. As an argument it is the core of this number."""

    value: int
    at: int


Arg = Union[Word, Number]


class NodeTerm(NamedTuple):
    """(op, stage), or (op, (core, stage)). Without a core it is that of the micro-op."""

    op: Word
    core: Arg | None
    stage: Word


class Atom(NamedTuple):
    """That a node is there, or with an end that it is before that. The label is kept for readers alone; colours are not kept."""

    start: NodeTerm
    end: NodeTerm | None = None
    label: str = ""


@dataclass(frozen=True)
class Not:
    operand: "Formula"


@dataclass(frozen=True)
class Binary:
    connective: str
    left: "Formula"
    right: "Formula"


@dataclass(frozen=True)
class Quantified:
    """`forall` or `exists` over micro-ops or cores; `at` is the place of this word."""

    at: int
    universal: bool
    over_microops: bool
    name: str
    body: "Formula"


@dataclass(frozen=True)
class Static:
    predicate: Word
    args: tuple[Arg, ...]


@dataclass(frozen=True)
class Atoms:
    """Each of these nodes is in the world, or each of these edges is; `at` is the place of the first word."""

    members: tuple[Atom, ...]
    at: int = 0


@dataclass(frozen=True)
class Expand:
    at: int
    macro: Word
    args: tuple[Arg, ...]


Formula = Union[Not, Binary, Quantified, Static, Atoms, Expand]


class Stage(NamedTuple):
    number: Number
    name: Word


@dataclass(frozen=True)
class Axiom:
    """A formula that has to hold; its title is kept for readers alone."""

    at: int
    title: str
    body: Formula


@dataclass(frozen=True)
class Macro:
    name: Word
    parameters: tuple[Word, ...]
    body: Formula


@dataclass(frozen=True)
class Model:
    """What a model file says, in the order of its text."""

    stages: tuple[Stage, ...]
    items: tuple[Union[Axiom, Macro], ...]

    @property
    def axioms(self) -> list[Axiom]:
        return [item for item in self.items if isinstance(item, Axiom)]

    @cached_property
    def macros(self) -> dict[str, Macro]:
        return {item.name.name: item for item in self.items if isinstance(item, Macro)}


class ModelReader(Reader):
    """Reads models. It counts the openers that are open, at most 128 at once."""

    def __init__(self, all_tokens: list[Token]) -> None:
        super().__init__(all_tokens)
        self.open = 0

    def model(self) -> Model:
        stages: list[Stage] = []
        items: list[Union[Axiom, Macro]] = []
        while self.next.kind != "end":
            first = self.expect("StageName", "Axiom", "DefineMacro")
            if first.piece == "StageName":
                stages.append(self.stage())
            elif first.piece == "Axiom":
                title = self.expect_kind("text").content
                items.append(Axiom(first.at, title, self.body()))
            else:
                items.append(self.macro())
        return Model(tuple(stages), tuple(items))

    def stage(self) -> Stage:
        """A stage, after its first word."""
        number = self.expect_kind("number")
        name = self.quoted_name()
        self.expect(".")
        return Stage(Number(number.value, number.at), name)

    def macro(self) -> Macro:
        """A macro, after its first word."""
        name = self.quoted_name()
        parameters = []
        while self.sees_kind("text", QUOTED_NAME):
            parameters.append(self.quoted_name())
        return Macro(name, tuple(parameters), self.body())

    def body(self) -> Formula:
        """A colon, a formula and a dot."""
        self.expect(":")
        formula = self.formula()
        self.expect(".")
        return formula

    def quoted_name(self) -> Word:
        """A text whose content is a name that is not reserved."""
        is_reserved = self.next.kind == "text" and self.next.content in RESERVED
        is_text = self.sees_kind("text", f"{QUOTED_NAME}, and no reserved word," if is_reserved else QUOTED_NAME)
        if not is_text or is_reserved or not NAME.match(self.next.content):
            raise self.refuse()
        token = self.take()
        return Word(token.content, token.at)

    def is_name(self) -> bool:
        """Whether a name that is not reserved comes next."""
        return self.sees_kind("name") and self.next.piece not in RESERVED

    def name(self) -> Word:
        if not self.is_name():
            raise self.refuse()
        token = self.take()
        return Word(token.piece, token.at)

    def opener(self) -> Token:
        """The next token, which opens one more level."""
        if self.open == OPENERS:
            raise Fault("depth", self.next.at)
        self.open += 1
        return self.take()

    def formula(self, level: int = 0) -> Formula:
        """A formula with no looser connective outside brackets than that of this level; each groups to the right."""
        left = self.operand() if level == len(CONNECTIVES) - 1 else self.formula(level + 1)
        # each of them could stand here, whatever the level
        if not self.sees(*CONNECTIVES) or self.next.piece != CONNECTIVES[level]:
            return left
        self.opener()
        right = self.formula(level)
        self.open -= 1
        return Binary(CONNECTIVES[level], left, right)

    def operand(self) -> Formula:
        """What connectives join. A quantifier takes all that follows, so that it is the last of its list."""
        if self.sees("~"):
            self.opener()
            operand: Formula = Not(self.operand())
            self.open -= 1
            return operand
        if self.sees("("):
            self.opener()
            inside = self.formula()
            self.expect(")")
            self.open -= 1
            return inside
        return self.quantified() if self.sees("forall", "exists") else self.atom()

    def quantified(self) -> Formula:
        first = self.opener()
        over = self.expect("microop", "microops", "core", "cores").piece
        name = self.quoted_name().name
        self.expect(",")
        body = self.formula()
        self.open -= 1
        return Quantified(first.at, first.piece == "forall", over.startswith("microop"), name, body)

    def atom(self) -> Formula:
        """A predicate, a list of nodes or edges, or an expansion."""
        if self.is_name():
            return Static(self.name(), self.args())
        if not self.sees("AddEdge", "EdgeExists", "AddEdges", "EdgesExist", "NodeExists", "NodesExist", "ExpandMacro"):
            # what begins one is more than a line has room for
            self.looked_for[:] = ["a formula"]
            raise self.refuse()
        first = self.take()
        if first.piece == "ExpandMacro":
            return Expand(first.at, self.name(), self.args())
        read = self.node_atom if first.piece.startswith("Node") else self.edge_atom
        is_list = first.piece in ("AddEdges", "EdgesExist", "NodesExist")
        return Atoms(tuple(self.within("[", "]", read)) if is_list else (read(),), first.at)

    def args(self) -> tuple[Arg, ...]:
        found = []
        while self.is_name() or self.sees_kind("number"):
            found.append(self.arg())
        return tuple(found)

    def arg(self) -> Arg:
        if self.sees_kind("number"):
            token = self.take()
            return Number(token.value, token.at)
        return self.name()

    def node(self) -> NodeTerm:
        self.expect("(")
        op = self.name()
        self.expect(",")
        core = None
        if self.passes("("):
            core = self.arg()
            self.expect(",")
            stage = self.name()
            self.expect(")")
        else:
            stage = self.name()
        self.expect(")")
        return NodeTerm(op, core, stage)

    def node_atom(self) -> Atom:
        return Atom(self.node())

    def edge_atom(self) -> Atom:
        """Two nodes, perhaps a label, perhaps a colour after it."""
        self.expect("(")
        start = self.node()
        self.expect(",")
        end = self.node()
        texts = [self.expect_kind("text").content for _ in range(2) if self.passes(",")]
        self.expect(")")
        return Atom(start, end, texts[0] if texts else "")
