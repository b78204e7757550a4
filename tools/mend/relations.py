"""What two nodes have to do with each other, in the words of the model: so that what is said of one pair can be said of
all pairs like it. And the order of a read before the writes that are newer than its value, which no edge alone says: a choice of
two edges, of each other write of the address, that it is before the write that the read has its value from, or behind the read.
"""
from typing import Iterator, NamedTuple

from tools.lint.asked import Asked
from tools.mend.asking import Edge
from tools.second.cases import Case
from tools.second.meaning import Node
from tools.second.models import Model, Number
from tools.second.predicates import MICROOP, PREDICATES
from tools.second.scopes import below, nodes_of

# the micro-ops of an edge, as variables, and the core of the other one
FIRST, SECOND, CORE = "i", "j", "c"
# the core of a node, where it is no number: that of its micro-op, and that of the other one
OWN, OTHERS = -1, -2
CONJUNCTION = " /\\ "
# a read, the write that it has its value from, and another one of the address
PREMISES = (
    "IsAnyRead r", "IsAnyWrite w", "IsAnyWrite v", "SamePhysicalAddress w r", "SamePhysicalAddress v r", "SameData w r",
    "~SameMicroop v w",
)


class Premise(NamedTuple):
    """A static predicate with its arguments, or its denial."""

    predicate: str
    args: tuple[str, ...]
    is_wanted: bool = True

    @property
    def text(self) -> str:
        """The premise as a model writes it."""
        return ("" if self.is_wanted else "~") + " ".join([self.predicate, *self.args])

    def holds(self, case: Case, first: int, second: int) -> bool:
        takes, test = PREDICATES[self.predicate]
        ops = {FIRST: first, SECOND: second}
        return test(case, *(ops[arg] if kind == MICROOP else arg for kind, arg in zip(takes, self.args))) is self.is_wanted


class Place(NamedTuple):
    """The stage of a node by its number, and the core."""

    stage: int
    core: int

    def node(self, case: Case, op: int, other: int) -> Node:
        cores = {OWN: case.ops[op].core, OTHERS: case.ops[other].core}
        return op, cores.get(self.core, self.core), self.stage

    def text(self, name: str, model: Model) -> str:
        """The node of the micro-op of this name there, as a model writes it."""
        stage = next(it.name.name for it in model.stages if it.number.value == self.stage)
        if self.core == OWN:
            return f"({name}, {stage})"
        return f"({name}, ({CORE if self.core == OTHERS else self.core}, {stage}))"


class Relation(NamedTuple):
    """All pairs of nodes in two places whose micro-ops, which may be one, meet the premises."""

    premises: tuple[Premise, ...]
    start: Place
    end: Place
    is_of_one: bool

    def edges(self, case: Case) -> Iterator[Edge]:
        count = range(len(case.ops))
        for first in count:
            for second in [first] if self.is_of_one else count:
                if (self.is_of_one or first != second) and all(it.holds(case, first, second) for it in self.premises):
                    yield self.start.node(case, first, second), self.end.node(case, second, first)

    def axiom(self, model: Model, title: str) -> list[str]:
        """The axiom that has the first node of each pair before the second, in lines."""
        second = FIRST if self.is_of_one else SECOND
        variables = [f'forall microops "{name}",' for name in dict.fromkeys((FIRST, second))]
        given = [premise.text for premise in self.premises]
        for place, other in ((self.start, second), (self.end, FIRST)):
            if place.core == OTHERS:
                variables += [f'forall cores "{CORE}",']
                given.append(f"OnCore {CORE} {other}")
        return [
            f'Axiom "{title}": {" ".join(variables)}',
            f"  {CONJUNCTION.join(given)} =>",
            f'  AddEdge ({self.start.text(FIRST, model)}, {self.end.text(second, model)}, "{title}").',
        ]


class Relations:
    """The relations of pairs of nodes in a test."""

    def __init__(self, model: Model, case: Case) -> None:
        self.case = case
        self.asked = Asked(model)
        # of each stage the cores at which the model names nodes of it
        self.cores: dict[str, set[int]] = {}
        for node in (node for item in model.items for part in below(item.body) for node in nodes_of(part)):
            core = node.core.value if isinstance(node.core, Number) else OWN if node.core is None else OTHERS
            self.cores.setdefault(node.stage.name, set()).add(core)
        self.stages = {stage.number.value: stage.name.name for stage in model.stages}

    def of(self, edge: Edge, case: Case | None = None) -> Relation | None:
        """The relation of two nodes; in a test that states what reads get, with what they get. There is none where a
        node stands at a core that the model does not name in such a way."""
        (first, _, _), (second, _, _) = edge
        start, end = self.place(edge[0], second), self.place(edge[1], first)
        if start is None or end is None or start.core == end.core == OTHERS:
            return None
        premises = [*self.kinds(first, FIRST)]
        if first != second:
            premises += [*self.kinds(second, SECOND), *self.between(first, second)]
        if case is not None:
            premises += self.values(case, first, second)
        return Relation(tuple(premises), start, end, first == second)

    def place(self, node: Node, other: int) -> Place | None:
        """Where a node stands."""
        op, core, stage = node
        named = self.cores.get(self.stages[stage], set())
        if core == self.case.ops[op].core and (OWN in named or core not in named):
            return Place(stage, OWN)
        if core in named:
            return Place(stage, core)
        return Place(stage, OTHERS) if OTHERS in named and core == self.case.ops[other].core else None

    def kinds(self, op: int, name: str) -> Iterator[Premise]:
        yield Premise(f"IsAny{self.case.ops[op].access}", (name,))
        yield from (Premise("AccessType", (word, name)) for word in sorted(self.case.ops[op].types & self.asked.types.keys()))

    def between(self, first: int, second: int) -> Iterator[Premise]:
        """How two micro-ops stand to each other."""
        both = FIRST, SECOND
        ways = [Premise("ProgramOrder", both), Premise("ProgramOrder", both[::-1]), Premise("SameInstruction", both)]
        ways += [Premise("SameCore", both), Premise("SameCore", both, False)]
        yield next(way for way in ways if way.holds(self.case, first, second))
        asked = [Premise("SamePhysicalAddress", both)]
        asked += [Premise("HasDependency", (kind, *both)) for kind in sorted(self.asked.kinds)]
        yield from (premise for premise in asked if premise.holds(self.case, first, second))

    def values(self, case: Case, first: int, second: int) -> Iterator[Premise]:
        """What the reads among them get."""
        for op, name in [(first, FIRST)] if first == second else [(first, FIRST), (second, SECOND)]:
            initial = Premise("DataFromInitialStateAtPA", (name,))
            if case.ops[op].access == "Read" and initial.holds(case, first, second):
                yield initial
        if first != second and Premise("SamePhysicalAddress", (FIRST, SECOND)).holds(case, first, second):
            same = Premise("SameData", (FIRST, SECOND))
            yield same if same.holds(case, first, second) else Premise("SameData", (FIRST, SECOND), False)


class Choice(NamedTuple):
    """The places of a read and of writes that are put in such an order."""

    read: Place
    write: Place

    def formula(self, model: Model, label: str) -> list[str]:
        """The order as a formula, in lines."""
        read, write, source = self.read.text("r", model), self.write.text("v", model), self.write.text("w", model)
        return [
            'forall microops "r", forall microops "w", forall microops "v",',
            f"  {CONJUNCTION.join(PREMISES)} =>",
            f'  AddEdge ({write}, {source}, "{label}") \\/ AddEdge ({read}, {write}, "{label}")',
        ]

    def axiom(self, model: Model, title: str) -> list[str]:
        *first, last = self.formula(model, title)
        return [f'Axiom "{title}":', *(f"  {line}" for line in first), f"  {last}."]

    def nodes(self, case: Case) -> Iterator[tuple[Node, Node, Node]]:
        """Of a test the reads, each with another write of its address, and with the one that it has its value from."""
        for r, read in enumerate(case.ops):
            alike = [k for k, op in enumerate(case.ops) if op.access == "Write" and op.pa == read.pa]
            for w in alike if read.access == "Read" else []:
                for v in alike:
                    if v != w and case.ops[w].value == read.value:
                        yield self.read.node(case, r, r), self.write.node(case, v, v), self.write.node(case, w, w)
