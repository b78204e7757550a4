"""Nodes that a world may have for nothing.

An axiom *gives* a node where it can't be true without it, whichever side of an `or` is taken. It *asks for* each node that it
names. It *denies* one by `~NodeExists`, or by a premise that names it and a conclusion that more nodes and more order do not make
true. A node that some axiom asks for, none gives and none denies is free: a world has it or not, as it likes. Which nodes an
axiom may name, in any test, its places say: by their stage, their core, and the access of their micro-op.
"""
from operator import or_
from typing import Iterable, Iterator, NamedTuple

from tools.lint.slips import Slip, TestFile
from tools.lint.truth import OutOfSteps, Steps, Walk
from tools.second.cases import Case, Op
from tools.second.meaning import Environment, Guards, Node, value
from tools.second.models import Atom, Axiom, Binary, Expand, Formula, Macro, Model, NodeTerm, Not, Number
from tools.second.models import Quantified, Static, Word
from tools.second.scopes import nodes_of, parts
from tools.texts.quoting import shown

ALL = frozenset({"Read", "Write", "Fence"})
# for the core of a place: that of the micro-op; each core of the test
OWN, ANY = -1, -2
# of each name the accesses that its micro-op may be
Accesses = dict[str, frozenset[str]]
# A model that needs more steps over all tests is not looked at further.
STEPS = 1_500_000


class Place(NamedTuple):
    """The nodes of all micro-ops of one access at a stage, on their own cores, on a core of this number, or on any."""

    stage: str
    core: int
    access: str


class Places:
    """The places of formulas that may expand these macros, which have these names from outside."""

    def __init__(self, macros: dict[str, Macro], from_outside: dict[str, frozenset[str]]) -> None:
        self.macros = macros
        self.from_outside = from_outside
        self.known: dict[tuple[object, ...], frozenset[Place]] = {}
        self.facts: dict[tuple[str, bool], Accesses] = {}

    def of(self, formula: Formula, accesses: Accesses) -> frozenset[Place]:
        """The places of the nodes that a formula may name where these are the accesses of its names."""
        if isinstance(formula, Binary):
            # the right side is asked where the left one does not decide
            left = self.left(formula.left, formula.connective != "\\/")
            return self.of(formula.left, accesses) | self.of(formula.right, met(accesses, left))
        if isinstance(formula, Expand):
            names = {name: accesses[name] for name in self.from_outside[formula.macro.name]}
            names |= {name: accesses.get(arg, ALL) for name, arg in self.bound(formula)}
            key = formula.macro.name, frozenset(names.items())
            if key not in self.known:
                self.known[key] = self.of(self.macros[formula.macro.name].body, names)
            return self.known[key]
        if isinstance(formula, Quantified):
            accesses = {**accesses, formula.name: ALL}
        found = set[Place]()
        for node in nodes_of(formula):
            core = OWN if node.core is None else node.core.value if isinstance(node.core, Number) else ANY
            found |= {Place(node.stage.name, core, access) for access in accesses[node.op.name]}
        return frozenset(found).union(*(self.of(part, accesses) for part in parts(formula)))

    def left(self, formula: Formula, truth: bool) -> Accesses:
        """What micro-ops are where no test decides that a formula is otherwise than this."""
        if isinstance(formula, Not):
            return self.left(formula.operand, not truth)
        if isinstance(formula, Binary) and (formula.connective == "/\\") is truth:
            return met(self.left(formula.left, truth is not (formula.connective == "=>")), self.left(formula.right, truth))
        if isinstance(formula, Expand):
            key = formula.macro.name, truth
            if key not in self.facts:
                self.facts[key] = self.left(self.macros[formula.macro.name].body, truth)
            return {arg: self.facts[key][name] for name, arg in self.bound(formula) if name in self.facts[key]}
        if truth and isinstance(formula, Static):
            access = formula.predicate.name.removeprefix("IsAny")
            return {arg.name: frozenset({access}) for arg in formula.args if access in ALL and isinstance(arg, Word)}
        return {}

    def bound(self, formula: Expand) -> list[tuple[str, str]]:
        """The parameters of a macro, each with the name that it stands for; it is empty for a number."""
        args = (arg.name if isinstance(arg, Word) else "" for arg in formula.args)
        return [(word.name, arg) for word, arg in zip(self.macros[formula.macro.name].parameters, args)]


def met(one: Accesses, other: Accesses) -> Accesses:
    """What both say of the names."""
    return {**one, **other, **{name: one[name] & other[name] for name in one.keys() & other.keys()}}


class FreeNodes:
    """Finds the free nodes of one model."""

    def __init__(self, path: str, model: Model, axioms: list[Axiom], from_outside: dict[str, frozenset[str]]) -> None:
        self.path = path
        self.axioms = axioms
        self.model = model
        self.from_outside = from_outside
        places = Places(model.macros, from_outside)
        self.places = [places.of(axiom.body, {}) for axiom in axioms]
        self.guards = Guards()
        # for tests, and for what lint makes up
        self.steps = Steps(STEPS), Steps(STEPS)

    def of_test(self, test: TestFile) -> Iterator[Slip]:
        """A line for each free node in a test."""
        for op, term in self.found(test.case, self.steps[0]):
            yield self.slip(term, f"the {op.access.lower()} {op.g}.{op.n} of {shown(test.path)}")

    def of_made(self, cases: list[Case]) -> Iterator[Slip]:
        """A line for each stage of a free node in one of these cases, which have no names."""
        told: set[str] = set()
        for case in cases:
            for op, term in self.found(case, self.steps[1]):
                if term.stage.name not in told:
                    told.add(term.stage.name)
                    yield self.slip(term, f"every {op.access.lower()}")

    def found(self, case: Case, steps: Steps) -> list[tuple[Op, NodeTerm]]:
        """The micro-ops of the free nodes in a case, each with the first term that names the node."""
        try:
            return NodeUses(self, case, steps).free_nodes()
        except OutOfSteps:
            return []

    def slip(self, term: NodeTerm, micro_op: str) -> Slip:
        """One line about a node."""
        stage = term.stage.name
        free = "none denies it: a run has this node or not, as it likes"
        return Slip(self.path, term.stage.at, "free-node", stage, f"no axiom gives stage {stage} to {micro_op}, and {free}")


class Use(NamedTuple):
    """What a formula does to nodes where nodes and edges decide it. Sets of nodes are numbers with a bit for each."""

    given: int = 0
    asked: int = 0
    denied: int = 0
    # in a premise with no conclusion so far; in one with a conclusion that order can make true
    bare: int = 0
    priced: int = 0
    # whether nodes and order alone make it true, and nothing that is missing
    is_positive: bool = True


def both(left: Use, right: Use) -> Use:
    """The use of two formulas that both hold."""
    sets = Use(*map(or_, left[:5], right[:5]))
    return sets._replace(is_positive=left.is_positive and right.is_positive)


def either(left: Use, right: Use) -> Use:
    """The use of two formulas of which one holds."""
    priced, denied = left.priced | right.priced, left.denied | right.denied
    for one, other in ((left, right), (right, left)):
        if other.is_positive:
            priced |= one.bare
        else:
            denied |= one.bare | one.priced
    is_positive = left.is_positive and right.is_positive
    return Use(left.given & right.given, left.asked | right.asked, denied, 0, priced, is_positive)


class NodeUses(Walk):
    """The uses of nodes by a model in one test. A node is known by a number, and by the term that named it first."""

    def __init__(self, of_model: FreeNodes, case: Case, steps: Steps) -> None:
        super().__init__(of_model.model, of_model.guards, case, steps)
        self.of_model = of_model
        self.numbers: dict[Node, int] = {}
        self.terms: list[NodeTerm] = []
        # expansions of one macro with the same values
        self.known: dict[tuple[object, ...], Use | bool] = {}

    def free_nodes(self) -> list[tuple[Op, NodeTerm]]:
        """The micro-ops of the nodes that are free in this test, each with the first term that names the node."""
        whole = Use()
        # places whose nodes are given
        full: set[Place] = set()
        for axiom, places in zip(self.of_model.axioms, self.of_model.places):
            full |= {place for place in places - full if self.is_full(place, whole.given)}
            # what names no other nodes makes none free, and one that the test makes True or False asks for no node
            use = True if places <= full else self.use(axiom.body, {}, True, False)
            if isinstance(use, Use):
                whole = both(whole, use)
        free = whole.asked & ~(whole.given | whole.bare | whole.denied)
        nodes = ((node, number) for node, number in self.numbers.items() if free >> number & 1)
        return [(self.case.ops[op], self.terms[number]) for (op, _, _), number in nodes]

    def is_full(self, place: Place, given: int) -> bool:
        """Whether each node at a place is among those that are given."""
        stage = self.stages[place.stage]
        for number, op in enumerate(self.case.ops):
            cores = [op.core] if place.core == OWN else self.case.cores if place.core == ANY else [place.core]
            nodes = [(number, core, stage) for core in cores] if op.access == place.access else []
            if not all(node in self.numbers and given >> self.numbers[node] & 1 for node in nodes):
                return False
        return True

    def use(self, formula: Formula, env: Environment, wanted: bool, in_premise: bool) -> Use | bool:
        """The use of a formula, or else of its denial; its truth where the test decides it. A premise ends at `~`."""
        if isinstance(formula, Static):
            return self.is_so(formula, env) is wanted
        self.steps.take()
        if isinstance(formula, Not):
            return self.use(formula.operand, env, not wanted, False)
        if isinstance(formula, Binary):
            is_conjunction = (formula.connective == "/\\") is wanted
            is_implication = formula.connective == "=>"
            left = self.use(formula.left, env, wanted is not is_implication, in_premise or is_implication)
            if left is (not is_conjunction):
                return left
            return joined(is_conjunction, [left, self.use(formula.right, env, wanted, in_premise)])
        if isinstance(formula, Quantified):
            bodies = (self.use(formula.body, inside, wanted, in_premise) for inside in self.open_values(formula, env))
            return joined(formula.universal is wanted, bodies)
        if isinstance(formula, Expand):
            return self.expansion(formula, env, wanted, in_premise)
        return joined(wanted, (self.use_of(member, env, wanted, in_premise) for member in formula.members))

    def expansion(self, formula: Expand, env: Environment, wanted: bool, in_premise: bool) -> Use | bool:
        """The use of a macro's body, found once for the same values."""
        values = tuple(value(arg, env) for arg in formula.args)
        outside = tuple((name, env[name]) for name in sorted(self.of_model.from_outside[formula.macro.name]))
        key = (formula.macro.name, wanted, in_premise, values, outside)
        if key not in self.known:
            self.known[key] = self.use(*self.body_of(formula, env), wanted, in_premise)
        return self.known[key]

    def use_of(self, atom: Atom, env: Environment, wanted: bool, in_premise: bool) -> Use:
        """The use of one node, or of one edge, whose absence denies none of its nodes."""
        bits = self.bit_of(atom.start, env)
        if atom.end is not None:
            bits |= self.bit_of(atom.end, env)
        if wanted:
            return Use(given=bits, asked=bits)
        missing = Use(asked=bits, is_positive=False)
        if atom.end is not None:
            return missing
        return missing._replace(bare=bits) if in_premise else missing._replace(denied=bits)

    def bit_of(self, term: NodeTerm, env: Environment) -> int:
        """The bit of the node that a term names."""
        node = self.node(term, env)
        if node not in self.numbers:
            self.numbers[node] = len(self.terms)
            self.terms.append(term)
        return 1 << self.numbers[node]


def joined(is_conjunction: bool, uses: Iterable[Use | bool]) -> Use | bool:
    """Several uses as one, with constants folded: no more are asked for than decide it."""
    whole: Use | bool = is_conjunction
    for use in uses:
        if isinstance(use, bool):
            if use is not is_conjunction:
                return use
        elif isinstance(whole, bool):
            whole = use
        else:
            whole = both(whole, use) if is_conjunction else either(whole, use)
    return whole
