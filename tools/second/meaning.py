"""What arguments, nodes, predicates and macros stand for in a case, wherever the written axioms are followed.

Guards come first: what a test decides of quantified formulas before all their variables have a value.
`forall i, forall j, IsAnyRead i /\\ .. => ..` holds for every j where i is no read, so that no j is looked at. A guard is
a predicate with the value that decides all that stands below a quantifier.
"""
from typing import Iterator, NamedTuple

from tools.second.cases import Case
from tools.second.models import Arg, Atom, Binary, Expand, Formula, Model, NodeTerm, Not, Number, Quantified, Static, Word
from tools.second.predicates import PLAIN, PREDICATES

# a micro-op by its place in test order, a core, a stage number
Node = tuple[int, int, int]
# names to micro-ops and cores, both numbers: names were judged before, so no sort is mistaken
Environment = dict[str, int]


def value(arg: Arg, env: Environment) -> int:
    """What an argument stands for."""
    return arg.value if isinstance(arg, Number) else env[arg.name]


class Guard(NamedTuple):
    """A predicate that decides where it has this value. It is ahead where a quantifier stands before it."""

    predicate: Static
    value: bool
    names: frozenset[str]
    is_ahead: bool = False


class Guards:
    """The guards of quantifiers, each found once."""

    def __init__(self) -> None:
        # by the identity of the formula, which is kept with them so that no other one gets the same
        self.known: dict[int, tuple[Quantified, list[Guard]]] = {}

    def of(self, formula: Quantified) -> list[Guard]:
        """The guards that the variable of a quantifier decides, those outside it known: each makes the body True under
        `forall`, and False under `exists`. What the body itself asks first is none."""
        if id(formula) not in self.known:
            found = deciding(formula.body, formula.universal)
            self.known[id(formula)] = formula, [one for one in found if one.is_ahead and formula.name in one.names]
        return self.known[id(formula)][1]


def deciding(formula: Formula, value: bool) -> list[Guard]:
    """The guards that give the formula this value."""
    if isinstance(formula, Static):
        takes, _ = PREDICATES[formula.predicate.name]
        words = (arg.name for kind, arg in zip(takes, formula.args) if kind != PLAIN and isinstance(arg, Word))
        return [Guard(formula, value, frozenset(words))]
    if isinstance(formula, Not):
        return deciding(formula.operand, not value)
    if isinstance(formula, Binary) and (formula.connective != "/\\") is value:
        return deciding(formula.left, value is not (formula.connective == "=>")) + deciding(formula.right, value)
    if isinstance(formula, Quantified) and formula.universal is value:
        # over nothing it has this value, too
        found = deciding(formula.body, value)
        return [one._replace(is_ahead=True) for one in found if formula.name not in one.names]
    return []


class Meaning:
    """What the parts of a model's formulas stand for in a case."""

    def __init__(self, model: Model, case: Case, guards: Guards | None = None) -> None:
        self.model = model
        self.case = case
        self.macros = model.macros
        self.stages = {stage.name.name: stage.number.value for stage in model.stages}
        self.guards = guards or Guards()

    def is_so(self, formula: Static, env: Environment) -> bool:
        """Whether a predicate of the table holds."""
        takes, row = PREDICATES[formula.predicate.name]
        args = zip(takes, formula.args)
        values = [it.value if isinstance(it, Number) else it.name if kind == PLAIN else env[it.name] for kind, it in args]
        return row(self.case, *values)

    def values(self, formula: Quantified) -> range:
        """What the variable of a quantifier may be."""
        return range(len(self.case.ops)) if formula.over_microops else self.case.cores

    def open_values(self, formula: Quantified, env: Environment) -> Iterator[Environment]:
        """The names with each value of the variable with which no guard makes the body the constant that changes nothing.
        The next value takes the place of the one before."""
        guards = self.guards.of(formula)
        inside = dict(env)
        for number in self.values(formula):
            inside[formula.name] = number
            if not any(self.is_so(guard.predicate, inside) is guard.value for guard in guards):
                yield inside

    def body_of(self, formula: Expand, env: Environment) -> tuple[Formula, Environment]:
        """The body of a macro, with its parameters bound."""
        macro = self.macros[formula.macro.name]
        return macro.body, {**env, **{word.name: value(arg, env) for word, arg in zip(macro.parameters, formula.args)}}

    def node(self, term: NodeTerm, env: Environment) -> Node:
        """The node that a term names; without a core it is that of the micro-op."""
        op = env[term.op.name]
        core = self.case.ops[op].core if term.core is None else value(term.core, env)
        return op, core, self.stages[term.stage.name]

    def ends(self, atom: Atom, env: Environment) -> tuple[Node, Node | None]:
        """The node of an atom, with None, or both ends of its edge."""
        return self.node(atom.start, env), None if atom.end is None else self.node(atom.end, env)
