"""Where in the model each position of the nested tree comes from: the axiom, the micro-ops and cores that its quantifiers
took, the macro, and the label of an edge."""
from typing import NamedTuple

from tools.second.cases import Case
from tools.second.grounding import Grounder, Group, Literal, Tree, nested
from tools.second.meaning import Environment
from tools.second.models import Atoms, Axiom, Binary, Expand, Formula, Model, Not, Quantified, Static
from tools.second.positions import Positions
from tools.second.scopes import below

# How much of a test is traced: a formula at some values of its variables is one step, and a node or an edge, which is kept,
# so many. 64 micro-ops on a shipped model take at most 1,900,000.
MOST_STEPS = 3_000_000
STEPS_OF_LITERAL = 8


class TooLarge(Exception):
    """The axioms say more of a test than is traced."""


class Taken(NamedTuple):
    """What a quantifier took: its name, whether it is over micro-ops, the value; and whether some value of it is enough."""

    name: str
    is_microop: bool
    value: int
    is_chosen: bool = False


class Origin(NamedTuple):
    """Where a part of the tree comes from. `macro` is the innermost one, and `at` the place of the formula."""

    axiom: Axiom
    taken: tuple[Taken, ...]
    macro: str | None
    at: int
    label: str = ""


def has_predicate(model: Model, axiom: Axiom, name: str) -> bool:
    """Whether an axiom has a predicate of the test, in a macro that it expands too."""
    return any(isinstance(it, Static) and it.predicate.name == name for it in below(axiom.body, model.macros))


def first_place(formula: Formula) -> int:
    """Where a formula begins in the model's text, brackets and `~` left out."""
    while isinstance(formula, (Not, Binary)):
        formula = formula.operand if isinstance(formula, Not) else formula.left
    return formula.predicate.at if isinstance(formula, Static) else formula.at


class TracingGrounder(Grounder):
    """Grounds as the nested tree is grounded, and keeps of each part where it comes from."""

    def __init__(self, model: Model, case: Case) -> None:
        super().__init__(model, case, nested)
        # by the identity of the part, which is kept with it so that no other part gets the same
        self.origins: dict[int, tuple[Tree, Origin]] = {}
        self.axiom: Axiom | None = None
        self.taken: list[Taken] = []
        self.expanded: list[str] = []
        self.steps = 0

    def axioms(self) -> Tree:
        members = []
        for axiom in self.model.axioms:
            self.axiom = axiom
            members.append(self.tree(axiom.body, {}, True))
        return self.join(True, members)

    def note(self, tree: Tree, formula: Formula, label: str = "") -> Tree:
        """Keeps where a part comes from, the first time that it is seen: then the formula is the smallest one."""
        if not isinstance(tree, bool) and id(tree) not in self.origins:
            assert self.axiom is not None
            macro = self.expanded[-1] if self.expanded else None
            origin = Origin(self.axiom, tuple(self.taken), macro, first_place(formula), label)
            self.origins[id(tree)] = tree, origin
        return tree

    def tree(self, formula: Formula, env: Environment, wanted: bool) -> Tree:
        """The tree of a formula, or of its negation where it is not wanted."""
        self.steps += STEPS_OF_LITERAL * len(formula.members) if isinstance(formula, Atoms) else 1
        if self.steps > MOST_STEPS:
            raise TooLarge("the axioms ask too much of so many micro-ops; guards in front of quantifiers make it less")
        if isinstance(formula, Expand):
            self.expanded.append(formula.macro.name)
            found = super().tree(formula, env, wanted)
            self.expanded.pop()
            return found
        if isinstance(formula, Atoms):
            members = [(Literal(*self.ends(member, env), wanted), member.label) for member in formula.members]
            return self.join(wanted, [self.note(literal, formula, label) for literal, label in members])
        return self.note(super().tree(formula, env, wanted), formula)

    def quantified(self, formula: Quantified, env: Environment, wanted: bool) -> Tree:
        members = []
        for inside in self.open_values(formula, env):
            is_chosen = formula.universal is not wanted
            self.taken.append(Taken(formula.name, formula.over_microops, inside[formula.name], is_chosen))
            members.append(self.tree(formula.body, inside, wanted))
            self.taken.pop()
        return self.join(formula.universal is wanted, members)


class TracedPositions(Positions):
    """Positions with their origins. A part of a list of more than two has that of the whole list."""

    def __init__(self, model: Model, case: Case) -> None:
        grounder = TracingGrounder(model, case)
        tree = grounder.axioms()
        super().__init__(model, case, tree)
        self.origins: list[Origin | None] = []
        waiting: list[tuple[Tree, Origin | None]] = [] if isinstance(tree, bool) else [(tree, None)]
        while waiting:
            here, above = waiting.pop()
            origin = grounder.origins[id(here)][1] if id(here) in grounder.origins else above
            self.origins.append(origin)
            if isinstance(here, Group):
                left, right = here.members
                waiting += [(right, origin), (left, origin)]
