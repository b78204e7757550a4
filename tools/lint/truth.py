"""What a test alone decides of a formula, whatever nodes and edges a world has.

An atom over nodes and edges decides nothing, but for the empty list. So a formula is decided exactly where its ground
tree is a constant (grounding.py), and no tree is made: what decides ends the walk.
"""
from tools.second.cases import Case
from tools.second.meaning import Environment, Guards, Meaning
from tools.second.models import Binary, Expand, Formula, Model, Not, Quantified, Static


class OutOfSteps(Exception):
    """The steps that were given are used up."""


class Steps:
    """A number of steps, counted down, so that what is said of a file does not hang on the machine."""

    def __init__(self, count: int) -> None:
        self.count = count
        self.is_short = False

    def take(self) -> None:
        """One step less; where there is none it is known that more were asked for."""
        if self.count == 0:
            self.is_short = True
            raise OutOfSteps
        self.count -= 1


class Walk(Meaning):
    """Goes over formulas in a test, and takes a step for each predicate that it asks."""

    def __init__(self, model: Model, guards: Guards, case: Case, steps: Steps) -> None:
        super().__init__(model, case, guards)
        self.steps = steps

    def is_so(self, formula: Static, env: Environment) -> bool:
        self.steps.take()
        return Meaning.is_so(self, formula, env)


class Truth(Walk):
    """What a test decides of formulas that may expand the model's macros."""

    def is_sure(self, formula: Formula, env: Environment, wanted: bool) -> bool:
        """Whether the formula, with these names bound, is true in every world, or false in every one where it is not wanted."""
        if isinstance(formula, Static):
            return self.is_so(formula, env) is wanted
        self.steps.take()
        if isinstance(formula, Not):
            return self.is_sure(formula.operand, env, not wanted)
        if isinstance(formula, Binary):
            decides = (formula.connective == "/\\") is not wanted
            is_left_sure = self.is_sure(formula.left, env, wanted is not (formula.connective == "=>"))
            return decides if is_left_sure is decides else self.is_sure(formula.right, env, wanted)
        if isinstance(formula, Quantified):
            decides = formula.universal is not wanted
            bodies = (self.is_sure(formula.body, inside, wanted) for inside in self.open_values(formula, env))
            return any(bodies) if decides else all(bodies)
        if isinstance(formula, Expand):
            return self.is_sure(*self.body_of(formula, env), wanted)
        return wanted and not formula.members
