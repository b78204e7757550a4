"""Parts of conditions that change nothing: what the rest of the condition leaves makes them True, or False."""
from tools.lint.formulas import names_of, shape, written
from tools.lint.slips import Slip, owner
from tools.lint.some_case import MOST_MICROOPS, Names, Search, Wanted
from tools.lint.truth import OutOfSteps, Steps
from tools.second.models import Axiom, Binary, Expand, Formula, Macro, Model, Not, Quantified, Static
from tools.second.scopes import parts
from tools.texts.origins import first_place

# so many steps of a search for one part, and for all of a model
STEPS_OF_PART = 3_000
STEPS = 60_000


class Parts:
    """Goes through axioms and macros, each by itself: a macro's parameters may be any micro-ops."""

    def __init__(self, path: str, model: Model, has_entries: bool) -> None:
        self.path = path
        self.macros = model.macros
        self.has_entries = has_entries
        self.left = STEPS
        self.steps: list[Steps] = []
        self.owner = ""
        self.found: list[Slip] = []

    def slips(self, items: list[Axiom | Macro]) -> list[Slip]:
        """What is said of these, in the order of the text."""
        for item in items:
            self.owner = owner(item)
            self.walk(item.body, {}, [])
        return sorted(self.found, key=lambda slip: slip.at)

    def walk(self, formula: Formula, names: Names, context: list[Wanted]) -> None:
        """Takes in a formula that matters where the context is so."""
        if isinstance(formula, Not):
            self.walk(formula.operand, names, context)
        elif isinstance(formula, Quantified):
            # a variable of its own for a name that is bound, and perhaps bound again
            variable = formula.name
            while variable in names.values():
                variable += "'"
            self.walk(formula.body, {**names, formula.name: variable}, context)
        elif isinstance(formula, Binary):
            self.operands(operands_of(formula), names, context)

    def operands(self, operands: list[tuple[Formula, bool]], names: Names, context: list[Wanted]) -> None:
        """Judges each of some operands, the last first. Of each it is known with which value the others matter."""
        left = list(operands)
        shapes = {id(formula): shape(formula) for formula, _ in operands}
        for one in reversed(operands):
            formula, _ = one
            others = [other for other in left if other is not one]
            rest = [*context, *((other, names, value) for other, value in others)]
            if any(shapes[id(other)] == shapes[id(formula)] for other, _ in others):
                self.say(formula, "stands twice in one condition")
                left.remove(one)
                continue
            # what is said of a part of it is not said of it, too
            before = len(self.found)
            self.walk(formula, names, rest)
            truth = self.truth(formula, names, rest) if len(self.found) == before else None
            if truth is not None:
                self.say(formula, f"is {truth} of all micro-ops that the rest of the condition leaves")
                left.remove(one)

    def say(self, formula: Formula, sentence: str) -> None:
        """One slip more, of a part as it stands in the text, where it is short."""
        inside = formula.operand if isinstance(formula, Not) else formula
        what = "this part"
        if isinstance(inside, (Static, Expand)):
            what = f"{'' if inside is formula else '~'}{written(inside)}"
        self.found.append(Slip(self.path, first_place(formula), "constant-part", self.owner, f"{what} {sentence}"))

    def truth(self, formula: Formula, names: Names, context: list[Wanted]) -> bool | None:
        """The truth of a part wherever the context is so; None where it may be either, or the context is never so."""
        variables = variables_of(formula, names)
        if not variables or len(variables) > MOST_MICROOPS or self.is_of_nodes(formula):
            return None
        wanted: list[Wanted] = []
        for one in reversed(context):
            more = variables | variables_of(one[0], one[1])
            if len(more) <= MOST_MICROOPS and not self.is_of_nodes(one[0]):
                variables = more
                wanted.insert(0, one)
        steps = Steps(min(STEPS_OF_PART, self.left))
        before = steps.count
        self.steps.append(steps)
        search = Search(self.macros, self.has_entries, steps)
        try:
            may_be_true, may_be_false = (search.is_possible([*wanted, (formula, names, value)]) for value in (True, False))
        except OutOfSteps:
            return None
        finally:
            self.left -= before - steps.count
        return None if may_be_true is may_be_false else may_be_true

    def is_of_nodes(self, formula: Formula) -> bool:
        """Whether no predicate decides anything of a formula."""
        if isinstance(formula, Static):
            return formula.predicate.name in ("True", "False")
        if isinstance(formula, Expand):
            return self.is_of_nodes(self.macros[formula.macro.name].body)
        return isinstance(formula, Quantified) or all(map(self.is_of_nodes, parts(formula)))


def operands_of(formula: Binary) -> list[tuple[Formula, bool]]:
    """The operands of a connective, those of a chain of it together. Each has the value with which the others matter."""
    if formula.connective == "=>":
        premises = chained(formula.left, "/\\")
        return [*((one, True) for one in premises), (formula.right, False)]
    return [(one, formula.connective == "/\\") for one in chained(formula, formula.connective)]


def chained(formula: Formula, connective: str) -> list[Formula]:
    """The operands of a chain of one connective from left to right; a formula alone is a chain."""
    if isinstance(formula, Binary) and formula.connective == connective:
        return [*chained(formula.left, connective), *chained(formula.right, connective)]
    return [formula]


def variables_of(formula: Formula, names: Names) -> set[str]:
    """The variables that predicates and expansions of a formula speak of, where no quantifier stands around them."""
    if isinstance(formula, (Static, Expand)):
        found = (names.get(name, name) for name in names_of(formula))
        return {one for one in found if isinstance(one, str)}
    inside = [] if isinstance(formula, Quantified) else parts(formula)
    return set().union(*(variables_of(part, names) for part in inside))
