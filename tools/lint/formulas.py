"""What kinds of slips share: the names in a formula, how it is written, and what its form alone decides."""
from typing import Mapping

from tools.second.models import Arg, Binary, Expand, Formula, Macro, NodeTerm, Not, Number, Quantified, Static, Word
from tools.second.predicates import PLAIN, PREDICATES
from tools.second.scopes import nodes_of


def names_of(formula: Formula) -> frozenset[str]:
    """The names of micro-ops and cores that a formula has as arguments."""
    args: list[Arg | None] = [arg for node in nodes_of(formula) for arg in (node.op, node.core)]
    if isinstance(formula, Expand):
        args += formula.args
    elif isinstance(formula, Static):
        takes, _ = PREDICATES.get(formula.predicate.name, ((), None))
        # a macro that nothing expands may be ill-formed: then each argument counts
        fits = len(takes) == len(formula.args)
        args += [arg for k, arg in enumerate(formula.args) if not fits or takes[k] != PLAIN]
    return frozenset(arg.name for arg in args if isinstance(arg, Word))


def shape(part: object) -> object:
    """A formula, or what it is made of, without places and labels."""
    names = getattr(part, "__match_args__", None)
    if names is None:
        return tuple(map(shape, part)) if isinstance(part, tuple) else part
    return type(part), *(shape(getattr(part, name)) for name in names if name not in ("at", "label"))


def written(part: Arg | NodeTerm | Static | Expand, values: Mapping[str, str] | None = None) -> str:
    """A part of a formula as it stands in the text, with these values in place of variables."""
    match part:
        case Number(value):
            return str(value)
        case Word(name):
            return (values or {}).get(name, name)
        case NodeTerm(op, core, stage):
            place = stage.name if core is None else f"({written(core, values)}, {stage.name})"
            return f"({written(op, values)}, {place})"
        case Static(predicate, args):
            return " ".join([predicate.name, *(written(arg, values) for arg in args)])
        case Expand(_, macro, args):
            return " ".join(["ExpandMacro", macro.name, *(written(arg, values) for arg in args)])
    raise AssertionError(f"no part of a formula: {part}")


class ByForm:
    """What the form of a formula decides, whatever nodes and edges a world has: what True, False and empty lists decide alone, in
    every test; or whether some test with a micro-op may decide it."""

    def __init__(self, macros: dict[str, Macro], of_every_test: bool) -> None:
        self.macros = macros
        self.of_every_test = of_every_test
        self.known: dict[tuple[str, bool], bool] = {}

    def truth(self, formula: Formula) -> bool | None:
        """The truth of a formula; None where its form does not decide it."""
        return next((truth for truth in (True, False) if self.is_sure(formula, truth)), None)

    def is_sure(self, formula: Formula, wanted: bool) -> bool:
        """Whether it is true, or false where it is not wanted."""
        if isinstance(formula, Static):
            return not self.of_every_test or formula.predicate.name == str(wanted)
        if isinstance(formula, Not):
            return self.is_sure(formula.operand, not wanted)
        if isinstance(formula, Binary):
            left = self.is_sure(formula.left, wanted is not (formula.connective == "=>"))
            right = self.is_sure(formula.right, wanted)
            return left and right if (formula.connective == "/\\") is wanted else left or right
        if isinstance(formula, Quantified):
            # over nothing `forall` is true and `exists` is false, whatever the body
            return (not self.of_every_test or formula.universal is wanted) and self.is_sure(formula.body, wanted)
        if isinstance(formula, Expand):
            key = formula.macro.name, wanted
            if key not in self.known:
                self.known[key] = self.is_sure(self.macros[formula.macro.name].body, wanted)
            return self.known[key]
        return wanted and not formula.members
