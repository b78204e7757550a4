"""The faults of a written model beyond its grammar: stages, macros, sizes and names, in this order.

A name in a macro's body that is neither a parameter nor bound in the body has the binding in force where the macro
is expanded. So names are judged in the axioms, with each macro followed into its body.
"""
from typing import Iterator

from tools.second.cases import GREATEST_CORE
from tools.second.models import Arg, Atoms, Axiom, Binary, Expand, Formula, Macro, Model, ModelReader, NodeTerm, Not
from tools.second.models import Number, Quantified, Static
from tools.second.predicates import CORE, MICROOP, PLAIN, PREDICATES
from tools.second.tokens import Fault, tokens

GREATEST_STAGE = 63
MOST_HEIGHT = 512
MOST_SIZE = 1_000_000
MOST_VARIABLES = 32


def read_model(data: bytes) -> Model:
    """The model that the bytes say, or their first fault."""
    model = ModelReader(tokens(data)).model()
    judge_stages(model)
    judge_macros(model)
    judge_sizes(model)
    # outside before inside and left before right
    judge = NameJudge(model)
    for fault in (fault for axiom in model.axioms for fault in judge.faults(axiom.body, ())):
        raise fault
    return model


def judge_stages(model: Model) -> None:
    """Numbers of at most 63, and no number or name twice."""
    seen: set[int | str] = set()
    for stage in model.stages:
        if stage.number.value > GREATEST_STAGE:
            raise Fault("stage-number", stage.number.at)
        if stage.number.value in seen:
            raise Fault("stage-again", stage.number.at)
        if stage.name.name in seen:
            raise Fault("stage-again", stage.name.at)
        seen |= {stage.number.value, stage.name.name}


def parts(formula: Formula) -> list[Formula]:
    """The formulas directly below one, macros not followed."""
    if isinstance(formula, Not):
        return [formula.operand]
    if isinstance(formula, Binary):
        return [formula.left, formula.right]
    if isinstance(formula, Quantified):
        return [formula.body]
    return []


def below(formula: Formula, macros: dict[str, Macro] | None = None, expanded: set[str] | None = None) -> Iterator[Formula]:
    """A formula and what stands in it, from left to right. Of these macros those that it expands are followed, each once,
    where it is none of those that are said to be expanded, which are more then."""
    waiting = [formula]
    expanded = set() if expanded is None else expanded
    while waiting:
        here = waiting.pop()
        yield here
        waiting += reversed(parts(here))
        if macros is not None and isinstance(here, Expand) and here.macro.name not in expanded:
            expanded.add(here.macro.name)
            waiting.append(macros[here.macro.name].body)


def nodes_of(formula: Formula) -> list[NodeTerm]:
    """The nodes of a list, as they stand in it."""
    members = formula.members if isinstance(formula, Atoms) else ()
    return [node for atom in members for node in (atom.start, atom.end) if node is not None]


def judge_macros(model: Model) -> None:
    """Each macro's name is new, so are its parameters, and expansions fit. A macro names earlier ones alone."""
    macros = [item for item in model.items if isinstance(item, Macro)]
    # of macros of one name the first stands
    first_of_name = {macro.name.name: macro for macro in reversed(macros)}
    earlier: dict[str, Macro] = {}
    for item in model.items:
        if isinstance(item, Axiom):
            judge_expansions(item.body, first_of_name)
            continue
        if item.name.name in earlier:
            raise Fault("macro-again", item.name.at)
        seen: set[str] = set()
        for parameter in item.parameters:
            if parameter.name in seen:
                raise Fault("parameter-again", parameter.at)
            seen.add(parameter.name)
        judge_expansions(item.body, earlier)
        earlier[item.name.name] = item


def judge_expansions(formula: Formula, macros: dict[str, Macro]) -> None:
    """Each expansion in the formula is of one of these macros, with as many arguments as it has parameters."""
    for part in below(formula):
        if isinstance(part, Expand):
            macro = macros.get(part.macro.name)
            if macro is None:
                raise Fault("macro-unknown", part.macro.at)
            if len(part.args) != len(macro.parameters):
                raise Fault("macro-arguments", part.macro.at)


def judge_sizes(model: Model) -> None:
    """The height of each axiom and the sum of their sizes, with macros followed but not expanded."""
    known: dict[str, tuple[int, int]] = {}
    for item in model.items:
        if isinstance(item, Macro):
            known[item.name.name] = measured(item.body, known)
    total = 0
    for axiom in model.axioms:
        size, height = measured(axiom.body, known)
        if height > MOST_HEIGHT:
            raise Fault("too-deep", axiom.at)
        total += size
        if total > MOST_SIZE:
            raise Fault("too-big", axiom.at)


def measured(formula: Formula, known: dict[str, tuple[int, int]]) -> tuple[int, int]:
    """The size and the height of a formula, where those of the macros are known."""
    if isinstance(formula, Static):
        return 1, 0
    if isinstance(formula, Atoms):
        return 1 + len(formula.members), 0
    below = [known[formula.macro.name]] if isinstance(formula, Expand) else [measured(part, known) for part in parts(formula)]
    return 1 + sum(size for size, _ in below), 1 + max(height for _, height in below)


# the variables with their sorts, the innermost last, hidden ones included; of a macro by itself what a parameter stands for is
# not known
Scope = tuple[tuple[str, str | None], ...]


class NameJudge:
    """Judges names."""

    def __init__(self, model: Model) -> None:
        self.macros = model.macros
        self.stages = {stage.name.name for stage in model.stages}

    def faults(self, formula: Formula, scope: Scope) -> Iterator[Fault]:
        """The faults of a formula in a scope, in the order of the text."""
        if isinstance(formula, Quantified):
            scope = *scope, (formula.name, MICROOP if formula.over_microops else CORE)
            yield from self.too_many(scope, formula.at)
        elif isinstance(formula, Expand):
            yield from self.expansion(formula, scope)
        elif isinstance(formula, Static):
            yield from static_faults(formula, scope)
        for node in nodes_of(formula):
            yield from arg_faults(MICROOP, node.op, scope)
            if node.core is not None:
                yield from arg_faults(CORE, node.core, scope)
            if node.stage.name not in self.stages:
                yield Fault("stage-unknown", node.stage.at, said=f"there is no stage {node.stage.name}")
        for part in parts(formula):
            yield from self.faults(part, scope)

    def expansion(self, formula: Expand, scope: Scope) -> Iterator[Fault]:
        """The arguments, then the number of variables, then the macro's body."""
        for arg in formula.args:
            yield from arg_faults(None, arg, scope)
        macro, sorts = self.macros[formula.macro.name], dict(scope)
        kinds = (CORE if isinstance(arg, Number) else sorts.get(arg.name) for arg in formula.args)
        inside = *scope, *zip((parameter.name for parameter in macro.parameters), kinds)
        yield from self.too_many(inside, formula.at)
        yield from self.body(macro.body, inside)

    def body(self, formula: Formula, scope: Scope) -> Iterator[Fault]:
        """The body of a macro, where it is expanded."""
        return self.faults(formula, scope)

    def too_many(self, scope: Scope, at: int) -> Iterator[Fault]:
        """A scope has at most 32 variables in all."""
        if len(scope) > MOST_VARIABLES:
            yield Fault("too-many-variables", at)


def static_faults(formula: Static, scope: Scope) -> Iterator[Fault]:
    """A predicate's name, the number of its arguments, and each of them."""
    name, at = formula.predicate.name, formula.predicate.at
    if name not in PREDICATES:
        yield Fault("predicate-unknown", at, said=f"there is no predicate {name}")
        return
    takes, _ = PREDICATES[name]
    if len(takes) != len(formula.args):
        yield Fault("arity", at, said=f"{name} takes {len(takes)} arguments")
        return
    for wanted, arg in zip(takes, formula.args):
        yield from arg_faults(wanted, arg, scope)


def arg_faults(wanted: str | None, arg: Arg, scope: Scope) -> Iterator[Fault]:
    """The argument is of the kind that is asked for, with None of any: a number is a core, and a name has the sort of its
    innermost, that is last, binding."""
    sorts = dict(scope)
    if isinstance(arg, Number):
        if wanted not in (CORE, None):
            yield Fault("wrong-sort", arg.at, said="a number stands for a core, and none is asked for")
        elif arg.value > GREATEST_CORE:
            yield Fault("core-number", arg.at, said=f"core {arg.value} is over {GREATEST_CORE}")
    elif wanted != PLAIN and arg.name not in sorts:
        yield Fault("unbound", arg.at, said=f"nothing binds {arg.name}")
    elif wanted in (MICROOP, CORE) and sorts[arg.name] not in (wanted, None):
        yield Fault("wrong-sort", arg.at, said=f"{arg.name} is a {sorts[arg.name]}, and a {wanted} is asked for")
