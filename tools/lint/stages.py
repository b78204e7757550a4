"""Stages that no axiom names, and ones whose place is named in two ways, or once as nowhere else."""
from collections import defaultdict
from typing import Iterable, Iterator

from tools.lint.formulas import written
from tools.lint.slips import Slip, counted
from tools.second.models import Formula, Model, NodeTerm, Number
from tools.second.scopes import below, nodes_of

# where a stage stands so often on one core, and once on another, this one may be a slip
MANY = 3
# of a stage the nodes on the micro-op's own core, and on a core that they name
Mentions = tuple[list[NodeTerm], list[NodeTerm]]


def mentions_in(formulas: Iterable[Formula]) -> defaultdict[str, Mentions]:
    """The nodes of each stage in formulas, in the order of sight, macros not followed; of any other stage none."""
    found: defaultdict[str, Mentions] = defaultdict(lambda: ([], []))
    nodes = [node for formula in formulas for part in below(formula) for node in nodes_of(part)]
    for node in sorted(nodes, key=lambda node: node.stage.at):
        found[node.stage.name][node.core is not None].append(node)
    return found


def stage_slips(path: str, model: Model, bodies: list[Formula]) -> Iterator[Slip]:
    """Stages that no axiom names, and stages that axioms name in two ways; the rarer one is where the slip may be."""
    found = mentions_in(bodies)
    for stage in model.stages:
        own, named = found[stage.name.name]
        if own and named:
            yield two_places(path, *sorted((own, named), key=len))
        elif named:
            yield from odd_places(path, named)
        elif not own:
            yield Slip(path, stage.name.at, "unused-stage", stage.name.name, f"no axiom names stage {stage.name.name}")


def odd_places(path: str, nodes: list[NodeTerm]) -> Iterator[Slip]:
    """The one node of a stage on another core, by its number, than all others of three or more have."""
    by_core: dict[int, list[NodeTerm]] = {}
    for node in nodes:
        if not isinstance(node.core, Number):
            return
        by_core.setdefault(node.core.value, []).append(node)
    rare, *others = sorted(by_core.values(), key=len)
    if len(rare) == 1 and len(others) == 1 and len(others[0]) >= MANY:
        there = f"{written(others[0][0])} in {counted(len(others[0]), 'place')}"
        yield Slip(path, rare[0].stage.at, "odd-place", rare[0].stage.name, f"{written(rare[0])} here alone, and {there}")


def query_stage_slips(path: str, formula: Formula, bodies: list[Formula]) -> Iterator[Slip]:
    """Stages that a query names in another way than the model, or in two ways itself."""
    of_model = mentions_in(bodies)
    for name, (own, named) in mentions_in([formula]).items():
        known_own, known_named = of_model[name]
        if own and known_named + named and not known_own:
            yield two_places(path, own, known_named + named)
        elif named and known_own + own and not known_named:
            yield two_places(path, named, known_own + own)


def two_places(path: str, here: list[NodeTerm], others: list[NodeTerm]) -> Slip:
    """A stage that these nodes name in one way, and those in another."""
    stage = here[0].stage
    more = f" and in {counted(len(here) - 1, 'more place')}" if len(here) > 1 else ""
    there = f"{written(others[0])} in {counted(len(others), 'place')}"
    sentence = f"{written(here[0])} here{more}, and {there}: where the core is another, these are two nodes"
    return Slip(path, stage.at, "two-places", stage.name, sentence)
