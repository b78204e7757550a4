"""A minimal set of axioms that forbid an outcome: each in file order is taken out where the rest still forbids it."""
from dataclasses import replace

from tools.second.cases import Case
from tools.second.models import Macro, Model
from tools.second.searching import is_observable


def with_axioms(model: Model, numbers: list[int]) -> Model:
    """The model with the axioms of these numbers alone, from 0 in file order. Stages and macros stay."""
    kept = [model.axioms[number] for number in numbers]
    return replace(model, items=tuple(item for item in model.items if isinstance(item, Macro) or item in kept))


def without(numbers: list[int], left_out: int) -> list[int]:
    return [number for number in numbers if number != left_out]


def minimal_set(model: Model, case: Case) -> list[int] | None:
    """The numbers of the axioms of the set; None where the outcome is observable."""
    kept = list(range(len(model.axioms)))
    if is_observable(model, case):
        return None
    for number in range(len(model.axioms)):
        if not is_observable(with_axioms(model, without(kept, number)), case):
            kept = without(kept, number)
    return kept
