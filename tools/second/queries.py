"""A formula that is asked of a model, in a file of its own, with the faults that it may have."""
from dataclasses import replace
from typing import Iterator

from tools.second.models import Axiom, Formula, Model, ModelReader, Not
from tools.second.scopes import NameJudge, Scope, judge_macros, judge_sizes
from tools.second.tokens import Fault, tokens


class InModel(Fault):
    """A fault that a query meets in the body of a macro: its place is in the model's file."""


def with_axiom(model: Model, formula: Formula) -> Model:
    """The model with one axiom more, after its last item."""
    return replace(model, items=(*model.items, Axiom(0, "", formula)))


def read_query(data: bytes, model: Model) -> Formula:
    """The formula that the bytes say, or their first fault. What is judged of macros, sizes and names is the formula's
    denial as the last axiom of a model that has no fault itself."""
    reader = ModelReader(tokens(data))
    formula = reader.formula()
    reader.expect_kind("end")
    asked = with_axiom(model, Not(formula))
    judge_macros(asked)
    judge_sizes(asked)
    for fault in QueryJudge(model).faults(formula, ()):
        raise fault
    return formula


class QueryJudge(NameJudge):
    """Judges the names of a query as those of an axiom. The bodies of its macros stand in the model."""

    def body(self, formula: Formula, scope: Scope) -> Iterator[Fault]:
        return (InModel(fault.word, fault.place) for fault in super().body(formula, scope))
