"""Axioms that ask for nothing, or for what no world has, by what the tests say alone."""
from contextlib import suppress
from dataclasses import replace
from typing import Iterator

from tools.lint.formulas import ByForm
from tools.lint.slips import QueryFile, Slip, TestFile, word_of
from tools.lint.truth import OutOfSteps, Steps, Truth
from tools.second.cases import Case
from tools.second.meaning import Guards
from tools.second.models import Axiom, Binary, Formula, Model, Quantified, Static, Word
from tools.texts.quoting import shown

# A model that needs more steps is not looked at further: so many for what is True of each kind of test, and for what is False.
STEPS = 500_000

OF_ALL = "of every test given and of every one that lint makes up"


class Idle:
    """Finds such axioms among these of one model."""

    def __init__(self, path: str, model: Model, axioms: list[Axiom]) -> None:
        self.path = path
        self.model = model
        self.guards = Guards()
        self.axioms = axioms
        # most axioms are not looked at again for each test
        self.by_form = ByForm(model.macros, False)
        self.steps = {True: Steps(STEPS), False: Steps(STEPS), None: Steps(STEPS)}

    def truths(self, cases: list[Case], steps: Steps) -> list[Truth]:
        """What each case decides."""
        return [Truth(self.model, self.guards, case, steps) for case in cases]

    def true_slips(self, made: list[Case], given: list[Case]) -> Iterator[Slip]:
        """Axioms that are true of each case by what it says: first of those that are made, which no test changes."""
        if not self.model.axioms:
            yield Slip(self.path, 0, "idle", "", "the model has no axiom, so that each outcome is observable")
        truths = [*self.truths(made, self.steps[True]), *self.truths(given, self.steps[None])]
        with suppress(OutOfSteps):
            for axiom in self.axioms:
                if self.by_form.is_sure(axiom.body, True) and all(truth.is_sure(axiom.body, {}, True) for truth in truths):
                    yield self.slip(axiom, f"asks for nothing: it is True {OF_ALL}")

    def false_slips(self, test: TestFile) -> Iterator[Slip]:
        """Axioms that are false of a test by what it says. A read that a pattern leaves open says nothing."""
        if any(item.is_open for item in test.case.op_items):
            return
        truth = Truth(self.model, self.guards, test.case, self.steps[False])
        with suppress(OutOfSteps):
            for axiom in self.axioms:
                may_be = not test.case.ops or self.by_form.is_sure(axiom.body, False)
                if may_be and truth.is_sure(axiom.body, {}, False):
                    yield self.slip(axiom, f"is False by what the test says alone, of {shown(test.path)}")

    def query_slips(self, query: QueryFile, cases: list[Case]) -> Iterator[Slip]:
        """A query whose premise is false of each case by what it says, or that is false itself."""
        asked = ((without_conclusion(query.formula), True, "its premise"), (query.formula, False, "it"))
        with suppress(OutOfSteps):
            for formula, wanted, what in asked:
                if all(truth.is_sure(formula, {}, wanted) for truth in self.truths(cases, self.steps[wanted])):
                    sentence = f"the query asks for nothing: {what} is False {OF_ALL}"
                    yield Slip(query.path, query.at, "idle", "query", sentence)

    def slip(self, axiom: Axiom, sentence: str) -> Slip:
        """One line about an axiom."""
        return Slip(self.path, axiom.at, "idle", word_of(axiom.title), f'axiom "{axiom.title}" {sentence}')


def without_conclusion(formula: Formula) -> Formula:
    """The formula with False for what its premises lead to: it is true where they are false."""
    if isinstance(formula, Quantified) and formula.universal:
        return replace(formula, body=without_conclusion(formula.body))
    if isinstance(formula, Binary) and formula.connective == "=>":
        return replace(formula, right=without_conclusion(formula.right))
    return Static(Word("False", 0), ())
