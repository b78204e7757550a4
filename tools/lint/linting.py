"""Slips in a model, in tests and in queries that no fault word tells, since what the files say is well-formed.

A slip changes the question without a word: a type name that no axiom asks for orders nothing, and a value that nothing
writes is never read. docs/lint.md has a row for each kind. A comment `Lint allows: KIND NAME..` in the model, or in the
test or query, says that a kind, or these names of it, are meant.
"""
from typing import Callable, Iterable, Iterator

from tools.lint.asked import Asked, missing_names, not_asked
from tools.lint.bindings import Bindings
from tools.lint.edges import edge_slips
from tools.lint.formulas import ByForm
from tools.lint.idle import Idle
from tools.lint.made import ENTRY_PREDICATES, made_tests
from tools.lint.nodes import FreeNodes
from tools.lint.of_tests import OF_TEST, value_slips
from tools.lint.parts import Parts
from tools.lint.slips import QueryFile, Slip, TestFile, allowed, counted, grouped, unless_meant
from tools.lint.stages import query_stage_slips, stage_slips
from tools.lint.words import constant_slips, mixed_slips, swallowed_slips, title_slips, unexpanded_slips
from tools.second.listings import read_file_case
from tools.second.models import Axiom, Model
from tools.second.queries import read_query
from tools.second.tokens import tokens

STOPPED = "lint stopped looking at its limit: there may be more"


def read_test(path: str, text: bytes) -> TestFile:
    """The test of a text, which may raise a fault."""
    return TestFile(path, text, read_file_case(path, text))


def read_query_file(path: str, text: bytes, model: Model) -> QueryFile:
    """The query of a text beside its model, which may raise a fault."""
    return QueryFile(path, text, read_query(text, model), tokens(text)[0].at)


class Linter:
    """Goes through the files: the model, each test, each query. What is said of several tests alike is one line."""

    def __init__(self, path: str, text: bytes, model: Model, tests: list[TestFile], queries: list[QueryFile]) -> None:
        self.path = path
        self.text = text
        self.model = model
        self.tests = tests
        self.queries = queries
        self.meant = allowed(text)
        self.asked = Asked(model, [query.formula for query in queries])
        self.cases = [test.case for test in tests]
        self.made = made_tests(self.asked)
        self.has_entries = bool(self.asked.predicates & ENTRY_PREDICATES)
        self.constants = ByForm(model.macros, True)
        self.bindings = Bindings(path, model)
        # what constants decide is told as that
        self.axioms = [axiom for axiom in model.axioms if self.constants.truth(axiom.body) is None]
        self.idle = Idle(path, model, self.axioms)
        # an access at an entry has no physical tag
        self.parts = Parts(path, model, self.has_entries or "SamePhysicalTag" in self.asked.predicates)
        self.free_nodes = FreeNodes(path, model, self.axioms, self.bindings.from_outside)

    def slips(self) -> Iterator[Slip]:
        """All slips in their order, those that are meant left out."""
        yield from unless_meant(self.meant, self.model_slips())
        yield from self.of_tests(lambda test: (slip for kind in OF_TEST for slip in kind(test)))
        yield from self.shared_slips()
        for query in self.queries:
            yield from unless_meant(self.meant | allowed(query.text), self.query_slips(query))
        steps = {"idle": self.idle.steps.values(), "constant-part": self.parts.steps, "free-node": self.free_nodes.steps}
        short = (Slip(self.path, 0, kind, "", STOPPED) for kind, its in steps.items() if any(it.is_short for it in its))
        yield from unless_meant(self.meant, short)

    def of_tests(self, find: Callable[[TestFile], Iterable[Slip]]) -> Iterator[Slip]:
        """What is found of each test, and not meant there."""
        for test in self.tests:
            yield from unless_meant(self.meant | allowed(test.text), find(test))

    def model_slips(self) -> Iterator[Slip]:
        """What is said of the model, by itself and beside all tests."""
        yield from constant_slips(self.path, self.model, self.constants)
        yield from title_slips(self.path, self.text, self.model)
        yield from swallowed_slips(self.path, self.text)
        yield from unexpanded_slips(self.path, self.model, self.asked)
        yield from edge_slips(self.path, self.model)
        yield from self.bindings.model_slips
        yield from stage_slips(self.path, self.model, self.asked.bodies)
        yield from mixed_slips(self.path, self.model, self.asked.bodies, self.has_entries)
        yield from missing_names(self.path, self.asked, self.tests, self.meant)
        idle = list(self.idle.true_slips(self.made, self.cases)) if self.made else []
        yield from idle
        yield from self.part_slips({slip.at for slip in idle})
        if not self.tests:
            yield from self.free_nodes.of_made(self.made)

    def part_slips(self, idle: set[int]) -> list[Slip]:
        """What is said of parts of axioms, and of macros that are expanded. Of an axiom that is said to ask for nothing,
        at these places, no part is told."""
        places = {axiom.at for axiom in self.axioms} - idle
        expanded = self.asked.expanded
        items = [it for it in self.model.items if (it.at in places if isinstance(it, Axiom) else it.name.name in expanded)]
        return self.parts.slips(items)

    def shared_slips(self) -> Iterator[Slip]:
        """What is said of a test beside the model, and in other words of other tests: one line each."""
        asked = self.of_tests(lambda test: not_asked(self.path, self.asked, test))
        yield from grouped(asked, lambda slip: slip.sentence, lambda more: f", here and in {counted(more, 'more place')}")
        false = self.of_tests(self.false_slips)
        yield from grouped(false, lambda slip: slip.at, lambda more: f" and {counted(more, 'more test')}")
        free = list(self.of_tests(self.free_nodes.of_test))
        yield from grouped(free, lambda slip: slip.name, lambda more: f", and {more} more of them")
        if self.tests:
            # what is said of a model alone is said of it beside tests, too
            told = {slip.name for slip in free}
            of_made = (slip for slip in self.free_nodes.of_made(self.made) if slip.name not in told)
            yield from unless_meant(self.meant, of_made)

    def false_slips(self, test: TestFile) -> Iterable[Slip]:
        """Axioms that are false of a test. A read that nothing writes makes an axiom on reads false, and is told as it is."""
        is_unwritten = any(slip.kind == "unwritten" for slip in value_slips(test))
        return () if is_unwritten else self.idle.false_slips(test)

    def query_slips(self, query: QueryFile) -> Iterator[Slip]:
        """What is said of a query beside the model."""
        yield from edge_slips(query.path, self.model, query.formula)
        yield from self.bindings.query_slips(query.path, query.formula)
        yield from query_stage_slips(query.path, query.formula, self.asked.bodies)
        if self.made:
            yield from self.idle.query_slips(query, [*self.cases, *self.made])
