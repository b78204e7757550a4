"""Names of types, kinds of dependencies and values: what the axioms ask of a test, and what the tests have of it."""
from typing import Iterator, Sequence

from tools.lint.slips import Meant, Slip, TestFile, allowed, unless_meant
from tools.second.cases import DependencyItem, Entry, OpItem, Page, ValueItem
from tools.second.models import Formula, Model, Number, Static
from tools.second.scopes import below
from tools.texts.quoting import shown


class Asked:
    """What the axioms and the queries ask of a test, with macros followed: predicates, and the names that two of them take."""

    def __init__(self, model: Model, queries: Sequence[Formula] = ()) -> None:
        self.macros = model.macros
        self.expanded: set[str] = set()
        self.predicates: set[str] = set()
        self.types: dict[str, int] = {}
        self.kinds: dict[str, int] = {}
        self.cores: set[int] = set()
        for axiom in model.axioms:
            self.follow(axiom.body)
        # where the model asks for them; a query has places of its own
        self.type_places = dict(self.types)
        self.kind_places = dict(self.kinds)
        for formula in queries:
            self.follow(formula)
        # the axioms and the macros that are expanded, each once
        expanded = (macro.body for name, macro in self.macros.items() if name in self.expanded)
        self.bodies: list[Formula] = [*(axiom.body for axiom in model.axioms), *expanded]

    def follow(self, formula: Formula) -> None:
        """Takes in a formula; each macro is followed once."""
        for part in below(formula, self.macros, self.expanded):
            if isinstance(part, Static):
                self.predicates.add(part.predicate.name)
                for name, table in (("AccessType", self.types), ("HasDependency", self.kinds)):
                    if part.predicate.name == name and not isinstance(part.args[0], Number):
                        table.setdefault(part.args[0].name, part.args[0].at)
                self.cores.update(arg.value for arg in part.args if isinstance(arg, Number))


def missing_names(path: str, asked: Asked, tests: list[TestFile], meant: Meant) -> Iterator[Slip]:
    """Type names and dependency kinds that axioms ask for and none of the tests has, where a test has another name that
    no axiom asks for, or a fence without a name: then one of the two may be misspelt."""
    ops = [op for test in tests for op in test.case.ops]
    types = {name for op in ops for name in op.types}
    kinds = {kind for test in tests for kind, _, _ in test.case.dependencies}
    spare = {slip.name for test in tests for slip in unless_meant(meant | allowed(test.text), not_asked(path, asked, test))}
    if spare & types or any(op.access == "Fence" and not op.types for op in ops):
        for name in sorted(asked.type_places.keys() - types):
            sentence = f"axioms ask for type {name}, and no micro-op of the tests has it"
            yield Slip(path, asked.type_places[name], "not-in-tests", name, sentence)
    if spare & kinds:
        for name in sorted(asked.kind_places.keys() - kinds):
            sentence = f"axioms ask for dependencies of kind {name}, and the tests have none of it"
            yield Slip(path, asked.kind_places[name], "not-in-tests", name, sentence)


def not_asked(model_path: str, asked: Asked, test: TestFile) -> Iterator[Slip]:
    """Types, dependency kinds and values of the test that no axiom asks for, and that two accesses are of one instruction."""
    rest = f"no axiom of {shown(model_path)} asks for it"
    of_reads = {"SameData", "DataFromInitialStateAtPA"}
    of_entries = {"MapsTagOf", "MarkedAccessed", "MarkedDirty"}
    of_state = {"Init": "DataFromInitialStateAtPA", "Final": "DataFromFinalStateAtPA"}
    instructions: set[int] = set()
    for item in test.case.items:
        if isinstance(item, OpItem):
            # a type is told itself or asked for, and what is at an entry is a walk
            if isinstance(item.op.pa, Page) and not item.op.types and not asked.predicates & {"SameInstruction", "SameIntra"}:
                if item.op.g in instructions:
                    sentence = f"SameInstruction of two accesses, between which no program order stands: {rest}"
                    yield Slip(test.path, item.g_at, "not-asked", "SameInstruction", sentence)
                instructions.add(item.op.g)
            for name, at in item.types_at:
                if name not in asked.types:
                    yield Slip(test.path, at, "not-asked", name, f"type {name}: {rest}")
            of_value = of_reads | of_entries if isinstance(item.op.value, Entry) else of_reads
            if item.op.access == "Read" and not asked.predicates & of_value:
                yield Slip(test.path, item.value_at, "not-asked", "Data", f"the value of a read: {rest}")
        elif isinstance(item, DependencyItem) and item.kind not in asked.kinds:
            yield Slip(test.path, item.at, "not-asked", item.kind, f"a dependency of kind {item.kind}: {rest}")
        elif isinstance(item, ValueItem) and of_state[item.word] not in asked.predicates:
            yield Slip(test.path, item.at, "not-asked", item.word, f"the value of {item.word}: {rest}")
