"""Questions to the program, each a call: what it says of copies of a test, of formulas on them, and of the shipped tests. The runs
that it answers with are graphs: which of their nodes are before which."""
import os
import tempfile
from collections import Counter
from functools import cache
from graphlib import TopologicalSorter
from typing import Callable, Iterable, Iterator, NamedTuple, Sequence

from tools.ending import Refusal
from tools.mend.copies import Final, Outcome, Program, text_of
from tools.second.meaning import Node
from tools.second.models import Model
from tools.second.patterns import ENDING, value_text
from tools.second.positions import NodeNames
from tools.suite.allowing import Machines, Rows
from tools.suite.calling import memory_limit
from tools.suite.files import TEST_ENDING, File, test_file
from tools.suite.pairs import Checker
from tools.texts.answers import Asked, read_answer

Edge = tuple[Node, Node]
OBSERVABLE = "observable"
# of check: observable, and not
STATUSES = 0, 1
# the status of a machine that does not run such tests
NOT_RUN = 3


class World:
    """A run: its nodes, and all that is before another one."""

    def __init__(self, read: Callable[[str], Node | None], lines: Iterable[str]) -> None:
        self.later: dict[Node, set[Node]] = {}
        for line in lines:
            word, *nodes = line.split(" ")
            known = [node for node in map(read, nodes) if node is not None]
            if word == "node":
                self.later.setdefault(known[0], set())
            elif word == "edge":
                self.later[known[0]].add(known[1])
        # each node behind all that are later
        for node in TopologicalSorter(self.later).static_order():
            self.later[node] = self.later[node].union(*(self.later[end] for end in self.later[node]))

    def has(self, edge: Edge) -> bool:
        return edge[1] in self.later.get(edge[0], ())

    def row(self, wanted: Iterable[Edge]) -> list[Node]:
        """The nodes in an order that all edges keep, and many of those that are wanted: of the nodes that may come next the
        one that most wanted edges lead from."""
        starts = Counter(start for start, _ in wanted)
        ends = Counter(end for _, end in wanted)
        earlier: dict[Node, int] = Counter(end for found in self.later.values() for end in found)
        found: list[Node] = []
        left = set(self.later)
        while left:
            node = max((it for it in left if earlier[it] == 0), key=lambda it: (starts[it] - ends[it], it))
            left.remove(node)
            found.append(node)
            for end in self.later[node]:
                earlier[end] -= 1
        return found


class Unanswered(Refusal):
    """The program gave no answer: its status, None where it was late, and what it wrote."""

    def __init__(self, word: str, status: int | None, said: bytes) -> None:
        super().__init__(f"{word} was not done in time" if status is None else f"{word} ended with status {status}")
        self.status = status
        self.said = said


class Questions:
    """A model and a program that are asked about, in a folder of temporary files."""

    def __init__(self, checker: Checker, folder: str, model: Model, text: bytes, program: Program, name: str) -> None:
        self.checker = checker
        self.folder = folder
        self.model = model
        self.text = text
        self.program = program
        # what the type names of the micro-ops begin with
        self.name = name
        self.nodes = NodeNames(model, program.case)
        # the same few nodes come in each run
        self.read = cache(self.nodes.read)
        self.model_path = self.file("model", text)
        self.paths: dict[Outcome, str] = {}
        self.count = 0

    def file(self, name: str, text: bytes) -> str:
        path = os.path.join(self.folder, name)
        with open(path, "wb") as file:
            file.write(text)
        return path

    def called(self, *words: str) -> bytes:
        """What the program writes; the questions are counted."""
        self.count += 1
        return answer_of(self.checker, *words)

    def path_of(self, outcome: Outcome) -> str:
        if outcome not in self.paths:
            text = text_of(self.program.case_of(outcome), self.name)
            self.paths[outcome] = self.file(f"{len(self.paths)}.test", text)
        return self.paths[outcome]

    def world(self, outcome: Outcome) -> World:
        """A run that shows an outcome which is observable."""
        said = self.called("check", self.model_path, self.path_of(outcome))
        return World(self.read, said.decode("ascii").split("\n")[2:-2])

    def worlds(self, outcome: Outcome, orders: Sequence[Sequence[Edge]]) -> list[World]:
        """Runs that show an outcome, one with all edges of one of these orders, and one with those of none; none where
        there are none with those of one."""
        return self.asked(outcome, joined(" \\/ ", [joined(" /\\ ", list(map(self.formula, edges))) for edges in orders]))

    def asked(self, outcome: Outcome, formula: str) -> list[World]:
        """Runs that show an outcome, one in which a formula holds and one in which not, if any; none where it holds in none."""
        query = self.file("query", formula.encode("ascii"))
        answer = read_answer(self.called("ask", self.model_path, self.path_of(outcome), query), self.model)
        assert isinstance(answer, Asked)
        if answer.word not in ("always", "sometimes"):
            return []
        return [World(self.read, part.lines[2:-1]) for part in answer.parts if part.lines[0] == OBSERVABLE]

    def pattern(self, final: Final) -> bytes:
        """The program with its reads open, and these final values."""
        return text_of(self.program.case_of(Outcome(self.program.stated.reads, final)), self.name, self.program.opens)

    def shown(self, model_path: str) -> Iterator[Outcome]:
        """The outcomes of the program that a model shows."""
        for final in self.program.finals:
            pattern = self.file("pattern", self.pattern(final))
            lines = self.called("sweep", model_path, pattern).decode("ascii").split("\n")
            rows = [line for line in lines if line.startswith("row ") or line == "row"]
            for outcome, row in zip(self.program.rows(final), rows):
                if row.endswith(f" {OBSERVABLE}"):
                    yield outcome

    def allowed(self, machines: Machines, name: str) -> set[Outcome] | None:
        """The outcomes that come up on the machine of a memory model; None where it does not run the program."""
        found: set[Outcome] = set()
        for final in self.program.finals:
            command = machines.command(name, self.file(f"machine{ENDING}", self.pattern(final)))
            with tempfile.TemporaryFile() as out:
                status = self.checker.calls.status(command, memory_limit(""), self.checker.seconds, out)
                out.seek(0)
                lines = out.read().decode("ascii", "replace").splitlines()
            if status == NOT_RUN:
                return None
            if status != 0 or lines[-1:] != ["end"]:
                raise Unanswered(f"the machine {name}", status, b"")
            rows = self.program.rows(final)
            found.update(it for it in rows if " ".join(["row", *map(value_text, it.reads)]) in lines)
        return found

    def formula(self, edge: Edge) -> str:
        """That an edge is there."""
        names = {op: f"o{op}" for op in (edge[0][0], edge[1][0])}
        bound = " ".join(f'exists microop "{name}", AccessType {self.name}{op} {name} /\\' for op, name in names.items())
        ends = ", ".join(f"({names[op]}, ({core}, {self.nodes.stages[stage]}))" for op, core, stage in edge)
        return f"({bound} EdgeExists ({ends}))"


def joined(connective: str, formulas: list[str]) -> str:
    """One formula of several. It is nested evenly, since there are limits of depth."""
    half = len(formulas) // 2
    if half == 0:
        return formulas[0]
    return f"({joined(connective, formulas[:half])}{connective}{joined(connective, formulas[half:])})"


def answer_of(checker: Checker, *words: str, statuses: Sequence[int] = (0,)) -> bytes:
    """What the program writes to these words; its status is one of these."""
    with tempfile.TemporaryFile() as out:
        status = checker.status(list(words), out)
        out.seek(0)
        said = out.read()
    if status not in statuses:
        raise Unanswered(words[0], status, said)
    return said


def is_shown(checker: Checker, word: str, model_path: str, test_path: str) -> bool:
    """Whether the program says to this word that the model shows the outcome."""
    return answer_of(checker, word, model_path, test_path, statuses=STATUSES).startswith(b"observable")


class Counts(NamedTuple):
    """How many tests a memory model allows and a model shows, and how many of these that changes; the same of forbidden ones."""

    stricter: int
    allowed: int
    mended: int
    bugs: int


class SuiteTests:
    """The shipped tests that a model shows, those that its memory model allows and those that it does not."""

    def __init__(self, checker: Checker, top: str, memory_model: str, model_path: str) -> None:
        self.checker = checker
        rows = Rows(os.path.join(top, "examples", "memory-models.tsv"), by_name=False)
        folder = os.path.join(top, "examples", "tests")
        self.shown: dict[bool, list[File]] = {True: [], False: []}
        for name in sorted(os.listdir(folder)) if os.path.isdir(folder) else []:
            if name.endswith(TEST_ENDING):
                test = test_file(os.path.join(folder, name))
                is_allowed = rows.allowed(memory_model, test)
                if is_allowed is not None and is_shown(checker, "check", model_path, test.path):
                    self.shown[is_allowed].append(test)

    def counts(self, model_path: str) -> Counts | None:
        """What a model with one axiom more changes; None where the model shows no test that the memory model speaks of."""
        if not any(self.shown.values()):
            return None
        gone = {
            it: sum(not is_shown(self.checker, "check", model_path, test.path) for test in tests) for it, tests in self.shown.items()
        }
        return Counts(gone[True], len(self.shown[True]), gone[False], len(self.shown[False]))
