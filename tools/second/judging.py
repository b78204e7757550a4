"""Judges the text of a certificate against a model and a test, line by line.

A graph is judged by evaluating the written axioms in its world. A refutation is judged by the positions of the ground tree: what
is asserted on a branch is the root, both members of an asserted conjunction, and below a split the member of its side.

In a refutation of version 2, whose third line is `version 2`, positions have signs, and the right side of a split may use
that the left one is false. `~p` says that position p does not hold: where p is a disjunction both members are denied with
it, and where p is a literal the opposite literal is asserted. `split ~p` splits a denied conjunction.
"""
from typing import Callable

from tools.second.cases import Case
from tools.second.evaluating import false_axioms
from tools.second.meaning import Node
from tools.second.models import Model
from tools.second.positions import Clash, Leaf, NodeNames, Positions, Signed, is_decimal

LIMIT = 67_108_864
VERSION_2 = "version 2"


class Refused(Exception):
    """The first line that breaks its rule, counted from 1."""

    def __init__(self, line: int) -> None:
        super().__init__(f"certificate refused at line {line}")


def second_line(is_observable: bool, case: Case) -> str:
    """How a verdict compares with what the test states."""
    if case.expectation == "unstated":
        return "test unstated"
    if case.expectation == "permitted":
        return "test permitted: ok" if is_observable else "test permitted: stricter"
    return "test forbidden: BUG" if is_observable else "test forbidden: ok"


def judge(model: Model, case: Case, data: bytes, takes_version_2: bool = True) -> bool:
    """Whether the certificate is of an observable outcome; Refused where it is none."""
    is_observable = data.startswith(b"observable\n")
    header = ["observable" if is_observable else "unobservable", second_line(is_observable, case)]
    if takes_version_2 and not is_observable and data.split(b"\n", 3)[2:3] == [VERSION_2.encode("ascii")]:
        header.append(VERSION_2)

    if is_observable:
        judge_lines(data, header, lambda: GraphJudge(model, case).accepts)
    else:
        judge_lines(data, header, lambda: TreeJudge(model, case, len(header) - 1).accepts)
    return is_observable


def judge_lines(data: bytes, header: list[str], begin: Callable[[], Callable[[str], bool]]) -> None:
    """Refused past the limit, where the first lines are not these, where a later one is not accepted by the judge that begins
    behind them, or where `end` is not the last one, or does not come. What stands after the last LF is no line."""
    if len(data) > LIMIT:
        raise Refused(0)
    *whole, rest = data.decode("latin-1").split("\n")
    for number, line in enumerate(header, 1):
        if whole[number - 1 : number] != [line]:
            raise Refused(number)
    accepts = begin()
    for number, line in enumerate(whole[len(header) :], len(header) + 1):
        if not accepts(line):
            raise Refused(number)
        if line == "end":
            if whole[number:] or rest:
                raise Refused(number + 1)
            return
    raise Refused(len(whole) + 1)


class GraphJudge:
    def __init__(self, model: Model, case: Case) -> None:
        self.model = model
        self.case = case
        self.names = NodeNames(model, case)
        self.nodes: list[Node] = []
        self.edges: list[tuple[Node, Node]] = []

    def accepts(self, line: str) -> bool:
        """Whether the line may come next. The last one is accepted where the world makes every axiom true."""
        word, *rest = line.split(" ")
        if line == "end":
            return not false_axioms(self.model, self.case, self.nodes, self.edges)
        nodes = [node for node in map(self.names.read, rest) if node is not None]
        if len(nodes) != len(rest):
            return False
        if word == "node" and len(nodes) == 1 and not self.edges:
            self.nodes.append(nodes[0])
            return True
        if word == "edge" and len(nodes) == 2 and all(node in self.nodes for node in nodes):
            self.edges.append((nodes[0], nodes[1]))
            return True
        return False


# the literals and the choices that are asserted on a branch
Branch = set[Leaf | Signed]


class TreeJudge:
    """Judges the steps of a refutation. The open branches stand in a list, the present one last."""

    def __init__(self, model: Model, case: Case, version: int) -> None:
        self.version = version
        self.positions = Positions(model, case)
        self.numbers = {word: number for number, word in enumerate(self.positions.words)}
        self.open = [self.below(set(), [(0, False)] if self.positions.constant is None else [])]

    def accepts(self, line: str) -> bool:
        """Whether the step is right on the present branch; `end` where none is open."""
        if not self.open or line == "end":
            return not self.open and line == "end"
        branch = self.open.pop()
        word, *rest = line.split(" ")
        if word == "split":
            return len(rest) == 1 and self.splits(branch, rest[0])
        if word == "false":
            return not rest and self.positions.constant is False
        is_clash = {"cycle": len(rest) >= 1, "path": len(rest) >= 2, "absent": len(rest) == 1}.get(word, False)
        if not is_clash or not all(it in self.numbers for it in rest):
            return False
        return branch.issuperset(Clash(word, [self.numbers[it] for it in rest]).literals)

    def splits(self, branch: Branch, word: str) -> bool:
        """Opens both sides of an asserted choice, the left one first."""
        is_denied = self.version == 2 and word.startswith("~")
        digits = word[1:] if is_denied else word
        if not is_decimal(digits) or (int(digits), is_denied) not in branch:
            return False
        left, right = self.positions.sides((int(digits), is_denied), self.version)
        self.open += [self.below(branch, right), self.below(branch, left)]
        return True

    def below(self, branch: Branch, side: list[Signed]) -> Branch:
        facts = set(self.positions.asserted(*side))
        return branch.union(facts, *(fact.implied for fact in facts if isinstance(fact, Leaf)))
