"""The nested tree as numbered positions, and its nodes as numbers: what refutations speak of.

Positions are counted in preorder over conjunctions, disjunctions and literals, from 0 at the root. Nodes are numbered as they are
first seen in that order, the first end of an edge before the second. A tree that is a constant has no position.
"""
import re
from dataclasses import dataclass
from typing import Iterator, NamedTuple, Sequence

from tools.second.cases import GREATEST_CORE, Case
from tools.second.grounding import Grounder, Group, Literal, Tree, nested
from tools.second.meaning import Node
from tools.second.models import Model
from tools.second.tokens import GREATEST_NUMBER

# a number of a certificate, without leading zeros
DECIMAL = "(0|[1-9][0-9]{0,19})"
NODE = re.compile(rf"{DECIMAL}\.{DECIMAL}@{DECIMAL}:(.*)")

# a position, and whether it is denied
Signed = tuple[int, bool]


@dataclass(frozen=True)
class Inner:
    """A conjunction or a disjunction with the positions of its two members."""

    is_disjunction: bool
    left: int
    right: int


@dataclass(frozen=True)
class Leaf:
    """A literal over node numbers; `end` is None for a node."""

    start: int
    end: int | None
    wanted: bool

    @property
    def implied(self) -> "list[Leaf]":
        """What an edge says beside itself: that both of its ends are there."""
        if self.end is None or not self.wanted:
            return []
        return [Leaf(self.start, None, True), Leaf(self.end, None, True)]


class Clash(NamedTuple):
    """The line that closes a branch: `cycle`, `path` or `absent` with its nodes."""

    word: str
    nodes: list[int]

    @property
    def literals(self) -> list[Leaf]:
        """What it says that the branch asserts: the edges of a cycle; those of a path, and that there is none between its
        ends; or that a node is not there, and that it is."""
        chain = [Leaf(start, end, True) for start, end in zip(self.nodes, self.nodes[1:])]
        first, last = self.nodes[0], self.nodes[-1]
        if self.word == "absent":
            return [Leaf(first, None, False), Leaf(first, None, True)]
        return [*chain, Leaf(last, first, True) if self.word == "cycle" else Leaf(first, last, False)]


class NodeNames:
    """Nodes as certificates write them: g.n@core:Stage."""

    def __init__(self, model: Model, case: Case) -> None:
        self.case = case
        self.stages = {stage.number.value: stage.name.name for stage in model.stages}
        self.numbers = {name: number for number, name in self.stages.items()}

    def write(self, node: Node) -> str:
        op, core, stage = node
        return f"{self.case.ops[op].g}.{self.case.ops[op].n}@{core}:{self.stages[stage]}"

    def read(self, word: str) -> Node | None:
        """The node of a text; None where it is none of this model and test."""
        found = NODE.fullmatch(word)
        if found is None or int(found[3]) > GREATEST_CORE or found[4] not in self.numbers:
            return None
        op = self.case.find(int(found[1]), int(found[2]))
        return None if op is None else (op, int(found[3]), self.numbers[found[4]])


class Positions:
    """The positions of one model over one test."""

    def __init__(self, model: Model, case: Case, tree: Tree | None = None) -> None:
        self.rows: list[Inner | Leaf] = []
        self.nodes: list[Node] = []
        self.numbers: dict[Node, int] = {}
        tree = Grounder(model, case, nested).axioms() if tree is None else tree
        self.constant = tree if isinstance(tree, bool) else None
        if self.constant is None:
            self.add(tree)
        names = NodeNames(model, case)
        self.words = [names.write(node) for node in self.nodes]

    def add(self, tree: Tree) -> int:
        """Adds a tree and answers its position. It loops on right members, which may be nested deeply."""
        first = len(self.rows)
        waiting: list[tuple[int, bool]] = []
        while isinstance(tree, Group):
            waiting.append((len(self.rows), not tree.is_conjunction))
            # the place is taken before the members have theirs
            self.rows.append(Leaf(0, None, False))
            left, tree = tree.members
            self.add(left)
        assert isinstance(tree, Literal)
        right = len(self.rows)
        self.rows.append(self.leaf(tree))
        for place, is_disjunction in reversed(waiting):
            self.rows[place] = Inner(is_disjunction, place + 1, right)
            right = place
        return first

    def leaf(self, literal: Literal) -> Leaf:
        """A literal, its nodes numbered."""
        return Leaf(self.number(literal.start), None if literal.end is None else self.number(literal.end), literal.wanted)

    def number(self, node: Node) -> int:
        """The number of a node, the next one where it is new."""
        if node not in self.numbers:
            self.numbers[node] = len(self.nodes)
            self.nodes.append(node)
        return self.numbers[node]

    def members(self, places: Sequence[Signed], is_choice: bool = False) -> Iterator[Signed]:
        """What these positions have for members, in preorder, those taken apart that are conjunctions, or denied
        disjunctions; of choices, which are the others, those that are choices."""
        waiting = list(reversed(places))
        while waiting:
            here, is_denied = waiting.pop()
            row = self.rows[here]
            if isinstance(row, Inner) and (row.is_disjunction is not is_denied) is is_choice:
                waiting += [(row.right, is_denied), (row.left, is_denied)]
            else:
                yield here, is_denied

    def asserted(self, *places: Signed) -> Iterator[Leaf | Signed]:
        """What these positions assert together, in preorder: literals, and choices."""
        for here, is_denied in self.members(places):
            row = self.rows[here]
            yield Leaf(row.start, row.end, row.wanted is not is_denied) if isinstance(row, Leaf) else (here, is_denied)

    def sides(self, choice: Signed, version: int) -> tuple[list[Signed], list[Signed]]:
        """What both sides of a split assert: in version 2 the right one also that the left member does not hold."""
        position, is_denied = choice
        row = self.rows[position]
        assert isinstance(row, Inner)
        not_left = [(row.left, not is_denied)] if version == 2 else []
        return [(row.left, is_denied)], [*not_left, (row.right, is_denied)]


def is_decimal(word: str) -> bool:
    """Whether a word is a number of a certificate."""
    return re.fullmatch(DECIMAL, word) is not None and int(word) <= GREATEST_NUMBER
