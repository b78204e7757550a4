"""Whether some world makes a tree true: a search over the choices that the tree leaves.

A branch has the literals that were asserted on it, which generate a least world. It clashes where that world has a node
before itself, or a denied node or edge. A disjunction is open where the least world does not make it true. Members that
clash by themselves are struck out. A last member left is asserted; with none left the branch is closed. Where nothing is
open, the least world is the witness.
"""
from copy import copy
from dataclasses import replace
from typing import Callable

from tools.second.cases import Case
from tools.second.evaluating import false_axioms
from tools.second.grounding import Group, Literal, Tree, ground, nodes_of
from tools.second.meaning import Node
from tools.second.models import Model
from tools.second.orders import Order
from tools.second.positions import Leaf

Edge = tuple[Node, Node]
# the nodes of a world, and the edges whose chains are its order
Witness = tuple[list[Node], list[Edge]]


def is_observable(model: Model, case: Case) -> bool:
    """Whether some world makes every axiom true; the witness is judged again by the written axioms."""
    witness = search(ground(model, case))
    if witness is not None and false_axioms(model, case, *witness):
        raise AssertionError("the witness makes an axiom false")
    return witness is not None


def search(tree: Tree) -> Witness | None:
    """A world that makes the tree true, or None where there is none."""
    branch = Branch(nodes_of(tree))
    done = explore(branch) if branch.assert_tree(tree) else None
    if done is None:
        return None
    return [node for node, k in done.number.items() if done.order.present >> k & 1], list(done.edges)


def explore(branch: "Branch") -> "Branch | None":
    """A branch below this one that nothing is open on."""
    if not branch.propagate():
        return None
    disjunctions = branch.open_disjunctions()
    if not disjunctions:
        return branch
    # the one with the fewest members left, the first of several
    choice = min(disjunctions, key=lambda it: len(branch.members_left(it)))
    for member in branch.members_left(choice):
        below = branch.copy()
        below.disjunctions.remove(choice)
        done = explore(below) if below.assert_tree(member) else None
        if done is not None:
            return done
        # a world that is still to be found does not make this member true
        if isinstance(member, Literal) and not branch.assert_tree(replace(member, wanted=not member.wanted)):
            return None
    return None


class Branch:
    """What is asserted: literals, with the order that they generate and the edges among them, and disjunctions."""

    def __init__(self, nodes: list[Node]) -> None:
        self.number = {node: k for k, node in enumerate(nodes)}
        self.order = Order(len(nodes))
        self.edges: dict[Edge, None] = {}
        self.disjunctions: list[Group] = []

    def copy(self) -> "Branch":
        other = copy(self)
        other.order, other.edges, other.disjunctions = self.order.copy(), dict(self.edges), self.disjunctions[:]
        return other

    def leaf(self, literal: Literal) -> Leaf:
        """A literal over the numbers of nodes."""
        return Leaf(self.number[literal.start], None if literal.end is None else self.number[literal.end], literal.wanted)

    def assert_tree(self, tree: Tree) -> bool:
        """Asserts a tree; False where the branch clashes, and is then of no further use."""
        if isinstance(tree, bool):
            return tree
        if isinstance(tree, Group) and tree.is_conjunction:
            return all(self.assert_tree(member) for member in tree.members)
        if isinstance(tree, Group):
            self.disjunctions.append(tree)
            return True
        leaf = self.leaf(tree)
        if self.order.would_clash(leaf):
            return False
        self.order.add(leaf)
        if tree.wanted and tree.end is not None:
            self.edges.setdefault((tree.start, tree.end))
        return True

    def holds(self, tree: Tree, is_true: Callable[[Leaf], bool]) -> bool:
        """Whether a tree is true where these literals are."""
        if isinstance(tree, bool):
            return tree
        if isinstance(tree, Literal):
            return is_true(self.leaf(tree))
        found = (self.holds(member, is_true) for member in tree.members)
        return all(found) if tree.is_conjunction else any(found)

    def members_left(self, disjunction: Group) -> list[Tree]:
        """The members that are not struck out: those that do not close the branch by one literal alone."""
        return [it for it in disjunction.members if self.holds(it, lambda leaf: not self.order.would_clash(leaf))]

    def open_disjunctions(self) -> list[Group]:
        """The disjunctions that the least world does not make true."""
        return [it for it in self.disjunctions if not self.holds(it, self.order.is_true)]

    def propagate(self) -> bool:
        """Asserts last members until there is none; False where the branch is closed."""
        forced = True
        while forced:
            forced = False
            for disjunction in self.open_disjunctions():
                left = self.members_left(disjunction)
                if not left:
                    return False
                if len(left) == 1:
                    # from here on the member stands for the disjunction
                    self.disjunctions.remove(disjunction)
                    if not self.assert_tree(left[0]):
                        return False
                    forced = True
        return True
