"""The axioms over one test as one tree of literals over nodes.

Quantifiers and macros are gone, predicates are answered, constants are folded, and negations stand at literals
alone. The tree comes in two shapes: joined, with conjunctions and disjunctions of many members, which is what the search
here wants; and nested, with two members each, as the positions of a refutation count them.
"""
from dataclasses import dataclass
from typing import Callable, Union

from tools.second.cases import Case
from tools.second.meaning import Environment, Meaning, Node
from tools.second.models import Binary, Expand, Formula, Model, Not, Quantified, Static


@dataclass(frozen=True)
class Literal:
    """A node (`end` is None) or an edge, wanted or denied."""

    start: Node
    end: Node | None
    wanted: bool


@dataclass(frozen=True)
class Group:
    """A conjunction, each member of which holds, or a disjunction, of which one does; there are at least two members."""

    is_conjunction: bool
    members: tuple["Tree", ...]


Tree = Union[bool, Literal, Group]
# makes one tree of members, a conjunction or not
Join = Callable[[bool, list[Tree]], Tree]


def ground(model: Model, case: Case) -> Tree:
    """The joined tree of all axioms over this test."""
    return Grounder(model, case, joined).axioms()


def joined(conjunction: bool, members: list[Tree]) -> Tree:
    """The members as one tree: constants are folded, a member of the same kind is taken apart, and equal ones count once."""
    kept: dict[Tree, None] = {}
    for member in members:
        if isinstance(member, bool):
            if member is not conjunction:
                return member
        elif isinstance(member, Group) and member.is_conjunction is conjunction:
            kept.update(dict.fromkeys(member.members))
        else:
            kept.setdefault(member)
    if not kept:
        return conjunction
    return list(kept)[0] if len(kept) == 1 else Group(conjunction, tuple(kept))


def nested(conjunction: bool, members: list[Tree]) -> Tree:
    """The members as a list that ends in the constant that changes nothing; then constants are folded."""
    tree: Tree = conjunction
    for member in reversed(members):
        if member is conjunction or tree is (not conjunction):
            continue
        is_alone = tree is conjunction or member is (not conjunction)
        tree = member if is_alone else Group(conjunction, (member, tree))
    return tree


class Grounder(Meaning):
    def __init__(self, model: Model, case: Case, join: Join) -> None:
        super().__init__(model, case)
        self.join = join

    def axioms(self) -> Tree:
        return self.join(True, [self.tree(axiom.body, {}, True) for axiom in self.model.axioms])

    def tree(self, formula: Formula, env: Environment, wanted: bool) -> Tree:
        """The tree of a formula, or of its negation where it is not wanted."""
        if isinstance(formula, Not):
            return self.tree(formula.operand, env, not wanted)
        if isinstance(formula, Binary):
            return self.binary(formula, env, wanted)
        if isinstance(formula, Quantified):
            return self.quantified(formula, env, wanted)
        if isinstance(formula, Expand):
            return self.tree(*self.body_of(formula, env), wanted)
        if isinstance(formula, Static):
            return self.is_so(formula, env) is wanted
        return self.join(wanted, [Literal(*self.ends(member, env), wanted) for member in formula.members])

    def binary(self, formula: Binary, env: Environment, wanted: bool) -> Tree:
        """A connective; `p => q` is `~p \\/ q`."""
        is_implication = formula.connective == "=>"
        left = self.tree(formula.left, env, wanted is not is_implication)
        is_conjunction = (formula.connective == "/\\") is wanted
        decided = isinstance(left, bool) and left is not is_conjunction
        return left if decided else self.join(is_conjunction, [left, self.tree(formula.right, env, wanted)])

    def quantified(self, formula: Quantified, env: Environment, wanted: bool) -> Tree:
        """The body for each value of the variable."""
        members = [self.tree(formula.body, inside, wanted) for inside in self.open_values(formula, env)]
        return self.join(formula.universal is wanted, members)


def nodes_of(tree: Tree) -> list[Node]:
    """The nodes of a tree in the order of first sight."""
    if isinstance(tree, bool):
        return []
    if isinstance(tree, Literal):
        return [tree.start] if tree.end is None else [tree.start, tree.end]
    return list(dict.fromkeys(node for member in tree.members for node in nodes_of(member)))
