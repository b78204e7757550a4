"""The question of a tree for other solvers, as DIMACS and as SMT-LIB: satisfiable exactly where some world makes the tree true.

In DIMACS a variable stands for each ordered pair of two nodes (the first happens before the second) and for each node (it is in
the world). An edge implies both its ends. Transitivity is written out for all triples; with irreflexivity, which is that no pair
of a node with itself has a variable, it says that no two nodes are before each other. Each inner place of the tree has a variable
that implies its members (Tseitin's transformation; the tree has negations at literals alone, so that one direction is enough).

In SMT-LIB each pair and each node has a Boolean, too, and the tree is written as it is. Numbers as time stamps would be shorter
and would say something else: a denied edge may be met by no order at all, and of two numbers one is at most the other.
"""
from itertools import permutations

from tools.second.grounding import Literal, Tree, nodes_of
from tools.second.meaning import Node


class Clauses:
    """Clauses over numbered variables: those that say that the pairs are a strict order on the nodes, and more."""

    def __init__(self, nodes: list[Node]) -> None:
        self.presence = {node: k for k, node in enumerate(nodes, 1)}
        self.pair = {pair: k for k, pair in enumerate(permutations(nodes, 2), len(nodes) + 1)}
        self.variables = len(self.presence) + len(self.pair)
        self.clauses: list[list[int]] = []
        for (a, b), variable in self.pair.items():
            self.clauses += [[-variable, self.presence[a]], [-variable, self.presence[b]]]
            if a < b:
                self.clauses.append([-variable, -self.pair[b, a]])
        for a, b, c in permutations(nodes, 3):
            self.clauses.append([-self.pair[a, b], -self.pair[b, c], self.pair[a, c]])

    def new_variable(self) -> int:
        """A variable that nothing speaks of yet."""
        self.variables += 1
        return self.variables

    def truth(self) -> int:
        variable = self.new_variable()
        self.clauses.append([variable])
        return variable

    def literal_of(self, tree: Tree) -> int:
        """A literal that implies the tree."""
        if isinstance(tree, bool):
            return self.truth() if tree else -self.truth()
        if isinstance(tree, Literal):
            return self.atom(tree) if tree.wanted else -self.atom(tree)
        below = [self.literal_of(member) for member in tree.members]
        variable = self.new_variable()
        if tree.is_conjunction:
            self.clauses += [[-variable, member] for member in below]
        else:
            self.clauses.append([-variable, *below])
        return variable

    def atom(self, literal: Literal) -> int:
        """A literal that says that a node or an edge is there. An edge from a node to itself is never there."""
        if literal.end is None:
            return self.presence[literal.start]
        return -self.truth() if literal.start == literal.end else self.pair[literal.start, literal.end]


def dimacs(tree: Tree) -> str:
    clauses = Clauses(nodes_of(tree))
    clauses.clauses.append([clauses.literal_of(tree)])
    head = f"c satisfiable exactly where the outcome is observable\np cnf {clauses.variables} {len(clauses.clauses)}\n"
    return head + "".join(f"{' '.join(map(str, clause))} 0\n" for clause in clauses.clauses)


def name(node: Node) -> str:
    return "_".join(map(str, node))


def there(node: Node) -> str:
    """The symbol that says that a node is in the world."""
    return f"n_{name(node)}"


def before(start: Node, end: Node) -> str:
    """The symbol that says that one node happens before another. An edge from a node to itself is never there."""
    return "false" if start == end else f"e_{name(start)}__{name(end)}"


def term(tree: Tree) -> str:
    """A tree as a term."""
    if isinstance(tree, bool):
        return "true" if tree else "false"
    if not isinstance(tree, Literal):
        return f"({'and' if tree.is_conjunction else 'or'} {' '.join(map(term, tree.members))})"
    symbol = there(tree.start) if tree.end is None else before(tree.start, tree.end)
    return symbol if tree.wanted else f"(not {symbol})"


def smtlib(tree: Tree) -> str:
    nodes = nodes_of(tree)
    pairs = list(permutations(nodes, 2))
    lines = ["; sat exactly where the outcome is observable", "(set-logic QF_UF)"]
    lines += [f"(declare-const {there(node)} Bool)" for node in nodes]
    lines += [f"(declare-const {before(a, b)} Bool)" for a, b in pairs]
    lines += [f"(assert (=> {before(a, b)} (and {there(a)} {there(b)} (not {before(b, a)}))))" for a, b in pairs]
    lines += [f"(assert (=> (and {before(a, b)} {before(b, c)}) {before(a, c)}))" for a, b, c in permutations(nodes, 3)]
    return "\n".join([*lines, f"(assert {term(tree)})", "(check-sat)", ""])
