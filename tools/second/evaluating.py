"""The written axioms, evaluated directly in a given world.

This is the judge of a witness. It uses neither the tree nor the search: it follows the text of the axioms, with
macros as bindings, and asks the world for nodes and order.
"""
from tools.second.cases import Case
from tools.second.meaning import Environment, Meaning, Node
from tools.second.models import Atoms, Binary, Expand, Formula, Model, Not, Quantified, Static


def false_axioms(model: Model, case: Case, nodes: list[Node], edges: list[tuple[Node, Node]]) -> list[str]:
    """What is wrong with a witness: the titles of the axioms that are false in its world."""
    # of each node those that a chain of edges leads to (Warshall's algorithm)
    later: dict[Node, set[Node]] = {node: set() for node in nodes}
    for start, end in edges:
        later[start].add(end)
    for middle in nodes:
        for reached in later.values():
            if middle in reached:
                reached |= later[middle]
    if any(node in reached for node, reached in later.items()):
        return ["the edges are no order of the nodes"]
    evaluator = Evaluator(model, case, later)
    return [axiom.title for axiom in model.axioms if not evaluator.holds(axiom.body, {})]


class Evaluator(Meaning):
    """Truth of written formulas in a world, of each of whose nodes the later ones are known."""

    def __init__(self, model: Model, case: Case, later: dict[Node, set[Node]]) -> None:
        super().__init__(model, case)
        self.later = later

    def holds(self, formula: Formula, env: Environment) -> bool:
        match formula:
            case Not(operand):
                return not self.holds(operand, env)
            case Binary("/\\", left, right):
                return self.holds(left, env) and self.holds(right, env)
            case Binary("\\/", left, right):
                return self.holds(left, env) or self.holds(right, env)
            case Binary(_, left, right):
                return not self.holds(left, env) or self.holds(right, env)
            case Quantified():
                truths = (self.holds(formula.body, {**env, formula.name: value}) for value in self.values(formula))
                return all(truths) if formula.universal else any(truths)
            case Expand():
                return self.holds(*self.body_of(formula, env))
            case Atoms(members):
                return all(self.is_there(*self.ends(member, env)) for member in members)
            case Static():
                return self.is_so(formula, env)

    def is_there(self, start: Node, end: Node | None) -> bool:
        """Whether the world has a node, or an edge."""
        return start in self.later if end is None else end in self.later.get(start, ())
