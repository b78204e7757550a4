"""Bound names: ones that nothing uses, ones that are bound again, and an `exists` over an implication."""
from tools.lint.formulas import names_of
from tools.lint.slips import Slip, owner
from tools.second.models import Axiom, Binary, Expand, Formula, Model, Quantified
from tools.second.scopes import parts


class Bindings:
    """Goes through each text of a model once. A macro uses what its arguments name, and what in its body is neither a
    parameter nor bound: that has the binding in force where the macro is expanded."""

    def __init__(self, path: str, model: Model) -> None:
        self.path = path
        # which names a macro's body has from outside, by the macro's name
        self.from_outside: dict[str, frozenset[str]] = {}
        self.found: list[Slip] = []
        # an axiom may expand a macro that stands behind it
        for item in sorted(model.items, key=lambda item: isinstance(item, Axiom)):
            self.owner = owner(item)
            parameters = {} if isinstance(item, Axiom) else {word.name: word.at for word in item.parameters}
            used = self.used_names(item.body, frozenset(parameters))
            if not isinstance(item, Axiom):
                self.from_outside[item.name.name] = used - parameters.keys()
            for name in parameters.keys() - used:
                self.say(parameters[name], "unused-variable", name, f"the body does not use {name}")
        # in the order of the text
        self.model_slips = sorted(self.found, key=lambda slip: slip.at)

    def query_slips(self, path: str, formula: Formula) -> list[Slip]:
        """What is said of a query beside the model, in the order of its text."""
        self.path, self.owner, self.found = path, "query", []
        self.used_names(formula, frozenset())
        return sorted(self.found, key=lambda slip: slip.at)

    def say(self, at: int, kind: str, name: str, sentence: str) -> None:
        """One slip more."""
        self.found.append(Slip(self.path, at, kind, name, sentence))

    def used_names(self, formula: Formula, bound: frozenset[str]) -> frozenset[str]:
        """The names that a formula has from outside, where these are bound around it."""
        if isinstance(formula, Quantified):
            return self.used_by_quantified(formula, bound, frozenset())
        if isinstance(formula, Expand):
            return names_of(formula) | self.from_outside[formula.macro.name]
        return names_of(formula).union(*(self.used_names(part, bound) for part in parts(formula)))

    def used_by_quantified(self, formula: Quantified, bound: frozenset[str], chain: frozenset[str]) -> frozenset[str]:
        """The same of a quantifier, whose name is judged. The chain is the names that `exists` binds right in front."""
        name, body = formula.name, formula.body
        if name in bound:
            sentence = f"{name} is bound again, so that the body does not see the one further outside"
            self.say(formula.at, "shadowed", name, sentence)
        inside = bound | {name}
        chain = frozenset() if formula.universal else chain | {name}
        if isinstance(body, Quantified):
            used = self.used_by_quantified(body, inside, chain)
        elif isinstance(body, Binary) and body.connective == "=>":
            used = self.used_names(body.left, inside)
            if chain & used:
                weak = name if name in used else min(chain & used)
                sentence = f"the arrow is the weakest connective: a {weak} of which its left side is False is enough"
                self.say(formula.at, "loose-exists", self.owner, sentence)
            used |= self.used_names(body.right, inside)
        else:
            used = self.used_names(body, inside)
        if name not in used:
            self.say(formula.at, "unused-variable", name, f"the body does not use {name}")
        return used - {name}
