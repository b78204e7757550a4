"""Edges whose absence is asked for, which no order between the two nodes also meets."""
from typing import Iterator, NamedTuple

from tools.lint.slips import Slip, owner
from tools.second.models import Atoms, Binary, Expand, Formula, Model, Not, Quantified, Static, Word
from tools.second.scopes import below

# the shipped test on which 'no write stands between' and 'each write is before or behind both' differ
BETWEEN_TEST = "examples/tests/SB+fences+old.test"

ABSENCE = "the absence of this edge is asked for, which no order between its two nodes also meets"
BETWEEN = f"so that a write without an order to the two may stand between them: {BETWEEN_TEST} shows the difference"


class Denied(NamedTuple):
    """An edge that is denied, by the identity of its list and the names of the micro-ops of its ends; or, with None, that a
    micro-op is a write. A name that is bound further inside is empty."""

    edges: int | None
    start: str
    end: str = ""


def edge_slips(path: str, model: Model, query: Formula | None = None) -> Iterator[Slip]:
    """The places of such edges in axioms, macros followed: their name is that of the macro, or the axiom's title. Of a query those in
    its own text: what its macros ask for stands in the model, and is not told again."""
    denials = Denials(model)
    asked, texts = [axiom.body for axiom in model.axioms], [(item.body, owner(item)) for item in model.items]
    if query is not None:
        asked, texts = [query], [(query, "query")]
    lists = {one.edges for formula in asked for one in denials.of(formula, True)}
    for formula, name in texts:
        for part in below(formula):
            if isinstance(part, Atoms) and id(part) in lists:
                sentence = f"{ABSENCE}, {BETWEEN}" if id(part) in denials.between else ABSENCE
                yield Slip(path, part.at, "no-order", name, sentence)


class Denials:
    """What formulas deny that have to be true, or false where they are not wanted: what stands under `~`, or left of `=>`."""

    def __init__(self, model: Model) -> None:
        self.macros = model.macros
        self.known: dict[tuple[str, bool], frozenset[Denied]] = {}
        # lists of which several say that no write stands between two nodes
        self.between: set[int | None] = set()

    def of(self, formula: Formula, wanted: bool) -> frozenset[Denied]:
        """What a formula denies."""
        if isinstance(formula, Not):
            return self.of(formula.operand, not wanted)
        if isinstance(formula, Binary):
            return self.of(formula.left, wanted is not (formula.connective == "=>")) | self.of(formula.right, wanted)
        if isinstance(formula, Quantified):
            denied = self.of(formula.body, wanted)
            if formula.over_microops and formula.universal is wanted:
                self.look_between(denied, formula.name)
            return renamed(denied, {formula.name: ""})
        if isinstance(formula, Expand):
            macro, key = self.macros[formula.macro.name], (formula.macro.name, wanted)
            if key not in self.known:
                self.known[key] = self.of(macro.body, wanted)
            args = (arg.name if isinstance(arg, Word) else "" for arg in formula.args)
            return renamed(self.known[key], dict(zip((parameter.name for parameter in macro.parameters), args)))
        if not wanted and isinstance(formula, Atoms):
            edges = ((atom.start.op.name, atom.end.op.name) for atom in formula.members if atom.end is not None)
            return frozenset(Denied(id(formula), start, end) for start, end in edges)
        if not wanted and isinstance(formula, Static) and formula.predicate.name == "IsAnyWrite":
            return frozenset(Denied(None, arg.name) for arg in formula.args if isinstance(arg, Word))
        return frozenset()

    def look_between(self, denied: frozenset[Denied], name: str) -> None:
        """Keeps the edges into a micro-op and out of it, where it is denied of it that it is a write and has both."""
        into = {one.edges for one in denied if one.end == name != one.start}
        out_of = {one.edges for one in denied if one.start == name != one.end and one.edges is not None}
        if into and out_of and Denied(None, name) in denied:
            self.between |= into | out_of


def renamed(denied: frozenset[Denied], names: dict[str, str]) -> frozenset[Denied]:
    """The same with other names in place of these."""
    return frozenset(Denied(one.edges, names.get(one.start, one.start), names.get(one.end, one.end)) for one in denied)
