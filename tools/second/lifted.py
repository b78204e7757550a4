"""Judges a lifted refutation, which speaks of the axioms themselves and of no ground tree.

A fact says of a formula of an axiom, with values for its variables, that it holds or that it does not. A quantifier and a list
have a start beside them: the fact speaks of their members from there on. A branch is a list of facts, numbered from 0. At first
one branch is open: each axiom is said to hold. A line adds a part of a fact, splits the branch, or closes it. One that adds a
fact gives it the next number, and both branches of a split go on from the same number.
"""
from dataclasses import dataclass, replace
from typing import Union

from tools.second.cases import Case
from tools.second.grounding import Literal
from tools.second.judging import judge_lines, second_line
from tools.second.meaning import Environment, Meaning, Node
from tools.second.models import Atoms, Binary, Expand, Formula, Model, Not, Quantified, Static
from tools.second.positions import is_decimal

LIFTED = "lifted"
# how many words stand after the first one, of the lines that add a fact
ADDING = {"left": 1, "right": 1, "not": 1, "bind": 1, "inst": 2, "member": 2}


@dataclass(frozen=True)
class Said:
    """A formula that holds, or that does not."""

    holds: bool
    formula: Formula
    env: Environment
    start: int = 0


# a single node or edge is a literal
Fact = Union[Said, Literal]


def judge_lifted(model: Model, case: Case, data: bytes) -> None:
    """Refused where the text is no lifted refutation of the model and the test."""
    judge_lines(data, ["unobservable", second_line(False, case), LIFTED], lambda: LiftedJudge(model, case).accepts)


class LiftedJudge(Meaning):
    """Judges the lines of a lifted refutation. The open branches stand in a list, the present one last."""

    def __init__(self, model: Model, case: Case) -> None:
        super().__init__(model, case)
        self.op_names = [f"{op.g}.{op.n}" for op in case.ops]
        self.core_names = [str(core) for core in case.cores]
        self.open: list[list[Fact]] = [[Said(True, axiom.body, {}) for axiom in model.axioms]]

    def accepts(self, line: str) -> bool:
        """Whether the line is right on the present branch; `end` where none is open."""
        if not self.open or line == "end":
            return not self.open and line == "end"
        word, *rest = line.split(" ")
        if word in ADDING:
            fact = self.fact(rest[0]) if len(rest) == ADDING[word] else None
            part = self.part_of(fact, word, rest[-1]) if isinstance(fact, Said) else None
            if part is not None:
                self.open[-1].append(part)
            return part is not None
        if word == "split":
            return len(rest) == 1 and self.splits(self.fact(rest[0]))
        facts = [fact for fact in map(self.fact, rest) if fact is not None]
        is_closed = len(facts) == len(rest) and self.closes(word, facts)
        if is_closed:
            self.open.pop()
        return is_closed

    def fact(self, word: str) -> Fact | None:
        """The fact of this number on the present branch."""
        return self.open[-1][int(word)] if is_decimal(word) and int(word) < len(self.open[-1]) else None

    def part_of(self, fact: Said, word: str, which: str) -> Fact | None:
        """What such a line adds: what has to hold, or not to hold, where the fact is right. Of several parts the last
        word of the line says which."""
        match word, fact.holds, fact.formula:
            case ("left", True, Binary("/\\", side, _)) | ("right", True, Binary("/\\", _, side)):
                return Said(True, side, fact.env)
            case ("left", False, Binary("\\/", side, _)) | ("right", False, Binary("\\/" | "=>", _, side)):
                return Said(False, side, fact.env)
            case "left", False, Binary("=>", side, _):
                return Said(True, side, fact.env)
            case "not", is_so, Not(operand):
                return Said(not is_so, operand, fact.env)
            case "bind", is_so, Expand() as formula:
                return Said(is_so, *self.body_of(formula, fact.env))
            case "inst", is_so, Quantified(universal=universal) as formula if universal is is_so:
                names = self.names(formula)
                return self.member(fact, names.index(which)) if which in names else None
            case "member", True, Atoms(members):
                return self.member(fact, int(which)) if is_decimal(which) and int(which) < len(members) else None
        return None

    def names(self, formula: Quantified) -> list[str]:
        """How the values of a variable are named: a micro-op by g.n, a core by its number."""
        return self.op_names if formula.over_microops else self.core_names

    def member(self, fact: Said, place: int) -> Fact:
        """The body of a quantifier at this value, or the member of a list at this place."""
        formula, env = fact.formula, fact.env
        if isinstance(formula, Quantified):
            return Said(fact.holds, formula.body, {**env, formula.name: place})
        assert isinstance(formula, Atoms)
        return Literal(*self.ends(formula.members[place], env), fact.holds)

    def members(self, fact: Said) -> int | None:
        """How many members there are where the fact is right if it is right of one; None where it says nothing such."""
        match fact.holds, fact.formula:
            case is_so, Quantified(universal=universal) as formula if universal is not is_so:
                return len(self.values(formula))
            case False, Atoms(members):
                return len(members)
        return None

    def sides(self, fact: Said) -> tuple[Fact, Fact] | None:
        """Two facts of which one is right where this one is."""
        match fact.holds, fact.formula:
            case True, Binary("\\/", left, right):
                return Said(True, left, fact.env), Said(True, right, fact.env)
            case False, Binary("/\\", left, right):
                return Said(False, left, fact.env), Said(False, right, fact.env)
            case True, Binary("=>", left, right):
                return Said(False, left, fact.env), Said(True, right, fact.env)
        count = self.members(fact)
        if count is None or fact.start >= count:
            return None
        return self.member(fact, fact.start), replace(fact, start=fact.start + 1)

    def splits(self, fact: Fact | None) -> bool:
        """Opens the branches of both sides, the left one first."""
        sides = self.sides(fact) if isinstance(fact, Said) else None
        if sides is None:
            return False
        branch = self.open.pop()
        self.open += [branch + [sides[1]], branch + [sides[0]]]
        return True

    def closes(self, word: str, facts: list[Fact]) -> bool:
        """Whether these facts are right together in no world, as the word says."""
        match word, facts:
            case "false", [Said() as fact]:
                return self.is_false(fact)
            case "absent", [Literal(node, None, False), Literal(start, end, True)]:
                return node in (start, end)
            case "path", [*edges, Literal(start, end, False)]:
                return ends_of_chain(edges) == (start, end)
            case "cycle", _:
                ends = ends_of_chain(facts)
                return ends is not None and ends[0] == ends[1]
        return False

    def is_false(self, fact: Said) -> bool:
        """No member is left of which the fact could be right, or a predicate is otherwise."""
        if isinstance(fact.formula, Static):
            return self.is_so(fact.formula, fact.env) is not fact.holds
        count = self.members(fact)
        return count is not None and fact.start >= count


def ends_of_chain(facts: list[Fact]) -> tuple[Node, Node] | None:
    """The ends of a chain of edges that hold, each of which ends where the next one begins; None where the facts are none."""
    edges = [(fact.start, fact.end) for fact in facts if isinstance(fact, Literal) and fact.wanted and fact.end is not None]
    if not facts or len(edges) != len(facts) or any(one[1] != other[0] for one, other in zip(edges, edges[1:])):
        return None
    return edges[0][0], edges[-1][1]
