"""Makes a lifted refutation of a refutation of the ground tree, of version 1.

The refutation is followed step by step. On each branch stands, for each choice and each literal that is asserted there,
the number of the fact that it is the tree of. A split of a choice becomes one of its fact. A side is taken apart at
once: a part that is always true is left out, and where one of two sides is false whatever the world, the fact is split
and that side closed. Such a side on the right waits until what stands before it is closed.
"""
from typing import Iterator, NamedTuple

from tools.second.cases import Case
from tools.second.grounding import Grounder, Literal, Tree, joined
from tools.second.judging import second_line
from tools.second.lifted import LIFTED, Fact, LiftedJudge, Said
from tools.second.models import Atoms, Binary, Expand, Model, Not, Quantified
from tools.second.positions import Clash, Inner, Leaf, Positions


class Later(NamedTuple):
    """A branch that waits: how many facts and keys it keeps, its fact, and the position of its side; None to be closed alone."""

    facts: int
    keys: int
    fact: Fact
    position: int | None


def lifted_text(model: Model, case: Case, steps: list[str]) -> str:
    """The text that these steps give, which have to refute the ground tree in version 1."""
    return "\n".join(["unobservable", second_line(False, case), LIFTED, *Lifter(model, case).lifted(steps), "end", ""])


class Lifter:
    """The facts of the first open branch, what is known there, the branches that wait, and the lines so far."""

    def __init__(self, model: Model, case: Case) -> None:
        self.rules = LiftedJudge(model, case)
        self.grounder = Grounder(model, case, joined)
        self.positions = Positions(model, case)
        self.facts = list(self.rules.open[0])
        # the numbers of the facts that are choices, by their positions, and of those that are literals
        self.known: dict[int | Leaf, int] = {}
        self.later: list[Later] = []
        self.lines: list[str] = []

    def lifted(self, steps: list[str]) -> list[str]:
        """The lines that these steps become."""
        kinds = [self.constant(fact) for fact in self.facts]
        if False in kinds:
            self.close(self.facts[kinds.index(False)], kinds.index(False), len(self.facts))
            return self.lines
        self.take_each([(number, "", "", fact) for number, fact in enumerate(self.facts)], 0)
        for step in steps:
            word, *rest = step.split(" ")
            if word == "split":
                self.split(int(rest[0]))
            else:
                clash = Clash(word, list(map(self.positions.words.index, rest)))
                self.lines.append(" ".join([word, *(str(self.known[literal]) for literal in clash.literals)]))
                self.go_on()
        return self.lines

    # what is followed

    def split(self, position: int) -> None:
        """Splits the fact of the choice at this position."""
        row, number = self.positions.rows[position], self.known[position]
        first, second = self.sides(self.facts[number])
        assert isinstance(row, Inner)
        self.lines.append(f"split {number}")
        self.later.append(Later(len(self.facts), len(self.known), second, row.right))
        self.facts.append(first)
        self.unfold(first, len(self.facts) - 1, row.left)

    def go_on(self) -> None:
        """Enters the next branch that has a side to take; those before it are closed."""
        while self.later:
            later = self.later.pop()
            del self.facts[later.facts :]
            while len(self.known) > later.keys:
                self.known.popitem()
            if later.position is not None:
                self.facts.append(later.fact)
                self.unfold(later.fact, later.facts, later.position)
                return
            self.close(later.fact, later.facts, later.facts + 1)

    # what a fact becomes on the branch

    def unfold(self, fact: Fact, number: int, position: int) -> None:
        """Takes a fact apart that is no constant and whose tree stands at this position."""
        if isinstance(fact, Literal):
            leaf = self.positions.leaf(fact)
            # the first fact that says it stays
            for said in (leaf, *leaf.implied):
                self.known.setdefault(said, number)
        elif self.is_choice(fact):
            self.choose(fact, number, position)
        else:
            self.take_each([(number, *part) for part in self.parts(fact)], position)

    def choose(self, fact: Said, number: int, position: int) -> None:
        """Takes a fact with two sides apart: a choice is known, and a side that is false is closed, or waits for that."""
        first, second = self.sides(fact)
        count = len(self.facts)
        if self.constant(first) is None and self.constant(second) is None:
            self.known.setdefault(position, number)
            return
        self.lines.append(f"split {number}")
        if self.constant(first) is None:
            self.later.append(Later(count, len(self.known), second, None))
            self.facts.append(first)
            self.unfold(first, count, position)
        else:
            self.close(first, count, count + 1)
            self.facts.append(second)
            self.unfold(second, count, position)

    def take_each(self, members: list[tuple[int, str, str, Fact]], position: int) -> None:
        """Takes each of these apart that is no constant, once a line with such words has added it where it is a part of a
        fact. They stand in the tree as members of a conjunction do."""
        left = [member for member in members if self.constant(member[-1]) is None]
        for k, (number, word, which, fact) in enumerate(left):
            if word:
                self.lines.append(f"{word} {number} {which}".rstrip())
                self.facts.append(fact)
                number = len(self.facts) - 1
            row = self.positions.rows[position]
            if k == len(left) - 1:
                self.unfold(fact, number, position)
            else:
                assert isinstance(row, Inner)
                self.unfold(fact, number, row.left)
                position = row.right

    def close(self, fact: Fact, number: int, count: int) -> None:
        """Closes a branch of so many facts, of which the one of this number is false whatever the world."""
        assert isinstance(fact, Said)
        if self.rules.is_false(fact):
            self.lines.append(f"false {number}")
        elif self.is_choice(fact):
            self.lines.append(f"split {number}")
            for side in self.sides(fact):
                self.close(side, count, count + 1)
        else:
            word, which, part = next(it for it in self.parts(fact) if self.constant(it[-1]) is False)
            self.lines.append(f"{word} {number} {which}".rstrip())
            self.close(part, count, count + 1)

    # what a fact is

    def is_choice(self, fact: Said) -> bool:
        """Whether one of two sides holds where the fact does."""
        return self.rules.sides(fact) is not None

    def sides(self, fact: Fact) -> tuple[Fact, Fact]:
        """The two sides of a fact that has them."""
        sides = self.rules.sides(fact) if isinstance(fact, Said) else None
        assert sides is not None
        return sides

    def parts(self, fact: Said) -> Iterator[tuple[str, str, Fact]]:
        """Facts that hold together exactly where this one does, each with the word of the line that adds it, and with what
        stands last on it where several parts have one word."""
        ways: list[tuple[str, str]] = []
        match fact.formula:
            case Not():
                ways = [("not", "")]
            case Expand():
                ways = [("bind", "")]
            case Binary():
                ways = [("left", ""), ("right", "")]
            case Atoms(members):
                ways = [("member", str(k)) for k in range(len(members))]
            case Quantified() as formula:
                ways = [("inst", name) for name in self.rules.names(formula)]
        for word, which in ways:
            part = self.rules.part_of(fact, word, which)
            assert part is not None
            yield word, which, part

    def constant(self, fact: Fact) -> bool | None:
        """The truth of a fact whatever the world; None where that depends on the world."""
        tree = self.tree(fact)
        return tree if isinstance(tree, bool) else None

    def tree(self, fact: Fact) -> Tree:
        """What is left of a fact in the test, of some member from its start on where it speaks of one."""
        if isinstance(fact, Literal):
            return fact
        count = self.rules.members(fact)
        if count is None:
            return self.grounder.tree(fact.formula, fact.env, fact.holds)
        return self.grounder.join(False, [self.tree(self.rules.member(fact, place)) for place in range(fact.start, count)])
