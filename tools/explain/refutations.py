"""A refutation in the words of the model. The text has to be one that a judge accepted."""
from itertools import islice
from typing import Iterator, NamedTuple

from tools.explain.branches import Branches
from tools.explain.clashes import MOST_FACTS, clash_heading, clash_reason
from tools.second.judging import VERSION_2
from tools.second.positions import Clash, Leaf, Signed
from tools.texts.naming import Fact, Names
from tools.texts.origins import Origin, TracedPositions
from tools.texts.wrapping import GAP

# how many parts of a side are shown
MOST_PARTS = 12

# what a side of a split asserts
Side = list[Signed]


class Source(NamedTuple):
    """What asserted a fact: a position, and the split whose side has it, by its name; without one it holds on every branch."""

    position: int
    side: str


class Refutation(Branches[Side]):
    """The lines of a refutation. What is asserted on the present branch is kept with what asserted it."""

    def __init__(self, names: Names, positions: TracedPositions, lines: list[str], width: int) -> None:
        self.version = 2 if lines[:1] == [VERSION_2] else 1
        super().__init__(names, lines[self.version - 1 :], width)
        self.positions = positions
        # the facts in the order in which they came
        self.facts: dict[Fact, Source] = {}
        # the heading above the last line, and the split of it, where a side of that closes at once
        self.group = "", ""

    def lines(self) -> Iterator[str]:
        """What the refutation is, and its steps."""
        if any(step.startswith("split ") for step in self.steps):
            return self.under("Each split is a choice that the model leaves, and each branch ends in what cannot be:")
        return self.under("The model leaves no choice, and what it asks for cannot be:")

    def walk(self) -> Iterator[str]:
        if self.positions.constant is None:
            self.add([(0, False)], "")
        while self.here < len(self.steps):
            yield from self.split() if self.steps[self.here].startswith("split ") else self.leaf()

    # the steps

    def split(self) -> Iterator[str]:
        """A split: one line where a side of it closes at once."""
        step = self.steps[self.here]
        sides = self.positions.sides(choice_of(step), self.version)
        places = self.here + 1, self.ends[self.here + 1]
        # the sides that their first steps close; of both it is the one by fewer nodes, so that the other clash is seen whole
        closed = [side for side in (0, 1) if not self.steps[places[side]].startswith("split ")]
        if closed:
            side = min(closed, key=lambda it: self.steps[places[it]].count(" "))
            yield from self.forced(step, sides[side], places[side], sides[1 - side])
            self.here = places[1 - side]
        else:
            yield f"{self.indent()}{step}: {self.names.origin(self.origin_of(step))}"
            position, is_denied = sides[1][-1]
            yield from self.open_branches(step, *sides, f"split {'~' if is_denied else ''}{position}", len(self.facts))

    def forced(self, step: str, closed: Side, closed_at: int, other: Side) -> Iterator[str]:
        """The line of a split of which one side, closed there, leaves the other. Those of one formula stand below one heading."""
        heading = self.names.formula(self.origin_of(step))
        last = self.group[1] if self.group[0] == heading else ""
        if not last:
            yield f"{self.indent()}{heading}:"
        said, (reason, *facts) = self.said_of(self.unknown(other)), self.reason(closed, closed_at, last)
        yield f"{self.indent()}  {step}{self.names.inside(self.origin_of(step))}: {said}, since {reason}"
        yield from (f"{self.indent()}    {fact}" for fact in facts)
        self.group = heading, step
        self.add(other, step)

    def begin(self, name: str, side: Side) -> Iterator[str]:
        yield f"{self.indent()}{name}: {self.said_of(side)}"
        self.group = "", ""
        self.add(side, name)

    def leaf(self) -> Iterator[str]:
        """What clashes at the end of a branch, each fact with where it comes from. Then the next branch goes on."""
        word, *written = self.steps[self.here].split(" ")
        facts = [] if word == "false" else self.clash(word, written)
        origins = (self.positions.origins[self.facts[fact].position] for fact in facts)
        self.closed.add(word, facts, [self.names.axiom(origin.axiom) for origin in origins if origin is not None])
        if word == "false":
            yield f"{self.indent()}false: the constants of the axioms alone make them false for this test"
        else:
            yield f"{self.indent()}{word}: {clash_heading(self.names, word, facts)}"
        yield from (f"{self.indent()}  {self.fact_line(fact)}" for fact in facts)
        yield from self.next_branch()

    def origin_of(self, step: str) -> Origin | None:
        """Where the position that a step splits comes from."""
        return self.positions.origins[choice_of(step)[0]]

    # the facts of the present branch

    def add(self, side: Side, name: str) -> None:
        """Asserts what a side of this name asserts."""
        for here, is_denied in self.positions.members(side):
            row = self.positions.rows[here]
            if isinstance(row, Leaf):
                self.facts.setdefault(self.fact(row, is_denied), Source(here, name))

    def take_back(self, mark: int) -> None:
        while len(self.facts) > mark:
            self.facts.popitem()

    def fact(self, row: Leaf, is_denied: bool) -> Fact:
        """What a literal says, or its opposite."""
        end = None if row.end is None else self.positions.nodes[row.end]
        return self.positions.nodes[row.start], end, row.wanted is not is_denied

    def clash(self, word: str, written: list[str]) -> list[Fact]:
        """The facts that close a branch; the denied one of a path and of an absent node last."""
        facts = [self.fact(it, False) for it in Clash(word, list(map(self.positions.words.index, written))).literals]
        if word == "absent":
            # an edge of the node says that it is there, too
            there = next(fact for fact in self.facts if fact[2] and facts[0][0] in fact[:2])
            return [there, facts[0]]
        return facts

    def unknown(self, side: Side) -> Side:
        """What of a side is no fact of the present branch; all of it where nothing else is."""
        rows = self.positions.rows
        return [
            (position, is_denied)
            for position, is_denied in side
            if not (isinstance(row := rows[position], Leaf) and self.fact(row, is_denied) in self.facts)
        ] or side

    # words

    def said_of(self, side: Side) -> str:
        """What a side says."""
        return "; ".join(self.said(position, is_denied) for position, is_denied in side)

    def said(self, position: int, is_denied: bool) -> str:
        """A position in words, its members in one row as far as they are of one kind."""
        row = self.positions.rows[position]
        if isinstance(row, Leaf):
            return self.names.fact(self.fact(row, is_denied))
        is_or = row.is_disjunction is not is_denied
        members = self.positions.members([(position, is_denied)], is_or)
        texts = ((self.positions.rows[here], self.said(here, is_so)) for here, is_so in islice(members, MOST_PARTS))
        parts = [text if isinstance(row, Leaf) else f"({text})" for row, text in texts]
        more = ", and more of this kind" if next(members, None) is not None else ""
        return (" or " if is_or else " and ").join(parts) + more

    def source(self, fact: Fact) -> str:
        """Where a fact of the present branch comes from."""
        source = self.facts[fact]
        origin = self.positions.origins[source.position]
        return self.names.of_side(origin, source.side) if source.side else self.names.origin(origin)

    def reason(self, side: Side, at: int, last: str) -> list[str]:
        """Why a side cannot be, which the step there closes, and where the facts come from that were there before it:
        in one line, or each in its own where they are many. What the line above gives, which is of the split of this
        name, needs no word."""
        word, *written = self.steps[at].split(" ")
        mark = len(self.facts)
        self.add(side, "")
        facts = self.clash(word, written)
        self.take_back(mark)
        known = [fact for fact in facts if fact in self.facts]
        new = [fact for fact in facts if fact not in self.facts]
        text = clash_reason(self.names, word, facts, new)
        if len(facts) > MOST_FACTS:
            return [f"{text}:", *map(self.fact_line, known)]
        if not known or (last and all(self.facts[fact].side == last for fact in known)):
            return [text]
        return [text + GAP + "; ".join(map(self.source, known))]

    def fact_line(self, fact: Fact) -> str:
        """A fact with where it comes from."""
        return f"{self.names.fact(fact)}{GAP}{self.source(fact)}"


def choice_of(step: str) -> Signed:
    """The choice that a step splits."""
    word = step.removeprefix("split ")
    return int(word.lstrip("~")), word.startswith("~")
