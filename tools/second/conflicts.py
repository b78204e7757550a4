"""What a search learns of its failures: which disjunction to split where no side is closed at once.

A *level* is how many splits there were when something was asserted. What a failure needs are levels: of a clash those of the
literals that clash, and its own; of a split whose sides have both failed what both need, with the level at which its
disjunction was asserted in place of its own (Prosser 1993). Where a side failed without its split, what that side needs is all.

Each disjunction whose split a failure needs gets a record: when the last such failure was, and how many there were. 64 failures
are one time (Lecoutre and others 2009, Moskewicz and others 2001). And where a left side failed without its split, the right
side is searched by the splits that were needed on the left, in the same order.
"""
from dataclasses import dataclass, field
from typing import NamedTuple, Sequence

from tools.second.positions import Signed

PERIOD = 64
NO_RECORD = 0, 0


class Script(NamedTuple):
    """How a part of the search failed: by a split, and then on each side by what its script says. A leaf has none."""

    choice: Signed
    left: "Script | None"
    right: "Script | None"


class Failure(NamedTuple):
    """The levels that a failure needs, with the splits."""

    levels: frozenset[int]
    script: Script | None


@dataclass
class Fork:
    """A split on the way to the branch that is searched: where its disjunction was asserted, the script that it follows, and
    how its left side failed."""

    choice: Signed
    origin: int
    script: Script | None
    left: Failure | None = None


@dataclass
class Failures:
    """All that was learnt. The level of a fork is its place here, from 1; level 0 is what the tree asserts by itself."""

    forks: list[Fork] = field(default_factory=list)
    # of the disjunction at a position
    records: dict[int, tuple[int, int]] = field(default_factory=dict)
    count: int = 0
    guide: Script | None = None

    @property
    def level(self) -> int:
        """The level of what is asserted now."""
        return len(self.forks)

    def newest(self, candidates: Sequence[Signed]) -> list[Signed]:
        """Those whose last failure is the newest."""
        times = [self.records.get(choice[0], NO_RECORD)[0] for choice in candidates]
        return [choice for choice, time in zip(candidates, times) if time == max(times)]

    def number(self, choice: Signed) -> int:
        """How many failures needed a split of this disjunction."""
        return self.records.get(choice[0], NO_RECORD)[1]

    def split(self, choice: Signed, origin: int) -> None:
        """A disjunction that was asserted at this level is split, and its left side is searched."""
        script = self.guide if self.guide is not None and self.guide.choice[0] == choice[0] else None
        self.guide = script.left if script is not None else None
        self.forks.append(Fork(choice, origin, script))

    def learn(self, levels: set[int]) -> None:
        """A clash of literals of these levels closes the side that is searched."""
        failure = Failure(frozenset(levels | {self.level}) - {0}, None)
        self.record(failure.levels)
        while self.forks:
            fork = self.forks[-1]
            if fork.left is None:
                fork.left = failure
                is_needed = self.level in failure.levels
                self.guide = (fork.script and fork.script.right) if is_needed else failure.script
                return
            failure = self.closed(fork, fork.left, failure)

    def closed(self, fork: Fork, left: Failure, right: Failure) -> Failure:
        """How the last fork failed, both of whose sides have."""
        level = self.level
        self.forks.pop()
        for side in (left, right):
            if level not in side.levels:
                return side
        self.record(left.levels | right.levels)
        self.note(fork.choice[0])
        levels = (left.levels | right.levels | {fork.origin}) - {0, level}
        return Failure(levels, Script(fork.choice, left.script, right.script))

    def record(self, levels: frozenset[int]) -> None:
        """Notes a failure at each disjunction whose split it needs."""
        self.count += 1
        for level in levels:
            if level <= self.level:
                self.note(self.forks[level - 1].choice[0])

    def note(self, position: int) -> None:
        """One failure more that needs a split of this disjunction."""
        _, before = self.records.get(position, NO_RECORD)
        self.records[position] = self.count // PERIOD + 1, before + 1
