"""The answer as the program is to word it: a search that makes the program's choices, down to the certificate.

`searching.py` decides by a way of its own. This module is there for the text: which graph of several is written, and
which refutation. The choices are these.

1. Asserting a position asserts its literals in preorder. A disjunction becomes pending until it is split on this
   branch. The first clash closes the branch.
2. An edge clashes where its first end is denied; where its second end is; where it closes a cycle; where it joins the
   ends of a denied edge, the first denied one of several. A chain is a shortest one, and of several, read from their
   start, the one with the lowest node number where they first differ.
3. A pending disjunction is a candidate where the world of the asserted literals does not make it true. The first
   candidate in position order is split that has a closed side. Until the first failure a side is closed where asserting
   it in trial gives a clash, and from then on where one of its literals would clash by itself. Where no side is closed,
   the first candidate is split before any failure, and after one the first with no alternative that is not as good as
   closed, else the first with one (`closing.py`), and else the one that failures ask for (`conflicts.py`): of those
   that failed last, the one with the fewest alternatives that are not closed, of several the one that failed most often,
   of several the first. A failure that is replayed comes before all of this. The left member is searched first. Without
   a candidate the outcome is observable.

In version 2 positions have signs, as in `judging.py`. The right side of a split asserts first that the left member does not
hold, and rule 3 asks it so. A denied conjunction is a choice as a disjunction is one, and a candidate where the world makes
it true. A candidate both of whose sides are closed comes before one with one such side.

Splits that a refutation does not need are left out of it. The level of a split is how many splits lead to its sides, itself among
them; what the tree asserts by itself has level 0. Each literal and each choice of a branch has the lowest level at which it is
asserted. A clash needs the levels of the literals that it names. Where the left side of a split does not need the split's own
level, its steps close the branch that was split, so that they stand for the split and both of its sides; else where the right
side does not, its steps do. Where both sides need it, the split needs the levels of both but its own, and the one of its choice.
"""
from copy import copy
from typing import Iterator, NamedTuple

from tools.second.closing import Alternatives
from tools.second.conflicts import Failures
from tools.second.orders import Order
from tools.second.positions import Clash, Inner, Leaf, Positions, Signed


class Graph(NamedTuple):
    """The present nodes by number, and the asserted edges in the order of first assertion."""

    nodes: list[int]
    edges: list[tuple[int, int]]


Step = Signed | Clash


def answer(positions: Positions, version: int = 1) -> Graph | list[Step]:
    """The graph of an observable outcome, or the steps of a refutation: signed positions of splits, and clashes. The steps
    of a tree that is False are none."""
    if positions.constant is not None:
        return Graph([], []) if positions.constant else []
    steps: list[Step] = []
    # the right sides of the splits above, the nearest one last
    waiting: list[tuple[Branch, list[Signed]]] = []
    failures = Failures()
    branch = Branch(positions, version)
    clash = branch.assert_side([(0, False)], 0)
    while True:
        if clash is not None:
            steps.append(clash)
            if not waiting:
                return steps
            # the literal that was not asserted has no level
            failures.learn({branch.levels[literal] for literal in clash.literals if literal in branch.levels})
            branch, side = waiting.pop()
            clash = branch.assert_side(side, failures.level)
            continue
        chosen = branch.choice(failures)
        if chosen is None:
            return Graph([k for k in range(len(positions.nodes)) if branch.order.present >> k & 1], branch.edges)
        steps.append(chosen)
        failures.split(chosen, branch.pending.pop(chosen))
        left, right = positions.sides(chosen, version)
        waiting.append((branch.copy(), right))
        clash = branch.assert_side(left, failures.level)


class Branch:
    """What is asserted on a branch: literals, with the order that they generate, and choices; and at which levels."""

    def __init__(self, positions: Positions, version: int) -> None:
        self.positions = positions
        self.version = version
        self.alternatives = Alternatives(positions)
        self.order = Order(len(positions.nodes))
        # the levels at which literals were asserted first, and at which the choices were that are not split yet
        self.levels: dict[Leaf, int] = {}
        self.pending: dict[Signed, int] = {}

    def copy(self) -> "Branch":
        other = copy(self)
        other.order, other.levels, other.pending = self.order.copy(), dict(self.levels), dict(self.pending)
        return other

    @property
    def edges(self) -> list[tuple[int, int]]:
        """The asserted edges in the order of first assertion."""
        return [(leaf.start, leaf.end) for leaf in self.levels if leaf.wanted and leaf.end is not None]

    def assert_side(self, side: list[Signed], level: int) -> Clash | None:
        """Asserts all that these positions assert, in preorder, at this level, up to the first clash."""
        for part in self.positions.asserted(*side):
            if not isinstance(part, Leaf):
                self.pending[part] = level
                continue
            found = self.order.ends_of_clash(part)
            if found is not None:
                word, ends = found
                return Clash(word, [node for start, end in ends for node in self.chain(start, end)])
            self.order.add(part)
            for fact in (part, *part.implied):
                self.levels.setdefault(fact, level)
        return None

    def chain(self, start: int, end: int) -> list[int]:
        """The shortest chain of edges that rule 2 takes; one node where both ends are one."""
        edges = self.edges
        distance = {end: 0}
        waiting = [end]
        for here in waiting:
            for first, last in edges:
                if last == here and first not in distance:
                    distance[first] = distance[here] + 1
                    waiting.append(first)
        chain = [start]
        while chain[-1] != end:
            nearer = distance[chain[-1]] - 1
            chain.append(min(b for a, b in edges if a == chain[-1] and distance.get(b) == nearer))
        return chain

    def is_true(self, position: int) -> bool:
        """Whether the world of the asserted literals makes a position true."""
        row = self.positions.rows[position]
        while isinstance(row, Inner):
            if self.is_true(row.left) is row.is_disjunction:
                return row.is_disjunction
            row = self.positions.rows[row.right]
        return self.order.is_true(row)

    def is_closed(self, side: list[Signed], has_failed: bool) -> bool:
        """Whether a side is closed at once."""
        if has_failed:
            return any(self.alternatives.is_closed(self.order, place) for place in side)
        return self.copy().assert_side(side, 0) is not None

    def is_candidate(self, choice: Signed) -> bool:
        """Whether a pending choice is not decided by the world of the asserted literals."""
        return choice in self.pending and self.is_true(choice[0]) is choice[1]

    def choice(self, failures: Failures) -> Signed | None:
        """The choice that is split next; None where none is a candidate."""
        if failures.guide is not None and self.is_candidate(failures.guide.choice):
            return failures.guide.choice
        candidates = [choice for choice in sorted(self.pending) if self.is_candidate(choice)]
        one_sided = None
        for choice in candidates:
            closed = [self.is_closed(side, failures.count > 0) for side in self.positions.sides(choice, self.version)]
            if all(closed) or (self.version == 1 and any(closed)):
                return choice
            if any(closed) and one_sided is None:
                one_sided = choice
        if one_sided is not None or not candidates:
            return one_sided
        # none of the candidates has a closed side
        if not failures.count:
            return candidates[0]
        forced = self.alternatives.forced(self.order, candidates)
        if forced is not None:
            return forced
        newest = failures.newest(candidates)
        return min(newest, key=lambda it: (self.alternatives.open_count(self.order, it), -failures.number(it)))


# the levels of the choices and of the literals of a branch
Levels = dict[Signed | Leaf, int]
# steps that close a branch, and the levels that they need
Refuted = tuple[list[Step], set[int]]


def shortened(positions: Positions, steps: list[Step], version: int) -> list[Step]:
    """The refutation without the splits that it does not need."""
    waiting = iter(steps)

    def branch(side: list[Signed], above: Levels, level: int) -> Refuted:
        """A branch on which this side is asserted at this level, closed by the next steps."""
        levels = dict(above)
        for part in positions.asserted(*side):
            levels.setdefault(part, level)
            for fact in part.implied if isinstance(part, Leaf) else ():
                levels.setdefault(fact, level)
        step = next(waiting)
        if isinstance(step, Clash):
            return [step], {levels[literal] for literal in step.literals}
        left_side, right_side = positions.sides(step, version)
        left, needed_left = branch(left_side, levels, level + 1)
        if level + 1 not in needed_left:
            pass_branch(waiting)
            return left, needed_left
        right, needed_right = branch(right_side, levels, level + 1)
        if level + 1 not in needed_right:
            return right, needed_right
        return [step, *left, *right], (needed_left | needed_right) - {level + 1} | {levels[step]}

    found, _ = branch([(0, False)], {}, 0)
    return found


def pass_branch(steps: Iterator[Step]) -> None:
    """Passes the steps that close one branch."""
    if not isinstance(next(steps), Clash):
        pass_branch(steps)
        pass_branch(steps)
