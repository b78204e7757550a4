"""What is closed on a branch, asked literal by literal: nothing is asserted in trial.

The *alternatives* of a disjunction are its members, and where a member is a disjunction again, the alternatives of that one. A
part is *closed* where a literal that it asserts would clash by itself. An alternative is *as good as closed* also where two
literals would clash together: two of its own, or one of its own and one of each alternative of a disjunction that it asserts.
"""
from tools.second.orders import Order
from tools.second.positions import Leaf, Positions, Signed


class Alternatives:
    """The parts of the positions of one tree, each worked out once."""

    def __init__(self, positions: Positions) -> None:
        self.positions = positions
        self.known: dict[Signed, tuple[list[Leaf], list[Signed]]] = {}

    def parts(self, place: Signed) -> tuple[list[Leaf], list[Signed]]:
        """What the position asserts with this sign: the literals in preorder, and the choices."""
        if place not in self.known:
            found = list(self.positions.asserted(place))
            literals = [part for part in found if isinstance(part, Leaf)]
            self.known[place] = literals, [part for part in found if not isinstance(part, Leaf)]
        return self.known[place]

    def of(self, choice: Signed) -> list[Signed]:
        """The alternatives of a disjunction, or of a denied conjunction, in preorder."""
        return list(self.positions.members([choice], is_choice=True))

    def is_closed(self, order: Order, place: Signed) -> bool:
        """Whether a literal of the position would clash."""
        return any(map(order.would_clash, self.parts(place)[0]))

    def is_closed_beside(self, order: Order, place: Signed, others: list[Leaf]) -> bool:
        """Whether a literal of the position would clash, by itself or with one of the others."""
        leaves, _ = self.parts(place)
        return any(order.would_clash(one) or any(clash_together(order, one, other) for other in others) for one in leaves)

    def is_as_good_as_closed(self, order: Order, place: Signed) -> bool:
        """Whether the alternative would close the branch: by its literals, or by a disjunction of closed alternatives."""
        literals, choices = self.parts(place)
        return self.is_closed_beside(order, place, literals) or any(
            all(self.is_closed_beside(order, inner, literals) for inner in self.of(choice)) for choice in choices
        )

    def forced(self, order: Order, choices: list[Signed]) -> Signed | None:
        """The first choice each of whose alternatives is as good as closed, or else the first with one that is not."""
        left = {choice: sum(not self.is_as_good_as_closed(order, place) for place in self.of(choice)) for choice in choices}
        return next((choice for count in (0, 1) for choice in choices if left[choice] == count), None)

    def open_count(self, order: Order, choice: Signed) -> int:
        return sum(not self.is_closed(order, place) for place in self.of(choice))


def clash_together(order: Order, one: Leaf, other: Leaf) -> bool:
    """Whether two literals, neither of which would clash by itself, would do so together."""
    if one.end is None and other.end is None:
        return one.start == other.start and one.wanted is not other.wanted
    if one.end is None or other.end is None:
        node, edge = (one, other) if one.end is None else (other, one)
        return edge.wanted and not node.wanted and node.start in (edge.start, edge.end)
    if one.wanted and other.wanted:
        is_first = edges_clash(order, one.start, one.end, other.start, other.end)
        return is_first or edges_clash(order, other.start, other.end, one.start, one.end)
    edge, denied = (one, other) if one.wanted else (other, one)
    assert edge.end is not None and denied.end is not None
    return edge.wanted and order.comes_to(denied.start, edge.start) and order.comes_to(edge.end, denied.end)


def edges_clash(order: Order, start: int, end: int, later_start: int, later_end: int) -> bool:
    """Whether the end of an edge comes to the start of a later one, and an edge over both would clash."""
    return order.comes_to(end, later_start) and order.would_clash(Leaf(start, later_end, True))
