"""What the literals of a branch say: which nodes are there, and their order, which the chains of edges generate.

Nodes are numbers, and sets of nodes are bit sets in Python's integers.
"""
from copy import copy

from tools.second.positions import Leaf


class Order:
    """The least world of the literals so far, with what they deny. It has no node before itself."""

    def __init__(self, count: int) -> None:
        # the nodes that are after, and before, each of so many nodes
        self.after = [0] * count
        self.before = [0] * count
        self.present = 0
        self.absent = 0
        self.denied: list[tuple[int, int]] = []

    def copy(self) -> "Order":
        other = copy(self)
        other.after, other.before, other.denied = self.after[:], self.before[:], self.denied[:]
        return other

    def add(self, leaf: Leaf) -> None:
        """Asserts a literal that does not clash."""
        if leaf.end is None and not leaf.wanted:
            self.absent |= 1 << leaf.start
        elif leaf.end is None:
            self.present |= 1 << leaf.start
        elif leaf.wanted:
            self.join(leaf.start, leaf.end)
        else:
            self.denied.append((leaf.start, leaf.end))

    def join(self, start: int, end: int) -> None:
        """Puts the end, and all after it, after the start and all before it."""
        self.present |= 1 << start | 1 << end
        earlier, later = self.before[start] | 1 << start, self.after[end] | 1 << end
        for node in range(len(self.after)):
            if earlier >> node & 1:
                self.after[node] |= later
            if later >> node & 1:
                self.before[node] |= earlier

    def ends_of_clash(self, leaf: Leaf) -> tuple[str, list[tuple[int, int]]] | None:
        """The first clash of a literal: its word, and the ends of the chains that it names. None where there is none."""
        start, end = leaf.start, leaf.end
        if end is None:
            against = self.absent if leaf.wanted else self.present
            return ("absent", [(start, start)]) if against >> start & 1 else None
        if not leaf.wanted:
            return ("path", [(start, end)]) if self.after[start] >> end & 1 else None
        for node in (start, end):
            if self.absent >> node & 1:
                return "absent", [(node, node)]
        if self.comes_to(end, start):
            return "cycle", [(end, start)]
        earlier, later = self.before[start] | 1 << start, self.after[end] | 1 << end
        for first, last in self.denied:
            if earlier >> first & 1 and later >> last & 1:
                return "path", [(first, start), (end, last)]
        return None

    def would_clash(self, leaf: Leaf) -> bool:
        """Whether a literal would close the branch."""
        return self.ends_of_clash(leaf) is not None

    def comes_to(self, start: int, end: int) -> bool:
        """Whether both nodes are one, or a chain leads from the first to the second."""
        return start == end or bool(self.after[start] >> end & 1)

    def is_true(self, leaf: Leaf) -> bool:
        """Whether the least world makes a literal true."""
        found = self.present >> leaf.start if leaf.end is None else self.after[leaf.start] >> leaf.end
        return bool(found & 1) is leaf.wanted
