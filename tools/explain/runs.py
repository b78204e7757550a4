"""A graph in the words of the model: one order of the run, as a table, and the edges that carry values."""
import heapq
from collections import Counter
from typing import Callable, Iterable, Iterator, Sequence

from tools.second.cases import Case
from tools.second.meaning import Node
from tools.second.models import Model
from tools.second.positions import Inner, Leaf
from tools.suite.telling import aligned
from tools.texts.naming import Names
from tools.texts.origins import Origin, TracedPositions, has_predicate
from tools.texts.wrapping import GAP

# what an axiom says of a read that gets the value of the start
INITIAL = "DataFromInitialStateAtPA"
Edge = tuple[Node, Node]
# an edge, and where it comes from that it is asked for
Asked = tuple[Edge, Origin | None]


class Run:
    """The lines of a graph: one order of the run, and the edges between micro-ops of two cores."""

    def __init__(self, model: Model, case: Case, names: Names, positions: TracedPositions, lines: list[str], width: int) -> None:
        self.model = model
        self.case = case
        self.names = names
        self.positions = positions
        self.width = width
        words = [line.split(" ") for line in lines]
        self.nodes = list(dict.fromkeys(self.read(word[1]) for word in words if word[0] == "node"))
        self.edges = list(dict.fromkeys((self.read(word[1]), self.read(word[2])) for word in words if word[0] == "edge"))
        # of each node the ends of its edges
        self.after: dict[Node, list[Node]] = {node: [] for node in self.nodes}
        for start, end in self.edges:
            self.after[start].append(end)

    def read(self, word: str) -> Node:
        """A node of the graph."""
        node = self.names.nodes.read(word)
        assert node is not None
        return node

    def lines(self) -> Iterator[str]:
        """The table of steps, and then the edges."""
        if not self.nodes:
            yield "The axioms ask for no step: the empty run satisfies them."
            return
        yield from self.table()
        yield ""
        between = [edge for edge in self.edges if self.core(edge[0]) != self.core(edge[1])]
        yield "The edges between micro-ops of two cores, which carry the values:" if between else \
            "No edge is between micro-ops of two cores."
        asked_for = [*self.asked_for()]
        origins = self.origins(asked_for)
        yield from (self.edge(edge, origins) for edge in between)
        reads = [op for op, one in enumerate(self.case.ops) if one.access == "Read"]
        if reads:
            yield ""
            yield "Where the values of reads come from:"
            yield from (self.value(op, asked_for) for op in reads)
        asked = [edge for edge, (first, *_) in origins.items() if first is not None and self.names.is_query(first.axiom)]
        if asked:
            yield ""
            yield "The edges that the query asks for:"
            yield from (self.edge(edge, origins) for edge in asked)

    def table(self) -> list[str]:
        """One order of the run. Where the columns of all cores are wider than a line may be, each line names its core."""
        cores = sorted({self.case.ops[node[0]].core for node in self.nodes})
        order = self.order()
        cells = {node: self.cell(node) for node in order}
        rows = [[f"core {core}" for core in cores]]
        rows += [[cells[node] if core == self.core(node) else "" for core in cores] for node in order]
        numbers = ["step", *(f"{number:4}" for number in range(1, len(rows)))]
        lines = ["One order of the run, a step a line, in the column of the micro-op's core:"]
        lines += (f"{number}  {line}" for number, line in zip(numbers, aligned(rows)))
        if max(map(len, lines[1:])) <= self.width:
            return lines
        lines = [f"{number:4}  core {self.core(node)}  {cells[node]}" for number, node in enumerate(order, 1)]
        return ["One order of the run, a step a line, behind the micro-op's core:", "step", *lines]

    def edge(self, edge: Edge, origins: dict[Edge, list[Origin | None]]) -> str:
        """An edge, with what asks for it: the first place of each label."""
        where = [self.names.origin(origin) for origin in origins.get(edge, [])] or ["no axiom asks for it"]
        return f"  {self.names.fact((*edge, True))}{GAP}{'; '.join(where)}"

    def core(self, node: Node) -> int:
        """The core of a node's micro-op."""
        return self.case.ops[node[0]].core

    def cell(self, node: Node) -> str:
        """A node in the table: the micro-op and the stage, with a core that is not the micro-op's own."""
        stage = self.names.node(node).split(":")[1]
        return f"{self.names.microop(node[0])} {stage}" + ("" if node[1] == self.core(node) else f" at core {node[1]}")

    def order(self) -> list[Node]:
        """The nodes in an order that all edges keep; of several that could come next the first listed."""
        numbers = {node: number for number, node in enumerate(self.nodes)}
        before = Counter(end for _, end in self.edges)
        ready = [number for number, node in enumerate(self.nodes) if before[node] == 0]
        found: list[Node] = []
        while ready:
            node = self.nodes[heapq.heappop(ready)]
            found.append(node)
            for end in self.after[node]:
                before[end] -= 1
                if before[end] == 0:
                    heapq.heappush(ready, numbers[end])
        return found

    def value(self, op: int, asked_for: Sequence[Asked]) -> str:
        """Where the value of a read comes from: the micro-op that the model chose, a write first, whose edge leads to the
        read; or else the start, where the value is that of the start. Behind it stands what asks for such an edge."""
        read = self.case.ops[op]
        assert read.pa is not None and read.value is not None
        said = f"  {self.names.microop(op)} reads {self.names.page(read.pa)} = {read.value} from "
        to_read = [(start[0], origin) for (start, end), origin in asked_for if end[0] == op]
        found = [(source, origin) for source, origin in to_read if self.is_source(source, op, origin)]
        for access in ("Write", "Read"):
            for source, origin in found:
                if self.case.ops[source].access == access:
                    return said + self.names.microop(source) + GAP + self.names.origin(origin)
        if read.value != self.case.initial_at(read.pa):
            return said + "no micro-op that the model names"
        for (start, end), origin in asked_for:
            is_newer = self.case.ops[end[0]].access == "Write" and self.case.ops[end[0]].pa == read.pa
            if start[0] == op and is_newer and origin is not None and has_predicate(self.model, origin.axiom, INITIAL):
                return said + "the start" + GAP + self.names.origin(origin)
        return said + "the start"

    def is_source(self, source: int, op: int, origin: Origin | None) -> bool:
        """Whether a formula chose a micro-op that has the value of a read, for that read."""
        one, read = self.case.ops[source], self.case.ops[op]
        taken = origin.taken if origin is not None else ()
        is_chosen = any(one.is_microop and one.is_chosen and one.value == source for one in taken)
        return source != op and is_chosen and (one.pa, one.value) == (read.pa, read.value)

    def origins(self, asked_for: Iterable[Asked]) -> dict[Edge, list[Origin | None]]:
        """Of each edge the first position of each label that asks for it."""
        found: dict[Edge, dict[str, Origin | None]] = {}
        for edge, origin in asked_for:
            found.setdefault(edge, {}).setdefault("" if origin is None else origin.label, origin)
        return {edge: [*by_label.values()] for edge, by_label in found.items()}

    def asked_for(self) -> Iterator[Asked]:
        """The edges that positions ask for which are true in this run, each with where the position comes from."""
        truth = self.truth()
        waiting = [0] if self.positions.rows else []
        while waiting:
            here = waiting.pop()
            row = self.positions.rows[here]
            if isinstance(row, Inner):
                waiting += [side for side in (row.right, row.left) if truth[side]]
            elif row.end is not None and row.wanted:
                yield (self.positions.nodes[row.start], self.positions.nodes[row.end]), self.positions.origins[here]

    def truth(self) -> list[bool]:
        """Whether each position is true in this run; members stand after what they are members of."""
        follows = self.following()
        truth = [False] * len(self.positions.rows)
        for here in reversed(range(len(truth))):
            row = self.positions.rows[here]
            if isinstance(row, Inner):
                both = truth[row.left], truth[row.right]
                truth[here] = any(both) if row.is_disjunction else all(both)
                continue
            start = self.positions.nodes[row.start]
            is_there = start in self.after if row.end is None else follows(start, self.positions.nodes[row.end])
            truth[here] = is_there is row.wanted
        return truth

    def following(self) -> Callable[[Node, Node], bool]:
        """Whether a node is somewhere behind another one. Which nodes are behind one is kept as a number with a bit for
        each, and only of those that a position names behind a node without an edge between the two."""
        edges = set(self.edges)
        bits: dict[Node, int] = {}
        for row in self.positions.rows:
            if isinstance(row, Leaf) and row.end is not None:
                start, end = self.positions.nodes[row.start], self.positions.nodes[row.end]
                if (start, end) not in edges and end not in bits:
                    bits[end] = 1 << len(bits)
        later: dict[Node, int] = {}
        for node in reversed(self.order()):
            later[node] = 0
            for end in self.after[node]:
                later[node] |= later[end] | bits.get(end, 0)
        return lambda start, end: (start, end) in edges or later.get(start, 0) & bits.get(end, 0) != 0
