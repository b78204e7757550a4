"""The orders that forbid an outcome: edges that no run with it has. Of these the ones are looked for with which the
program keeps its other outcomes, and that order no more than they have to.

An edge that no run with the outcome has forbids it, as an axiom of the model. An outcome is kept where some run with it
has the edge. Many edges are asked about at once: where some run has one of them, the program answers with one, and the
edges that this run has are known; where none has, all of them are.
"""
from functools import partial
from itertools import accumulate
from typing import Iterable, Iterator, NamedTuple, Sequence

from tools.mend.asking import Edge, Questions, World
from tools.mend.copies import Outcome
from tools.mend.relations import OWN, Choice, Place, Relation, Relations
from tools.second.cases import Case, Value
from tools.second.meaning import Node

# how many edges one question is about, and how many are asked about at all: the nearest
AT_ONCE = 48
MOST_EDGES = 2000
FEW_TOGETHER = 12
# how many are counted by the outcomes that they lose, where all lose some
MOST_COUNTED = 400


class Part(NamedTuple):
    """An edge, and the reads that have to get what the outcome says where it is of that alone."""

    edge: Edge
    where: tuple[int, ...] = ()


class Order(NamedTuple):
    """Edges that together forbid the outcome; the relation that all of them are of, if any; and what other outcomes they lose."""

    parts: tuple[Part, ...]
    relation: Relation | None
    lost: tuple[Outcome, ...] = ()

    @property
    def is_narrow(self) -> bool:
        """Whether it is of some values alone."""
        return any(part.where for part in self.parts)


class Found(NamedTuple):
    """The orders that lose least, the nearest first; those that order more than one of these; and where all lose some, the
    choices of two edges that lose none."""

    orders: list[Order]
    stronger: list[Order]
    choices: list[Choice]


class Search:
    """Looks for orders that forbid an outcome and keep others."""

    def __init__(self, questions: Questions, stated: Outcome, others: Sequence[Outcome]) -> None:
        self.questions = questions
        self.program = questions.program
        self.case = questions.program.case
        self.relations = Relations(questions.model, self.case)
        self.stated = stated
        self.others = others
        # all runs that the program has shown, by their outcomes
        self.worlds = {outcome: [questions.world(outcome)] for outcome in [stated, *others]}

    def found(self) -> Found:
        """The orders that forbid the stated outcome and keep as many of the others as can be. One edge is tried before
        all edges of a relation, and what holds of all values before what holds of those that the outcome has."""
        edges = self.edges()
        single = self.judged([Order((Part(edge),), self.relations.of(edge)) for edge in edges])
        best = [order for order in single if not order.lost]
        narrow = self.narrowed([order for order in single if order.lost])
        of_relations: list[Order] = []
        if not best:
            of_relations = self.judged(list(self.of_relations(edges)))
            best = [order for order in of_relations if not order.lost]
        if not best and not narrow:
            of_values = self.judged(list(self.of_relations(edges, self.case)))
            narrow = self.narrowed([order for order in of_values if order.lost])
        choices = [] if best or narrow else [choice for choice in self.choices() if self.keeps_all(choice)]
        if not best and not narrow and not choices:
            best = self.nearest(self.counted([*single, *of_relations][:MOST_COUNTED]))
        later = self.later()
        kept = self.weakest(best, best, later)
        kept_narrow = self.weakest(narrow, [*narrow, *best], later)
        more = [order for order in [*best, *narrow] if order not in kept and order not in kept_narrow]
        return Found(self.sorted([*kept, *kept_narrow]), self.sorted(more), choices)

    # what is asked about

    def edges(self) -> list[Edge]:
        """The pairs of nodes of runs that the program has shown, the nearest where there are many."""
        nodes = list(dict.fromkeys(node for worlds in self.worlds.values() for node in worlds[0].later))
        return sorted(((start, end) for start in nodes for end in nodes if start != end), key=self.distance_of)[:MOST_EDGES]

    def of_relations(self, edges: Sequence[Edge], case: Case | None = None) -> Iterator[Order]:
        """All edges of a relation together, for each relation that has several; of a case, for relations in which the reads
        get what it says."""
        for relation in dict.fromkeys(self.relations.of(edge, case) for edge in edges):
            together = [] if relation is None else list(relation.edges(self.case))
            if len(together) > 1:
                yield Order(tuple(map(Part, together)), relation)

    def narrowed(self, orders: Iterable[Order]) -> list[Order]:
        """Of orders that lose outcomes those that lose none where the reads among their micro-ops get what the outcome
        says, and that some outcome is kept with. They are between one read and what is akin to it."""
        narrow = []
        for order in orders:
            if not any(map(partial(self.is_as_stated, order), order.lost)):
                edge = order.parts[0].edge
                parts = tuple(part._replace(where=self.reads(part.edge)) for part in order.parts)
                if all(len(part.where) < 2 for part in parts):
                    narrow.append(Order(parts, self.relations.of(edge, self.case)))
        narrow = [order for order in narrow if any(self.active(order, outcome) for outcome in self.others)]
        for outcome in self.others:
            some = [order for order in narrow if 0 < len(self.active(order, outcome)) < len(order.parts)]
            lost = set(self.never(outcome, some))
            narrow = [order for order in narrow if order not in lost]
        return narrow

    def is_as_stated(self, order: Order, outcome: Outcome) -> bool:
        """Whether the reads among the micro-ops of an order get in an outcome what the test states; or what they get has
        nothing to do with it."""
        reads = [op for part in order.parts for op in self.reads(part.edge)]
        return not self.is_akin(order) or all(self.gets(op, outcome) == self.gets(op, self.program.stated) for op in reads)

    def gets(self, op: int, outcome: Outcome) -> Value:
        return outcome.reads[self.program.opens.index(op)]

    def choices(self) -> list[Choice]:
        """The orders of reads before newer writes, by the places of nodes: first at what all cores share, late places of
        writes before early ones, and early places of reads, which order less, before late ones."""
        places: dict[str, list[Place]] = {"Read": [], "Write": [], "Fence": []}
        for node in self.worlds[self.stated][0].later:
            place = self.relations.place(node, node[0])
            if place is not None:
                places[self.case.ops[node[0]].access].append(place)
        found = [Choice(read, write) for write in dict.fromkeys(places["Write"]) for read in dict.fromkeys(places["Read"])]
        return sorted(found, key=lambda it: (it.write.core == OWN, -it.write.stage, it.read.core == OWN, it.read.stage))

    def keeps_all(self, choice: Choice) -> bool:
        """Whether a choice forbids the stated outcome and no other."""
        formula = "\n".join(choice.formula(self.questions.model, "mend"))
        return not self.questions.asked(self.stated, formula) and all(
            self.questions.asked(outcome, formula) for outcome in self.others
        )

    def reads(self, edge: Edge) -> tuple[int, ...]:
        """The open reads among the micro-ops of an edge."""
        return tuple(op for op in dict.fromkeys((edge[0][0], edge[1][0])) if op in self.program.opens)

    def active(self, order: Order, outcome: Outcome) -> list[Edge]:
        """The edges of an order that an outcome has to have."""
        stated = self.program.stated
        return [part.edge for part in order.parts if all(self.gets(op, outcome) == self.gets(op, stated) for op in part.where)]

    # what the program says

    def judged(self, orders: Sequence[Order]) -> list[Order]:
        """Those of the orders that forbid the stated outcome, with others that they lose: all of them, where each has
        other values than the test; and one that has the same."""
        orders = self.never(self.stated, orders)
        lost: dict[Order, list[Outcome]] = {order: [] for order in orders}
        useless: set[Order] = set()
        for outcome in self.others:
            asked = [it for it in orders if not lost[it] or it not in useless and self.is_as_stated(it, outcome)]
            for order in self.never(outcome, asked):
                lost[order].append(outcome)
                if self.is_as_stated(order, outcome):
                    useless.add(order)
        return [order._replace(lost=tuple(outcomes)) for order, outcomes in lost.items()]

    def counted(self, orders: Sequence[Order]) -> list[Order]:
        """The orders with all outcomes that they lose."""
        losing = {outcome: set(self.never(outcome, orders)) for outcome in self.others}
        return [it._replace(lost=tuple(outcome for outcome, lose in losing.items() if it in lose)) for it in orders]

    def never(self, outcome: Outcome, orders: Sequence[Order]) -> list[Order]:
        """Those of the orders that no run with an outcome has."""
        edges = {order: self.active(order, outcome) for order in orders}
        left = self.unseen(self.worlds[outcome], edges)
        found: list[Order] = []
        together = len(left)
        while left:
            # what is wanted is asked for together, as long as the program knows a run with it
            worlds = self.stretched(outcome, [edge for order in left for edge in edges[order]], together)
            fewer = self.unseen(worlds, {order: edges[order] for order in left})
            together = together * 2 if len(fewer) < len(left) else max(together // 2, FEW_TOGETHER)
            if len(fewer) == len(left):
                count = sum(total <= AT_ONCE for total in accumulate(len(edges[order]) for order in left)) or 1
                worlds = self.questions.worlds(outcome, [edges[order] for order in left[:count]])
                if worlds:
                    fewer = self.unseen(worlds, {order: edges[order] for order in left})
                else:
                    found += left[:count]
                    fewer = left[count:]
                if len(fewer) == len(left):
                    raise AssertionError("the run has none of the orders that were asked for")
            self.worlds[outcome] += worlds
            left = fewer
        return found

    def unseen(self, worlds: Sequence[World], edges: dict[Order, list[Edge]]) -> list[Order]:
        """Those of the orders that none of these runs has."""
        return [order for order, wanted in edges.items() if not any(all(map(world.has, wanted)) for world in worlds)]

    def stretched(self, outcome: Outcome, wanted: Sequence[Edge], most: int) -> list[World]:
        """A run as the last one that was seen that has many of the wanted edges as well, at most so many. There may be none,
        since what is in order may ask for more."""
        places = {node: place for place, node in enumerate(self.worlds[outcome][-1].row(wanted))}
        agreeing = [(start, end) for start, end in wanted if places.get(start, 0) < places.get(end, 0)][:most]
        return self.questions.worlds(outcome, [agreeing]) if len(agreeing) > 1 else []

    # what is shown

    def nearest(self, orders: Sequence[Order]) -> list[Order]:
        """Where no order keeps all outcomes, those that lose the fewest, if they keep any."""
        least = min((len(order.lost) for order in orders), default=0)
        return [order for order in orders if len(order.lost) == least < len(self.others)]

    def later(self) -> dict[Node, set[Node]]:
        """What is later than a node in all runs."""
        first, *rest = (world.later for worlds in self.worlds.values() for world in worlds)
        return {start: ends.intersection(*(later.get(start, set()) for later in rest)) for start, ends in first.items()}

    def weakest(self, orders: Sequence[Order], than: Sequence[Order], later: dict[Node, set[Node]]) -> list[Order]:
        """Those of the orders that bring about none of these others through what all runs have. One of micro-ops that
        are akin is kept beside others."""

        def is_before(start: Node, end: Node) -> bool:
            return start == end or end in later.get(start, ())

        def brings_about(edge: Edge, other: Edge) -> bool:
            return is_before(other[0], edge[0]) and is_before(edge[1], other[1])

        def is_stronger(order: Order, other: Order) -> bool:
            if order.parts == other.parts or self.is_akin(order) > self.is_akin(other):
                return False
            return all(any(brings_about(one.edge, part.edge) for one in order.parts) for part in other.parts)

        return [order for order in orders if not any(is_stronger(order, other) for other in than)]

    def is_akin(self, order: Order) -> bool:
        """Whether the micro-ops of an order have more to do with each other than their cores."""
        return all(self.kinship(part.edge) == 0 for part in order.parts)

    def kinship(self, edge: Edge) -> int:
        """0 where two micro-ops are one, share an address, or are of one core and one of them is a fence."""
        one, other = self.case.ops[edge[0][0]], self.case.ops[edge[1][0]]
        is_akin = one.core == other.core if None in (one.pa, other.pa) else one.pa == other.pa
        return 0 if is_akin else 1

    def sorted(self, orders: Sequence[Order]) -> list[Order]:
        """The nearest first, and behind all of these those of some values alone."""
        return sorted(orders, key=lambda order: (order.is_narrow, *self.distance_of(order.parts[0].edge), len(order.parts)))

    def distance_of(self, edge: Edge) -> tuple[int, ...]:
        """How far apart two nodes are: in one micro-op, on one core, or on two; then by what they have in common, by
        their stages, and by the places of their micro-ops. Against the program order is further."""
        (start, _, first), (end, _, last) = edge
        near = 0 if start == end else 1 if self.case.ops[start].core == self.case.ops[end].core else 2
        return near, self.kinship(edge), abs(first - last), int(start > end), abs(start - end), start, first
