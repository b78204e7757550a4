"""A lifted refutation in the words of the model. The text has to be one that a judge accepted."""
from typing import Iterator, NamedTuple, Sequence

from tools.explain.branches import Branches
from tools.explain.clashes import clash_heading, clash_reason
from tools.lint.formulas import written
from tools.second.cases import Case
from tools.second.grounding import Literal
from tools.second.lifted import ADDING, Fact, LiftedJudge, Said
from tools.second.models import Atom, Atoms, Binary, Expand, Formula, Model, NodeTerm, Not, Number, Quantified, Static
from tools.texts.naming import Fact as NamedFact
from tools.texts.naming import Names
from tools.texts.origins import Origin, Taken, first_place
from tools.texts.wrapping import GAP

# how many characters of a formula, and how many members of a list in it, are shown
MOST_CHARACTERS = 160
MOST_MEMBERS = 12
# how tightly a connective binds
LEVELS = {"=>": 0, "\\/": 1, "/\\": 2}


class Noted(NamedTuple):
    """A fact with the names of its variables' values, and with where it comes from: the axiom, by its number too."""

    fact: Fact
    values: dict[str, str]
    axiom: int
    origin: Origin

    @property
    def said(self) -> Said:
        """The fact, of a formula."""
        assert isinstance(self.fact, Said)
        return self.fact

    @property
    def literal(self) -> NamedFact:
        """The node or the edge of a fact that is one."""
        assert isinstance(self.fact, Literal)
        return self.fact.start, self.fact.end, self.fact.wanted


class ClosedBy(NamedTuple):
    """A line that closes a branch: its word, and its facts with their numbers."""

    word: str
    facts: list[tuple[int, Noted]]


class LiftedRefutation(Branches[Noted]):
    """The lines of a lifted refutation. The facts of the first open branch are kept with where they come from."""

    def __init__(self, model: Model, case: Case, names: Names, lines: list[str], width: int) -> None:
        super().__init__(names, lines, width, ADDING)
        self.model = model
        self.rules = LiftedJudge(model, case)
        self.facts = [
            Noted(Said(True, axiom.body, {}), {}, number, Origin(axiom, (), None, first_place(axiom.body)))
            for number, axiom in enumerate(model.axioms)
        ]

    def lines(self) -> Iterator[str]:
        """The axioms, and the steps."""
        yield "The axioms are the first facts:"
        for number, axiom in enumerate(self.model.axioms):
            yield f"  {number}: {self.names.axiom(axiom)} at {self.names.place(axiom.at)}"
        yield ""
        yield from self.under("Each line adds a fact, or splits a branch, or closes one by what cannot be:")

    def walk(self) -> Iterator[str]:
        while self.here < len(self.steps):
            word, *rest = self.steps[self.here].split(" ")
            if word in ADDING:
                noted = self.adding(word, rest)
                yield f"{self.indent()}{self.steps[self.here]}: {self.added(noted)}{GAP}{self.origin(noted)}"
                self.here += 1
            else:
                yield from self.split() if word == "split" else self.leaf()

    # the lines

    def adding(self, word: str, rest: list[str]) -> Noted:
        """The fact that a line adds, which is a part of another one."""
        above = self.facts[int(rest[0])]
        part = self.rules.part_of(above.said, word, rest[-1])
        assert part is not None
        return self.part(above, part, int(rest[-1]) if word == "member" else 0, rest[-1])

    def split(self) -> Iterator[str]:
        """A split: one line where the test alone makes a side false, or where no more than a clash closes it."""
        step = self.steps[self.here]
        above = self.facts[int(step.split(" ")[1])]
        left, right = self.sides(above)
        sides = (left, self.here + 1), (right, self.ends[self.here + 1])
        leaves = [self.leaves(*side) for side in sides]
        closed = closed_side(leaves)
        if closed is None:
            yield f"{self.indent()}{step}: {self.origin(above)}"
            yield from self.open_branches(step, left, right, f"split {len(self.facts)}", len(self.facts))
            return
        reason = self.reason(sides[closed][0], leaves[closed])
        other, other_at = sides[1 - closed]
        yield f"{self.indent()}{step}: {self.added(other)}, since {reason}{GAP}{self.origin(above)}"
        self.here = other_at

    def begin(self, name: str, side: Noted) -> Iterator[str]:
        yield f"{self.indent()}{name}: {self.added(side)}"

    def take_back(self, mark: int) -> None:
        del self.facts[mark:]

    def sides(self, above: Noted) -> tuple[Noted, Noted]:
        """Both sides of a fact."""
        sides = self.rules.sides(above.said)
        assert sides is not None
        start, formula = above.said.start, above.said.formula
        name = self.rules.names(formula)[start] if isinstance(formula, Quantified) else ""
        goes_on = isinstance(sides[1], Said) and sides[1].formula is formula
        second = above._replace(fact=sides[1]) if goes_on else self.part(above, sides[1], 0, "")
        return self.part(above, sides[0], start, name), second

    def leaf(self) -> Iterator[str]:
        """A line that closes a branch, and the facts that do. Then the branch that waited last goes on."""
        step = self.steps[self.here]
        word, *rest = step.split(" ")
        facts = [self.facts[int(number)] for number in rest]
        clash = [] if word == "false" else [noted.literal for noted in facts]
        self.closed.add(word, clash, [self.names.axiom(noted.origin.axiom) for noted in facts])
        if word == "false":
            yield f"{self.indent()}{step}: {self.falsity(facts[0])}"
        else:
            facts = facts[::-1] if word == "absent" else facts
            yield f"{self.indent()}{step}: {clash_heading(self.names, word, [noted.literal for noted in facts])}"
            yield from (f"{self.indent()}  {self.plain(noted)}{GAP}{self.origin(noted)}" for noted in facts)
        yield from self.next_branch()

    # why a side cannot be

    def leaves(self, side: Noted, at: int) -> list[ClosedBy]:
        """How the branches of a side are closed, whose first step stands there: by `false` of its parts, but for one clash at
        most. Nothing where something else closes them, or where another fact is taken apart in them."""
        first = len(self.facts)
        waiting: list[tuple[int, Noted]] = []
        found: list[ClosedBy] = []
        clashes = 0
        self.facts.append(side)
        try:
            for place in range(at, self.ends[at]):
                word, *rest = self.steps[place].split(" ")
                is_clash = word not in ("split", "false", *ADDING)
                clashes += is_clash
                if clashes > 1 or not is_clash and int(rest[0]) < first:
                    return []
                if word in ADDING:
                    self.facts.append(self.adding(word, rest))
                elif word == "split":
                    left, right = self.sides(self.facts[int(rest[0])])
                    waiting.append((len(self.facts), right))
                    self.facts.append(left)
                else:
                    found.append(ClosedBy(word, [(int(number), self.facts[int(number)]) for number in rest]))
                    if waiting:
                        count, right = waiting.pop()
                        self.facts[count:] = [right]
            return found
        finally:
            del self.facts[first:]

    def reason(self, side: Noted, leaves: list[ClosedBy]) -> str:
        """Why a side cannot be that is closed so: what clashes with it, or what the test makes false, which is the one fact
        that closes it, or the side where several do."""
        for leaf in leaves:
            if leaf.word != "false":
                return self.clash_reason(leaf)
        if len(leaves) == 1:
            return self.falsity(leaves[0].facts[0][1])
        if side.said.start:
            return f"{self.plain(side)}, is false in this test"
        return f"{self.shown(side)} is {'false' if side.said.holds else 'true'} in this test"

    def clash_reason(self, leaf: ClosedBy) -> str:
        """What clashes with a side; the facts that were there before it by their numbers."""
        facts = leaf.facts[::-1] if leaf.word == "absent" else leaf.facts
        known = [str(number) for number, _ in facts if number < len(self.facts)]
        new = [noted.literal for number, noted in facts if number >= len(self.facts)]
        numbers = " and ".join([", ".join(known[:-1]), known[-1]] if known[1:] else known)
        by = f", fact{'s' if known[1:] else ''} {numbers}" if known else ""
        return clash_reason(self.names, leaf.word, [noted.literal for _, noted in facts], new) + by

    def falsity(self, noted: Noted) -> str:
        """Why a fact is false in this test."""
        formula = noted.said.formula
        if isinstance(formula, Static):
            return f"{self.formula(formula, noted)} {'does not hold' if noted.said.holds else 'holds'} in this test"
        return f"no {formula.name} is left" if isinstance(formula, Quantified) else "no member of the list is left"

    def part(self, above: Noted, part: Fact, place: int, name: str) -> Noted:
        """A part of a fact: the member of a list at a place, the body of a quantifier at what has this name, or a side."""
        formula, origin, values = above.said.formula, above.origin, above.values
        if isinstance(part, Literal):
            assert isinstance(formula, Atoms)
            return above._replace(fact=part, origin=origin._replace(label=formula.members[place].label))
        if isinstance(formula, Quantified):
            values = {**values, formula.name: name}
            taken = Taken(formula.name, formula.over_microops, part.env[formula.name])
            origin = origin._replace(taken=(*origin.taken, taken))
        elif isinstance(formula, Expand):
            parameters = [parameter.name for parameter in self.rules.macros[formula.macro.name].parameters]
            values = {**values, **dict(zip(parameters, [written(arg, values) for arg in formula.args]))}
            origin = origin._replace(macro=formula.macro.name)
        return Noted(part, values, above.axiom, origin._replace(at=first_place(part.formula)))

    # how they are written

    def added(self, noted: Noted) -> str:
        """A fact, which the branch gets, with its number."""
        self.facts.append(noted)
        return f"fact {len(self.facts) - 1}, {self.plain(noted)}"

    def plain(self, noted: Noted) -> str:
        """A fact."""
        fact = noted.fact
        if isinstance(fact, Literal):
            return self.names.fact(noted.literal)
        is_whole = fact.holds or not isinstance(fact.formula, (Binary, Quantified))
        text = self.shown(noted)
        signed = text if fact.holds else f"not {text}" if is_whole else f"not ({text})"
        return signed + (self.start(fact) if fact.start else "")

    def shown(self, noted: Noted) -> str:
        """The formula of a fact, cut short where it is long."""
        text = self.formula(noted.said.formula, noted)
        return text if len(text) <= MOST_CHARACTERS else text[:MOST_CHARACTERS].rsplit(" ", 1)[0] + " .."

    def start(self, fact: Said) -> str:
        """From which member on a fact speaks of some member."""
        formula = fact.formula
        name = formula.name if isinstance(formula, Quantified) else "member"
        if fact.start == self.rules.members(fact):
            return f", with no {name} left"
        return f", from {name} {self.rules.names(formula)[fact.start] if isinstance(formula, Quantified) else fact.start} on"

    def origin(self, noted: Noted) -> str:
        """Where a fact comes from."""
        origin = noted.origin
        values = [self.names.microop(one.value) if one.is_microop else f"core {one.value}" for one in origin.taken]
        taken = [f"{one.name} = {value}" for one, value in zip(origin.taken, values)]
        given = f" with {', '.join(taken[:-1])}{' and ' if taken[:-1] else ''}{taken[-1]}" if taken else ""
        macro = f", in macro {origin.macro} at {self.names.place(origin.at)}" if origin.macro is not None else ""
        label = f'"{origin.label}" ' if origin.label else ""
        return f"{label}from axiom {noted.axiom}{given}{macro}"

    def term(self, term: NodeTerm, noted: Noted) -> str:
        """A node where its variables have values, and otherwise its term."""
        names = [term.op.name] + ([] if term.core is None or isinstance(term.core, Number) else [term.core.name])
        if all(name in noted.values for name in names):
            return self.names.node(self.rules.node(term, noted.said.env))
        return written(term, noted.values)

    def atom(self, atom: Atom, noted: Noted) -> str:
        """That a node is there, or that one is before another."""
        start = self.term(atom.start, noted)
        return f"{start} is there" if atom.end is None else f"{start} before {self.term(atom.end, noted)}"

    def formula(self, formula: Formula, noted: Noted, level: int = 0, is_last: bool = True) -> str:
        """A formula with the values of its variables in place of them, in brackets where something looser stands than may."""
        match formula:
            case Not(operand):
                return f"~{self.formula(operand, noted, 3, False)}"
            case Binary(connective, left, right):
                here = LEVELS[connective]
                text = f"{self.formula(left, noted, here + 1, False)} {connective} {self.formula(right, noted, here, is_last)}"
                return f"({text})" if here < level else text
            case Quantified(_, universal, over_microops, name, body):
                words = f"{'forall' if universal else 'exists'} {'microop' if over_microops else 'core'} {name}, "
                hidden = noted._replace(values={one: value for one, value in noted.values.items() if one != name})
                text = words + self.formula(body, hidden)
                return text if is_last else f"({text})"
            case Expand() | Static():
                return written(formula, noted.values)
            case Atoms(members):
                parts = [self.atom(member, noted) for member in members[:MOST_MEMBERS]]
        more = [".."] if len(members) > MOST_MEMBERS else []
        return parts[0] if len(members) == 1 else f"[{'; '.join(parts + more)}]"


def closed_side(leaves: Sequence[list[ClosedBy]]) -> int | None:
    """Which of two sides the test makes false, or else which one a clash closes: the first such one."""
    clashes = [sum(leaf.word != "false" for leaf in side) if side else None for side in leaves]
    return next((clashes.index(count) for count in (0, 1) if count in clashes), None)
