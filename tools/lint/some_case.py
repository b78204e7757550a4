"""Whether some small case makes static formulas hold or not: a search over what micro-ops may be.

The table of predicates is asked of a case whose parts are chosen where it looks at them: the core of a micro-op, whether it is a
read, and so on. So the search goes over no more than the formulas tell apart. Up to four micro-ops are looked at, and a formula
over nodes, edges or quantifiers, which no such choice decides, may be either.
"""
from dataclasses import dataclass, field
from typing import Any, Callable, Iterable

from tools.lint.formulas import written
from tools.lint.truth import OutOfSteps, Steps
from tools.second.cases import Address, Entry, EntryAddress, Page
from tools.second.models import Arg, Binary, Expand, Formula, Macro, Not, Number, Static
from tools.second.predicates import MICROOP, PLAIN, PREDICATES

MOST_MICROOPS = 4
ACCESSES = ("Read", "Write", "Fence")
Key = tuple[object, ...]
# what a name stands for: a variable, by its name outside of macros, or the core of a number
Names = dict[str, "Value"]
Value = str | int
# a formula that has to hold, or not to hold, where its names stand for these
Wanted = tuple[Formula, Names, bool]


class Open(Exception):
    """Something that is not chosen yet, with the choices that there are."""

    def __init__(self, key: Key, choices: Iterable[object]) -> None:
        super().__init__()
        self.key = key
        self.choices = tuple(choices)


@dataclass
class Search:
    """Finds whether formulas may hold together."""

    macros: dict[str, Macro]
    has_entries: bool
    steps: Steps
    chosen: dict[Key, object] = field(default_factory=dict)

    def __post_init__(self) -> None:
        self.ops = [self.some_op(number) for number in range(MOST_MICROOPS)]
        self.case = self.some_case()

    def is_possible(self, wanted: list[Wanted]) -> bool:
        """Whether some choices make each of these formulas as it is wanted."""
        self.steps.take()
        try:
            if not all(self.truth(formula, names) is value for formula, names, value in wanted):
                return False
        except Open as open_one:
            key, choices = open_one.key, open_one.choices
        else:
            return True
        for choice in choices:
            self.chosen[key] = choice
            if self.is_sound(key) and self.is_possible(wanted):
                del self.chosen[key]
                return True
        del self.chosen[key]
        return False

    def choice(self, key: Key, choices: Iterable[object]) -> object:
        """What is chosen for a key."""
        if key not in self.chosen:
            raise Open(key, choices)
        return self.chosen[key]

    def counted(self, kind: str, *rest: object) -> object:
        """A number that matters by which others of its kind are the same: one that is there, or the next one."""
        key = kind, *rest
        if key not in self.chosen:
            known = [number for other, number in self.chosen.items() if other[0] == kind and isinstance(number, int)]
            raise Open(key, range(max(known, default=-1) + 2))
        return self.chosen[key]

    def is_sound(self, key: Key) -> bool:
        """Whether the choice for a key fits to the others: numbers of cores differ, and so do micro-ops."""
        if key[:2] == ("core", "named"):
            return not isinstance(key[2], int) or all(
                self.chosen[key] != core
                for other, core in self.chosen.items()
                if other[:2] == ("core", "named") and other != key and isinstance(other[2], int)
            )
        if key[0] not in ("core", "thread", "instruction", "intra"):
            return True
        ops = [one[-1] for one in self.chosen if one[0] == "instruction"]
        return not any(self.is_split(one, other) for k, one in enumerate(ops) for other in ops[:k])

    def is_split(self, one: object, other: object) -> bool:
        """Whether two micro-ops of one instruction have two cores, two threads or one number."""
        def same(*kind: object) -> bool | None:
            keys = (*kind, one), (*kind, other)
            return None if any(key not in self.chosen for key in keys) else self.chosen[keys[0]] == self.chosen[keys[1]]

        if same("instruction") is not True:
            return False
        return same("core", "of") is False or same("thread") is False or same("intra") is True

    def truth(self, formula: Formula, names: Names) -> bool:
        """The truth of a formula by what is chosen."""
        if isinstance(formula, Static):
            return self.static(formula, names)
        if isinstance(formula, Not):
            return not self.truth(formula.operand, names)
        if isinstance(formula, Binary):
            left = self.truth(formula.left, names) is not (formula.connective == "=>")
            decides = formula.connective != "/\\"
            return left if left is decides else self.truth(formula.right, names)
        if isinstance(formula, Expand):
            macro = self.macros[formula.macro.name]
            values = [self.value(arg, names) for arg in formula.args]
            inside = {**names, **dict(zip((parameter.name for parameter in macro.parameters), values))}
            return self.truth(macro.body, inside)
        # a formula over nodes, edges or quantifiers
        return bool(self.choice(("free", id(formula), tuple(sorted(names.items(), key=repr))), (True, False)))

    def value(self, arg: Arg, names: Names) -> Value:
        """What an argument stands for."""
        return arg.value if isinstance(arg, Number) else names.get(arg.name, arg.name)

    def static(self, formula: Static, names: Names) -> bool:
        """The truth of a predicate."""
        takes, holds = PREDICATES[formula.predicate.name]
        args: list[object] = []
        for kind, arg in zip(takes, formula.args):
            if kind == PLAIN:
                args.append(written(arg))
            elif kind == MICROOP:
                # one of those that there are, or the next one
                args.append(self.counted("microop", self.value(arg, names)))
            else:
                # the same for two numbers that are the same
                args.append(self.counted("core", "named", self.value(arg, names)))
        return holds(self.case, *args)

    # what predicates look at

    def some_case(self) -> "Some":
        """A case."""
        return Some(
            ops=lambda: self.ops,
            dependencies=lambda: SomeKeys(self, "dependency"),
            initial_at=lambda: lambda address: self.datum("initial", str(address)),
            final=lambda: SomeKeys(self, "final"),
        )

    def some_op(self, op: int) -> "Some":
        """A micro-op by its number."""
        return Some(
            core=lambda: self.counted("core", "of", op),
            thread=lambda: self.counted("thread", op),
            g=lambda: self.choice(("instruction", op), range(MOST_MICROOPS)),
            n=lambda: self.counted("intra", op),
            access=lambda: self.choice(("access", op), ACCESSES),
            types=lambda: SomeKeys(self, "type", op),
            va=lambda: None if self.is_fence(op) else self.page("virtual", op),
            pa=lambda: None if self.is_fence(op) else self.physical_address(op),
            value=lambda: None if self.is_fence(op) else self.datum("of", op),
        )

    def is_fence(self, op: int) -> bool:
        """Whether a micro-op is at no address."""
        return self.choice(("access", op), ACCESSES) == "Fence"

    def page(self, *of: object) -> "SomePage":
        """A virtual or a physical page."""
        return SomePage(tag=lambda: self.counted("tag", *of), index=lambda: self.counted("index", *of))

    def physical_address(self, op: int) -> Address:
        """The physical address of an access: that of a page-table entry or of a page."""
        if self.has_entries and self.choice(("entry", op), (False, True)):
            tag = self.counted("tag", "physical", op)
            assert isinstance(tag, int)
            return EntryAddress(tag)
        return self.page("physical", op)

    def datum(self, *of: object) -> object:
        """A value: a page-table entry or a number."""
        if not (self.has_entries and self.choice(("maps", *of), (False, True))):
            return self.counted("value", *of)
        return SomeEntry(
            tag=lambda: self.counted("tag", "mapped", *of),
            accessed=lambda: self.choice(("accessed", *of), (0, 1)),
            dirty=lambda: self.choice(("dirty", *of), (0, 1)),
        )


class Some:
    """What has parts of these names, each of which is chosen where a predicate looks at it."""

    def __init__(self, **parts: Callable[[], object]) -> None:
        self.parts = parts

    def __getattr__(self, name: str) -> Any:
        # of anything else no choices are known, so that the search is given up
        if name not in self.parts:
            raise OutOfSteps
        return self.parts[name]()


class SomePage(Some, Page):
    """A page."""


class SomeEntry(Some, Entry):
    """A page-table entry."""


class SomeKeys:
    """Types, dependencies, or final values by their addresses: whether one is there, and which value it has."""

    def __init__(self, search: Search, *of: object) -> None:
        self.search = search
        self.of = of

    def __contains__(self, key: object) -> bool:
        return bool(self.search.choice((*self.of, str(key)), (True, False)))

    def __getitem__(self, key: object) -> object:
        return self.search.datum(*self.of, str(key))
