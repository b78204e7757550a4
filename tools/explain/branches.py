"""The branches of a refutation. A step that splits has the branch of its left side behind it, and then that of its right
side. A line that adds a fact goes on with its branch, and any other one closes it."""
from abc import ABC, abstractmethod
from dataclasses import dataclass
from typing import Container, Generic, Iterator, TypeVar

from tools.explain.clashes import Closed
from tools.texts.naming import Names
from tools.texts.wrapping import indent

# what a side of a split asserts
Side = TypeVar("Side")


@dataclass(frozen=True)
class Waiting(Generic[Side]):
    """A right side whose left one is open: where its branch begins, its name, what it asserts, the step that splits that, how
    many facts stand before it, the level of the split."""

    step: int
    name: str
    side: Side
    split: str
    mark: int
    level: int


class Branches(ABC, Generic[Side]):
    """Goes through the steps of a refutation, the present one of which is `here`."""

    def __init__(self, names: Names, steps: list[str], width: int, adding: Container[str] = ()) -> None:
        self.names = names
        self.steps = steps
        self.width = width
        # of each step the place behind the last step of the branch that goes on with it
        self.ends = [0] * len(steps)
        for place in reversed(range(len(steps))):
            word = steps[place].split(" ", 1)[0]
            goes_on = word == "split" or word in adding
            end = self.ends[place + 1] if goes_on else place + 1
            self.ends[place] = self.ends[end] if word == "split" else end
        self.here = 0
        self.level = 0
        self.waiting: list[Waiting[Side]] = []
        self.closed = Closed()

    @abstractmethod
    def walk(self) -> Iterator[str]:
        """The lines of the steps. Of a split of which one side closes at once a line says what the other one gives, which
        goes on there. Of any other one both branches follow, one level further in."""

    @abstractmethod
    def begin(self, name: str, side: Side) -> Iterator[str]:
        """The first line of a branch that is a side of a split by this name."""

    @abstractmethod
    def take_back(self, mark: int) -> None:
        """Forgets the facts of the present branch behind so many."""

    def under(self, heading: str) -> Iterator[str]:
        """What closes many branches, a heading, and the steps."""
        said = list(self.walk())
        yield from self.closed.line(self.names)
        yield heading
        yield from said
        yield "Every branch is closed."

    def indent(self) -> str:
        """What stands before a line."""
        return indent(self.level, self.width)

    def open_branches(self, step: str, left: Side, right: Side, split: str, mark: int) -> Iterator[str]:
        """Goes on with the left side of the present step; the right one waits, with the step that splits it in turn."""
        self.waiting.append(Waiting(self.ends[self.here + 1], f"right of {step}", right, split, mark, self.level))
        yield from self.begin(f"left of {step}", left)
        self.level += 1
        self.here += 1

    def next_branch(self) -> Iterator[str]:
        """Goes on with the branch that waited last, where the present one is closed."""
        if not self.waiting:
            self.here = len(self.steps)
            return
        waiting = self.waiting.pop()
        self.take_back(waiting.mark)
        self.level, self.here = waiting.level, waiting.step
        yield from self.begin(waiting.name, waiting.side)
        # what splits the right side itself goes on with the choices of one formula
        if self.steps[self.here] != waiting.split:
            self.level += 1
