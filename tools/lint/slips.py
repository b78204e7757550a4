"""What lint says: a slip of a file, and the comments that say what is meant."""
import re
from dataclasses import replace
from typing import Callable, Iterable, Iterator, NamedTuple

from tools.second.cases import Case
from tools.second.models import Axiom, Formula, Macro

ALLOWS = re.compile(rb"(?:%|//|\(\*)[ \t]*Lint allows:[ \t]*([a-z'-]+)([^\r\n*]*)", re.IGNORECASE)
# of a name, that every name of the kind is meant
ALL = "*"

# kinds of slips and names of them that are meant
Meant = set[tuple[str, str]]


class Slip(NamedTuple):
    """One line: the file, the place as a number of bytes, the kind, what it is said of, and the sentence."""

    path: str
    at: int
    kind: str
    name: str
    sentence: str


class TestFile(NamedTuple):
    """A test with its path and its text."""

    path: str
    text: bytes
    case: Case


class QueryFile(NamedTuple):
    """A query with its path, its text, and where its formula begins."""

    path: str
    text: bytes
    formula: Formula
    at: int


def allowed(text: bytes) -> Meant:
    """The kinds and names that comments of a file say are meant."""
    found: Meant = set()
    for kind, names in ALLOWS.findall(text):
        words = names.decode("latin-1").replace(",", " ").split() or [ALL]
        found.update((kind.decode("ascii").lower(), word) for word in words)
    return found


def unless_meant(meant: Meant, found: Iterable[Slip]) -> Iterator[Slip]:
    """The slips that no comment says are meant."""
    return (slip for slip in found if (slip.kind, slip.name) not in meant and (slip.kind, ALL) not in meant)


def grouped(found: Iterable[Slip], key: Callable[[Slip], object], more: Callable[[int], str]) -> Iterator[Slip]:
    """The first of those slips that are alike in this, with how many more there are."""
    groups: dict[object, list[Slip]] = {}
    for slip in found:
        groups.setdefault(key(slip), []).append(slip)
    for first, *others in groups.values():
        yield first._replace(sentence=first.sentence + more(len(others))) if others else first


def word_of(title: str) -> str:
    """The title of an axiom as one word of a comment."""
    return re.sub("[ ,*]", "-", title)


def owner(item: Axiom | Macro) -> str:
    """The name of what is said of an axiom or a macro."""
    return word_of(item.title) if isinstance(item, Axiom) else item.name.name


def counted(count: int, noun: str) -> str:
    """A number of things, in plain English."""
    return f"{count} {noun}" if count == 1 else f"{count} {noun}s"
