"""The memory model that a model names, in a comment of its own: `% Memory model: NAME`."""
import re
from typing import Iterator, NamedTuple

from tools.second.tokens import PIECE

FORM = "% Memory model: NAME"
NAMES = re.compile(rb"%[ \t]*memory model:[ \t]*([a-z0-9_-]+)\s*", re.IGNORECASE)
MORE = re.compile(rb"%[ \t]*memory model:", re.IGNORECASE)
# one that stands in another comment, up to the end of a line or of that comment
INSIDE = re.compile(rb"%[ \t]*memory model:[ \t]*[a-z0-9_-]+\s*?(?:\*\)|$)", re.IGNORECASE | re.MULTILINE)


class Named(NamedTuple):
    """The name in small letters; where there is none, the sentence that says why, and its place in bytes."""

    name: str
    fault: str = ""
    at: int = 0


def comments(text: bytes) -> Iterator[tuple[int, bytes]]:
    """The comments of a model with their places, up to what begins no piece of the language."""
    at = 0
    while at < len(text):
        piece = PIECE.match(text, at)
        if piece is None:
            return
        if piece.lastgroup == "comment":
            yield at, piece.group()
        at = piece.end()


def memory_model_of(text: bytes) -> Named:
    """The memory model that the text of a model names. It names one once, and never inside another comment."""
    found: list[tuple[int, str]] = []
    other = Named("", "the model names no memory model")
    for at, comment in comments(text):
        names = NAMES.fullmatch(comment)
        inside = INSIDE.search(comment, 1)
        if names is not None:
            found.append((at, names.group(1).decode("ascii").lower()))
        elif inside is not None:
            return Named("", "a memory model is named inside another comment", at + inside.start())
        elif MORE.match(comment) is not None:
            other = Named("", f"the comment on a memory model is not {FORM}", at)
    if len(found) > 1:
        return Named("", "a memory model is named a second time", found[1][0])
    return Named(found[0][1]) if found else other
