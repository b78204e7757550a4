"""The files that a tool reads: their bytes, within a limit."""
from typing import Callable, TypeVar

from tools.second.tokens import Fault
from tools.texts.quoting import shown

Read = TypeVar("Read")
# how many bytes a model, a test, a listing or a query may have
LIMIT = 1_048_576


class Unreadable(Exception):
    """A file cannot be read, and why."""


def contents(path: str, limit: int = LIMIT) -> bytes:
    """The bytes of a file, with one more than the limit where there are more."""
    try:
        with open(path, "rb") as file:
            return file.read(limit + 1)
    except OSError as error:
        raise Unreadable(f"{shown(path)}: {error.strerror}") from error


def read_within(read: Callable[[bytes], Read], text: bytes) -> Read:
    """What a reader makes of these bytes, or the fault that they are too many."""
    if len(text) > LIMIT:
        raise Fault("too-large", 0)
    return read(text)
