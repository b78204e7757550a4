"""How names, paths and places stand in lines, each of which a reader takes apart."""
import re
from bisect import bisect_right
from functools import lru_cache

# what would break a line: the control characters of ASCII and of Latin-1
CONTROL = re.compile(r"[\x00-\x1f\x7f-\x9f]")
# what a shell may take for its own
SPECIAL = re.compile(r"[^\w@%+=:./-]")
ESCAPES = {"\t": "\\t", "\n": "\\n", "\r": "\\r"}


def quoted(text: str) -> str:
    """A text as one word of bash, as its `printf %q` writes it."""
    if CONTROL.search(text) is None:
        return SPECIAL.sub(r"\\\g<0>", text) or "''"
    plain = text.replace("\\", "\\\\").replace("'", "\\'")
    return "$'" + CONTROL.sub(lambda found: ESCAPES.get(found[0], f"\\u{ord(found[0]):04x}"), plain) + "'"


def shown(path: str) -> str:
    """A path in a line: as it is, or as one word of bash where it would break the line."""
    return path if CONTROL.search(path) is None else quoted(path)


@lru_cache(maxsize=None)
def line_starts(text: bytes) -> list[int]:
    """Where the lines of a text begin. A text of many places is cut once."""
    return [0, *(match.end() for match in re.finditer(b"\n", text))]


def line_and_column(text: bytes, at: int) -> str:
    """A place, which is a number of bytes."""
    starts = line_starts(text)
    line = bisect_right(starts, at)
    return f"{line}:{at - starts[line - 1] + 1}"


def line_of(path: str, text: bytes, at: int, rest: str) -> str:
    """A line about a place."""
    return f"{shown(path)}:{line_and_column(text, at)}: {rest}"
