"""Files that cannot be read, and the pages that say what a fault means."""
import os
import re
from errno import ELOOP
from typing import Iterator, Sequence

from tools.texts.quoting import quoted

# of a table that says something of words
ROW = re.compile(r"\| ([^|]*`[^|]*) \| (.*) \|")


def hindrance(path: str) -> str:
    """Why a file can't be opened now; nothing if it can."""
    try:
        os.stat(path)
    except OSError as fault:
        if fault.errno == ELOOP:
            return "leads into a loop of links"
        return "is a link to what is not there" if os.path.islink(path) else "is not there"
    if os.path.isdir(path):
        return "is a directory"
    return "" if os.access(path, os.R_OK) else "may not be read"


def unreadable(paths: Sequence[str]) -> Iterator[str]:
    """That a file could not be read, and which of these can't be opened now."""
    yield "pipecheck: a file could not be read"
    for path in paths:
        why = hindrance(path)
        if why:
            yield f"pipecheck: {quoted(path)} {why}"


def sentence(top: str, kind: str, word: str) -> str:
    """What docs/faults.md says of a fault's word, of a `model`, a `test`, or a `query`, which has the words of a model; nothing
    where the page is missing."""
    return row(top, f"word of a {'test' if kind == 'test' else 'model'}", word).replace("no model can", f"no {kind} can")


def row(top: str, head: str, word: str) -> str:
    """What the table of docs/faults.md with this head says of a word; nothing where the page is missing."""
    return dict(rows_of(os.path.join(top, "docs", "faults.md"), f"| {head} |")).get(word, "")


def rows_of(path: str, *heads: str) -> Iterator[tuple[str, str]]:
    """The words of the tables of a page that begin with these heads, each with what the page says of it. A page may be missing."""
    try:
        with open(path, encoding="utf-8") as file:
            lines = file.read().splitlines()
    except OSError:
        return
    is_inside = False
    for line in lines:
        is_inside = line.startswith(heads) or is_inside and line.startswith("|")
        found = ROW.fullmatch(line) if is_inside else None
        if found is not None:
            yield from ((word, found[2]) for word in re.findall("`([^`]+)`", found[1]))
