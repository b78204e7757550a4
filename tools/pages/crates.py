"""Says what the crates are for: of each its name, its sentence, its main clause and what it stands on.

    python3 tools crates              tables as docs/architecture.md has them, one for each heading of crates.txt
    python3 tools crates --names      the names alone, under these headings

The sentence is the first one of the comment at the head of the crate's root file, the clause is the one there after
`Clause:`, and the rest is from crates.txt.
"""
import os
import re
from collections.abc import Iterator
from itertools import takewhile
from typing import NamedTuple

from tools import TOP
from tools.ending import Refusal
from tools.pages.antt import first_sentence

TELLER = "crates"
# crates that only test others promise nothing
NO_CLAUSE = "tests of crates"


class Crate(NamedTuple):
    """A crate: its name, the heading that it stands under, and what it stands on."""

    name: str
    heading: str
    below: list[str]
    sentence: str
    clause: str


def head_of(name: str, heading: str) -> tuple[str, str]:
    """The first sentence of the comment that a crate's root file begins with, and its clause."""
    places = [f"{TOP}/crates/{name}/src/{it}.rt" for it in ("lib", "main")]
    root = next((it for it in places if os.path.isfile(it)), None)
    if root is None:
        raise Refusal(f"crates.txt lists {name}, which has no root file")
    with open(root, encoding="utf-8") as file:
        lines = [line[3:].strip() for line in takewhile(lambda line: line.startswith("//!"), file)]
    said = [it.replace("\n", " ") for it in re.split(r"\n{2,}", "\n".join(lines))]
    clauses = [it.removeprefix("Clause: ") for it in said if it.startswith("Clause: ")]
    if len(clauses) != (0 if heading == NO_CLAUSE else 1):
        raise Refusal(f"{root} has {len(clauses)} lines '//! Clause:'")
    try:
        return first_sentence(said[0]), "".join(clauses)
    except Refusal as fault:
        raise Refusal(f"{root}: {fault}") from fault


def crates_of() -> list[Crate]:
    """All crates, the lowest first."""
    found: list[Crate] = []
    heading = ""
    with open(f"{TOP}/crates.txt", encoding="utf-8") as file:
        for line in file:
            if line.startswith("## "):
                heading = line[3:].strip()
                continue
            name, colon, below = line.partition("#")[0].partition(":")
            if not colon:
                continue
            name = name.split()[0]
            if not heading:
                raise Refusal(f"crates.txt has {name} under no heading")
            found.append(Crate(name, heading, below.split(), *head_of(name, heading)))
    names = [it.name for it in found]
    for place, it in enumerate(found):
        above = [name for name in it.below if name in names[place:]]
        if above:
            raise Refusal(f"crates.txt has {it.name} before {above[0]}, on which it stands")
    return found


def by_heading() -> dict[str, list[Crate]]:
    """The crates under each heading, both in the order of crates.txt."""
    found = crates_of()
    return {heading: [it for it in found if it.heading == heading] for heading in dict.fromkeys(it.heading for it in found)}


def cell(text: str) -> str:
    """A text as it stands in a table: without links, which end in the code's own pages."""
    return re.sub(r"\[(`[^`]*`)\](?:\([^)]*\))?", r"\1", text).replace("|", "\\|")


def tables() -> Iterator[str]:
    """A table for each heading."""
    for heading, under in by_heading().items():
        has_clauses = any(it.clause for it in under)
        yield from (f"### {heading[0].upper()}{heading[1:]}", "")
        columns = ["crate", "what it is for", *(["main clause"] if has_clauses else []), "stands on"]
        yield from (f"| {' | '.join(columns)} |", f"|{'---|' * len(columns)}")
        for it in under:
            below = ", ".join(f"`{name}`" for name in it.below) or "nothing"
            clause = f"{cell(it.clause[0].upper() + it.clause[1:])} | " if has_clauses else ""
            yield f"| `{it.name}` | {cell(it.sentence)} | {clause}{below} |"
        yield ""


def names() -> Iterator[str]:
    """The crates under each heading."""
    yield from ("| heading | crates |", "|---|---|")
    yield from (f"| {heading} | {', '.join(f'`{it.name}`' for it in under)} |" for heading, under in by_heading().items())


def main(*words: str) -> int:
    """Answers one call."""
    forms = {(): tables, ("--names",): names}
    if words not in forms:
        raise Refusal(f"no such words: {' '.join(words)}. There is --names")
    print("\n".join(forms[words]()).rstrip())
    return 0
