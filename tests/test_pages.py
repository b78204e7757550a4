"""Each command that a page shows after `$` prints what the page shows under it, and a page has what scripts write into it.

What a tool writes (`renew`) is compared with what it writes now. A line `...` of a page stands for any lines, `in N s` for
any number of seconds, and `certificates: ...` for any folder. A file that a page says to write (the words: into a file `NAME`) has
the text of the next block.
"""
from __future__ import annotations

import glob
import os
import re
import textwrap
from dataclasses import dataclass
from functools import partial
from typing import Callable, Iterator

from tests.cases import PATIENCE, TOP, Cases, pipecheck, read, run, without_proofs, write

from tools.ending import Refusal
from tools.pages.renew import MADE_PART, written_by

# in a page that shows something
SHOWS = re.compile(r"^ *\$ |^<!-- python3 ", re.M)
ANY = {"...\n": "(?:.*\n)*", "in N s": r"in \d+ s", "certificates: ...\n": "certificates: .*\n"}
PART = re.compile("(^\\.\\.\\.\n|in N s|^certificates: \\.\\.\\.\n)", re.M)
# a row after a line that is none, with no rule under it
CUT_TABLE = re.compile(r"(?<!\|\n)^\|.*\n(?!\|[-:| ]+\|$)", re.M)
TO_WRITE = re.compile(r"into a\s+file `([^`]+)`")


@dataclass(frozen=True)
class Shown:
    """What a page shows: the name of the case, how it is found what is there now, and the pattern that it has to match."""

    name: str
    find: Callable[[], str]
    pattern: str

    def is_there(self) -> bool:
        """Whether it is what is there."""
        return re.fullmatch(self.pattern, self.find()) is not None


def blocks(text: str) -> Iterator[tuple[str, str]]:
    """The blocks of a page, without the indent of a list, each with the text between it and the one before."""
    parts = re.split(r"^ *```\w*\n", text, flags=re.M)
    return zip(parts[0::2], map(textwrap.dedent, parts[1::2]))


def pattern_of(shown: str) -> str:
    """What the output has to match."""
    return "".join(ANY.get(part, re.escape(part)) for part in PART.split(shown))


def printed(command: str, folder: str) -> str:
    """What a command prints in this folder."""
    env = {"COLUMNS": None, "SUITE_FOLDER": f"{folder}/.suite", "SUITE_SECONDS": str(PATIENCE)}
    return without_proofs(run(["bash", "-c", command], cwd=folder, env=env)).out


def shown_by(page: str, folder: str, top: str = TOP) -> list[Shown]:
    """All that a page shows, which is not nothing. Its files are written to the folder, in which its commands run."""
    name, text, written, found = os.path.basename(page), read(page), set(), []
    for command, shown in MADE_PART.findall(text):
        found.append(Shown(f"{name} has what {command} writes", partial(written_by, top, command), re.escape(shown)))
    for before, block in blocks(text):
        named = TO_WRITE.search(before)
        if named and named[1] not in written:
            written.add(named[1])
            write(f"{folder}/{named[1]}", block)
        if block.startswith("$ "):
            command, shown = block[2:].split("\n", 1)
            found.append(Shown(f"{name} shows {command}", partial(printed, command, folder), pattern_of(shown)))
    if not found:
        raise Refusal(f"{name} shows nothing")
    return found


class Pages(Cases):
    """In a folder that has the program, the examples and the tests."""

    def test_tables(self) -> None:
        for page in sorted(glob.glob(f"{TOP}/*.md") + glob.glob(f"{TOP}/docs/*.md")):
            self.same(f"no line cuts a table of {os.path.relpath(page, TOP)} in two", [], CUT_TABLE.findall(read(page)))

    def test_pages(self) -> None:
        os.symlink(pipecheck(), f"{self.work}/pipecheck")
        for folder in ("examples", "tests", "tools"):
            os.symlink(f"{TOP}/{folder}", f"{self.work}/{folder}")
        for page in ("README.md", *sorted(glob.glob("docs/*.md", root_dir=TOP))):
            found = shown_by(page, self.work) if SHOWS.search(read(page)) else []
            # a command may take what one before it left
            for it in found if any(self.is_wanted(it.name) for it in found) else []:
                with self.case(it.name):
                    self.assertRegex(it.find(), rf"\A(?:{it.pattern})\Z")
