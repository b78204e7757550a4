"""Writes what the script `pipecheck` says of words, of files and of refusals.

    python3 tools telling forms [WORD]            the forms of all commands, or of one
    python3 tools telling misuse WORD..           that these words are no command
    python3 tools telling unreadable FILE..       which of these files can't be opened
    python3 tools telling refusal LINE WORD..     where a file of these words has the fault that the program's line names
    python3 tools telling unread                  says nothing; the status is 0 where nobody reads standard output, a pipe, any more
"""
import select
from typing import Iterator

from tools import TOP
from tools.telling.files import unreadable
from tools.telling.forms import Forms


def lines(what: str, words: list[str]) -> Iterator[str]:
    if what == "forms":
        yield from Forms(TOP).lines(*words)
        if words == ["agree"]:
            # it takes longer to load than all else here
            from tools.agree.main import parser

            yield ""
            yield from parser().format_help().splitlines()
    elif what == "misuse":
        yield from Forms(TOP).misuse(words)
    elif what == "unreadable":
        yield from unreadable(words)
    else:
        # so does this
        from tools.telling.refusals import told

        yield from told(TOP, words[0], words[1:])


def is_unread() -> bool:
    """Whether nobody reads standard output, a pipe, any more. Nothing is written to find that."""
    output = select.poll()
    output.register(1, 0)
    # without a reader, and else nothing is told
    return bool(output.poll(0))


def main(what: str, *words: str) -> int:
    if what == "unread":
        return 0 if is_unread() else 1
    for line in lines(what, list(words)):
        print(line)
    return 0
