"""Lines within a width: how wide they may be, how far in they may begin, and where a long one is broken."""
import re
import shutil
import textwrap
from typing import Iterable, Iterator

# the width where neither COLUMNS nor a terminal says one, and the least that is kept to
USUAL_WIDTH = 100
LEAST_WIDTH = 20
# stands before the words that say where something comes from; a long line is broken there first
GAP = "   "
STEP = 2
# how much further in the rest of a long line stands
FURTHER = 4
# an order of two nodes, and a fact by its number: no line is broken inside, if it need not be
NODE = r"(?:\(\w+, \w+\)\S*|\S+)"
WHOLE = re.compile(rf"(?<!\S)(?<! before ){NODE} before {NODE}(?!\S)(?! before )|\bfact \d+")
BOUND = "\x1f"
# No line begins further in than this. The facts below a split, and the rest of a long one, stand further in than a branch does.
MOST_INDENT = 40


def width_of_output() -> int:
    """How wide a line may be: what COLUMNS says, or else the terminal that standard output is, or else the usual width."""
    return max(LEAST_WIDTH, shutil.get_terminal_size((USUAL_WIDTH, 1)).columns)


def indent(level: int, width: int) -> str:
    """What stands before a line of a branch at this level, with room for what stands below it."""
    most = min(MOST_INDENT, width // 2) - 2 * STEP - FURTHER
    return " " * min(STEP * level, most - most % STEP)


def within(lines: Iterable[str], width: int) -> Iterator[str]:
    """The lines, each of them broken where it is too wide."""
    for line in lines:
        yield from [line] if len(line) <= width else broken(line, width)


def broken(line: str, width: int) -> Iterator[str]:
    """The parts of a line that is too wide: broken before what says where something comes from, and then between words."""
    text = line.lstrip(" ")
    first = line[: len(line) - len(text)]
    rest = " " * min(len(first) + FURTHER, width // 2)
    room = width - len(rest)
    text = WHOLE.sub(lambda found: found[0].replace(" ", BOUND) if len(found[0]) <= room else found[0], text)
    for number, part in enumerate(text.split(GAP)):
        begins = rest if number else first
        lines = textwrap.wrap(part, width, initial_indent=begins, subsequent_indent=rest, break_on_hyphens=False)
        yield from (one.replace(BOUND, " ") for one in lines)
