"""What the suite writes: its table to standard output, and the rest to standard error. Tables have columns of their width with two
blanks between, and lines without blanks at their ends."""
import io
import os
import shutil
import sys
from typing import Sequence

from tools.ending import Refusal


class Unread(Exception):
    """The reader of standard output has enough, as `head` has: there is nothing to say."""


def open_streams() -> None:
    """Has both streams write names as the system has them. No file of the suite gets the number of a closed one, nor
    does one of what it calls."""
    for number in range(3):
        try:
            os.fstat(number)
        except OSError:
            # it gets the lowest number that is free, and what is called gets it too
            os.set_inheritable(os.open(os.devnull, os.O_RDWR), True)
    for stream in (sys.stdout, sys.stderr):
        if isinstance(stream, io.TextIOWrapper):
            stream.reconfigure(encoding=sys.getfilesystemencoding(), errors="surrogateescape")


def put(lines: Sequence[str]) -> None:
    """Writes lines to standard output, or says that it got not all of them."""
    sentence = "standard output could not be written: what it got is not the whole answer"
    # Python has none where it was closed
    if sys.stdout is None:
        raise Refusal(sentence)
    try:
        print(*lines, sep="\n", flush=True)
    except BrokenPipeError as error:
        close(sys.stdout.fileno())
        raise Unread from error
    except OSError as error:
        close(sys.stdout.fileno())
        raise Refusal(sentence) from error


def tell(text: str, end: str = "\n") -> None:
    """Writes to standard error. That nobody reads it changes no status."""
    try:
        if sys.stderr is not None:
            print(text, end=end, file=sys.stderr, flush=True)
    except OSError:
        close(sys.stderr.fileno())


def close(number: int) -> None:
    """Nothing more is written to a stream when Python ends."""
    os.dup2(os.open(os.devnull, os.O_WRONLY), number)


class Progress:
    """How many of so many are done, on a terminal that shows what is said."""

    def __init__(self, count: int, is_shown: bool = True) -> None:
        self.count = count
        self.done = 0
        self.is_shown = is_shown and sys.stderr is not None and sys.stderr.isatty()

    def step(self) -> None:
        self.done += 1
        if self.is_shown:
            tell(f"\r{self.done} of {self.count}", end="")

    def end(self) -> None:
        """The line is empty again."""
        if self.is_shown:
            tell(f"\r{'':20}\r", end="")


def aligned(rows: Sequence[Sequence[str]]) -> list[str]:
    widths = [max(map(len, column)) for column in zip(*rows)]
    return ["  ".join(cell.ljust(width) for cell, width in zip(row, widths)).rstrip(" ") for row in rows]


def table_of_models(models: Sequence[str], rows: Sequence[Sequence[str]], width: int | None) -> list[str]:
    """A row for each test with the cells of the models, which get numbers and a key above where the terminal is narrower."""
    lines = aligned([["test", *models], *rows])
    if width is None or max(map(len, lines)) <= width:
        return lines
    numbers = [str(number) for number in range(1, len(models) + 1)]
    return aligned(list(zip(numbers, models))) + aligned([["test", *numbers], *rows])


def width_of_terminal() -> int | None:
    """How many columns the terminal has that the table goes to; None where it goes to something else."""
    is_terminal = sys.stdout is not None and sys.stdout.isatty()
    return shutil.get_terminal_size((0, 0)).columns or None if is_terminal else None
