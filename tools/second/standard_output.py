"""Standard output of a command of the script, which may fail; and the exit status that a command ends with."""
import io
import os
import signal
import sys
import traceback
from typing import Callable

UNREAD = 4
UNWRITTEN = 5
FAILED = 125
# how deep formulas may nest
DEPTH = 20_000


class Unwritten(Exception):
    """Standard output could not be written."""


class Output(io.TextIOWrapper):
    """Standard output: that it fails is told apart from all other faults. Names of files need not be UTF-8."""

    def __init__(self) -> None:
        raw = open(1, "wb", closefd=False)  # pylint: disable=consider-using-with
        super().__init__(raw, encoding=sys.getfilesystemencoding(), errors="surrogateescape")

    def write(self, text: str) -> int:
        try:
            return super().write(text)
        except OSError as error:
            raise Unwritten from error

    def flush(self) -> None:
        try:
            super().flush()
        except OSError as error:
            raise Unwritten from error


def status_of(call: Callable[[], int]) -> int:
    """Calls a command. The status is its own, UNWRITTEN where standard output is closed or does not take
    all of it, and FAILED where the command fails: Python's own status for that is 1, which is an answer here."""
    sys.setrecursionlimit(DEPTH)
    # a reader that goes away ends this program quietly, as other filters do
    signal.signal(signal.SIGPIPE, signal.SIG_DFL)
    # Python has none where it is closed; the next file that is opened would get its number
    if sys.stdout is None:
        return UNWRITTEN
    sys.stdout = Output()
    try:
        status = call()
        sys.stdout.flush()
        return status
    except Unwritten:
        # what is left in the buffer must not fail once more at the end
        os.dup2(os.open(os.devnull, os.O_WRONLY), 1)
        return UNWRITTEN
    except OSError as error:
        # what the system refuses is told in its own words
        name = os.path.basename(sys.argv[0]).removesuffix(".py")
        print(f"{name}: {error.filename + ': ' if error.filename else ''}{error.strerror}", file=sys.stderr)
        return FAILED
    except Exception:  # pylint: disable=broad-exception-caught
        traceback.print_exc()
        return FAILED
