"""The program that a suite calls: that of the checkout, of the installed copy, or another one that PIPECHECK names."""
import os
import shlex
import shutil
import tempfile
from typing import Mapping

from tools import standing
from tools.ending import Refusal
from tools.suite.calling import Calls, memory_limit, said_by, side_by_side
from tools.suite.files import digest_of
from tools.suite.pairs import Checker
from tools.texts.quoting import quoted, shown

# the status of the program without words
BAD_WORDS = 2
# a binary stands for itself; a script may call what changes
BINARY = b"\x7fELF"


def checker_of(environ: Mapping[str, str], top: str, seconds: float, calls: Calls) -> Checker:
    """The program that stands, which is made first where none does, if PIPECHECK names none."""
    value = environ.get("PIPECHECK", "")
    said = ""
    if value:
        command = command_of(value)
    else:
        found = standing_program(top, calls)
        command, said = [held(found.path)], found.said
    memory = environ.get("PIPECHECK_MEMORY", "")
    checker = Checker(command, memory_limit(memory), seconds, calls, said)
    if not is_checker(checker):
        if memory and is_checker(Checker(command, memory_limit(""), seconds, calls)):
            raise Refusal(f"PIPECHECK_MEMORY is {memory} MiB, and the program takes more to start")
        raise Refusal(f"no checker: {' '.join(map(quoted, command))}")
    return checker


def command_of(value: str) -> list[str]:
    """The words of PIPECHECK: one file where there is a file of this name, and otherwise words as a shell takes them
    apart, with its quotes and backslashes; nothing in them is replaced."""
    if os.path.isfile(value):
        return [os.path.abspath(value)]
    try:
        words = shlex.split(value)
    except ValueError as error:
        raise Refusal(f"PIPECHECK is no command: {error}: {quoted(value)}") from error
    if not words or not words[0]:
        raise Refusal(f"PIPECHECK is no command: {quoted(value)}")
    return words


def standing_program(top: str, calls: Calls) -> standing.Standing:
    """The program of the sources that are here, which is made where it is not there."""
    status, said = said_by(calls, standing.command(top))
    if status != 0:
        raise Refusal(f"there is no program to call in {shown(top)}")
    return standing.read_standing(said)


def held(program: str) -> str:
    """A path by which all calls of this process get the file that is there now, whatever takes its place meanwhile."""
    path = f"/proc/{os.getpid()}/fd/{os.open(program, os.O_RDONLY)}"
    return path if os.access(path, os.X_OK) else program


def is_checker(checker: Checker) -> bool:
    """Whether a program answers a call without words as a checker does."""
    with tempfile.TemporaryFile() as out:
        (status,) = side_by_side(checker.calls, 1, [lambda: checker.status([], out)])
    return status == BAD_WORDS


def program_digest(command: list[str]) -> str:
    """The hash of the program; empty where it is more than one binary."""
    place = shutil.which(command[0]) if len(command) == 1 else None
    if place is None:
        return ""
    try:
        with open(place, "rb") as file:
            text = file.read()
    except OSError:
        return ""
    return digest_of(text) if text.startswith(BINARY) else ""
