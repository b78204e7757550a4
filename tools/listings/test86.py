"""Writes the test that a listing of herd's for X86 says, so that each command takes it.

    python3 tools test86 FILE

Of what `check86` does not read, it reads what changes no question, and says on standard error what that is, or where a refused
listing has its fault. docs/faults.md has the exit statuses.
"""
import os

from tools import TOP
from tools.listings.programs import Loaded, Program
from tools.listings.reading import Beyond, Notes
from tools.second.cases import Page
from tools.second.tokens import Fault
from tools.suite.telling import tell
from tools.telling.refusals import left_out, place_of, refusal_of
from tools.texts.contents import contents, read_within
from tools.texts.quoting import line_and_column, line_of
from tools.texts.writing_tests import notes as comments
from tools.texts.writing_tests import test_of_listing, within_limit

TELLER = "pipecheck"


def test_of(data: bytes, notes: Notes) -> str:
    """The test that a listing says: as `check86` reads it, or else as herd does. The fault is that of `check86` where
    nothing was read beyond it."""
    try:
        return read_within(test_of_listing, data)
    except Fault as fault:
        if fault.word == "too-large":
            raise
        try:
            return test_of_herd(data, notes)
        except Fault as other:
            raise other if notes.places else fault from None


def test_of_herd(data: bytes, notes: Notes) -> str:
    """The text of the test that a listing says, or the listing's first fault. What is read of it beyond `check86` is noted."""
    program = Program(data, notes)
    if program.reloads:
        raise Fault("x86-reload", program.reloads[0].at)
    lines = program.lines(*outcome_of(program, notes))
    above = (line.removeprefix("(*").removesuffix("*)").strip() for line in comments(data, program.written.start))
    return within_limit(program.written.title, filter(None, above), lines)


def outcome_of(program: Program, notes: Notes) -> tuple[dict[int, int], dict[Page, int]]:
    """The one outcome that the condition states, or its first fault: what the reads get, by their numbers, and final values."""
    reads: dict[int, int] = {}
    finals: dict[Page, int] = {}
    for variable, value, token in program.condition.equations():
        held = program.registers.get(variable, 0)
        if variable.thread is None:
            location = program.locations[variable.name]
            if location in finals:
                raise Fault("again-final", token.at)
            finals[location] = value
        elif isinstance(held, Loaded):
            # a register that was loaded has one value
            if held.op in reads:
                raise Fault("x86-again", token.at)
            reads[held.op] = value
        elif held == value and variable.thread < len(program.written.head):
            notes.note(Beyond.UNLOADED, token.at)
        else:
            raise Fault("x86-unloaded", token.at)
    loaded = (held for held in program.registers.values() if isinstance(held, Loaded))
    unknown = [held.token.at for held in loaded if held.op not in reads]
    if unknown:
        raise Fault("x86-open", min(unknown))
    return reads, finals


def main(path: str) -> int:
    """Writes the test, with what was read beyond `check86`, or the refusal of the listing."""
    data, notes = contents(path), Notes()
    try:
        text = test_of(data, notes)
    except Fault as fault:
        said = f"refused test {fault.word} at {line_and_column(data, fault.place)}"
        print(said, flush=True)
        refusal = refusal_of(said)
        # in what can be read only once there is no place to go to
        for line in [*place_of(TOP, path, data, refusal), *left_out(TOP, data, refusal)] if os.path.isfile(path) else ():
            tell(line)
        return 3
    print(text, end="")
    for place, sentence in notes.lines():
        tell(line_of(path, data, place, sentence))
    return 0
