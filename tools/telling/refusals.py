"""Where a refused file has its fault, what could stand there, and which command reads the file."""
import os
import re
from typing import Iterator, NamedTuple

from tools.telling.files import row, sentence
from tools.telling.forms import Forms
from tools.telling.meant import meant
from tools.texts.contents import Unreadable, contents
from tools.texts.expecting import sentence_of, syntax_fault
from tools.texts.quoting import line_and_column, shown

# how much of a long line is shown, and what of it before the mark
MOST_SHOWN, FAR, BEFORE = 120, 100, 60
KINDS = {"model": ("MODEL",), "test": ("TEST", "FILE", "PATTERN"), "query": ("QUERY",)}
READERS = {
    "check": "check86 reads it", "check2": "check86 reads it", "verify": "verify86 reads it",
    "check86": "check reads it", "verify86": "verify reads it",
}
LISTING = re.compile(rb"[ \t]*X86[ \t]")
INSTRUCTION = re.compile(rb"[A-Z$]|(?:mov|xchg|mfence|lock|add|sub|inc|dec|cmp|xadd|xor|and|or|j)[a-z]*[ \t|;]")
OPERAND = re.compile(rb"(?:[|]|(?:MOV|mov)[^|]*,|LOCK|lock)[ \t]*$")


class Refusal(NamedTuple):
    """What the program refuses: a model, a test or a query, by the word of its fault, at a line and a column."""

    kind: str
    word: str
    line: int
    column: int

    @property
    def place(self) -> str:
        return f"{self.line}:{self.column}"


def refusal_of(said: str) -> Refusal:
    """From the line that the program writes."""
    _, kind, word, _, place = said.split()
    line, _, column = place.partition(":")
    return Refusal(kind, word, int(line), int(column))


def marked_line(data: bytes, line: int, column: int) -> Iterator[str]:
    """The line, or of a long one the part around the column, with a mark under the column. Each byte takes one column: `?` stands
    for those that are no printable ASCII."""
    start = column - BEFORE if column > FAR else 1
    lines = data.split(b"\n")
    text = lines[line - 1].removesuffix(b"\r")[start - 1:][:MOST_SHOWN] if line <= len(lines) else b""
    yield "    " + "".join(" " if it == 9 else chr(it) if 32 <= it < 127 else "?" for it in text)
    yield " " * (4 + column - start) + "^"


def place_of(top: str, path: str, data: bytes, refusal: Refusal) -> Iterator[str]:
    """The place in the form that editors jump to, the fault's sentence and the line."""
    yield f"{shown(path)}:{refusal.place}: {refusal.word}: {sentence(top, refusal.kind, refusal.word)}"
    yield from marked_line(data, refusal.line, refusal.column)


def begins_with(words: bytes, data: bytes) -> bool:
    """Whether a line begins with one of these words and what stands behind it."""
    return re.search(rb"^[ \t]*(?:" + words + rb')[ \t]+(?:"|[0-9])', data, re.MULTILINE) is not None


def expected(kind: str, data: bytes, refusal: Refusal) -> Iterator[str]:
    """What could stand at a fault of syntax of a model, a query, a test, a pattern or a listing."""
    fault = syntax_fault(kind, data)
    if fault is not None and line_and_column(data, fault.place) == refusal.place and sentence_of(fault):
        yield f"pipecheck: {sentence_of(fault)}"


def misplaced(kind: str, form: str, path: str, data: bytes) -> Iterator[str]:
    """That a file with a fault of tokens or of syntax is of another kind than this form asks for, where it is."""
    fault, pattern = (syntax_fault(it, data) for it in ("test", "pattern"))
    if kind == "test" and fault is not None and (pattern is None or pattern.place > fault.place):
        yield "pipecheck: a read with an open value makes this a pattern: sweep MODEL PATTERN"
    is_listing = LISTING.match(data) is not None
    if kind == "model" and (is_listing or begins_with(b"Litmus2?", data)):
        yield f"pipecheck: {shown(path)} is a {'listing' if is_listing else 'test'}, and stands for the model: {form}"
    if kind in ("test", "pattern", "listing") and begins_with(b"StageName|Axiom|DefineMacro", data):
        yield f"pipecheck: {shown(path)} is a model, and stands for the test: {form}"


def reader(word: str, path: str, data: bytes) -> Iterator[str]:
    """Which command reads the file, where it is a listing of herd's that a command for tests got, or a test that a command for
    listings got."""
    said = READERS.get(word, f"check86 and verify86 read it, and test86 writes it as a test, which {word} takes")
    is_listing = LISTING.match(data) is not None
    if word.endswith("86") and not is_listing and re.search(rb'^[ \t]*Litmus2?[ \t]*"', data, re.MULTILINE):
        yield f"pipecheck: {shown(path)} is a test of this project's: {said}"
    elif not word.endswith("86") and is_listing:
        yield f"pipecheck: {shown(path)} is a listing of herd's for X86: {said}"


def left_out(top: str, data: bytes, refusal: Refusal) -> Iterator[str]:
    """What to do about what of herd's stands at a fault of tokens or of syntax, where a listing here has no such thing."""
    if refusal.word in ("lexical", "syntax"):
        word = left_out_word(data, refusal)
        if word:
            yield f"pipecheck: {row(top, 'left out of a listing', word)}"


def left_out_word(data: bytes, refusal: Refusal) -> str:
    """The word that docs/faults.md has it by; nothing where it is something else."""
    lines = data.split(b"\n")
    line = lines[refusal.line - 1] if refusal.line <= len(lines) else b""
    before, rest = line[: refusal.column - 1], line[refusal.column - 1:]
    above = b"\n".join(lines[: refusal.line - 1])
    read = above + b"\n" + before
    begun = re.search(rb"^[ \t\r]*[{]", read, re.MULTILINE)
    is_ended = begun is not None and b"}" in read[begun.start() :]
    # whether the last line before this one that has something ends with a semicolon
    is_closed = above.rstrip(b" \t\r\n").endswith(b";")
    is_header = re.match(rb'[A-Za-z][A-Za-z0-9_]*[ \t]+[^ \t"]+[ \t\r]*$', rest) is not None
    if refusal.place == "1:1" and is_header and not re.match(rb"X86[ \t]", rest):
        return "AArch64"
    for word in ("locations", "filter", "forall", "\\/"):
        if rest.startswith(word.encode()):
            return word
    if re.match(rb"not|true", rest) or re.search(rb"(?:^|[ \t(~])(?:not|true)[ \t]*$", before):
        return "not"
    if begun is not None and not is_ended:
        if re.match(rb"[0-9]+[ \t]*:", rest):
            return "0:EAX=1"
        if re.search(rb"(?:^|[{;])[ \t]*[A-Za-z][A-Za-z0-9_ \t]*[ \t*]+$", before):
            return "int x=1"
        return "x;" if re.match(rb"[;}]", rest) else ""
    is_instruction = INSTRUCTION.match(rest) is not None
    is_operand = re.match(rb"[%(a-z]", rest) is not None
    if is_ended and (is_instruction or is_operand) and OPERAND.search(before):
        return "XCHG"
    return "XCHG" if is_ended and is_instruction and is_closed and not before.strip(b" \t") else ""


def told(top: str, said: str, words: list[str], called: str = "") -> Iterator[str]:
    """Where the file that the program refuses by this line has its fault, where it was called by these words, or by another word.
    It may have gone meanwhile, or be no more to be read."""
    try:
        yield from lines_of(top, said, words, called or words[0])
    except Unreadable as gone:
        yield f"pipecheck: {gone}"


def lines_of(top: str, said: str, words: list[str], called: str) -> Iterator[str]:
    """The same of a file that is there."""
    refusal = refusal_of(said)
    kinds, asked = Forms(top).kinds_of([called, *words[1:]]), refusal.kind
    if asked == "test":
        asked = "listing" if words[0].endswith("86") else "pattern" if words[0] == "sweep" else asked
    for kind, path in zip(kinds, words[1:]):
        if kind in KINDS[refusal.kind] and os.path.isfile(path):
            data = contents(path)
            yield from place_of(top, path, data, refusal)
            if refusal.word == "syntax":
                yield from expected(asked, data, refusal)
            if refusal.word in ("lexical", "syntax"):
                yield from misplaced(asked, " ".join([called, *kinds]), path, data)
            if refusal.kind != "test":
                yield from meant(top, refusal.word, data, refusal.place, contents(words[1]))
            if asked == "listing":
                yield from left_out(top, data, refusal)
            if refusal.kind == "test":
                yield from reader(words[0] if asked == "listing" else called, path, data)
            return
