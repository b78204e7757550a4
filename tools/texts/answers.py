"""The answers of `core` and of `ask`: the certificates in them, and of which model each of them is.

An answer is read by its lines alone. Whether its certificates are right is for `verify` to say, which takes each of
them with the text of its model.
"""
import re
from bisect import bisect
from dataclasses import replace
from typing import NamedTuple

from tools.second.cores import with_axioms, without
from tools.second.models import Axiom, Model, ModelReader, Not
from tools.second.positions import is_decimal
from tools.second.tokens import tokens

END = "end"
# of each word of `ask` whether there is a world in which the formula holds, and one in which it does not
WORLDS = {"always": (True, False), "never": (False, True), "sometimes": (True, True), "vacuous": (False, False)}


class AnswerRefused(Exception):
    """The first line of an answer, counted from 1, that cannot stand there."""

    def __init__(self, line: int) -> None:
        super().__init__(f"answer refused at line {line}")


class Part(NamedTuple):
    """A certificate in an answer: the line above it, the number of its first line, its lines."""

    heading: str
    at: int
    lines: list[str]


class Core(NamedTuple):
    """An answer of `core`: the axioms of the set by their numbers, or none; the certificate of the set, or of the model
    where there is none, and then one for each axiom left out."""

    kept: list[int] | None
    parts: list[Part]


class Asked(NamedTuple):
    """An answer of `ask`: its word, the certificate of the model with the formula as an axiom, and that with its denial."""

    word: str
    parts: list[Part]


Answer = Core | Asked


def is_answer(data: bytes) -> bool:
    """Whether a text is an answer of `core` or of `ask`, if it is anything."""
    return data.startswith((b"core ", b"ask "))


def read_answer(data: bytes, model: Model) -> Answer:
    """The answer of a text, or the first line that is refused."""
    reader = AnswerReader(data)
    answer: Answer = reader.asked() if data.startswith(b"ask ") else reader.core(len(model.axioms))
    reader.expect(END)
    if reader.lines[reader.next :] or reader.rest:
        raise reader.refused()
    return answer


class AnswerReader:
    """Reads the lines of an answer one by one."""

    def __init__(self, data: bytes) -> None:
        *self.lines, self.rest = data.decode("latin-1").split("\n")
        self.next = 0

    def refused(self) -> AnswerRefused:
        return AnswerRefused(self.next + 1)

    def expect(self, *wanted: str) -> str:
        """The next line, which has to be one of these."""
        if self.lines[self.next : self.next + 1] not in [[line] for line in wanted]:
            raise self.refused()
        self.next += 1
        return self.lines[self.next - 1]

    def numbered(self, word: str, least: int, limit: int) -> int:
        """The number behind a word, which is the next line, from the least on and below a limit."""
        words = (self.lines[self.next] if self.next < len(self.lines) else "").split(" ")
        if len(words) != 2 or words[0] != word or not is_decimal(words[1]) or not least <= int(words[1]) < limit:
            raise self.refused()
        self.next += 1
        return int(words[1])

    def certificate(self, heading: str, is_observable: bool) -> Part:
        """A certificate, which is of this verdict by its first line and goes on to its `end`."""
        at = self.next
        self.expect("observable" if is_observable else "unobservable")
        while self.next < len(self.lines) and self.lines[self.next] != END:
            self.next += 1
        self.expect(END)
        return Part(heading, at + 1, self.lines[at : self.next])

    def core(self, count: int) -> Core:
        """An answer of `core` on a model of so many axioms, up to its last line."""
        if self.lines[:1] == ["core none"]:
            return Core(None, [self.certificate(self.expect("core none"), True)])
        size = self.numbered("core", 0, count + 1)
        kept: list[int] = []
        for _ in range(size):
            kept.append(self.numbered("axiom", kept[-1] + 1 if kept else 0, count))
        parts = [self.certificate(self.expect("refutation"), False)]
        return Core(kept, parts + [self.certificate(self.expect(f"without {number}"), True) for number in kept])

    def asked(self) -> Asked:
        """An answer of `ask`, up to its last line."""
        word = self.expect(*(f"ask {word}" for word in WORLDS)).split(" ")[1]
        holds, fails = WORLDS[word]
        return Asked(word, [self.certificate(self.expect("with"), holds), self.certificate(self.expect("against"), fails)])


class ModelOfPart(NamedTuple):
    """The model that a certificate is of. Places in it are places in `text`, which begins with the whole model, and
    behind it has the query from `query_at` on. `written` is a file that says the model."""

    model: Model
    text: bytes
    query_at: int
    written: bytes


def model_of(answer: Answer, part: Part, model: Model, text: bytes, query: bytes) -> ModelOfPart:
    """The model that a certificate of an answer is of. The query is one that is read beside the model without a fault."""
    if isinstance(answer, Core):
        kept = answer.kept
        if kept is None:
            return ModelOfPart(model, text, len(text), text)
        if part.heading.startswith("without "):
            kept = without(kept, int(part.heading.removeprefix("without ")))
        return ModelOfPart(with_axioms(model, kept), text, len(text), cut_text(model, text, kept))
    query_at = len(text) + 1
    written = tokens(text + b"\n" + query, start=query_at)
    formula = ModelReader(written).formula()
    if part.heading == "with":
        title, before, behind = b"query", b"", b""
    else:
        formula, title, before, behind = Not(formula), b"denial of the query", b"~(", b")"
    asked = replace(model, items=(*model.items, Axiom(written[0].at, title.decode("ascii"), formula)))
    said = b'\nAxiom "' + title + b'": ' + before + b"\n" + query + b"\n" + behind + b".\n"
    return ModelOfPart(asked, text + b"\n" + query, query_at, text + said)


def cut_text(model: Model, text: bytes, kept: list[int]) -> bytes:
    """The text of a model in which blanks stand in place of the other axioms, so that all places are as they were."""
    dots = [token.at for token in tokens(text) if token.piece == "."]
    left_out = set(range(len(model.axioms))).difference(kept)
    found = bytearray(text)
    for number, axiom in enumerate(model.axioms):
        if number in left_out:
            end = dots[bisect(dots, axiom.at)] + 1
            found[axiom.at : end] = re.sub(rb"[^\n]", b" ", text[axiom.at : end])
    return bytes(found)
