"""What is said of a file, in the words of the model: a certificate, or an answer of `core` or of `ask`. Each certificate has to be
one that a judge accepted."""
from itertools import chain
from pathlib import Path
from typing import Iterator

from tools.explain.lifted_refutations import LiftedRefutation
from tools.explain.refutations import Refutation
from tools.explain.runs import Run
from tools.second.cases import Case
from tools.second.lifted import LIFTED
from tools.second.models import Model
from tools.second.queries import read_query
from tools.second.scopes import read_model
from tools.texts.answers import Answer, Asked, Core, Part, is_answer, model_of, read_answer
from tools.texts.naming import Names, case_with_names
from tools.texts.origins import TracedPositions
from tools.texts.quoting import shown
from tools.texts.wrapping import width_of_output, within

VERDICTS = {"observable": "a run of this model shows the outcome", "unobservable": "no run of this model shows the outcome"}
WORDS = {
    "always": "the query holds in all worlds of the model on this test, and there are some",
    "never": "the query holds in no world of the model on this test, and there are some",
    "sometimes": "the query holds in some worlds of the model on this test, and in some it does not",
    "vacuous": "the model has no world on this test: it forbids the outcome",
}
ADDED = {"with": "the query", "against": "the denial of the query"}


def explain_files(
    model_name: str, model_path: str, test_path: str, certificate_path: str, query_path: str = "", query_name: str = ""
) -> Iterator[str]:
    """The lines that are said of the certificate or answer, which judges have accepted, as wide as the output may be. An answer
    of `ask` has a query beside it. The model is called by its name, and so is the query where it has one."""
    text, data, width = Path(model_path).read_bytes(), Path(certificate_path).read_bytes(), width_of_output()
    model, case = read_model(text), case_with_names(test_path, Path(test_path).read_bytes())
    if is_answer(data):
        query = Path(query_path).read_bytes() if query_path else b""
        lines = explain_answer(model, case, text, model_name, read_answer(data, model), query, query_name or query_path, width)
    else:
        lines = explain(model, case, text, model_name, data.decode("ascii").split("\n")[:-1], width)
    return within(lines, width)


def parts_of(model: Model, text: bytes, answer: Answer, query: bytes) -> Iterator[tuple[int, int, bytes, bytes]]:
    """Of each certificate in an answer the number of its first line, the status that `verify` has to end with, the
    model that it is of and its own text. Of `ask` the query is read first, which may have a fault."""
    if isinstance(answer, Asked):
        read_query(query, model)
    for part in answer.parts:
        written = model_of(answer, part, model, text, query).written
        certificate = "".join(f"{line}\n" for line in part.lines).encode("latin-1")
        yield part.at, 0 if part.lines[0] == "observable" else 1, written, certificate


def explain(model: Model, case: Case, model_text: bytes, model_name: str, certificate: list[str], width: int) -> Iterator[str]:
    """The lines that are said of the lines of a certificate: the verdict, the key, what places are of, and the rest."""
    names = Names(model, case, model_text)
    verdict = [f"{certificate[0]}: {VERDICTS[certificate[0]]}", certificate[1], ""]
    places = ["", f"Places are lines and columns of {shown(model_name)}.", ""]
    # what is too large is so before a line is written
    said = body(model, case, names, certificate, width)
    return chain(verdict, key(case, names), places, said)


def body(model: Model, case: Case, names: Names, certificate: list[str], width: int) -> Iterator[str]:
    """What is said of the lines of a certificate after the second one."""
    if certificate[2] == LIFTED:
        return LiftedRefutation(model, case, names, certificate[3:-1], width).lines()
    positions = TracedPositions(model, case)
    if certificate[0] == "observable":
        return Run(model, case, names, positions, certificate[2:-1], width).lines()
    return Refutation(names, positions, certificate[2:-1], width).lines()


def key(case: Case, names: Names) -> Iterator[str]:
    """The micro-ops of the test, and what it states besides."""
    yield "The micro-ops of the test:"
    for k, op in enumerate(case.ops):
        types = f" {' '.join(sorted(op.types))}" if op.types else ""
        if op.pa is None:
            doing = f"fence{types}"
        else:
            doing = f"{op.access.lower()}s {names.page(op.pa)} = {op.value}{f' ({types[1:]})' if types else ''}"
        yield f"  {names.microop(k)} core {op.core} {doing}"
    for kind, start, end in sorted(case.dependencies, key=lambda one: (*one[1:], one[0])):
        yield f"  {kind} dependency from {names.microop(start)} to {names.microop(end)}"
    for word, values in (("at the start", case.initial), ("at the end", case.final)):
        yield from (f"  {word} {names.page(page)} = {value}" for page, value in values.items())
    called = [f"[{name}] is {page}" for page, name in names.pages.items() if name != str(page)]
    if called:
        yield "  " + ", ".join(called)


def explain_answer(
    model: Model, case: Case, model_text: bytes, model_name: str, answer: Answer, query: bytes, query_name: str, width: int
) -> Iterator[str]:
    """The lines that are said of an answer: what it says, the key, what places are of, and each certificate. That of `ask` has a
    query with its name."""
    names = Names(model, case, model_text)
    if isinstance(answer, Core):
        yield from core_heading(model, names, answer)
    else:
        yield f"ask {answer.word}: {WORDS[answer.word]}"
    yield ""
    yield from key(case, names)
    yield ""
    more = f"; a place `query LINE:COLUMN` is one of {shown(query_name)}" if query_name else ""
    yield f"Places are lines and columns of {shown(model_name)}{more}."
    for part in answer.parts:
        said = model_of(answer, part, model, model_text, query)
        yield from ("", verdict(model, names, answer, part), part.lines[1], "")
        yield from body(said.model, case, Names(said.model, case, said.text, said.query_at), part.lines, width)


def core_heading(model: Model, names: Names, answer: Core) -> Iterator[str]:
    """The axioms of a core, by their numbers, titles and places."""
    if answer.kept is None:
        yield "core none: no axioms forbid the outcome, since a run of the model shows it"
        return
    yield f"core {len(answer.kept)}: these axioms alone forbid the outcome, and without any one of them the others allow it"
    for number in answer.kept:
        axiom = model.axioms[number]
        yield f'  axiom {number}: "{axiom.title}" at {names.place(axiom.at)}'


def verdict(model: Model, names: Names, answer: Answer, part: Part) -> str:
    """The line above a certificate, with what it is of."""
    if not isinstance(answer, Core):
        a_run = "a run" if part.lines[0] == "observable" else "no run"
        return f"{part.heading}: {a_run} of the model with {ADDED[part.heading]} as one more axiom shows the outcome"
    word, *number = part.heading.split(" ")
    if answer.kept is None:
        return f"{part.lines[0]}: {VERDICTS[part.lines[0]]}"
    if word == "refutation":
        return "refutation: no run of these axioms alone shows the outcome"
    axiom = model.axioms[int(number[0])]
    return f"{part.heading}: a run of the others without {names.axiom(axiom)} shows the outcome"
