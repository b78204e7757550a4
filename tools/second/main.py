"""A second judge of models, tests and certificates, apart from the proved program and sharing no code with it.

    python3 tools second WORD FILE..           what the program says to these words: all of its commands but `gen` (commands.txt)
    python3 tools second dimacs MODEL TEST     the question for a SAT solver
    python3 tools second smt MODEL TEST        the question for an SMT solver

All text goes to standard output, in the lines and with the exit statuses that the program has (docs/faults.md); 125 is
where this program itself fails, say since two ways to a verdict do not agree. A verdict is found in two ways, by a
search of its own and by one that makes the program's choices and gives the text; they have to agree, and each
certificate is judged before it is written. `sweep` takes its own search alone.
"""
import sys
from functools import partial
from typing import Any, Callable, TextIO, TypeVar

from tools.second.answering import Graph, Step, answer, shortened
from tools.second.cases import Case, read_case
from tools.second.cores import minimal_set, with_axioms, without
from tools.second.grounding import ground
from tools.second.judging import Refused as CertificateRefused
from tools.second.judging import VERSION_2, judge, second_line
from tools.second.lifted import judge_lifted
from tools.second.lifting import lifted_text
from tools.second.listings import read_listing
from tools.second.models import Formula, Model, Not
from tools.second.patterns import read_pattern, sweep, sweep_text
from tools.second.positions import Clash, Positions
from tools.second.queries import InModel, read_query, with_axiom
from tools.second.scopes import read_model
from tools.second.searching import is_observable
from tools.second.solvers import dimacs, smtlib
from tools.second.tokens import Fault

Read = TypeVar("Read")
# a text, and the exit status
Answer = tuple[str, int]
LIMIT = 1_048_576


class Refused(Exception):
    """A file has a fault: the line that says so."""


def file_bytes(kind: str, path: str) -> bytes:
    with open(path, "rb") as file:
        data = file.read(LIMIT + 1)
    if len(data) > LIMIT:
        raise Refused(f"refused {kind} too-large at 1:1")
    return data


def judged(kind: str, read: Callable[[bytes], Read], data: bytes, model_data: bytes = b"") -> Read:
    """What a reader makes of the bytes, or the refusal by their fault, whose place is told by line and column: in those of the
    model where the fault of a query is there."""
    try:
        return read(data)
    except Fault as fault:
        kind, data = ("model", model_data) if isinstance(fault, InModel) else (kind, data)
        lines = data[: fault.place].split(b"\n")
        raise Refused(f"refused {kind} {fault.word} at {len(lines)}:{len(lines[-1]) + 1}") from fault


def certificate(model: Model, case: Case, version: int) -> str:
    """The text of the answer, a refutation in this version."""
    positions = Positions(model, case)
    found = answer(positions, version)
    words = positions.words
    if isinstance(found, Graph):
        body = [f"node {words[k]}" for k in found.nodes]
        body += [f"edge {words[start]} {words[end]}" for start, end in found.edges]
    else:
        body = [VERSION_2] if version == 2 else []
        steps = shortened(positions, found, version) if found else []
        body += [step_line(step, words) for step in steps] or ["false"]
    verdict = "observable" if isinstance(found, Graph) else "unobservable"
    return "\n".join([verdict, second_line(isinstance(found, Graph), case), *body, "end", ""])


def step_line(step: Step, words: list[str]) -> str:
    if isinstance(step, Clash):
        return " ".join([step.word, *(words[k] for k in step.nodes)])
    position, is_denied = step
    return f"split {'~' if is_denied else ''}{position}"


def check(model: Model, case: Case, version: int = 1) -> Answer:
    verdict = is_observable(model, case)
    text = certificate(model, case, version)
    if judge(model, case, text.encode("ascii")) is not verdict:
        raise AssertionError("the two searches differ")
    return text, 0 if verdict else 1


def core(model: Model, case: Case) -> Answer:
    """A minimal set of axioms that forbid the outcome, with the certificates that `check` writes of them."""
    kept = minimal_set(model, case)
    if kept is None:
        return f"core none\n{check(model, case)[0]}end\n", 0
    text = f"core {len(kept)}\n" + "".join(f"axiom {number}\n" for number in kept)
    text += f"refutation\n{check(with_axioms(model, kept), case)[0]}"
    for number in kept:
        text += f"without {number}\n{check(with_axioms(model, without(kept, number)), case)[0]}"
    return f"{text}end\n", 0


def ask(model: Model, case: Case, formula: Formula) -> Answer:
    """In which worlds that satisfy the model the formula holds, with the certificates that `check` writes where it is
    an axiom more, and where its denial is."""
    added, holds_nowhere = check(with_axiom(model, formula), case)
    against, fails_nowhere = check(with_axiom(model, Not(formula)), case)
    word = {(0, 0): "sometimes", (0, 1): "always", (1, 0): "never", (1, 1): "vacuous"}[holds_nowhere, fails_nowhere]
    return f"ask {word}\nwith\n{added}against\n{against}end\n", 0


def judgement(word: str, model: Model, case: Case, data: bytes) -> Answer:
    """What `verify`, `verify-lifted` or `lift` says of a certificate. A refutation of version 1 is lifted by `lift`."""
    try:
        if word == "verify-lifted":
            judge_lifted(model, case, data)
        elif judge(model, case, data, takes_version_2=word == "verify"):
            return "verified observable\n", 0
    except CertificateRefused as refused:
        return f"{refused}\n", 6
    if word != "lift":
        return "verified unobservable\n", 1
    text = lifted_text(model, case, data.decode("ascii").split("\n")[2:-2])
    judge_lifted(model, case, text.encode("ascii"))
    return text, 0


# of each command how many files it takes, how the second one is read, and what answers
COMMANDS: dict[str, tuple[int, Callable[[bytes], Any], Callable[..., Answer]]] = {
    "check": (2, read_case, check),
    "check2": (2, read_case, lambda model, case: check(model, case, 2)),
    "check86": (2, read_listing, check),
    "core": (2, read_case, core),
    "sweep": (2, read_pattern, lambda model, pattern: (sweep_text(sweep(model, pattern)), 0)),
    "dimacs": (2, read_case, lambda model, case: (dimacs(ground(model, case)), 0)),
    "smt": (2, read_case, lambda model, case: (smtlib(ground(model, case)), 0)),
    "ask": (3, read_case, ask),
    "verify": (3, read_case, partial(judgement, "verify")),
    "verify86": (3, read_listing, partial(judgement, "verify")),
    "verify-lifted": (3, read_case, partial(judgement, "verify-lifted")),
    "lift": (3, read_case, partial(judgement, "lift")),
}


def answered(word: str, paths: list[str]) -> Answer:
    """The answer to a command. Models, tests and queries are read whole before one is judged."""
    if word not in COMMANDS or len(paths) != COMMANDS[word][0]:
        return "pipecheck: bad command line\n", 2
    _, read, answers = COMMANDS[word]
    model_data, test_data = file_bytes("model", paths[0]), file_bytes("test", paths[1])
    query_data = file_bytes("query", paths[2]) if word == "ask" else b""
    model, test = judged("model", read_model, model_data), judged("test", read, test_data)
    if word == "ask":
        return ask(model, test, judged("query", partial(read_query, model=model), query_data, model_data))
    if len(paths) == 2:
        return answers(model, test)
    with open(paths[2], "rb") as file:
        return answers(model, test, file.read())


def run(words: list[str], out: TextIO) -> int:
    """Does what the words ask and answers the exit status."""
    try:
        text, status = answered("".join(words[:1]), words[1:])
    except Refused as refused:
        text, status = f"{refused}\n", 3
    except OSError:
        return 4
    out.write(text)
    return status


def main(*words: str) -> int:
    return run(list(words), sys.stdout)
