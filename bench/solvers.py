"""Questions put to solvers of the system's packages and to the second implementation, beside the program.

tools/second/main.py grounds a model and a test by itself, and writes the question for a solver; so it is
a second judge too. A solver runs as a user would run it, on the file that was written before; cadical writes its proof.
"""
import math
import os
import re
import shutil
import sys
from collections.abc import Iterator
from dataclasses import dataclass
from pathlib import Path

from counting import TOP, Timed, saved, timed

SECOND = [sys.executable, "-E", "-S", f"{TOP}/tools", "second"]
# the line that is a verdict, of the program and of solvers
VERDICT = re.compile(r"^(?:s )?(un)?(?:observable|sat(?:isfiable)?)$", re.MULTILINE | re.IGNORECASE)
# each with the kind of its question, and its words, of which some stand for paths
SOLVERS = {
    "cadical": ("dimacs", ("cadical", "-q", "question", "proof")),
    "minisat": ("dimacs", ("minisat", "-verb=0", "question")),
    "z3": ("smt", ("z3", "question")),
}


@dataclass(frozen=True)
class Answered:
    """What a solver takes for a question of so many bytes, and its verdict."""

    call: Timed
    verdict: bool | None
    size: int


def verdict_of(text: str) -> bool | None:
    """Whether the outcome is observable, by what the program or a solver writes; None where it is not said."""
    found = VERDICT.search(text)
    return None if found is None else not found[1]


def asked(
    paths: list[str], *names: str, calls: int = 1, writing: float = math.inf, limit: float = math.inf
) -> Iterator[tuple[str, Answered | None]]:
    """Those of these solvers that are here, each with what it takes for the question, the least of so many calls, each ended at a
    limit of seconds; None where writing the question takes longer than its own."""
    questions: dict[str, str] = {}
    out, proof = saved("", "")
    for name in filter(shutil.which, names):
        kind, words = SOLVERS[name]
        if kind not in questions:
            [path] = saved("")
            # one that is not written in time is none
            questions[kind] = path if timed(writing, path, *SECOND, kind, *paths).has_ended else ""
        if not questions[kind]:
            yield name, None
            continue
        places = {"question": questions[kind], "proof": proof}
        call = timed(limit, out, *(places.get(word, word) for word in words), calls=calls)
        yield name, Answered(call, verdict_of(Path(out).read_text("latin-1")), os.path.getsize(questions[kind]))
