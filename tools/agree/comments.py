"""Writes into each test of examples/tests which memory models allow its outcome: the second line, a comment.

    python3 tools comments             writes the lines that are not what examples/memory-models.tsv says
    python3 tools comments --check     writes none

Each test whose line is another is printed. The status is 1 where --check finds one.
"""
import os

from tools import TOP
from tools.agree.table import rows_of

BEGINNINGS = ("% Allowed by ", "% Forbidden by every ")


def comment(allowed: dict[str, bool]) -> str:
    """The line of a test, by whether each memory model allows its outcome."""
    yes = ", ".join(name for name, is_allowed in allowed.items() if is_allowed)
    no = ", ".join(name for name, is_allowed in allowed.items() if not is_allowed)
    if not yes or not no:
        said = f"{'Allowed' if yes else 'Forbidden'} by every memory model here"
    else:
        said = f"Allowed by {yes}; forbidden by {no}"
    return f"% {said}. The test states what sc says."


def main(*words: str) -> int:
    """Writes the lines, or only compares them, and answers the exit status."""
    if words not in ((), ("--check",)):
        raise SystemExit(__doc__)
    tests: dict[str, dict[str, bool]] = {}
    for memory_model, test, is_allowed in rows_of(""):
        tests.setdefault(test, {})[memory_model] = is_allowed
    is_differing = False
    for test, allowed in tests.items():
        path = os.path.join(TOP, "examples/tests", test + ".test")
        if not os.path.exists(path):
            continue
        with open(path, encoding="ascii") as file:
            old = file.read()
        first, second, *rest = old.split("\n")
        # it is the second line
        new = "\n".join([first, comment(allowed), *([] if second.startswith(BEGINNINGS) else [second]), *rest])
        if new == old:
            continue
        is_differing = True
        print(test)
        if not words:
            with open(path, "w", encoding="ascii") as file:
                file.write(new)
    return 1 if is_differing and words else 0
