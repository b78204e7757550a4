"""Calls a tool by its word, from any folder: python3 FOLDER/tools WORD WORD.."""
import os
import sys
from functools import partial
from importlib import import_module
from typing import Any, Callable

TOOLS = {
    "agree": "tools.agree.main",
    "allowed": "tools.agree.allowed",
    "axiom_names": "tools.explain.axiom_names",
    "builder": "tools.build.builder",
    "comments": "tools.agree.comments",
    "completing": "tools.telling.completing",
    "compare": "tools.listings.compare",
    "crates": "tools.pages.crates",
    "definitions": "tools.pages.definitions",
    "judged": "tools.explain.judged",
    "installer": "tools.install.installer",
    "lint": "tools.lint.main",
    "mend": "tools.mend.main",
    "renew": "tools.pages.renew",
    "second": "tools.second.main",
    "suite": "tools.suite.main",
    "table": "tools.agree.table",
    "telling": "tools.telling.main",
    "test86": "tools.listings.test86",
    "verdicts": "tools.agree.verdicts",
}
# those for which 1 is the status of every failure, as Python has it, or that say theirs themselves
PLAIN = ("builder", "comments", "completing", "crates", "definitions", "installer", "renew", "suite", "table", "verdicts")
# those that leave nothing beside the sources
TRACELESS = ("agree", "crates", "definitions", "renew", "table")


def called(word: str, *words: str) -> int | None:
    """What the `main` of a tool answers to the other words. Where it has a `TELLER`, why there is no answer is told in its name;
    where it has `SIGNALS` one of these may end it."""
    sys.dont_write_bytecode |= word in TRACELESS
    module = import_module(TOOLS[word])
    call: Callable[[], Any] = partial(module.main, *words)
    if hasattr(module, "TELLER"):
        from tools.telling.ended import status_told

        call = partial(status_told, call, words, module.TELLER, 1 if word in PLAIN else 125)
    if word not in PLAIN:
        from tools.second.standard_output import status_of

        call = partial(status_of, call)
    status: int | None = module.SIGNALS.status_or_end(call) if hasattr(module, "SIGNALS") else call()
    return status


if __name__ == "__main__":
    if len(sys.argv) < 2 or sys.argv[1] not in TOOLS:
        sys.exit(f"call it as python3 tools WORD ..; the words are {', '.join(TOOLS)}")
    # The package is found beside this folder, wherever it is called from, and nothing in this folder is taken for a module. Python
    # itself looks in the folder that it is given, or with -m in the one where it is called; so this is said here, and here alone.
    sys.path[0] = os.path.dirname(os.path.dirname(os.path.realpath(__file__)))
    del sys.argv[0]
    sys.exit(called(*sys.argv))
