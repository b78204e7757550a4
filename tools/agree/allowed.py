"""Says that the memory model that a model names allows the outcome of a test, by the machine of that memory model.

    python3 tools allowed MODEL TEST

It writes the name of the memory model, or nothing: where it forbids the outcome, where there is no machine of it, and
where the machine does not run the test or takes long.
"""
import os
import signal
from importlib import import_module

from tools import TOP
from tools.agree.verdicts import rows_of_file
from tools.texts.contents import contents
from tools.texts.memory_models import memory_model_of

SECONDS = 5


def main(model_path: str, test_path: str) -> int:
    name = memory_model_of(contents(model_path)).name
    # what takes longer is ended by the clock, and has written nothing
    signal.signal(signal.SIGALRM, signal.SIG_DFL)
    signal.alarm(SECONDS)
    if os.path.exists(os.path.join(TOP, "tools", "agree", "machines", f"{name}.py")):
        if rows_of_file(import_module(f"tools.agree.machines.{name}"), test_path):
            print(name)
    return 0
