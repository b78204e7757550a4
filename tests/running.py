"""Runs the families of tests side by side, or those that are named, and prints a line for each case.

    tests/program                  all families
    tests/program FAMILY..         these
    tests/program FAMILY CASE      of one family the cases whose names have this text

Prints which program it is, a line for each case, and then 'N passed, M failed, K skipped'. A family is a module tests/test_NAME.py,
of which each class is run by a process of its own. The status is 1 where a case failed. With SHOW_FAILED set each failure is shown.
A signal that asks for an end ends all classes; what is temporary goes. Of TESTED_PROGRAM that program is tested, and none is built.
"""
from __future__ import annotations

import gc
import importlib
import os
import signal
import subprocess
import sys
import tempfile
import unittest
from multiprocessing import get_context
from multiprocessing.connection import wait
from typing import Any

from tests import cases

from tools.ending import Signals

# those that take longest begin first
LONGEST = ("lint", "pages", "script", "install_ended", "suite_tables", "checks", "build", "install", "benches", "mend",
           "suite_calls", "explain", "agree", "test86")
HEADS = {"ok": "ok      ", "failed": "FAILED  ", "skipped": "skipped "}
# how a process ends that has run all of its class
AT_ITS_END = 86
# how much of memory may be taken by temporary files, in bytes
ROOM = 4 << 30
SIGNALS = Signals()
# how deep Python may go in the classes of each module, which may say so as it is read
DEPTHS: dict[str, int] = {}
Class = type[unittest.TestCase]


class Lines(unittest.TestResult):
    """Prints a line for each case: for each part of a test method that has a name, or for the method."""

    has_parts = False

    def startTest(self, test: unittest.TestCase) -> None:
        super().startTest(test)
        self.has_parts = False

    def name_of(self, test: Any) -> str:
        """The name of a part, or of a method, which its first line says."""
        of_method = test.shortDescription() or test.id().rpartition(".")[2].replace("_", " ")
        return str(getattr(test, "params", {}).get("case", of_method))

    def tell(self, how: str, test: Any, said: str = "") -> None:
        self.has_parts = self.has_parts or hasattr(test, "params")
        name = self.name_of(test)
        if how == "failed" and "SHOW_FAILED" not in os.environ:
            faults = ("AssertionError", "FileNotFoundError", "OSError")
            said = next((it for it in said.splitlines() if it.startswith(faults)), said[-200:])
        print(f"{HEADS[how]}{name}" + (f": {said}" if said else ""), flush=True)

    def addSuccess(self, test: unittest.TestCase) -> None:
        # of a method without such a part no case was wanted
        if not self.has_parts and (cases.wanted is None or cases.wanted in self.name_of(test)):
            self.tell("ok", test)

    def addError(self, test: unittest.TestCase, err: Any) -> None:
        super().addError(test, err)
        self.tell("failed", test, self.errors[-1][1])

    addFailure = addError

    def addSkip(self, test: unittest.TestCase, reason: str) -> None:
        super().addSkip(test, reason)
        self.tell("skipped", test, reason)

    def addSubTest(self, test: unittest.TestCase, subtest: unittest.TestCase, err: Any) -> None:
        self.has_parts = True
        # what stands under `with` has run in any case
        if cases.wanted is not None and cases.wanted not in self.name_of(subtest):
            return
        if err is None:
            self.tell("ok", subtest)
        else:
            self.addError(subtest, err)


def families() -> list[str]:
    """All families, those that take longest first."""
    found = [it[5:-3] for it in sorted(os.listdir(f"{cases.TOP}/tests")) if it.startswith("test_") and it.endswith(".py")]
    return sorted(found, key=lambda it: LONGEST.index(it) if it in LONGEST else len(LONGEST))


def classes_of(family: str) -> list[Class]:
    """The classes of cases of a family: those of its module with a test method of their own."""
    depth = sys.getrecursionlimit()
    try:
        module = importlib.import_module(f"tests.test_{family}")
    except (Exception, SystemExit) as fault:  # pylint: disable=broad-exception-caught
        return [unread(family, fault)]
    finally:
        # what it says of Python is not for what is read later
        DEPTHS[f"tests.test_{family}"] = sys.getrecursionlimit()
        sys.setrecursionlimit(depth)
        sys.dont_write_bytecode = False
    own = [it for it in vars(module).values() if isinstance(it, type) and it.__module__ == module.__name__]
    return [it for it in own if issubclass(it, unittest.TestCase) and any(name.startswith("test") for name in vars(it))]


def unread(family: str, fault: BaseException) -> Class:
    """The one class of a family whose module cannot be read. It fails."""

    class Unread(unittest.TestCase):
        def test_module(self) -> None:
            with self.subTest(case=f"tests/test_{family}.py can be read"):
                raise AssertionError(repr(fault)) from fault

    return Unread


class Running:
    """A class of cases that a process runs which is forked from this one: what it imports is there already."""

    def __init__(self, its: Class) -> None:
        self.its, self.file = its, tempfile.TemporaryFile()
        self.process = get_context("fork").Process(target=self.run)
        self.process.start()

    def run(self) -> None:
        """What the process does. The lines go to the file."""
        for it in SIGNALS.received:
            signal.signal(it, signal.SIG_DFL)
        sys.setrecursionlimit(DEPTHS.get(self.its.__module__, sys.getrecursionlimit()))
        os.dup2(self.file.fileno(), 1)
        with open(1, "w", encoding="utf-8", errors="surrogateescape") as sys.stdout:
            unittest.defaultTestLoader.loadTestsFromTestCase(self.its).run(Lines())
        sys.exit(AT_ITS_END)

    def lines(self) -> list[bytes]:
        """The lines, once the process has ended."""
        self.process.join()
        with self.file:
            self.file.seek(0)
            lines = self.file.read().splitlines()
        status = self.process.exitcode or 0
        if status != AT_ITS_END:
            name = f"{self.its.__module__}.{self.its.__name__}"
            lines.append(f"FAILED  {name} came to no end: status {cases.status_of(status)}".encode())
        return lines


def run_all(waiting: list[Class]) -> int:
    """Runs these classes on all processors. Prints their lines, and how many cases passed."""
    counts = dict.fromkeys(HEADS, 0)
    running: list[Running] = []
    try:
        while waiting or running:
            # one more than there are processors, since some wait
            while waiting and len(running) <= len(os.sched_getaffinity(0)):
                with SIGNALS.held():
                    running.append(Running(waiting.pop(0)))
            ended = wait([it.process.sentinel for it in running])
            for it in [it for it in running if it.process.sentinel in ended]:
                running.remove(it)
                for line in it.lines():
                    sys.stdout.buffer.write(line + b"\n")
                    for how, head in HEADS.items():
                        counts[how] += line.startswith(head.encode())
            sys.stdout.flush()
    finally:
        for left in running:
            print(f"tests: {left.its.__module__}.{left.its.__name__} is ended", file=sys.stderr)
            left.process.kill()
            left.process.join()
    by = "" if cases.is_proved() else cases.BY_THAT_PROGRAM
    print(f"{counts['ok']} passed, {counts['failed']} failed, {counts['skipped']} skipped{by}")
    return 0 if counts["ok"] and not counts["failed"] else 1


def memory() -> str | None:
    """A folder in memory, which takes many small files many times as fast, where programs can be called there, there is room, and
    TMPDIR names no other place."""
    place = "/dev/shm"
    if "TMPDIR" in os.environ or not os.access(place, os.W_OK):
        return None
    its = os.statvfs(place)
    return None if its.f_flag & os.ST_NOEXEC or its.f_bavail * its.f_frsize < ROOM else place


def shorten_python(folder: str) -> None:
    """A python3 of a manager of versions looks each time for the one that is meant, which takes several times as long as to start
    it. Here that one is found once."""
    os.mkdir(folder)
    os.symlink(sys.executable, f"{folder}/python3")
    os.environ["PATH"] = f"{folder}:{os.environ['PATH']}"


def prepare(room: str) -> None:
    """Has the program and the scripts stand that are tested, in this folder."""
    program = cases.program()
    shorten_python(f"{room}/python")
    # what pages show of explain has lines as where there is no terminal
    os.environ.pop("COLUMNS", None)
    # of a run that this one is a part of
    os.environ.pop("APART", None)
    cases.apart()
    which = "proved program" if cases.is_proved() else "program without its proofs"
    print(f"on the {which}, sha256 {cases.hash_of(program)}", flush=True)
    with open(os.devnull, "rb") as nothing:
        os.dup2(nothing.fileno(), 0)


def main() -> int:
    """Answers one call."""
    words, known = sys.argv[1:], families()
    if len(words) == 2 and words[1] not in known:
        cases.wanted = words.pop()
    unknown = [it for it in words if it not in known]
    if unknown:
        print(f"tests: there is no family {unknown[0]}; those that there are: {' '.join(sorted(known))}", file=sys.stderr)
        return 2
    SIGNALS.receive()
    # what classes leave where temporary files go is in this folder, too
    with SIGNALS.temporary_folder(lambda: tempfile.TemporaryDirectory("", "pipecheck-tests-", memory(), True)) as room:
        try:
            prepare(room)
        except subprocess.CalledProcessError as fault:
            print(f"tests: {fault}", file=sys.stderr)
            print("0 passed, 1 failed")
            return 1
        classes = [it for name in words or known for it in classes_of(name)]
        # what is there by now no process that is forked looks through for what is to be freed
        gc.freeze()
        return run_all(classes)


if __name__ == "__main__":
    sys.exit(SIGNALS.status_or_end(main))
