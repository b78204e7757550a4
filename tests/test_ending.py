"""Signals that come to a tool while it looks for a place for temporary files, makes a folder of them, or removes it."""
from __future__ import annotations

import fcntl
import os
import signal
import tempfile
from typing import Any, Callable, ContextManager

from tests.cases import (
    PATIENCE, TOP, Cases, Done, call, done_by, done_by_unseen, program, replaced, script_entry, tool_entry, write
)
from tests.test_compare import machine

from tools import ending
from tools.build import builder
from tools.build.processes import SIGNALS
from tools.suite.calling import Calls, side_by_side

MODEL, TEST = "examples/in-order.uspec", "examples/mp.test"
LOG = machine("SB Allowed", "5 *>0:EAX=0; 1:EAX=0;\n", "Ok", "SB Always 5 0")
# each tool that calls the program beside a folder of temporary files: its entry, and the words after its name
TOOLS: dict[str, tuple[Callable[[], object], list[str]]] = {
    "mend": (tool_entry("mend.main"), [MODEL, TEST]),
    "explain": (tool_entry("explain.judged"), ["PROGRAM", MODEL, TEST]),
    "compare": (tool_entry("listings.compare"), [MODEL, "examples/x86/SB.litmus", "WORK/log"]),
    "suite": (script_entry(f"{TOP}/examples/suite"), ["examples/models/tutorial.uspec", TEST]),
    "suite --axioms": (script_entry(f"{TOP}/examples/suite"), ["--axioms", "examples/models/tutorial.uspec", TEST]),
}


class Ended(Cases):
    """Each tool is ended by the signal, and leaves nothing in the folder for temporary files."""

    def ended(self, room: str, entry: Callable[[], object], words: list[str], moment: str) -> Done:
        """What a tool says to which the signal comes at this moment."""

        def begin() -> object:
            # it looks itself for a place of temporary files
            tempfile.tempdir = None
            with self.signalled(room, moment):
                return entry()

        suite = {"SUITE_FOLDER": f"{self.work}/kept", "SUITE_KEPT": None, "SUITE_SECONDS": str(PATIENCE)}
        said = [it.replace("WORK", self.work).replace("PROGRAM", program()) for it in words]
        return call(begin, ["tool", *said], env={"TMPDIR": room, "PIPECHECK": program(), **suite})

    def signalled(self, room: str, moment: str) -> ContextManager[None]:
        """Has the signal come when a function of `os` is first called of what stands in the folder for temporary files: before it
        is done, or after. That it came is noted beside that folder."""
        name, _, when = moment.partition(" ")
        real, came = getattr(os, name), f"{room}-came"

        def signals(path: Any, *words: Any, **how: Any) -> None:
            is_there = os.path.dirname(str(path)) == room and not os.path.exists(came)
            if is_there and when == "after":
                real(path, *words, **how)
            if is_there:
                write(came, "")
                os.kill(os.getpid(), signal.SIGTERM)
            if not is_there or when == "before":
                real(path, *words, **how)

        return replaced(os, name, signals)

    def test_moments(self) -> None:
        write(f"{self.work}/log", LOG)
        for tool, (entry, words) in TOOLS.items():
            for name, moment in (
                ("is looked for", "unlink before"), ("is made", "mkdir after"), ("is removed", "rmdir before"),
            ):
                # explain takes the place that TMPDIR names, and looks for no other
                if (tool, moment) != ("explain", "unlink before"):
                    room = tempfile.mkdtemp(dir=self.work)
                    done = self.ended(room, entry, words, moment)
                    with self.case(f"TERM comes to {tool} while a folder {name}"):
                        self.assertEqual((os.path.exists(f"{room}-came"), done.status, done.err), (True, 143, ""))
                        self.assertEqual(os.listdir(room), [])

    def test_lost(self) -> None:
        """A signal that comes while an object goes: what is raised there is lost."""

        class Gone:
            """An object that has the signal come when it goes."""

            def __del__(self) -> None:
                os.kill(os.getpid(), signal.SIGTERM)

        def work() -> int:
            calls = Calls()
            ending.SIGNALS.receive()
            Gone()
            with open(os.devnull, "wb") as out:
                side_by_side(calls, 1, [lambda: calls.status(["sleep", "600"], None, 600, out)])
            return 0

        self.same("TERM comes while an object goes", done_by(ending.SIGNALS, work), Done(143, "", ""))

    def test_unseen(self) -> None:
        """A signal that Python does not see at once while a call waits for another one that builds."""

        def work() -> None:
            with replaced(builder, "OUT", self.work), builder.in_turn("pipecheck"):
                pass

        said = "pipecheck: another call is building the program: waiting for it\n"
        with open(f"{self.work}/pipecheck_lock", "wb") as lock:
            fcntl.flock(lock, fcntl.LOCK_EX)
            done = done_by_unseen(SIGNALS, work)
        self.same("TERM comes while a call waits for another one that builds", done, Done(143, "", said))

    def test_removed(self) -> None:
        """A signal that comes just before a folder is to be removed."""
        room = tempfile.mkdtemp(dir=self.work)
        signals = ending.Signals()

        # in place of what would remove it
        def removes(_: object) -> None:
            os.kill(os.getpid(), signal.SIGTERM)

        def work() -> int:
            tempfile.tempdir = room
            signals.receive()
            with replaced(signals, "remove", removes), signals.temporary_folder() as folder:
                write(f"{folder}/file", "")
            return 0

        done = done_by(signals, work)
        self.same("TERM comes just before a folder is removed", (done, os.listdir(room)), (Done(143, "", ""), []))

    def test_held(self) -> None:
        signals = ending.Signals()

        def work() -> int:
            # also where these tests run behind nohup
            signal.signal(signal.SIGHUP, signal.SIG_DFL)
            signals.receive()
            with signals.held():
                os.kill(os.getpid(), signal.SIGHUP)
                os.kill(os.getpid(), signal.SIGTERM)
                write(f"{self.work}/held", "")
            return 0

        done = done_by(signals, work)
        self.same("what is held is done, and the first of two signals ends the tool", (done, os.path.exists(f"{self.work}/held")),
                  (Done(129, "", ""), True))
