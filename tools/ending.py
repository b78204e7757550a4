"""How a tool ends without an answer: by an exception that says what is told; or by a signal. Then what it began is ended, its
temporary files go, and it ends by the signal itself, so that its caller sees which.

Python handles signals in the main thread, between any two steps of it. So what has to be done whole is held there. And a signal
that comes just before that thread waits is not seen until it waits no more; and where Python itself calls something, as when an
object goes or a process is forked, what is raised there is lost. So that thread never waits long, and looks then.
"""
import fcntl
import os
import signal
import sys
import tempfile
import time
from contextlib import contextmanager, suppress
from types import FrameType
from typing import Callable, Iterable, Iterator, TypeVar

# what a terminal, a shell and `timeout` send
ENDING = (signal.SIGHUP, signal.SIGINT, signal.SIGQUIT, signal.SIGTERM)
# how long the main thread waits before it looks whether there was a signal, and whether a file is free, in seconds
PATIENCE, MOMENT = 1.0, 0.1

Given = TypeVar("Given")


class Ended(Exception):
    """There is no answer: the status, the lines that are told on standard error, and what standard output gets."""

    def __init__(self, status: int, *told: str, text: str = "") -> None:
        super().__init__(*told)
        self.status = status
        self.told = told
        self.text = text


class Refusal(Exception):
    """There is no answer, and why. It is told by the tool, or by another teller that is named."""

    def __init__(self, sentence: str, teller: str = "") -> None:
        super().__init__(sentence)
        self.teller = teller

    def line(self, tool: str) -> str:
        return f"{self.teller or tool}: {self}"


class Interrupted(BaseException):
    """A signal asks for an end. It is no failure, as KeyboardInterrupt is none."""

    def __init__(self, number: int) -> None:
        super().__init__(f"signal {number}")
        self.number = number


class Signals:
    """What asks for an end. The first signal raises `Interrupted`, later where it is held. Others after it are passed over,
    so that what was begun is cleared once, and whole."""

    def __init__(self) -> None:
        self.received: list[int] = []
        self.number = 0
        self.is_held = self.is_due = False
        self.folders: list[tempfile.TemporaryDirectory[str]] = []

    def receive(self, numbers: Iterable[int] = ENDING) -> None:
        """Has these signals ask for an end. What is ignored, as HUP behind nohup, stays so."""
        sys.unraisablehook = tell_lost
        for it in numbers:
            if signal.getsignal(it) is not signal.SIG_IGN:
                self.received.append(it)
                signal.signal(it, self.end)

    def end(self, number: int, _: FrameType | None) -> None:
        """Asks for an end, once."""
        if self.number == 0:
            self.number, self.is_due = number, self.is_held
            if not self.is_held:
                raise Interrupted(number)

    def look(self) -> None:
        """Raises `Interrupted` again, where a signal came and it was lost."""
        if self.number != 0:
            raise Interrupted(self.number)

    def patient(self, wait: Callable[[float], Given], late: type[Exception]) -> Given:
        """What this gives that waits for so many seconds at most, and raises this where there is nothing yet."""
        while True:
            with suppress(late):
                return wait(PATIENCE)
            self.look()

    def lock(self, file: int, tell: Callable[[], None]) -> None:
        """Locks an open file, once no other process has it locked. Where one has, that is told first."""
        is_told = False
        while True:
            with suppress(BlockingIOError):
                fcntl.flock(file, fcntl.LOCK_EX | fcntl.LOCK_NB)
                return
            if is_told:
                time.sleep(MOMENT)
            else:
                tell()
            is_told = True
            self.look()

    @contextmanager
    def held(self) -> Iterator[None]:
        """Has a signal that comes meanwhile raise at the end. It is for the main thread, where signals come."""
        before = self.is_held
        self.is_held = True
        try:
            yield
        finally:
            self.is_held = before
            if self.is_due and not before:
                self.is_due = False
                raise Interrupted(self.number)

    @contextmanager
    def temporary_folder(
        self, make: "Callable[[], tempfile.TemporaryDirectory[str]]" = tempfile.TemporaryDirectory
    ) -> Iterator[str]:
        """A new folder, which is removed at the end. What else is temporary is made in it meanwhile, by any thread. To look for a
        place leaves a file for a moment, too."""
        with self.held():
            made = make()
            self.folders.append(made)
        before, tempfile.tempdir = tempfile.tempdir, made.name
        try:
            yield made.name
        finally:
            tempfile.tempdir = before
            # once a signal came, `clear` removes it
            if self.number == 0:
                self.remove(made)

    def remove(self, folder: "tempfile.TemporaryDirectory[str]") -> None:
        with self.held():
            folder.cleanup()
            self.folders.remove(folder)

    def clear(self) -> None:
        """Removes what is left once a signal came. A fault of that changes nothing."""
        for it in self.folders:
            with suppress(OSError):
                it.cleanup()

    def status_or_end(self, call: Callable[[], int]) -> int:
        """The status of a tool. Where a signal ended it, the signal ends this process, once nothing is left behind."""
        try:
            status = call()
            self.look()
            for it in self.received:
                # nothing is left that would have to be cleared
                signal.signal(it, signal.SIG_DFL)
            return status
        except Interrupted as interrupted:
            self.clear()
            signal.signal(interrupted.number, signal.SIG_DFL)
            os.kill(os.getpid(), interrupted.number)
            # for a process that no signal ends, as the first one of a container
            return 128 + interrupted.number


def tell_lost(lost: "sys.UnraisableHookArgs") -> None:
    """Tells an exception that is lost, as Python does, but for one that is raised again."""
    if not isinstance(lost.exc_value, Interrupted):
        sys.__unraisablehook__(lost)


# those of this process
SIGNALS = Signals()
