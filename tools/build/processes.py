"""Processes that end before this one does, however this one is asked to end."""
import contextlib
import os
import signal
import subprocess
from types import FrameType
from typing import Iterable, Iterator

from tools import ending

# how long what is asked to end has for it, in seconds
PATIENCE = 5


class Signals(ending.Signals):
    """What asks for an end; and Ctrl-Z, which the terminal sends to this process's group alone: it stops what began here too."""

    def __init__(self) -> None:
        super().__init__()
        self.is_stop_held = False
        self.leaders: list[subprocess.Popen[bytes]] = []

    def receive(self, numbers: Iterable[int] = ending.ENDING) -> None:
        super().receive(numbers)
        if signal.getsignal(signal.SIGTSTP) is not signal.SIG_IGN:
            signal.signal(signal.SIGTSTP, self.stop)

    def stop(self, _: int, __: FrameType | None) -> None:
        self.is_stop_held = self.is_held
        if not self.is_held:
            for it in self.leaders:
                signal_group(it, signal.SIGTSTP)
            os.kill(os.getpid(), signal.SIGSTOP)
            for it in self.leaders:
                signal_group(it, signal.SIGCONT)

    @contextlib.contextmanager
    def held(self) -> Iterator[None]:
        try:
            with super().held():
                yield
        finally:
            if self.is_stop_held and not self.is_held:
                self.stop(signal.SIGTSTP, None)

    def clear(self) -> None:
        for it in self.leaders:
            end_group(it)
        super().clear()


SIGNALS = Signals()


def signal_group(leader: subprocess.Popen[bytes], number: int) -> None:
    with contextlib.suppress(ProcessLookupError):
        os.killpg(leader.pid, number)


def end_group(leader: subprocess.Popen[bytes]) -> None:
    """Ends a group of processes, and waits until its first one has ended."""
    if leader.poll() is None:
        signal_group(leader, signal.SIGTERM)
        # what is stopped sees the signal when it goes on
        signal_group(leader, signal.SIGCONT)
        with contextlib.suppress(subprocess.TimeoutExpired):
            leader.wait(PATIENCE)
    signal_group(leader, signal.SIGKILL)
    leader.wait()
