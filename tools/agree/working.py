"""Processes that judge side by side, and how many of their comparisons agree, differ and failed. They end before this one does, with
all that they called, however it is ended."""
import os
import signal
import sys
import traceback
from collections import Counter, deque
from concurrent.futures import Future, ProcessPoolExecutor
from concurrent.futures import TimeoutError as NotYet
from concurrent.futures.process import BrokenProcessPool
from contextlib import suppress
from dataclasses import dataclass
from itertools import islice
from multiprocessing import active_children, get_context, parent_process
from threading import Thread
from typing import Callable, Generator, Generic, Iterable, NamedTuple, TypeVar

from tools.ending import SIGNALS, Refusal
from tools.second.standard_output import FAILED

# a reader that goes away asks for an end, too
ENDING = (signal.SIGALRM, signal.SIGHUP, signal.SIGINT, signal.SIGPIPE, signal.SIGQUIT, signal.SIGTERM, signal.SIGUSR1)
# how many tasks wait for each processor
WAITING = 4
# the status where some comparisons differ
DIFFER = 1

Task = TypeVar("Task")
Answer = TypeVar("Answer")


class Failed(NamedTuple):
    """A task that was not judged, and why."""

    why: str


def tell(sentence: str) -> None:
    print(f"agree: {sentence}", file=sys.stderr, flush=True)


class Counts(Counter[str]):
    """How many comparisons `agree`, `differ` and `failed`. Each that failed is told."""

    def enter(self, name: str, said: str | Failed) -> bool:
        """Takes in what a comparison said, and answers whether the two differ."""
        if isinstance(said, Failed):
            self["failed"] += 1
            tell(f"{name}: {said.why}")
            return False
        self["differ" if said else "agree"] += 1
        return said != ""

    @property
    def status(self) -> int:
        return FAILED if self["failed"] else DIFFER if self["differ"] else 0

    @property
    def line(self) -> str:
        failed = f", {self['failed']} not compared" if self["failed"] else ""
        return f"{self['agree']} agree, {self['differ']} differ{failed}"


@dataclass(frozen=True)
class Attempt(Generic[Task, Answer]):
    """A judge whose failures are words: an exception may be none that another process can read."""

    judge: Callable[[Task], Answer]

    def __call__(self, task: Task) -> Answer | Failed:
        try:
            return self.judge(task)
        except Refusal as refusal:
            return Failed(str(refusal))
        except MemoryError:
            return Failed("memory was refused")
        except Exception:  # pylint: disable=broad-exception-caught
            return Failed(traceback.format_exc().rstrip("\n").rpartition("\n")[2])


def answers(judge: Callable[[Task], Answer], tasks: Iterable[Task]) -> Generator[tuple[Task, Answer | Failed], None, None]:
    """Each task with its answer, in their order, of one process for each processor. Few of them wait at a time. Where this is closed
    before its end the processes end at once."""
    rest, count = iter(tasks), len(os.sched_getaffinity(0))
    begun: deque[tuple[Task, Future[Answer | Failed]]] = deque()
    pool = ProcessPoolExecutor(count, get_context("fork"), begin_work)
    try:
        while True:
            for task in islice(rest, count * WAITING - len(begun)):
                # it forks, and what a signal raises there is lost
                with SIGNALS.held():
                    begun.append((task, pool.submit(Attempt(judge), task)))
            if not begun:
                return
            task, future = begun.popleft()
            yield task, SIGNALS.patient(future.result, NotYet)
    except BaseException as error:
        end_workers()
        if isinstance(error, BrokenProcessPool):
            raise Refusal("a process that compares was ended from outside, as where memory ends") from error
        raise
    finally:
        pool.shutdown(cancel_futures=True)


def begin_work() -> None:
    """A worker is a group of its own with what it calls, and the first process alone hears the terminal."""
    os.setpgid(0, 0)
    for number in ENDING:
        signal.signal(number, signal.SIG_DFL)
    signal.signal(signal.SIGINT, signal.SIG_IGN)
    signal.signal(signal.SIGPIPE, signal.SIG_IGN)
    Thread(target=end_with_first, daemon=True).start()


def end_with_first() -> None:
    """Ends this worker when the first process is gone, as by a signal that it never hears."""
    first = parent_process()
    if first is not None:
        first.join()
        os.killpg(0, signal.SIGKILL)


def end_workers() -> None:
    """Ends all workers at once, each with what it called."""
    for process in active_children():
        if process.pid is not None:
            with suppress(ProcessLookupError):
                os.killpg(process.pid, signal.SIGKILL)
        # one that is no group yet
        process.kill()
