"""Calls of programs, side by side, within limits; and how all of them are ended.

Each call is a process group of its own, so that what it started ends with it. Threads make the calls, and the main
thread alone gets signals: so no signal comes between the start of a call and the note that it runs.
"""
import math
import os
import queue
import resource
import signal
import subprocess
import sys
import tempfile
import threading
from contextlib import contextmanager, nullcontext, suppress
from typing import IO, Callable, Iterator, Sequence, TypeVar

from tools.ending import SIGNALS, Refusal
from tools.suite.telling import Progress
from tools.texts.quoting import quoted

# What the limits need is done by a shell that becomes the program. Where a limit of file size is passed, a write fails,
# in place of a signal that ends the program. The limit of processor time is for a call whose suite was ended by force.
LIMITED = 'trap "" XFSZ; ulimit -S -t "$0" && ulimit -S -v "$1" || exit 125; shift; exec "$@"'
MOST_DIGITS = 11
# Python as the suite starts it: no variable of the environment, and nothing that is installed beside it, changes it
PYTHON = (sys.executable, "-E", "-S", "-B")
# the signals that end a process without a fault of its own
ENDING = (
    signal.SIGINT, signal.SIGTERM, signal.SIGHUP, signal.SIGQUIT, signal.SIGUSR1, signal.SIGUSR2, signal.SIGALRM,
    signal.SIGVTALRM, signal.SIGPROF, signal.SIGXCPU,
)
# how long what cleans up after itself may take to end
GRACE = 10.0

Answer = TypeVar("Answer")
Process = subprocess.Popen[bytes]


class Stopped(Exception):
    """The suite ends, and this call with it."""


def memory_limit(value: str) -> int | None:
    """The address space of a call in KiB by PIPECHECK_MEMORY, as script/calls has it: so many MiB, or what the
    machine has free. None is no limit, or one that stands already and is as low."""
    if value == "none":
        return None
    if value == "":
        kib = free_memory()
    elif value.isascii() and value.isdigit() and len(value) <= MOST_DIGITS:
        kib = int(value) * 1024
    else:
        # the words of script/calls
        raise Refusal(f"PIPECHECK_MEMORY is a number of MiB, or none, and not {quoted(value)}", "pipecheck")
    return kib if kib is not None and standing_limit(resource.RLIMIT_AS) > kib * 1024 else None


def free_memory() -> int | None:
    """What the machine has free, in KiB; None where it does not say so."""
    with suppress(OSError, ValueError), open("/proc/meminfo", encoding="ascii") as file:
        for line in file:
            if line.startswith("MemAvailable:"):
                return int(line.split()[1])
    return None


def standing_limit(kind: int) -> float:
    soft, _ = resource.getrlimit(kind)
    return math.inf if soft == resource.RLIM_INFINITY else soft


class Calls:
    """The calls that run now."""

    def __init__(self) -> None:
        self.lock = threading.Lock()
        # each with the signal that ends it
        self.running: dict[Process, signal.Signals] = {}
        self.late: set[Process] = set()
        self.is_stopped = False

    def status(self, command: Sequence[str], kib: int | None, seconds: float, out: IO[bytes]) -> int | None:
        """Calls a program within these limits and has it write to a file; its standard error is not seen. The status, as a
        shell has it; None where it is not done in time."""
        under_limits = limited(command, kib, seconds)
        return self.finished(self.started(under_limits, out, subprocess.DEVNULL, signal.SIGKILL), seconds)

    def started(
        self, command: Sequence[str], out: IO[bytes] | int, said: IO[bytes] | int | None, ending: signal.Signals,
        asked: int = subprocess.DEVNULL,
    ) -> Process:
        """Starts a call and notes that it runs, at one moment."""
        with self.lock:
            if self.is_stopped:
                raise Stopped
            process = subprocess.Popen(  # pylint: disable=consider-using-with
                command, stdin=asked, stdout=out, stderr=said, start_new_session=True
            )
            self.running[process] = ending
            return process

    def finished(self, process: Process, seconds: float | None) -> int | None:
        """Waits until a call ends, or ends it. What it left behind in its group ends, too."""
        with nullcontext() if seconds is None else self.limit(process, seconds):
            # it is not reaped yet, so that the number of its group stays its own
            os.waitid(os.P_PID, process.pid, os.WEXITED | os.WNOWAIT)
        with self.lock:
            del self.running[process]
            end_group(process, signal.SIGKILL)
            status = process.wait()
            is_late = process in self.late
            self.late.discard(process)
            if self.is_stopped:
                raise Stopped
        return None if is_late else status if status >= 0 else 128 - status

    @contextmanager
    def limit(self, process: Process, seconds: float) -> Iterator[None]:
        """Ends a call, as one that is late, where this takes longer than so many seconds."""
        timer = threading.Timer(seconds, self.end_late, [process])
        timer.daemon = True
        start([timer])
        try:
            yield
        finally:
            timer.cancel()

    def end_late(self, process: Process) -> None:
        with self.lock:
            if process in self.running:
                self.late.add(process)
                end_group(process, signal.SIGKILL)

    def stop(self, is_forced: bool = False) -> None:
        """Ends all calls, and has none begin any more; by force what has not ended though it was asked to."""
        with self.lock:
            self.is_stopped = True
            for process, ending in self.running.items():
                end_group(process, signal.SIGKILL if is_forced else ending)


def limited(command: Sequence[str], kib: int | None, seconds: float | None) -> list[str]:
    """The command under a limit of address space, and of processor time on all processors. What limit stands is never raised."""
    # the shell would take a dash for an option
    first = os.path.join(".", command[0]) if command[0].startswith("-") else command[0]
    most = math.inf if seconds is None else math.ceil(seconds) * len(os.sched_getaffinity(0)) + 1
    time = min(most, standing_limit(resource.RLIMIT_CPU))
    space = standing_limit(resource.RLIMIT_AS) / 1024 if kib is None else kib
    limits = ("unlimited" if it == math.inf else str(int(it)) for it in (time, space))
    return ["/bin/sh", "-c", LIMITED, *limits, first, *command[1:]]


def end_group(process: Process, number: signal.Signals) -> None:
    """Sends a signal to a call and to all that it started."""
    with suppress(ProcessLookupError, PermissionError):
        os.killpg(process.pid, number)


def side_by_side(
    calls: Calls, jobs: int, tasks: Sequence[Callable[[], Answer]], tell: Callable[[int, Answer], None] = lambda _, __: None,
    is_long: bool = False,
) -> list[Answer]:
    """The answers of tasks, at most so many of which run at once. Each is told with its number as it comes, and where it takes long
    a terminal has how many there are. Where a signal or a failure comes, the calls of the others end."""
    answers: dict[int, Answer] = {}
    failures: list[BaseException] = []
    # by their numbers
    ended: queue.SimpleQueue[int] = queue.SimpleQueue()
    waiting = iter(enumerate(tasks))
    taking = threading.Lock()

    def work() -> None:
        while not calls.is_stopped:
            with taking:
                place, task = next(waiting, (-1, None))
            if task is None:
                return
            try:
                answers[place] = task()
            except Stopped:
                return
            except BaseException as error:  # pylint: disable=broad-exception-caught
                failures.append(error)
            ended.put(place)

    threads = [threading.Thread(target=work) for _ in range(min(jobs, len(tasks)))]
    progress = Progress(len(tasks), is_long)
    try:
        start(threads)
        for _ in tasks:
            place = SIGNALS.patient(lambda seconds: ended.get(timeout=seconds), queue.Empty)
            if place not in answers:
                raise failures[0]
            tell(place, answers[place])
            progress.step()
    except BaseException:
        calls.stop()
        join(threads, GRACE)
        calls.stop(is_forced=True)
        raise
    finally:
        join(threads, None)
        progress.end()
    return [answers[place] for place in range(len(tasks))]


def said_by(calls: Calls, command: Sequence[str], folder: str | None = None) -> tuple[int, bytes]:
    """The status of a call without a limit of time, and what it writes, by way of this folder. A signal comes to this thread; the
    call may clean up when it is ended."""
    with tempfile.TemporaryFile(dir=folder) as out:

        def work() -> int | None:
            return calls.finished(calls.started(command, out, None, signal.SIGTERM), None)

        (status,) = side_by_side(calls, 1, [work])
        out.seek(0)
        return status or 0, out.read()


def start(threads: Sequence[threading.Thread]) -> None:
    """Starts threads, as many as the system gives."""
    for place, thread in enumerate(threads):
        try:
            thread.start()
        except RuntimeError as error:
            if place == 0:
                raise Refusal("the system gives no thread: memory, or the number of processes, is limited") from error
            return


def join(threads: Sequence[threading.Thread], seconds: float | None) -> None:
    """Waits for threads that were started, at most so long for each."""
    for thread in threads:
        if thread.ident is not None:
            thread.join(seconds)
