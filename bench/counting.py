"""What scripts of this folder measure of a call: instructions, turns of the search, time and peak memory.

Instructions are counted by `valgrind --tool=callgrind`, and so are the turns, as calls of what hands out the result of a
turn, less one for the start of each search: both are the same in each run, whatever else the machine does. A turn makes one
split. The splits of a text are fewer, since a refutation is written without those that it does not need, and a graph has
none. A peak of memory is no less than that of a small script of Python, some 9 MiB, which the system counts into that of
its child.
"""
import math
import os
import re
import subprocess
import sys
import tempfile
from collections.abc import Callable, Iterable
from concurrent.futures import ThreadPoolExecutor
from dataclasses import dataclass
from functools import cache
from typing import TypeVar

Asked = TypeVar("Asked")
Answer = TypeVar("Answer")
TOP = os.path.dirname(os.path.dirname(os.path.realpath(__file__)))
# what these scripts take of tools/
sys.path.append(TOP)
MIB = 1 << 20
# of the shipped files of a kind
ENDINGS = {"models": ".uspec", "tests": ".test", "queries": ".query"}
# a call that takes so many seconds by the clock is made once
LONG = 10.0
# a function's name stands whole where it comes first, and after that its number alone
NAMED = re.compile(r"^(?:c?fn)=\((\d+)\)(?: (.*))?$")
CALLS = re.compile(r"^calls=(\d+) ")
# the status of `timeout` for a call that it ended
TIMED_OUT = 124
MEASURED = """
import resource, subprocess, sys, time
out, room, calls, long, *words = sys.argv[1:]
def limited(): resource.setrlimit(resource.RLIMIT_AS, (int(room), int(room)))
def used():
    it = resource.getrusage(resource.RUSAGE_CHILDREN)
    return it.ru_utime + it.ru_stime
made = []
while len(made) < int(calls) and (not made or made[0][1] < float(long)):
    with open(out, "wb") as file:
        before, begun = used(), time.perf_counter()
        done = subprocess.run(words, stdout=file, stderr=subprocess.DEVNULL, preexec_fn=limited if int(room) else None)
        made.append((used() - before, time.perf_counter() - begun, done.returncode))
seconds, clocks, statuses = zip(*made)
print(min(seconds), min(clocks), resource.getrusage(resource.RUSAGE_CHILDREN).ru_maxrss, max(statuses))
"""
# what hands out the result of a turn, and a whole search; a name has the number of its types behind it
HANDED_OUT, SEARCHED = "solver::search::settle", "solver::solving::solve"


@dataclass(frozen=True)
class Counted:
    """What a call of the program takes, and what it writes."""

    instructions: int
    turns: int
    text: str

    @property
    def first(self) -> str:
        return self.text.partition("\n")[0]


@dataclass(frozen=True)
class Timed:
    """The seconds of the processor and by the clock, the peak memory in bytes, and the status of calls."""

    seconds: float
    clock: float
    peak: int
    status: int

    @property
    def has_ended(self) -> bool:
        """Whether it came to an end by itself."""
        return self.status != TIMED_OUT


@cache
def program() -> str:
    """The program that PIPECHECK names, or the proved one, which is made first, unless PIPECHECK_PROVED says the other one."""
    from tools.standing import tested

    os.environ.setdefault("PIPECHECK_PROVED", "yes")
    return tested(TOP).path


def at_once(ask: Callable[[Asked], Answer], asked: Iterable[Asked], processors: int | None = os.cpu_count()) -> list[Answer]:
    """The answers to all of these, on so many processors. The program is made before any call, where it has to be."""
    program()
    with ThreadPoolExecutor(processors) as pool:
        return list(pool.map(ask, asked))


class Misused(Exception):
    """Words that mean nothing to a script: what is wrong."""


def chosen(what: str, names: Iterable[str], there: Iterable[str]) -> list[str]:
    """These names, each of which has to be there, or all."""
    found, known = list(names), list(there)
    for name in found:
        if name not in known:
            raise Misused(f"there is no {what} {name}; there are {', '.join(known)}")
    return found or known


def call(main: Callable[[list[str]], int]) -> None:
    """Ends a script with the status that its words have, or with 2 where they mean nothing. All files that it makes meanwhile go."""
    with tempfile.TemporaryDirectory() as tempfile.tempdir:
        try:
            status = main(sys.argv[1:])
        except Misused as reason:
            print(reason, file=sys.stderr)
            status = 2
    sys.exit(status)


def saved(*texts: str) -> list[str]:
    """The paths of files with these texts."""
    paths = []
    for text in texts:
        with tempfile.NamedTemporaryFile("w", encoding="ascii", delete=False) as file:
            file.write(text)
        paths.append(file.name)
    return paths


def shipped(kind: str, *names: str) -> list[str]:
    """The paths of the shipped `models`, `tests` or `queries` of these names."""
    return [f"{TOP}/examples/{kind}/{name}{ENDINGS[kind]}" for name in names]


def names_of(kind: str) -> list[str]:
    """The names of all shipped files of a kind, in order."""
    return sorted(it.removesuffix(ENDINGS[kind]) for it in os.listdir(f"{TOP}/examples/{kind}") if it.endswith(ENDINGS[kind]))


def turns_in(profile: str) -> int:
    """How many turns of searches a profile of callgrind has."""
    names: dict[str, str] = {}
    calls = {HANDED_OUT: 0, SEARCHED: 0}
    called = ""
    with open(profile, encoding="utf-8", errors="replace") as file:
        for line in file:
            if named := NAMED.match(line):
                names.setdefault(named[1], (named[2] or "").strip().partition("::<")[0])
                called = names[named[1]] if line.startswith("c") else ""
            elif (count := CALLS.match(line)) and called in calls:
                calls[called] += int(count[1])
    if calls[SEARCHED] > calls[HANDED_OUT]:
        raise SystemExit(f"not counted: the program has no function {HANDED_OUT} any more")
    return calls[HANDED_OUT] - calls[SEARCHED]


def under_callgrind(profile: str, *command: str) -> tuple[int, str]:
    """How many instructions a command takes, and what it writes."""
    done = subprocess.run(["valgrind", "--tool=callgrind", f"--callgrind-out-file={profile}", *command], capture_output=True,
                          check=False)
    found = re.search(rb"Collected : (\d+)", done.stderr)
    if not found:
        raise SystemExit(f"not counted: valgrind ended with status {done.returncode}")
    return int(found[1]), done.stdout.decode("ascii")


def counted(*words: str, says: str = "") -> Counted:
    """A call of the program, which has to begin so."""
    with tempfile.NamedTemporaryFile() as profile:
        taken, text = under_callgrind(profile.name, program(), *words)
        if not text.startswith(says):
            raise SystemExit(f"not counted: {words[0]} says {text[:80]!r}")
        return Counted(taken, turns_in(profile.name), text)


def instructions(*words: str, says: str = "") -> int:
    return counted(*words, says=says).instructions


def heap_peak(*words: str, says: str = "") -> int:
    """The most bytes of the heap that the program has at one time, by massif. What it writes has to begin so."""
    with tempfile.NamedTemporaryFile("r", encoding="ascii") as out:
        command = ["valgrind", "--tool=massif", "--peak-inaccuracy=0.0", f"--massif-out-file={out.name}", program(), *words]
        done = subprocess.run(command, stdout=subprocess.PIPE, stderr=subprocess.DEVNULL, check=False)
        if not done.stdout.startswith(says.encode("ascii")):
            raise SystemExit(f"not counted: {words[0]} says {done.stdout[:80]!r}")
        return max(map(int, re.findall(r"^mem_heap_B=(\d+)$", out.read(), re.MULTILINE)))


def timed(limit: float, out: str, *words: str, calls: int = 1, room: int = 0) -> Timed:
    """So many calls as one, or a single long one: the least times, since other work on the machine only adds to them, the
    greatest memory and the greatest status. Standard output goes to a file. Each call is ended at a limit of seconds by the
    clock, and has so many bytes of address space, where a number is given."""
    # a child has what its parent has until its program begins, so a small parent stands between
    ended = [] if limit == math.inf else ["timeout", str(limit)]
    command = [sys.executable, "-S", "-c", MEASURED, out, str(room), str(calls), str(LONG), *ended, *words]
    seconds, clock, peak, status = subprocess.run(command, stdout=subprocess.PIPE, check=True).stdout.split()
    return Timed(float(seconds), float(clock), 1024 * int(peak), int(status))


def peak_bytes(*words: str) -> int:
    return timed(math.inf, os.devnull, program(), *words).peak


def show(what: str, figure: float, bar: float, more: str = "") -> None:
    """One line of a table: a figure beside its bar."""
    print(f"{what:84} {figure:9.3f}   bar {bar}{more}{'   PAST IT' if figure > bar else ''}", flush=True)


def show_all(ratios: Iterable[float], what: str, bar: float) -> None:
    """The last line of a table: the greatest of these ratios, and the mean."""
    found = list(ratios)
    if found:
        print(f"of {len(found)} {what} the greatest is {max(found):.2f}, the mean {sum(found) / len(found):.2f} (bar {bar})")
