"""Says what a machine allows of a test.

    python3 tools verdicts MACHINE TEST
    python3 tools verdicts MACHINE --within SECONDS

Of a test it writes `yes` or `no`: whether the outcome comes up. Of a pattern it writes what its open reads get, a line
`row ..` for each way, as a sweep does, and `end`. The status is 3 where the machine does not run such tests.

The second form says it of one test after another: each line of standard input has a path, and each line that it writes a
list of rows, one without values where an outcome comes up, or null in place of status 3, all as JSON. Each test may take so
many seconds of a processor.
"""
import json
import resource
import sys
from importlib import import_module
from types import ModuleType

from tools.agree.litmus import NotRun, Test, read_file
from tools.second.patterns import ENDING as PATTERN
from tools.second.patterns import value_text

NOT_RUN = 3


def runs(machine: ModuleType, test: Test) -> bool:
    """Whether a machine runs tests of this kind: with page-table entries or without, and with locked instructions."""
    takes_entries = getattr(machine, "TAKES_ENTRIES", False)
    if test.has_entries or takes_entries:
        return test.has_entries and takes_entries
    return not test.has_locked or getattr(machine, "TAKES_LOCKED", False)


def rows_in(machine: ModuleType, test: Test) -> frozenset[str]:
    """What the open reads get in the outcomes that come up on a machine, each row as a sweep writes it."""
    return frozenset(" ".join(["row", *map(value_text, row)]) for row in test.rows_shown_by(machine.outcomes(test)))


def rows_of_file(machine: ModuleType, path: str) -> list[str] | None:
    """The rows of a test that come up on a machine; None where it does not run such tests. Of a test without open reads it is the row
    of no values, if its outcome comes up."""
    test = read_file(path)
    try:
        return sorted(rows_in(machine, test)) if runs(machine, test) else None
    except NotRun:
        return None


def say_all(machine: ModuleType, seconds: int) -> None:
    """Says it of each test that standard input names."""
    standing = resource.getrlimit(resource.RLIMIT_CPU)
    for question in sys.stdin:
        limit_time(seconds, standing)
        print(json.dumps(rows_of_file(machine, json.loads(question))), flush=True)


def limit_time(seconds: int, standing: tuple[int, int]) -> None:
    """Has the system end this process when it takes so many seconds more of a processor, or before by a limit that stands."""
    used = resource.getrusage(resource.RUSAGE_SELF)
    most = int(used.ru_utime + used.ru_stime) + 1 + seconds
    limits = [limit for limit in standing if limit != resource.RLIM_INFINITY]
    resource.setrlimit(resource.RLIMIT_CPU, (min([most, *limits]), standing[1]))


def main(name: str, *words: str) -> int:
    """Says what the machine allows, and answers the exit status."""
    machine = import_module(f"tools.agree.machines.{name}")
    if len(words) == 2 and words[0] == "--within":
        say_all(machine, int(words[1]))
        return 0
    (path,) = words
    rows = rows_of_file(machine, path)
    if rows is None:
        return NOT_RUN
    print(*([*rows, "end"] if path.endswith(PATTERN) else ["yes" if rows else "no"]), sep="\n")
    return 0
