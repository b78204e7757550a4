#!/usr/bin/env python3
"""Prints what long tests cost, as an architect writes or records them: turns of the search, instructions, seconds and peak
memory of `check` and `check2`, beside the splits of the second implementation, which makes the same choices, and beside
cadical and z3.

    bench/runs.py [--counting SECONDS] [QUESTION ..]   the questions of these names, or all of them
    bench/runs.py --many                               the seconds of `check` on 108 runs of 64 micro-ops

bench/makers.py says what a lock and a run are. In a lock here each core has one section.

The splits of the second implementation are calls of a function of its own, counted by Python's profiler. A question that it
does not answer within SECONDS by the clock (a minute, if nothing is said; with 0 it is not asked) is told as not counted. The
family `benches` has what another program counted of all. The bars: at most 1.2 times its
splits, a second of one processor and 32 MiB for `check` and `check2` each; with --many two seconds for each. The solvers get
a question where the second implementation can write it within twenty seconds. Turns, splits and instructions are the same in
each run; the least of three times is shown. What is past a bar is told. The exit status is 1 where verdicts differ or
something could not be counted, 2 where there is no such question, and else 0. It takes half an hour.
"""
import marshal
import os
from pathlib import Path

import solvers
from counting import MIB, at_once, call, chosen, counted, program, saved, shipped, timed
from makers import lock, run
from questions import FIRST_MODELS, RING, ring

TURNS_BAR, SECONDS_BAR, PEAK_BAR, MANY_BAR = 1.2, 1.0, 32 * MIB, 2.0
LIMIT, WRITING_LIMIT, COUNTING_LIMIT = 60.0, 20.0, 60.0
CALLS = 3
# twelve kinds of runs on each of nine models
MANY = 108
# what the second implementation calls for each split: the end of its file, and its name
SPLIT = "/second/conflicts.py", "split"


# each with a shipped model, or that of the ring, and its test
QUESTIONS: dict[str, tuple[str, str]] = {
    "lock-4-lost": ("tso-buffer", lock(range(4), True)),
    "lock-5-lost": ("tso-buffer", lock(range(5), True)),
    "lock-6-lost": ("tso-buffer", lock(range(6), True)),
    "lock-8": ("tso-buffer", lock(range(8), False)),
    "lock-8-lost": ("tso-buffer", lock(range(8), True)),
    "lock-12-lost": ("tso-buffer", lock(range(12), True)),
    "run-1": ("tso-ooo", run(1, 6, 4, 2, 2, 1)),
    "run-3": ("tso-ooo", run(3, 8, 8, 2, 2, 1)),
    "run-9": ("tso-ooo", run(9, 8, 8, 2, 3, 1)),
    "run-5": ("tso-drain", run(5, 8, 8, 2, 2, 0)),
    "run-7": ("weak-ooo", run(7, 8, 8, 2, 2, 1)),
    "run-8": ("sc-inorder", run(8, 8, 8, 4, 2, 1)),
    "lines-11": ("tso-lines", run(11, 4, 8, 4, 1000, 1)),
    "lines-12": ("tso-lines", run(12, 8, 4, 2, 2, 1)),
    "lines-13": ("tso-lines", run(13, 6, 6, 2, 3, 0)),
    "ring-8": ("ring", ring(8)),
    "ring-16": ("ring", ring(16)),
    "ring-32": ("ring", ring(32)),
}


def splits_of_second(command: str, paths: list[str], limit: float, verdicts: set[bool | None]) -> int | None:
    """How many splits the second implementation makes for a command, None where it takes longer. Its verdict is put to the others."""
    profile, answer = saved("", "")
    *python, tools, word = solvers.SECOND
    entry = [f"{tools}/__main__.py", word]
    if not limit or not timed(limit, answer, *python, "-m", "cProfile", "-o", profile, *entry, command, *paths).has_ended:
        return None
    verdicts.add(solvers.verdict_of(Path(answer).read_text("ascii")))
    calls = {(path, name): how[1] for (path, _, name), how in marshal.loads(Path(profile).read_bytes()).items()}
    found = [count for (path, name), count in calls.items() if path.endswith(SPLIT[0]) and name == SPLIT[1]]
    if len(found) != 1:
        raise SystemExit(f"not counted: the second implementation calls no {SPLIT[1]} of {SPLIT[0]}")
    return int(found[0])


def tell_check(command: str, paths: list[str], limit: float, verdicts: set[bool | None]) -> None:
    """One line of `check` or `check2`, whose verdict is put to the others."""
    took = timed(LIMIT, os.devnull, program(), command, *paths, calls=CALLS)
    if not took.has_ended:
        print(f"    {command:7} no end within {LIMIT:.0f} s", flush=True)
        return
    count = counted(command, *paths)
    verdicts.add(solvers.verdict_of(count.text))
    splits = splits_of_second(command, paths, limit, verdicts)
    beside = f"not counted by the second implementation within {limit:.0f} s" if splits is None else \
        f"{count.turns / splits:5.2f} x {splits} (bar {TURNS_BAR})"
    within = (splits is None or count.turns <= TURNS_BAR * splits) and took.seconds <= SECONDS_BAR and took.peak <= PEAK_BAR
    print(f"    {command:7} {count.first:12} {count.turns:6} turns, {beside}; "
          f"{count.instructions / 1e6:8.1f} million instructions; {took.seconds:6.3f} s (bar {SECONDS_BAR}); "
          f"{took.peak / MIB:5.1f} MiB (bar {PEAK_BAR // MIB}){'' if within else '   PAST A BAR'}", flush=True)


def tell_solver(name: str, found: solvers.Answered | None, verdicts: set[bool | None]) -> None:
    """One line of a solver. Its verdict is put to the others."""
    if found is None:
        print(f"    {name:7} not asked: the question is not written within {WRITING_LIMIT:.0f} s", flush=True)
    elif not found.call.has_ended:
        print(f"    {name:7} no end within {LIMIT:.0f} s", flush=True)
    else:
        verdicts.add(found.verdict)
        print(f"    {name:7} {found.call.seconds:6.3f} s, {found.size / 1e6:.1f} MB of question", flush=True)


def ask(name: str, limit: float) -> bool:
    """The lines of a question. Whether all verdicts are one."""
    model, test = QUESTIONS[name]
    verdicts: set[bool | None] = set()
    print(f"{name} on {model}")
    paths = (saved(RING) if model == "ring" else shipped("models", model)) + saved(test)
    for command in ("check", "check2"):
        tell_check(command, paths, limit, verdicts)
    for solver, found in solvers.asked(paths, "cadical", "z3", writing=WRITING_LIMIT, limit=LIMIT):
        tell_solver(solver, found, verdicts)
    if len(verdicts) > 1:
        print("    VERDICTS DIFFER")
    return len(verdicts) <= 1


def asked_of_many(seed: int) -> tuple[float, str]:
    """The seconds of `check` on one of the many runs, and what it is."""
    addresses, values, stale = (2, 4)[seed % 2], (2, 3, 1000)[seed // 2 % 3], seed // 6 % 2
    name = FIRST_MODELS[seed // 12 % len(FIRST_MODELS)]
    test, answer = saved(run(seed, 8, 8, addresses, values, stale), "")
    took = timed(LIMIT, answer, program(), "check", *shipped("models", name), test)
    verdict = Path(answer).read_text("ascii").partition("\n")[0].strip() if took.has_ended else "no end"
    return took.seconds, f"run {seed}, {addresses} addresses, {values} values, {stale} stale reads, on {name}: {verdict}"


def ask_many() -> None:
    """The slowest of many runs."""
    calls = sorted(at_once(asked_of_many, range(MANY), max(1, (os.cpu_count() or 1) // 2)), reverse=True)
    for seconds, what in calls[:10]:
        print(f"{seconds:7.3f} s   {what}")
    past = sum(seconds > MANY_BAR for seconds, _ in calls)
    print(f"{MANY} runs of 64 micro-ops: {sum(seconds for seconds, _ in calls):.1f} s, {past} past the bar of {MANY_BAR:.0f} s")


def main(words: list[str]) -> int:
    if words == ["--many"]:
        ask_many()
        return 0
    limit = COUNTING_LIMIT
    if words[:1] == ["--counting"] and words[1:2] and words[1].isdecimal():
        limit, words = float(words[1]), words[2:]
    return 0 if all([ask(name, limit) for name in chosen("question", words, QUESTIONS)]) else 1


if __name__ == "__main__":
    call(main)
