#!/usr/bin/env python3
"""bench/same.py OLD NEW: whether two builds of the program write the same bytes, with the same exit statuses: `check` of all
shipped models on all shipped tests and of the questions of bench/growth.py, and `gen`.

It prints each call that differs, and how many calls there were; the exit status is 1 where some differ. It takes a minute
or two with questions of 8 and 16 micro-ops; `--long` asks those of 32 and 64 too.

bench/same.py --count OLD NEW counts the instructions of `check` instead, of the pairs of bench/questions.py, with
`valgrind --tool=callgrind`. It prints those of NEW over those of OLD, in total and the greatest of a pair; the bar of the
total is 1.05, which leaves room for the shortening of refutations over the program of 29 November 2026. It takes six
minutes on four processors.

bench/same.py --random COUNT [--seconds N] OLD NEW compares the verdicts alone, of `check` and `check2` on so many random models
and tests, made by seeds; and has NEW judge by `verify` each text that NEW wrote. What OLD does not answer within N seconds,
or ten, is counted and not compared. NEW has three times as long, so that a question at the edge is no fault. The exit status
is 1 where a verdict differs or a text is refused, or where NEW does not answer. It takes two minutes for 3,000.
"""
import glob
import os
import subprocess
import sys
import tempfile
from collections.abc import Iterator
from concurrent.futures import ThreadPoolExecutor
from itertools import product
from random import Random

from counting import TOP, call, under_callgrind
from questions import FIRST_PAIRS, ONE_WRITE, SEARCHED, choices, fences, ring, writes

# what a program writes, and its exit status
Answer = tuple[bytes, int]


def named(path: str, text: str) -> str:
    """A file of this name, which is told where something is wrong."""
    with open(path, "w", encoding="latin-1") as file:
        file.write(text)
    return path


def calls(folder: str, is_long: bool) -> Iterator[list[str]]:
    for pair in product(*(sorted(glob.glob(f"{TOP}/examples/**/*.{it}", recursive=True)) for it in ("uspec", "test"))):
        yield ["check", *pair]
    for cores in (2, 3, 4):
        yield ["gen", str(cores)]
    for size in (4, 8, 32) if is_long else (4, 8):
        kinds = {"ring": ring(size), "writes": writes(size), "fences": fences(size)}
        for name, text in SEARCHED.items():
            for kind, test in kinds.items():
                if (name == "ring") == (kind == "ring"):
                    yield ["check", named(f"{folder}/{name}.uspec", text), named(f"{folder}/{kind}{size}.test", test)]


def answer(program: str, words: list[str], seconds: float | None = None) -> Answer | None:
    """What the program writes, and its exit status; None where it has not ended after so many seconds."""
    try:
        done = subprocess.run([program, *words], stdout=subprocess.PIPE, check=False, timeout=seconds)
    except subprocess.TimeoutExpired:
        return None
    return done.stdout, done.returncode


def compare_bytes(old: str, new: str, is_long: bool) -> bool:
    """Compares what both write. Whether all is the same."""
    count = differ = 0
    with tempfile.TemporaryDirectory() as folder:
        for words in calls(folder, is_long):
            count += 1
            if answer(old, words) != answer(new, words):
                differ += 1
                print("differs:", " ".join(words), flush=True)
    print(f"{count} calls, {differ} differ")
    return differ == 0


def compare_counts(old: str, new: str) -> bool:
    """Prints the instructions of the new program over those of the old one, which are no fault."""
    with ThreadPoolExecutor(os.cpu_count()) as pool:
        before, after = (
            list(pool.map(lambda pair, program=program: under_callgrind("/dev/null", program, "check", *pair)[0], FIRST_PAIRS))
            for program in (old, new)
        )
    share, pair = max((b / a, pair) for a, b, pair in zip(before, after, FIRST_PAIRS))
    names = " ".join(os.path.basename(path) for path in pair)
    print(f"{len(FIRST_PAIRS)} pairs: {sum(after) / sum(before):.3f} in total, bar 1.05; at most {share:.3f}, of {names}")
    return True


def random_pair(folder: str, seed: int) -> list[str]:
    """A model and a test: choices between edges, or what tests/random_texts.py made in the folder."""
    model, test = f"{folder}/{seed}.uspec", f"{folder}/{seed}.test"
    if seed % 2:
        random = Random(seed)
        stages = random.randint(4, 9)
        named(model, choices(random.randint(stages, 6 * stages), seed, stages))
        named(test, ONE_WRITE)
    return [model, test]


def judge_random(made: str, old: str, new: str, seed: int, seconds: int) -> tuple[list[str], bool, int]:
    """What is wrong of a random pair, one line each; whether it has a verdict; and how many answers of OLD did not come."""
    wrong, has_verdict, late = [], False, 0
    paths = random_pair(made, seed)
    for command in ("check", "check2"):
        before = answer(old, [command, *paths], seconds)
        now = answer(new, [command, *paths], 3 * seconds)
        if now is None:
            wrong.append(f"seed {seed}: {command} has no answer in time")
            continue
        after, also = now
        if before is None:
            late += 1
        elif before[1] != also or before[0].partition(b"\n")[0] != after.partition(b"\n")[0]:
            wrong.append(f"seed {seed}: {command} says {after[:40]!r}, and said {before[0][:40]!r}")
        if also in (0, 1):
            has_verdict = True
            certificate = named(f"{made}/{seed}.{command}", after.decode("latin-1"))
            if answer(new, ["verify", *paths, certificate]) != (b"verified " + after.partition(b"\n")[0] + b"\n", also):
                wrong.append(f"seed {seed}: verify refuses what {command} writes")
    return wrong, has_verdict, late


def compare_random(count: int, seconds: int, old: str, new: str) -> bool:
    """Compares the verdicts on random models and tests. Whether all are one and all texts are taken."""
    with tempfile.TemporaryDirectory() as made, ThreadPoolExecutor(os.cpu_count()) as pool:
        subprocess.run([sys.executable, "-m", "tests.random_texts", made, *map(str, range(0, count, 2))], cwd=TOP, check=True)
        found = list(pool.map(lambda seed: judge_random(made, old, new, seed, seconds), range(count)))
    for wrong, _, _ in found:
        for line in wrong:
            print(line, flush=True)
    bad = sum(bool(wrong) for wrong, _, _ in found)
    print(f"{count} random pairs, {sum(has_verdict for _, has_verdict, _ in found)} with a verdict, {bad} wrong; "
          f"{sum(late for _, _, late in found)} answers of OLD did not come in time")
    return bad == 0


def main(given: list[str]) -> int:
    match [word for word in given if word not in ("--long", "--count")]:
        case ["--random", count, "--seconds", seconds, old, new] if count.isdecimal() and seconds.isdecimal():
            is_same = compare_random(int(count), int(seconds), old, new)
        case ["--random", count, old, new] if count.isdecimal() and old != "--seconds":
            is_same = compare_random(int(count), 10, old, new)
        case [old, new]:
            is_same = compare_counts(old, new) if "--count" in given else compare_bytes(old, new, "--long" in given)
        case _:
            print(__doc__)
            return 2
    return 0 if is_same else 1


if __name__ == "__main__":
    call(main)
