#!/usr/bin/env python3
"""Prints what signs save: the splits of the search of `check2` and of `check`, on random questions with many choices and on
shipped pairs, beside cadical with its proof; and what a line costs to judge in each version.

    bench/signs.py                     all of it
    bench/signs.py AXIOMS SEED         the random question of so many axioms and this seed alone

The random questions are those of bench/questions.py. Splits are those of the search, counted as its turns. They stand over the
splits of the search of 28 November 2026, which took the first choice in version 1 and the one closed most often in version 2;
those are typed in here, so that the denominators stay. Splits and instructions are the same in each run; times are the least of
three calls, in one run. Each ratio stands beside its bar; the exit status is 1 where verdicts differ or the words are others, and
else 0. It takes ten minutes on four processors.
"""
import os
from dataclasses import dataclass

import solvers
from counting import Counted, at_once, call, counted, instructions, program, saved, show, timed
from questions import FIRST_PAIRS, ONE_WRITE, choices

COMMANDS = ("check", "check2")
LIMIT = 600.0
# how many splits the refutations of the first pairs had in the texts of `check`, and the bar of those of now over them
WRITTEN_BEFORE, WRITTEN_BAR = 3_004, 0.55


@dataclass(frozen=True)
class Group:
    """Questions: axioms and seeds, or the shipped pairs of 28 November 2026; the splits of the search of that day, of `check` and of
    `check2`, and the bars of those of now over them."""

    what: str
    questions: list[tuple[int, int]]
    before: tuple[int, int]
    bars: tuple[float, float]


GROUPS = [
    Group("four questions of 130 and 140 choices", [(130, 1), (130, 6), (140, 1), (140, 6)], (141_356, 9_538), (0.25, 0.75)),
    # the first four of 120 axioms that are unobservable
    Group("four questions of 120 choices", [(120, 1), (120, 2), (120, 3), (120, 8)], (1_669_964, 7_909), (0.05, 1.0)),
]
PAIRS = Group(f"{len(FIRST_PAIRS)} shipped pairs", [], (4_075, 4_021), (1.0, 1.0))


def tell_splits(group: Group, counts: list[list[Counted]]) -> None:
    """The splits of both versions over those of before."""
    splits = [sum(count.turns for count in half) for half in counts]
    for command, now, before, bar in zip(COMMANDS, splits, group.before, group.bars):
        show(f"{group.what}: splits of {command}", now / before, bar, f"   {now} over {before}")
    print(f"{group.what}: splits of check2 over those of check before: {splits[1] / group.before[0]:.3f}", flush=True)


def line_cost(paths: list[str], count: Counted) -> float:
    """The instructions of `verify` for each line of the text, without those for the files."""
    head, whole = (instructions("verify", *paths, text) for text in saved(f"{count.first}\n", count.text))
    return (whole - head) / count.text.count("\n")


def ask(axioms: int, seed: int) -> tuple[list[Counted], list[float], bool]:
    """One random question: what both versions take, what a line of each costs, and whether the verdicts are one."""
    paths = saved(choices(axioms, seed), ONE_WRITE)
    counts = [counted(command, *paths) for command in COMMANDS]
    took = [timed(LIMIT, os.devnull, program(), command, *paths, calls=3).seconds for command in COMMANDS]
    verdicts = {solvers.verdict_of(count.text) for count in counts}
    beside = ""
    for name, peer in solvers.asked(paths, "cadical", limit=LIMIT):
        assert peer is not None
        verdicts |= {peer.verdict} if peer.call.has_ended else set()
        beside = f"   {name} with its proof {1000 * peer.call.seconds:8.1f} ms"
    print(f"{axioms} axioms, seed {seed}: {counts[0].turns:6} splits, {counts[1].turns:6} with signs"
          f"   {1000 * took[0]:8.1f} ms, {1000 * took[1]:8.1f} ms{beside}", flush=True)
    return counts, [line_cost(paths, count) for count in counts], len(verdicts) == 1


def random_questions(group: Group) -> bool:
    """The random questions of a group. Whether the verdicts are one."""
    found = [ask(axioms, seed) for axioms, seed in group.questions]
    tell_splits(group, [[counts[k] for counts, _, _ in found] for k in range(2)])
    ratio = sum(costs[1] for _, costs, _ in found) / sum(costs[0] for _, costs, _ in found)
    show(f"{group.what}: verify, instructions a line", ratio, 1.1)
    return all(same for _, _, same in found)


def first_pairs() -> bool:
    """The shipped pairs of 28 November 2026. Whether the verdicts are one."""
    counts = at_once(lambda words: counted(*words), [(command, *pair) for command in COMMANDS for pair in FIRST_PAIRS])
    plain, signed = counts[: len(FIRST_PAIRS)], counts[len(FIRST_PAIRS):]
    tell_splits(PAIRS, [plain, signed])
    written = sum(count.text.count("\nsplit ") for count in plain)
    show(f"{PAIRS.what}: splits written by check", written / WRITTEN_BEFORE, WRITTEN_BAR, f"   {written} over {WRITTEN_BEFORE}")
    return all(one.first == other.first for one, other in zip(plain, signed))


def main(words: list[str]) -> int:
    if len(words) not in (0, 2) or not all(word.isdecimal() for word in words):
        raise SystemExit(__doc__)
    if words:
        same = ask(int(words[0]), int(words[1]))[2]
    else:
        same = all([random_questions(group) for group in GROUPS] + [first_pairs()])
    if not same:
        print("VERDICTS DIFFER")
    return 0 if same else 1


if __name__ == "__main__":
    call(main)
