#!/usr/bin/env python3
"""Asks families of hard tests on all shipped models, with `check` and with `check2`, and prints how many of them took over 1 s
and over 10 s of a processor, and the slowest.

    bench/families.py [FIRST LAST [MODEL ..]]  the tests of these seeds, or of 1 to 30, on these models, or on all
    bench/families.py FAMILY SEED              the text of one test

bench/makers.py has the families. A second is one of a processor of 2.5 GHz, so the limits stand for 2.5 G and 25 G of cycles, and
for at most some more instructions; a call is ended soon after the second. Rings of store buffers with a fence on each core are
left out on `tso-lines`: their refutations have 2^n steps for n cores in any order. So have those of the other rings and of chains
there, so a last line leaves out all of these. The bars are 1.5 % and 0.3 % of the questions of each version. The exit status is 1
where verdicts differ or a call fails, 2 where the words are others, and else 0. All takes ten minutes on four processors.
"""
import math
import os
import signal
from dataclasses import dataclass
from itertools import product

from counting import Misused, at_once, call, chosen, names_of, program, saved, shipped, timed
from makers import FAMILIES, drawn, is_fenced_ring

COMMANDS = ("check", "check2")
SEEDS = range(1, 31)
# seconds, and the share of the questions that may take longer
BARS = ((1, 0.015), (10, 0.003))
LIMIT = 10
SLOWEST = 10
# the model, and the families whose refutations on it are long in any order
LONG_MODEL, LONG_FAMILIES = "tso-lines", ("readers", "dekker", "chains")
# the statuses of an answer
ANSWERS = {0: "observable", 1: "unobservable"}


@dataclass(frozen=True)
class Asked:
    """A question: its family, its seed, the model and the command; its seconds, and the status of the call, negative where a signal
    ended it."""

    family: str
    seed: int
    model: str
    command: str
    seconds: float
    status: int

    @property
    def name(self) -> str:
        return f"{self.family} {self.seed} on {self.model}"

    @property
    def verdict(self) -> str | None:
        """None where it took too long, or the call failed."""
        return ANSWERS.get(self.status)


def asked_of(family: str, seed: int, model: str, command: str, test: str) -> Asked:
    """What a call takes, which ends soon after the limit."""
    limited = ["prlimit", f"--cpu={LIMIT + 1}", program(), command]
    took = timed(math.inf, os.devnull, *limited, *shipped("models", model), test)
    # what ends a call past its limit counts in another way than what says how long it took
    least = LIMIT + 1 if took.status == -signal.SIGKILL else 0
    return Asked(family, seed, model, command, max(least, took.seconds), took.status)


def ask_all(seeds: range, models: list[str]) -> list[Asked]:
    """All questions of these seeds and models, on all processors."""
    asked: list[tuple[str, int, str, str, str]] = []
    for seed, family in product(seeds, FAMILIES):
        text = drawn(family, seed)
        [test] = saved(text)
        here = [it for it in models if it != LONG_MODEL or not is_fenced_ring(family, text)]
        asked += ((family, seed, model, command, test) for model, command in product(here, COMMANDS))
    return at_once(lambda it: asked_of(*it), asked)


def tell(what: str, found: list[Asked], is_barred: bool = False) -> None:
    """A line of how many took over the limits."""
    shares = []
    for seconds, bar in BARS:
        count = sum(it.seconds > seconds for it in found)
        beside = f" (bar {100 * bar:.1f} %{', PAST IT' if count > bar * len(found) else ''})" if is_barred else ""
        shares.append(f"{count} over {seconds} s, {100 * count / max(1, len(found)):.2f} %{beside}")
    print(f"{what:42} {len(found):5} questions: {'; '.join(shares)}; {sum(it.seconds for it in found):.1f} s in all", flush=True)


def tell_all(found: list[Asked]) -> bool:
    """The tables. Whether all calls went well."""
    for command in COMMANDS:
        of_command = [it for it in found if it.command == command]
        for family in FAMILIES:
            tell(f"{command:6} {family}", [it for it in of_command if it.family == family])
        others = [it for it in of_command if it.model != LONG_MODEL or it.family not in LONG_FAMILIES]
        tell(f"{command:6} all", of_command, is_barred=True)
        tell(f"{command:6} all but rings and chains on {LONG_MODEL}", others, is_barred=True)
    for it in sorted(found, key=lambda it: -it.seconds)[:SLOWEST]:
        print(f"{it.seconds:7.2f} s   {it.command:6} {it.name}: {it.verdict or 'no end'}")
    verdicts: dict[str, set[str]] = {}
    for it in found:
        if it.verdict is not None:
            verdicts.setdefault(it.name, set()).add(it.verdict)
    faults = [f"VERDICTS DIFFER: {name}" for name, said in verdicts.items() if len(said) > 1]
    # in time, and without an answer
    failed = [it for it in found if it.verdict is None and it.seconds < LIMIT]
    faults += [f"{it.command} {it.name} ended with status {it.status}" for it in failed]
    for fault in faults:
        print(fault)
    return not faults


def main(words: list[str]) -> int:
    if len(words) == 2 and words[0] in FAMILIES and words[1].isdecimal():
        print(drawn(words[0], int(words[1])), end="")
        return 0
    models = chosen("model", words[2:], names_of("models"))
    are_seeds = len(words) != 1 and all(word.isdecimal() for word in words[:2])
    seeds = range(int(words[0]), int(words[1]) + 1) if words and are_seeds else SEEDS
    if not are_seeds or not seeds:
        raise Misused(f"{__doc__}\nThe families are {', '.join(FAMILIES)}.")
    return 0 if tell_all(ask_all(seeds, models)) else 1


if __name__ == "__main__":
    call(main)
