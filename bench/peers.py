#!/usr/bin/env python3
"""Prints how long the program takes beside solvers of the system's packages, in one run, and compares the verdicts.

    bench/peers.py [RING ..]                           rings of so many cores (4, 8, 12 and 16 where none are named), and litmus
                                                    tests on shipped pipelines, each beside all solvers that are here
    bench/peers.py --shipped [--test TEST] [MODEL ..]  all shipped tests, or this one, on all shipped models, or these, beside z3

docs/performance.md says what a ring is, and bench/solvers.py how the others are asked. A time is the least of five calls, and
with --shipped of one, one after the other, so that a pair is timed on a machine in one state; the ten slowest pairs are printed. The
bars: at 16 cores at most 1.0 times cadical and 0.5 times z3; a litmus test at most 0.2 times z3; with --shipped 0.2 times z3
in total, and no pair over 2 times. The exit status is 1 where verdicts differ or one does not come, 2 where there is no z3 or no
such model or test, and else 0.
"""
import math
import shutil
from itertools import product
from pathlib import Path

import solvers
from counting import Misused, call, chosen, names_of, program, saved, shipped, timed
from questions import RING, ring

CALLS, SLOWEST = 5, 10


def beside(paths: list[str], calls: int, *names: str) -> tuple[float, bool | None, dict[str, float], bool]:
    """The seconds of `check` by the clock, its verdict, the seconds of these solvers, and whether all verdicts are one."""
    [answer] = saved("")
    ours = timed(math.inf, answer, program(), "check", *paths, calls=calls).clock
    verdict = solvers.verdict_of(Path(answer).read_text("ascii"))
    verdicts, theirs = {verdict}, {}
    for name, found in solvers.asked(paths, *names, calls=calls):
        assert found is not None
        verdicts.add(found.verdict)
        theirs[name] = found.call.clock
    return ours, verdict, theirs, len(verdicts) == 1 and verdict is not None


def compare(name: str, paths: list[str]) -> bool:
    """One line of the table. Whether all verdicts are one."""
    ours, verdict, theirs, same = beside(paths, CALLS, *solvers.SOLVERS)
    said = {None: "no verdict", False: "unobservable", True: "observable"}[verdict]
    cells = [f"{name:24} {1000 * ours:8.1f} ms {said:12}"]
    cells += [f"{solver} {1000 * seconds:8.1f} ms, {ours / seconds:5.2f} x" for solver, seconds in theirs.items()]
    print("   ".join(cells) + ("" if same else "   VERDICTS DIFFER"), flush=True)
    return same


def some(rings: list[int]) -> int:
    """The rings and some litmus tests. The exit status."""
    same = [compare(f"ring of {cores}", saved(RING, ring(cores))) for cores in rings]
    for model, test in product(("sc-inorder", "tso-buffer"), ("MP", "SB", "IRIW")):
        same.append(compare(f"{test} on {model}", shipped("models", model) + shipped("tests", test)))
    return 0 if all(same) else 1


def all_shipped(words: list[str]) -> int:
    """The shipped pairs that the words name. The exit status."""
    of_test = words[1:2] if words[:1] == ["--test"] else []
    models = chosen("model", words[2:] if of_test else words, names_of("models"))
    tests = chosen("test", of_test, names_of("tests"))
    if not shutil.which("z3"):
        raise Misused("peers: there is no z3 here, which the program is timed beside")
    pairs, differ = [], 0
    for model, test in product(models, tests):
        ours, _, theirs, same = beside(shipped("models", model) + shipped("tests", test), 1, "z3")
        pairs.append((ours, theirs["z3"], f"{model} {test}"))
        if not same:
            differ += 1
            print(f"VERDICTS DIFFER: {model} {test}", flush=True)
    for one, other, name in sorted(pairs, reverse=True)[:SLOWEST]:
        print(f"{name:40} {1000 * one:8.1f} ms   z3 {1000 * other:8.1f} ms, {one / other:5.2f} x")
    one, other = sum(pair[0] for pair in pairs), sum(pair[1] for pair in pairs)
    most = max(one / other for one, other, _ in pairs)
    print(f"{len(pairs)} pairs: {one:.2f} s, z3 {other:.2f} s, {one / other:.3f} x (bar 0.2); "
          f"at most {most:.2f} x for a pair (bar 2); {differ} verdicts differ")
    return 1 if differ else 0


def main(words: list[str]) -> int:
    if words[:1] == ["--shipped"]:
        return all_shipped(words[1:])
    if not all(word.isdecimal() for word in words):
        raise Misused(__doc__)
    return some([int(word) for word in words] or [4, 8, 12, 16])


if __name__ == "__main__":
    call(main)
