#!/usr/bin/env python3
"""Prints how the instructions of `check` grow with its input, counted by valgrind, its memory for each row, and its
writes, counted by strace; and then what finding costs: the instructions of `check` on a ring of 64 micro-ops and on
questions of 32 that ask for a long search, beside those of `verify` on the text that it wrote.

    bench/growth.py [QUESTION ..]      what finding costs alone, of these questions; or all of it

Counts are the same in each run, whatever else the machine does; only the line `by the clock` has times. Each ratio and
count stands beside its bar; the exit status is 0 where all was counted. It takes some ten minutes.
"""
import math
import os
import subprocess

from counting import call, chosen, counted, instructions, peak_bytes, program, saved, show, timed
from questions import ONE_WRITE, SEARCHED, STAGES, fences, ring, writes

EDGE = "AddEdge ((a, S), (b, S))"
NESTED = STAGES + f'Axiom "n": forall microops "a", forall microops "b", forall microops "c", {EDGE}.\n'
GUARDED = STAGES + f'Axiom "n": forall microops "a", IsAnyRead a => forall microops "b", forall microops "c", {EDGE}.\n'
ALONE = STAGES + 'Axiom "n": forall microops "a", IsAnyRead a => False.\n'
MANY = "".join(f'StageName {k} "S{k}".\n' for k in range(64)) + (
    'Axiom "n": forall microops "i", NodesExist ['
    + "; ".join(f"(i, ({core}, S{k}))" for core in range(2) for k in range(64)) + "].\n"
)
# what finding costs: the test, and how many million instructions a check may take
QUESTIONS = {
    "ring": ("the ring of 32 cores", ring(32), 45),
    "edges": ("a free choice of two edges (AddEdge) for each pair", writes(32), 36),
    "exists": ("a free choice of two edges (EdgeExists) for each pair", fences(32), 41),
    "node": ("the choice of an edge or a node, three quantifiers", fences(32), 816),
    "transitive": ("transitivity over program order", fences(32), 640),
    "cycles": ("long cycles of 63 stages", writes(32), 1080),
    "chain": ("a chain of 63 stages a micro-op, 21 times", fences(32), 1540),
}


def disjunctions(count: int) -> str:
    """A model that leaves so many Ors pending, all of which the first split makes true."""
    either = "AddEdge ((i, S), (i, T)) \\/ AddEdge ((i, T), (i, S))"
    return STAGES + "".join(f'Axiom "a": forall microops "i", {either}.\n' for _ in range(count))


def axioms(size: int) -> str:
    """A model of about so many bytes of axioms."""
    line = 'Axiom "a": forall microops "i", forall microops "j", ProgramOrder i j => AddEdge ((i, S), (j, S), "po").\n'
    return STAGES + line * ((size - len(STAGES)) // len(line))


def writes_of_a_graph() -> float:
    """The calls that write a graph to standard output, by strace, over one for 4,096 bytes and three more."""
    command = [program(), "check", *saved(MANY, writes(64))]
    text = subprocess.run(command, capture_output=True, check=False).stdout
    traced = subprocess.run(["strace", "-f", "-e", "trace=write", *command], stdout=subprocess.DEVNULL,
                            stderr=subprocess.PIPE, check=False).stderr
    return traced.count(b"write(1, ") / (-(-len(text) // 4096) + 3)


def show_finding(name: str) -> None:
    """One line of what finding costs."""
    what, test, bar = QUESTIONS[name]
    files = saved(SEARCHED[name], test)
    found = counted("check", *files)
    judged = instructions("verify", *files, *saved(found.text))
    print(f"{what:56} check {found.instructions / 1e6:9.1f} million, bar {bar:5}; verify {judged / 1e6:7.1f}, "
          f"ratio {found.instructions / judged:6.1f}", flush=True)


def show_growth() -> None:
    def count(model: str, test: str) -> int:
        return instructions("check", *saved(model, test))

    show("three quantifiers, 64 micro-ops over 32", count(NESTED, writes(64)) / count(NESTED, writes(32)), 9.6)
    show("a false guard under the first quantifier, over that quantifier alone",
         count(GUARDED, writes(64)) / count(ALONE, writes(64)), 1.5)
    show("1 MiB of axioms over half of it", count(axioms(1 << 20), ONE_WRITE) / count(axioms(1 << 19), ONE_WRITE), 2.2)
    show("2,000 pending disjunctions over 1,000, one split in both",
         count(disjunctions(2000), ONE_WRITE) / count(disjunctions(1000), ONE_WRITE), 2.3)
    # beside a check that has nothing to ground
    peak, least = (peak_bytes("check", *saved(model, writes(64))) for model in (NESTED, STAGES))
    show("bytes of memory for each row of three quantifiers over 64 micro-ops", (peak - least) / (2 * 64**3), 128)
    show("writes of a graph of some 160 KB, over one for 4,096 bytes and three more", writes_of_a_graph(), 1.0)


def show_clock() -> None:
    def seconds(count: int) -> float:
        return timed(math.inf, os.devnull, program(), "check", *saved(SEARCHED["exists"], fences(count)), calls=3).clock

    show("free choices of EdgeExists, 64 micro-ops over 32, by the clock", seconds(64) / seconds(32), 9)


def main(names: list[str]) -> int:
    questions = chosen("question", names, QUESTIONS)
    if not names:
        show_growth()
    for name in questions:
        show_finding(name)
    if not names:
        show_clock()
    return 0


if __name__ == "__main__":
    call(main)
