#!/usr/bin/env python3
"""Prints what commands take beside `check`, or beside the command that wrote what they judge. Each figure stands beside its bar.

    bench/commands.py                      all of these, some ten minutes
    bench/commands.py ask [MODEL ..]       of all questions of examples/queries, or those on these models: over one `check`
    bench/commands.py core [MODEL ..]      of MP, SB and IRIW on all shipped models, or these: over as many checks as it makes searches
    bench/commands.py sweep [MODEL]        of 4,096 rows on sc-inorder, or the model at this path: over the checks of its rows
    bench/commands.py lift [all]           of some shipped tests on all models, or of all, which takes half an hour: over `verify`
    bench/commands.py verify               over the `check` that wrote the text, and how it grows with the text
    bench/commands.py verify-lifted        how it grows with the text, and how its memory stands to the ground tree, which is never made

- An *ask* reads three files, makes two ground trees and two searches.
- A *core* makes a search for each axiom and one more, then one for the set and one for each of its members; where the outcome
  is observable it makes one, and is beside the table. Files are read and closed once.
- A *sweep* stands beside `check` of 64 of its rows, drawn evenly, times 64; and the peak of its heap beside the greatest of those.
  How the heap grows with the rows alone is asked on a model to which values are all the same, of 64 rows and of 4,096.
- A *lift* may take three times the instructions of `verify` of the refutation, and 3,000 for each line that it writes; the
  greatest share of that which one took is shown, and the bytes of the lifted texts over those of the refutations.
- `verify-lifted` is asked of what `lift` makes of a refutation for two micro-ops, beside a test of 64, with which the ground tree
  would have some 66 million positions, and beside one of none; and of a refutation that splits one choice again and again.

Instructions and the heap are counted by valgrind, and are the same in each run, whatever else the machine does. The exit status
is 1 where the verdict of a row of a sweep differs from that of its check or something could not be counted, 2 where the words
are others, and else 0.
"""
import math
import re
from collections.abc import Callable
from itertools import product
from pathlib import Path

from counting import (
    MIB, TOP, Misused, at_once, call, chosen, counted, heap_peak, instructions, names_of, peak_bytes, program, saved, shipped,
    show, show_all, timed
)
from questions import ONE_WRITE, RING, access, choices, fences_apart, ring, test_of

Words = tuple[str, ...]


def of_examples(*names: str) -> list[str]:
    return [f"{TOP}/examples/{name}" for name in names]


def ask(*models: str) -> bool:
    rows = [line.split("\t") for line in Path(*of_examples("queries/answers.tsv")).read_text("ascii").splitlines()[1:]]
    ratios, known = [], chosen("model", models, sorted({row[1] for row in rows}))
    for query, model, test, word in rows:
        if model in known:
            paths = shipped("models", model) + shipped("tests", test)
            single, spent = instructions("check", *paths), instructions("ask", *paths, *shipped("queries", query))
            ratios.append(spent / single)
            print(f"{query:24} {model:12} {test:11} {word:9} {spent / 1e6:6.1f} million, a check {single / 1e6:5.1f}: "
                  f"{spent / single:.2f}", flush=True)
    show_all(ratios, "questions", 2.2)
    return True


def core(*models: str) -> bool:
    ratios = []
    for model, test in product(chosen("model", models, names_of("models")), ("MP", "SB", "IRIW")):
        paths = shipped("models", model) + shipped("tests", test)
        found, single = counted("core", *paths), instructions("check", *paths)
        axioms = len(re.findall(r"^Axiom ", Path(paths[0]).read_text("ascii"), re.M))
        searches = 1 if found.first == "core none" else axioms + 2 + int(found.first.split()[1])
        ratio = found.instructions / (searches * single)
        print(f"{model:12} {test:4} {found.first:9} {searches:3} searches {found.instructions / 1e6:7.1f} million, "
              f"a check {single / 1e6:5.1f}: {ratio:.2f}", flush=True)
        ratios += [ratio] if searches > 1 else []
    show_all(ratios, "pairs with a core", 0.7)
    return True


CORES = 3
ROWS = list(product(range(CORES + 1), repeat=2 * CORES))
DRAWN = 64


def row_of(values: tuple[int | str, ...]) -> str:
    """Three cores, two addresses that each writes once, and six reads, which get these values; `Any` leaves one open."""
    return test_of(
        (core, [op]) for core in range(CORES) for at in range(2)
        for op in (access("Write", (core + at) % 2, core + 1), access("Read", (core + at + 1) % 2, values[2 * core + at]))
    )


def alike(count: int) -> str:
    """A pattern of twelve open reads, of which so many are of an address that is written: 2 to this power are its rows."""
    reads = [(1, [access("Read", 0 if k < count else 1, "Any")]) for k in range(12)]
    return test_of([(0, [access("Write", 0, 1)]), *reads])


def sweep(model: str = "") -> bool:
    """What a sweep takes beside the checks of its rows. Whether the verdicts are the same."""
    model = model or shipped("models", "sc-inorder")[0]
    [pattern] = saved(row_of(("Any",) * 2 * CORES))
    whole = counted("sweep", model, pattern)
    rows = [line.split() for line in whole.text.splitlines() if line.startswith("row ")]
    found = {tuple(map(int, row[1:-1])): row[-1] for row in rows}
    if list(found) != ROWS:
        raise SystemExit(f"not counted: no pattern of {len(ROWS)} rows is swept: {whole.text[:80]!r}")
    part, single, heap, same = len(ROWS) // DRAWN, 0, 0, True
    for row in (ROWS[k * part + 37 * k % part] for k in range(DRAWN)):
        [test] = saved(row_of(row))
        check = counted("check", model, test)
        single, heap = single + check.instructions, max(heap, heap_peak("check", model, test))
        same = same and check.first == found[row]
    print(f"{len(ROWS)} rows, {list(found.values()).count('observable')} observable")
    alone = single * part
    show("instructions of a sweep over those of checks of its rows", whole.instructions / alone, 0.9,
         f"   {whole.instructions:,} over {alone:,}")
    peak = heap_peak("sweep", model, pattern)
    print(f"heap: {peak:,} bytes of the sweep, {heap:,} of a check of {DRAWN} at most", flush=True)
    few, many = (heap_peak("sweep", *of_examples("po.uspec"), *saved(alike(k))) for k in (6, 12))
    show("bytes of the heap for a row, from 64 to 4,096 rows", (many - few) / (2**12 - 2**6), 1.0, f"   {few:,} to {many:,}")
    if not same:
        print("VERDICTS DIFFER")
    return same


def lift_of(pair: Words) -> tuple[float, int, int] | None:
    """Of a model and a test whose outcome is not observable: the share that `lift` takes of what it may, the bytes that it
    writes, and those of the refutation; None of others."""
    refutation = counted("check", *pair).text
    if not refutation.startswith("unobservable\n"):
        return None
    files = [*pair, *saved(refutation)]
    judging = instructions("verify", *files, says="verified unobservable\n")
    lifting = counted("lift", *files, says="unobservable\n")
    may = 3 * judging + 3_000 * lifting.text.count("\n")
    return lifting.instructions / may, len(lifting.text), len(refutation)


def lift(which: str = "") -> bool:
    if which not in ("", "all"):
        raise Misused(f"commands: lift takes all tests by `all`, and no {which}")
    tests = names_of("tests")[:: 1 if which else 10]
    pairs = product(shipped("models", *names_of("models")), shipped("tests", *tests))
    found = [one for one in at_once(lift_of, pairs) if one is not None]
    show(f"the greatest share that `lift` takes of what it may, of {len(found)} pairs", max(share for share, _, _ in found), 1)
    longer = sum(lifted for _, lifted, _ in found) / sum(written for _, _, written in found)
    show("bytes of the lifted texts over those of the refutations", longer, 20)
    return True


# a model that names all stages, and asks for one edge
ALL_STAGES = "".join(f'StageName {k} "S{k}".\n' for k in range(64))
ONE_EDGE = ALL_STAGES + 'Axiom "one": exists microop "i", EdgeExists ((i, (0, S0)), (i, (0, S1))).\n'
HEAD, AGAIN, LAST = "unobservable\ntest forbidden: ok\n", "split 1\npath 0.0@0:S 1.0@0:S\n", "path 1.0@0:S 0.0@0:S 0.0@0:T\nend\n"


def show_over_check(what: str, bar: float, files: list[str]) -> None:
    """One line: the instructions of `verify` over those of the `check` that wrote the text."""
    found = counted("check", *files)
    splits = len(re.findall("^split", found.text, re.M))
    ratio = instructions("verify", *files, *saved(found.text)) / found.instructions
    show(f"verify over check, {what}, {splits} splits", ratio, bar)


def graph(count: int, has_edges: bool) -> str:
    """A graph of so many nodes: of each micro-op in turn those of all cores and stages; each with an edge to the next, if asked."""
    named = [f"{op}.0@{core}:S{stage}" for op in range(64) for core in range(64) for stage in range(64)][:count]
    edges = [f"edge {a} {b}\n" for a, b in zip(named, named[1:])] if has_edges else []
    return "".join(["observable\ntest unstated\n", *(f"node {it}\n" for it in named), *edges, "end\n"])


def verify() -> bool:
    def judged(files: list[str], text: str) -> int:
        return instructions("verify", *files, *saved(text), says="verified ")

    def peak(files: list[str], text: str) -> int:
        return peak_bytes("verify", *files, *saved(text))

    show_over_check("the ring of 16 cores", 1.0, saved(RING, ring(16)))
    for pair in (("in-order.uspec", "mp.test"), ("in-order.uspec", "sb.test"), ("store-buffer.uspec", "sb.test"),
                 ("models/tso-buffer.uspec", "tests/IRIW.test"), ("models/sc-ooo.uspec", "tests/3.SB.test")):
        show_over_check(" and ".join(pair), 1.0, of_examples(*pair))
    show_over_check("a random question of 120 choices", 0.1, saved(choices(120, 2), ONE_WRITE))
    files = of_examples("either.uspec", "two-forbidden.test")
    half, whole = (judged(files, HEAD + AGAIN * (lines // 2) + LAST) for lines in (500_000, 1_000_000))
    show("a certificate of a million lines over half of it", whole / half, 2.2)
    full = HEAD + AGAIN * ((64 * MIB - len(HEAD) - len(LAST)) // len(AGAIN)) + LAST
    show("MiB of memory for a text of 64 MiB of short lines, above those for an empty one",
         (peak(files, full) - peak(files, "")) / MIB, 32)
    # graphs of more nodes than `check` writes
    files = saved(ONE_EDGE, fences_apart(64))
    half, whole = (judged(files, graph(edges + 1, True)) for edges in (8_192, 16_384))
    show("a chain of 16,384 edges, of which the model asks for one, over one of 8,192", whole / half, 2.2)
    files = saved(ALL_STAGES, fences_apart(64))
    show("MB of memory for 262,144 nodes", peak(files, graph(1 << 18, False)) / 1e6, 100)
    return True


MANY = 1_000_000
# for all four, no edge can be the second one where k is l: so each i is before each other j
FOUR = """StageName 0 "S".
Axiom "four": forall microops "i", forall microops "j", forall microops "k", forall microops "l",
  ~SameMicroop i j => AddEdge ((i, S), (j, S)) \\/ AddEdge ((k, S), (l, S)).
"""


def written(*words: str) -> str:
    """The path of a file with what the program writes."""
    [path] = saved("")
    timed(math.inf, path, program(), *words)
    return path


def verify_lifted() -> bool:
    says = "verified unobservable\n"
    model, two, all_ops, none = saved(FOUR, *map(fences_apart, (2, 64, 0)))
    # its lines name two micro-ops, whatever others there are
    text = written("lift", model, two, written("check", model, two))
    full = heap_peak("verify-lifted", model, all_ops, text, says=says)
    # without micro-ops the axiom is true, and the first line that asks for one is refused
    empty = heap_peak("verify-lifted", model, none, text, says="certificate refused at line 4\n")
    lines = Path(text).read_text("ascii").count("\n")
    show(f"MiB of heap for 64 micro-ops, four quantifiers, {lines} lines, above those of no micro-op", (full - empty) / MIB, 8)
    pair = of_examples("either.uspec", "two-forbidden.test")
    # four lines for each split, of which two add a fact to the branch that stays open
    texts = [written("lift", *pair, *saved(HEAD + AGAIN * (count // 4) + LAST)) for count in (MANY // 2, MANY)]
    half, whole = (instructions("verify-lifted", *pair, it, says=says) for it in texts)
    show("a text of a million lines over half of it", whole / half, 2.2, f"   {whole / MANY:.0f} instructions for each line")
    half, whole = (heap_peak("verify-lifted", *pair, it, says=says) for it in texts)
    print(f"bytes of heap for each fact of the open branches: {(whole - half) / (MANY // 4):.0f}")
    return True


COMMANDS: dict[str, Callable[..., bool]] = {
    "ask": ask, "core": core, "sweep": sweep, "lift": lift, "verify": verify, "verify-lifted": verify_lifted
}
# of how many words each can be
MOST = {"sweep": 1, "lift": 1, "verify": 0, "verify-lifted": 0}


def main(words: list[str]) -> int:
    if words and (words[0] not in COMMANDS or len(words) - 1 > MOST.get(words[0], len(words))):
        raise Misused(__doc__)
    return 0 if all([COMMANDS[name](*words[1:]) for name in words[:1] or COMMANDS]) else 1


if __name__ == "__main__":
    call(main)
