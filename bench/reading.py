#!/usr/bin/env python3
"""Prints what reading takes: how time and instructions grow with models, tests and listings, what long names cost, and how much
memory models ask for before grounding. Each figure stands beside its bar.

    bench/reading.py [PART [WORD ..]]      all parts, or one; of `names` and `memory` the lines whose names hold all words

- `linear`: `check` of comments and of axioms, and sha256sum of the same bytes.
- `tests`: `check` of long tests with an empty model; and what format 2 costs beside format 1, on a text that differs in its first
  word, and on initial values at entries beside those at pages, for each token.
- `parser` and `models`: crates/model_bench, which parses a model, or reads it whole, to closed axioms. `rt run` proves and
  builds it first where a source changed.
- `listings`: `check86` of listings with an empty model, less what it takes on one that says nothing.
- `names`: questions with long or many names over the same with names of one byte, less what a call takes on empty files. A call
  of more than a minute is stopped, and its ratio is a lower bound.
- `memory`: models of at most 1 MiB, each of which is refused at its last axiom or at an expansion, so that nothing is grounded;
  and the status with half the memory, which is 7.

Times are by the clock, and those of `names` of the processor, in one run. They hold what a call costs beside reading too: on half
of the text more of it, so that ratios come out lower. What is said of formats and of listings are instructions, counted by valgrind.
The exit status is 1 where something could not be measured, 2 where there is no such part, and else 0.
"""
import itertools
import math
import os
import string
import subprocess
import sys
import tempfile
from collections.abc import Callable, Iterable
from functools import cache
from pathlib import Path

from counting import MIB, TOP, Misused, Timed, call, chosen, instructions, program, saved, shipped, show, timed
from questions import ONE_WRITE, access, test_of

CALLS = 7
TIME_BAR = 2.3
OPS = 64
NOTHING = 'Litmus "e".\n'


def measured(words: list[str], status: int = 0) -> Timed:
    """Some calls, all of which end with this status."""
    found = timed(math.inf, os.devnull, *words, calls=CALLS)
    if found.status != status:
        raise SystemExit(f"not measured: status {found.status} of {' '.join(words)}")
    return found


def checked(model: str, test: str) -> Timed:
    return measured([program(), "check", *saved(model, test)])


def show_growth(what: str, whole: Timed, half: Timed) -> None:
    """How a time grows, and the memory."""
    show(f"{what}, time over that of half of it", whole.clock / half.clock, TIME_BAR)
    show(f"{what}, peak memory in MiB", whole.peak / MIB, 200)


def filled(size: int, head: str, parts: Iterable[str] = ()) -> str:
    """A text of so many bytes: the head, of these parts as many as fit, and blanks at the end."""
    made, left = [head], size - len(head)
    for part in parts:
        if len(part) > left:
            break
        made.append(part)
        left -= len(part)
    if left < 0:
        raise SystemExit(f"not measured: a text of {len(head)} bytes, and not {size}")
    return "".join(made) + left * "\n"


def axioms(count: int) -> str:
    """A model of so many axioms that speak of the nodes of several stages."""
    return "".join(f'StageName {k} "S{k}".\n' for k in range(8)) + "".join(
        f'Axiom "a{k}": forall microops "i", forall microops "j", ProgramOrder i j =>\n'
        f'  AddEdge ((i, S{k % 8}), (j, S{k // 8 % 8}), "").\n' for k in range(count)
    )


def linear() -> None:
    two_writes = test_of([(0, [access("Write", 0, 1)]), (0, [access("Write", 0, 2)])], "Permitted.\n")

    def comments(size: int) -> str:
        return filled(size, "", itertools.repeat("% " + 61 * "c" + "\n"))

    whole = checked(comments(MIB), NOTHING)
    show_growth("1 MiB of comments", whole, checked(comments(MIB // 2), NOTHING))
    digest = measured(["sha256sum", *saved(comments(MIB))])
    show("1 MiB of comments, time over that of sha256sum", whole.clock / digest.clock, 25)
    show_growth("8,000 axioms", checked(axioms(8000), two_writes), checked(axioms(4000), two_writes))


def fences(count: int, first: str = "Fence") -> str:
    """A test of so many micro-ops on one core, of which the first is this."""
    return test_of((0, ["Fence" if k else first]) for k in range(count))


def dependency(k: int) -> str:
    """One of the dependencies between micro-ops."""
    return f"Relationship addr {k % OPS} 0 -> {k // OPS % OPS} 0.\n"


def stated(kind: str, k: int) -> str:
    """A value of memory, at an address of its own."""
    return f"{kind} (PA {k} {k % 16}) {k}.\n"


def tests() -> None:
    count = itertools.count
    kinds: dict[str, Callable[[int], str]] = {
        "1 MiB of relationships": lambda size: filled(size, fences(OPS), map(dependency, count())),
        "1 MiB of initial values": lambda size: filled(size, NOTHING, (stated("Init", k) for k in count())),
    }
    for what, text in kinds.items():
        show_growth(what, *(checked("", text(size)) for size in (MIB, MIB // 2)))

    def taken(text: str) -> int:
        return instructions("check", *saved("", text))

    nothing = taken(NOTHING)
    items = filled(MIB // 8, test_of((0, [access("Read" if k % 2 else "Write", k, k)]) for k in range(OPS)), (
        (dependency(k // 3), stated("Init", k // 3), stated("Final", k // 3))[k % 3] for k in count()))
    second = items.replace("Litmus", "Litmus2", 1)
    show("128 KiB of all items, instructions in format 2 over format 1", (taken(second) - nothing) / (taken(items) - nothing), 1.1)
    # two tokens of the title and its end, and those of each line
    entries = 'Litmus2 "l".\n' + "".join(f"Init (Entry {k}) (Maps {k} 1 0).\n" for k in range(2000)), 3 + 12 * 2000
    pages = NOTHING + "".join(f"Init (PA {k} 0) {k}.\n" for k in range(2000)), 3 + 8 * 2000
    of_entry, of_page = ((taken(text) - nothing) / tokens for text, tokens in (entries, pages))
    show("instructions for a token of entries, over one of pages", of_entry / of_page, 1.1)


# A macro and five axioms that expand it, the last one also the macro of the part before.
PART = r"""
% Part {k}: two micro-ops of a core in program order, with a write between them or none.
DefineMacro "Ordered{k}" "a" "b" "c":
  (OnCore c a /\ OnCore c b /\ ProgramOrder a b) =>
    (exists microop "w",
      IsAnyWrite w /\ SamePhysicalAddress w b /\ ~SameMicroop w a /\
      AddEdges [((a, Fetch), (w, Execute), "order"); ((w, Execute), (b, (c, Memory)), "order", "blue")]) \/
    (EdgeExists ((a, Fetch), (b, Fetch)) /\ AddEdge ((a, Memory), (b, Memory), "order")).
Axiom "Always{k}":
  forall core "c", forall microop "i", forall microop "j", ExpandMacro Ordered{k} i j c.
Axiom "Reads{k}":
  forall core "c", forall microop "i", forall microop "j", IsAnyRead i => ExpandMacro Ordered{k} i j c.
Axiom "Ways{k}":
  forall microop "i", forall microop "j", ExpandMacro Ordered{k} i j 0 \/ ExpandMacro Ordered{k} j i 0.
Axiom "Not{k}":
  forall microop "i", exists microop "j", ~ExpandMacro Ordered{k} j i 1.
Axiom "Both{k}":
  forall microop "i", exists microop "j", ExpandMacro Ordered{k} i j 2 /\ ExpandMacro Ordered{before} j i 2.
"""
PART_STAGES = "".join(f'StageName {k} "{name}".\n' for k, name in enumerate(("Fetch", "Execute", "Memory")))
LONG_PART = '\nDefineMacro "{name}" "a": NodeExists (a, Fetch) => IsAnyRead a.\nAxiom "{k}": forall microop "i", ExpandMacro {name} i.\n'


def expanding(macros: int, size: int) -> str:
    """A model of so many bytes: of so many macros, and five times as many axioms that expand them."""
    parts = (PART.replace("{k}", str(k)).replace("{before}", str(max(k - 1, 0))) for k in range(macros))
    return filled(size, PART_STAGES + "".join(parts))


def long_names(macros: int, size: int) -> str:
    """A model of so many bytes: of so many macros whose names differ at their ends alone, and as many axioms."""
    # each name stands twice in its part
    length = (size - len(PART_STAGES)) // macros // 2 - len(LONG_PART) // 2
    parts = (LONG_PART.replace("{name}", str(k).rjust(length, "n")).replace("{k}", str(k)) for k in range(macros))
    return filled(size, PART_STAGES + "".join(parts))


@cache
def model_bench() -> str:
    """What parses and reads models alone. Without words its status is 2."""
    crate, silent = f"{TOP}/crates/model_bench", subprocess.DEVNULL
    path = f"{crate}/out/model_bench"
    ran = subprocess.run(["rt", "run"], cwd=crate, stdin=silent, stdout=silent, stderr=silent, check=False)
    if ran.returncode != 2 or not os.access(path, os.X_OK):
        raise SystemExit("not measured: crates/model_bench is not built")
    return path


def empty_memory(work: str) -> int:
    """The peak memory in bytes of a call on an empty model: of one that waits for its text, which then ends at once. So what the
    system counts of its parent is no part of it."""
    path = f"{tempfile.mkdtemp()}/waiting"
    os.mkfifo(path)
    with subprocess.Popen([model_bench(), work, path]) as child:
        # goes on when the program has opened it too
        with open(path, "wb"), open(f"/proc/{child.pid}/status", encoding="ascii") as status:
            [kibibytes] = [line.split()[1] for line in status if line.startswith("VmHWM:")]
    if child.returncode != 0:
        raise SystemExit("not measured: an empty model was refused")
    return int(kibibytes) * 1024


def on_bench(work: str, text: str, status: int = 0) -> Timed:
    """What parsing a model, or reading it whole, takes."""
    return measured([model_bench(), work, *saved(text)], status)


def parser() -> None:
    text = Path(*shipped("models", "tso-buffer")).read_text("ascii")
    # without the comments at its head
    parts = itertools.repeat(text[text.index("StageName"):])
    whole, half = (on_bench("parse", filled(size, "", parts)) for size in (MIB, MIB // 2))
    show("1 MiB of a model, time over that of half of it", whole.clock / half.clock, TIME_BAR)
    show("1 MiB of a model, peak memory over its bytes", (whole.peak - empty_memory("parse")) / MIB, 40)


def models() -> None:
    whole, half = (on_bench("read", expanding(1000 // part, MIB // part)) for part in (1, 2))
    show_growth("1,000 macros in 1 MiB", whole, half)
    show("1,000 macros in 1 MiB, peak memory over its bytes", (whole.peak - empty_memory("read")) / MIB, 200)
    show_growth("1,000 long names in 1 MiB", *(on_bench("read", long_names(1000 // part, MIB // part)) for part in (1, 2)))
    # a short chain has no fault, so the long one is refused for its size alone
    short, long = (doubled('forall microop "i", IsAnyRead i', macros - 1) for macros in (10, 60))
    on_bench("read", short)
    chain, empty = on_bench("read", long, 1), on_bench("read", "")
    show("60 macros that double, time over that of an empty model", chain.clock / empty.clock, 3)


def listing(count: int, comments: int = 0, columns: int = 4) -> str:
    """A listing of so many instructions, half of them stores and half loads, with as many lines of comments after the header.
    Each store has a location of its own, which a load of the next column reads into a register of its own; each location has a
    value at the start and one at the end, and each register one. Each name and each value takes as many bytes as any other."""
    rows: list[list[str]] = [[] for _ in range(columns)]
    starts, values = [], []
    for k in range(10, 10 + count // 2):
        column, reader = k % columns, (k + 1) % columns
        rows[column].append(f"MOV [x{k}],${k}")
        rows[reader].append(f"MOV R{k},[x{k}]")
        starts.append(f"x{k}=7;")
        values += [f"{reader}:R{k}={k}", f"x{k}={k}"]
    lines = ["X86 grown", "{"] + ["(* " + 50 * "c" + " *)"] * comments + [*starts, "}"]
    lines.append(" | ".join(f"P{k}" for k in range(columns)) + " ;")
    lines += [" | ".join(cells) + " ;" for cells in zip(*rows)]
    return "\n".join([*lines, "exists", " /\\ ".join(values or ["x=0"])]) + "\n"


def listings() -> None:
    def taken(text: str) -> int:
        return instructions("check86", *saved("", text), says="observable\ntest unstated\nend\n")

    nothing = taken(listing(0))
    for what, whole, half in (("a listing of 64 instructions over one of 32", listing(64), listing(32)),
                              ("2,000 lines of comments in a listing over 1,000", listing(0, 2000), listing(0, 1000))):
        show(what, (taken(whole) - nothing) / (taken(half) - nothing), 2.2)


def macro(name: str, body: str, parameters: Iterable[str] = ()) -> str:
    return " ".join(["DefineMacro", f'"{name}"', *(f'"{it}"' for it in parameters)]) + f": {body}.\n"


def uses(name: str, count: int, args: Iterable[str] = ()) -> str:
    """So many expansions of a macro."""
    return " /\\ ".join([" ".join(["ExpandMacro", name, *args])] * count)


def doubled(first: str, times: int) -> str:
    """Macros of which each expands the one before it twice, and an axiom that expands the last."""
    names = ["d", *(f"d{k}" for k in range(times))]
    return macro("d", first) + "".join(macro(now, uses(before, 2)) for before, now in zip(names, names[1:])) \
        + f'Axiom "a": ExpandMacro {names[-1]}.\n'


def longer_words(count: int) -> str:
    """So many different words of two to four bytes."""
    letters = string.ascii_letters + string.digits
    words = (first + "".join(more) for size in (1, 2, 3) for first in string.ascii_letters
             for more in itertools.product(letters, repeat=size))
    return " ".join(itertools.islice(words, count))


def letters_of(count: int) -> str:
    """So many words of one byte, of which no two in a row are one; none is asked for."""
    return " ".join(itertools.islice(itertools.cycle(string.ascii_uppercase), count))


THREE = 'forall microops "i", forall microops "j", forall microops "k", '
# each a model and a test with the names for @: long or many, and short or few; and the bar of the ratio, infinite where there is none
NAMES = {
    "a macro's name of 400,000 bytes, expanded 131,072 times": (
        macro("@", "True") + doubled(uses("@", 1), 17), fences(1), "m" * 400_000, "m", 3.0),
    "a dependency's kind of 400,000 bytes, at 262,144 instances": (
        f'Axiom "a": {THREE}HasDependency @ i j => ProgramOrder i j.\n', fences(OPS) + "Relationship @ 0 0 -> 1 0.\n",
        "k" * 400_000, "k", 3.0),
    # another type is asked for
    "240,000 types of a micro-op, at 4,096 instances": (
        f'Axiom "a": {THREE}AccessType z i => AccessType y i.\n', fences(OPS, "Fence @"), longer_words(240_000), letters_of(1), 3.0),
    "the same over as many types of one byte": (
        f'Axiom "a": {THREE}AccessType z i => AccessType y i.\n', fences(OPS, "Fence @"), longer_words(240_000), letters_of(240_000),
        math.inf),
    "64 stages that begin with the same 12,000 bytes, at 65,536 nodes": (
        "".join(f'StageName {k} "@{k}".\n' for k in range(64)) + doubled('forall microops "i", NodeExists (i, @63)', 16), fences(1),
        "s" * 12_000, "s", 3.0),
    "a variable of 450,000 bytes, looked up 131,072 times": (
        doubled('forall microops "@", AccessType n @', 17), fences(1), "v" * 450_000, "v", 3.0),
}


def names(*words: str) -> None:
    def taken(model: str, test: str) -> Timed:
        return timed(60, os.devnull, program(), "check", *saved(model, test), calls=3)

    empty = taken("", fences(0)).seconds
    for what, (model, test, many, few, bar) in NAMES.items():
        if all(word in what for word in words):
            more, less = (taken(model.replace("@", names), test.replace("@", names)) for names in (many, few))
            alike = "" if more.status == less.status else f"; statuses {more.status} and {less.status}"
            ratio = (more.seconds - empty) / max(less.seconds - empty, 1e-3)
            show(what, ratio, bar, f"   {more.seconds:.3f} s over {less.seconds:.3f} s{alike}")


LETTERS = "abcdefghijklmnopqrstuvwxyzABCDEF"
NAME = "n" * 900_000
STAGE = 'StageName 0 "S".\n'


def many_macros(count: int) -> str:
    """So many macros of 32 parameters, each expanded with 32 arguments again and again up to the limit of sizes."""
    args, row = ["0"] * 32, 100
    rows = range(count // row)
    each = "".join(macro(f"m{k}", "True", LETTERS) for k in range(count))
    lines = "".join(macro(f"r{j}", " /\\ ".join(uses(f"m{j * row + k}", 1, args) for k in range(row))) for j in rows)
    whole = macro("whole", " /\\ ".join(uses(f"r{j}", 1) for j in rows))
    return each + lines + whole + 'Axiom "a": ExpandMacro whole.\n' * (990_000 // (count * 3 + count // row * 2))


def many_parameters(count: int) -> str:
    """A macro of so many parameters, given as many arguments."""
    return macro("wide", "True", (f"p{k:x}" for k in range(count))) + doubled(uses("wide", 1, ["0"] * count), 16)


def nodes(times: int, count: int, predicate: str, item: str) -> str:
    """A macro of a list of so many nodes or edges, and so many axioms that expand it."""
    return STAGE + macro("m", f'forall microops "i", {predicate} [{count * item}]') + 'Axiom "a": ExpandMacro m.\n' * times


MODELS: dict[str, Callable[[], str]] = {
    "a long plain name, expanded 131,072 times": lambda: doubled(f'forall microops "i", AccessType {NAME} i', 17),
    "a short plain name, expanded 131,072 times": lambda: doubled('forall microops "i", AccessType n i', 17),
    "a long variable, expanded 131,072 times": lambda: doubled(f'forall microops "{NAME}", True', 17),
    "a long predicate, expanded 131,072 times": lambda: doubled(NAME, 17),
    "500,000 arguments of a predicate, expanded 131,072 times": lambda: doubled("True" + 500_000 * " 0", 17),
    "250,000 names as arguments, expanded 131,072 times": lambda: doubled("True" + 250_000 * " abc", 17),
    "85,000 parameters and arguments, expanded 65,536 times": lambda: many_parameters(85_000),
    "2,000 macros of 32 parameters, up to the limit": lambda: many_macros(2_000),
    "100,000 nodes, 9 times": lambda: nodes(9, 100_000, "NodesExist", "(i,S);"),
    "60,000 edges, 16 times": lambda: nodes(16, 60_000, "AddEdges", "((i,S),(i,S));"),
    "40,000 edges at cores, 24 times": lambda: nodes(24, 40_000, "AddEdges", "((i,(0,S)),(i,(0,S)));"),
    "5 edges, expanded 65,536 times": lambda: STAGE + doubled('forall microops "i", AddEdges [' + 5 * "((i,S),(i,S));" + "]", 16),
    "520,000 names": lambda: f'Axiom "a": True{520_000 * " n"}.\n',
    "105,000 parameters": lambda: macro("wide", "True", (f"p{k:x}" for k in range(105_000))),
    "80,000 axioms": lambda: 80_000 * 'Axiom"":True.',
    "166,400 atoms": lambda: 1_300 * ('Axiom"":' + "/\\".join(["True"] * 128) + "."),
}


def memory(*words: str) -> None:
    for what, make in MODELS.items():
        if not all(word in what for word in words):
            continue
        model, test, out = saved(make() + 'Axiom "last": Unknown.\n', ONE_WRITE, "")
        if os.path.getsize(model) > MIB:
            raise SystemExit(f"not measured: {os.path.getsize(model)} bytes of {what}")
        words_of_check = program(), "check", model, test
        whole = timed(math.inf, out, *words_of_check)
        why = Path(out).read_text("ascii").split()[2] if whole.status == 3 else f"STATUS {whole.status}"
        half = timed(math.inf, os.devnull, *words_of_check, room=whole.peak // 2).status
        show(what, whole.peak / MIB, 1024, f" MiB; {why}; with half of it {'want of memory' if half == 7 else f'STATUS {half}'}")


PARTS: dict[str, Callable[..., None]] = {
    "linear": linear, "tests": tests, "parser": parser, "models": models, "listings": listings, "names": names, "memory": memory
}


def main(words: list[str]) -> int:
    if words[1:] and words[0] not in ("names", "memory"):
        raise Misused(f"reading: there is no part {' '.join(words)}")
    status = 0
    for name in chosen("part", words[:1], PARTS):
        try:
            PARTS[name](*words[1:])
        except SystemExit as reason:
            print(f"reading: {name}: {reason}", file=sys.stderr)
            status = 1
    return status


if __name__ == "__main__":
    call(main)
