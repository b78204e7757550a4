#!/usr/bin/env python3
"""Prints where the gate's time goes, or compares what two commits of this repository cost to prove, both at once.

    bench/costs.py [OPTION ..] [NAME ..]                           the gate of this checkout
    bench/costs.py --between OLD NEW [--gate] [OPTION ..] [NAME ..]    a first build of two commits, the program's crates; or their gates

NAME.. are crates of crates.txt; without them it is all. Everything is proved from nothing, each process on one processor, one crate
at a time, and of two commits two. For each crate it prints the processor seconds of its proof, of its tests with their proof and
their build, and of its must-fail edits; and how many minutes the gate, or the proofs of a first build, take by these on two, four and
eight processors. A library is made with its statements alone, as a first build and the gate make it. The gate proves a crate with two
or more edits once more, since the edits begin with what that proof left; `again` is that time. One edit alone is tried from nothing.
Of this checkout the slowest functions are printed too, by a second proof of each crate.

Between two commits the same crate of both is proved side by side: one machine varies from hour to hour by a half, and here what
slows one commit slows the other too.

It takes about as many minutes as the sums that it prints: eight for the small crate pc_case with what is below it, some four hours
for all crates. With `--into FOLDER` what was measured is kept there, and a call with the same FOLDER goes on: `bench/costs.py --into F
--minutes 55`, again and again, until no crate is left: a row for each crate, which counts only for the sources that it was measured
of, and the libraries, over which the crates above are proved. After `--minutes N`, at Ctrl-C and at SIGTERM what is under way is
ended, and what there is by then is printed.

The exit status is 0 where all crates that were asked for are measured, 1 where one is not, and 2 where the words are others, or
where `rt` is missing.
"""
from __future__ import annotations

import argparse
import hashlib
import heapq
import os
import re
import shutil
import signal
import subprocess
import sys
import tempfile
import threading
import time
from concurrent.futures import FIRST_COMPLETED, Future, ThreadPoolExecutor, wait
from dataclasses import dataclass, field
from pathlib import Path
from typing import NamedTuple

from counting import TOP, Misused, chosen

from tools.build.making import PROGRAM, proving, toolchain, uses_of

# what a crate is proved of, and what is tried on it
PROVED, TRIED = ("src", "specs", "proofs"), "must-fail"
SLOWEST = 10
LANES = (2, 4, 8)
# a crate, what is done with it, and which of several
Task = tuple[str, str, int]
USAGE = "bench/costs.py [--between OLD NEW [--gate]] [--into FOLDER] [--minutes N] [NAME ..]"
# What the prover calls the parts of a function.
PART = re.compile(r"\.(Statement|Met|Proof|Kinds|TheLink|TheLinks|Code|Mir|Key|Reads|Layout|Named|Tie|Goals|Given|Answers"
                  r"|Invariants|Paired|Carried|Laws|Lts|View|Symbol|The[A-Z]\w*)(-[\w-]+)?$")


class NotMeasured(Exception):
    """A crate is not proved, or an edit of it is not refused."""


class Ended(Exception):
    """The time that was given is over."""


class Cost(NamedTuple):
    """Processor seconds of one crate: the proof, the proof of its tests with their build, the proof once more that two or more
    edits begin with, and the edits; how many edits there are, and the slowest."""

    proof: float
    tests: float
    again: float
    edits: float
    number: int = 0
    slowest: str = "-"

    def whole(self) -> float:
        return self.proof + self.tests + self.again + self.edits


@dataclass
class Processes:
    """What runs, so that it can be ended."""

    running: set[int] = field(default_factory=set)
    are_ended: bool = False
    alone: threading.Lock = field(default_factory=threading.Lock)

    def timed(self, words: list[str], folder: str) -> tuple[int, float]:
        """One call in this folder: its exit status, and its processor seconds with those of all that it began."""
        with self.alone:
            if self.are_ended:
                raise Ended
            child = subprocess.Popen(words, cwd=folder, stdin=subprocess.DEVNULL, stdout=subprocess.DEVNULL,
                                     stderr=subprocess.DEVNULL, start_new_session=True)
            self.running.add(child.pid)
        _, status, usage = os.wait4(child.pid, 0)
        with self.alone:
            self.running.discard(child.pid)
            child.returncode = os.waitstatus_to_exitcode(status)
            if self.are_ended:
                raise Ended
        return child.returncode, usage.ru_utime + usage.ru_stime

    def end(self) -> None:
        """Ends what runs. No call begins or ends well from here on."""
        with self.alone:
            self.are_ended = True
            for pid in self.running:
                os.killpg(pid, signal.SIGKILL)


def hash_files(folder: str, parts: tuple[str, ...], onto: str = "") -> str:
    """A hash of the names and bytes of the files in these folders of a folder."""
    made = hashlib.sha256(onto.encode())
    for part in parts:
        for it in sorted(Path(folder, part).rglob("*")):
            if it.is_file():
                made.update(f"{it.relative_to(folder)}\0".encode() + hashlib.sha256(it.read_bytes()).digest())
    return made.hexdigest()


@dataclass
class Tree:
    """A checkout, what each of its crates stands on, and the folder that keeps what was measured of it."""

    folder: str
    kept: str
    tools: str
    below: dict[str, list[str]] = field(default_factory=dict)
    sums: dict[str, str] = field(default_factory=dict)
    costs: dict[str, Cost] = field(default_factory=dict)
    functions: dict[str, float] = field(default_factory=dict)

    def __post_init__(self) -> None:
        # in the order of crates.txt, the lowest first
        self.below = uses_of(self.folder)
        for name, stands_on in self.below.items():
            onto = " ".join(self.sums.get(it, it) for it in stands_on)
            self.sums[name] = hash_files(f"{self.folder}/crates/{name}", PROVED, onto)
        os.makedirs(f"{self.kept}/libraries", exist_ok=True)
        self.take_rows()

    def ours(self, name: str) -> list[str]:
        """The crates of the checkout that the crate names."""
        return [it for it in self.below[name] if it in self.below]

    def closure(self, name: str) -> list[str]:
        """The crates of the checkout that the crate stands on."""
        found: list[str] = []
        for it in self.ours(name):
            found += [more for more in [*self.closure(it), it] if more not in found]
        return found

    def is_program(self, name: str) -> bool:
        return os.path.isfile(f"{self.folder}/crates/{name}/src/main.rt")

    def edits(self, name: str) -> list[str]:
        return sorted(map(str, Path(self.folder, "crates", name, TRIED).glob("*")))

    def rlib(self, name: str) -> str:
        """Where the library of a crate stands, by the hash of what it was proved of."""
        return f"{self.kept}/libraries/{self.sums[name][:16]}/{name}.rlib"

    def key(self, name: str) -> str:
        """The hash of all that a row was measured of."""
        return hash_files(f"{self.folder}/crates/{name}", (TRIED,), self.sums[name])

    def take_rows(self) -> None:
        """Takes the rows that an earlier call left, of these sources, where the library stands too."""
        rows = Path(self.kept, "rows")
        for line in rows.read_text("utf-8").splitlines() if rows.is_file() else ():
            words = line.split()
            if len(words) == 8 and words[0] in self.below and words[1] == self.key(words[0]):
                if self.is_program(words[0]) or os.path.exists(self.rlib(words[0])):
                    proof, tests, again, edits = map(float, words[2:6])
                    self.costs[words[0]] = Cost(proof, tests, again, edits, int(words[6]), words[7])

    def keep(self, name: str, cost: Cost) -> None:
        self.costs[name] = cost
        with open(f"{self.kept}/rows", "a", encoding="utf-8") as file:
            seconds = [f"{it:.2f}" for it in cost[:4]]
            file.write(" ".join([name, self.key(name), *seconds, str(cost.number), cost.slowest]) + "\n")

    def words(self, call: str, name: str, *more: str) -> list[str]:
        """A call of the prover on a crate, over the libraries that are kept."""
        root = "src/main.rt" if self.is_program(name) else "src/lib.rt"
        folders = {it: os.path.dirname(self.rlib(it)) for it in self.closure(name)}
        return [*proving(self.tools, call, name, root, self.below[name], folders), "--jobs", "1", *more]


def copy_crate(tree: Tree, name: str, to: str) -> str:
    for it in PROVED:
        if os.path.isdir(f"{tree.folder}/crates/{name}/{it}"):
            shutil.copytree(f"{tree.folder}/crates/{name}/{it}", f"{to}/{it}")
    return to


def apply_edit(edit: str, folder: str) -> None:
    """Makes an edit's changes in a copy of its crate."""
    path, old = Path(), ""
    for line in Path(edit).read_text("utf-8").split("\n"):
        word, _, said = line.partition(":")
        said = said.removeprefix(" ")
        if word == "file":
            path = Path(folder, said.strip())
        elif word == "old":
            old = said
        elif word == "new":
            path.write_text(path.read_text("utf-8").replace(old, said), "utf-8")


def link_or_copy(one: str, other: str) -> None:
    """A link where that can be made: a check replaces such a file and never changes it."""
    try:
        os.link(one, other)
    except OSError:
        shutil.copy2(one, other)


def time_functions(name: str, work: str, begun: float) -> dict[str, float]:
    """The seconds by the clock of each function, by what the proof left: the time of a part is that since the part before it."""
    spent: dict[str, float] = {}
    for end, file in sorted((it.stat().st_mtime, it.name) for it in Path(work).rglob("*.oantt")):
        part = re.sub(rf"^Rattle-{name}[-.](proofs|specs)\.(contracts\.)?", "", re.sub(r"(\.decls)?\.oantt$", "", file))
        while PART.search(part):
            part = PART.sub("", part)
        part = part if spent else "the start"
        spent[part] = spent.get(part, 0) + end - begun
        begun = end
    return spent


def prove(tree: Tree, name: str, processes: Processes, where: str) -> float:
    """Proves a crate from nothing, and keeps its library with its statements alone, as a first build and the gate do. Returns its
    seconds."""
    made = f"{where}/{name}.rlib"
    call, *more = ["check"] if tree.is_program(name) else ["build", "--statements", "-o", made]
    status, seconds = processes.timed(tree.words(call, name, *more), where)
    if status:
        raise NotMeasured(f"{name} is not proved")
    if not tree.is_program(name):
        # one that a call left which was ended may be there
        shutil.rmtree(tree.rlib(name), ignore_errors=True)
        os.makedirs(os.path.dirname(tree.rlib(name)), exist_ok=True)
        shutil.move(made, tree.rlib(name))
    return seconds


def prove_again(tree: Tree, name: str, processes: Processes, where: str, work: str) -> float:
    """Proves a crate and leaves what edits begin with. Returns its seconds, and notes those of its functions."""
    os.mkdir(work)
    begun = time.time()
    call, *more = ["check"] if tree.is_program(name) else ["build", "-o", f"{where}/again.rlib"]
    status, seconds = processes.timed(tree.words(call, name, "--incremental", work, *more), where)
    if status:
        raise NotMeasured(f"{name} is not proved again")
    scale = seconds / max(time.time() - begun, 0.01)
    for part, spent in time_functions(name, work, begun).items():
        tree.functions[f"{name}::{part.replace('.', '::')}"] = spent * scale
    return seconds


def try_edits(tree: Tree, name: str, processes: Processes, room: str, work: str) -> dict[str, float]:
    """The seconds of each edit: two or more begin with what a proof left, one is tried from nothing."""
    spent: dict[str, float] = {}
    edits = tree.edits(name)
    for edit in edits:
        with tempfile.TemporaryDirectory(dir=room) as where:
            apply_edit(edit, copy_crate(tree, name, where))
            more: list[str] = []
            if len(edits) > 1:
                shutil.copytree(work, f"{where}/work", copy_function=link_or_copy)
                more = ["--incremental", f"{where}/work"]
            status, seconds = processes.timed(tree.words("check", name, *more), where)
        if status == 0:
            raise NotMeasured(f"{name}: {os.path.basename(edit)} is not refused")
        spent[os.path.basename(edit)] = seconds
    return spent


def measure(tree: Tree, name: str, processes: Processes, is_gate: bool) -> Cost:
    """What a crate costs, without its tests and edits where only a build is asked for. The libraries below it stand."""
    with tempfile.TemporaryDirectory(prefix="costs-") as room:
        os.chmod(room, 0o711)
        where, work = copy_crate(tree, name, f"{room}/crate"), f"{room}/work"
        proof = prove(tree, name, processes, where)
        if not is_gate:
            return Cost(proof, 0, 0, 0)
        tests = 0.0
        if any("#[test]" in it.read_text("utf-8") for it in Path(where, "src").rglob("*.rt")):
            more = ["--test", "--toolchain", f"{tree.tools}/toolchain", "--backend", "llvm", "-o", f"{room}/tests.o"]
            status, tests = processes.timed(tree.words("build", name, *more), where)
            if status:
                raise NotMeasured(f"{name}: its tests are not proved")
        again = prove_again(tree, name, processes, where, work)
        edits = try_edits(tree, name, processes, room, work)
    slowest = max(edits, key=lambda it: edits[it], default="-")
    return Cost(proof, tests, again if len(edits) > 1 else 0, sum(edits.values()), len(edits), slowest)


def interrupt(*_: object) -> None:
    """Ends the run. A second signal, as `timeout` and a terminal may send it, changes nothing."""
    signal.signal(signal.SIGINT, signal.SIG_IGN)
    signal.signal(signal.SIGTERM, signal.SIG_IGN)
    raise KeyboardInterrupt


def measure_all(trees: list[Tree], names: list[str], lanes: int, until: float, is_gate: bool) -> list[str]:
    """Measures these crates of each tree, those below first where they are not kept, so many at a time. Ends what is under way when
    the time is over, or at Ctrl-C or SIGTERM. Returns what could not be measured, each with why."""
    signal.signal(signal.SIGINT, interrupt)
    signal.signal(signal.SIGTERM, interrupt)
    processes, faults = Processes(), []
    waiting = [
        (tree, name) for name in dict.fromkeys(it for tree in trees for it in tree.below) for tree in trees
        if name in tree.below and name not in tree.costs
        and any(name == it or name in tree.closure(it) for it in names if it in tree.below)
    ]
    running: dict[Future[Cost], tuple[Tree, str]] = {}
    with ThreadPoolExecutor(lanes) as pool:
        try:
            while waiting or running:
                for tree, name in [it for it in waiting if all(below in it[0].costs for below in it[0].ours(it[1]))]:
                    if len(running) < lanes:
                        waiting.remove((tree, name))
                        running[pool.submit(measure, tree, name, processes, is_gate)] = tree, name
                if not running:
                    break
                left = max(0.0, until - time.monotonic())
                done = wait(running, None if left == float("inf") else left, FIRST_COMPLETED).done
                if not done:
                    raise Ended
                for it in done:
                    tree, name = running.pop(it)
                    try:
                        tree.keep(name, it.result())
                    except (NotMeasured, OSError) as fault:
                        faults.append(str(fault))
                    print(f"costs: {len(tree.costs)} of {len(tree.below)} crates of {tree.folder} stand", file=sys.stderr)
        except (Ended, KeyboardInterrupt):
            print("ended before all was measured; a call with the same folder goes on", file=sys.stderr)
        finally:
            processes.end()
    return faults


def simulate(tree: Tree, lanes: int) -> float:
    """The minutes that `rt ci` takes on so many processors, by these rows: each check on one of them, the longest chain first, and edits
    where no proof waits. What runs at the end, programs and tests, is left out."""
    tasks: dict[Task, tuple[float, list[Task]]] = {}
    for name, cost in tree.costs.items():
        proofs = [(it, "proof", 0) for it in tree.closure(name) if it in tree.costs]
        own = [(name, it, 0) for it in ("proof", "tests", *["again"] * bool(cost.again))]
        tasks |= {it: (seconds, proofs) for it, seconds in zip(own, (cost.proof, cost.tests, cost.again))}
        tasks |= {(name, "edit", at): (cost.edits / cost.number, own) for at in range(cost.number)}
    behind = {it: 0.0 for it in tasks}
    for key in reversed(list(tasks)):
        behind[key] += tasks[key][0]
        for it in tasks[key][1]:
            behind[it] = max(behind[it], behind[key])
    left = sorted(tasks, key=lambda it: (it[1] in ("again", "edit"), -behind[it]))
    done: set[Task] = set()
    ends: list[tuple[float, Task]] = []
    now = 0.0
    while left or ends:
        for key in [it for it in left if all(below in done for below in tasks[it][1])][: lanes - len(ends)]:
            left.remove(key)
            heapq.heappush(ends, (now + tasks[key][0], key))
        now, ended = heapq.heappop(ends)
        done.add(ended)
    return now / 60


def total(costs: list[Cost]) -> Cost:
    proof, tests, again, edits, number, _ = zip(Cost(0, 0, 0, 0), *costs)
    return Cost(sum(proof), sum(tests), sum(again), sum(edits), sum(number))


def commit_of(name: str) -> str:
    found = subprocess.run(["git", "-C", TOP, "rev-parse", "--verify", "--quiet", f"{name}^{{commit}}"], capture_output=True,
                           text=True, check=False)
    if found.returncode:
        raise Misused(f"no such commit: {name}")
    return found.stdout.strip()


def lay_out(commit: str, kept: str) -> Tree:
    """What is proved of a commit, in a folder of its own."""
    folder = f"{kept}/{commit}"
    if not os.path.isdir(folder):
        os.makedirs(f"{folder}.new", exist_ok=True)
        archive = subprocess.run(["git", "-C", TOP, "archive", commit, "crates.txt", "crates"], capture_output=True, check=True)
        subprocess.run(["tar", "-x", "-C", f"{folder}.new"], input=archive.stdout, check=True)
        os.rename(f"{folder}.new", folder)
    return Tree(folder, f"{kept}/{commit}.kept", toolchain())


def numbers(cost: Cost) -> str:
    return "".join(f"{it:8.0f}" for it in (*cost[:4], cost.whole()))


def show(trees: list[Tree], titles: list[str], names: list[str], is_gate: bool) -> None:
    """Prints what these trees took side by side, the dearest crate first, and how many minutes all takes by it; of a single one also
    how many edits each crate has, and the slowest, and the slowest functions."""
    none, alone = Cost(0, 0, 0, 0), len(trees) == 1
    print(f"{'processor seconds':<18}" + "".join(f"{title:>40}" for title in titles))
    print(f"{'crate':<18}" + "".join(f"{it:>8}" for it in ("proof", "tests", "again", "edits", "all")) * len(trees)
          + ("  how many edits, the slowest" if alone else ""))
    rows = {name: [tree.costs.get(name, none) for tree in trees] for name in names if any(name in tree.costs for tree in trees)}
    ordered = sorted(rows.items(), key=lambda it: (-max(cost.whole() for cost in it[1]), it[0]))
    sums = [total([costs[k] for costs in rows.values()]) for k in range(len(trees))]
    for name, costs in [*ordered, ("all", sums)]:
        more = f"  {costs[0].number:3}  {costs[0].slowest}" if alone else ""
        print(f"{name:<18}{''.join(map(numbers, costs))}{more}", flush=True)
    if not alone and sums[0].whole():
        print(f"the second takes {sums[1].whole() / sums[0].whole():.3f} of the seconds of the first")
    for tree, title in zip(trees, titles):
        if all(it in tree.costs for it in (tree.below if is_gate else of_program(tree))):
            told = ", ".join(f"{simulate(tree, it):.0f} on {it}" for it in LANES)
            print(f"minutes of {title} by these, by the clock: {told} processors")
    slow = sorted(trees[0].functions.items(), key=lambda it: -it[1])[:SLOWEST] if alone else []
    if slow:
        print(f"\nthe {len(slow)} slowest functions and files of lemmas of this call\n")
        for function, spent in slow:
            print(f"{spent:6.1f}  {function}")


def of_program(tree: Tree) -> list[str]:
    """The crates that a first build proves."""
    return [*tree.closure(PROGRAM), PROGRAM]


def answer(asked: argparse.Namespace, kept: str) -> int:
    """Measures and prints. The exit status."""
    is_gate = asked.gate or not asked.between
    if asked.between:
        commits = [commit_of(it) for it in asked.between]
        trees = [lay_out(it, f"{kept}/{'gate' if is_gate else 'build'}") for it in dict.fromkeys(commits)]
        shown, titles = [trees[0], trees[-1]], [it[:8] for it in commits]
    else:
        trees = shown = [Tree(TOP, kept, toolchain())]
        titles = ["the gate"]
    chosen("crate", asked.names, [it for tree in trees for it in tree.below])
    names = asked.names or list(dict.fromkeys(it for tree in trees for it in (tree.below if is_gate else of_program(tree))))
    faults = measure_all(trees, names, 2 if asked.between else 1, time.monotonic() + 60 * asked.minutes, is_gate)
    show(shown, titles, names, is_gate)
    for it in faults:
        print(f"costs: {it}", file=sys.stderr)
    return 0 if all(it in tree.costs for tree in trees for it in names if it in tree.below) else 1


def main() -> int:
    parser = argparse.ArgumentParser(usage=USAGE)
    parser.add_argument("--between", nargs=2, metavar=("OLD", "NEW"))
    parser.add_argument("--gate", action="store_true")
    parser.add_argument("--into")
    parser.add_argument("--minutes", type=float, default=float("inf"))
    parser.add_argument("names", nargs="*")
    asked = parser.parse_args()
    try:
        if shutil.which("rt") is None:
            raise Misused("there is no rt")
        with tempfile.TemporaryDirectory(prefix="costs-") as room:
            return answer(asked, asked.into or room)
    except Misused as reason:
        print(f"costs: {reason}", file=sys.stderr)
        return 2


if __name__ == "__main__":
    sys.exit(main())
