"""Models and tests that scripts of this folder ask about: rings, micro-ops of one kind, models that ask for a long search, random
choices, and the shipped pairs of one day.

A *ring* has cores of which each writes one address, and then reads the value of the next core; the last one reads that of
the first. Its outcome is unobservable.
"""
import random
from collections.abc import Iterable

from counting import shipped

STAGES = 'StageName 0 "S".\nStageName 1 "T".\n'
# program order, and each read's write with all others before it or after the read
RING = """StageName 0 "S".
Axiom "PO": forall microops "i", forall microops "j",
  ProgramOrder i j => AddEdge ((i, S), (j, S), "po").
Axiom "RF": forall microops "i", IsAnyRead i => exists microop "w",
  IsAnyWrite w /\\ SamePhysicalAddress w i /\\ SameData w i
  /\\ AddEdge ((w, S), (i, S), "rf") /\\ forall microops "v",
  IsAnyWrite v /\\ SamePhysicalAddress v i /\\ ~SameMicroop v w =>
  AddEdge ((v, S), (w, S), "co") \\/ AddEdge ((i, S), (v, S), "fr").
"""
TWO_OF = 'forall microops "i", forall microops "j", '
THREE_OF = TWO_OF + 'forall microops "k", '
LAST_STAGE = 62
IN_ORDER = "".join(f'StageName {k} "S{k}".\n' for k in range(LAST_STAGE + 1)) + (
    'Axiom "s": forall microops "i", AddEdges ['
    + "; ".join(f"((i, S{k}), (i, S{k + 1}))" for k in range(LAST_STAGE)) + "].\n"
)
AFTER = f"{TWO_OF}ProgramOrder i j => AddEdge ((i, S{LAST_STAGE}), (j, S0)).\n"
# models that ask for a long search
SEARCHED = {
    "ring": RING,
    "edges": STAGES + f'Axiom "f": {TWO_OF}AddEdge ((i, S), (j, T)) \\/ AddEdge ((j, S), (i, T)).\n',
    "exists": STAGES + f'Axiom "f": {TWO_OF}EdgeExists ((i, S), (j, T)) \\/ EdgeExists ((j, T), (i, S)).\n',
    "node": STAGES + f'Axiom "f": {THREE_OF}EdgeExists ((i, S), (j, T)) \\/ NodeExists (k, S).\n',
    "transitive": STAGES + (
        f'Axiom "t": {THREE_OF}EdgeExists ((i, S), (j, S)) /\\ EdgeExists ((j, S), (k, S)) => EdgeExists ((i, T), (k, T)).\n'
        f'Axiom "p": {TWO_OF}ProgramOrder i j => EdgeExists ((i, S), (j, S)).\n'),
    "cycles": IN_ORDER + (
        'Axiom "c": exists microops "i", exists microops "j", '
        f"AddEdge ((i, S{LAST_STAGE}), (j, S0)) /\\ AddEdge ((j, S{LAST_STAGE}), (i, S0)).\n"),
    "chain": IN_ORDER + "".join(f'Axiom "a{k}": {AFTER}' for k in range(21)),
}
CHOICES_STAGES = 24

# The shipped models and tests of 28 November 2026, on which the bars of shipped pairs were set. Those that came later are no
# part of them, so that a figure of then and one of now speak of the same.
FIRST_MODELS = "nmca-ooo pso-buffer sc-inorder sc-ooo tso-buffer tso-drain tso-ooo tutorial weak-ooo".split()
FIRST_TESTS = """
2+2W+fence+po 2+2W+fences 2+2W+seen 2+2W 3.2W 3.LB+datas 3.LB 3.SB+fences 3.SB CoR CoRR+both CoRR+seen CoRR CoRR2
CoRW1 CoRW2 CoWR+seen CoWR CoWR0 CoWW CoWWR+seen CoWWR Final+again+middle Final+again Final+both+behind
Final+both+seen Final+both Final+init Final+read Final+twice Final+unwritten IRIW+addr+po IRIW+addrs IRIW+fences
IRIW+seen IRIW ISA2+fence+ctrl+addr ISA2+fence+data+addr ISA2+fence+po+addr ISA2+fences ISA2 LB+addrs LB+ctrls
LB+data+po LB+datas LB+fences LB+seen LB MP+fence+addr MP+fence+ctrl MP+fence+po MP+fences MP+own+fence+addr MP+own
MP+po+addr MP+po+fence MP+seen MP PPOAA PPOCA R+fence+po R+fences R+po+fence R+seen R RWC+addr+fence RWC+fence+po
RWC+fences RWC+po+fence RWC S+fence+addr S+fence+ctrl S+fence+data S+fence+po S+fences S+po+data S SB+fence+po
SB+fences SB+forwards+later SB+forwards SB+lights SB+rfi-pos SB+seen SB W+RWC+fence+addr+fence W+RWC+fence+addr+po
W+RWC+fences W+RWC WRC+addrs WRC+data+addr WRC+data+fence WRC+fence+addr WRC+fence+po WRC+fences WRC+po+addr WRC
WWC+datas WWC+fences WWC+po+data WWC Z6.0+fences Z6.0 Z6.3+fence+fence+addr Z6.3 n4b n5 n6+addr+fence n6 n7
""".split()
FIRST_PAIRS = [
    (model, test) for model in shipped("models", *FIRST_MODELS) for test in shipped("tests", *FIRST_TESTS)
]


def access(kind: str, address: int, value: int | str) -> str:
    return f"{kind} (VA {address} 0) (PA {address} 0) (Data {value})"


def test_of(instructions: Iterable[tuple[int, list[str]]], stated: str = "") -> str:
    """A test of these instructions, each the micro-ops of a core, and of what is stated of the outcome."""
    return 'Litmus "t".\n' + "".join(
        f"Microop {number} {core} {core} {place} ({op}).\n"
        for number, (core, ops) in enumerate(instructions) for place, op in enumerate(ops)
    ) + stated


def ring(cores: int) -> str:
    return test_of(
        ((core, [op]) for core in range(cores)
         for op in (access("Write", 0, core + 1), access("Read", 0, (core + 1) % cores + 1))), "Forbidden.\n"
    )


def writes(count: int) -> str:
    """A test of so many writes, each on a core and of an address of its own."""
    return test_of((k, [access("Write", k, k)]) for k in range(count))


def fences(count: int) -> str:
    """A test of so many fences on one core."""
    return test_of((0, ["Fence Full"]) for _ in range(count))


def fences_apart(count: int) -> str:
    """A test of so many fences, each on a core of its own."""
    return test_of((k, ["Fence"]) for k in range(count))


ONE_WRITE = test_of([(0, [access("Write", 0, 1)])])


def choice(chance: random.Random, stages: int) -> str:
    """An edge between two stages, denied with the chance 0.3."""
    ends = chance.sample(range(stages), 2)
    denied = "~" if chance.random() < 0.3 else ""
    return f"{denied}EdgeExists ((i, N{ends[0]}), (i, N{ends[1]}))"


def choices(axioms: int, seed: int, stages: int = CHOICES_STAGES) -> str:
    """A model of so many axioms, each of which asks for one of two edges between stages of one micro-op. It is made anew from its
    seed, and is asked of ONE_WRITE."""
    chance = random.Random(seed)
    lines = [f'StageName {k} "N{k}".\n' for k in range(stages)]
    pairs = (f"{choice(chance, stages)} \\/ {choice(chance, stages)}" for _ in range(axioms))
    return "".join([*lines, *(f'Axiom "c{k}": forall microops "i", {pair}.\n' for k, pair in enumerate(pairs))])
