"""`pipecheck explain` on certificates of each kind: what is said of them, what of files that it refuses, and how it ends."""
from __future__ import annotations

import os
import re
import resource
import shlex
import shutil
import signal
import subprocess
import sys
import time
from dataclasses import dataclass
from threading import Thread
from typing import Any, Sequence

from tests.cases import (
    IS_NAMED, MP, NO_TEST, TOP, UNWRITTEN, VERDICT, Cases, Done, as_a_job, call, checkout_script, command, commands_without,
    missing, pipecheck, program, read, replaced, run, status_of, told, tool_entry, within, without_output, without_proofs, write
)
from tests.test_answers import ABSENT, EITHER, NEVER, ONE, SIGNS, SPOILT, WALK

import tools.explain.judged
from tools.texts import origins

SB = ("examples/store-buffer.uspec", "examples/sb.test")
SB_GRAPH = "examples/certificates/sb.txt"
TWO = ("examples/po-and-reverse.uspec", "examples/two-forbidden.test")
TWO_LIFTED = "examples/lifted/two.txt"
REFUTED = "unobservable: no run of this model shows the outcome\n"
SHOWN = "observable: a run of this model shows the outcome\n"
# lines are as wide as where there is no terminal, and the program is the one that stands
PLAIN: dict[str, str | None] = {"COLUMNS": None, "PIPECHECK": None}


def explained(*files: str, width: int = 0, **how: Any) -> Done:
    """What `pipecheck explain` says of these files in lines of so many columns, as it calls Python for that."""
    env = {**PLAIN, "COLUMNS": str(width) if width else None}
    return call(tool_entry("explain.judged"), ["judged", program(), *files], env=env, **how)


def shown(*words: str) -> str:
    """What docs/explain.md shows of these words of `explain`. A line `...` stands for others, and the first one is left out."""
    behind = read("docs/explain.md").partition(f"$ ./pipecheck explain {' '.join(words)}\n")[2]
    return behind.partition("```")[0].removeprefix("...\n")


@dataclass(frozen=True)
class Row:
    """What is said of a model, a test and a certificate, each a path of examples or a text; or what of it fits an expression, at so
    many columns."""

    name: str
    said: str
    model: str
    test: str
    certificate: str = ""
    part: str = r"(?s).*"
    width: int = 0
    status: int = 1


KEY, BODY = r"(?ms)^The micro.*?\n\n", r"(?s) cannot be:\n(.*)"


def odds(stages: str) -> str:
    """A model that leaves a choice of two at each of these stages, and denies each order at T."""
    declared = "".join(f'StageName {number} "{it}".\n' for number, it in enumerate(stages))
    return declared + "".join(rf"""Axiom "{it} is in some order": forall microops "i", forall microops "j", ProgramOrder i j =>
  AddEdge ((i, {it}), (j, {it})) \/ AddEdge ((j, {it}), (i, {it})).
""" for it in stages) + r"""DefineMacro "KeepsTFree" "a" "b": EdgeExists ((a, S), (b, S)) =>
  ~EdgeExists ((a, T), (b, T)) /\ ~EdgeExists ((b, T), (a, T)).
Axiom "no order at T": forall microops "i", forall microops "j", ProgramOrder i j =>
  ExpandMacro KeepsTFree i j /\ ExpandMacro KeepsTFree j i.
"""


def refutation_of_odds(numbers: tuple[int, int], choices: Sequence[str] = ()) -> str:
    """Its refutation: behind a choice at S and one at T these ones, with the same on both sides."""
    lines = ["unobservable", "test forbidden: ok", "split 1"]
    for number, first in zip(numbers, ("0.0@0:S 1.0@0:S", "1.0@0:S 0.0@0:S")):
        lines.append("split 5")
        for second in ("0.0@0:T 1.0@0:T", "1.0@0:T 0.0@0:T"):
            lines += [*choices, *(1 + len(choices)) * [f"split {number}", f"path {first}", f"path {second}"]]
    return "\n".join([*lines, "end", ""])


# eight branches, by three choices of two
ODDS, OF_ODDS = odds("STU"), refutation_of_odds((13, 18), ["split 9"])
CLOSED = 'All 8 branches end in an order that is denied; each by axiom "T is in some order" and axiom "no order at T".\n'
LEAVES = "Each split is a choice that the model leaves, and each branch ends in what cannot be:\n"
DENIED = "      path: this order is asked for and denied\n"
SIGNED = "unobservable\ntest unstated\nversion 2\nsplit 1\nabsent 0.0@0:T\nsplit ~2\nabsent 0.0@0:U\nabsent 0.0@0:U\nend\n"
# fences, types, dependencies and stated values
EACH = """Litmus "all".
Microop 0 0 0 0 (Fence Full).
Microop 1 0 0 1 (Read Locked (VA 5 0) (PA 7 0) (Data 3)).
Microop 2 1 1 0 (Write (VA 5 0) (PA 8 0) (Data 4)).
Relationship data 1 1 -> 2 0.
Relationship addr 1 1 -> 2 0.
Init (PA 7 0) 3.
Final (PA 8 0) 4.
"""
EACH_SAID = """observable: a run of this model shows the outcome
test unstated

The micro-ops of the test:
  0.0 core 0 fence Full
  1.1 core 0 reads [x] = 3 (Locked)
  2.0 core 1 writes [y] = 4
  addr dependency from 1.1 to 2.0
  data dependency from 1.1 to 2.0
  at the start [x] = 3
  at the end [y] = 4
  [x] is PA 7 0, [y] is PA 8 0

Places are lines and columns of model.uspec.

The axioms ask for no step: the empty run satisfies them.
"""
WALKS = """Litmus2 "w".
Microop 0 0 0 0 (Read (VA 3 0) (Entry 3) (Maps 7 1 0)).
Microop 0 0 0 1 (Write (VA 3 0) (PA 7 0) (Data 1)).
Init (Entry 4) (Maps 7 0 1).
"""
# the names that comments give, and where values come from
CALLED = """Litmus "called".
Microop 0 0 0 0 (Write (VA 0 0) (PA 0 0) (Data 1)). % message = 1
Microop 1 0 0 0 (Write (VA 1 0) (PA 1 0) (Data 1)). % flag = 1
Microop 2 1 1 0 (Read (VA 1 0) (PA 1 0) (Data 1)).  % flag is 1
Microop 3 1 1 0 (Read (VA 0 0) (PA 0 0) (Data 1)).  % message is 1
Microop 4 1 1 0 (Write (VA 2 0) (PA 2 0) (Data 1)). % flag = 2 would be another value
Microop 5 1 1 0 (Read (VA 3 0) (PA 3 0) (Data 0)).  % what nobody writes is 0
Microop 6 0 0 0 (Read (VA 2 0) (PA 2 0) (Data 0)).
"""
LISTING = """X86 named
{ flag=7; }
 P0            | P1             ;
 MOV [data],$1 |                ;
 MFENCE        | MOV EAX,[flag] ;
exists
(1:EAX=7 /\ [data]=1)
"""
CORES = r"""StageName 0 "S".
StageName 1 "T".
Axiom "all": forall core "c", forall microop "i", OnCore c i => NodesExist [(i, S); (i, (c, T))].
Axiom "none": exists core "c", forall microop "i", ~(OnCore c i /\ NodesExist [(i, S); (i, (c, T))]).
"""
CORES_LIFTED = "\n".join([
    "unobservable", "test unstated", "lifted", "inst 0 0", "inst 2 0.0", "split 3", "false 4", "member 4 0", "member 4 1",
    "split 1", "inst 7 0.0", "not 8", "split 9", "false 10", "split 10", "absent 11 5", "split 11", "absent 12 6",
    "false 12", "false 7", "end", ""
])
MANY = """StageName 0 "S".
Axiom "all": forall microops "i", forall microops "j", forall microops "k", SameCore i j \\/
  AddEdge ((i, S), (j, S)) \\/ NodeExists (k, S).
"""
GUARDED = """StageName 0 "S".
Axiom "guarded": forall microops "i", forall microops "j", forall microops "k", forall microops "l",
  ProgramOrder i j /\\ ProgramOrder j k /\\ ProgramOrder k l /\\ OnCore 1 i => AddEdge ((i, S), (l, S)).
"""
OF_64 = 'Litmus "64".\n' + "".join(f"Microop {k} {k % 8} {k % 8} 0 (Write (VA {k} 0) (PA {k} 0) (Data 1)).\n" for k in range(64))
# each micro-op of core 1 before those that are three or more behind it
OF_1 = [f"{k}.0@1:S" for k in range(1, 64, 8)]
LATER = "".join(["observable\ntest unstated\n", *(f"node {it}\n" for it in OF_1),
                 *(f"edge {first} {later}\n" for k, first in enumerate(OF_1) for later in OF_1[k + 3:]), "end\n"])
# an edge of two labels
LABELS = """StageName 0 "S".
Axiom "a": forall microops "i", forall microops "j", ~SameCore i j /\\ IsAnyWrite i => AddEdge ((i, S), (j, S), "one").
Axiom "b": forall microops "i", forall microops "j",
  ~SameCore i j /\\ IsAnyRead j => AddEdges [((i, S), (j, S), "two"); ((i, S), (j, S), "one")].
"""
ROWS = [
    # the location (0, Memory) is not at the core of every micro-op
    Row("a stage that stands at another core", r"""step  core 0       core 1
   6  0.0 Memory
   7  1.0 Memory
  1.0@0:Memory before 2.0@1:Execute   "rf" by axiom "Reads" at 72:1, r = 2.0, w = 1.0, in macro ReadsFrom at 64:64
  3.0@1:Execute before 0.0@0:Memory   "fr" by axiom "Reads" at 72:1, r = 3.0, v = 0.0, in macro ComesTooLate at 52:37
""", "examples/buggy/tutorial-early.uspec", "examples/tests/MP.test", part=r".*Memory.*\n|.*core 1\n", width=1000, status=0),
    Row("both sides of a split", r"""axiom "either" at 3:1, i = 0.0, j = 1.0:
  split 1: 1.0@0:S before 0.0@0:S, since not 0.0@0:S before 1.0@0:S
      axiom "late" at 5:1, i = 0.0, j = 1.0
path: this order is asked for and denied
  1.0@0:S before 0.0@0:S   split 1, axiom "either"
  0.0@0:S before 0.0@0:T   axiom "late" at 5:1, i = 0.0, j = 1.0
  not 1.0@0:S before 0.0@0:T   axiom "late" at 5:1, i = 0.0, j = 1.0
Every branch is closed.
""", EITHER, TWO[1], part=BODY),
    Row("what closes all of eight branches", CLOSED + LEAVES + 8 * DENIED, ODDS, TWO[1], OF_ODDS,
        r"(?m)^(?:All|Each).*\n|^ *path:.*\n", 1000),
    Row("a node that is denied and asked for", """absent: 0.0@5:S is asked for and denied
  0.0@5:S is there   axiom "far" at 2:1, i = 0.0
  0.0@5:S is not there   axiom "far" at 2:1, i = 0.0
Every branch is closed.
""", ABSENT, "examples/two.test", part=BODY),
    Row("axioms that constants make false", """false: the constants of the axioms alone make them false for this test
Every branch is closed.
""", NEVER, "examples/two.test", part=BODY),
    Row("a refutation of version 2", """axiom "s" at 4:1, i = 0.0:
  split 1: 0.0@0:S is not there or 0.0@0:T is not there; 0.0@0:U is there, since 0.0@0:T is not
      there
      axiom "s" at 4:1, i = 0.0
  split ~2: 0.0@0:S is there, since 0.0@0:U is asked for, and 0.0@0:U is not there
      split 1, axiom "s"; axiom "s" at 4:1, i = 0.0
absent: 0.0@0:U is asked for and denied
  0.0@0:U is there   split 1, axiom "s"
  0.0@0:U is not there   axiom "s" at 4:1, i = 0.0
Every branch is closed.
""", SIGNS, ONE, SIGNED, BODY),
    Row("a key of a test with page-table entries", """observable: a run of this model shows the outcome
test unstated

The micro-ops of the test:
  0.0 core 0 reads [x] = Maps 7 1 0
  0.1 core 0 writes [y] = 1
  at the start [z] = Maps 7 0 1
  [x] is Entry 3, [y] is PA 7 0, [z] is Entry 4

Places are lines and columns of model.uspec.

One order of the run, a step a line, in the column of the micro-op's core:
step  core 0
   1  0.0 S
   2  0.1 S

No edge is between micro-ops of two cores.

Where the values of reads come from:
  0.0 reads [x] = Maps 7 1 0 from no micro-op that the model names
""", WALK, WALKS, "observable\ntest unstated\nnode 0.0@0:S\nnode 0.1@0:S\nedge 0.0@0:S 0.1@0:S\nend\n", status=0),
    Row("addresses by the names of comments, and where values come from", """The micro-ops of the test:
  0.0 core 0 writes [message] = 1
  1.0 core 0 writes [flag] = 1
  2.0 core 1 reads [flag] = 1
  3.0 core 1 reads [message] = 1
  4.0 core 1 writes [x] = 1
  5.0 core 1 reads [y] = 0
  6.0 core 0 reads [x] = 0
  [message] is PA 0 0, [flag] is PA 1 0, [x] is PA 2 0, [y] is PA 3 0

Where the values of reads come from:
  2.0 reads [flag] = 1 from 1.0   "rf" by axiom "Reads" at 72:1, r = 2.0, w = 1.0, in macro ReadsFrom at 64:64
  3.0 reads [message] = 1 from 0.0   "rf" by axiom "Reads" at 72:1, r = 3.0, w = 0.0, in macro ReadsFrom at 64:64
  5.0 reads [y] = 0 from the start
  6.0 reads [x] = 0 from the start   "fr" by axiom "Reads" at 72:1, r = 6.0, v = 4.0, in macro ComesTooLate at 52:37
""", "examples/models/tutorial.uspec", CALLED, part=r"(?ms)^The micro.*?\n\n|^Where.*", width=1000, status=0),
    # a value that Python takes for no number
    Row("a comment with a value of 5,000 digits names no address", """The micro-ops of the test:
  0.0 core 0 writes [x] = 1
  [x] is PA 0 0

""", "examples/models/tutorial.uspec", ONE.rstrip() + f" % flag = {1:05000}\n", part=KEY, status=0),
    Row("a key of a listing", """\
The micro-ops of the test:
  0.0 core 0 writes [data] = 1
  1.0 core 0 fence MFENCE
  2.0 core 1 reads [flag] = 7
  at the start [flag] = 7
  at the end [data] = 1

""", "", LISTING, "observable\ntest unstated\nend\n", KEY, status=0),
    Row("a listing that check86 judges", """\
observable: a run of this model shows the outcome
test unstated

The micro-ops of the test:
  0.0 core 0 writes [x] = 1
  1.0 core 0 reads [y] = 0
  2.0 core 1 writes [y] = 1
  3.0 core 1 reads [x] = 0
""", SB[0], "examples/x86/SB.litmus", part=r"\A(?:.*\n){8}", status=0),
    # what macros bind, and a side that a fact of before closes
    Row("... with a macro", """\
bind 12: fact 13, (1.0@1:Fetch before 2.0@1:Fetch => 1.0@1:Decode before 2.0@1:Decode) /\\ (1.0@1:Decode before 2.0@1:Decode => \
1.0@1:Execute before 2.0@1:Execute) /\\ ..
left 13: fact 14, 1.0@1:Fetch before 2.0@1:Fetch => 1.0@1:Decode before 2.0@1:Decode   from axiom 2 with i = 1.0 and j = 2.0, in \
macro Follow at 41:4
split 14: fact 15, 1.0@1:Decode before 2.0@1:Decode, since 1.0@1:Fetch before 2.0@1:Fetch, fact 9   from axiom 2 with i = 1.0 and \
j = 2.0, in macro Follow at 41:4
""", "examples/models/sc-inorder.uspec", "examples/corr.test", "examples/lifted/corr.txt",
        r"(?m)^ *(?:bind 12|left 13|split 14).*\n", 200),
    # a choice of micro-ops: one has another address, one is taken, and none is left
    Row("... with a choice", """\
split 13: fact 14, exists microop w, IsAnyWrite w /\\ SamePhysicalAddress w 2.0 /\\ SameData w 2.0 /\\ (w, Mem) before 2.0@1:Mem \
/\\ forall microop v, IsAnyWrite v /\\ .., from w 1.0 on, since SamePhysicalAddress 0.0 2.0 does not hold in this test   from \
axiom 2 with i = 2.0
split 14: fact 15, IsAnyWrite 1.0 /\\ SamePhysicalAddress 1.0 2.0 /\\ SameData 1.0 2.0 /\\ 1.0@0:Mem before 2.0@1:Mem /\\ forall \
microop v, IsAnyWrite v /\\ SamePhysicalAddress v 2.0 .., since exists microop w, IsAnyWrite w /\\ SamePhysicalAddress w 2.0 /\\ \
SameData w 2.0 /\\ (w, Mem) before 2.0@1:Mem /\\ forall microop v, IsAnyWrite v /\\ .., from w 2.0 on, is false in this test   \
from axiom 2 with i = 2.0
""", *MP, "examples/lifted/mp.txt", r"(?m)^split 1[34].*\n", 1000),
    # cores, and nodes that are denied
    Row("... with cores and nodes", """\
inst 0 0: fact 2, forall microop i, OnCore 0 i => [(i, S) is there; (i, (0, T)) is there]   from axiom 0 with c = core 0
inst 2 0.0: fact 3, OnCore 0 0.0 => [0.0@0:S is there; 0.0@0:T is there]   from axiom 0 with c = core 0 and i = 0.0
split 3: fact 4, [0.0@0:S is there; 0.0@0:T is there], since OnCore 0 0.0 holds in this test   from axiom 0 with c = core 0 and i \
= 0.0
member 4 0: fact 5, 0.0@0:S is there   from axiom 0 with c = core 0 and i = 0.0
member 4 1: fact 6, 0.0@0:T is there   from axiom 0 with c = core 0 and i = 0.0
split 1: fact 7, forall microop i, ~(OnCore 0 i /\\ [(i, S) is there; (i, (0, T)) is there]), since no c is left   from axiom 1
inst 7 0.0: fact 8, ~(OnCore 0 0.0 /\\ [0.0@0:S is there; 0.0@0:T is there])   from axiom 1 with c = core 0 and i = 0.0
not 8: fact 9, not (OnCore 0 0.0 /\\ [0.0@0:S is there; 0.0@0:T is there])   from axiom 1 with c = core 0 and i = 0.0
split 9: fact 10, not [0.0@0:S is there; 0.0@0:T is there], since OnCore 0 0.0 holds in this test   from axiom 1 with c = core 0 \
and i = 0.0
split 10: fact 11, not [0.0@0:S is there; 0.0@0:T is there], from member 1 on, since 0.0@0:S is there, fact 5   from axiom 1 with \
c = core 0 and i = 0.0
split 11: fact 12, 0.0@0:T is not there, since no member of the list is left   from axiom 1 with c = core 0 and i = 0.0
absent 12 6: 0.0@0:T is asked for and denied
  0.0@0:T is there   from axiom 0 with c = core 0 and i = 0.0
  0.0@0:T is not there   from axiom 1 with c = core 0 and i = 0.0
Every branch is closed.
""", CORES, ONE, CORES_LIFTED, r"(?s)\nEach line[^\n]*\n(.*)", 1000),
    Row("each label of an edge", """\
  0.0@0:S before 1.0@1:S   "one" by axiom "a" at 2:1, i = 0.0, j = 1.0; "two" by axiom "b" at 3:1, i = 0.0, j = 1.0
""", LABELS, ONE + "Microop 1 1 1 0 (Read (VA 0 0) (PA 0 0) (Data 1)).\n", part=r"(?m)^  .* before .*\n", width=200, status=0),
    Row("four quantifiers over 64 micro-ops, behind guards", """\
One order of the run, a step a line, in the column of the micro-op's core:
No edge is between micro-ops of two cores.
""", GUARDED, OF_64, LATER, r"(?m)^(?:One order|No edge).*\n", status=0),
]


class Words(Cases):
    """What is said of certificates, and of those of a model and of its lifted refutations."""

    def file(self, name: str, text: str) -> str:
        """The path of examples, or a file of this name and text."""
        return f"{TOP}/{text}" if text.startswith("examples/") else os.path.basename(write(f"{self.work}/{name}", text))

    def test_rows(self) -> None:
        for row in ROWS:
            if self.is_wanted(row.name):
                test = self.file("test.litmus" if row.test.startswith("X86") else "t.test", row.test)
                certificate = [self.file("given", row.certificate)] if row.certificate else []
                done = explained(self.file("model.uspec", row.model), test, *certificate, width=row.width, cwd=self.work)
                self.judge(row.name, Done(done.status, "".join(re.findall(row.part, done.out)), done.err), row.status, row.said)

    def test_lifted_branches(self) -> None:
        """... lifted"""
        model = write(f"{self.work}/odds.uspec", ODDS)
        lifted = run([program(), "lift", model, TWO[1], write(f"{self.work}/odds", OF_ODDS)]).out
        done = explained(model, TWO[1], write(f"{self.work}/lifted", lifted), width=1000)
        self.assertEqual((done.status, re.findall("(?m)^All.*\n", done.out), done.err), (1, [CLOSED], ""))

    def test_too_much(self) -> None:
        """three quantifiers over 64 micro-ops, without guards, are too much"""
        graph = "observable\ntest unstated\n" + "".join(f"node {k}.0@{k % 8}:S\n" for k in range(64)) + "end\n"
        with replaced(origins, "MOST_STEPS", origins.MOST_STEPS // 10):
            done = explained(self.file("m", MANY), self.file("t", OF_64), self.file("c", graph), cwd=self.work)
        self.assertEqual(done, Done(125, "", "explain: not explained: the axioms ask too much of so many micro-ops; "
                                             "guards in front of quantifiers make it less\n"))

    def test_larger_models(self) -> None:
        """Each certificate of two models that differ most is explained, each step by an axiom, and each lifted one."""
        said, lifted = [], []
        for model in ("examples/models/tso-ooo.uspec", "examples/models/nmca-ooo.uspec"):
            for name in ("MP", "SB", "CoRR", "IRIW+fences", "3.SB+fences", "Final+both+behind", "ISA2"):
                test = f"examples/tests/{name}.test"
                certificate = write(f"{self.work}/certificate", run([program(), "check", model, test]).out)
                said.append(explained(model, test, certificate))
                if said[-1].status == 1:
                    text = run([program(), "lift", model, test, certificate]).out
                    lifted.append(explained(model, test, write(f"{self.work}/lifted", text)))
        with self.case("certificates of larger models"):
            self.assertEqual([it.err for it in said if it.err or not it.out.startswith((REFUTED, SHOWN))], [])
            self.assertEqual([it.out for it in said if "no axiom asks" in it.out or "several axioms" in it.out], [])
        with self.case("lifted refutations of larger models"):
            self.assertEqual([it for it in lifted if it.err or "\nEvery branch is closed" not in it.out], [])
            self.assertNotEqual(lifted, [])


# behind its key each is as the page shows it
GRAPH = """observable: a run of this model shows the outcome
test forbidden: BUG

The micro-ops of the test:
  0.0 core 0 writes [x] = 1
  1.0 core 0 reads [y] = 0
  2.0 core 1 writes [y] = 1
  3.0 core 1 reads [x] = 0
  [x] is PA 0 0, [y] is PA 1 0

Places are lines and columns of examples/store-buffer.uspec.

""" + shown(*SB)
FACTS, LEAF = shown(*TWO, TWO_LIFTED).split("...\n")
LIFTED = f"""unobservable: no run of this model shows the outcome
test forbidden: ok

The micro-ops of the test:
  0.0 core 0 writes [x] = 1
  1.0 core 0 writes [x] = 2
  [x] is PA 0 0

Places are lines and columns of examples/po-and-reverse.uspec.

{FACTS}member 4 0: fact 5, 0.0@0:S before 1.0@0:S   "po" from axiom 0 with i = 0.0 and j = 1.0
inst 1 0.0: fact 6, forall microop j, ProgramOrder 0.0 j => (j, S) before 0.0@0:S
    from axiom 1 with i = 0.0
inst 6 1.0: fact 7, ProgramOrder 0.0 1.0 => 1.0@0:S before 0.0@0:S
    from axiom 1 with i = 0.0 and j = 1.0
split 7: fact 8, 1.0@0:S before 0.0@0:S, since ProgramOrder 0.0 1.0 holds in this test
    from axiom 1 with i = 0.0 and j = 1.0
member 8 0: fact 9, 1.0@0:S before 0.0@0:S   "rev" from axiom 1 with i = 0.0 and j = 1.0
{LEAF}"""
REFUSED = "certificate refused at line 3\n"
UNTAKEN = (
    ("a full device", "full", SB, UNWRITTEN),
    ("a closed standard output", "closed", (*SB, SB_GRAPH), UNWRITTEN),
    ("a refused certificate, and a full device", "full", (*MP, SPOILT), UNWRITTEN),
    ("a pipe whose reader has enough", "unread", SB, ""),
)


def unkept(what: str, folder: str) -> str:
    """That a text could not be kept."""
    return f"pipecheck: {what} could not be kept in {folder}, the folder for temporary files; TMPDIR names another one\n"


def feed(paths: dict[str, str]) -> None:
    """Makes a pipe at each of these paths, and has it give the file behind it, once."""
    for path, file in paths.items():
        os.mkfifo(path)
        Thread(target=write, args=(path, read(file)), daemon=True).start()


class Script(Cases):
    """What the script does before and after something is said, and how it is told what cannot be."""

    def explains(self, name: str, words: Sequence[str], status: int = 0, out: str = "", err: str = "", **how: Any) -> None:
        """These files are explained: by the script, or where no more than a folder is said of the call in a process that is forked
        from this one."""
        if how.keys() - {"cwd"}:
            self.gives(name, [pipecheck(), "explain", *words], status, out, err, **{**how, "env": {**PLAIN, **how.get("env", {})}})
        else:
            self.judge(name, lambda: explained(*words, **how), status, out, err)

    def test_files(self) -> None:
        here = [checkout_script(), "explain"]
        self.gives("a refutation without a choice", [*here, *MP], 1, shown(*MP), env=PLAIN)
        self.gives("a graph that check finds", [*here, *SB], 0, GRAPH, env=PLAIN)
        self.explains("a graph that is given", [*SB, SB_GRAPH], 0, GRAPH)
        self.explains("a lifted refutation", [*TWO, TWO_LIFTED], 1, LIFTED)
        spoilt = write(f"{self.work}/spoilt", re.sub("(?m)^false 8$", "false 9", read(TWO_LIFTED)))
        self.explains("a refused lifted refutation, and nothing else", [*TWO, spoilt], 6, "certificate refused at line 12\n")
        self.explains("a refused certificate, and nothing else", [*MP, SPOILT], 6, REFUSED)
        self.explains("a refused file", [MP[0], MP[0]], 3, "refused test syntax at 2:1\n",
                      told(MP[0], "2:1", NO_TEST, "`Litmus` or `Litmus2`")
                      + f"pipecheck: {MP[0]} is a model, and stands for the test: explain MODEL TEST\n")
        gone = f"{self.work}/gone"
        self.explains("a certificate that is not there", [*MP, gone], 4, "", missing(gone))
        opened = write(f"{self.work}/open.litmus", read("examples/x86/SB.litmus").replace(" /\\ 1:EAX=0", ""))
        self.explains("a refused listing", [SB[0], opened], 3, "refused test x86-open at 9:20\n",
                      told(opened, "9:20", "x86-open: the condition gives this register no value"))
        model, test = write(f"{self.work}/model.uspec", ""), write(f"{self.work}/each.test", EACH)
        # sets have another order with each seed
        for seed in ("1", "2"):
            self.explains(f"a key of all that a test may say, seed {seed}", ["model.uspec", test], 0, EACH_SAID,
                          cwd=os.path.dirname(model), env={"PYTHONHASHSEED": seed})

    def test_without_python(self) -> None:
        path = {"PATH": commands_without(f"{self.work}/bin", "python")}
        missing = "pipecheck: explain is written in Python, and there is no python3 here\n"
        self.explains("without Python", MP, 125, "", missing, env=path)
        self.gives("a verdict without Python", [checkout_script(), "check", *MP], 1,
                   VERDICT, env=path)

    def test_output(self) -> None:
        for name, kind, words, said in UNTAKEN:
            with without_output(kind) as how:
                self.explains(name, words, 5, "", said, **how)

    def test_names(self) -> None:
        """Names with a dash or that a terminal takes for its own."""
        latin = "a\xc2\x9b".encode("latin-1").decode()
        for name, path in {
            "-m": SB[0], "-t": SB[1], "-s": SB_GRAPH, "--l": TWO_LIFTED, "-l": TWO_LIFTED, "two": TWO[0], "two.test": TWO[1],
            f"{latin}m": SB[0],
        }.items():
            shutil.copy(f"{TOP}/{path}", f"{self.work}/{name}")
        self.explains("files whose names begin with a dash", ["-m", "-t", "-s"], 0, GRAPH.replace(SB[0], "-m"), cwd=self.work)
        for name in ("-l", "--l"):
            self.explains(f"a lifted refutation that is named {name}", ["two", "two.test", name], 1, LIFTED.replace(TWO[0], "two"),
                          cwd=self.work)
        self.explains("a name with a control character of Latin-1", [f"{latin}m", "-t"], 0, GRAPH.replace(SB[0], "$'a\\u009bm'"),
                      cwd=self.work)
        write(f"{self.work}/{latin}t", "Litmus 1\n")
        self.gives("... in a place, in no locale too", [pipecheck(), "check", "-m", f"{latin}t"], 3, "refused test syntax at 1:8\n",
                   """$'a\\u009bt':1:8: syntax: no test can continue with this token
    Litmus 1
           ^
pipecheck: a text in quotes is expected
""", cwd=self.work, env={"LC_ALL": "C"})

    def test_pipes(self) -> None:
        """Files that can be read once."""
        shell = ["bash", "-c", '"$1" explain "$2" "$3" <(cat "$4")', "_", pipecheck()]
        self.gives("a graph from a pipe", [*shell, *SB, SB_GRAPH], 0, GRAPH, env=PLAIN)
        self.gives("a lifted refutation from a pipe", [*shell, *TWO, TWO_LIFTED], 1, LIFTED, env=PLAIN)
        rows: tuple[tuple[str, list[str]], ...] = (("a model and a test that are pipes", []), ("... and a certificate", [SB_GRAPH]))
        for name, more in rows:
            model, test = f"{self.work}/model{len(more)}", f"{self.work}/test{len(more)}"
            if self.is_wanted(name):
                feed({model: SB[0], test: SB[1]})
                self.explains(name, [model, test, *more], 0, GRAPH.replace(SB[0], model))
        name = "a listing that is a pipe"
        if self.is_wanted(name):
            listing = write(f"{self.work}/named.litmus", LISTING)
            feed({f"{self.work}/pipe.litmus": listing})
            certificate = write(f"{self.work}/named", "observable\ntest unstated\nend\n")
            empty = write(f"{self.work}/empty.uspec", "")
            done = run([pipecheck(), "explain", empty, f"{self.work}/pipe.litmus", certificate], env=PLAIN)
            self.judge(name, Done(done.status, "".join(re.findall("(?m)^  2.0.*\n", done.out)), done.err), 0,
                       "  2.0 core 1 reads [flag] = 7\n")

    def test_unkept(self) -> None:
        """A folder for temporary files that takes nothing."""
        gone = f"{self.work}/gone"
        self.explains("a folder for temporary files that is not there", SB, 125, "", unkept("the certificate", gone),
                      env={"TMPDIR": gone})
        piped = "no room for a certificate from a pipe"
        if self.is_wanted(piped):
            feed({f"{self.work}/certificate": SB_GRAPH})
        for name, what, words in (
            ("no room for the certificate", "the answer of check", SB),
            ("no room for what the judge says", "the answer of verify", (*SB, SB_GRAPH)),
            (piped, f"the text of {self.work}/certificate", (*SB, f"{self.work}/certificate")),
        ):
            # nothing can be written to a file; what is said goes to a pipe
            self.explains(name, words, 125, "", unkept(what, self.work), env={"TMPDIR": self.work},
                          preexec_fn=within(resource.RLIMIT_FSIZE, 0))

    def test_small_device(self) -> None:
        """A device of 4 KiB."""
        name, small = "a full device for temporary files", f"{self.work}/small"
        os.mkdir(small)
        mount = ["unshare", "-rm", "bash", "-c", 'mount -t tmpfs -o size=4k none "$1" && TMPDIR=$1 exec "${@:2}"', "_", small]
        if run([*mount, "true"]).status != 0:
            self.skips(name, "no small device can be made here")
            return
        line = "; ".join(f"((i, S{k}), (i, S{k + 1}))" for k in range(63))
        model = write(f"{self.work}/line.uspec", "".join(f'StageName {k} "S{k}".\n' for k in range(64))
                      + f'Axiom "line": forall microops "i", AddEdges [{line}].\n')
        self.holds("a certificate of more than 4 KiB", len(run([program(), "check", model, "examples/two.test"]).out) > 4096)
        words = [*mount, pipecheck(), "explain", model, "examples/two.test"]
        self.gives(name, words, 125, "", unkept("the answer of check", small), env=PLAIN)

    def test_checkers(self) -> None:
        """The checker that PIPECHECK names."""
        called = f"{self.work}/called"
        checker = command(f"{self.work}/a checker", f'echo "$1" >>{shlex.quote(called)}\nexec {shlex.quote(program())} "$@"\n')
        explains = [pipecheck(), "explain", *SB]
        self.judge("another checker", run(explains, env={**PLAIN, "PIPECHECK": checker}), 0, GRAPH)
        several: dict[str, str | None] = {**PLAIN, "PIPECHECK": f"env 'LANG=a b' '{checker}'"}
        self.judge("... of several words", run([*explains, SB_GRAPH], env=several), 0, GRAPH)
        self.same("... checks and judges", sorted(read(called).split()), ["check", "verify", "verify"])
        gone = f"{self.work}/gone"
        self.explains("a checker that is none", SB, 125, "", f"pipecheck: PIPECHECK is no command: {gone}\\ x\n",
                      env={"PIPECHECK": f"{gone} x"})
        self.explains("a checker that says nothing", SB, 125, "",
                      "pipecheck: no judge: the checker ended with status 0 and not with its verdict\n", env={"PIPECHECK": "true"})
        self.explains("a checker that refuses", [*MP, SPOILT], 6, REFUSED, env={"PIPECHECK": f"'{checker}'"})


QUIT = "pipecheck: the signal QUIT ended the program, so there is no answer: docs/faults.md, 'A signal'\n"


class Endings(Cases):
    """However the script is asked to end."""

    def command(self, name: str, text: str) -> str:
        """A command of this name in place of another one: a PATH that has it first."""
        command(f"{self.work}/bin/{name}", f"{text}\n")
        return f"{self.work}/bin:{os.environ['PATH']}"

    def quits(self, name: str, words: Sequence[str], **env: str) -> None:
        """Of what is said those lines are the script's that begin with its name."""
        if self.is_wanted(name):
            done = without_proofs(run([checkout_script(), *words], env={**PLAIN, **env}, preexec_fn=as_a_job))
            said = "".join(re.findall("(?m)^pipecheck: .*\n", done.err))
            self.judge(name, Done(done.status, done.out, said), 131, "", QUIT)

    def test_quit(self) -> None:
        """A Python that gets Ctrl-\\, and so does the shell that started it: at once, or where it is to explain."""
        python = shlex.quote(sys.executable)
        starts = f'case "$QUIT_AT/$2" in\nexplaining/-c) exec {python} "$@" ;;\nesac\n'
        path = self.command("python3", f'{starts}kill -s QUIT "$PPID" $$')
        for at in ("beginning", "explaining"):
            self.quits(f"Ctrl-\\, {at}", ["explain", *SB], PATH=path, QUIT_AT=at)
            self.quits(f"lint: Ctrl-\\, {at}", ["lint", *SB], PATH=path, QUIT_AT=at)
            self.quits(f"test86: Ctrl-\\, {at}", ["test86", "examples/x86/SB.litmus"], PATH=path, QUIT_AT=at)
        os.remove(f"{self.work}/bin/python3")
        # and before that: where the script finds itself, and which program stands, where none is named
        for tool in ("readlink",) if IS_NAMED else ("readlink", "sha256sum"):
            path = self.command(tool, "kill -s QUIT 0")
            for word in ("check", "agree"):
                self.quits(f"{word}: Ctrl-\\ at its {tool}", [word, *SB], PATH=path)
            os.remove(f"{self.work}/bin/{tool}")

    def test_folder(self) -> None:
        """A folder for the answer of `core` that is made, and whose name comes late."""
        made = '"$TMPDIR/made"'
        path = self.command("mktemp", f'trap "" "$ENDED_BY"\n{shutil.which("mktemp")} "$@" >{made} && kill -s "$ENDED_BY" 0 && '
                                      f"cat {made} && rm {made}")
        folders = f"{self.work}/folders"
        os.mkdir(folders)
        for name in ("HUP", "INT", "TERM"):
            with self.case(f"{name} while the folder is made leaves none"):
                env: dict[str, str | None] = {**PLAIN, "ENDED_BY": name, "TMPDIR": folders, "PATH": path}
                done = run([checkout_script(), "core", *SB], env=env, preexec_fn=as_a_job)
                self.assertEqual((done.status, os.listdir(folders)), (128 + signal.Signals[f"SIG{name}"], []))

    def test_interrupt(self) -> None:
        """Ctrl-C at eight moments of the beginning: nothing is said"""
        for delay in (0.03, 0.04, 0.05, 0.06, 0.07, 0.08, 0.1, 0.12):
            with subprocess.Popen([checkout_script(), "explain", *SB], cwd=TOP, stdin=subprocess.DEVNULL,
                                  stdout=subprocess.DEVNULL, stderr=subprocess.PIPE, preexec_fn=as_a_job) as process:
                time.sleep(delay)
                os.killpg(process.pid, signal.SIGINT)
                said = process.communicate()[1].decode()
            done = without_proofs(Done(status_of(process.returncode), "", said))
            self.assertEqual(done, Done(130, "", ""))
