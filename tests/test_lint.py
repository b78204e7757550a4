"""`pipecheck lint` on a planted slip of each kind, on what is close to it and right, and on the slip with a comment that says it
is meant; on queries, listings and patterns; on what is shipped, and on large files. Where a case is about what lint says of files,
it is called as `pipecheck lint` calls it.
"""
from __future__ import annotations

import functools
import glob
import os
import resource
import shutil
import sys
from dataclasses import dataclass, field, replace
from typing import Any, Callable, Iterable, Sequence

from tests.cases import (
    NO_MODEL, NO_TEST, TOP, UNWRITTEN, Cases, Done, call, commands_without, missing, pipecheck, program, read, replaced, run,
    told, tool_entry, without_output, without_proofs, write
)

import tools.lint.main
from tools.lint import idle as linting_idle
from tools.lint import nodes as linting_nodes
from tools.lint import parts as linting_parts
from tools.lint.linting import Linter, read_query_file, read_test
from tools.lint.edges import BETWEEN_TEST
from tools.lint.nodes import FreeNodes
from tools.lint.slips import Slip, TestFile
from tools.second.models import Model
from tools.second.predicates import MICROOP, PREDICATES, of_pair
from tools.second.scopes import read_model
from tools.telling.refusals import expected, refusal_of
from tools.second.standard_output import DEPTH

# what is right: each micro-op passes S and then T, in program order, and a read takes its value at S
RIGHT = """StageName 0 "S".
StageName 1 "T".
Axiom "path": forall microops "i", AddEdge ((i, S), (i, T)).
Axiom "order": forall microops "i", forall microops "j", ProgramOrder i j => AddEdge ((i, S), (j, S)).
Axiom "values": forall microops "r", IsAnyRead r => DataFromInitialStateAtPA r \\/
  exists microop "w", IsAnyWrite w /\\ SamePhysicalAddress w r /\\ SameData w r /\\ AddEdge ((w, T), (r, S)).
"""
TEST = """Litmus "t".
Microop 0 0 0 0 (Write (VA 0 0) (PA 0 0) (Data 1)).
Microop 1 0 0 0 (Fence).
Microop 2 0 0 0 (Read (VA 0 0) (PA 0 0) (Data 1)).
Microop 3 1 1 0 (Read (VA 0 0) (PA 0 0) (Data 0)).
"""
WRITE = "(Write (VA 0 0) (PA 0 0) (Data 1))"


@dataclass(frozen=True)
class Row:
    """What lint says: of a model M, which is the right one with a text behind it, of tests T and U, of a query Q. An `@` in a text
    marks a place and is no part of it; a line names the first of a file as `M@1`, and so on. Where these names are meant, as a
    comment may say, a case says that lint has nothing to say then."""

    name: str
    lines: list[str] = field(default_factory=list)
    model: str = ""
    tests: tuple[str, ...] = (TEST,)
    query: str | None = None
    # 0 without lines and 1 with some, where none is given
    status: int | None = None
    meant: str | None = None


def ops(*lines: str) -> str:
    """A test of these lines; those that begin with a number are micro-ops."""
    return "\n".join(['Litmus "t".', *(f"Microop {it}." if it.lstrip("@")[0].isdigit() else it for it in lines), ""])


def alone(*lines: str) -> str:
    """The same of fences that have nothing to order."""
    return ops("% Lint allows: lonely-fence", *lines)


ORDER = "comes before it in program order"
ORDERS = [
    Row("nothing to say"),
    Row("order: a fence numbered 9 between 0 and 1",
        [f"T@1: order: instruction 1 stands behind instruction 9 of its core, and {ORDER}"],
        tests=(alone(f"0 0 0 0 {WRITE}", "9 0 0 0 (Fence)", "@1 0 0 0 (Fence)", "2 0 0 0 (Fence)"),), meant=""),
    Row("order: two cores in turn, and two micro-ops of one instruction, have none",
        tests=(alone("5 0 0 1 (Fence)", "1 1 1 0 (Fence)", "5 0 0 0 (Fence)", "2 1 1 0 (Fence)"),)),
    Row("threads: a core with two, and one with three",
        ["T@1: threads: core 0 runs threads 0 and 4, and there is no program order between two threads",
         "T@2: threads: core 1 runs threads 1, 2 and 3, and there is no program order between two threads"],
        tests=(alone("0 0 0 0 (Fence)", "1 0 @4 0 (Fence)", "2 1 1 0 (Fence)", "3 1 @2 0 (Fence)", "4 1 3 0 (Fence)"),), meant=""),
    Row("threads: one number on two cores", tests=(alone("0 0 0 0 (Fence)", "1 1 0 0 (Fence)"),)),
]
OF_ALL = "of every test given and of every one that lint makes up"
NOTHING = f"asks for nothing: it is True {OF_ALL}"
FALSE = "is False by what the test says alone, of"
NEVER = '@Axiom "never": forall microops "i", IsAnyWrite i /\\ IsAnyRead i => AddEdge ((i, T), (i, S)).'
OF_PAGES = '@Axiom "a page": forall microops "i", SamePhysicalAddress i i /\\ NodeExists (i, S).'
IDLE = [
    Row("idle: a premise that never holds", [f'M@1: idle: axiom "never" {NOTHING}'], NEVER, meant="never"),
    Row("idle: the same in a model alone", [f'M@1: idle: axiom "never" {NOTHING}'], NEVER, ()),
    Row("idle: a dependency against program order", [f'M@1: idle: axiom "addr" {NOTHING}'],
        '@Axiom "addr": forall microops "i", forall microops "j", HasDependency addr j i /\\ ProgramOrder i j => '
        "AddEdge ((i, T), (j, S))."),
    Row("idle: one whose title has commas and a star",
        model='Axiom "a, b*": forall microops "i", IsAnyFence i /\\ SameData i i => AddEdge ((i, T), (i, S)).\n'
        "% Lint allows: idle a--b-"),
    Row("idle: axioms on what the test lacks, and another test may have",
        model='Axiom "locked": forall microops "r", forall microops "w", IsAnyRead r /\\ IsAnyWrite w /\\\n'
        "  SameInstruction r w /\\ AccessType Locked r /\\ AccessType Locked w => AddEdge ((r, S), (w, S)).\n"
        'Axiom "data": forall microops "i", forall microops "j", HasDependency data i j => AddEdge ((i, S), (j, S)).\n'
        'Axiom "last": forall microops "w", IsAnyWrite w /\\ DataFromFinalStateAtPA w => NodeExists (w, T).\n'
        'Axiom "far": forall microops "i", OnCore 7 i => NodeExists (i, T).', tests=(ops(f"0 0 0 0 {WRITE}"),)),
    Row("idle: an axiom that is False of fences", [f'M@1: idle: axiom "a page" {FALSE} T'], OF_PAGES),
    Row("idle: an axiom that is False of two tests", [f'M@1: idle: axiom "a page" {FALSE} T and 1 more test'], OF_PAGES,
        (TEST, TEST)),
    Row("idle: an axiom that is False of two tests, of which one says that it is meant", [f'M@1: idle: axiom "a page" {FALSE} U'],
        OF_PAGES, ("% Lint allows: idle a-page\n" + TEST, TEST)),
    Row("idle: a read of what nothing writes is told as that alone",
        ["T@1: unwritten: the read gets 2, which is not the value of PA 0 0 at the start, and nothing writes it there"],
        tests=(ops(f"0 0 0 0 {WRITE}", "1 1 1 0 (Read (VA 0 0) (PA 0 0) (Data @2))"),)),
]
# a line of a cache, which nothing brings in
LINE = 'StageName 2 "Line".\n'
HIT = 'Axiom "hit": forall microops "r", IsAnyRead r =>\n  exists microop "l", SameCore l r /\\ AddEdge ((l, @Line), (r, T)).\n'
HIT_OF_WRITES = HIT.replace("IsAnyRead r", "IsAnyWrite r")
LINE_OF_WRITES = 'Axiom "line": forall microops "w", IsAnyWrite w => NodeExists (w, Line).\n'
FREE = "and none denies it: a run has this node or not, as it likes"


def free(whom: str, others: int = 0) -> list[str]:
    """That no axiom gives the stage of such a line to this, and to so many more of its kind."""
    return [f"M@1: free-node: no axiom gives stage Line to {whom}, {FREE}" + f", and {others} more of them" * bool(others)]


NODES = [
    Row("free-node: a line that some access brings in, under exists", free("the write 0.0 of T", 2), LINE + HIT, meant="Line"),
    Row("free-node: the same in a model alone", free("every read"), LINE + HIT, ()),
    Row("free-node: a node on one side of an or", free("the write 0.0 of T"),
        LINE + 'Axiom "a": forall microops "w", IsAnyWrite w => NodeExists (w, @Line) \\/ AddEdge ((w, T), (w, S)).'),
    Row("free-node: a node on both sides of an or",
        model=LINE + 'Axiom "a": forall microops "w", IsAnyWrite w =>\n'
        "  AddEdge ((w, Line), (w, S)) \\/ AddEdge ((w, T), (w, Line))."),
    Row("free-node: a node in a premise that has an order for its conclusion", free("the write 0.0 of T", 3),
        LINE + 'Axiom "a": forall microops "l", NodeExists (l, @Line) => AddEdge ((l, S), (l, Line)).'),
    Row("free-node: a node that another axiom gives", model=LINE + HIT + 'Axiom "a": forall microops "l", NodeExists (l, Line).'),
    Row("free-node: a node that another axiom gives to reads and fences alone", free("the write 0.0 of T"),
        LINE + HIT + 'Axiom "a": forall microops "l", ~IsAnyWrite l => NodeExists (l, Line).'),
    Row("free-node: a node that one axiom gives to writes alone, and another one asks of any micro-op",
        free("the fence 1.0 of T", 1), LINE + LINE_OF_WRITES + HIT_OF_WRITES),
    Row("free-node: ... and another one asks of writes alone, by a macro",
        model=LINE + LINE_OF_WRITES + 'DefineMacro "Hits" "l" "r": SameCore l r /\\ IsAnyWrite l.\n'
        'Axiom "hit": forall microops "r", exists microop "l",\n'
        "  ExpandMacro Hits l r /\\ AddEdge ((l, Line), (r, T)) \\/ IsAnyRead r."),
    Row("free-node: ... and another one asks of no write, by a macro",
        free("the fence 1.0 of T", 1),
        LINE + LINE_OF_WRITES + 'DefineMacro "Hits" "l" "r": SameCore l r => IsAnyWrite l.\n'
        'Axiom "hit": forall microops "r", exists microop "l",\n'
        "  ~ExpandMacro Hits l r /\\ AddEdge ((l, @Line), (r, T)) \\/ IsAnyWrite r."),
    Row("free-node: a node that is denied where it does not have its order",
        model=LINE + HIT + 'Axiom "a": forall microops "l", AddEdge ((l, S), (l, Line)) \\/ ~NodeExists (l, Line).'),
    Row("free-node: a node in a premise that is false of the test",
        model=LINE + HIT + 'Axiom "a": forall microops "l", NodeExists (l, Line) => IsAnyWrite l /\\ IsAnyRead l.\n'
        "% Lint allows: constant-part a"),
    Row("free-node: a node in a premise whose conclusion denies something",
        model=LINE + HIT + 'Axiom "a": forall microops "l", NodeExists (l, Line) => ~NodeExists (l, (5, @T)).',
        lines=["M@2: two-places: (l, (5, T)) here, and (i, T) in 3 places: where the core is another, these are two nodes"]),
]
# what the first axioms give, so that those on two writes need not be looked at
GIVEN = """StageName 3 "Memory".
Axiom "drain": forall microops "w", IsAnyWrite w => AddEdge ((w, T), (w, (0, Memory))).
DefineMacro "Behind" "v" "w": IsAnyWrite v /\\ IsAnyWrite w /\\ ProgramOrder v w.
Axiom "queue": forall microops "v", forall microops "w",
  ExpandMacro Behind v w => AddEdge ((v, (0, Memory)), (w, (0, Memory))).
"""
AT_ITS_LIMIT = "lint stopped looking at its limit: there may be more"
LOOKED_AT = Row("free-node: a node in a test of 64 micro-ops, by a few steps for each",
    [*free("the write 0.0 of T", 63), f"M:1:1: free-node: {AT_ITS_LIMIT}"], LINE + GIVEN + HIT,
    (ops(*(f"{k} 0 0 0 (Write (VA 0 0) (PA 0 0) (Data {k + 1}))" for k in range(63)),
         "63 0 0 0 (Read (VA 0 0) (PA 0 0) (Data 0))"),))
STOPPED = Row("idle, constant-part and free-node say once that they stopped looking",
              [f"M:1:1: {it}: {AT_ITS_LIMIT}" for it in ("idle", "constant-part", "free-node")])
BOUND = "is bound again, so that the body does not see the one further outside"
NAMES = [
    Row("unused-stage: a stage that no axiom names", ["M@1: unused-stage: no axiom names stage Line"], 'StageName 2 @"Line".',
        meant="Line"),
    Row("unused-variable: names of a macro and of quantifiers",
        ["M@1: unused-variable: the body does not use b", "M@2: unused-variable: the body does not use j",
         "M@3: unused-variable: the body does not use c"],
        'DefineMacro "Pass" "a" @"b": NodeExists (a, S).\n'
        'Axiom "x": forall microops "i", @forall microops "j", @forall cores "c", ExpandMacro Pass i i.'),
    Row("unused-variable: a type of the same name is no use", ["M@1: unused-variable: the body does not use Full"],
        'Axiom "x": @exists microop "Full", forall microops "i", AccessType Full i => NodeExists (i, S).',
        (ops(f"0 0 0 0 {WRITE}"),), meant="Full"),
    Row("unused-variable: a name that only the body of a macro uses",
        model='DefineMacro "Pass": NodeExists (i, S).\nAxiom "x": forall microops "i", ExpandMacro Pass.'),
    Row("shadowed: a parameter and a name", [f"M@1: shadowed: a {BOUND}", f"M@2: shadowed: i {BOUND}"],
        'DefineMacro "P" "a": (@forall microops "a", NodeExists (a, S)) /\\ NodeExists (a, S).\n'
        'Axiom "x": forall microops "i", (@forall microops "i", ExpandMacro P i) /\\ NodeExists (i, S).', meant="a i"),
    Row("shadowed: a macro's own name hides nothing of where it is expanded",
        model='DefineMacro "P" "a": forall microops "b", NodesExist [(a, S); (b, S)].\n'
        'Axiom "x": forall microops "b", ExpandMacro P b.'),
]
TWO = "where the core is another, these are two nodes"
PLACES = [
    Row("two-places: a fence waits on its own core for what stands at core 0",
        [f"M@1: two-places: (w, Memory) here, and (w, (0, Memory)) in 2 places: {TWO}"],
        'StageName 2 "Memory".\n'
        'Axiom "drain": forall microops "w", AddEdges [((w, T), (w, (0, Memory))); ((w, S), (w, (0, Memory)))].\n'
        'Axiom "fence": forall microops "f", forall microops "w", IsAnyFence f /\\ ProgramOrder w f =>\n'
        "  AddEdge ((w, @Memory), (f, S)).", meant="Memory"),
    Row("two-places: a core that is a variable, and the rarer of the two first",
        [f"M@1: two-places: (w, (c, Memory)) here and in 1 more place, and (w, Memory) in 3 places: {TWO}"],
        'StageName 2 "Memory".\n' 'Axiom "a": forall microops "w", NodeExists (w, Memory) /\\ forall cores "c",\n'
        "  AddEdges [((w, T), (w, (c, @Memory))); ((w, S), (w, (c, Memory)));\n"
        "            ((w, T), (w, Memory)); ((w, S), (w, Memory))]."),
]
LOOSE = "the arrow is the weakest connective: a w of which its left side is False is enough"
ARROWS = [
    Row("loose-exists: an arrow behind an and", [f"M@1: loose-exists: {LOOSE}"],
        'Axiom "a": forall microops "r", IsAnyRead r =>\n'
        '  (@exists microop "w", IsAnyWrite w /\\ SameData w r => AddEdge ((w, T), (r, S))) /\\ NodeExists (r, S).'),
    Row("loose-exists: two names, of which the outer one stands left of the arrow", [f"M@1: loose-exists: {LOOSE}"],
        'Axiom "a": forall microops "r", NodeExists (r, S) /\\\n'
        '  exists microop "w", @exists microop "v", SameCore w r => NodesExist [(v, S); (r, S)].'),
    Row("loose-exists: ones that are meant, of an axiom and of a macro",
        model='Axiom "a b": NodesExist [] /\\ exists microop "w", IsAnyWrite w /\\ IsAnyWrite w => NodeExists (w, T).\n'
        'DefineMacro "M": exists microop "w", IsAnyFence w => NodeExists (w, T).\n' 'Axiom "c": ExpandMacro M.\n'
        "% Lint allows: loose-exists a-b M\n% Lint allows: idle"),
    Row("loose-exists: an arrow in brackets, and one that speaks of another name on its left",
        model='Axiom "a": forall microops "r", exists microop "w",\n'
        "  SameMicroop w r /\\ (IsAnyWrite w => NodeExists (w, T)).\n"
        'Axiom "b": forall microops "r", exists microop "w", IsAnyRead r => NodesExist [(w, T); (r, T)].'),
]
NO_ORDER = "no-order: the absence of this edge is asked for, which no order between its two nodes also meets"
BETWEEN = (f"{NO_ORDER}, so that a write without an order to the two may stand between them: "
           "examples/tests/SB+fences+old.test shows the difference")
LAST = 'Axiom "last": forall microops "r", forall microops "w", IsAnyWrite w /\\ IsAnyRead r => ExpandMacro Last w r.\n'


def last(form: str) -> str:
    """A model in which w is the last write before r, as this form has it."""
    return f'DefineMacro "Last" "w" "r": {form}.\n{LAST}'


EDGES = [
    Row("no-order: that no write stands between, as ~exists", [f"M@1: {BETWEEN}"],
        last('~exists microop "v", IsAnyWrite v /\\ @EdgesExist [((w, T), (v, T)); ((v, T), (r, S))]'), meant="Last"),
    Row("no-order: that no write stands between, as forall", [f"M@1: {BETWEEN}", f"M@2: {BETWEEN}"],
        last('forall microops "v", IsAnyWrite v => ~(@EdgeExists ((w, T), (v, T)) /\\ @EdgeExists ((v, T), (r, S)))')),
    Row("no-order: that no write stands between, by a macro and a premise", [f"M@1: {BETWEEN}", f"M@2: {BETWEEN}"],
        'DefineMacro "After" "x" "y": IsAnyWrite x /\\ @EdgeExists ((y, T), (x, T)).\n' +
        last('forall microops "v", ExpandMacro After v w => ~@EdgeExists ((v, T), (r, S))')),
    Row("no-order: that no read stands between has no test", [f"M@1: {NO_ORDER}"],
        last('~exists microop "v", IsAnyRead v /\\ @EdgesExist [((w, T), (v, T)); ((v, T), (r, S))]')),
    Row("no-order: that no write comes before has no test", [f"M@1: {NO_ORDER}"],
        last('~exists microop "v", IsAnyWrite v /\\ @EdgesExist [((v, T), (w, T)); ((v, T), (r, S))]')),
    Row("no-order: a list without an edge", model='Axiom "x": forall microops "i", EdgesExist [] => NodeExists (i, T).'),
]
SYNC = "(Fence SYNC)"
COUNTS = [
    Row("counts: a type in 62 places", ["T@1: not-asked: type SYNC: no axiom of M asks for it, here and in 61 more places"],
        tests=(alone("0 0 0 0 (Fence @SYNC)", *(f"{g} 0 0 0 {SYNC}" for g in range(1, 62))),)),
]
HAS = 'exists microop "i", EdgeExists ((i, S), (i, T))\n'
QUERIES = [
    Row("a query: nothing to say", query=HAS),
    Row("a query: the kinds that it may have",
        [f"Q@3: {NO_ORDER}", "Q@1: unused-variable: the body does not use i", f"Q@2: shadowed: j {BOUND}",
         "Q@2: loose-exists: the arrow is the weakest connective: a j of which its left side is False is enough",
         f"Q@4: two-places: (j, (0, S)) here, and (i, S) in 5 places: {TWO}"],
        query='@exists microop "i", exists microop "j", NodeExists (j, T) /\\ @exists microop "j",\n'
        "  IsAnyRead j => ~@EdgeExists ((j, S), (j, T)) /\\ NodeExists (j, (0, @S))"),
    Row("a query: a premise that never holds", [f"Q@1: idle: the query asks for nothing: its premise is False {OF_ALL}"],
        query='% Is it?\n@forall microop "i", IsAnyWrite i /\\ IsAnyRead i => EdgeExists ((i, T), (i, S))'),
    Row("a query: what the test alone makes True",
        query='forall microop "i", IsAnyWrite i => ~IsAnyRead i \\/ EdgeExists ((i, S), (i, T))'),
    Row("a query: what no test says", [f"Q@1: idle: the query asks for nothing: it is False {OF_ALL}"],
        query='@exists microop "i", IsAnyWrite i /\\ IsAnyRead i /\\ EdgeExists ((i, T), (i, S))'),
    Row("a query: two stages that it names in another way are told as they stand in it",
        [f"Q@1: two-places: (i, (0, S)) here, and (i, S) in 4 places: {TWO}",
         f"Q@2: two-places: (i, (0, T)) here, and (i, T) in 2 places: {TWO}"],
        query='exists microop "i", NodeExists (i, (0, @S)) /\\ NodeExists (i, (0, @T))'),
    Row("a query: ones that are meant, by the model and by the query", model="% Lint allows: unused-variable j",
        query="% Lint allows: unused-variable i\n" 'forall microop "i", exists microop "j", exists microop "k", NodeExists (k, S)'),
    Row("a query: what it asks for is asked for, and what it expands is expanded",
        model='DefineMacro "Waits" "f": AccessType SYNC f /\\ NodeExists (f, T).', tests=(alone("0 0 0 0 (Fence SYNC)"),),
        query='forall microop "f", IsAnyFence f => ExpandMacro Waits f'),
    Row("a query: a fault", ["Q@1: stage-unknown: no stage has the name"], query='exists microop "i", NodeExists (i, @U)',
        status=3),
    Row("a query: a fault that stands in a macro of the model",
        ["M@2: wrong-sort: a core where a micro-op is asked for, or the reverse, or a number where a name is asked for",
         "M@1: unexpanded: no axiom expands macro Waits"], model='DefineMacro @"Waits" "f": NodeExists (@f, T).',
        query='exists core "c", ExpandMacro Waits c', status=3),
]
LEAVES = "of all micro-ops that the rest of the condition leaves"
NEXT = 'DefineMacro "Next" "a" "b": ProgramOrder a b /\\ ~exists microop "k", ProgramOrder a k /\\ ProgramOrder k b.\n'
PAIR = 'forall microops "i", forall microops "j", '
THEN = " => AddEdge ((i, S), (j, S)).\n"


def condition(text: str) -> str:
    """An axiom of two micro-ops with this condition."""
    return f'Axiom "x y": {PAIR}{text}{THEN}'


PARTS = [
    Row("constant-part: the two of a macro in the wrong order", [f"M@1: constant-part: ~ExpandMacro Next j i is True {LEAVES}"],
        NEXT + condition("ProgramOrder i j /\\ ~@ExpandMacro Next j i")),
    Row("constant-part: a ~ that was forgotten", [f"M@1: constant-part: SameMicroop i j is False {LEAVES}"],
        condition("ProgramOrder i j /\\ @SameMicroop i j \\/ IsAnyRead i /\\ SameCore i j"), meant="x-y"),
    Row("constant-part: behind an arrow that brackets pulled in front of it",
        [f"M@1: constant-part: SameCore i j is True {LEAVES}"],
        f'Axiom "x": {PAIR}ProgramOrder i j => (@SameCore i j /\\ IsAnyRead i => AddEdge ((i, S), (j, S))).'),
    Row("constant-part: a micro-op that is one of the three", [f"M@1: constant-part: IsAnyFence i is True {LEAVES}"],
        condition("(IsAnyRead i \\/ IsAnyWrite i \\/ @IsAnyFence i) /\\ SameCore i j")),
    Row("constant-part: what no two of four micro-ops are", [f"M@1: constant-part: SameMicroop i k is False {LEAVES}"],
        f'Axiom "x": {PAIR}forall microops "k", forall microops "l", ProgramOrder i j /\\ ProgramOrder j k /\\\n'
        "  (@SameMicroop i k \\/ SameCore k l) => AddEdge ((i, S), (l, S))."),
    Row("constant-part: in a macro", [f"M@1: constant-part: IsAnyWrite a is True {LEAVES}"],
        'DefineMacro "P" "a": NodeExists (a, S) \\/ ~IsAnyRead a /\\ ~IsAnyFence a /\\ @IsAnyWrite a.\n'
        'Axiom "x": forall microops "i", ExpandMacro P i.'),
    Row("constant-part: the same operand twice, of a condition and of what it leads to",
        ["M@1: constant-part: IsAnyRead i stands twice in one condition",
         "M@2: constant-part: this part stands twice in one condition"],
        f'Axiom "x": {PAIR}IsAnyRead i /\\ SameCore i j /\\ @IsAnyRead i =>\n'
        "  AddEdge ((i, S), (j, T)) /\\ @AddEdge ((i, S), (j, T))."),
    Row("constant-part: parts that may be either",
        model=NEXT + condition("ProgramOrder i j /\\ ~ExpandMacro Next i j /\\ ~SamePhysicalAddress i j") +
        'Axiom "y": forall microops "i", IsAnyRead i /\\ ~DataFromInitialStateAtPA i /\\ ~OnCore 1 i =>\n'
        '  exists microop "w", IsAnyWrite w /\\ SamePhysicalAddress w i /\\ SameData w i /\\ SameCore w i /\\ NodeExists (w, S).\n'
        'Axiom "z": forall microops "r", forall microops "w", IsAnyRead r /\\ IsAnyWrite w /\\\n'
        "  SameInstruction r w => NodeExists (r, S)."),
    Row("constant-part: an axiom that asks for nothing is told as that alone", [f'M@1: idle: axiom "never" {NOTHING}'], NEVER),
]
# of predicates that the table gets for these cases
NEW_PREDICATES = [
    Row("constant-part: a new predicate", [f"M@1: constant-part: OtherCore i j is False {LEAVES}"],
        condition("ProgramOrder i j /\\ @OtherCore i j \\/ IsAnyRead i /\\ SameCore i j")),
    Row("constant-part: a new predicate that asks for what no search chooses", model=condition("ProgramOrder i j /\\ Titled i")),
]
ODD = 'StageName 2 "L2".\n' + "".join(
    f'Axiom "a{k}": forall microops "w", AddEdge ((w, {stage}), (w, ({core}, {mark}L2))).\n'
    for k, (stage, core, mark) in enumerate((("S", 0, ""), ("T", 0, ""), ("S", 1, "@"), ("S", 0, "")))
)
TEXTS = [
    Row("odd-place: one of four on another core", ["M@1: odd-place: (w, (1, L2)) here alone, and (w, (0, L2)) in 3 places"], ODD,
        meant="L2"),
    Row("odd-place: one of two, and two of four",
        model='StageName 2 "L2".\nStageName 3 "L3".\n'
        'Axiom "a": forall microops "w", NodesExist [(w, (0, L2)); (w, (1, L2))].\n'
        'Axiom "b": forall microops "w", NodesExist [(w, (0, L3)); (w, (0, L3)); (w, (1, L3)); (w, (1, L3))].'),
    Row("swallowed: an axiom behind a comment that is not closed where it was meant, and a macro",
        ['M@1: swallowed: axiom "lost" begins in a comment, so that it is none',
         "M@2: swallowed: macro Lost begins in a comment, so that it is none"],
        '(* orders\n@Axiom "lost": forall microops "i", NodeExists (i, S). (* and *)\n% @DefineMacro "Lost" "i": IsAnyRead i.'),
    Row("swallowed: words that begin none, and one that is meant",
        model="% The Axiom above, and DefineMacro.\n(* Lint allows: swallowed old *)\n"
        '% Axiom "old": forall microops "i", NodeExists (i, S).'),
    Row("same-title: three of one title, and two of another",
        ['M@1: same-title: the axiom at 4:1 has the title "order", too, and 1 more axiom of it',
         'M@2: same-title: the axiom at 3:1 has the title "path", too'],
        '@Axiom "order": forall microops "i", NodeExists (i, S).\n' '@Axiom "path": forall microops "i", NodeExists (i, S).\n'
        'Axiom "order": forall microops "i", NodeExists (i, T).'),
    Row("same-title: ones without a title, and one that is meant",
        model='Axiom "": forall microops "i", NodeExists (i, S).\nAxiom "": forall microops "i", NodeExists (i, T).\n'
        'Axiom "path": forall microops "i", NodeExists (i, S).\n% Lint allows: same-title path'),
]
SAME_PAGE = "SamePhysicalAddress i j"
ADDRESSES = [
    Row("mixed: a virtual and a physical address of one pair",
        ["M@1: mixed: SameVirtualAddress j i stands beside SamePhysicalAddress i j: a virtual and a physical address"],
        condition(f"{SAME_PAGE} /\\ @SameVirtualAddress j i"), meant="x-y"),
    Row("mixed: tags of one pair, in a macro",
        ["M@1: mixed: SameVirtualTag a b stands beside SamePhysicalTag a b: a virtual and a physical address"],
        'DefineMacro "P" "a" "b": SamePhysicalTag a b /\\ ~@SameVirtualTag a b.\n' + condition("ExpandMacro P i j")),
    Row("mixed: one virtual address where all others are physical",
        ["M@1: mixed: SameVirtualAddress i j here alone, and SamePhysicalAddress in 4 places"],
        "".join(condition(f"{SAME_PAGE} /\\ OnCore {k} i").replace("x y", f"x{k}") for k in range(3)) +
        condition("@SameVirtualAddress i j /\\ IsAnyRead i")),
    Row("mixed: two pairs, and a model of page-table entries",
        model=f'Axiom "x": {PAIR}forall microops "k", SameVirtualAddress i j /\\ SamePhysicalAddress j k{THEN}' +
        "".join(condition(f"{SAME_PAGE} /\\ EntryOf {pair} /\\ OnCore {k} i").replace("x y", f"x{k}") for k, pair in
        enumerate(("i j", "j i", "i j", "j i")))),
]
ALONE = "so that it orders nothing"
START = "is the value of PA 0 0 at the start: a read does not tell which of the two it sees"
NOBODY = "so that no axiom can see this"
FACTS = 'Axiom "final": forall microops "w", IsAnyWrite w /\\ DataFromFinalStateAtPA w => NodeExists (w, T).'
READ = "(Read (VA 0 0) (PA 0 0) (Data 1))"
ONE = (alone(f"0 0 0 0 {WRITE}", "0 0 0 1 (Fence)", "@0 0 0 2 (Read (VA 1 0) (PA 1 0) (Data 0))"),)
OF_TESTS = [
    Row("not-asked: two accesses of one instruction",
        ["T@1: not-asked: SameInstruction of two accesses, between which no program order stands: no axiom of M asks for it"],
        tests=ONE, meant="SameInstruction"),
    Row("not-asked: two accesses of one instruction, of which an axiom asks it",
        model=condition("SameInstruction i j /\\ IsAnyWrite i"), tests=ONE),
    Row("lonely-fence: before all accesses, behind them, and on the wrong core",
        [f"T@1: lonely-fence: no access stands before this fence on core 0, {ALONE}",
         f"T@2: lonely-fence: no access stands behind this fence on core 0, {ALONE}",
         f"T@3: lonely-fence: no access stands before or behind this fence on core 2, {ALONE}"],
        tests=(ops("@Microop 0 0 0 0 (Fence).", f"1 0 0 0 {WRITE}", "@Microop 2 0 0 0 (Fence).", "@Microop 3 2 2 0 (Fence).",
        f"4 1 1 0 {READ}"),)),
    Row("initial-write: the value of a line, and 0", [f"T@1: initial-write: 7 {START}", "U@1: initial-write: 0 " + START], FACTS,
        (ops("Init (PA 0 0) 7.", "0 0 0 0 (Write (VA 0 0) (PA 0 0) (Data @7))"),
        ops("0 0 0 0 (Write (VA 0 0) (PA 0 0) (Data @0))"))),
    Row("initial-write: one that brings the value back, and one that is meant",
        tests=(ops(f"0 0 0 0 {WRITE}", "1 0 0 0 (Write (VA 0 0) (PA 0 0) (Data 0))"), ops("% Lint allows: initial-write",
        "0 0 0 0 (Write (VA 0 0) (PA 0 0) (Data 0))"))),
    Row("nobody's: values of an address that no micro-op has",
        [f"T@1: nobody's: no micro-op is at PA 1 0, {NOBODY}", f"T@2: nobody's: no micro-op is at PA 2 0, {NOBODY}"], FACTS,
        (ops(f"0 0 0 0 {WRITE}", "@Init (PA 1 0) 7.", "@Final (PA 2 0) 0.", "Final (PA 0 0) 1."),), meant=""),
]
MORE = [
    Row("more files: what is said of a model alone is said of it beside a test", free("every write"), LINE + HIT_OF_WRITES,
        (ops("0 0 0 0 (Read (VA 0 0) (PA 0 0) (Data 0))"),)),
    Row("more files: of each stage one line", free("the write 0.0 of T", 1), LINE + HIT_OF_WRITES,
        (ops(f"0 0 0 0 {WRITE}", f"1 0 0 0 {WRITE.replace('1))', '2))')}"),)),
]

# a model that asks for each thing that a test may say
ALL = """StageName 0 "S".
Axiom "all": forall microops "i", forall microops "j",
  AccessType Full i /\\ HasDependency addr i j /\\ SameData i j /\\ DataFromInitialStateAtPA i /\\ DataFromFinalStateAtPA i =>
  AddEdge ((i, S), (j, S)).
"""
NO_FULL = "M:3:14: not-in-tests: axioms ask for type Full, and no micro-op of the tests has it"
NOTHING_WRITES = "and nothing writes it there"
AGAIN = "a second time: a read does not tell which of the two it sees"
LOST = "in macro Lost, which no axiom expands"
FIRST = f"0 0 0 0 {WRITE}"


def got(number: int, page: int, value: int) -> str:
    """A read of this value on core 0."""
    return f"{number} 0 0 0 (Read (VA {page} 0) (PA {page} 0) (Data {value}))"


# here the text is the whole model
WHOLE = [
    Row("nothing to say of a test that says all that axioms ask for", [], ALL,
        (ops(FIRST, "1 0 0 0 (Fence Full)", got(2, 0, 1), "Relationship addr 0 0 -> 1 0.", "Final (PA 0 0) 1."),)),
    Row("a type that no axiom asks for, and one that no test has",
        [NO_FULL, "T:3:24: not-asked: type MFENCE: no axiom of M asks for it"], ALL, (alone("0 0 0 0 (Fence MFENCE)"),)),
    Row("a fence without the type that axioms ask for", [NO_FULL], ALL, (alone("0 0 0 0 (Fence)"),)),
    Row("a kind of dependency that no axiom asks for, and one that no test has",
        ["M:3:38: not-in-tests: axioms ask for dependencies of kind addr, and the tests have none of it",
         "T:4:14: not-asked: a dependency of kind address: no axiom of M asks for it"],
        ALL, (ops(FIRST, got(1, 0, 1), "Relationship address 0 0 -> 1 0."),)),
    Row("values that no axiom asks for",
        ["T:2:1: not-asked: the value of Init: no axiom of M asks for it",
         "T:4:47: not-asked: the value of a read: no axiom of M asks for it, here and in 1 more place",
         "T:6:1: not-asked: the value of Final: no axiom of M asks for it"],
        'StageName 0 "S".\nAxiom "a": forall microops "i", NodeExists (i, S).',
        (ops("Init (PA 0 0) 5.", FIRST, got(1, 0, 1), got(2, 0, 5), "Final (PA 0 0) 1."),)),
    Row("a type that a comment says is meant", ["T:5:29: not-asked: type Other: no axiom of M asks for it"],
        "% Lint allows: not-asked Light\n% Lint allows: lonely-fence\n" + ALL,
        (ops("% Lint allows: not-asked Heavy", "0 0 0 0 (Fence Light Full)", "1 0 0 0 (Fence Heavy Full)",
             "2 0 0 0 (Fence Full Other)"),)),
    Row("a kind of slip that a comment says is meant", [], ALL,
        (alone("// lint allows: not-asked", "0 0 0 0 (Fence Light Full Other)"),)),
    Row("a read of a value that nothing writes",
        [f"T:4:47: unwritten: the read gets 2, which is not the value of PA 0 0 at the start, {NOTHING_WRITES}",
         f"T:7:47: unwritten: the read gets 0, which is not the value of PA 1 0 at the start, {NOTHING_WRITES}"],
        ALL, (ops("Init (PA 1 0) 7.", FIRST, got(1, 0, 2), got(2, 1, 7), got(3, 0, 0), got(4, 1, 0)),)),
    Row("one virtual address with two physical ones", ["T:3:32: two-pages: VA 0 0 stands beside PA 0 0 in an earlier micro-op"],
        ALL, (ops(FIRST, "1 0 0 0 (Read (VA 0 0) (PA 1 0) (Data 0))"),)),
    Row("two physical pages, and what the test says of the entry",
        ["T:2:1: nobody's: no micro-op is at Entry 0, so that no axiom can see this",
         "T:6:32: two-pages: VA 2 0 stands beside PA 2 0 in an earlier micro-op"],
        ALL, (ops("Init (Entry 0) (Maps 0 1 0).", FIRST, "1 0 0 0 (Read (VA 0 0) (PA 1 0) (Data 0))", got(2, 2, 0),
                  "3 0 0 0 (Read (VA 2 0) (PA 3 0) (Data 0))").replace("Litmus", "Litmus2"),)),
    Row("values of page-table entries",
        [f"T:3:48: unwritten: the read gets Maps 3 1 0, which is not the value of Entry 3 at the start, {NOTHING_WRITES}",
         f"T:4:48: unwritten: the read gets 0, which is not the value of Entry 3 at the start, {NOTHING_WRITES}",
         "T:5:1: final-unwritten: no write of Entry 4 has the value Maps 5 0 0, so that no axiom about writes can see this"],
        ALL, (ops("0 0 0 0 (Read (VA 3 0) (Entry 3) (Maps 3 0 0))", "1 0 0 0 (Read (VA 3 0) (Entry 3) (Maps 3 1 0))",
                  "2 0 0 0 (Read (VA 3 0) (Entry 3) (Data 0))", "Final (Entry 4) (Maps 5 0 0).").replace("Litmus", "Litmus2"),)),
    Row("a final value that no write has",
        ["T:5:1: final-unwritten: no write of PA 0 0 has the value 0, so that no axiom about writes can see this",
         "T:7:1: final-unwritten: no write of PA 2 0 has the value 3, so that no axiom about writes can see this"],
        ALL, (ops(FIRST, got(1, 0, 0), got(2, 1, 0), "Final (PA 0 0) 0.", "Final (PA 1 0) 0.", "Final (PA 2 0) 3."),)),
    Row("two writes of one value to one address", [f"T:3:48: same-value: 1 is written to PA 0 0 {AGAIN}"],
        ALL, (ops(FIRST, f"1 1 1 0 {WRITE}", "2 1 1 0 (Write (VA 1 0) (PA 1 0) (Data 1))"),)),
    Row("a macro that nothing expands, and its name faults",
        ["M:2:13: unexpanded: no axiom expands macro Inner",
         "M:3:13: unexpanded: no axiom expands macro Lost",
         f"M:4:4: predicate-unknown: {LOST}: there is no predicate IsAnyReed",
         f"M:4:19: arity: {LOST}: IsAnyRead takes 1 arguments",
         f"M:4:55: unbound: {LOST}: nothing binds k",
         f"M:4:58: stage-unknown: {LOST}: there is no stage T",
         f"M:4:72: core-number: {LOST}: core 64 is over 63",
         f"M:5:32: wrong-sort: {LOST}: c is a core, and a microop is asked for",
         f"M:5:56: unbound: {LOST}: nothing binds q",
         f"M:5:71: wrong-sort: {LOST}: a number stands for a core, and none is asked for",
         "M:1:13: unused-stage: no axiom names stage S",
         "M:1:1: idle: the model has no axiom, so that each outcome is observable"],
        """StageName 0 "S".
DefineMacro "Inner" "i": IsAnyRead i.
DefineMacro "Lost" "i" "j":
  (IsAnyReed i /\\ IsAnyRead i j) \\/ AddEdge ((i, S), (k, T)) \\/ OnCore 64 i \\/
  (forall cores "c", IsAnyRead c) \\/ ExpandMacro Inner q \\/ IsAnyRead 7.""", (ops(),)),
    Row("axioms that constants alone decide",
        ['M:3:1: constant: axiom "t" is True of every test by its constants alone',
         'M:4:1: constant: axiom "f" is False of every test by its constants alone',
         'M:5:1: constant: axiom "e" is True of every test by its constants alone',
         "M:6:15: unused-variable: the body does not use i",
         "M:7:15: unused-variable: the body does not use i",
         "M:1:13: unused-stage: no axiom names stage S",
         'M:6:1: idle: axiom "open" is False by what the test says alone, of T'],
        """StageName 0 "S".
DefineMacro "Never": False.
Axiom "t": forall microops "i", IsAnyRead i => True.
Axiom "f": exists microop "i", ExpandMacro Never /\\ IsAnyRead i.
Axiom "e": AddEdges [].
Axiom "open": exists microop "i", True.
Axiom "shut": forall microops "i", False.
Axiom "some": forall microops "i", IsAnyRead i \\/ ExpandMacro Never.""", (ops(),)),
    Row("the absence of an edge", [f"M:2:26: {NO_ORDER}", f"M:4:56: {NO_ORDER}", f"M:5:34: {NO_ORDER}"],
        """StageName 0 "S".
DefineMacro "E" "i" "j": EdgeExists ((i, S), (j, S)).
Axiom "asks": forall microops "i", forall microops "j", ProgramOrder i j => AddEdge ((i, S), (j, S)).
Axiom "a b": forall microops "i", forall microops "j", EdgeExists ((i, S), (j, S)) => NodeExists (i, S).
Axiom "c": forall microops "i", ~EdgesExist [((i, S), (i, S))] /\\ ~~ExpandMacro E i i /\\ ~NodeExists (i, S).
Axiom "d": forall microops "i", ~ExpandMacro E i i.""", (ops(),)),
    Row("the absence of an edge that is meant", [f"M:4:72: free-node: no axiom gives stage S to every read, {FREE}"],
        """% Lint allows: no-order E a-b
StageName 0 "S".
DefineMacro "E" "i" "j": EdgeExists ((i, S), (j, S)).
Axiom "a b": forall microops "i", forall microops "j", EdgeExists ((i, S), (j, S)) => NodeExists (i, S).
Axiom "d": forall microops "i", ~ExpandMacro E i i.""", (ops(),)),
]

sys.setrecursionlimit(DEPTH)


def answer(words: Sequence[str], folder: str) -> Done:
    """What lint says in this folder, as lint.py does where it is called."""
    return call(tool_entry("lint.main"), ["lint.py", *words], cwd=folder)


def without_marks(text: str) -> tuple[str, list[str]]:
    """A text, and the line and column of each mark that it had."""
    parts = text.split("@")
    befores = ["".join(parts[:number]) for number in range(1, len(parts))]
    return "".join(parts), [f"{it.count(chr(10)) + 1}:{len(it) - it.rfind(chr(10))}" for it in befores]


def with_place(line: str, places: dict[str, list[str]]) -> str:
    """An expected line with a place for its mark."""
    name, mark, rest = line.partition("@")
    number, _, rest = rest.partition(":")
    return f"{name}{'.query' * (name == 'Q')}:{places[name][int(number) - 1]}:{rest}" if mark else line


def as_meant(row: Row) -> Row:
    """The same files, with the comment that says that it is meant: in the model, or in the test where that is usual."""
    kind = row.name.partition(":")[0]
    comment = f"\n% Lint allows: {kind} {row.meant}"
    name = f"{kind}: ones that are meant" if row.lines[1:] else f"{kind}: one that is meant"
    of_model, of_tests = (comment, "") if row.model else ("", comment)
    return replace(row, name=name, lines=[], model=row.model + of_model, tests=tuple(it + of_tests for it in row.tests))


class Slips(Cases):
    """What lint says of small files."""

    def test_slips(self) -> None:
        of_right = (
            ORDERS, IDLE, NODES, NAMES, PLACES, ARROWS, EDGES, COUNTS, QUERIES, PARTS, NEW_PREDICATES, TEXTS, ADDRESSES, OF_TESTS, MORE
        )
        # predicates of which lint has no words of its own, and is told by the table what they say
        PREDICATES["OtherCore"] = of_pair(lambda i, j: i.core != j.core)
        PREDICATES["Titled"] = (MICROOP,), lambda case, i: bool(case.title)
        for base, table in [*((RIGHT, it) for it in of_right), ("", WHOLE)]:
            for row in [*table, *map(as_meant, (it for it in table if it.meant is not None))]:
                if self.is_wanted(row.name):
                    self.judge_row(row, base)

    def test_what_is_given(self) -> None:
        with replaced(linting_nodes, "STEPS", 2_000):
            self.judge_row(LOOKED_AT, RIGHT)
        with replaced(linting_nodes, "STEPS", 9), replaced(linting_idle, "STEPS", 9), replaced(linting_parts, "STEPS", 9):
            self.judge_row(STOPPED, RIGHT)

    def judge_row(self, row: Row, base: str) -> None:
        texts = {"M": f"{base}{row.model}\n", **dict(zip("TU", row.tests)), **({"Q.query": row.query} if row.query else {})}
        places = {}
        for name, text in texts.items():
            plain, places[name[0]] = without_marks(text)
            write(f"{self.work}/{name}", plain)
        status = int(bool(row.lines)) if row.status is None else row.status
        self.judge(row.name, answer(list(texts), self.work), status, "".join(with_place(it, places) + "\n" for it in row.lines))


def slip_of(model: str, test: str) -> str:
    """What is said of the model of all and of a test with a type that it does not ask for."""
    return f"{NO_FULL.replace('M', model, 1)}\n{test}:2:24: not-asked: type SYNC: no axiom of {model} asks for it\n"


LISTING = """X86 slips
{ }
 P0         | P1          ;
            | MOV EBX,[a] ;
 MOV [b],$1 | MFENCE      ;
 MOV [b],$1 | MOV EAX,[a] ;
exists (1:EAX=2 /\\ b=3 /\\ 1:EBX=0)
"""
MEANT_HERE = "{ (* Lint allows: unwritten*)\n(* Lint allows: same-value *)\n(* Lint allows: not-asked MFENCE *) }"
# an open read gets what there is
PATTERN = """Litmus "slips". % Lint allows: lonely-fence
Microop 0 0 0 0 (Write (VA 0 0) (PA 0 0) (Data 1)).
Microop 1 0 0 0 (Write (VA 0 0) (PA 0 0) (Data 1)).
Microop 2 1 1 0 (Fence Full).
Microop 3 1 1 0 (Read (VA 1 0) (PA 1 0) (Data Any)).
Microop 4 1 1 0 (Read (VA 0 0) (PA 0 0) (Data 2)).
Init (PA 1 0) 7.
"""
NO_WRITE_OF_B = "so that no axiom about writes can see this"
FORM = "lint MODEL [TEST..] [QUERY..]"
# a case, the files, the status, and what is said on standard output and on standard error
FILES = (
    ("a refused model", ["bad.uspec", "good.test"], 3,
     "bad.uspec:2:12: arity: the predicate takes another number of arguments\n", "pipecheck: it takes IsAnyRead i\n"),
    ("a test in place of the model", ["good.test"], 3, "good.test:1:1: syntax: no model can continue with this token\n",
     "pipecheck: `StageName`, `Axiom` or `DefineMacro` is expected\n"
     f"pipecheck: good.test is a test, and stands for the model: {FORM}\n"),
    ("a test in place of a query", ["good.uspec", "test.query"], 3, "test.query:1:8: syntax: no query can continue with this token\n",
     "pipecheck: a name, a number, `=>`, `\\/`, `/\\` or the end of the file is expected\n"),
    ("a model alone", ["good.uspec"], 0, "", ""),
    ("a model without an axiom", ["none.uspec"], 1,
     "none.uspec:1:1: idle: the model has no axiom, so that each outcome is observable\n", ""),
    ("a name that is no UTF-8", ["-m", "\udcff"], 1, slip_of("-m", "\udcff"), ""),
    ("names that would break a line are one word of bash", ["a\nm", "a\nt"], 1, slip_of("$'a\\nm'", "$'a\\nt'"), ""),
    # listings, whose addresses have names
    ("slips of a listing", ["good.uspec", "slips.litmus"], 1, f"""{NO_FULL.replace('M', 'good.uspec', 1)}
slips.litmus:6:11: same-value: 1 is written to b {AGAIN}
slips.litmus:7:15: unwritten: the read gets 2, which is not the value of a at the start, {NOTHING_WRITES}
slips.litmus:7:20: final-unwritten: no write of b has the value 3, {NO_WRITE_OF_B}
slips.litmus:5:15: not-asked: type MFENCE: no axiom of good.uspec asks for it
""", ""),
    ("slips of a listing that comments say are meant", ["good.uspec", "meant.litmus"], 1,
     f"meant.litmus:9:20: final-unwritten: no write of b has the value 3, {NO_WRITE_OF_B}\n", ""),
    ("slips of a pattern", ["good.uspec", "slips.pattern"], 1, f"""slips.pattern:3:48: same-value: 1 is written to PA 0 0 {AGAIN}
slips.pattern:6:47: unwritten: the read gets 2, which is not the value of PA 0 0 at the start, {NOTHING_WRITES}
""", ""),
    ("a pattern that is named as a test", ["good.uspec", "slips.test"], 3,
     "slips.test:5:47: syntax: no test can continue with this token\n",
     "pipecheck: a number is expected\npipecheck: a read with an open value makes this a pattern: sweep MODEL PATTERN\n"),
    ("a model in place of a test", ["good.uspec", "good.uspec"], 3, "good.uspec:1:1: syntax: no test can continue with this token\n",
     "pipecheck: `Litmus` or `Litmus2` is expected\n"
     f"pipecheck: good.uspec is a model, and stands for the test: {FORM}\n"),
    ("a listing in place of a test", ["good.uspec", "listing.test"], 3,
     "listing.test:2:1: lexical: neither a token nor a blank nor a comment begins here\n", "pipecheck: listing.test is a listing of "
     "herd's for X86: check86 and verify86 read it, and test86 writes it as a test, which lint takes\n"),
    ("a listing in place of the model", ["slips.litmus"], 3,
     "slips.litmus:2:1: lexical: neither a token nor a blank nor a comment begins here\n",
     f"pipecheck: slips.litmus is a listing, and stands for the model: {FORM}\n"),
)
# what could stand at a fault of syntax of a model
EXPECTED = (
    ("a name that is reserved", "a name in quotes, and no reserved word, is expected", 'StageName 0 "Axiom".'),
    ("a number of a stage", "a number is expected", 'StageName "S" 0.'),
    ("the title of an axiom", "a text in quotes is expected", "Axiom PO: True."),
    ("a variable", "a name in quotes is expected", 'Axiom "x": forall microops i, True.'),
    ("a formula", "a formula is expected", 'Axiom "x": forall microops "i", .'),
    ("what goes on behind an argument", "a name, a number, `=>`, `\\/`, `/\\` or `.` is expected", 'Axiom "x": IsAnyRead i "j".'),
    ("a node", "`(` is expected", 'Axiom "x": NodeExists i.'),
)
# what may be meant: the last line beside a model
MEANT = (
    ("a stage", "Memry may be meant for Memory", 'Axiom "x": forall microops "i", NodeExists (i, Memry).'),
    ("a predicate", "IsAnyLoad may be meant for IsAnyRead i", 'Axiom "x": forall microops "i", IsAnyLoad i.'),
    ("a word", "foral may be meant for forall", 'Axiom "x": foral microops "i", True.'),
    ("a sign", "& may be meant for /\\", 'Axiom "x": True & True.'),
    ("a sign behind a name of 500,000 letters", "& may be meant for /\\", f'Axiom "x": {500_000 * "a"}& True.'),
    ("not", "not may be meant for ~", 'Axiom "x": forall microops "i", not IsAnyRead i.'),
    ("not, before a bracket", "not may be meant for ~", 'Axiom "x": forall microops "i", True => not (IsAnyRead i).'),
    ("an arrow", "-> may be meant for =>", 'Axiom "x": forall microops "i", IsAnyRead i -> True.'),
    ("physical addresses", "SamePA may be meant for SamePhysicalAddress i j", 'Axiom "x": forall microops "i", SamePA i i.'),
    ("virtual addresses", "SameVA may be meant for SameVirtualAddress i j", 'Axiom "x": forall microops "i", SameVA i i.'),
    ("a node that begins with its stage", "(Memory, i) may be meant for (i, Memory)",
     'Axiom "x": forall microops "i", EdgeExists ((i, Memory), (Memory, i)).'),
    ("a text", '" may be meant for a text of printable ASCII that ends in its line', 'Axiom "\u00b5": True.'),
    ("a macro", "Read may be meant for ExpandMacro Reads i", 'Axiom "x": forall microops "i", ExpandMacro Read i.'),
    ("a macro that is below", "a macro expands only those above it, and this one is below: ExpandMacro Reads i",
     'DefineMacro "y" "i": ExpandMacro Reads i.'),
    ("a macro's arguments", "it takes ExpandMacro Reads i", 'Axiom "x": ExpandMacro Reads.'),
    ("a number of arguments", "it takes SameData i j", 'Axiom "x": forall microops "i", SameData i.'),
    ("the order of arguments", "it takes AccessType t i", 'Axiom "x": forall microops "f", AccessType f Full.'),
    ("a sort", "it takes OnCore c i", 'Axiom "x": forall microops "f", OnCore f 0.'),
)
SB_OF_OWN, MP_OF_OWN = (read(f"examples/tests/{it}.test").replace(f'Litmus "{it}"', 'Litmus "own"') for it in ("SB", "MP"))
ALLOWED = "pipecheck: tso, the memory model that the model names, allows this outcome: BUG is by what the test says alone\n"
# an observable outcome that a test forbids, what is said of it, the model, and the test or its text
FORBIDDEN = (
    ("a test of one's own that forbids what tso allows", ALLOWED, "models/tso-ooo", SB_OF_OWN),
    ("... on a model without a memory model", "", "store-buffer", SB_OF_OWN),
    ("a shipped test that forbids what tso allows", "", "models/tso-ooo", None),
    ("a bug that its memory model forbids", "", "buggy/tutorial-early", MP_OF_OWN),
)
# standard output that takes nothing
UNTAKEN = (
    ("a full device", "full", ["good.uspec", "slip.test"], UNWRITTEN),
    ("a closed standard output", "closed", ["good.uspec", "slip.test"], UNWRITTEN),
    ("a refused file, and a full device", "full", ["bad.uspec"], f"pipecheck: it takes IsAnyRead i\n{UNWRITTEN}"),
    ("nothing to say, and a closed standard output", "closed", ["good.uspec"], UNWRITTEN),
    ("a pipe whose reader has enough", "unread", ["good.uspec", "slip.test"], ""),
)


class Command(Cases):
    """`pipecheck lint`, and what `pipecheck check` says with what lint is made of."""

    def setUp(self) -> None:
        super().setUp()
        slip = 'Litmus "s". % Lint allows: lonely-fence\nMicroop 0 0 0 0 (Fence SYNC).\n'
        for name, text in {
            "bad.test": 'Litmus "d".\nMicroop 0 64 0 0 (Fence).\n', "bad.uspec": 'StageName 0 "S".\nAxiom "x": IsAnyRead i 7.\n',
            "good.test": 'Litmus "t".\n', "good.uspec": ALL, "slip.test": slip, "-m": ALL, "--t": slip, "\udcff": slip, "a\nm": ALL,
            "a\nt": slip, "slips.litmus": LISTING, "meant.litmus": LISTING.replace("{ }", MEANT_HERE), "listing.test": LISTING,
            "slips.pattern": PATTERN, "slips.test": PATTERN, "test.query": 'Litmus "t".\n', "none.uspec": 'DefineMacro "m": True. % Lint allows: unexpanded\n',
        }.items():
            write(f"{self.work}/{name}", text)

    def test_files(self) -> None:
        for name, words, status, out, err in FILES:
            self.judge(name, functools.partial(answer, words, self.work), status, out, err)

    def test_script(self) -> None:
        script, here = [pipecheck(), "lint"], {"cwd": self.work}
        self.gives("a refused test", [f"{TOP}/pipecheck", "lint", "good.uspec", "good.test", "bad.test"], 3,
                   "bad.test:2:11: core-number: a core number over 63\n", **here)
        self.gives("a test that is not there", [*script, "good.uspec", "gone"], 4, "",
                   missing("gone"), **here)
        self.gives("without Python", [*script, "good.uspec"], 125, "",
                   "pipecheck: lint is written in Python, and there is no python3 here\n",
                   env={"PATH": commands_without(f"{self.work}/bin", "python")}, **here)
        self.gives("names that begin with a dash", [*script, "-m", "--t"], 1, slip_of("-m", "--t"), **here)
        self.gives("a PYTHONHOME that is not there", [*script, "-m", "--t"], 1, slip_of("-m", "--t"), env={"PYTHONHOME": "gone"}, **here)
        both = 'cat good.uspec | { cat slip.test | "$@" /dev/fd/3 /dev/fd/4 4<&0; } 3<&0'
        pipes = slip_of("/dev/fd/3", "/dev/fd/4")
        self.gives("a model and tests that are pipes", ["sh", "-c", both, "_", *script], 1, pipes, **here)
        locked = sorted(glob.glob(f"{TOP}/examples/locked/*.test"))
        self.gives("tso-buffer.uspec and the shipped tests with locked instructions",
                   [*script, f"{TOP}/examples/models/tso-buffer.uspec", *locked])
        for name, kind, words, said in UNTAKEN:
            with without_output(kind) as how:
                self.gives(name, [*script, *words], 5, "", said, **here, **how)

    def test_expected(self) -> None:
        write(f"{self.work}/syntax.uspec", "StageName 0 Exec.\n")
        self.gives("expected: a name of a stage", [pipecheck(), "check", "syntax.uspec", "good.test"], 3,
                   "refused model syntax at 1:13\n", told("syntax.uspec", "1:13", NO_MODEL, "a name in quotes", self.work),
                   cwd=self.work)
        self.gives("a model in place of a test", [pipecheck(), "check", "good.uspec", "good.uspec"], 3,
                   "refused test syntax at 1:1\n", told("good.uspec", "1:1", NO_TEST, "`Litmus` or `Litmus2`", self.work)
                   + "pipecheck: good.uspec is a model, and stands for the test: check MODEL TEST\n", cwd=self.work)
        for name, said, text in EXPECTED:
            if self.is_wanted(f"expected: {name}"):
                path = write(f"{self.work}/syntax.uspec", f"{text}\n")
                refused = run([program(), "check", path, "good.test"], cwd=self.work)
                lines = "\n".join(expected("model", f"{text}\n".encode(), refusal_of(refused.out)))
                self.judge(f"expected: {name}", Done(refused.status, lines, refused.err), 3, f"pipecheck: {said}")

    def test_meant(self) -> None:
        for name, said, text in MEANT:
            if self.is_wanted(f"meant: {name}"):
                path = write(f"{self.work}/meant.uspec", f'StageName 0 "Memory".\n{text}\nDefineMacro "Reads" "i": IsAnyRead i.\n')
                done = run([pipecheck(), "lint", path])
                self.judge(f"meant: {name}", Done(done.status, "".join(done.err.splitlines()[-1:]), ""), 3, f"pipecheck: {said}")
        path = write(f"{self.work}/long.uspec", f'StageName 0 "S".\nAxiom "x": forall microops "i", NodeExists (S, {200 * "i"}).\n')
        self.same("meant: nothing by a name of 200 letters", "meant" in run([pipecheck(), "lint", path]).err, False)

    def test_forbidden(self) -> None:
        for name, said, model, text in FORBIDDEN:
            if self.is_wanted(name):
                test = write(f"{self.work}/own.test", text) if text else "examples/tests/SB.test"
                done = without_proofs(run([pipecheck(), "check", f"examples/{model}.uspec", test]))
                first = "".join(done.out.splitlines(True)[:2])
                self.judge(name, Done(done.status, first, done.err), 0, "observable\ntest forbidden: BUG\n", said)

    def test_vim(self) -> None:
        """Vim jumps to a refusal, once more from where it jumped to, and has a filetype for each kind of file."""
        name = "Vim: :make twice, and the filetypes"
        if shutil.which("vim") is None:
            self.skips(name, "there is no vim")
            return
        shutil.copytree(f"{TOP}/editors/vim", f"{self.work}/home/.vim")
        os.mkdir(f"{self.work}/commands")
        os.symlink(pipecheck(), f"{self.work}/commands/pipecheck")
        write(f"{self.work}/mp.test", read("examples/mp.test"))
        write(f"{self.work}/in-order.uspec", read("examples/in-order.uspec").replace('Axiom "PO"', "Axiom PO"))
        for kind in ("X86", "X86_64", "AArch64"):
            write(f"{self.work}/{kind}.litmus", f"{kind} {kind}\n")
        write(f"{self.work}/script", """filetype plugin on
edit mp.test
let said = [&filetype]
for time in [1, 2]
  silent! make check in-order.uspec mp.test
  let said += [bufname('%') . ':' . line('.') . ':' . col('.') . ' ' . &filetype]
endfor
for name in ['X86', 'X86_64', 'AArch64']
  execute 'edit' name . '.litmus'
  let said += [name . ' ' . &filetype . ' ' . &makeprg]
endfor
enew
compiler! pipecheck
let said += ['another ' . &makeprg]
call writefile(said, 'said')
quitall!
""")
        home, path = f"{self.work}/home", f"{self.work}/commands:{os.environ['PATH']}"
        with self.case(name):
            run(["vim", "-N", "-u", "NONE", "--cmd", f"set runtimepath^={home}/.vim", "-es", "-S", "script"],
                cwd=self.work, env={"HOME": home, "PATH": path})
            self.assertEqual(read(f"{self.work}/said"), """litmustest
in-order.uspec:5:7 uspec
in-order.uspec:5:7 uspec
X86 litmus pipecheck
X86_64 litmus pipecheck
AArch64  make
another pipecheck
""")


@functools.cache
def model_of(path: str) -> Model:
    """A model of examples."""
    return read_model(read(path).encode())


@functools.cache
def test_of(path: str) -> TestFile:
    """A test, a listing or a pattern of examples."""
    return read_test(path, read(path).encode())


def shipped(pattern: str) -> list[str]:
    """The paths of what is shipped, from the top."""
    return sorted(os.path.relpath(it, TOP) for it in glob.glob(f"{TOP}/examples/{pattern}"))


def once(method: Callable[..., Iterable[Slip]]) -> Callable[..., list[Slip]]:
    """Has this be said once of each model: no test changes it, and it takes longest."""
    found: dict[str, list[Slip]] = {}

    def first(of: Any, *words: object) -> list[Slip]:
        if of.path not in found:
            found[of.path] = list(method(of, *words))
        return found[of.path]

    return first


class Shipped(Cases):
    """Lint says nothing of what is shipped."""

    @classmethod
    def setUpClass(cls) -> None:
        super().setUpClass()
        cls.replace(Linter, "part_slips", once(Linter.part_slips))
        cls.replace(FreeNodes, "of_made", once(FreeNodes.of_made))

    def says_nothing(self, model: str, tests: Sequence[str], query: str | None = None) -> None:
        read_queries = [read_query_file(it, read(it).encode(), model_of(model)) for it in [query] if it]
        path = " ".join([model, *([query] if query else [])])
        linter = Linter(path, read(model).encode(), model_of(model), [test_of(it) for it in tests], read_queries)
        self.assertEqual([(it.path, it.kind, it.sentence) for it in linter.slips()], [])

    def test_models(self) -> None:
        kinds = [("the shipped tests", "tests/*.test"), ("the shipped listings", "x86/*.litmus")]
        models = [*shipped("models/*.uspec"), *shipped("buggy/*.uspec")]
        rows = [(it, what, shipped(files)) for it in models for what, files in kinds]
        entries = "with page-table entries"
        rows += [(it, f"the shipped tests {entries}", shipped("translation/*.test"))
                 for it in [*shipped("translation/*.uspec"), *shipped("translation/buggy/*.uspec")]]
        patterns: dict[bool, list[str]] = {True: [], False: []}
        for it in shipped("patterns/*.pattern"):
            patterns["\nLitmus2" in f"\n{read(it)}"].append(it)
        rows.append(("examples/translation/tlb.uspec", f"the shipped patterns {entries}", patterns[True]))
        rows.append(("examples/models/tso-buffer.uspec", "the other shipped patterns", patterns[False]))
        for model, what, files in rows:
            name = f"{os.path.basename(model)} and {what}"
            if self.is_wanted(name):
                with self.case(name):
                    self.assertNotEqual(files, [])
                    self.says_nothing(model, files)

    def test_queries(self) -> None:
        """shipped queries beside their models and tests"""
        if self.is_wanted("shipped queries beside their models and tests"):
            for row in read("examples/queries/answers.tsv").splitlines()[1:]:
                query, model, test, _ = row.split("\t")
                files = f"examples/models/{model}.uspec", [f"examples/tests/{test}.test"]
                self.says_nothing(*files, f"examples/queries/{query}.query")

    def test_single(self) -> None:
        """shipped models alone, and beside single tests"""
        if self.is_wanted("shipped models alone, and beside single tests"):
            for model in shipped("models/*.uspec"):
                self.says_nothing(model, [])
                # tests that lack most of what models ask for
                for test in ("MP", "SB+fences", "CoRR", "LB+datas", "Final+twice"):
                    self.says_nothing(model, [f"examples/tests/{test}.test"])

    def test_the_test_that_no_order_names(self) -> None:
        """the test that no-order names"""
        rows = [row.split("\t")[0] for row in read("examples/told-apart.tsv").splitlines() if "no-write-between" in row]
        self.assertEqual([f"examples/tests/{it}.test" for it in rows], [BETWEEN_TEST])
        self.assertTrue(os.path.exists(f"{TOP}/{BETWEEN_TEST}"))


FENCE = alone("0 0 0 0 (Fence)")
TRUE = 'constant: axiom "" is True of every test by its constants alone'
NODE_AXIOM = 'Axiom "a":forall microop "i",NodeExists (i,S).\n'


def over(names: Sequence[str]) -> str:
    """Quantifiers over micro-ops, one for each name."""
    return "".join(f'forall microop "{it}", ' for it in names)


def same_title(count: int) -> str:
    """What is said of so many axioms of one title."""
    return f'M:3:1: same-title: the axiom at 2:1 has the title "a", too, and {count - 2} more axioms of it'


class Large(Cases):
    """Files of a third of what a file may have at most, and axioms that go over many micro-ops."""

    def is_quick(self, name: str, model: str, test: str, lines: Sequence[str]) -> None:
        """Lint says these lines, and takes at most seven seconds of a processor, on a machine with other work too."""
        if not self.is_wanted(name):
            return
        write(f"{self.work}/M", model)
        write(f"{self.work}/T", test)
        before = resource.getrusage(resource.RUSAGE_CHILDREN)
        done = answer(["M", "T"], self.work)
        after = resource.getrusage(resource.RUSAGE_CHILDREN)
        with self.case(name):
            self.assertLess(after.ru_utime + after.ru_stime - before.ru_utime - before.ru_stime, 7)
            self.assertEqual((done.status, done.out.splitlines(), done.err), (int(bool(lines)), list(lines), ""))

    def test_texts(self) -> None:
        said = [f"M:{k}:1: {TRUE}" for k in range(1, 23_001)]
        self.is_quick("23,000 axioms that are True", 'Axiom "":True.\n' * 23_000, FENCE, said)
        self.is_quick("7,000 axioms over nodes", f'StageName 0 "S".\n{NODE_AXIOM * 7_000}', FENCE, [same_title(7_000)])
        # for which no tests are made
        axioms = "".join(NODE_AXIOM.replace("Node", f"AccessType t{k} i=>Node") for k in range(3_000))
        self.is_quick("3,000 types", f'StageName 0 "S".\n{axioms}', FENCE.replace("(Fence", "(Fence t0"), [same_title(3_000)])

    def test_quantifiers(self) -> None:
        names = [f"i{k}" for k in range(32)]
        reads, nodes = " /\\ ".join(f"IsAnyRead {it}" for it in names), "; ".join(f"({it}, S)" for it in names)
        # lint gives it up, here after a sixth of the steps
        with replaced(linting_nodes, "STEPS", 250_000), replaced(linting_idle, "STEPS", 85_000):
            self.is_quick("32 quantifiers over 64 micro-ops",
                          f'StageName 0 "S".\nAxiom "a": {over(names)}{reads} => NodesExist [{nodes}].\n',
                          alone(*(f"{k} 0 0 0 (Fence)" for k in range(64))), [f"M:1:1: free-node: {AT_ITS_LIMIT}"])
        orders = " /\\ ".join(f"ProgramOrder {one} {other}" for one, other in zip("ijk", "jkl"))
        never = " /\\ IsAnyWrite l /\\ IsAnyRead l"
        model = f'StageName 0 "S".\nAxiom "a": {over("ijkl")}{orders}{never} => AddEdge ((i, S), (l, S)).\n'
        model += f'Axiom "b": {over("l")}NodeExists (l, S){never} => NodeExists (l, S).\n'
        # each is judged
        self.is_quick("4 quantifiers over 64 micro-ops behind guards", model,
                      ops(*(f"{k} {k % 8} {k % 8} 0 (Read (VA 0 0) (PA 0 0) (Data 0))" for k in range(64))),
                      [*(f'M:{k}:1: idle: axiom "{it}" {NOTHING}' for k, it in ((2, "a"), (3, "b"))),
                       "T:2:47: not-asked: the value of a read: no axiom of M asks for it, here and in 63 more places"])
