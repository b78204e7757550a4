"""Two programs, one answer: the program and the second implementation have to say the same of certificates of version 2, whose
splits have signs, of lifted refutations, lifting, minimal sets of axioms, queries, tests with page-table entries, herd's X86
listings and patterns; of listings and lifted refutations that are spoilt at random, the same ones in each run; and of lifted
refutations of shipped models and tests.

    COUNT=5000 tests/program one_answer         so many texts of each kind; 600 where no number is given
    EACH=yes tests/program one_answer lifted    lifts what is found of all shipped tests on the models that are shipped for them

In the tables `; ` stands between the lines of a text, and a number that is wanted is the line at which a certificate is refused.
"""
from __future__ import annotations

import io
import os
import re
import sys
import tempfile
from functools import cache, partial
from glob import glob
from random import Random
from typing import Any, Callable, Iterable, Sequence

from tests import random_texts
from tests.cases import TOP, Cases, Done, program, read, run, write
from tests.test_answers import ONE, SIGNS, STAGES, WALK, lines, op

from tools.second.main import Refused, judged
from tools.second.main import run as answer
from tools.second.answering import Branch
from tools.second.cases import read_case
from tools.second.lifted import LiftedJudge
from tools.second.listings import read_listing
from tools.second.positions import Positions
from tools.second.predicates import PREDICATES
from tools.second.scopes import read_model
from tools.texts.contents import contents as bytes_of

COUNT = int(os.environ.get("COUNT", "600"))
# each file is read once
contents = cache(bytes_of)

FEW = ("CoRR", "MP", "SB+fences", "Final+both+behind", "ISA2")
# folders of models, with those of the tests that are run on them
EACH = (("models", "tests"), ("buggy", "tests"), ("models", "locked"), ("translation", "translation"),
        ("translation/buggy", "translation"))
# a small model that asks for values, program order and fences of no kind
VALUES = read("examples/store-buffer.uspec")

sys.setrecursionlimit(20_000)

NEG = STAGES + """Axiom "n": forall microops "i",
  ((NodeExists (i, S) /\\ EdgeExists ((i, U), (i, S)))
   \\/ (~NodeExists (i, T) /\\ EdgeExists ((i, U), (i, S))))
  /\\ (~NodeExists (i, U) \\/ ~EdgeExists ((i, U), (i, S)))
  /\\ (~NodeExists (i, U) \\/ EdgeExists ((i, T), (i, S))).
"""
HEADER = "unobservable; test unstated"
VERSION_2 = f"{HEADER}; version 2"
S, T, U = (f"absent 0.0@0:{stage}" for stage in "STU")
PATH = "path 0.0@0:U 0.0@0:S"
SIGNED = f"split 1; {T}; split ~2; {U}; {U}; end"
DENIED = f"split 1; split 9; {U}; {PATH}; split ~2; {S}; {PATH}; end"
VERIFIED = "verified unobservable"
GRAPH = "observable; test unstated; end"

# of one write: what is judged, the model, the certificate, the answer
CERTIFICATES = [
    ("splits without signs under version 2", SIGNS, f"{VERSION_2}; split 1; {T}; {U}; end", VERIFIED),
    ("a split of a denied conjunction", SIGNS, f"{VERSION_2}; {SIGNED}", VERIFIED),
    ("a sign in version 1", SIGNS, f"{HEADER}; {SIGNED}", 5),
    ("a sign where the position is asserted without one", SIGNS, f"{VERSION_2}; split 1; split ~2; split ~2; {U}; {U}; end", 5),
    ("a position that is asserted with a sign, split without one", SIGNS, f"{VERSION_2}; split 1; {T}; split 2; {U}", 6),
    ("a space after the sign", SIGNS, f"{VERSION_2}; split 1; {T}; split ~ 2; {U}; {U}; end", 6),
    ("a denied conjunction of a node and an edge", NEG, f"{VERSION_2}; {DENIED}", VERIFIED),
    ("a denied side is asserted in version 2 alone", NEG, f"{HEADER}; split 1; split 9; {U}; {PATH}; {S}", 7),
    ("version 2 twice", SIGNS, f"{VERSION_2}; version 2; {SIGNED}", 4),
    ("version 2 in a graph", STAGES, "observable; test unstated; version 2; end", 3),
    ("version 2 and nothing more", SIGNS, VERSION_2, 4),
]
# what `check2` is to find: the model, the text
FOUND = [
    ("check2 closes both sides", SIGNS, f"{VERSION_2}; split 1; {T}; {U}; end"),
    ("check2 splits a denied conjunction", NEG, f"{VERSION_2}; {DENIED}"),
    ("check2 finds a graph", STAGES, GRAPH),
    ("check2 of a false constant", STAGES + 'Axiom "f": False.\n', f"{VERSION_2}; false; end"),
]

# shipped lifted refutations, with the model and the test that each is of
SHIPPED = {
    "two": ("po-and-reverse.uspec", "two-forbidden.test"),
    "mp": ("in-order.uspec", "mp.test"),
    "corr": ("models/sc-inorder.uspec", "corr.test"),
}
# which of them is judged, the line that is changed, the answer, and each text that stands in its place
SHIPPED_LIFTED: list[tuple[str, int, str | int, list[str | None]]] = [
    ("two", 1, VERIFIED, ["unobservable"]), ("mp", 1, VERIFIED, ["unobservable"]), ("corr", 1, VERIFIED, ["unobservable"]),
    # the header
    ("two", 1, 1, ["observable", None]), ("two", 2, 2, ["test unstated", "test forbidden: BUG"]),
    ("two", 3, 3, [None, "version 2"]),
    # instances
    ("two", 4, 4, ["lifted; inst 0 0.0", "inst 0 2.0", "inst 0 0.1", "inst 0 0", "inst 0 0.0.0", "inst 0 00.0", "inst 00 0.0",
                   "inst 2 0.0", "inst 18446744073709551616 0.0", "inst 0", "inst 0 0.0 ", "inst  0 0.0"]),
    ("two", 5, 5, ["inst 3 1.0"]), ("mp", 20, 20, ["inst 13 0.0"]),
    # members
    ("two", 8, 8, ["member 4 1", "member 4 00", "member 3 0"]), ("mp", 8, 8, ["member 5 2"]), ("mp", 8, 41, ["member 5 0"]),
    ("corr", 19, 19, ["member 15 0"]),
    # sides of an And, an Or and an implication
    ("two", 6, 6, ["left 3", "right 3"]), ("two", 9, 9, ["left 5"]), ("mp", 17, 17, ["left 12"]), ("mp", 18, 19, ["right 13"]),
    ("corr", 12, 12, ["left 12"]), ("corr", 14, 14, ["not 12", "bind 13"]), ("corr", 16, 16, ["bind 11", "not 12"]),
    # splits
    ("two", 6, 6, ["split 2"]), ("two", 8, 8, ["split 4"]), ("two", 9, 9, ["split 5"]), ("mp", 18, 18, ["split 13"]),
    ("mp", 57, 57, ["split 27"]), ("corr", 21, 21, ["split 16"]), ("corr", 82, 82, ["split 30"]),
    # leaves
    ("two", 7, 7, ["false 3", "false 5", "end"]), ("two", 8, 8, ["false 4"]), ("two", 9, 9, ["false 5"]),
    ("corr", 14, 14, ["false 13"]), ("corr", 19, 19, ["false 15"]), ("mp", 19, 19, ["false 13"]), ("mp", 20, 20, ["false 13"]),
    ("two", 14, VERIFIED, ["cycle 9 5", "cycle 5 9 5 9"]),
    ("two", 14, 14, ["cycle 5 5", "cycle 5", "cycle 5 8", "cycle 5 10", "cycle", "path 5 9"]),
    ("mp", 41, VERIFIED, ["cycle 20 10 27 6"]), ("mp", 41, 41, ["cycle 6 10 20 27", "cycle 6 20 10"]),
    ("corr", 20, 20, ["path 16 9", "path 9 9", "path 16", "path 9 15", "cycle 9 16", "absent 16 9"]),
    ("corr", 27, 27, ["path 9 20"]),
    # the end
    ("two", 14, VERIFIED, ["inst 1 0.0; cycle 5 9", "split 7; false 10; cycle 5 9"]),
    ("two", 15, 15, [None, "cycle 5 9; end"]), ("two", 15, 16, ["end; end"]),
]

ABSENT = STAGES + """Axiom "n": ~exists microop "i", NodeExists (i, S) => EdgeExists ((i, S), (i, T)).
Axiom "c": forall cores "c", forall microops "i", OnCore c i => ~(NodeExists (i, T) \\/ NodeExists (i, (c, S))).
"""
# facts 0 and 1 are its axioms: 5 is the node 0.0@0:S, and 9 denies both T and S
OF_NODE = "not 0; inst 2 0.0"
SO_FAR = f"{OF_NODE}; left 3; member 4 0; inst 1 0; inst 6 0.0; split 7; false 8; not 8"
LIST_OF_TWO = f"{SO_FAR}; right 9"
DENIES = f"{LIST_OF_TWO}; split 10"
ENDS = STAGES + """DefineMacro "m": EdgesExist [((i, S), (i, T)); ((i, T), (i, U))].
Axiom "e": forall microops "i", ExpandMacro m.
Axiom "d": forall microops "i", ~NodesExist [(i, S); (i, T); (i, U)].
"""
# 4 and 5 are edges from S to T and from T to U, and 7 denies that all three nodes are there
CHAIN = "inst 0 0.0; bind 2; member 3 0; member 3 1; inst 1 0.0; not 6; split 7"
TO_THE_LAST = f"{CHAIN}; absent 8 4; split 8; absent 9 4; split 9; absent 10"
BOTH_WAYS = STAGES + """Axiom "e": forall microops "i", AddEdges [((i, S), (i, T)); ((i, T), (i, S))].
Axiom "o": exists microop "i", ~(True => AddEdges [] /\\ False).
Axiom "d": forall microops "i", ~EdgeExists ((i, S), (i, S)).
"""
ROUND = "inst 0 0.0; member 3 0; member 3 1"
TWO_EDGES = STAGES + """Axiom "e": forall microops "i", AddEdges [((i, S), (i, T)); ((i, T), (i, U))].
Axiom "d": forall microops "i", ~EdgeExists ((i, S), (i, U)).
"""
EXISTS = 'Axiom "x": exists microop "i", False.\n'

# of one write: what is judged, the model, the lines below `lifted`, the answer
LIFTED = [
    ("a node that is denied and asserted", ABSENT, f"{DENIES}; absent 11 5; false 11; end", VERIFIED),
    ("the fact that is no denial first", ABSENT, f"{DENIES}; absent 5 11", 15),
    ("a list of one node for the node", ABSENT, f"{DENIES}; absent 11 4", 15),
    ("a denial alone", ABSENT, f"{DENIES}; absent 11", 15),
    ("a denial twice", ABSENT, f"{DENIES}; absent 11 11", 15),
    ("a third fact", ABSENT, f"{DENIES}; absent 11 5 5", 15),
    ("the denial of another node", ABSENT, f"{SO_FAR}; left 9; split 10; absent 11 5", 15),
    ("a denial on the right branch of its split", ABSENT, f"{DENIES}; absent 11 5; absent 11 5", 16),
    ("false of a list that has a member left", ABSENT, f"{LIST_OF_TWO}; false 10", 14),
    ("a core that is not in the range", ABSENT, f"{OF_NODE}; left 3; member 4 0; inst 1 1", 8),
    ("a core with a leading zero", ABSENT, f"{OF_NODE}; left 3; member 4 0; inst 1 00", 8),
    ("a micro-op for a core", ABSENT, f"{OF_NODE}; left 3; member 4 0; inst 1 0.0", 8),
    ("the left side of an implication that is false is true", ABSENT, f"{OF_NODE}; left 3; split 4", 7),
    ("its right side is false", ABSENT, f"{OF_NODE}; right 3; member 4 0", 7),
    ("its right side is a list of one", ABSENT, f"{OF_NODE}; right 3; split 4; path 5 5", 8),
    ("a split of an exists that is false", ABSENT, "not 0; split 2", 5),
    ("a split of an implication that is false", ABSENT, f"{OF_NODE}; split 3", 6),
    ("a split of an Or that is false", ABSENT, f"{SO_FAR}; split 9", 13),
    ("inst of a negation", ABSENT, "inst 0 0.0", 4),
    ("ends of edges are there", ENDS, f"{TO_THE_LAST} 5; false 10; end", VERIFIED),
    ("a node that is no end of the edge", ENDS, f"{CHAIN}; absent 8 5", 11),
    ("a node of another core", ENDS.replace("(i, U)]", "(i, (5, T))]"), f"{TO_THE_LAST} 4", 15),
    ("a split of a single node", ENDS, f"{CHAIN}; split 8", 11),
    ("a split of a list that has no member left", ENDS, f"{TO_THE_LAST} 5; split 10", 16),
    ("a macro without parameters binds", ENDS, "inst 0 0.0; member 2 0", 5),
    ("a path of two edges", TWO_EDGES,
     "inst 0 0.0; member 2 0; member 2 1; inst 1 0.0; not 5; split 6; path 3 4 7; false 7; end", VERIFIED),
    ("a cycle beside another axiom", BOTH_WAYS, f"{ROUND}; cycle 4 5; end", VERIFIED),
    ("an edge that does not end where the next begins", BOTH_WAYS, f"{ROUND}; cycle 4 4", 7),
    ("a path that ends where it begins", BOTH_WAYS, f"{ROUND}; inst 2 0.0; not 6; split 7; path 4 5 8; cycle 5 4; end", VERIFIED),
    ("the denial of another pair", BOTH_WAYS, f"{ROUND}; inst 2 0.0; not 6; split 7; path 5 4 8", 10),
    ("both sides of a false implication, and a denied And", BOTH_WAYS, "split 1; not 3; right 4; split 5; false 6; false 6", 9),
    ("an empty list is false where it is denied", BOTH_WAYS, "split 1; not 3; left 4; right 4; split 6; false 7; "
     "inst 0 0.0; member 8 0; member 8 1; cycle 9 10; false 3; end", VERIFIED),
    ("an exists has no member left", EXISTS, "split 0; false 1; false 1; end", VERIFIED),
    ("an exists has a member left", EXISTS, "false 0", 4),
    ("a predicate that is true", 'Axiom "x": True.\n', "false 0", 4),
    ("a predicate that is false", 'Axiom "x": False.\n', "false 0; end", VERIFIED),
    ("a model without an axiom", STAGES, "false 0", 4),
    ("no axiom, and nothing more", STAGES, "end", 4),
    ("a word of no line", STAGES, "lift 0", 4),
    ("a step of another text", STAGES, "absent 0.0@0:S", 4),
]

DENIED_NODES = STAGES + """Axiom "c": forall cores "c", exists microop "i", NodeExists (i, (c, S)).
Axiom "d": ~(exists microop "i", NodesExist [(i, S)]) /\\ True.
"""
# of other tests: what is judged, the model, the test, the lines, the answer
LIFTED_OF_OTHERS = [
    ("nodes that are asked for and denied", DENIED_NODES, read("examples/two.test"),
     "unobservable; test permitted: stricter; lifted; inst 0 0; left 1; not 3; split 2; member 5 0; inst 4 0.0; split 7; "
     "absent 8 6; false 8; split 5; member 6 0; inst 4 1.0; split 8; absent 9 7; false 9; false 6; end", VERIFIED),
    ("an exists over nothing", EXISTS, 'Litmus "e".\n', f"{HEADER}; lifted; false 0; end", VERIFIED),
]

ITSELF = 'Axiom "self": forall microops "i", AddEdge ((i, S), (i, S)).\n'
NODE = 'Axiom "node": forall microops "i", NodeExists (i, S).\n'
MACRO = 'DefineMacro "m" "a": AddEdge ((a, S), (a, S)).\n'
BY_MACRO = 'Axiom "self": forall microops "i", ExpandMacro m i.\n'
CYCLE = f"{HEADER}; cycle 0.0@0:S; end"

# what `core` is to find: the model, the text
CORES = [
    ("a core of no axioms", STAGES, f"core none; {GRAPH}; end"),
    ("of two axioms that are each enough the first is taken out", STAGES + ITSELF + ITSELF,
     f"core 1; axiom 1; refutation; {CYCLE}; without 1; {GRAPH}; end"),
    ("a macro has no number, and stays", STAGES + NODE + MACRO + BY_MACRO,
     f"core 1; axiom 1; refutation; {CYCLE}; without 1; {GRAPH}; end"),
    ("an axiom that is False by itself", STAGES + NODE + 'Axiom "f": False.\n' + NODE,
     f"core 1; axiom 1; refutation; {HEADER}; false; end; without 1; {GRAPH}; end"),
]
# what `lift` makes of a certificate: the model, its lines, the answer
LIFTS = [
    ("a cycle of one edge", STAGES + ITSELF, CYCLE, f"{HEADER}; lifted; inst 0 0.0; member 1 0; cycle 2; end"),
    ("a macro", STAGES + MACRO + BY_MACRO, CYCLE, f"{HEADER}; lifted; inst 0 0.0; bind 1; member 2 0; cycle 3; end"),
    ("a choice, and denied lists that end after it", SIGNS, f"{HEADER}; split 1; {T}; {U}; end",
     f"{HEADER}; lifted; inst 0 0.0; left 1; right 1; left 3; not 4; split 5; right 3; not 7; split 8; split 2; left 10; "
     "member 11 0; right 10; member 13 0; absent 9 14; member 10 0; absent 6 11; false 9; false 6; end"),
    ("a left side that is false in the test", STAGES + ITSELF.replace("AddEdge", "IsAnyRead i \\/ AddEdge"), CYCLE,
     f"{HEADER}; lifted; inst 0 0.0; split 1; false 2; member 2 0; cycle 3; end"),
    ("a right side that is false in the test", STAGES + ITSELF.replace(".\n", " \\/ IsAnyRead i.\n"), CYCLE,
     f"{HEADER}; lifted; inst 0 0.0; split 1; member 2 0; cycle 3; false 2; end"),
    ("an axiom that is false alone", STAGES + NODE + 'Axiom "f": False.\n', f"{HEADER}; false; end",
     f"{HEADER}; lifted; false 1; end"),
    ("an exists of which each value is false", 'Axiom "x": exists microop "i", IsAnyRead i.\n', f"{HEADER}; false; end",
     f"{HEADER}; lifted; split 0; false 1; false 1; end"),
    ("a graph", STAGES, GRAPH, "verified observable"),
    ("a refutation of version 2", SIGNS, f"{VERSION_2}; {SIGNED}", 3),
    ("a lifted refutation", STAGES + ITSELF, f"{HEADER}; lifted; inst 0 0.0; member 1 0; cycle 2; end", 3),
    ("a refutation that breaks off", SIGNS, f"{HEADER}; split 1; {T}", 5),
    ("an empty text", STAGES, "", 1),
    ("a text whose first line is none", STAGES, "test unstated; version 2", 1),
]

FREE_NAME = STAGES + 'DefineMacro "m" "a": NodeExists (i, S) /\\ NodeExists (a, S).\n' + NODE
# what is asked of a model, the query, the first line or the refusal
QUERIES = [
    ("a node that an axiom asks for", STAGES + NODE, 'exists microop "i", NodeExists (i, S)', "ask always"),
    ("a node that no axiom asks for", STAGES + NODE, 'exists microop "i", NodeExists (i, T)', "ask sometimes"),
    ("an edge to itself", STAGES, 'exists microop "i", EdgeExists ((i, S), (i, S))', "ask never"),
    ("a model that forbids the outcome", STAGES + ITSELF, "True", "ask vacuous"),
    ("a macro whose free name is bound in the query", FREE_NAME, 'exists microop "i", ExpandMacro m i', "ask always"),
    ("a free name in a macro's body", FREE_NAME, 'exists microop "k", ExpandMacro m k', "refused model unbound at 4:34"),
    ("an unbound argument", FREE_NAME, "ExpandMacro m k", "refused query unbound at 1:15"),
    ("a macro that there is not", FREE_NAME, "NodeExists (k, S) /\\ ExpandMacro n k", "refused query macro-unknown at 1:34"),
    ("a query with a dot", STAGES, "True.", "refused query syntax at 1:5"),
    ("a query with 129 openers", STAGES, 129 * "~" + "True", "refused query depth at 1:129"),
    ("a query beside a model with a fault", "True.", "~", "refused model syntax at 1:1"),
]

READ = "Microop 0 0 0 0 (Read (VA 3 0) (Entry 3) (Maps 7 1 0))."
WRITE = "Microop 0 0 0 1 (Write (VA 3 0) (PA 7 0) (Data 1))."
WALKED = "observable; test unstated; node 0.0@0:S; node 0.1@0:S; edge 0.0@0:S 0.1@0:S; end"
ZEROS, NINES, GREATEST = "0" * 5_000, "9" * 5_000, "18446744073709551615"


def marked(marks: str) -> str:
    return READ.replace("1 0))", f"{marks}))")


# what is read, the first word, the lines after the title, what `check` writes on the model WALK
FILES = [
    ("a walk", "Litmus2", f"{READ}; {WRITE}", WALKED),
    ("a walk in format 1", "Litmus", f"{READ}; {WRITE}", "refused test syntax at 2:33"),
    ("an entry as a value in format 1", "Litmus", READ.replace("Entry 3", "PA 3 0"), "refused test syntax at 2:42"),
    ("a format that there is not", "Litmus3", f"{READ}; {WRITE}", "refused test syntax at 1:1"),
    ("an accessed mark of 2", "Litmus2", f"{marked('2 0')}; {WRITE}", "refused test mark-value at 2:50"),
    ("both marks over 1", "Litmus2", f"{marked('2 3')}; {WRITE}", "refused test mark-value at 2:50"),
    ("a dirty mark of 3", "Litmus2", f"{marked('1 3')}; {WRITE}", "refused test mark-value at 2:52"),
    ("a mark of 2 in a micro-op that comes twice", "Litmus2", f"{READ}; {marked('2 0')}", "refused test duplicate-op at 3:9"),
    ("an entry at a page, and a number at an entry", "Litmus2",
     "Microop 0 0 0 0 (Read (VA 3 0) (PA 3 0) (Maps 7 1 0)).; Init (Entry 3) 7.; Final (PA 0 0) (Maps 1 1 1).", GRAPH),
    ("a page without an index", "Litmus2", "Init (PA 3) 7.", "refused test syntax at 2:11"),
    ("an entry with an index", "Litmus2", "Init (Entry 3 0) 7.", "refused test syntax at 2:15"),
    ("a virtual address that is an entry", "Litmus2", "Microop 0 0 0 0 (Read (Entry 3) (Entry 3) (Data 1)).",
     "refused test syntax at 2:24"),
    ("an entry of two parts", "Litmus2", "Init (Entry 3) (Maps 7 1).", "refused test syntax at 2:25"),
    ("a number in brackets", "Litmus2", "Init (Entry 3) (Data 7).", "refused test syntax at 2:17"),
    ("an entry's initial value twice", "Litmus2", "Init (Entry 3) 7.; Init (Entry 3) (Maps 7 2 0).",
     "refused test again-initial at 3:1"),
    ("a mark of 2 at the start", "Litmus2", "Init (Entry 3) (Maps 7 0 2).", "refused test mark-value at 2:26"),
    ("a mark of 2 at the end", "Litmus2", "Final (PA 0 0) (Maps 7 2 0).", "refused test mark-value at 2:24"),
    ("a page and an entry of one tag", "Litmus2", "Init (PA 3 0) 1.; Init (Entry 3) 1.; Init (PA 0 3) 1.", GRAPH),
    ("names of format 2 as type names", "Litmus2", "Microop 0 0 0 0 (Fence Entry Maps Litmus2).", GRAPH),
    ("more zeros before a number than Python takes digits", "Litmus2", f"{READ.replace('(VA ', f'(VA {ZEROS}')}; {WRITE}", WALKED),
    ("a number of more digits than Python takes", "Litmus", f"Init (PA 0 0) {NINES}.", "refused test lexical at 2:15"),
    ("a pattern is no test", "Litmus", "Microop 0 0 0 0 (Read (VA 0 0) (PA 0 0) (Data Any)).", "refused test syntax at 2:47"),
]

PREDICATES_CASE = b"""Litmus2 "p".
Microop 0 0 0 0 (Read Walk (VA 3 0) (Entry 3) (Maps 7 1 0)).
Microop 0 0 0 1 (Write (VA 3 0) (PA 7 0) (Data 1)).
Microop 1 0 0 0 (Read (VA 7 0) (Entry 7) (Maps 7 0 0)).
Microop 2 0 0 0 (Read (VA 3 5) (PA 3 5) (Data 0)).
Microop 3 0 0 0 (Write (VA 3 0) (Entry 3) (Maps 8 0 1)).
Microop 4 0 0 0 (Fence Invalidate).
Microop 5 0 0 0 (Read (VA 3 0) (PA 7 0) (Maps 7 1 0)).
Final (Entry 3) (Maps 8 0 1).
"""
# a predicate, of which micro-ops of that case, by their places, it holds, and of which it does not
HOLDS = [
    ("EntryOf", ["0 1", "0 0", "4 3"], ["2 1", "1 1", "0 5", "5 0"]),
    ("MapsTagOf", ["0 1", "2 1", "6 1"], ["0 2", "1 1", "0 3", "0 5", "5 1"]),
    ("MarkedAccessed", ["0"], ["4", "1", "5"]),
    ("MarkedDirty", ["4"], ["0", "1"]),
    ("SamePhysicalTag", ["1 1"], ["0 4", "2 1"]),
    ("SamePhysicalAddress", ["0 4", "1 6"], ["0 2"]),
    ("SameData", ["0 6"], ["0 2", "1 3"]),
    ("DataFromInitialStateAtPA", ["2", "3"], ["0", "6"]),
    ("DataFromFinalStateAtPA", ["4"], ["0", "1"]),
]

LISTING = r"""X86 T
"PodWR Fre PodWR Fre"
Com=Fr Fr
{ x=0; [y]=5; }
 P0          | P1          ;
 MOV [x],$1  | MOV [y],$1  ;
 MFENCE      |             ;
 MOV EAX,[y] | MOV EAX,[x] ;
exists
(0:EAX=5 /\ 1:EAX=0 /\ y=1)
"""
SAME = """Litmus "T".
Microop 0 0 0 0 (Write (VA 0 0) (PA 0 0) (Data 1)).
Microop 1 0 0 0 (Fence MFENCE).
Microop 2 0 0 0 (Read (VA 1 0) (PA 1 0) (Data 5)).
Microop 3 1 1 0 (Write (VA 1 0) (PA 1 0) (Data 1)).
Microop 4 1 1 0 (Read (VA 0 0) (PA 0 0) (Data 0)).
Init (PA 0 0) 0.
Init (PA 1 0) 5.
Final (PA 1 0) 1.
"""
# how a listing may be written otherwise and say the same
WAYS = [
    ("its lines end with CR and LF", "\n", "\r\n"),
    ("without its header's lines", '"PodWR Fre PodWR Fre"\nCom=Fr Fr\n', ""),
    ("blanks and a comment", "{ x=0", "\t {(* x (* y\n*)x = 00"),
    ("more zeros before a number than Python takes digits", "{ x=0", f"{{ x={ZEROS}0"),
    ("several blanks after X86, and after the name", "X86 T", "X86   T \t"),
    ("no `;` after the last value", "5; }", "5}"),
    ("brackets about a location", "y=1)", "[y]=1)"),
    ("no brackets about the condition", "(0:EAX=5 /\\ 1:EAX=0 /\\ y=1)", "0:EAX=5 /\\ 01:EAX=0 /\\ y=1"),
    ("other names", "EAX", "MOV"),
    ("the condition in another order", "0:EAX=5 /\\ 1:EAX=0 /\\ y=1", "y=1 /\\ 1:EAX=0 /\\ 0:EAX=5"),
]
# what is changed in the listing, and each text that stands in its place, with the refusal
SPOILT = {
    "X86 T": [("X86", "syntax at 1:1"), ("X86\tT", "syntax at 1:1"), ("X86 T x", "syntax at 1:1"), (" X86 T", "syntax at 1:1"),
              ("PPC T", "syntax at 1:1"), ("X86_64 T", "syntax at 1:1")],
    '"PodWR': [(' "PodWR', "syntax at 2:2")],
    "Com=Fr Fr": [("Com Fr Fr", "syntax at 3:1")],
    "{ x=0": [("x=0", "syntax at 5:2"), (f"{{ x={NINES}", "lexical at 4:5"), ("{ int x=0", "syntax at 4:7"),
              ("{ 0:EAX=0; x=0", "syntax at 4:3"), ("{ x", "syntax at 4:4")],
    "{ x=0;": [("{ x=0;;", "syntax at 4:7")],
    "[y]=5": [("[x]=0", "again-initial at 4:9")],
    " ;\n MOV [x]": [(f" {''.join(f'| P{k}' for k in range(2, 65))};\n MOV [x]", "core-number at 5:332")],
    "| P1": [("| P2", "x86-column at 5:16"), ("| p1", "x86-column at 5:16")],
    "$1  ;": [("$18446744073709551616 ;", "lexical at 6:25")],
    "MOV [y],$1": [("MOV [y],EAX", "syntax at 6:24"), ("MOV EAX,$1", "syntax at 6:24")],
    " MFENCE ": [(62 * " MFENCE | ;\n" + " MFENCE ", "too-many-ops at 69:2")],
    "MFENCE ": [("LOCK   ", "syntax at 7:2"), ("MFENCE x", "syntax at 7:9"), ("MOV EAX,[x]", "x86-reload at 8:6")],
    "|             ;": [(";", "x86-column at 7:14"), ("|  | ;", "x86-column at 7:19")],
    "exists": [("% no comment\nexists", "lexical at 9:1"), ("(* open\nexists", "lexical at 9:1"),
               ("locations [x;]\nexists", "syntax at 9:1"), ("forall", "syntax at 9:1"), ("~ exist", "syntax at 9:3")],
    "5 /\\ 1": [("5 \\/ 1", "lexical at 10:10")],
    "(0:EAX=5": [("(not 0:EAX=5", "syntax at 10:6"), ("((0:EAX=5", "syntax at 10:2")],
    "0:EAX=5": [("0:EBX=5", "x86-unloaded at 10:2"), ("2:EAX=5", "x86-unloaded at 10:2"),
                ("0:EAX=5 /\\ 0:EAX=5", "x86-again at 10:13"), ("0:EAX=-1", "lexical at 10:8"), ("0:EAX=0x1", "syntax at 10:9")],
    "/\\ 1:EAX=0": [("", "x86-open at 8:20")],
    "0:EAX=5 /\\ 1:EAX=0 /\\ ": [("", "x86-open at 8:6")],
    "y=1": [("y=1 /\\ [y]=1", "again-final at 10:32")],
    "y=1)": [("y=1", "syntax at 11:1"), ("y=1) x", "syntax at 10:29")],
}


def opens(op: int, tag: int = 0) -> str:
    """An open read of this page."""
    return f"Microop {op} 0 0 0 (Read (VA {tag} 0) (PA {tag} 0) (Data Any))."


def stores(op: int, value: int, virtual: int = 0, physical: int = 0) -> str:
    """A write of this value to these pages."""
    return f"Microop {op} 0 0 0 (Write (VA {virtual} 0) (PA {physical} 0) (Data {value}))."


def of_reads(first: int, count: int) -> str:
    """So many open reads of one address, from this micro-op on."""
    return "; ".join(opens(first + k) for k in range(count))


IN_ORDER = STAGES + """Axiom "r": forall microops "i", IsAnyRead i => DataFromInitialStateAtPA i \\/
  exists microop "w", IsAnyWrite w /\\ SamePhysicalAddress w i /\\ SameData w i /\\ ProgramOrder w i.
"""
OF_ENTRIES = (
    "Microop 0 0 0 0 (Read Walk (VA 3 0) (Entry 3) (Data Any)).; Microop 0 0 0 1 (Write (VA 3 0) (Entry 3) (Maps 8 1 0)).; "
    "Microop 0 0 0 2 (Write (VA 3 0) (Entry 3) (Data 5)).; Microop 0 0 0 3 (Write (VA 3 0) (Entry 4) (Maps 9 1 0))."
)

# what is read, the first word, the lines after the title, and what the open reads get in each row of a sweep; all are observable
SWEPT = [
    ("no open read", "Litmus", stores(0, 1), [""]),
    ("no item", "Litmus", "", [""]),
    ("a read that nothing writes", "Litmus", opens(0), [" 0"]),
    ("an initial value", "Litmus", f"Init (PA 0 0) {GREATEST}.; {opens(0)}; Init (PA 0 1) 8.", [f" {GREATEST}"]),
    ("an initial value after the read", "Litmus", f"{opens(0)}; Init (PA 0 0) 7.", [" 7"]),
    ("writes before and after the read, in test order", "Litmus", f"{stores(0, 5)}; {opens(1)}; {stores(2, 3)}",
     [" 0", " 5", " 3"]),
    ("a value that is written twice, and the initial one written again", "Litmus",
     f"{stores(0, 5)}; {stores(1, 0)}; {stores(2, 5)}; {opens(3)}", [" 0", " 5"]),
    ("writes of other addresses", "Litmus", f"{stores(0, 5, 0, 1)}; {opens(1)}; {stores(2, 6, 1)}", [" 0", " 6"]),
    ("the last open read changes fastest", "Litmus", f"{stores(0, 1)}; {opens(1)}; {opens(2)}", [" 0 0", " 0 1", " 1 0", " 1 1"]),
    ("a read that is not open", "Litmus", f"{stores(0, 1)}; {opens(1).replace('Any', '9')}; {opens(2)}", [" 0", " 1"]),
    ("an open read of an entry", "Litmus2", OF_ENTRIES, [" Maps:3:0:0", " Maps:8:1:0", " 5"]),
    ("an entry at the start", "Litmus2", "Init (Entry 3) (Maps 7 0 1).; Microop 0 0 0 0 (Read (VA 3 0) (Entry 3) (Data Any)).",
     [" Maps:7:0:1"]),
    ("words of the grammar as type names", "Litmus", opens(0).replace("Read", "Read Any Data Write"), [" 0"]),
    ("an expectation", "Litmus", f"{opens(0)}; Forbidden.", [" 0"]),
]
# what is read, the first word, the lines after the title, the refusal
NO_PATTERN = [
    ("Any of a write", "Litmus", stores(0, 0).replace("Data 0", "Data Any"), "syntax at 2:48"),
    ("any in small letters", "Litmus", opens(0).replace("Any", "any"), "syntax at 2:47"),
    ("Any in quotes", "Litmus", opens(0).replace("Any", '"Any"'), "syntax at 2:47"),
    ("Any twice", "Litmus", opens(0).replace("Any", "Any Any"), "syntax at 2:51"),
    ("Any of an address", "Litmus", "Microop 0 0 0 0 (Read (VA 0 0) (PA 0 Any) (Data 0)).", "syntax at 2:38"),
    ("an open entry", "Litmus2", opens(0).replace("Data", "Maps"), "syntax at 2:47"),
    ("an open initial value", "Litmus", "Init (PA 0 0) Any.", "syntax at 2:15"),
    ("an open value of a fence", "Litmus", "Microop 0 0 0 0 (Fence (Data Any)).", "syntax at 2:24"),
    ("an entry in a pattern of format 1", "Litmus", opens(0).replace("PA 0 0", "Entry 3"), "syntax at 2:33"),
    ("a fault of content", "Litmus", f"{opens(0)}; {opens(0)}", "duplicate-op at 3:9"),
    ("13 open reads of two values", "Litmus", f"{of_reads(0, 13)}; {stores(13, 1)}", "too-many-rows at 14:48"),
    ("14 open reads of two values", "Litmus", f"{stores(90, 1)}; {of_reads(0, 14)}", "too-many-rows at 15:48"),
    ("open reads of one value do not count", "Litmus",
     "; ".join([stores(90, 1), *(opens(k, 1) for k in range(13)), of_reads(13, 13)]), "too-many-rows at 28:48"),
    ("too many rows, and a fault after them", "Litmus", f"{stores(90, 1)}; {of_reads(0, 14)}; Microop 20 64 0 0 (Fence).",
     "core-number at 17:12"),
]
PAIRS = [" 0 0", " 0 1", " 1 0", " 1 1"]
MAPS = [" Maps:6:1:0 Maps:5:1:0 0", " Maps:6:1:0 Maps:7:1:0 0", " Maps:8:1:0 Maps:5:1:0 0", " Maps:8:1:0 Maps:7:1:0 0"]
# a shipped model and pattern, what the open reads get in each row of a sweep, and the rows that are not observable
SHIPPED_SWEPT: list[tuple[str, str, str, list[str], list[str]]] = [
    ("a sweep of message passing", "in-order.uspec", "patterns/MP.pattern", PAIRS, [" 1 0"]),
    ("a sweep of store buffering through store buffers", "store-buffer.uspec", "patterns/SB.pattern", PAIRS, []),
    ("a sweep of a test without an open read", "po.uspec", "two.test", [""], []),
    ("... that is not observable", "po-and-reverse.uspec", "two-forbidden.test", [""], [""]),
    ("a sweep with page-table entries", "translation/tlb.uspec", "patterns/MP+read+walk.pattern", MAPS, MAPS[1::2]),
]


def text_of(lines: str) -> str:
    """The text of these lines."""
    return "".join(f"{line}\n" for line in lines.split("; ") if lines)


def swept(rows: Sequence[str], unseen: Sequence[str] = ()) -> str:
    """What a sweep writes of these rows, of which these are unseen."""
    told = [f"row{it} {'un' * (it in unseen)}observable" for it in rows]
    return "; ".join([f"sweep {len(rows)}", *told, f"observable {len(rows) - len(unseen)}", f"unobservable {len(unseen)}", "end"])


def by_both(*words: str) -> str:
    """What both write of these words."""
    out = io.StringIO()
    status, by_program = answer([*words], out), run([program(), *words])
    assert by_program == Done(status, out.getvalue(), ""), f"the program says {by_program}"
    return by_program.out


def said(word: str, *texts: str | bytes) -> str:
    """What both write of files with these texts, in lines as they stand in the tables."""
    with tempfile.TemporaryDirectory() as folder:
        files = [write(f"{folder}/{number}", text) for number, text in enumerate(texts)]
        return by_both(word, *files).rstrip("\n").replace("\n", "; ")


def of_one(word: str, model: str, *more: str) -> str:
    """What a command writes of one write in a model."""
    return said(word, model, ONE, *map(text_of, more))


def of_titled(word: str, model: str, first: str, lines: str) -> str:
    """What a command writes of a test that begins with this word, and goes on with these lines after its title."""
    return said(word, model, f'{first} "w".\n{text_of(lines)}')


def shipped_lifted(name: str, number: int, lines: str | None) -> str:
    """What `verify-lifted` writes of a shipped text in which these lines, or none, stand in place of one line."""
    model, test = (read(f"examples/{path}") for path in SHIPPED[name])
    text = read(f"examples/lifted/{name}.txt").split("\n")
    text[number - 1 : number] = [] if lines is None else lines.split("; ")
    return said("verify-lifted", model, test, "\n".join(text))


def told_listing(text: str) -> str:
    """What the case of a listing says, its addresses by their numbers, or its refusal. It is answered on a model of values."""
    answered = said("check86", VALUES, text)
    is_refused = answered.startswith("refused")
    return answered if is_refused else str(judged("test", read_listing, text.encode("ascii")))


# beside an edge from S to T: an Or, written with names of stages, and whether it is forced, with one alternative left or none
FORCED = [
    ("two alternatives that are open", "U \\/ V", False),
    ("one whose literal would clash", "~S \\/ U", True),
    ("one of three whose literal would clash", "~S \\/ U \\/ V", False),
    ("two of three whose literals would clash", "~S \\/ U \\/ ~T", True),
    ("two of three in a chain to the left", "(~S \\/ U) \\/ ~T", True),
    ("all", "~S \\/ ~T", True),
    ("an edge that closes a cycle, beside a node", "(U /\\ T>S) \\/ V", True),
    ("two edges that close a cycle together", "(T>U /\\ U>S) \\/ V", True),
    ("the same two in the other order", "(U>S /\\ T>U) \\/ V", True),
    ("three edges that close one only together", "(T>U /\\ U>V /\\ V>S) \\/ U", False),
    ("two edges that lead on", "(T>U /\\ U>V) \\/ V", False),
    ("an edge, and a denied one that it would join", "(T>U /\\ ~S>U) \\/ V", True),
    ("an edge, and a denied one that it does not join", "(T>U /\\ ~U>S) \\/ V", False),
    ("an edge, and its first node denied", "(U>T /\\ ~U) \\/ V", True),
    ("its last node denied, and an edge", "(~U /\\ T>U) \\/ V", True),
    ("an edge that is denied, and a node that is", "(~T>U /\\ ~U) \\/ V", False),
    ("a node and its denial", "(U /\\ ~U) \\/ V", True),
    ("two nodes", "(U /\\ V) \\/ V", False),
    ("an Or of which each alternative would clash", "(U /\\ (~S \\/ ~T)) \\/ V", True),
    ("an Or of which one would not", "(U /\\ (~S \\/ V)) \\/ V", False),
    ("an Or of which one would together with the first alternative", "(T>U /\\ (U>S \\/ ~S)) \\/ V", True),
    ("an Or with a literal that would together with another one of its own", "(V /\\ ((T>U /\\ U>S) \\/ ~S)) \\/ U", False),
    ("an Or two deep of which each would clash", "(U /\\ ((V /\\ (~S \\/ ~T)) \\/ ~S)) \\/ V", False),
]


def is_forced(disjunction: str) -> bool:
    """Whether the Or that is written so is forced. It is at position 2, behind the edge."""
    written = re.sub("([S-V])>([S-V])", r"EdgeExists ((i, \1), (i, \2))", disjunction)
    written = re.sub(r"(?<!, )\b([S-V])\b", r"NodeExists (i, \1)", written)
    stages = "".join(f'StageName {number} "{name}".\n' for number, name in enumerate("STUV"))
    model = f'{stages}Axiom "f": forall microops "i", EdgeExists ((i, S), (i, T)) /\\ ({written}).\n'
    branch = Branch(Positions(read_model(model.encode("ascii")), read_case(ONE.encode("ascii"))), 1)
    branch.assert_side([(0, False)], 0)
    return branch.alternatives.forced(branch.order, [(2, False)]) == (2, False)


# runs the program with a search that does not agree with the other one
FAILS = """import sys
from tools.__main__ import called
from tools.second import searching
searching.search = lambda _: None
sys.exit(called(*sys.argv[1:]))
"""


class Second(Cases):
    """What the second implementation says, and the program."""

    def tells(self, of: Callable[..., str], rows: Iterable[tuple[Any, ...]], head: str = "") -> None:
        """Of each row, a name, what is given, and what is wanted, this is said."""
        for name, *given, wanted in rows:
            if self.is_wanted(shown := f"the second implementation: {head}{name}"):
                with self.case(shown):
                    self.assertEqual(of(*given), f"certificate refused at line {wanted}" if isinstance(wanted, int) else wanted)

    def test_certificates(self) -> None:
        self.tells(partial(of_one, "verify"), CERTIFICATES)
        self.tells(partial(of_one, "check2"), FOUND)
        self.tells(partial(of_one, "core"), CORES)
        self.tells(partial(of_one, "lift"), LIFTS, "lift: ")

    def test_forced(self) -> None:
        self.tells(lambda it: str(is_forced(it)), [(name, it, str(wanted)) for name, it, wanted in FORCED], "a forced Or: ")

    def test_lifted(self) -> None:
        rows = [(f"{name}.txt with {'nothing' if it is None else it!r} as line {number}", name, number, it, wanted)
                for name, number, wanted, texts in SHIPPED_LIFTED for it in texts]
        self.tells(shipped_lifted, rows, "lifted: ")
        self.tells(lambda model, lines: of_one("verify-lifted", model, f"{HEADER}; lifted; {lines}"), LIFTED, "lifted: ")
        others = [(name, *given, text_of(lines), wanted) for name, *given, lines, wanted in LIFTED_OF_OTHERS]
        self.tells(partial(said, "verify-lifted"), others, "lifted: ")

    def test_questions(self) -> None:
        self.tells(lambda model, query: said("ask", model, ONE, query).partition("; ")[0], QUERIES, "ask: ")
        self.tells(partial(of_titled, "check", WALK), FILES)

    def test_predicates(self) -> None:
        case = read_case(PREDICATES_CASE)
        for name, holds, fails in HOLDS:
            rows = [(f"{name} {it}", it, str(it in holds)) for it in [*holds, *fails]]
            self.tells(lambda it, of=PREDICATES[name][1]: str(of(case, *map(int, it.split()))), rows)

    def test_listings(self) -> None:
        same = str(read_case(SAME.encode("ascii")))
        many = LISTING.replace(" MFENCE ", 59 * " MFENCE | ;\n" + " MFENCE ")
        self.tells(told_listing, [
            ("a listing says what a test says", LISTING, same),
            ("~exists is forbidden", LISTING.replace("exists", "~exists"), same.replace("unstated", "forbidden")),
            ("a listing that breaks off", "X86 T\nCom=Fr", "refused test syntax at 2:7"),
        ])
        self.tells(lambda text: str(told_listing(text).count("Fence")), [("a listing of 64 instructions", many, "60")])
        self.tells(told_listing, [(name, LISTING.replace(old, new), same) for name, old, new in WAYS], "a listing: ")
        self.tells(told_listing, [
            (f"{new.strip()[:60]!r} in place of {old!r}", LISTING.replace(old, new, 1), f"refused test {fault}")
            for old, rows in SPOILT.items() for new, fault in rows
        ], "a listing: ")

    def test_patterns(self) -> None:
        rows = [(*given, swept(rows)) for *given, rows in SWEPT]
        self.tells(partial(of_titled, "sweep", STAGES), rows, "a pattern: ")
        in_order = f"{opens(0)}; {stores(1, 1)}; {opens(2)}"
        unseen = [("rows that are not observable", "Litmus", in_order, swept(PAIRS, PAIRS[2:]))]
        self.tells(partial(of_titled, "sweep", IN_ORDER), unseen, "a pattern: ")
        for name, model, pattern, its_rows, its_unseen in SHIPPED_SWEPT:
            with self.case(name):
                found = said("sweep", *(read(f"examples/{it}") for it in (model, pattern)))
                self.assertEqual(found, swept(its_rows, its_unseen))
        refused = [(*row, f"refused test {fault}") for *row, fault in NO_PATTERN]
        self.tells(partial(of_titled, "sweep", STAGES), refused, "a pattern: ")

    def test_core_on_shipped_models(self) -> None:
        for name in ("sc-inorder", "tso-ooo", "tutorial"):
            for litmus in ("MP", "SB"):
                files = (f"examples/models/{name}.uspec", f"examples/tests/{litmus}.test")
                with self.case(f"core: {litmus} on {name}"):
                    by_both("core", *files)

    def test_a_lock_of_three_cores(self) -> None:
        """A search of 127 splits, which follows what failed: three cores take a lock, to add 1 to a counter each, and the last
        addition is lost."""
        ops = ['Litmus "lock".']
        for core, (got, put) in enumerate(((0, 1), (1, 2), (1, 100))):
            first = 4 * core
            ops += [op(first, "Read Locked", 0, 0, core), op(first, "Write Locked", 0, 1, core, 1),
                    op(first + 1, "Read", 1, got, core), op(first + 2, "Write", 1, put, core), op(first + 3, "Write", 0, 0, core)]
        files = ("examples/models/tso-buffer.uspec", write(f"{self.work}/lock.test", lines(*ops)))
        for word in ("check", "check2"):
            if self.is_wanted(name := f"{word}: a lock of three cores"):
                with self.case(name):
                    self.assertTrue(by_both(word, *files).startswith("unobservable\n"))

    def test_shipped_questions(self) -> None:
        for line in read("examples/queries/answers.tsv").splitlines()[1:]:
            query, name, litmus, word = line.split("\t")
            files = (f"examples/models/{name}.uspec", f"examples/tests/{litmus}.test", f"examples/queries/{query}.query")
            with self.case(f"ask: {query} of {litmus} on {name}"):
                text = by_both("ask", *files)
            self.same(f"ask: {query} of {litmus} on {name} is {word}", f"ask {word}" in text.splitlines())

    def test_two_searches_that_do_not_agree(self) -> None:
        words = ["second", "check", *(f"{TOP}/examples/{it}" for it in ("store-buffer.uspec", "sb.test"))]
        done = run([sys.executable, "-c", FAILS, *words])
        self.same("the second implementation: two searches that do not agree are no verdict", (done.status, done.out), (125, ""))


class SpoiltListings(Cases):
    """Listings of examples/x86 with some pieces or bytes changed."""

    def test_listings(self) -> None:
        chance = Random(86)
        listings = [contents(it) for it in sorted(glob(f"{TOP}/examples/x86/*.litmus"))]
        with self.case(f"spoilt listings: {COUNT} answered alike by check86"):
            found = [said("check86", VALUES, random_texts.changed_listing(chance, chance.choice(listings))) for _ in range(COUNT)]
            words = {it.replace(";", "").split()[2 if it.startswith("refused") else 0] for it in found}
            self.assertLess({"observable", "unobservable", "lexical", "syntax"}, words)


class SpoiltLifted(Cases):
    """Half of them are texts of examples/lifted. The others begin as a lifted refutation of a random model and test does, and
    some of these are whole. Then up to three lines are changed."""

    def shipped(self, chance: Random) -> tuple[bytes, bytes, bytes]:
        """A shipped text with its model and its test."""
        name, pair = chance.choice(sorted(SHIPPED.items()))
        model, test = (contents(f"{TOP}/examples/{it}") for it in pair)
        return model, test, contents(f"{TOP}/examples/lifted/{name}.txt")

    def walked(self, chance: Random) -> tuple[bytes, bytes, bytes]:
        """Lines that go on from the axioms of a random model, of two files without a fault."""
        while True:
            model, test = random_texts.ModelMaker(chance).text(), random_texts.test_text(chance)
            try:
                judge = LiftedJudge(judged("model", read_model, model), judged("test", read_case, test))
            except Refused:
                continue
            return model, test, random_texts.lifted_text(chance, judge)

    def test_lifted(self) -> None:
        chance = Random(27)
        words = set()
        with self.case(f"lifted refutations: {COUNT} answered alike by verify-lifted"):
            for number in range(COUNT):
                model, test, text = (self.walked if number % 2 else self.shipped)(chance)
                for _ in range(chance.randint(0, 3)):
                    text = random_texts.changed_certificate(chance, text)
                words.add(said("verify-lifted", model, test, text).split()[0])
            self.assertEqual(words, {"verified", "certificate"})


class Lifts(Cases):
    """Of each pair of a shipped model and test `check` answers first. Where its answer is a refutation, `lift` ends with 0, and its
    text is accepted by `verify-lifted` and by the second implementation. Where it is a graph, `lift` says so."""

    def pairs(self) -> list[tuple[str, str]]:
        """The models with their tests."""
        folders = EACH if "EACH" in os.environ else (("models", "tests"),)
        found = [(model, test) for models, tests in folders for model in sorted(glob(f"{TOP}/examples/{models}/*.uspec"))
                 for test in sorted(glob(f"{TOP}/examples/{tests}/*.test"))]
        return found if "EACH" in os.environ else [it for it in found if os.path.basename(it[1])[:-5] in FEW]

    def is_lifted(self, model: str, test: str) -> bool:
        """Whether a pair has a refutation, which is lifted and judged."""
        pair = os.path.relpath(model, TOP), os.path.relpath(test, TOP)
        certificate = run([program(), "check", model, test])
        lifted = run([program(), "lift", model, test, write(f"{self.work}/certificate", certificate.out)])
        if certificate.status == 0:
            self.assertEqual((lifted.status, lifted.out), (0, "verified observable\n"), pair)
            return False
        self.assertEqual((certificate.status, lifted.status), (1, 0), pair)
        self.assertEqual(by_both("verify-lifted", model, test, write(f"{self.work}/lifted", lifted.out)), f"{VERIFIED}\n", pair)
        return True

    def test_pairs(self) -> None:
        pairs = self.pairs()
        with self.case(f"lifted refutations of {len(pairs)} shipped pairs, each judged where there is one"):
            self.assertGreater(sum(self.is_lifted(*it) for it in pairs), len(pairs) // 2)
