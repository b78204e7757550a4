"""`pipecheck compare` compares the states in a log with those that a model shows.

Logs of machines, as litmus7 writes them, and of herd7 are written by hand from the formats: whole, cut, empty, doubled and spoilt
ones. Then come listings that a log has no form of, logs that a machine of tools/agree makes of all shipped listings, with all
registers and locations in their states, and what the script does.
"""
from __future__ import annotations

import io
import os
import re
from contextlib import redirect_stderr
from dataclasses import dataclass
from functools import cache
from glob import glob
from typing import Any

from tests.cases import (
    TOP, UNWRITTEN, USAGE, Beside, Cases, call, command, meant, missing, pipecheck, program, read, run, tool, tool_entry,
    without_output, write
)

from tools.agree.machines import tso
from tools.listings import compare
from tools.agree.litmus import address_of, read_file
from tools.second.listings import read_file_case
from tools.second.scopes import read_model

BUFFERS = f"{TOP}/examples/models/tso-buffer.uspec"
IN_ORDER = f"{TOP}/examples/models/sc-inorder.uspec"
COMPARE = tool("compare")
READ = cache(read_model)

# The listings that logs are of, by their names.
LISTINGS = {
    "SB": "X86 SB\n{ }\n P0 | P1 ;\n MOV [x],$1 | MOV [y],$1 ;\n MOV EAX,[y] | MOV EAX,[x] ;\n"
    "exists (0:EAX=0 /\\ 1:EAX=0)\n",
    # a write of 1, and one of 2 before a read of another location
    "R": "X86 R\n{ }\n P0 | P1 ;\n MOV [x],$1 | MOV [y],$2 ;\n MOV [y],$1 | MOV EAX,[x] ;\nexists (y=2 /\\ 1:EAX=0)\n",
    "none": "X86 none\n{ }\n P0 | P1 ;\n MOV [x],$1 | MOV EAX,[x] ;\n~exists (1:EAX=2)\n",
    "all": "X86 all\n{ int x; }\n P0 | P1 ;\n MOV [x],$1 | MOV EAX,[x] ;\nforall (1:EAX=0 \\/ 1:EAX=1)\n",
    "all-new": "X86 all-new\n{ int x; }\n P0 | P1 ;\n MOV [x],$1 | MOV EAX,[x] ;\nforall (1:EAX=1 \\/ 1:EAX=2)\n",
    "wide": "X86_64 wide\n{ }\n P0 | P1 ;\n movl $1,(x) | movl $1,(y) ;\n movl (y),%eax | movl (x),%eax ;\n"
    "exists (0:rax=0 /\\ 1:rax=0)\n",
    "locked": "X86 locked\n{ 0:EAX=1; 1:EAX=1; }\n P0 | P1 ;\n XCHG [x],EAX | LOCK XCHG [y],EAX ;\n"
    " MOV EBX,[y] | MOV EBX,[x] ;\nexists (0:EBX=0 /\\ 1:EBX=0)\n",
    # what the first load gets is not to be seen at the end
    "again": "X86 again\n{ }\n P0 | P1 ;\n MOV [x],$1 | MOV EAX,[x] ;\n | MOV EAX,[x] ;\nexists (1:EAX=0)\n",
}

# what is said of a state, by a word
WORDS = {
    "both": "shown by both",
    "unseen": "shown by the model and not seen",
    "BUG": "BUG: the machine does what the model forbids",
    "model": "the model shows what herd forbids",
    "herd": "herd allows what the model forbids",
}
# how the last line counts these
COUNTED = (("both",), ("BUG", "herd"), ("unseen", "model"))


def lines(names: str, states: str, condition: str) -> str:
    """What is said of a test with these variables: its states, by their values, with how often each came, and its condition in
    the model and in the log."""
    title, _, variables = names.partition(": ")
    found = ""
    for state in states.split(", "):
        values, word, times = re.fullmatch(r"([\d ]+) (\w+)(?: (\d+))?", state).groups()  # type: ignore[union-attr]
        count = f", {times} time{'' if times == '1' else 's'}" if times else ""
        shown = " ".join(f"{it}={value};" for it, value in zip(variables.split(), values.split(), strict=True))
        found += f"{title}: {shown}  {WORDS[word]}{count}\n"
    form, model, log = condition.split()
    return f"{found}{title}: {form}: {model} in the model, {log} in the log\n"


def of_sb(states: str, condition: str = "exists Ok Ok") -> str:
    """What is said of SB."""
    return lines("SB: 0:EAX 1:EAX", states, condition)


def machine(head: str, states: str, said: str, observed: str) -> str:
    """A log of one test, as short as litmus7 writes it."""
    return f"Test {head}\nHistogram ({states.count('>')} states)\n{states}{said}\n\nWitnesses\nObservation {observed}\n"


def herd(head: str, states: str, said: str, observed: str) -> str:
    """A log of one test, as short as herd7 writes it."""
    return f"Test {head}\nStates {len(states.splitlines())}\n{states}{said}\nWitnesses\nObservation {observed}\n\n"


SB_MACHINE = """Test SB Allowed
Histogram (4 states)
34    *>0:EAX=0; 1:EAX=0;
52    :>0:EAX=0; 1:EAX=1;
49    :>0:EAX=1; 1:EAX=0;
5     :>0:EAX=1; 1:EAX=1;
Ok

Witnesses
Positive: 34, Negative: 106
Condition exists (0:EAX=0 /\\ 1:EAX=0) is validated
Hash=7dbd6b8e6dd4abc2ef3d48b0376fb2e3
Com=Fr Fr
Orig=PodWR Fre PodWR Fre
Observation SB Sometimes 34 106
Time SB 0.44

"""
SB_BOTH = of_sb("0 0 both 34, 0 1 both 52, 1 0 both 49, 1 1 both 5")
R_MACHINE = machine("R Allowed", "1 :>1:EAX=0; [y]=1;\n8 *>1:EAX=0; [y]=2;\n3 :>1:EAX=1; [y]=1;\n", "Ok", "R Sometimes 8 4")
R_BOTH = lines("R: 1:EAX [y]", "0 1 both 1, 0 2 both 8, 1 1 both 3, 1 2 unseen", "exists Ok Ok")
FRAME = """%%%%%%%%%%%%%%%%%%%%%%%%%
% Results for SB.litmus %
%%%%%%%%%%%%%%%%%%%%%%%%%
X86 SB
"PodWR Fre PodWR Fre"

{}

 P0          | P1          ;
 MOV [x],$1  | MOV [y],$1  ;
 MOV EAX,[y] | MOV EAX,[x] ;

exists (0:EAX=0 /\\ 1:EAX=0)
Generated assembler
#START _litmus_P1
	movl $1,(%r10)
	movl (%r9),%eax
"""
TRAILER = """Revision exported, version 7.56
Command line: litmus7 SB.litmus
Parameters
#define SIZE_OF_TEST 100000
/* gcc options: -Wall -std=gnu99 -O2 -pthread */
Mon Nov 30 21:51:50 UTC 2026
"""
SB_HERD = """Test SB Allowed
States 4
0:EAX=0; 1:EAX=0;
0:EAX=0; 1:EAX=1;
0:EAX=1; 1:EAX=0;
0:EAX=1; 1:EAX=1;
Ok
Witnesses
Positive: 1 Negative: 3
Condition exists (0:EAX=0 /\\ 1:EAX=0)
Observation SB Sometimes 1 3
Time SB 0.00
Hash=7dbd6b8e6dd4abc2ef3d48b0376fb2e3

"""
SB_LISTED = of_sb("0 0 both, 0 1 both, 1 0 both, 1 1 both")
R_HERD = herd("R Allowed", "1:EAX=0; y=1;\n1:EAX=0; y=2;\n1:EAX=1; y=1;\n", "Ok", "R Sometimes 1 2")
R_LISTED = lines("R: 1:EAX y", "0 1 both, 0 2 both, 1 1 both, 1 2 model", "exists Ok Ok")


@dataclass(frozen=True)
class Case:
    """A log, the tests that have listings, and what is said of it beside a model."""

    name: str
    log: str
    status: int
    lines: str
    told: str = ""
    # those that are compared, where nothing else is said
    tests: tuple[str, ...] = ()
    model: str = BUFFERS
    # how many tests the log has, where not all are compared
    of: int | None = None


def counted(said: str = "", of: int | None = None) -> str:
    """What is said of tests, and the last line, which counts it, of so many tests of the log."""
    both, log_alone, model_alone = (sum(said.count(f";  {WORDS[it]}") for it in words) for words in COUNTED)
    tests = said.count(" in the log\n")
    states = f"{both} states shown by both, {log_alone} in the log alone, {model_alone} in the model alone"
    return f"{said}{tests} of {tests if of is None else of} tests compared: {states}\n"


def cut(there: str) -> str:
    """What is said of SB where so many states are there."""
    return f"log:1: the log is cut off: of SB 4 states are announced, and {there} there\n"


UNUSED = "compare: 1 listing is of no test of the log, the first SB.litmus\n"
NO_TEST = "log:1: the log has no test\n"
NO_STATES = "log:1: the log is cut off: SB has no states\n"
NO_OBSERVATION = "log:1: the log is cut off: SB has no line Observation\n"


def up_to(text: str, mark: str) -> str:
    """The text before a mark."""
    assert mark in text
    return text.partition(mark)[0]


def changed(text: str, old: str, new: str) -> str:
    """The text with a part that is spoilt."""
    assert old in text
    return text.replace(old, new)


MACHINES = [
    Case("a machine with store buffers", SB_MACHINE, 0, SB_BOTH),
    Case("a machine that does what the model forbids", SB_MACHINE, 1,
         of_sb("0 0 BUG 34, 0 1 both 52, 1 0 both 49, 1 1 both 5", "exists No Ok"), model=IN_ORDER),
    Case("a state that did not come",
         machine("SB Allowed", "9 :>0:EAX=1; 1:EAX=0;\n1 :>0:EAX=0; 1:EAX=1;\n", "No", "SB Never 0 10"), 0,
         of_sb("1 0 both 9, 0 1 both 1, 0 0 unseen, 1 1 unseen", "exists Ok No")),
    Case("the listing, its assembler and what ran it", FRAME + SB_MACHINE + TRAILER, 0, SB_BOTH),
    Case("values of locations", R_MACHINE, 0, R_BOTH),
    Case("values of locations that the model forbids", R_MACHINE, 1,
         lines("R: 1:EAX [y]", "0 1 both 1, 0 2 BUG 8, 1 1 both 3, 1 2 unseen", "exists No Ok"), model=IN_ORDER),
    Case("two tests", SB_MACHINE + R_MACHINE, 0, SB_BOTH + R_BOTH),
    Case("lines that end with CR and LF", SB_MACHINE.replace("\n", "\r\n"), 0, SB_BOTH),
    Case("numbers with 0x",
         machine("SB Allowed", "2 *>0:EAX=0x0; 1:EAX=0x0;\n3 :>0:EAX=0x1; 1:EAX=0x1;\n", "Ok", "SB Sometimes 2 3"), 0,
         of_sb("0 0 both 2, 1 1 both 3, 0 1 unseen, 1 0 unseen")),
    Case("a value that nothing writes", machine("SB Allowed", "1 :>0:EAX=7; 1:EAX=1;\n", "No", "SB Never 0 1"), 1,
         of_sb("7 1 BUG 1, 0 0 unseen, 0 1 unseen, 1 0 unseen, 1 1 unseen", "exists Ok No")),
    Case("~exists", machine("none Forbidden", "6 :>1:EAX=0;\n4 :>1:EAX=1;\n", "Ok", "none Never 0 10"), 0,
         lines("none: 1:EAX", "0 both 6, 1 both 4", "~exists Ok Ok")),
    Case("forall, and sides of a condition", machine("all Required", "6 *>1:EAX=0;\n4 *>1:EAX=1;\n", "Ok", "all Always 10 0"), 0,
         lines("all: 1:EAX", "0 both 6, 1 both 4", "forall Ok Ok")),
    Case("registers of X86_64",
         machine("wide Allowed", "2 *>0:rax=0; 1:rax=0;\n3 :>0:rax=0; 1:rax=1;\n", "Ok", "wide Sometimes 2 3"), 0,
         lines("wide: 0:rax 1:rax", "0 0 both 2, 0 1 both 3, 1 0 unseen, 1 1 unseen", "exists Ok Ok")),
    Case("locked instructions, whose registers are not all in the states",
         machine("locked Allowed", "2 *>0:EBX=0; 1:EBX=0;\n", "Ok", "locked Always 2 0"), 1,
         lines("locked: 0:EBX 1:EBX", "0 0 BUG 2, 0 1 unseen, 1 0 unseen, 1 1 unseen", "exists No Ok")),
    Case("locked instructions on a model that asks for none",
         machine("locked Allowed", "2 *>0:EBX=0; 1:EBX=0;\n", "Ok", "locked Always 2 0"), 3, "",
         "log:1: not compared: locked has locked instructions, and the model asks for no type Locked\n", tests=("locked",),
         model=IN_ORDER, of=1),
    Case("a test that comes twice", SB_MACHINE + SB_MACHINE, 0, of_sb("0 0 both 68, 0 1 both 104, 1 0 both 98, 1 1 both 10"),
         "log:18: SB comes again: its states are taken together with those of line 1\n"),
    Case("a test that comes twice, with other variables", SB_MACHINE + SB_MACHINE.replace("0:EAX=", "[x]="), 3, SB_BOTH,
         "log:18: SB has other variables than at line 1, and is left out here\n"),
    Case("a state that stands twice",
         machine("SB Allowed", "2 *>0:EAX=0; 1:EAX=0;\n1 *>0:EAX=0; 1:EAX=0;\n", "Ok", "SB Always 3 0"), 3,
         of_sb("0 0 both 3, 0 1 unseen, 1 0 unseen, 1 1 unseen"), "log:4: the state stands here a second time\n"),
    Case("an empty log", "", 3, "", NO_TEST + UNUSED),
    Case("blank lines", "\n \n\n", 3, "", NO_TEST + UNUSED),
    Case("a frame without a test", FRAME, 3, "", NO_TEST + UNUSED),
    Case("cut off behind the first line", "Test SB Allowed\n", 3, "", NO_STATES + UNUSED),
    Case("cut off between states", up_to(SB_MACHINE, "49 "), 3,
         of_sb("0 0 both 34, 0 1 both 52, 1 0 unseen, 1 1 unseen"), cut("2 are")),
    Case("cut off in a state", up_to(SB_MACHINE, "; 1:EAX=1;\n49"), 3, of_sb("0 0 both 34, 0 1 unseen, 1 0 unseen, 1 1 unseen"),
         "log:4: no line of a log: 52    :>0:EAX=0\n" + cut("1 is")),
    Case("cut off behind the states", up_to(SB_MACHINE, "Witnesses"), 3, SB_BOTH, NO_OBSERVATION),
    Case("cut off in the counts", up_to(SB_MACHINE, "06\nTime"), 3, SB_BOTH,
         "log:15: 35 runs are counted here, and 140 in the states\n"),
    Case("cut off, and the model forbids what is left", up_to(SB_MACHINE, "52 "), 1,
         of_sb("0 0 BUG 34, 0 1 unseen, 1 0 unseen, 1 1 unseen", "exists No Ok"), cut("1 is"), model=IN_ORDER),
    Case("cut off between two tests", up_to(SB_MACHINE, "Ok") + R_MACHINE, 3, SB_BOTH + R_BOTH, NO_OBSERVATION),
    Case("one state more than is announced", changed(SB_MACHINE, "(4 states)", "(3 states)"), 3, SB_BOTH,
         "log:6: 3 states are announced, and here is one more\n"),
    Case("a line that no log has", changed(SB_MACHINE, "Ok\n", "Segmentation fault\nOk\n"), 3, SB_BOTH,
         "log:7: no line of a log: Segmentation fault\n"),
    Case("a line that no log has, behind a test", SB_MACHINE + "make: *** [run] Error 1\n", 3, SB_BOTH,
         "log:18: no line of a log: make: *** [run] Error 1\n"),
    Case("a value that is longer than any of a log", changed(SB_MACHINE, "5     :>0:EAX=1;", f"5     :>0:EAX={'9' * 5000};"), 3,
         of_sb("0 0 both 34, 0 1 both 52, 1 0 both 49, 1 1 unseen"),
         f"log:6: no line of a log: 5     :>0:EAX={'9' * 46}\n" + cut("3 are")),
    Case("a count that is longer than any of a log", changed(SB_MACHINE, "Sometimes 34 106", f"Sometimes 34 {'9' * 5000}"), 3,
         SB_BOTH, f"log:15: no line of a log: Observation SB Sometimes 34 {'9' * 32}\n{NO_OBSERVATION}"),
    Case("a count that is lost", changed(SB_MACHINE, "5     :>", ""), 3,
         of_sb("0 0 both 34, 0 1 both 52, 1 0 both 49, 1 1 unseen"),
         "log:6: no line of a log: 0:EAX=1; 1:EAX=1;\n" + cut("3 are")),
    Case("the first line of a test is lost", FRAME + changed(SB_MACHINE, "Test SB Allowed\n", ""), 3, "",
         """log:18: no line of a log: Histogram (4 states)
log:19: no line of a log: 34    *>0:EAX=0; 1:EAX=0;
log:20: no line of a log: 52    :>0:EAX=0; 1:EAX=1;
log:21: no line of a log: 49    :>0:EAX=1; 1:EAX=0;
log:22: no line of a log: 5     :>0:EAX=1; 1:EAX=1;
log:31: no line of a log: Observation SB Sometimes 34 106
""" + UNUSED),
    Case("another test is observed", changed(SB_MACHINE, "Observation SB", "Observation MP"), 3, SB_BOTH,
         "log:15: this is of MP, and the test is SB\n"),
    Case("a test without a listing", SB_MACHINE + R_MACHINE, 3, SB_BOTH,
         "log:18: not compared: no listing that is read has the name R\n", of=2),
    Case("a location that the listing has not",
         SB_MACHINE.replace("1:EAX=0;", "1:EAX=0; z=0;").replace("1:EAX=1;", "1:EAX=1; z=0;"), 3, "",
         "compare: not compared: SB: the listing has no location z\n", of=1),
    Case("no run", "Test SB Allowed\nHistogram (0 states)\nNo\nWitnesses\nObservation SB Never 0 0\n", 0,
         of_sb("0 0 unseen, 0 1 unseen, 1 0 unseen, 1 1 unseen", "exists Ok No")),
    Case("a listing of another condition", changed(SB_MACHINE, "Ok\n", "No\n"), 3, "",
         "log:1: not compared: the condition of the listing SB is not met as the log says: is it another listing?\n", of=1),
    Case("what is no log", "".join(f"line {number}\n" for number in range(100)), 3, "",
         "".join(f"log:{number + 1}: no line of a log: line {number}\n" for number in range(20)) + UNUSED
         + "compare: faults of the log: 80 more\n"),
]

HERD = [
    Case("a model with store buffers", SB_HERD, 0, SB_LISTED),
    Case("a state that the model forbids", SB_HERD, 1,
         of_sb("0 0 herd, 0 1 both, 1 0 both, 1 1 both", "exists No Ok"), model=IN_ORDER),
    Case("a state that herd forbids",
         herd("SB Allowed", "0:EAX=0; 1:EAX=1;\n0:EAX=1; 1:EAX=0;\n0:EAX=1; 1:EAX=1;\n", "No", "SB Never 0 3"), 0,
         of_sb("0 1 both, 1 0 both, 1 1 both, 0 0 model", "exists Ok No")),
    Case("values of locations", R_HERD, 0, R_LISTED),
    Case("locations alone", "Test R Allowed\nStates 2\n[x]=1; y=1;\n[x]=1; y=2;\nOk\nWitnesses\nObservation R Sometimes 1 3\n", 3,
         "", "log:1: not compared: the condition of the listing R is not met as the log says: is it another listing?\n",
         tests=("R",), of=1),
    Case("a location that the condition does not name",
         herd("R Allowed", "1:EAX=0; x=1; y=2;\n1:EAX=1; x=1; y=1;\n1:EAX=1; x=0; y=2;\n", "Ok", "R Sometimes 1 2"), 1,
         lines("R: 1:EAX x y", "0 1 2 both, 1 1 1 both, 1 0 2 herd, 0 1 1 model, 1 1 2 model", "exists Ok Ok")),
    Case("two tests", SB_HERD + R_HERD, 0, SB_LISTED + R_LISTED),
    Case("lines that end with CR and LF", SB_HERD.replace("\n", "\r\n"), 0, SB_LISTED),
    Case("~exists", herd("none Forbidden", "1:EAX=0;\n1:EAX=1;\n", "Ok", "none Never 0 2"), 0,
         lines("none: 1:EAX", "0 both, 1 both", "~exists Ok Ok")),
    Case("forall, which the model does not meet", herd("all-new Required", "1:EAX=1;\n", "Ok", "all-new Always 1 0"), 0,
         lines("all-new: 1:EAX", "1 both, 0 model", "forall No Ok")),
    Case("registers of X86_64", SB_HERD.replace(" SB", " wide").replace("EAX", "rax"), 0,
         lines("wide: 0:rax 1:rax", "0 0 both, 0 1 both, 1 0 both, 1 1 both", "exists Ok Ok")),
    Case("locked instructions",
         herd("locked Allowed", "0:EBX=0; 1:EBX=1;\n0:EBX=1; 1:EBX=0;\n0:EBX=1; 1:EBX=1;\n", "No", "locked Never 0 3"), 0,
         lines("locked: 0:EBX 1:EBX", "0 1 both, 1 0 both, 1 1 both", "exists No No")),
    Case("what the exchanges get",
         herd("locked Allowed", "0:EAX=0; 0:EBX=0; 1:EAX=0; 1:EBX=1;\n0:EAX=1; 0:EBX=1; 1:EAX=0; 1:EBX=1;\n", "No",
              "locked Never 0 2"), 1,
         lines("locked: 0:EAX 0:EBX 1:EAX 1:EBX", "0 0 0 1 both, 1 1 0 1 herd, 0 1 0 0 model, 0 1 0 1 model", "exists No No")),
    Case("a register that is loaded twice", herd("again Allowed", "1:EAX=0;\n1:EAX=1;\n", "Ok", "again Sometimes 1 2"), 0,
         lines("again: 1:EAX", "0 both, 1 both", "exists Ok Ok")),
    Case("a register that nothing loads",
         herd("none Forbidden", "0:EBX=0; 1:EAX=0;\n0:EBX=1; 1:EAX=1;\n", "Ok", "none Never 0 2"), 1,
         lines("none: 0:EBX 1:EAX", "0 0 both, 1 1 herd, 0 1 model", "~exists Ok Ok")),
    Case("a test that comes twice", SB_HERD + SB_HERD, 0, SB_LISTED,
         "log:15: SB comes again: its states are taken together with those of line 1\n"),
    Case("a test of both forms", SB_MACHINE + SB_HERD, 0, SB_BOTH + SB_LISTED),
    Case("a state that stands twice", changed(SB_HERD, "0:EAX=0; 1:EAX=1;\n", "0:EAX=0; 1:EAX=0;\n"), 3,
         of_sb("0 0 both, 1 0 both, 1 1 both, 0 1 model"), "log:4: the state stands here a second time\n"),
    Case("a name with a control character", "Test SB\x1b Allowed\n", 3, "",
         "log:1: no line of a log: $'Test SB\\u001b Allowed'\n" + UNUSED),
    Case("NUL bytes", "a" + "\0" * 10, 3, "", "log:1: no line of a log: $'a" + "\\u0000" * 10 + "'\n" + UNUSED),
    Case("cut off behind the first line", "Test SB Allowed", 3, "", NO_STATES + UNUSED),
    Case("cut off behind the number of states", up_to(SB_HERD, "0:EAX"), 3,
         of_sb("0 0 model, 0 1 model, 1 0 model, 1 1 model", "exists Ok No"), cut("0 are")),
    Case("cut off in a state", up_to(SB_HERD, "1:EAX=1;\n0:EAX=1"), 3, of_sb("0 0 both, 0 1 model, 1 0 model, 1 1 model"),
         "log:4: the state has other variables than the first one\n" + cut("2 are")),
    Case("cut off behind the states", up_to(SB_HERD, "Condition"), 3, SB_LISTED, NO_OBSERVATION),
    Case("cut off in the last line that counts", up_to(SB_HERD, "times 1"), 3, SB_LISTED,
         "log:11: no line of a log: Observation SB Some\n" + NO_OBSERVATION),
    Case("cut off behind what counts", up_to(SB_HERD, "Hash"), 0, SB_LISTED),
    Case("cut off between two tests", up_to(SB_HERD, "0:EAX=1; 1:EAX=0;") + R_HERD, 3,
         of_sb("0 0 both, 0 1 both, 1 0 model, 1 1 model") + R_LISTED, cut("2 are")),
    Case("one state more than is announced", changed(SB_HERD, "States 4", "States 3"), 3, SB_LISTED,
         "log:6: 3 states are announced, and here is one more\n"),
    Case("a line that no log has", changed(SB_HERD, "0:EAX=1; 1:EAX=0;\n", "0:EAX=1; 1:EAX\n"), 3,
         of_sb("0 0 both, 0 1 both, 1 1 both, 1 0 model"), "log:5: no line of a log: 0:EAX=1; 1:EAX\n" + cut("3 are")),
    Case("a count in a list", changed(SB_HERD, "0:EAX=1; 1:EAX=1;", "3 :>0:EAX=1; 1:EAX=1;"), 3,
         of_sb("0 0 both, 0 1 both, 1 0 both, 1 1 model"), "log:6: no line of a log: 3 :>0:EAX=1; 1:EAX=1;\n" + cut("3 are")),
    Case("two numbers of states", changed(SB_HERD, "States 4\n", "States 4\nStates 4\n"), 3, SB_LISTED,
         "log:3: no line of a log: States 4\n"),
    Case("two numbers of states, and one state more",
         changed(changed(SB_HERD, "States 4", "States 3"), "0:EAX=1; 1:EAX=1;", "States 3\n0:EAX=1; 1:EAX=1;"), 3, SB_LISTED,
         "log:6: no line of a log: States 3\nlog:7: 3 states are announced, and here is one more\n"),
    Case("a variable that stands twice", herd("none Forbidden", "1:EAX=0; 1:EAX=0;\n", "Ok", "none Never 0 1"), 3,
         lines("none: 1:EAX", "0 model, 1 model", "~exists Ok Ok"), "log:3: a state has a variable twice\n"),
    Case("another test is observed", changed(SB_HERD, "Observation SB", "Observation R"), 3, SB_LISTED,
         "log:11: this is of R, and the test is SB\n"),
    Case("a thread that the listing has not", herd("SB Allowed", "0:EAX=0; 1:EAX=0; 2:EAX=0;\n", "Ok", "SB Always 1 0"), 3, "",
         "compare: not compared: SB: the listing has no thread 2\n", of=1),
    Case("a test without a listing", SB_HERD, 3, "",
         "log:1: not compared: no listing that is read has the name SB\n" + UNUSED.replace("SB", "R"), tests=("R",), of=1),
]


def log_of_tso(path: str) -> str:
    """What herd would write of a shipped listing, whose states have all registers and locations, as the machine of x86-TSO
    finds them."""
    text = read(path)
    ops = read_file_case(path, text.encode()).op_items
    loads = [f"{it.op.core}:{load[1]}" for it in ops if (load := re.compile(r"MOV *(\w+)").match(text, it.at))]
    names = {address_of(it.op.pa): it.op.pa for it in ops if it.op.pa is not None}
    states = set()
    for reads, memory in tso.outcomes(read_file(path)):
        parts = [f"{load}={value};" for load, value in zip(loads, reads)]
        states.add(" ".join([*parts, *(f"[{names[address]}]={value};" for address, value in memory)]))
    title = os.path.basename(path).removesuffix(".litmus")
    lines = "".join(f"{state}\n" for state in sorted(states))
    return f"Test {title} Allowed\nStates {len(states)}\n{lines}Witnesses\nObservation {title} Sometimes 1 1\n\n"


class Compared(Cases):
    """In a folder with the listings, whose logs are named as in it."""

    @classmethod
    def setUpClass(cls) -> None:
        super().setUpClass()
        # each model is read once
        cls.replace(compare, "read_model", READ)

    def setUp(self) -> None:
        super().setUp()
        self.addCleanup(os.chdir, os.getcwd())
        os.chdir(self.work)
        # of a program that this names nothing is said
        os.environ["PIPECHECK"] = program()
        self.addCleanup(os.environ.pop, "PIPECHECK")
        for name, text in LISTINGS.items():
            write(f"{name}.litmus", text)


class Logs(Compared):
    """What is said of a log."""

    def test_tables(self) -> None:
        for kind, table in (("machines", MACHINES), ("herd", HERD)):
            for it in table:
                name = f"compare: logs of {kind}: {it.name}"
                if not self.is_wanted(name):
                    continue
                write("log", it.log)
                with self.case(name), redirect_stderr(io.StringIO()) as told:
                    tests = it.tests or dict.fromkeys(re.findall("(?m)^(.*?): ", it.lines)) or ("SB",)
                    found, status = compare.compare(it.model, [f"{test}.litmus" for test in tests], "log")
                    said = "".join(f"{line}\n" for line in found), told.getvalue(), status
                    self.assertEqual(said, (counted(it.lines, it.of), it.told, it.status))

    def test_machine(self) -> None:
        paths = sorted(glob(f"{TOP}/examples/x86/*.litmus"))
        write("log", "".join(map(log_of_tso, paths)))
        for model in ("tso-buffer", "tso-ooo"):
            with self.case(f"compare: the states of {len(paths)} shipped listings are those of {model}.uspec"):
                found, status = compare.compare(f"{TOP}/examples/models/{model}.uspec", paths, "log")
                self.assertEqual(status, 0)
                self.assertRegex(found[-1], f"^{len(paths)} of {len(paths)} .* 0 in the log alone, 0 in the model alone$")


class Words(Compared):
    """What the script does with words, files and programs."""

    def setUp(self) -> None:
        super().setUp()
        write("log", SB_HERD)

    def stub(self, name: str, does: str) -> str:
        """A program that answers a call without words as pipecheck does, and a sweep so."""
        return command(f"{self.work}/{name}", f"[ $# -gt 0 ] || exit 2\n{does}\n")

    def by_script(self, name: str, words: list[str], status: int, out: str, err: str, **how: Any) -> None:
        """The word of the script ends so."""
        self.gives(f"compare: {name}", [pipecheck(), "compare", *words], status, out, err, cwd=self.work, **how)

    def by_python(self, name: str, words: list[str], status: int, out: str, err: str, checker: str | None = None) -> None:
        """What the script calls ends so, by this program."""
        env = {"PIPECHECK": checker} if checker else {}
        done = call(tool_entry("listings.compare"), ["compare", *words], cwd=self.work, env=env)
        self.judge(f"compare: {name}", done, status, out, err)

    def test_script(self) -> None:
        write("bad.uspec", 'StageName 0 "S".\nAxiom "x": IsAnyRead i 7.\n')
        write("log 2", SB_MACHINE)
        write("-m", read(BUFFERS))
        self.by_script("no log", [BUFFERS, "SB.litmus"], 2, USAGE, meant("compare"))
        self.by_script("names with a dash or a blank", ["-m", "SB.litmus", "log 2"], 0, counted(SB_BOTH), "")
        self.by_script("a file that is not there", [BUFFERS, "gone.litmus", "log"], 4, "", missing("gone.litmus"))
        self.by_script("a refused model", ["bad.uspec", "SB.litmus", "log"], 3, "", "bad.uspec:2:12: arity: the model is refused\n")

    def test_python(self) -> None:
        write("bad.litmus", LISTINGS["SB"].replace("MOV EAX,[y]", "ADD EAX,$1"))
        write("other.litmus", LISTINGS["SB"])
        none = counted(of=1)
        refused = "bad.litmus:5:2: syntax: the listing is refused; pipecheck test86 says what to do\n"
        self.by_python("a refused listing", [BUFFERS, "bad.litmus", "log"], 3, none,
                       f"{refused}log:1: not compared: no listing that is read has the name SB\n")
        write("bad.uspec", 'StageName 0 "S".\nAxiom "x": IsAnyRead i 7.\n')
        write("many", "x\n" * 22)
        told = "".join(f"many:{line}: no line of a log: x\n" for line in range(1, 21))
        self.by_python("a refused model, and more faults of the log than are told", ["bad.uspec", "SB.litmus", "many"], 3, "",
                       f"bad.uspec:2:12: arity: the model is refused\n{told}compare: faults of the log: 2 more\n")
        self.by_python("two listings of one name", [BUFFERS, "SB.litmus", "other.litmus", "log"], 3, counted(SB_LISTED),
                       "compare: other.litmus has the name of SB.litmus: SB\n")
        for name, status, said, checker in (
            ("a program that is refused memory", 7, "a sweep of it has no answer, and the status 7", self.stub("seven", "exit 7")),
            ("a program that gives no rows", 125, "a sweep of it has no answer, and the status 0", self.stub("none", "echo sweep")),
        ):
            self.by_python(name, [BUFFERS, "SB.litmus", "log"], status, none, f"compare: not compared: SB: {said}\n", checker)
        self.by_python("a program that is none", [BUFFERS, "SB.litmus", "log"], 125, "", "compare: no checker: /bin/true\n",
                       "/bin/true")

    def test_outputs(self) -> None:
        for name, kind, said in (("a full device", "full", UNWRITTEN), ("a pipe whose reader has enough", "unread", "")):
            with without_output(kind) as how:
                self.by_script(name, [BUFFERS, "SB.litmus", "log"], 5, "", said, **how)

    def test_no_room(self) -> None:
        limited = ["/bin/sh", "-c", 'ulimit -f 0; exec "$@"', "limited", *COMPARE, BUFFERS, "SB.litmus", "log"]
        done = run(limited, cwd=self.work)
        with self.case("compare: no room for what is asked"):
            self.assertEqual((done.status, done.out), (125, ""))
            self.assertRegex(done.err, "^compare: No usable temporary directory found")

    def test_signal(self) -> None:
        os.mkdir("temporary")
        sleeper = self.stub("sleeper", 'echo $$ >"$0.pid"; exec sleep 600')
        env = {"PIPECHECK": sleeper, "TMPDIR": f"{self.work}/temporary"}
        done = Beside([pipecheck(), "compare", BUFFERS, "SB.litmus", "log"], f"{sleeper}.pid", env).ended_by("TERM")
        is_there = os.path.exists(f"/proc/{read(f'{sleeper}.pid').strip()}")
        self.same("compare: a signal ends all of it", (done.status, is_there, os.listdir("temporary")), (143, False, []))
