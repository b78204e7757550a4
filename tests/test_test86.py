"""`pipecheck test86` writes the test that a listing of herd's for X86 says.

    COUNT=2000 tests/program test86     so many random listings; 200 where no number is given

Of each shipped listing and of each random one the second implementation reads the same case from the text as from the listing,
and the program writes the same bytes for `check` of the text as for `check86` of the listing. Of each spoilt listing the word of
the fault and its place are those that `check86` writes. Then come texts that are typed from docs/tests.md.
"""
from __future__ import annotations

import os
import sys
from dataclasses import dataclass
from glob import glob
from random import Random

from tests.cases import TOP, Cases, call, pipecheck, program, run, tool_entry, without_proofs, write
from tests.random_texts import changed_listing

from tools.listings.reading import Notes
from tools.listings.test86 import test_of, test_of_herd
from tools.second.cases import read_case
from tools.second.listings import read_listing
from tools.second.tokens import Fault
from tools.telling.refusals import expected, left_out
from tools.telling.refusals import refusal_of as read_refusal
from tools.texts.contents import contents
from tools.texts.quoting import line_and_column
from tools.texts.writing_tests import test_of_listing

# what the script calls, in a process that is forked from this one
TEST86 = tool_entry("listings.test86")
# one that asks for values and program order, and one that asks for fences, too
MODELS = [f"{TOP}/examples/store-buffer.uspec", f"{TOP}/examples/models/tso-buffer.uspec"]
LOCATIONS = ["x", "y", "z", "flag", "MOV", "exists", "x_1"]
REGISTERS = ["EAX", "EBX", "RAX", "MFENCE", "r9"]
NUMBERS = ["0", "1", "2", "007", "18446744073709551615"]
HEADERS = ['"PodWR Fre"', "Com=Fr Fr", 'Info="a b"', "", "Lint allows: = not here"]
COMMENTS = ["(* a\n second line *)", "(**)", "(* Lint allows: unwritten *)", '(* "quoted" \xff % *)', ""]

sys.setrecursionlimit(20_000)

TYPED = [
    ("every part of a listing", b"""X86 all
"PodWR Fre"
Com=Fr Fr
{ (* Lint allows: unwritten *)
 flag=7; [y]=3; }
 P0            | P1             ;
 MOV [data],$1 | MFENCE         ;
               | MOV EAX,[flag] ;
 MFENCE        | MOV EBX,[data] ;
~exists (1:EAX=7 /\\ 1:EBX=0 /\\ [data]=1 /\\ y=3)
""", """Litmus "all".
% "PodWR Fre"
% Com=Fr Fr
% Lint allows: unwritten
Init (PA 0 0) 7.                                    % flag = 7
Init (PA 1 0) 3.                                    % y = 3
Microop 0 0 0 0 (Write (VA 2 0) (PA 2 0) (Data 1)). % P0: MOV [data],$1
Microop 1 0 0 0 (Fence MFENCE).                     % P0: MFENCE
Microop 2 1 1 0 (Fence MFENCE).                     % P1: MFENCE
Microop 3 1 1 0 (Read (VA 0 0) (PA 0 0) (Data 7)).  % P1: MOV EAX,[flag], and EAX = 7
Microop 4 1 1 0 (Read (VA 2 0) (PA 2 0) (Data 0)).  % P1: MOV EBX,[data], and EBX = 0
Final (PA 2 0) 1.                                   % data = 1
Final (PA 1 0) 3.                                   % y = 3
Forbidden.
"""),
    ("a name that is no text of a test", b'X86 a"\xc3\xa9\n{ }\n P0 ;\n MFENCE ;\nexists x=0\n', """Litmus "a'??".
Microop 0 0 0 0 (Fence MFENCE). % P0: MFENCE
Final (PA 0 0) 0.               % x = 0
"""),
]

# what is refused, the line of the refusal
REFUSED = [
    ("a register without a value", b"X86 SB\n{ }\n P0          ;\n MOV [x],$1  ;\n MOV EAX,[y] ;\nexists\n(x=1)\n",
     "refused test x86-open at 5:6\n"),
    ("another architecture", b"AArch64 SB\n{ }\n P0 ;\n DMB SY ;\nexists (x=1)\n", "refused test syntax at 1:1\n"),
]

# what is read of a listing beyond `check86`: the test, and what is said of it, without the path
BEYOND = [
    ("what a listing for X86_64 may have", b"""X86_64 SB+xchg
"PodWR Fre"
(* a comment
   of two lines *)
{ int x=0; uint64_t y; [z]=3;
 1:rbx=5; 0:rdx=7; }
 P0            | P1                  ;
 movl $1,(x)   | movl $1,%eax        ;
 movq (y),%rax | xchgl %eax,(y)      ;
 mfence        | LOCK XCHG [z],%rbx  ;
               | mov [x],ecx         ;
locations [x; 0:eax; [y];]
~exists (0:eax=0 /\\ (1:rax=0 /\\ 1:rbx=3) /\\ x=0 /\\ 0:rdx=7)
""", """Litmus "SB+xchg".
% "PodWR Fre"
% a comment
% of two lines
Init (PA 0 0) 0.                                           % x = 0
Init (PA 1 0) 0.                                           % y = 0
Init (PA 2 0) 3.                                           % z = 3
Microop 0 0 0 0 (Write (VA 0 0) (PA 0 0) (Data 1)).        % P0: MOV [x],$1
Microop 1 0 0 0 (Read (VA 1 0) (PA 1 0) (Data 0)).         % P0: MOV RAX,[y], and RAX = 0
Microop 2 0 0 0 (Fence MFENCE).                            % P0: MFENCE
Microop 3 1 1 0 (Read Locked (VA 1 0) (PA 1 0) (Data 0)).  % P1: XCHG [y],RAX, and RAX = 0
Microop 3 1 1 1 (Write Locked (VA 1 0) (PA 1 0) (Data 1)). % P1: XCHG [y],RAX, which held 1
Microop 4 1 1 0 (Read Locked (VA 2 0) (PA 2 0) (Data 3)).  % P1: XCHG [z],RBX, and RBX = 3
Microop 4 1 1 1 (Write Locked (VA 2 0) (PA 2 0) (Data 5)). % P1: XCHG [z],RBX, which held 5
Microop 5 1 1 0 (Write (VA 0 0) (PA 0 0) (Data 0)).        % P1: MOV [x],RCX, which holds 0
Final (PA 0 0) 0.                                          % x = 0
Forbidden.
""", """1:1: X86_64 is read as X86
3:1: a comment in the header is kept as a comment
5:3: a type is left out, since all values are numbers, here and in 1 more place
5:21: a location without a value is 0 at the start
6:2: the value of a register at the start is left out, but for what is stored of it, here and in 1 more place
8:2: another spelling of MOV or MFENCE is read as these, here and in 4 more places
8:18: a number in a register is no micro-op, but for what is stored of it
9:18: XCHG is read as a locked read and a locked write of one instruction, here and in 1 more place
9:25: what is stored of a register is the number that it holds, here and in 2 more places
12:1: locations are left out, since a test states one outcome
13:52: a register that no instruction loads is left out of the condition, since it holds this value
"""),
    ("an exchange in a listing for X86",
     b"X86 l\n{ }\n P0 ;\n MOV EAX,$2 ;\n XCHG EAX,[x] ;\nexists ([x]=2 /\\ 0:EAX=0)\n", """Litmus "l".
Microop 0 0 0 0 (Read Locked (VA 0 0) (PA 0 0) (Data 0)).  % P0: XCHG [x],EAX, and EAX = 0
Microop 0 0 0 1 (Write Locked (VA 0 0) (PA 0 0) (Data 2)). % P0: XCHG [x],EAX, which held 2
Final (PA 0 0) 2.                                          % x = 2
""", """4:2: a number in a register is no micro-op, but for what is stored of it
5:2: XCHG is read as a locked read and a locked write of one instruction
5:7: what is stored of a register is the number that it holds
"""),
]

# what is refused behind a part that is read beyond `check86`: the cell, what stands below the threads, and the refusal
REFUSED_BEYOND = [
    ("MOV EAX,EBX ;", "exists x=1", "syntax at 4:10"),
    ("ADD [x],$1 ;", "exists x=1", "syntax at 4:2"),
    ("LOCK ADD [x],$1 ;", "exists x=1", "syntax at 4:2"),
    ("MOV [x],$1 ;", "filter (x=1)\nexists x=1", "syntax at 5:1"),
    ("MOV [x],$1 ;", "forall (x=1)", "syntax at 5:1"),
    ("MOV [x],$1 ;", "exists (x=1 \\/ x=2)", "syntax at 5:13"),
    ("MOV [x],$1 ;", "exists not (x=1)", "syntax at 5:8"),
    ("MOV [x],$1 ;", "exists (x=1 /\\ true)", "syntax at 5:16"),
    ("MOV [x],$1 ;", "exists (x=1", "syntax at 6:1"),
    ("MOV [x],$1 ;", "exists (x=1))", "syntax at 5:13"),
    ("MOV EAX,[x] ;", "exists x=1", "x86-open at 4:6"),
    ("MOV EAX,[x] ;", "exists (0:EAX=1 /\\ 0:EAX=1)", "x86-again at 5:20"),
    ("MOV EAX,[x] ;\n MOV EAX,[y] ;", "exists 0:EAX=1", "x86-reload at 5:6"),
    ("MOV EAX,[x] ;\n MOV [y],EAX ;", "exists 0:EAX=1", "syntax at 5:10"),
    ("MOV EAX,[x] ;\n XCHG [y],EAX ;", "exists 0:EAX=1", "syntax at 5:11"),
    ("MOV [x],$1 ;", "exists 0:EBX=1", "x86-unloaded at 5:8"),
    ("MOV [x],$1 ;", "exists 3:EBX=0", "x86-unloaded at 5:8"),
    ("MOV [x],$1 ;", "exists (x=1 /\\ [x]=1)", "again-final at 5:16"),
    ("MOV [x],$1 | ;", "exists x=1", "x86-column at 4:15"),
    ("MOV [x],$1 ;", "locations [x\nexists x=1", "syntax at 6:1"),
]

# what herd has and `check86` has not: the lines of a listing, how the sentence of docs/faults.md on it begins, and whether
# `test86` reads it; of faults that are none of these nothing is said
LEFT_OUT = [
    ("{ }", "MFENCE ;", "locations [x;]\nexists x=1", "check86 reads no locations, ", True),
    ("{ }", "MFENCE ;", "forall (x=1)", "a test states one outcome: write a listing with ~exists ", False),
    ("{ }", "MFENCE ;", "filter (x=1)\nexists x=1", "herd's filter is not read: leave the line out, ", False),
    ("{ }", "MFENCE ;", "exists (x=1 \\/ x=2)", "an outcome has no sides here: write a listing for each", False),
    ("{ }", "MFENCE ;", "exists not (x=1)", "an outcome is equations and no more: ", False),
    ("{ }", "MFENCE ;", "exists (true)", "an outcome is equations and no more: ", False),
    ("{ x=1;\n 0:EAX=1; }", "MFENCE ;", "exists x=1", "check86 reads no value of a register at the start, ", True),
    ("{ int x=1; }", "MFENCE ;", "exists x=1", "check86 reads no types, ", True),
    ("{ x; }", "MFENCE ;", "exists x=1", "check86 reads no location without a value, ", True),
    ("{ }", "XCHG [x],EAX ;", "exists (x=1 /\\ 0:EAX=0)", "check86 reads MOV of a location and MFENCE, ", True),
    ("{ }", "mov [x],$1 ;", "exists x=1", "check86 reads MOV of a location and MFENCE, ", True),
    ("{ }", "LOCK INC [x] ;", "exists x=1", "check86 reads MOV of a location and MFENCE, ", False),
    ("{ }", "incl (x) ;", "exists x=1", "check86 reads MOV of a location and MFENCE, ", False),
    ("{ }", "MOV EAX,EBX ;", "exists x=1", "check86 reads MOV of a location and MFENCE, ", False),
    ("{ x=0 y=0; }", "MFENCE ;", "exists x=1", "", False),
    ("{ }", "MFENCE", "exists x=1", "", False),
    ("{ }", "MOV ;", "exists x=1", "", False),
    ("{ }", "MOV EAX,[x] ;", "exists x=1", "", False),
    ("{ }", "MFENCE ;", "(x=1)", "", False),
]


@dataclass
class Maker:
    """Makes listings without a fault that say anything a listing may say."""

    chance: Random

    def listing(self) -> bytes:
        chance = self.chance
        columns = chance.randint(1, 4)
        loads: dict[tuple[int, str], str] = {}
        head = [f"P{column}" for column in range(columns)]
        rows = [head, *([self.cell(column, loads) for column in range(columns)] for _ in range(chance.randint(0, 5)))]
        lines = [f"X86  {chance.choice(('SB', 'a+b', '4.x'))} ", *chance.sample(HEADERS, chance.randint(0, 3))]
        lines += [chance.choice(("{", " {", "{\r")) + self.blank() + self.inits(), "}" + self.blank()]
        lines += [" " + (self.blank() + "|").join(row) + self.blank() + ";" for row in rows]
        equations = [f"{column}:{register}={value}" for (column, register), value in loads.items()]
        equations += [self.equation(name) for name in chance.sample(LOCATIONS, chance.randint(0 if equations else 1, 2))]
        chance.shuffle(equations)
        condition = " /\\ ".join(equations)
        lines += [chance.choice(("exists", "~exists", "~ exists")), chance.choice((condition, f"({condition} )")), ""]
        return "\n".join(lines).encode("latin-1")

    def blank(self) -> str:
        """What may stand between two tokens."""
        return self.chance.choice((" ", "\t", "\r\n", "  ", self.chance.choice(COMMENTS)))

    def cell(self, column: int, loads: dict[tuple[int, str], str]) -> str:
        """An instruction or none; a register is loaded once by its thread."""
        kind = self.chance.choice("WWRRRF ")
        register = self.chance.choice(REGISTERS)
        if kind == "F":
            return self.blank() + "MFENCE"
        if kind == "W":
            return f"{self.blank()}MOV [{self.chance.choice(LOCATIONS)}],${self.chance.choice(NUMBERS)}"
        if kind == "R" and (column, register) not in loads:
            loads[column, register] = self.chance.choice(NUMBERS)
            return f" MOV {register}, [{self.chance.choice(LOCATIONS)}]{self.blank()}"
        return self.blank()

    def equation(self, name: str) -> str:
        return f"{self.chance.choice((name, f'[{name}]'))} = {self.chance.choice(NUMBERS)}"

    def inits(self) -> str:
        names = self.chance.sample(LOCATIONS, self.chance.randint(0, 4))
        return ";".join(map(self.equation, names)) + (";" if names and self.chance.random() < 0.5 else "")


def line_of(fault: Fault, listing: bytes) -> str:
    return f"refused test {fault.word} at {line_and_column(listing, fault.place)}\n"


def refusal_of(listing: bytes) -> str:
    """The refusal of a listing; nothing where it is read."""
    try:
        test_of(listing, Notes())
    except Fault as fault:
        return line_of(fault, listing)
    return ""


def shown(*parts: str) -> str:
    """Parts of a listing as they stand in the name of a case."""
    return ", ".join(parts).replace("\n", " ")


class Answers(Cases):
    """The program and the second implementation say of a listing what they say of the test."""

    def wrong(self, listing: bytes, models: list[str]) -> str:
        """What is wrong with the test that is written of a listing; nothing where nothing is."""
        paths = [f"{self.work}/listing.litmus", f"{self.work}/written.test"]
        write(paths[0], listing)
        try:
            text = test_of_listing(listing)
        except Fault as fault:
            done = run([program(), "check86", MODELS[0], paths[0]])
            return "" if (done.status, done.out) == (3, line_of(fault, listing)) else f"check86 says {done.out}"
        write(paths[1], text)
        if read_case(text.encode("ascii")) != read_listing(listing):
            return "says another case"
        for it in models:
            if run([program(), "check", it, paths[1]]) != run([program(), "check86", it, paths[0]]):
                return f"is answered otherwise on {it}"
        return ""

    def test_listings(self) -> None:
        maker = Maker(Random(86))
        made = [maker.listing() for _ in range(int(os.environ.get("COUNT", "200")))]
        shipped = [*map(contents, sorted(glob(f"{TOP}/examples/x86/*.litmus")))]
        for name, listings in (
            ("shipped listings", shipped), ("random listings", made),
            ("spoilt listings", [changed_listing(maker.chance, it) for it in made]),
        ):
            with self.case(f"test86: {len(listings)} {name}"):
                # random ones are asked on one model, and the next ones on the other
                faults = [(it, self.wrong(it, MODELS if listings is shipped else [MODELS[k % 2]])) for k, it in enumerate(listings)]
                self.assertEqual([it for it in faults if it[1]], [])
        with self.case(f"test86: {len(made)} listings read beyond check86 as by it"):
            for listing in made:
                notes = Notes()
                found = read_case(test_of_herd(listing, notes).encode("ascii"))
                self.assertEqual((found, notes.places), (read_listing(listing), {}), listing)


class Typed(Cases):
    """Texts that are typed from docs/tests.md."""

    def put(self, listing: bytes) -> str:
        return write(f"{self.work}/listing.litmus", listing)

    def test_texts(self) -> None:
        for name, listing, text, said in [*((*it, "") for it in TYPED), *BEYOND]:
            path = self.put(listing)
            lines = "".join(f"{path}:{it}" for it in said.splitlines(True))
            self.judge(f"test86: {name}", call(TEST86, ["test86", path]), 0, text, lines)
        self.gives("test86: by the script", [pipecheck(), "test86", path], 0, text, lines)

    def test_refusals(self) -> None:
        for cell, below, wanted in REFUSED_BEYOND:
            with self.case(f"test86: beyond check86 is refused {shown(cell, below)}"):
                text = f"X86 l\n{{ int z=0; }}\n P0 ;\n {cell}\n{below}\n"
                self.assertEqual(refusal_of(text.encode("ascii")), f"refused test {wanted}\n")
        many = b"".join(b"v%d=1;" % number for number in range(110_000))
        large = b"X86 m\n{ " + many + b" }\n P0 ;\n MFENCE ;\nexists x=1\n"
        for name, listing, line in [*REFUSED, ("a test that would be too large", large, "refused test too-large at 1:1\n")]:
            path = self.put(listing)
            done = call(TEST86, ["test86", path])
            with self.case(f"test86: {name} is refused"):
                self.assertEqual((done.status, done.out), (3, line))
                _, _, fault, _, place = line.split()
                self.assertEqual(done.err[: len(f"{path}:{place}: {fault}: ")], f"{path}:{place}: {fault}: ")

    def test_left_out(self) -> None:
        for first, cell, below, sentence, is_read in LEFT_OUT:
            listing = f"X86 l\n{first}\n P0 ;\n {cell}\n{below}\n".encode("ascii")
            path = self.put(listing)
            refusals = {"check86": run([program(), "check86", MODELS[0], path]).out, "test86": refusal_of(listing)}
            with self.case(f"test86: {'reads' if is_read else 'refuses'} {shown(first, cell, below)}"):
                self.assertEqual(refusals["test86"] == "", is_read)
            for word, refusal in refusals.items():
                if refusal:
                    with self.case(f"test86: what to do about {shown(first, cell, below)}, by {word}"):
                        said = "".join(left_out(TOP, listing, read_refusal(refusal)))
                        self.assertEqual(said[: len("pipecheck: " + sentence)], sentence and f"pipecheck: {sentence}")

    def test_header(self) -> None:
        for above, said in (
            ("X86\n{ }", "`X86` with a name behind it is expected"),
            ("X86 l\nPodWR Fre\n{ }", 'a line with `"` in its first byte, one with `=` or `{` is expected'),
            ("X86 l\n", "a line that begins with `{` is expected"),
        ):
            listing = f"{above}\n{' P0 ;' if '{' in above else ''}".encode("ascii")
            refused = run([program(), "check86", MODELS[0], self.put(listing)]).out
            self.same(f"test86: what is expected in the header {shown(above)}",
                      [*expected("listing", listing, read_refusal(refused))], [f"pipecheck: {said}"])

    def test_the_script(self) -> None:
        sides = "X86 l\n{ }\n P0 ;\n MFENCE ;\nforall (x=1)\n"
        one = "a test states one outcome: write a listing with ~exists "
        for name, words, listing, refusal, sentence in (
            ("forall, by check86", ["check86", MODELS[0]], sides, "syntax at 5:1", one),
            ("forall, by test86", ["test86"], sides, "syntax at 5:1", one),
            ("a fault of its own", ["test86"], "X86 l\n{ }\n P0 ;\n MOV ;\nexists x=1\n", "syntax at 4:6", None),
            ("another architecture", ["test86"], "AArch64 l\n{ }\n P0 ;\n DMB SY ;\nexists x=1\n", "syntax at 1:1",
             "check86 reads listings for X86, "),
        ):
            path = self.put(listing.encode("ascii"))
            done = run([pipecheck(), *words, path])
            with self.case(f"test86: what the script says of {name}"):
                self.assertEqual((done.status, done.out), (3, f"refused test {refusal}\n"))
                fault, _, place = refusal.split()
                self.assertIn(f"{path}:{place}: {fault}: ", done.err)
                self.assertEqual(f"\npipecheck: {sentence}" in done.err, sentence is not None)
                # beside what could stand at a fault of syntax
                said = [it for it in without_proofs(done).err.splitlines() if it.startswith("pipecheck: ")]
                self.assertLessEqual(sum(not it.endswith(" is expected") for it in said), int(sentence is not None))
        words = ["bash", "-c", '"$@" < <(cat "$0")', path, pipecheck(), "test86", "/dev/stdin"]
        self.gives("test86: of a listing that can be read once the refusal alone is said", words, 3, f"refused test {refusal}\n")
