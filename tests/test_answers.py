"""The program that stands, proved or not, on real files, for what no proof sees: the system's files, standard output, the words and
the exit status; and the script `pipecheck`, for what it says on standard error."""
from __future__ import annotations

import os
import resource
from itertools import product

from tests.cases import (
    NO_MODEL, NO_TEST, UNWRITTEN, USAGE, Cases, Done, checkout_script, command_forms, meant, missing, pipecheck, program, read,
    run, told, tool, unread, within, write
)

PO, REVERSE = "examples/po.uspec", "examples/po-and-reverse.uspec"
IN_ORDER, BUFFER = "examples/in-order.uspec", "examples/store-buffer.uspec"
TWO, FORBIDDEN = "examples/two.test", "examples/two-forbidden.test"
MP, SB = "examples/mp.test", "examples/sb.test"
MP_CERTIFICATE, SB_CERTIFICATE = "examples/certificates/mp.txt", "examples/certificates/sb.txt"
SPOILT = "examples/certificates/mp-spoilt.txt"
LIFTED_TWO, LIFTED_MP = "examples/lifted/two.txt", "examples/lifted/mp.txt"
MP_PATTERN = "examples/patterns/MP.pattern"

UNREAD = "pipecheck: a file could not be read\n"
LACKING = "pipecheck: a command is missing; those that there are stand above\n"
OBSERVABLE, UNOBSERVABLE = "verified observable\n", "verified unobservable\n"
PO_EDGE = "node 0.0@0:S\nnode 1.0@0:S\nedge 0.0@0:S 1.0@0:S\nend\n"
ORDERED = f"observable\ntest permitted: ok\n{PO_EDGE}"
CYCLIC = "unobservable\ntest forbidden: ok\ncycle 0.0@0:S 1.0@0:S\nend\n"
FREE = "observable\ntest unstated\nend\n"
FALSE = "unobservable\ntest unstated\nfalse\nend\n"
BUFFERED = read(SB_CERTIFICATE).partition("\ntest forbidden: BUG\n")[2]
IN_MEMORY = "cycle 0.0@0:Mem 1.0@0:Mem 2.0@1:Mem 3.0@1:Mem\nend\n"
# 64 MiB are the limit of a certificate, 1 MiB that of another file
MOST = 67_108_864
MOST_OF_A_FILE = 1_048_576
S = 'StageName 0 "S".\n'

# a refutation with a choice: each side of the Or at position 1 is denied
EITHER = read("examples/either.uspec")
HEADER = "unobservable\ntest forbidden: ok\n"
AGAIN = "split 1\npath 0.0@0:S 1.0@0:S\n"
LAST = "path 1.0@0:S 0.0@0:S 0.0@0:T\nend\n"
ABSENT = f'{S}Axiom "far": forall microops "i", NodeExists (i, (5, S)) /\\ ~NodeExists (i, (5, S)).\n'
NEVER = f'{S}Axiom "x": exists microop "i", False.\n'
# the right side of a split may use that the left one is false
STAGES = f'{S}StageName 1 "T".\nStageName 2 "U".\n'
SIGNS = STAGES + """Axiom "s": forall microops "i",
  ((NodeExists (i, S) /\\ NodeExists (i, T)) \\/ NodeExists (i, U))
  /\\ ~NodeExists (i, U) /\\ ~NodeExists (i, T).
"""
# page-table entries as addresses and values
WALK = f"""{S}Axiom "walk": forall microops "i", forall microops "j",
  EntryOf i j /\\ MapsTagOf i j => AddEdge ((i, S), (j, S), "walk").
"""


def refused(line: int) -> str:
    """What is said of a certificate that is refused at this line."""
    return f"certificate refused at line {line}\n"


def lines(*texts: str) -> str:
    """These lines."""
    return "".join(f"{it}\n" for it in texts)


def op(number: int, kind: str, address: int, value: object, core: int = 0, within_it: int = 0) -> str:
    """The line of a micro-op on the page of this tag."""
    return f"Microop {number} {core} {core} {within_it} ({kind} (VA {address} 0) (PA {address} 0) (Data {value}))."


def writes(count: int, value: int) -> str:
    """A test of so many writes on one core, all of this value."""
    return lines('Litmus "w".', *(op(number, "Write", 0, value) for number in range(count)))


ONE = lines('Litmus "o".', op(0, "Write", 0, 1))
LISTING = read("examples/x86/SB.litmus")


def macros(count: int, body: str, before: str = "") -> str:
    """Macro m0 is True, each next one has this body with the name of the one before it in place of @, and an axiom expands the
    last."""
    defined = [f'DefineMacro "m{it}": {body.replace("@", f"m{it - 1}")}.' for it in range(1, count + 1)]
    return lines(f'{before}DefineMacro "m0": True.', *defined, f'Axiom "x": ExpandMacro m{count}.')


class Answers(Cases):
    """What cases of answers share."""

    def file(self, name: str, text: str | bytes) -> str:
        """Writes a file of this case. Returns its path."""
        return write(f"{self.work}/{name}", text)

    def judged(self, name: str, status: int, out: str, model: str, test: str, text: str | bytes, word: str = "verify") -> None:
        """The program says this of a certificate of this text."""
        self.shows(name, status, out, word, model, test, self.file("certificate", text))

    def tells(self, name: str, what: str, path: str, place: str, said: str, *words: str, due: str = "") -> None:
        """This file is refused, and the script tells it."""
        self.says(name, 3, f"refused {what} {said.partition(':')[0]} at {place}\n", told(path, place, said, due), *words)

    def breaks_off(self, name: str, word: str, model: str, test: str, text: str) -> None:
        """Each first part of the text, by its length, is refused at the line that it breaks off in."""
        if self.is_wanted(name):
            accepted = []
            for length in range(len(text)):
                done = run([program(), word, model, test, self.file("certificate", text[:length])])
                if (done.status, done.out, done.err) != (6, refused(text[:length].count("\n") + 1), ""):
                    accepted.append(length)
            self.same(name, accepted, [])


class Words(Answers):
    """Words that are no command, the forms of those that are, files that cannot be read, and verdicts of small models."""

    def test_words_that_are_no_command(self) -> None:
        for name, words in (
            ("no words", ()),
            ("one word too few", ("check", PO)),
            ("one word too many", ("check", PO, TWO, TWO)),
            ("an empty word", ("",)),
            ("a verify of too few words", ("verify", PO, TWO)),
            ("check3 is no command", ("check3", PO, TWO)),
            ("verify-lifted of too many words", ("verify-lifted", REVERSE, FORBIDDEN, LIFTED_TWO, "x")),
            ("lift of too many words", ("lift", REVERSE, FORBIDDEN, LIFTED_TWO, "x")),
            ("a sweep of too few words", ("sweep", PO)),
            ("a sweep of too many words", ("sweep", PO, TWO, TWO)),
            ("a ring of one core", ("gen", "1")),
            *((f"{word} of too few words", (word, PO)) for word in ("check2", "core", "check86")),
            *((f"{word} of too many words", (word, PO, TWO, TWO)) for word in ("check2", "core", "check86")),
            *((f"{word} of too few words", (word, PO, TWO)) for word in ("ask", "verify86")),
            *((f"{word} of too many words", (word, PO, TWO, TWO, TWO)) for word in ("ask", "verify86")),
            *((f"{word} of too few words", (word, REVERSE, FORBIDDEN)) for word in ("verify-lifted", "lift")),
        ):
            self.shows(name, 2, USAGE, *words)

    def test_forms(self) -> None:
        forms = command_forms()
        self.says("no words: the forms of the commands", 2, USAGE, forms + LACKING)
        self.says("--help: the forms of the commands on standard output", 0, forms, "", "--help")
        self.says("help: the forms of the commands on standard output", 0, forms, "", "help")
        self.says("a command of the script with too few words", 2, USAGE, meant("explain"), "explain", PO)
        self.holds("the forms have lines of at most 80 columns", max(map(len, forms.splitlines())) <= 80)
        self.says("help with a word that is no command: the forms of all", 2, USAGE,
                  f"{forms}pipecheck: there is no command chekc; those that there are stand above\n", "help", "chekc")
        self.says("words that are no command: the forms of the one that was meant", 2, USAGE, meant("check"), "check", PO)

    def test_files_that_cannot_be_read(self) -> None:
        none, folder, both, blank = f"{self.work}/none", self.work, (REVERSE, FORBIDDEN), "pipecheck: two\\ words is not there\n"
        for name, words in (
            ("a missing model", ("check", none, TWO)),
            ("a missing test", ("check", PO, none)),
            ("a directory as model", ("check", folder, TWO)),
            ("a directory as test", ("check", PO, folder)),
            ("a missing certificate", ("verify", PO, TWO, none)),
            ("a directory as certificate", ("verify", PO, TWO, folder)),
            ("verify-lifted: a missing certificate", ("verify-lifted", *both, none)),
            ("verify-lifted: a directory as certificate", ("verify-lifted", *both, folder)),
            ("lift: a missing certificate", ("lift", *both, none)),
            ("check86: a missing listing", ("check86", PO, none)),
            ("check86: a directory as listing", ("check86", PO, folder)),
            ("verify86: a missing certificate", ("verify86", PO, "examples/x86/SB.litmus", none)),
            ("a sweep of a file that is missing", ("sweep", PO, none)),
            # a name of 300 bytes is longer than the system allows
            ("a name that the system refuses", ("check", "n" * 300, TWO)),
        ):
            self.shows(name, 4, "", *words)
        link, loop = f"{self.work}/link", f"{self.work}/loop"
        os.symlink(none, link)
        os.symlink("loop", loop)
        for name, said, words in (
            ("which file is missing", missing(none), ("check", PO, none)),
            ("that both files are missing", missing(none) + blank, ("check", none, "two words")),
            ("that the certificate is missing", missing(none), ("verify", PO, TWO, none)),
            ("which file is a directory", f"{UNREAD}pipecheck: {folder} is a directory\n", ("check", folder, TWO)),
            ("which file is a link to none", f"{UNREAD}pipecheck: {link} is a link to what is not there\n", ("check", link, TWO)),
            ("which file is a loop of links", f"{UNREAD}pipecheck: {loop} leads into a loop of links\n", ("check", loop, TWO)),
            ("verify-lifted: which file is missing", missing(none), ("verify-lifted", *both, none)),
            ("verify86: which file is missing", missing(none), ("verify86", PO, none, SB_CERTIFICATE)),
        ):
            self.says(name, 4, "", said, *words)

    def test_a_refused_file_beside_a_missing_one(self) -> None:
        none, no_item = f"{self.work}/none", self.file("no-item", ".\n")
        for name, what, words in (
            ("a refused model beside a missing certificate", "model", ("verify", no_item, TWO, none)),
            ("verify-lifted: a refused model beside a missing certificate", "model", ("verify-lifted", LIFTED_TWO, TWO, none)),
            ("verify-lifted: a refused test beside a missing certificate", "test", ("verify-lifted", PO, LIFTED_TWO, none)),
            ("lift: a refused model beside a missing certificate", "model", ("lift", LIFTED_TWO, TWO, none)),
            ("a model that no item begins", "model", ("check", no_item, TWO)),
            ("a test that no item begins", "test", ("check", PO, no_item)),
            ("a sweep on a model with a fault", "model", ("sweep", no_item, MP_PATTERN)),
            ("check86 of a test", "test", ("check86", BUFFER, SB)),
        ):
            self.shows(name, 3, f"refused {what} syntax at 1:1\n", *words)

    def test_a_word_that_is_not_utf_8(self) -> None:
        self.gives("a word that is not UTF-8", [program(), "check", b"\xff", TWO], 8)
        self.gives("that the arguments could not be had", [pipecheck(), "check", b"\xff", TWO], 8, "",
                   "pipecheck: the arguments could not be had, as where one of them is not UTF-8\n")

    def test_verdicts(self) -> None:
        either, absent = self.file("either.uspec", EITHER), self.file("absent.uspec", ABSENT)
        stricter = "unobservable\ntest permitted: stricter\n"
        by_buffer = f"{HEADER}cycle 0.0@0:Mem 1.0@0:Mem 2.0@1:Exec 3.0@1:Exec\nend\n"
        for name, status, out, model, test in (
            ("two writes in program order are seen", 0, ORDERED, PO, TWO),
            ("two writes in both orders are not", 1, CYCLIC, REVERSE, FORBIDDEN),
            ("message passing in order is not seen", 1, HEADER + IN_MEMORY, IN_ORDER, MP),
            ("message passing through store buffers in order is not seen", 1, by_buffer, BUFFER, MP),
            ("store buffering in order is not seen", 1, HEADER + IN_MEMORY, IN_ORDER, SB),
            ("store buffering through store buffers is seen", 0, f"observable\ntest forbidden: BUG\n{BUFFERED}", BUFFER, SB),
            ("a split, and a path that is denied on each side", 1, HEADER + AGAIN + LAST, either, FORBIDDEN),
            ("a node that is denied and asserted", 1, f"{stricter}absent 0.0@5:S\nend\n", absent, TWO),
            ("a model that nothing satisfies", 1, f"{stricter}false\nend\n", self.file("never.uspec", NEVER), TWO),
        ):
            self.shows(name, status, out, "check", model, test)
        self.says("nothing beside a verdict", 1, CYCLIC, "", "check", REVERSE, FORBIDDEN)
        version_2 = f"{HEADER}version 2\n"
        denied = version_2 + AGAIN + LAST
        self.shows("check2: a split, and a path that is denied on each side", 1, denied, "check2", either, FORBIDDEN)
        cycle = "cycle 0.0@0:S 1.0@0:S\nend\n"
        self.shows("check2: a refutation without a split", 1, version_2 + cycle, "check2", REVERSE, FORBIDDEN)

    def test_a_pipeline_that_keeps_program_order(self) -> None:
        """It says nothing of values."""
        two_by_two = "node 0.0@0:S\nnode 1.0@0:S\nnode 2.0@1:S\nnode 3.0@1:S\nedge 0.0@0:S 1.0@0:S\nedge 2.0@1:S 3.0@1:S\n"
        readers = "node 2.0@2:S\nnode 3.0@2:S\nnode 4.0@3:S\nnode 5.0@3:S\nedge 2.0@2:S 3.0@2:S\nedge 4.0@3:S 5.0@3:S\n"
        for test, expectation, graph in (
            ("mp", "forbidden: BUG", two_by_two),
            ("sb", "forbidden: BUG", two_by_two),
            ("lb", "permitted: ok", two_by_two),
            ("iriw", "unstated", readers),
            ("corr", "forbidden: BUG", "node 1.0@1:S\nnode 2.0@1:S\nedge 1.0@1:S 2.0@1:S\n"),
        ):
            name, out = f"{test} on a pipeline that keeps program order", f"observable\ntest {expectation}\n{graph}end\n"
            self.shows(name, 0, out, "check", PO, f"examples/{test}.test")

    def test_refutations_that_are_long_in_any_order(self) -> None:
        """A read uses its line in one of two ways. Told which by its type, in all combinations, and of one read alone not told, the
        outcome is observable. So a branch is not closed before the way of each read is split, and each combination has a leaf."""
        lines_model, fence = "examples/models/tso-lines.uspec", "Microop {0} {1} {1} 0 (Fence Full)."
        either, told = r"(ExpandMacro UsedAlive r \/ ExpandMacro UsedOnce r)", r"(AccessType {0} r => ExpandMacro Used{0} r)"
        alike = self.file("told.uspec", read(lines_model).replace(either, told.format("Alive") + r" /\ " + told.format("Once")))
        buffers = (op(0, "Write", 0, 1), fence.format(1, 0), op(2, "Read %s", 1, 0),
                   op(3, "Write", 1, 1, 1), fence.format(4, 1), op(5, "Read %s", 0, 0, 1))
        readers = (op(0, "Write", 0, 1), op(1, "Write", 1, 1, 1), op(2, "Read %s", 0, 1, 2), op(3, "Read %s", 1, 0, 2),
                   op(4, "Read %s", 1, 1, 3), op(5, "Read %s", 0, 0, 3))
        chain = (op(0, "Write", 0, 1), op(1, "Write", 1, 1), op(2, "Read %s", 1, 1, 1), op(3, "Write", 2, 2, 1),
                 op(4, "Read %s", 2, 2, 2), op(5, "Read %s", 0, 0, 2))
        for name, micro_ops in (
            ("a ring of two store buffers", buffers), ("a ring of two readers", readers), ("a chain of three cores", chain)
        ):
            test = lines('Litmus "l".', *micro_ops)
            count = test.count("%s")
            with self.case(f"{name} on tso-lines: a leaf for each combination of the ways of {count} reads"):
                found = run([program(), "check", lines_model, self.file("plain.test", test % (*[""] * count,))])
                self.assertEqual((found.status, found.out.count("\nsplit ")), (1, 2**count + count - 1))
                for place, ways in product(range(count), product(("Alive", "Once"), repeat=count - 1)):
                    told_test = self.file("told.test", test % (*ways[:place], "", *ways[place:]))
                    self.assertEqual(run([program(), "check", alike, told_test]).status, 0, (place, ways))

    def test_certificates(self) -> None:
        self.shows("its refutation is verified", 1, UNOBSERVABLE, "verify", IN_ORDER, MP, MP_CERTIFICATE)
        self.shows("a graph is verified", 0, OBSERVABLE, "verify", BUFFER, SB, SB_CERTIFICATE)
        self.shows("a refutation of another model is refused", 6, refused(3), "verify", BUFFER, MP, MP_CERTIFICATE)
        self.shows("a graph of another test is refused at its end", 6, refused(15), "verify", BUFFER, MP, SB_CERTIFICATE)
        self.says("nothing beside a refused certificate", 6, refused(3), "", "verify", IN_ORDER, MP, SPOILT)

    def test_texts_of_certificates(self) -> None:
        """Of the two writes that either order is denied of."""
        either, whole = self.file("either.uspec", EITHER), HEADER + AGAIN + LAST
        for name, line, text in (
            # after a million splits of one Or that nothing closes, `end` finds a branch open
            ("a million splits and no leaf", 1_000_003, HEADER + "split 1\n" * 1_000_000 + "end\n"),
            ("an empty certificate", 1, ""),
            ("a certificate of NUL bytes", 1, "\0" * 1_000_000),
            ("a last line without its LF", 3, f"{HEADER}end"),
            ("lines that end with CR and LF", 1, HEADER.replace("\n", "\r\n")),
        ):
            self.judged(name, 6, refused(line), either, FORBIDDEN, text)
        self.judged("a million lines, half of them leaves", 1, UNOBSERVABLE, either, FORBIDDEN, HEADER + AGAIN * 500_000 + LAST)
        long = self.file("long", "a" * MOST)
        for line, length in ((1, "a line of 64 MiB"), (0, "one byte past 64 MiB")):
            for name, *words in (
                (length, "verify", either), (f"verify-lifted: {length}", "verify-lifted", REVERSE),
                (f"lift of {length}", "lift", REVERSE),
            ):
                self.shows(name, 6, refused(line), *words, FORBIDDEN, long)
            with open(long, "a", encoding="ascii") as file:
                file.write("\n")
        self.breaks_off("each first part of a refutation is refused where it breaks off", "verify", either, FORBIDDEN, whole)
        self.judged("the whole of it", 1, UNOBSERVABLE, either, FORBIDDEN, whole)


class Lifted(Answers):
    """Lifted refutations, which speak of the axioms themselves, and what makes them of refutations of version 1."""

    def test_examples(self) -> None:
        for name, line, words in (
            ("a test that states something else", 2, (REVERSE, TWO, LIFTED_TWO)),
            ("a graph", 1, (BUFFER, SB, SB_CERTIFICATE)),
            ("a refutation of the ground tree", 3, (IN_ORDER, MP, MP_CERTIFICATE)),
        ):
            self.shows(f"verify-lifted of {name}", 6, refused(line), "verify-lifted", *words)
        self.says("nothing beside a verified one", 1, UNOBSERVABLE, "", "verify-lifted", REVERSE, FORBIDDEN, LIFTED_TWO)
        self.says("nothing beside a refused one", 6, refused(6), "", "verify-lifted", BUFFER, MP, LIFTED_MP)
        self.shows("verify of a lifted refutation", 6, refused(3), "verify", IN_ORDER, MP, LIFTED_MP)

    def test_texts(self) -> None:
        whole = read(LIFTED_TWO)
        by_line = whole.splitlines(keepends=True)
        # a fact may be split again and again: each time the left branch is closed at once
        open_branch = "".join(f"split 3\nfalse {4 + k}\n" for k in range(50_000))
        for name, at, text in (
            ("an empty text", 1, ""),
            ("NUL bytes", 1, "\0" * 1_000_000),
            ("lines that end with CR and LF", 1, whole.replace("\n", "\r\n")),
            ("a last line without its LF", 15, whole[:-1]),
            ("a step of 60,000,000 spaces", 4, "".join(by_line[:3]) + " " * 60_000_000 + "\n"),
            ("100,000 lines that leave a branch open", 100_006, "".join(by_line[:5]) + open_branch + "end\n"),
        ):
            self.judged(f"verify-lifted: {name}", 6, refused(at), REVERSE, FORBIDDEN, text, "verify-lifted")
        facts = "inst 0 0.0\n" * 50_000
        last = ("inst 1 0.0", "inst 50006 1.0", "split 50007", "false 50008", "member 50008 0", "cycle 50005 50009", "end")
        text = "".join(by_line[:7]) + facts + lines("member 4 0", *last)
        name = "verify-lifted: 50,000 facts on one branch"
        self.judged(name, 1, UNOBSERVABLE, REVERSE, FORBIDDEN, text, "verify-lifted")
        name = "verify-lifted: each first part is refused where it breaks off"
        self.breaks_off(name, "verify-lifted", REVERSE, FORBIDDEN, whole)

    def test_what_is_lifted(self) -> None:
        lifted = read(LIFTED_TWO)
        cyclic = self.file("cyclic", CYCLIC)
        self.shows("lift: a cycle of two edges", 0, lifted, "lift", REVERSE, FORBIDDEN, cyclic)
        self.says("lift: nothing beside a lifted refutation", 0, lifted, "", "lift", REVERSE, FORBIDDEN, cyclic)
        self.shows("lift of a graph", 0, OBSERVABLE, "lift", BUFFER, SB, SB_CERTIFICATE)
        self.shows("lift of a graph of another test", 6, refused(15), "lift", BUFFER, MP, SB_CERTIFICATE)
        self.shows("lift of a spoilt refutation", 6, refused(3), "lift", IN_ORDER, MP, SPOILT)
        self.shows("lift of a lifted refutation", 6, refused(3), "lift", REVERSE, FORBIDDEN, LIFTED_TWO)
        either = self.file("either.uspec", EITHER)
        two, said = self.file("two", f"{HEADER}version 2\n{AGAIN}{LAST}"), "lift takes a refutation of version 1, as check writes it"
        self.says("lift: which version it takes", 6, refused(3), f"pipecheck: {said}\n", "lift", either, FORBIDDEN, two)

    def lifts(self, name: str, model: str, test: str, text: str | None = None) -> None:
        """This refutation, or that of `check`, is lifted, and `verify-lifted` accepts what comes of it."""
        name = f"lift: {name}"
        if not self.is_wanted(name):
            return
        text = run([program(), "check", model, test]).out if text is None else text
        lifted = run([program(), "lift", model, test, self.file("certificate", text)])
        found = run([program(), "verify-lifted", model, test, self.file("lifted", lifted.out)])
        self.same(name, (lifted.status, lifted.err, found.status, found.out, found.err), (0, "", 1, UNOBSERVABLE, ""))

    def test_lifted_ones_are_accepted(self) -> None:
        either = self.file("either.uspec", EITHER)
        self.lifts("both sides of a split", either, FORBIDDEN)
        self.lifts("a choice that is split again and again", either, FORBIDDEN, HEADER + AGAIN * 2 + LAST)
        self.lifts("10,000 splits of one choice", either, FORBIDDEN, HEADER + AGAIN * 10_000 + LAST)
        self.lifts("a node that is denied and asserted", self.file("absent.uspec", ABSENT), TWO)
        self.lifts("an axiom that is false alone", self.file("never.uspec", NEVER), TWO)
        no_core = f'{S}Axiom "x": forall core "c", True.\nAxiom "y": exists core "c", forall microop "i", True.\n'
        self.lifts("quantifiers over no cores", self.file("no-core.uspec", no_core), self.file("empty.test", 'Litmus "e".\n'))
        # each side that is false in the test stands on the left and on the right, below other connectives, and in a macro
        self.lifts("sides that are false in the test", self.file("sides.uspec", lines(
            'StageName 0 "S".',
            'DefineMacro "m" "i" "j": SameMicroop i j \\/ (AddEdge ((i, S), (j, S)) \\/ IsAnyRead i).',
            'Axiom "x": forall microop "i", forall microop "j",',
            '  (IsAnyRead i \\/ ExpandMacro m i j) /\\ ~(IsAnyWrite i => IsAnyRead j).',
            'Axiom "y": exists microop "i", exists microop "j", ~SameMicroop i j /\\ ~NodesExist [(i, S); (j, S)].',
            'Axiom "z": ~(forall microop "i", ExpandMacro m i i => False) \\/ False.',
        )), TWO)

    def test_long_lists(self) -> None:
        """Of 100,000 nodes, asserted and denied."""
        one, nodes = self.file("one.test", ONE), "[(i, S)" + ";(i,S)" * 99_999 + "]"
        asserted = f'{S}Axiom "all": forall microop "i", NodesExist {nodes}.\n'
        asserted += 'Axiom "none": forall microop "i", ~NodeExists (i, S).\n'
        self.lifts("a list of 100,000 nodes", self.file("long.uspec", asserted), one)
        denied = f'{S}Axiom "all": forall microop "i", ~NodesExist {nodes}.\nAxiom "none": forall microop "i", NodeExists (i, S).\n'
        splits = "".join(f"split {k}\nabsent 0.0@0:S\n" for k in range(1, 199_999, 2))
        text = f"unobservable\ntest unstated\n{splits}absent 0.0@0:S\nend\n"
        self.lifts("a denied list of 100,000 nodes", self.file("denied.uspec", denied), one, text)


class Questions(Answers):
    """Minimal sets of axioms, formulas that are asked, and tests with page-table entries."""

    def test_core(self) -> None:
        shown = "observable\ntest forbidden: BUG\n"
        by_reverse = f"{shown}node 1.0@0:S\nnode 0.0@0:S\nedge 1.0@0:S 0.0@0:S\nend\n"
        by_order = shown + PO_EDGE
        both = f"core 2\naxiom 0\naxiom 1\nrefutation\n{CYCLIC}without 0\n{by_reverse}without 1\n{by_order}end\n"
        self.shows("core: two axioms", 0, both, "core", REVERSE, FORBIDDEN)
        # the cut models, of the second axiom and of the first
        rows = read(REVERSE).splitlines()
        reverse = self.file("reverse.uspec", lines(*rows[:3], *rows[5:]))
        self.judged("core: its first graph is of the second axiom", 0, OBSERVABLE, reverse, FORBIDDEN, by_reverse)
        self.judged("core: its second graph is of the first axiom", 0, OBSERVABLE, PO, FORBIDDEN, by_order)
        self.shows("core: none", 0, f"core none\n{ORDERED}end\n", "core", PO, TWO)
        true = self.file("true.uspec", "True.\n")
        items = "`StageName`, `Axiom` or `DefineMacro`"
        self.tells("core: a refusal is told", "model", true, "1:1", NO_MODEL, "core", true, TWO, due=items)

    def test_ask(self) -> None:
        both = 'exists microop "i", exists microop "j", ProgramOrder i j /\\ EdgeExists ((i, S), (j, S))'
        always = f"ask always\nwith\n{ORDERED}against\nunobservable\ntest permitted: stricter\npath 0.0@0:S 1.0@0:S\nend\nend\n"
        self.shows("ask: always", 0, always, "ask", PO, TWO, self.file("both.query", f"{both}\n"))
        # the certificate after `with` is one of the model with the formula as its last axiom
        asked = self.file("asked.uspec", f'{read(PO)}Axiom "asked": {both}.\n')
        self.judged("ask: its graph is of the model with the formula", 0, OBSERVABLE, asked, TWO, ORDERED)
        stage = self.file("stage.query", 'exists microop "i", NodeExists (i, T)\n')
        said = "stage-unknown: no stage has the name"
        self.tells("ask: a refusal is told", "query", stage, "1:36", said, "ask", PO, TWO, stage)

    def walk(self, word: str, entry: str) -> str:
        """A test of this format, with a read of an entry and a write to the page that it maps to."""
        read = f"Microop 0 0 0 0 (Read (VA 3 0) (Entry 3) ({entry}))."
        return self.file("walk.test", lines(f'{word} "w".', read, "Microop 0 0 0 1 (Write (VA 3 0) (PA 7 0) (Data 1))."))

    def test_entries(self) -> None:
        model = self.file("walk.uspec", WALK)
        walked = "observable\ntest unstated\nnode 0.0@0:S\nnode 0.1@0:S\nedge 0.0@0:S 0.1@0:S\nend\n"
        test = self.walk("Litmus2", "Maps 7 1 0")
        self.shows("a walk", 0, walked, "check", model, test)
        self.shows("check2: a walk", 0, walked, "check2", model, test)
        self.judged("its graph is verified", 0, OBSERVABLE, model, test, walked)
        self.shows("an entry of another page", 0, FREE, "check", model, self.walk("Litmus2", "Maps 8 1 0"))
        test = self.walk("Litmus", "Maps 7 1 0")
        self.tells("an entry in a test of format 1", "test", test, "2:33", NO_TEST, "check", model, test, due="`PA`")
        test = self.walk("Litmus2", "Maps 7 2 0")
        for name, word in (("a mark of 2", "check"), ("a mark of 2: check2 says it too", "check2")):
            self.tells(name, "test", test, "2:50", "mark-value: a mark of a page-table entry over 1", word, model, test)
        default = self.file("default.test", lines('Litmus2 "d".', "Microop 0 0 0 0 (Read (VA 5 0) (Entry 5) (Maps 5 0 0)).",
                                                  "Microop 1 0 0 0 (Read (VA 5 0) (PA 5 0) (Data 0))."))
        initial = f'{S}Axiom "a": forall microops "i", DataFromInitialStateAtPA i => NodeExists (i, S).\n'
        held = "observable\ntest unstated\nnode 0.0@0:S\nnode 1.0@0:S\nend\n"
        name = "what an entry and a page hold where no line says it"
        self.shows(name, 0, held, "check", self.file("default.uspec", initial), default)


class Listings(Answers):
    """Listings of herd's for X86; what the open reads of a pattern may get; and rings of cores."""

    def listing(self, text: str = LISTING) -> str:
        """A listing of this text."""
        return self.file("sb.litmus", text)

    def test_verdicts(self) -> None:
        seen, unseen = f"observable\ntest unstated\n{BUFFERED}", f"unobservable\ntest unstated\n{IN_MEMORY}"
        self.shows("check86: exists states nothing", 0, seen, "check86", BUFFER, self.listing())
        self.shows("check86: in order it is not seen", 1, unseen, "check86", IN_ORDER, self.listing())
        for name, status, out, model, text in (
            ("verify86: its graph is verified", 0, OBSERVABLE, BUFFER, seen),
            ("verify86: a graph of a test that states something", 6, refused(2), BUFFER, read(SB_CERTIFICATE)),
            ("verify86: a graph on another model", 6, refused(3), PO, seen),
            ("verify86: its refutation is verified", 1, UNOBSERVABLE, IN_ORDER, unseen),
        ):
            self.judged(name, status, out, model, self.listing(), text, "verify86")
        denied, forbidden = LISTING.replace("exists", "~exists"), f"observable\ntest forbidden: BUG\n{BUFFERED}"
        self.says("check86: ~exists is forbidden", 0, forbidden, "", "check86", BUFFER, self.listing(denied))
        name = "verify86: a graph of a test is one of the listing"
        self.shows(name, 0, OBSERVABLE, "verify86", BUFFER, self.listing(denied), SB_CERTIFICATE)

    def test_faults_beside_others(self) -> None:
        large, model = self.file("too-large.litmus", LISTING + " " * (MOST_OF_A_FILE + 1)), "refused model syntax at 7:1\n"
        open_one, at = self.file("open.litmus", LISTING.replace(" /\\ 1:EAX=0", "")), "refused test x86-open at 9:20\n"
        for name, out, words in (
            ("check of a listing", "refused test lexical at 3:4\n", ("check", BUFFER, self.listing())),
            ("check86: a listing past 1 MiB", "refused test too-large at 1:1\n", ("check86", PO, large)),
            ("check86: a refused model beside a refused listing", model, ("check86", SB, open_one)),
            ("verify86: a refused listing beside a missing certificate", at, ("verify86", BUFFER, open_one, f"{self.work}/none")),
        ):
            self.shows(name, 3, out, *words)
        said = "x86-open: the condition gives this register no value"
        self.tells("check86: where a listing has its fault", "test", open_one, "9:20", said, "check86", BUFFER, open_one)

    def opens(self, *ops: str) -> tuple[str, str, str]:
        """The words of a sweep of a pattern of these lines on an empty model."""
        return "sweep", self.file("empty.uspec", ""), self.file("open.pattern", lines('Litmus "p".', *ops))

    def test_rows(self) -> None:
        reads = [op(number, "Read", 0, "Any") for number in range(1, 14)]
        done = run([program(), *self.opens(op(0, "Write", 0, 1), *reads[:12])])
        text = done.out.splitlines()
        rows = text[1:4097]
        with self.case("4,096 rows"):
            self.assertEqual((done.status, done.err, len(rows)), (0, "", 4096))
            self.assertEqual([text[0], *text[4097:]], ["sweep 4096", "observable 4096", "unobservable 0", "end"])
            self.assertEqual(rows[0], "row 0 0 0 0 0 0 0 0 0 0 0 0 observable")
            self.assertEqual(rows[-1], "row 1 1 1 1 1 1 1 1 1 1 1 1 observable")
        self.same("... each once", len(set(rows)), 4096)
        self.same("... and in order", rows, sorted(rows))
        words = self.opens(op(0, "Write", 0, 1), *reads)
        said = "too-many-rows: of a pattern: with this open read there are more than 4,096 rows"
        self.tells("one open read too many", "test", words[2], "15:48", said, *words)

    def test_what_may_not_be_open(self) -> None:
        words = self.opens(op(0, "Read", 0, "Any"), op(1, "Write", 0, "Any"))
        self.tells("a write that is open", "test", words[2], "3:48", NO_TEST, *words, due="a number")
        pattern = self.file("mp.pattern", lines(*(it for it in read(MP_PATTERN).splitlines() if not it.startswith("%"))))
        for word in ("check", "check2"):
            self.shows(f"{word} takes no pattern", 3, "refused test syntax at 4:47\n", word, IN_ORDER, pattern)

    def test_rings(self) -> None:
        self.shows("a ring of 16 cores", 0, "gen 16\nunobservable\nnodes 32\nsplits 226\nleaves 227\nend\n", "gen", "16")
        self.says("nothing beside a ring", 0, "gen 2\nunobservable\nnodes 4\nsplits 2\nleaves 3\nend\n", "", "gen", "2")


class Faults(Answers):
    """Models and tests with a fault, those at a limit, and what the system refuses."""

    def test_where_a_fault_is(self) -> None:
        no_item = self.file("no-item", ".\n")
        expected = "`Litmus` or `Litmus2`"
        self.tells("where a refused test has its fault", "test", no_item, "1:1", NO_TEST, "check", PO, no_item, due=expected)
        arity = self.file("arity.uspec", f'{S}Axiom "x": forall microops "i",\n\tIsAnyRead i 7.\n')
        for name, words in (
            ("where a refused model has its fault", ("check", arity, no_item)),
            ("where a refused model has its fault, beside a certificate", ("verify", arity, TWO, MP_CERTIFICATE)),
        ):
            said = told(arity, "3:2", "arity: the predicate takes another number of arguments")
            self.says(name, 3, "refused model arity at 3:2\n", f"{said}pipecheck: it takes IsAnyRead i\n", *words)
        long = self.file("long.uspec", 'Axiom "x": ' + "True /\\ " * 40 + "?\1\n")
        self.says(
            "a part of a long line, without bytes that no screen shows", 3, "refused model lexical at 1:332\n", f"""\
{long}:1:332: lexical: neither a token nor a blank nor a comment begins here
     /\\ True /\\ True /\\ True /\\ True /\\ True /\\ True /\\ True /\\ ??
{' ' * 64}^
""", "check", long, TWO)
        old = self.file("old-ends.uspec", 'StageName 0 "S".\rAxiom "a": True.\rAxiom "b": Bad.\r\n')
        self.says("a line with carriage returns inside", 3, "refused model predicate-unknown at 1:46\n", f"""\
{old}:1:46: predicate-unknown: no predicate has the name
    StageName 0 "S".?Axiom "a": True.?Axiom "b": Bad.
{' ' * 49}^
""", "check", old, TWO)

        # of no other file does the system say that it is there and then refuse each read
        gone = "/proc/self/mem"
        self.gives("a refused file that cannot be read any more is told in one line",
                   [*tool("telling"), "refusal", "refused model syntax at 1:1", "check", gone, TWO], 0,
                   f"pipecheck: {gone}: Input/output error\n")

    def test_bytes(self) -> None:
        """Hostile ones: each byte there is, from 0xFF down to 0."""
        hostile = self.file("hostile", bytes(range(255, -1, -1)))
        large = self.file("too-large.test", " " * (MOST_OF_A_FILE + 1))
        quotes = [self.file(f"quote.{it}", f'{it} "'.ljust(MOST_OF_A_FILE, "a")) for it in ("Axiom", "Litmus")]
        for name, fault, files in (
            ("a model of bytes that mean nothing", "model lexical at 1:1", (hostile, TWO)),
            ("a test of bytes that mean nothing", "test lexical at 1:1", (PO, hostile)),
            ("a model and a test of bytes that mean nothing", "model lexical at 1:1", (hostile, hostile)),
            ("a test past 1 MiB beside a model that means nothing", "test too-large at 1:1", (hostile, large)),
            ("a quote that is still open at the end of 1 MiB of a model", "model lexical at 1:7", (quotes[0], TWO)),
            ("a quote that is still open at the end of 1 MiB of a test", "test lexical at 1:8", (PO, quotes[1])),
        ):
            self.shows(name, 3, f"refused {fault}\n", "check", *files)

    def test_models(self) -> None:
        empty, is_read = self.file("empty.test", 'Litmus "e".\n'), 'DefineMacro "m" "a": IsAnyRead a.'
        for fault, name, *rows in (
            ("macro-unknown at 1:30", "a macro that expands itself", 'DefineMacro "m": ExpandMacro m.'),
            ("parameter-again at 1:21", "a parameter twice", 'DefineMacro "m" "a" "a": True.'),
            ("macro-arguments at 2:24", "a macro without its argument", is_read, 'Axiom "x": ExpandMacro m.'),
            ("wrong-sort at 1:40", "a core where a micro-op is asked for", 'Axiom "x": forall cores "c", IsAnyRead c.'),
            ("core-number at 1:19", "core 64 in a model", 'Axiom "x": OnCore 64 i.'),
            ("predicate-unknown at 1:12", "a predicate that there is not", 'Axiom "x": Shared i.'),
            ("arity at 1:12", "a predicate without its argument", 'Axiom "x": IsAnyRead.'),
            ("stage-number at 1:11", "stage 64", 'StageName 64 "S".'),
            ("stage-again at 2:11", "a stage number twice", 'StageName 0 "S".', 'StageName 0 "T".'),
            ("depth at 1:140", "129 openers", 'Axiom "x": ' + "(" * 129 + "True."),
            ("unbound at 1:22", "a name that nothing binds", 'Axiom "x": IsAnyRead i.'),
            ("stage-unknown at 1:47", "a stage that there is not", 'Axiom "x": forall microop "i", NodeExists (i, S).'),
        ):
            self.shows(name, 3, f"refused model {fault}\n", "check", self.file("refused.uspec", lines(*rows)), empty)

    def test_tests(self) -> None:
        """After their title, on an empty model."""
        empty, first, on_another = self.file("empty.uspec", ""), "Microop 0 0 0 0 (Fence).", "Microop 0 1 0 1 (Fence)."
        at_once, of_none, late = "Microop 0 1 0 0 (Fence).", "Relationship addr 0 0 -> 1 0.", "Microop 1 0 0 0 (Fence)."
        for fault, name, *rows in (
            ("core-number at 2:11", "core 64", "Microop 0 64 0 0 (Fence)."),
            ("split-instruction at 3:11", "one instruction on two cores", first, on_another),
            ("split-instruction at 3:13", "one instruction of two threads", first, "Microop 0 0 1 1 (Fence)."),
            ("split-instruction at 3:11", "one instruction on two cores, and the same number in it", first, at_once),
            ("duplicate-op at 3:9", "a micro-op twice", first, first),
            ("op-unknown at 2:19", "a relationship without micro-ops", of_none),
            ("op-unknown at 3:26", "a relationship to a later micro-op", first, of_none, late),
            ("again-initial at 3:1", "an initial value twice", "Init (PA 0 0) 1.", "Init (PA 0 0) 1."),
            ("again-final at 3:1", "two final values at one address", "Final (PA 0 0) 1.", "Final (PA 0 0) 2."),
            ("again-expectation at 3:1", "permitted and forbidden", "Permitted.", "Forbidden."),
            ("syntax at 2:24", "a fence with an address", "Microop 0 0 0 0 (Fence (VA 0 0))."),
            ("syntax at 5:1", "permitted and forbidden in a text that breaks off", "Permitted.", "Forbidden.", "Permitted"),
            ("lexical at 3:11", "a byte that begins nothing, after a fault of syntax", "Permitted Permitted.", "Forbidden !"),
            ("core-number at 3:11", "the first of two items with a fault", first, "Microop 1 64 0 0 (Fence).", on_another),
        ):
            test = self.file("refused.test", lines('Litmus "d".', *rows))
            self.shows(name, 3, f"refused test {fault}\n", "check", empty, test)

    def on(self, name: str, status: int, out: str, model: str, test: str = 'Litmus "e".\n') -> None:
        """The answer of check, of a model and a test of these texts."""
        self.shows(name, status, out, "check", self.file("model.uspec", model), self.file("its.test", test))

    def test_numbers(self) -> None:
        for name, status, out, test in (
            ("64 micro-ops", 0, FREE, writes(64, 1)),
            ("65 micro-ops", 3, "refused test too-many-ops at 66:1\n", writes(65, 1)),
            ("the greatest number", 0, FREE, writes(1, 18446744073709551615)),
            ("one past the greatest number", 3, "refused test lexical at 2:48\n", writes(1, 18446744073709551616)),
        ):
            self.on(name, status, out, "", test)

    def test_macros(self) -> None:
        denial, doubled = "~ExpandMacro @", "ExpandMacro @ /\\ ExpandMacro @"
        # the truth of 255 denials of True is False
        self.on("macros of height 509", 0, FREE, macros(254, denial))
        self.on("macros of height 511", 1, FALSE, macros(255, denial))
        self.on("macros of height 513", 3, "refused model too-deep at 258:1\n", macros(256, denial))
        self.on("macros of size 524,286", 0, FREE, macros(17, doubled))
        self.on("macros of size 1,048,574", 3, "refused model too-big at 20:1\n", macros(18, doubled))
        # A macro with a name of 33 bytes, so that each name of the model gets a number, and an axiom that it is False. With 198
        # macros after it and m0, each the denial of the one before it, the last of 200 names stands for True; of 201 for False.
        long = "a_macro_with_a_name_of_33_letters"
        before = f'DefineMacro "{long}": False. Axiom "y": ~ExpandMacro {long}.\n'
        self.on("the last of 200 names beside a long one", 0, FREE, macros(198, denial, before))
        self.on("the last of 201 names beside a long one", 1, FALSE, macros(199, denial, before))

    def test_sizes(self) -> None:
        edges = '((i, S), (i, T), "");' * 40_000
        self.on("a list of 40,000 edges", 0, "observable\ntest unstated\nnode 0.0@0:S\nnode 0.0@0:T\nedge 0.0@0:S 0.0@0:T\nend\n",
                f'{S}StageName 1 "T".\nAxiom "x": forall microops "i", AddEdges [{edges}].\n', ONE)
        # each axiom has the size 1,000, and there are as many as the limit allows; so the tree has 997,000 literals
        million = f'{S}DefineMacro "k" "i": NodesExist [(i, S){"; (i, S)" * 996}].\n'
        million += 'Axiom "a": forall microops "i", ExpandMacro k i.\n' * 1000
        self.on("997,000 literals", 0, "observable\ntest unstated\nnode 0.0@0:S\nend\n", million, ONE)
        self.on("one axiom past the limit of sizes", 3, "refused model too-big at 1003:1\n", f'{million}Axiom "b": True.\n', ONE)

    def test_depths(self) -> None:
        """Each construct that may nest, at its limit, in an eighth of the usual stack; docs/faults.md names this stack."""
        quantifiers = "".join(f'forall microop "i{it}", ' for it in range(1, 33))
        rows = [("512 expansions in each other", macros(511, "ExpandMacro @"))]
        for opener in ("(", "~", "True => ", "True /\\ ", "True \\/ "):
            rows += [(f"128 of {opener}", f'Axiom "x": {opener * 128}True{")" * 128 * (opener == "(")}.\n')]
        rows += [("32 quantifiers in each other", f'Axiom "x": {quantifiers}True.\n')]
        empty = self.file("empty.test", 'Litmus "e".\n')
        for name, model in rows:
            self.gives(f"{name} in 1024 KiB of stack", [program(), "check", self.file("deep.uspec", model), empty], 0, FREE,
                       preexec_fn=within(resource.RLIMIT_STACK, 1024 * 1024))

    def test_300_nodes(self) -> None:
        """A chain of those of one micro-op at 64 stages of each core, as far as they go: a program that gives up from some size on
        fails here. From each node an edge leads to the next one; and from the last one to the first or to the second."""
        one = self.file("one.test", ONE)
        terms = [f"(i, ({k // 64}, S{k % 64}))" for k in range(300)]
        nodes = [f"0.0@{k // 64}:S{k % 64}" for k in range(300)]
        stages = lines(*(f'StageName {k} "S{k}".' for k in range(64)))
        chain = stages + lines('Axiom "chain": forall microops "i", AddEdges [',
                               *(f"({start}, {end});" for start, end in zip(terms, terms[1:])), "].")
        back = f'Axiom "back": forall microops "i", AddEdge ({terms[299]}, {terms[0]}) \\/ AddEdge ({terms[299]}, {terms[1]}).\n'
        edges = [f"edge {start} {end}" for start, end in zip(nodes, nodes[1:])]
        graph = lines("observable", "test unstated", *(f"node {it}" for it in nodes), *edges, "end")
        # The ground tree's root is an And. Its left side has 299 edges and the 298 Ands between them, from position 1 on, and so
        # its right side, which is the Or, stands at 598.
        cycles = lines("split 598", f"cycle {' '.join(nodes)}", f"cycle {' '.join(nodes[1:])}", "end")
        unseen = "unobservable\ntest unstated\n"
        whole, cyclic = self.file("chain.uspec", chain), self.file("back.uspec", chain + back)
        for name, status, text, verified, word, model in (
            ("a graph of 300 nodes", 0, graph, OBSERVABLE, "check", whole),
            ("a graph of 300 nodes in version 2", 0, graph, OBSERVABLE, "check2", whole),
            ("cycles of 300 and 299 nodes", 1, unseen + cycles, UNOBSERVABLE, "check", cyclic),
            ("cycles of 300 and 299 nodes in version 2", 1, f"{unseen}version 2\n{cycles}", UNOBSERVABLE, "check2", cyclic),
        ):
            self.shows(name, status, text, word, model, one)
            self.judged(f"{name}, verified", status, verified, model, one, text)

    def test_standard_output(self) -> None:
        """Where it fails, whatever the words, nothing is seen of what was written."""
        check, itself, script = ["check", PO, TWO], [program()], [pipecheck()]
        with open("/dev/full", "wb") as full, open(TWO, "rb") as read_only, open(f"{self.work}/answer", "w+b") as kept:
            done = run([*itself, *check], stdout=kept)
            self.same("a file as standard output", (done, read(kept.name)), (Done(0, "", ""), ORDERED))
            for name, words, said in (
                ("a full device as standard output", [*itself, *check], ""),
                ("a full device, with no words", itself, ""),
                ("a sweep on a full device", [*itself, "sweep", IN_ORDER, MP_PATTERN], ""),
                ("that a full device could not be written", [checkout_script(), *check], UNWRITTEN),
                ("the forms of the commands, and that a full device could not be written", script,
                 command_forms() + LACKING + UNWRITTEN),
                ("a full device where the forms are asked for", [*script, "help"], UNWRITTEN),
                ("a full device where the version is asked for", ["./pipecheck", "--version"], UNWRITTEN),
            ):
                self.gives(name, words, 5, "", said, stdout=full)
            self.gives("a standard output that cannot be written", [*itself, *check], 5, stdout=read_only)
            for name, words, said in (
                ("a closed standard output", itself, ""), ("that a closed standard output could not be written", script, UNWRITTEN)
            ):
                self.gives(name, [*words, *check], 5, "", said, stdout=full, preexec_fn=lambda: os.close(1))

    def test_a_pipe_that_nobody_reads(self) -> None:
        with unread() as pipe:
            self.gives("a pipe that nobody reads", [program(), "check", PO, TWO], 5, stdout=pipe)
            self.gives("a standard error that nobody reads", [pipecheck(), "check", PO, TWO], stdout=pipe, stderr=pipe)

    def test_files_of_hostile(self) -> None:
        from random import Random

        from tests.hostile import Runs

        runs, before = Runs(self.work, self.work), os.listdir("/proc/self/fd")
        runs.random = Random(1)
        for _ in range(30):
            runs.failing_output(["check", PO, TWO])
        self.same("outputs of hostile that fail leave no file open", os.listdir("/proc/self/fd"), before)
