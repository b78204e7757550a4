"""What `pipecheck explain` says of long refutations and how wide its lines are, and of answers of `core` and of `ask`. Texts are
typed from docs/explain.md and from the models.
"""
from __future__ import annotations

import re

from tests.cases import Cases, Done, missing, pipecheck, program, run, told, without_proofs, write
from tests.test_answers import ONE
from tests.test_explain import PLAIN, explained, odds, refutation_of_odds, shown

SC, TSO, TUTORIAL = (f"examples/models/{name}.uspec" for name in ("sc-inorder", "tso-ooo", "tutorial"))
LONG = (SC, "examples/tests/3.SB+fences.test", "examples/certificates/3.SB+fences.txt")
CORE = (TUTORIAL, "examples/tests/MP.test")
ASK = (TUTORIAL, "examples/tests/MP+seen.test")
QUERY = "examples/queries/second-read-first.query"
NEVER = (TUTORIAL, "examples/tests/SB.test", "examples/queries/other-store-seen.query")
FORBIDDEN = "examples/two-forbidden.test"
USUAL = 100
# how many choices the model of many choices leaves
CHOICES = 24
MOST_INDENT = 40

# a micro-op, and the order of its stages S0, S1 and so on: each step of it is a choice, whose other side is closed by
# one more split; all steps together are a cycle
CHOICE = '(AddEdge ((i, S{0}), (i, S{1})) \\/ NodeExists (i, X{0})) /\\ (~NodeExists (i, X{0}) \\/ ~NodeExists (i, X{0}))'
ORDERS = ("0.0@0:{0} before 1.0@0:{0}", "1.0@0:{0} before 0.0@0:{0}")


def said_of_odds() -> str:
    """What is said of a choice at S and one at T: on both sides of the first one the same of both sides of the second."""
    said = 'split 1: axiom "S is in some order" at 3:1, i = 0.0, j = 1.0\n'
    for side, (order, other), step in (("left", ORDERS, "split 9"), ("right", ORDERS[::-1], "split 14")):
        at_s = order.format("S")
        said += f'{side} of split 1: {at_s}\n  split 5: axiom "T is in some order" at 5:1, i = 0.0, j = 1.0\n'
        for inner, at_t in (("left", ORDERS[0].format("T")), ("right", ORDERS[1].format("T"))):
            said += f"""  {inner} of split 5: {at_t}
    axiom "no order at T" at 9:1, i = 0.0, j = 1.0, in macro KeepsTFree:
      {step} at 7:35: not {order.format("T")} and not {other.format("T")}, since
          {at_s}
          {side} of split 1, axiom "S is in some order"
    path: this order is asked for and denied
      {at_t}   {inner} of split 5, axiom "T is in some order"
      not {at_t}   {step}, axiom "no order at T"
"""
    return f"{said}Every branch is closed.\n"


# a choice of three, of which each side closes at once, in the ways that a side may clash
CLASHES = """StageName 0 "S".
StageName 1 "T".
Axiom "ask": forall microops "i", forall microops "j", ProgramOrder i j =>
  (AddEdge ((j, S), (i, S)) \\/ NodeExists (j, T) \\/ AddEdge ((i, T), (j, S))) /\\ AddEdge ((i, S), (j, S)).
Axiom "deny": forall microops "i", ~NodeExists (i, T).
"""
SPLIT_OF_CLASHES = "unobservable\ntest forbidden: ok\nsplit 2\ncycle 0.0@0:S 1.0@0:S\nsplit 4\nabsent 1.0@0:T\n" \
    "absent 0.0@0:T\nend\n"
SAID_OF_CLASHES = """axiom "ask" at 3:1, i = 0.0, j = 1.0:
  split 2: 1.0@0:T is there or 0.0@0:T before 1.0@0:S, since 1.0@0:S before 0.0@0:S closes a cycle:
      0.0@0:S before 1.0@0:S before 0.0@0:S
      axiom "ask" at 3:1, i = 0.0, j = 1.0
  split 4: 0.0@0:T before 1.0@0:S, since 1.0@0:T is not there   axiom "deny" at 5:1, i = 1.0
absent: 0.0@0:T is asked for and denied
  0.0@0:T before 1.0@0:S   split 4, axiom "ask"
  0.0@0:T is not there   axiom "deny" at 5:1, i = 0.0
Every branch is closed.
"""
SAID_OF_CORE = shown(*CORE, "core.txt").partition("...\n")[0]
NAMED_CORE = """examples/models/tutorial.uspec:26:1: axiom 0: "Path"
examples/models/tutorial.uspec:31:1: axiom 2: "Commit is in program order"
examples/models/tutorial.uspec:34:1: axiom 3: "The store queue drains in order"
examples/models/tutorial.uspec:72:1: axiom 6: "Reads"
"""
NAMED_QUERY = """examples/queries/second-read-first.query:2:1: axiom 8 of `with`: the query
examples/queries/second-read-first.query:2:1: axiom 8 of `against`: the denial of the query
"""
SAID_OF_QUERY = """The edges that the query asks for:
  3.0@1:Execute before 2.0@1:Execute   the query at query 2:1, i = 2.0, j = 3.0

against: a run of the model with the denial of the query as one more axiom shows the outcome
"""
# the read is i = 1.0, its Execute stands behind the other core's store in memory, and so does its commit
SAID_OF_NEVER = """with: no run of the model with the query as one more axiom shows the outcome
test forbidden: ok

Each split is a choice that the model leaves, and each branch ends in what cannot be:
the query at query 2:1:
"""


def is_narrow(text: str, width: int) -> bool:
    """Whether no line is wider, and none begins too far in."""
    return all(len(line) <= width and len(line) - len(line.lstrip()) <= MOST_INDENT for line in text.splitlines())


def many_choices() -> str:
    """A model of choices in each other, on each left side one more."""
    stages = [f"S{k}" for k in range(CHOICES + 1)] + [f"X{k}" for k in range(CHOICES)]
    lines = [f'StageName {number} "{stage}".' for number, stage in enumerate(stages)]
    lines += [f'Axiom "choice {k}": forall microops "i", {CHOICE.format(k, k + 1)}.' for k in range(CHOICES)]
    return "\n".join([*lines, f'Axiom "back": forall microops "i", AddEdge ((i, S{CHOICES}), (i, S0)).', ""])


class Refutations(Cases):
    """Refutations, long and deep ones too, and lines within a width."""

    def test_long(self) -> None:
        said = explained(*LONG)
        with self.case("a refutation of 31 splits takes at most 80 lines"):
            self.assertEqual(said.status, 1)
            self.assertLessEqual(len(said.out.splitlines()), 80)
        with self.case("its splits are all there"):
            self.assertEqual(sum(" split " in f" {line}" and ", since " in line for line in said.out.splitlines()), 31)
        self.shows("it is judged", 1, "verified unobservable\n", "verify", *LONG)
        self.same("100 columns where nothing says how many", said, explained(*LONG, width=USUAL))

    def test_sides(self) -> None:
        for name, model, certificate, wanted in (
            ("both sides of a split that go on have a name", odds("ST"), refutation_of_odds((9, 14)), said_of_odds()),
            ("why a side cannot be", CLASHES, SPLIT_OF_CLASHES, SAID_OF_CLASHES),
        ):
            files = (write(f"{self.work}/model", model), FORBIDDEN, write(f"{self.work}/given", certificate))
            done = explained(*files)
            self.judge(name, Done(done.status, done.out.partition(" cannot be:\n")[2], done.err), 1, wanted)

    def test_deep(self) -> None:
        deep = write(f"{self.work}/deep.uspec", many_choices()), write(f"{self.work}/one.test", ONE)
        found = write(f"{self.work}/found", run([program(), "check", *deep]).out)
        for width in (40, USUAL):
            said = explained(*deep, found, width=width)
            with self.case(f"{CHOICES} choices in each other at {width} columns"):
                sides = [len(re.findall(rf"^ *{side} of split \d+:", said.out, re.MULTILINE)) for side in ("left", "right")]
                self.assertEqual((said.status, is_narrow(said.out, width), sides), (1, True, [CHOICES - 1, CHOICES - 1]))

    def test_widths(self) -> None:
        lifted = (SC, "examples/corr.test", "examples/lifted/corr.txt")
        test = "examples/tests/n7.test"
        graph = (TSO, test, write(f"{self.work}/graph", run([program(), "check", TSO, test]).out))
        for name, files, least in (("a refutation", LONG, 20), ("a lifted one", lifted, 20), ("a graph", graph, 30)):
            wide = explained(*files, width=100_000).out
            for width in (least, 40, 80, USUAL):
                with self.case(f"{name} at {width} columns"):
                    narrow = explained(*files, width=width).out
                    self.assertTrue(is_narrow(narrow, width))
                    # a word that is longer than a line is broken, too; a table is written anew where it is too wide
                    self.assertTrue("".join(narrow.split()) == "".join(wide.split()) or "core 0  0.0 " in narrow)
        self.holds("a table that is too wide names the cores", "\nstep\n   1  core 0  0.0 " in explained(*graph, width=40).out)


BESIDE = "pipecheck: an answer of ask is explained beside its query: explain MODEL TEST ANSWER QUERY\n"
ONLY = "pipecheck: only an answer of ask has a query: explain MODEL TEST ANSWER QUERY\n"


def refused(line: int) -> str:
    """That an answer is refused at this line."""
    return f"answer refused at line {line}\n"


class Answers(Cases):
    """Answers of `core` and of `ask`: each certificate is judged in the model that it is of."""

    def script(self, *words: str) -> Done:
        """What the script says of these words."""
        return without_proofs(run([pipecheck(), *words], env=PLAIN))

    def refuses(self, name: str, lines: list[str], line: int) -> None:
        """An answer of `core` is refused at this line: where it is taken apart, or where the program judges a part."""
        spoilt = write(f"{self.work}/spoilt", "\n".join(lines))
        self.judge(f"core: {name} is refused", explained(*CORE, spoilt), 6, refused(line))

    def test_core(self) -> None:
        answer = self.script("core", *CORE)
        self.judge("core: the names of the axioms on standard error", Done(answer.status, "", answer.err), 0, "", NAMED_CORE)
        path = write(f"{self.work}/core", answer.out)
        with self.case("core: each certificate, with the axioms by name"):
            done = self.script("explain", *CORE, path)
            headings = re.findall("(?m)^(refutation|without [^:\n]*)", done.out)
            self.assertEqual(headings, ["refutation", "without 0", "without 2", "without 3", "without 6"])
            self.assertEqual((done.status, done.out[:len(SAID_OF_CORE)], done.err), (0, SAID_OF_CORE, ""))
            self.assertIn('without 3: a run of the others without axiom "The store queue', done.out)
        self.holds("core: within 100 columns", is_narrow(done.out, USUAL))
        none = self.script("core", *NEVER[:2])
        self.same("core none: no names", (none.status, none.out.split("\n")[0], none.err), (0, "core none", ""))
        with self.case("core none: the graph"):
            done = self.script("explain", *NEVER[:2], write(f"{self.work}/none", none.out))
            self.assertEqual((done.status, done.out.partition(" axioms")[0]), (0, "core none: no"))
            self.assertIn("\nobservable: a run of this model shows the outcome\ntest forbidden: BUG\n", done.out)
        lines = answer.out.split("\n")
        cycle = next(number for number, line in enumerate(lines) if line.startswith("cycle"))
        last = len(lines) - 1
        self.refuses("an axiom more than there are", ["core 5", *lines[1:]], 6)
        self.refuses("an axiom twice", [lines[0], lines[1], *lines[1:3], *lines[4:]], 3)
        self.refuses("axioms of another model", [lines[0], "axiom 99", *lines[2:]], 2)
        self.refuses("no refutation", [*lines[:5], *lines[6:]], 6)
        self.refuses("a step that clashes with nothing",
                     [*lines[:cycle], "cycle 0.0@0:Memory 1.0@0:Memory", *lines[cycle + 1 :]], cycle + 1)
        self.refuses("a second line of another verdict", [*lines[:7], "test unstated", *lines[8:]], 8)
        self.refuses("no last line", lines[: last - 1] + [""], last)
        self.refuses("a line after the last", [*lines[:last], "more", ""], last + 1)
        # each axiom of the set can be left out, so that no three of them forbid the outcome
        fewer = ["core 3", *lines[2 : lines.index("without 0")], *lines[lines.index("without 2") :]]
        self.refuses("a set that does not forbid the outcome", fewer, cycle)
        done = self.script("explain", "examples/in-order.uspec", CORE[0], path)
        self.judge("core: a refused test", Done(done.status, done.out, ""), 3, "refused test syntax at 22:1\n")
        self.judge("core: beside a query", explained(*CORE, path, QUERY), 125, "", ONLY)

    def test_ask(self) -> None:
        asked = self.script("ask", *ASK, QUERY)
        self.judge("ask: the query on standard error", Done(asked.status, "", asked.err), 0, "", NAMED_QUERY)
        answer = asked.out
        path = write(f"{self.work}/ask", answer)
        with self.case("ask: both certificates, and the place of the query"):
            done = self.script("explain", *ASK, path, QUERY)
            self.assertEqual((done.status, done.out.partition(":")[0], done.err), (0, "ask sometimes", ""))
            self.assertIn(SAID_OF_QUERY, done.out)
            self.assertIn(f"is one\n    of {QUERY}.", done.out)
        with self.case("ask: a refutation with the query"):
            done = self.script("explain", *NEVER[:2], write(f"{self.work}/never", self.script("ask", *NEVER).out), NEVER[2])
            self.assertEqual((done.status, done.out.partition(":")[0]), (0, "ask never"))
            self.assertIn(SAID_OF_NEVER, done.out)
        self.judge("ask: without its query", explained(*ASK, path), 125, "", BESIDE)
        wrong = write(f"{self.work}/word", answer.replace("ask sometimes", "ask always"))
        faulty = write(f"{self.work}/faulty.query", 'forall microop "i",\n  NodeExists (i, Nowhere)')
        gone = f"{self.work}/gone"
        said = told(faulty, "2:18", "stage-unknown: no stage has the name")
        for name, words, status, out, err in (
            ("ask: a word that does not follow", (*ASK, wrong, QUERY), 6, refused(answer.split("\n").index("against") + 2), ""),
            # that query holds in both worlds
            ("ask: the answer to another query", (*ASK, path, NEVER[2]), 6, refused(len(answer.splitlines()) - 1), ""),
            ("ask: a query with a fault", (*ASK, path, faulty), 3, "refused query stage-unknown at 2:18\n", said),
            ("a certificate beside a query", (*LONG, QUERY), 125, "", ONLY),
            ("ask: beside a query that is not there", (*ASK, path, gone), 4, "", missing(gone)),
            ("an answer that is not there, beside a query", (*ASK, gone, QUERY), 4, "", missing(gone)),
        ):
            self.gives(name, [pipecheck(), "explain", *words], status, out, err, env=PLAIN)
        # as deep as a formula may be, so that its denial is deeper
        deep = write(f"{self.work}/deep.query", f"{'(' * 127}forall microop \"i\", NodeExists (i, Execute){')' * 127}")
        with self.case("ask: a denial that passes a limit is not explained"):
            done = self.script("explain", *ASK, write(f"{self.work}/deep", self.script("ask", *ASK, deep).out), deep)
            self.assertEqual(done.status, 125)
            self.assertIn("does not take its model", done.err)
