"""`pipecheck mend` on wrong models: each has to get the order named that was taken out of it."""
from __future__ import annotations

import os

from tests.cases import (
    NO_MODEL, TOP, USAGE, Beside, Cases, call, checkout_script, command, meant, missing, pipecheck, program, replaced, told,
    tool_entry, write
)

from tools.mend import main as mend

# an own pipeline: a read of a cache is not done again where a newer value came before an older read
REPLAY = """% Memory model: sc
StageName 0 "Issue".
StageName 1 "Access".
StageName 2 "Retire".
Axiom "Path": forall microops "i", AddEdges [((i, Issue), (i, Access), "path"); ((i, Access), (i, Retire), "path")].
Axiom "Issue and retire in order": forall microops "i", forall microops "j", ProgramOrder i j =>
  AddEdges [((i, Issue), (j, Issue), "order"); ((i, Retire), (j, Retire), "order")].
Axiom "Writes in order": forall microops "i", forall microops "j",
  ProgramOrder i j /\\ (IsAnyWrite i \\/ IsAnyWrite j) => AddEdge ((i, Access), (j, Access), "order").
Axiom "One write at a time": forall microops "v", forall microops "w",
  IsAnyWrite v /\\ IsAnyWrite w /\\ SamePhysicalAddress v w /\\ ~SameMicroop v w =>
  AddEdge ((v, Access), (w, Access), "co") \\/ AddEdge ((w, Access), (v, Access), "co").
Axiom "Reads": forall microops "r", IsAnyRead r =>
  (DataFromInitialStateAtPA r /\\ forall microops "v", IsAnyWrite v /\\ SamePhysicalAddress v r =>
    AddEdge ((r, Access), (v, Access), "fr")) \\/
  (exists microop "w", IsAnyWrite w /\\ SamePhysicalAddress w r /\\ SameData w r /\\
    AddEdge ((w, Access), (r, Access), "rf") /\\
    forall microops "v", IsAnyWrite v /\\ SamePhysicalAddress v r /\\ ~SameMicroop v w =>
    AddEdge ((v, Access), (w, Access), "co") \\/ AddEdge ((r, Access), (v, Access), "fr")).
"""
UNNAMED = REPLAY.partition("\n")[2]
# another one: what a read gets of a write is checked behind its access, and what is there from the start is not checked at all
CHECKED = """% Memory model: sc
StageName 0 "Access".
StageName 1 "Check".
Axiom "Nodes": forall microops "i", IsAnyRead i => NodesExist [(i, Access); (i, Check)].
Axiom "Writes in order": forall microops "i", forall microops "j",
  IsAnyWrite i /\\ IsAnyWrite j /\\ ProgramOrder i j => AddEdge ((i, Access), (j, Access), "order").
Axiom "Checks in order": forall microops "i", forall microops "j",
  IsAnyRead i /\\ IsAnyRead j /\\ ProgramOrder i j => AddEdge ((i, Check), (j, Check), "order").
Axiom "Reads": forall microops "r", IsAnyRead r =>
  (DataFromInitialStateAtPA r /\\ forall microops "v", IsAnyWrite v /\\ SamePhysicalAddress v r =>
    AddEdge ((r, Access), (v, Access), "fr")) \\/
  (exists microop "w", IsAnyWrite w /\\ SamePhysicalAddress w r /\\ SameData w r /\\
    AddEdges [((w, Access), (r, Access), "rf"); ((r, Access), (r, Check), "path")]).
"""
# a case, a wrong model of examples or its text, a test whose outcome it shows, and lines of what is said: an order is named that
# keeps all other outcomes
ROWS = (
    # reads of one address that are not replayed, beside what docs/mend.md shows of weak-ooo-read-read
    ("reads that are not replayed", REPLAY, "tests/CoRR.test",
     ("add 1.0@1:Access before 2.0@1:Access", '      AddEdge ((i, Access), (j, Access), "mend").')),
    ("... a listing", REPLAY, "x86/MP.litmus", ("add 2.0@1:Access before 3.0@1:Access",)),
    ("a last value that no axiom asks for", REPLAY, "tests/CoWR+seen.test",
     ("No axiom asks for the value at the end, which this test states: first write one that does.",)),
    # a read sees the newest entry of the store buffer alone, and falls through an older one
    ("a buffer that is snooped in its newest entry alone", "tso-buffer-newest-alone", "tests/CoWR+other.test",
     ("add 0.0@0:MainMemory before 2.0@0:Memory", '      AddEdge ((i, (0, MainMemory)), (j, Memory), "mend").')),
    # the other wrong models; what was taken out of each stands at its head
    ("a write that joins an older entry", "tso-buffer-merges-older", "tests/MP+merge.test",
     ("add 1.0@0:MainMemory before 2.0@0:MainMemory",)),
    ("a read that passes the youngest entry of its buffer", "tso-buffer-skips-youngest", "tests/CoWR.test",
     ("add 0.0@0:MainMemory before 1.0@0:Memory",)),
    ("a fence that is waited for too late, on two cores", "tso-drain-late-hold", "tests/SB+fences.test", (
        "add 1.0@0:Drained before 2.0@0:Execute and 4.0@1:Drained before 5.0@1:Execute",
        "      IsAnyFence i /\\ AccessType Full i /\\ IsAnyRead j /\\ ProgramOrder i j =>",
        '      AddEdge ((i, Drained), (j, Execute), "mend").')),
    ("data behind an invalidation, used by any read", "tso-lines-any-read", "tests/MP.test",
     ("    add 2.0@1:Execute before 3.0@1:Request",)),
    ("a read that asks before a fence has waited", "tso-lines-oldest-read", "tests/R+fences+old.test",
     ("    add 5.0@1:Execute before 6.0@1:Request",)),
    ("a commit that is too early", "tso-ooo-commit-early", "tests/MP.test",
     ("add 3.0@1:Commit before 0.0@0:MainMemory, where 3.0 reads [x] = 0",)),
    ("a read that is not squashed", "tso-squash-not-forwarded", "tests/MP+own.test",
     ("add 3.0@1:Execute before 4.0@1:Execute",)),
    ("the pipeline of the tutorial", "tutorial-early", "tests/MP.test",
     ("add 2.0@1:Execute before 3.0@1:Execute", "add 3.0@1:Commit before 0.0@0:Memory, where 3.0 reads [x] = 0")),
    ("an order of one read, where it reads the start", CHECKED, "tests/MP.test", (
        "add 3.0@1:Check before 3.0@1:Access, where 3.0 reads [x] = 0",
        "      IsAnyRead i /\\ DataFromInitialStateAtPA i =>",
        '      AddEdge ((i, Check), (i, Access), "mend").')),
    ("a model without a memory model", UNNAMED, "tests/CoRR.test", (
        "What else of this program is allowed is not known: the 3 other outcomes that are shown count.",
        "add 1.0@1:Access before 2.0@1:Access")),
)
# a test of a thousand questions, which is asked where MEND_ALL is set
LARGE = ("a read that asks for no order to newer writes", "tso-buffer-no-write-between", "tests/SB+fences+old.test", (
    "No order of two nodes forbids it and keeps all of these. These choices do:",
    "add 3.0@0:Memory before 5.0@0:MainMemory, or 5.0@0:MainMemory before 9.0@0:MainMemory"))


class Orders(Cases):
    """The orders that wrong models lack, as mend.py names them where it is called."""

    def test_orders(self) -> None:
        # each order is tried on all shipped tests, of which a few are here
        os.makedirs(f"{self.work}/examples/tests")
        few = [f"examples/tests/{name}.test" for name in ("MP", "SB", "CoRR")]
        for it in ("tools", "examples/memory-models.tsv", *few):
            os.makedirs(os.path.dirname(f"{self.work}/{it}"), exist_ok=True)
            os.symlink(f"{TOP}/{it}", f"{self.work}/{it}")
        for name, model, test, lines in (*ROWS, LARGE) if "MEND_ALL" in os.environ else ROWS:
            if self.is_wanted(name):
                path = write(f"{self.work}/own.uspec", model) if "\n" in model else f"examples/buggy/{model}.uspec"
                done = call(self.mends, ["mend", path, f"examples/{test}"], env={"COLUMNS": None, "PIPECHECK": program()})
                with self.case(name):
                    self.assertEqual((done.status, done.err), (0, ""))
                    self.assertEqual([it for it in lines if it not in done.out.splitlines()], [])

    def mends(self) -> object:
        """mend.py of a checkout in the folder of these cases."""
        with replaced(mend, "TOP", self.work):
            return tool_entry("mend.main")()


ALONE = """The micro-ops of the test:
  0.0 core 0 writes [x] = 1
  [x] is PA 0 0

The model shows this outcome. sc allows it: no order has to forbid it.
Of this program 0 other outcomes are shown, 0 of them allowed by sc.

So no order can be told from one that forbids the whole program: take a test with more.
"""
NOTHING = "The model does not show this outcome: there is nothing to mend. `core` says what forbids it.\n"
IN_ORDER, MP = "examples/in-order.uspec", "examples/mp.test"


class Script(Cases):
    """What else the script answers."""

    def test_script(self) -> None:
        replay, alone = write(f"{self.work}/replay.uspec", REPLAY), write(
            f"{self.work}/alone.test", 'Litmus "alone".\nMicroop 0 0 0 0 (Write (VA 0 0) (PA 0 0) (Data 1)).\n')
        bad, none = write(f"{self.work}/bad.uspec", 'Litmus "mp".\n'), f"{self.work}/none"
        script = [pipecheck(), "mend"]
        limited = ["bash", "-c", 'ulimit -v 1000000 && exec "$@"', "limited", *script]
        plain: dict[str, str | None] = {"COLUMNS": None, "PIPECHECK": None}
        rows: tuple[tuple[str, list[str], int, str, str, dict[str, str | None]], ...] = (
            ("a program without another outcome", [*script, replay, alone], 1, ALONE, "", {}),
            ("... under a limit of address space, which the machine has then", [*limited, replay, alone], 1, ALONE, "", {}),
            ("an outcome that is not shown", [checkout_script(), "mend", IN_ORDER, MP], 1, NOTHING, "", {}),
            # the first file is judged first
            ("a test in place of the model, and a model in place of the test", [*script, bad, IN_ORDER], 3,
             "refused model syntax at 1:1\n", told(bad, "1:1", NO_MODEL, "`StageName`, `Axiom` or `DefineMacro`")
             + f"pipecheck: {bad} is a test, and stands for the model: mend MODEL TEST\n", {}),
            ("a file that is not there", [*script, none, MP], 4, "", missing(none), {}),
            ("a program that is none", [*script, IN_ORDER, MP], 125, "", "pipecheck: no checker: /bin/true\n",
             {"PIPECHECK": "/bin/true"}),
            ("a limit of memory that is no number", [*script, IN_ORDER, MP], 125, "",
             "pipecheck: PIPECHECK_MEMORY is a number of MiB, or none, and not lots\n", {"PIPECHECK_MEMORY": "lots"}),
            ("too few words", [checkout_script(), "mend", IN_ORDER], 2, USAGE, meant("mend"), {}),
        )
        for name, words, status, out, err, env in rows:
            self.gives(name, words, status, out, err, env={**plain, **env})

    def test_end(self) -> None:
        room, waits = f"{self.work}/room", f"{self.work}/waits"
        os.mkdir(room)
        # what is asked first of a model that shows the outcome gets no answer
        checker = command(f"{self.work}/checker", f'[ "$1" != sweep ] || {{ echo >{waits}; exec sleep 600; }}\n'
                          f'exec {program()} "$@"\n')
        words = [pipecheck(), "mend", "examples/buggy/weak-ooo-read-read.uspec", "examples/tests/RSW.test"]
        job = Beside(words, waits, {"TMPDIR": room, "PIPECHECK": checker}, cwd=TOP)
        self.same("TERM comes while it asks", (job.process.poll(), len(os.listdir(room))), (None, 1))
        self.judge("TERM ends it", job.ended_by("TERM"), 143)
        self.same("... and leaves nothing", os.listdir(room), [])
