"""Writes a table of the examples, whole: what each memory model says of each test. No row is written by hand.

    python3 tools table >examples/memory-models.tsv
    python3 tools table translation >examples/translation/memory-models.tsv

The first has the tests of examples/tests, and the listings of examples/x86, whose names keep their endings; those of
examples/locked, with locked instructions, have rows for the machines that take them. The second has the tests with page-table
entries, for the machine that has them. Each row is found by running the machine of the memory model. Where a paper states the
same outcome of the same test, the row names it too. The last column is the SHA-256 hash of the test's bytes: examples/suite takes
a row for these bytes alone. So the tables are written anew where a machine, a test or a byte of a test is new. """
import os
from glob import escape, glob
from hashlib import sha256
from importlib import import_module
from typing import Iterator

from tools import TOP
from tools.agree.litmus import read_file
from tools.agree.verdicts import runs
from tools.texts.contents import contents

TABLE = "memory-models.tsv"
KINDS = ("tests/*.test", "x86/*.litmus", "locked/*.test")
MACHINES = ("sc", "tso", "pso", "weak", "nmca", "pc", "rvwmo")
X86_TSO = "Owens, Sarkar, Sewell, x86-TSO, 2009"
OF_X86_TSO = ("SB", "MP", "LB", "SB+rfi-pos", "SB+fences", "IRIW", "n4b", "n5", "n6", "n7")


def rows_of(folder: str) -> Iterator[tuple[str, str, bool]]:
    """Memory model, test and verdict of each row of the table in a folder of the examples."""
    text = contents(os.path.join(TOP, "examples", folder, TABLE)).decode("ascii")
    head, *rows = (line.split("\t") for line in text.splitlines())
    for row in rows:
        cells = dict(zip(head, row))
        yield cells["memory model"], cells["test"], cells["allowed"] == "yes"


def main(*words: str) -> None:
    kinds, machines = (("translation/*.test",), ("tlb",)) if words == ("translation",) else (KINDS, MACHINES)
    paths = [path for kind in kinds for path in glob(f"{escape(TOP)}/examples/{kind}")]
    named = sorted((os.path.basename(path).removesuffix(".test"), path) for path in paths)
    tests = [(name, read_file(path), sha256(contents(path)).hexdigest()) for name, path in named]
    print("memory model", "test", "allowed", "source", "sha256", sep="\t")
    for machine in machines:
        module = import_module(f"tools.agree.machines.{machine}")
        for name, test, digest in tests:
            if runs(module, test):
                allowed = "yes" if test.rows_shown_by(module.outcomes(test)) else "no"
                paper = f"; {X86_TSO}" if machine == "tso" and name in OF_X86_TSO else ""
                print(machine, name, allowed, f"machine tools/agree/machines/{machine}.py{paper}", digest, sep="\t")
