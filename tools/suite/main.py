"""Runs every test of a folder on every model of examples/models, or what words name, and prints one table.

    examples/suite [--differ] [--bad] [--baseline CELLS] [--junit FILE] [--sarif FILE] [MODEL | TEST | FOLDER]..
    examples/suite --axioms MODEL [TEST | FOLDER]..

The words stand in any order; after -- none is an option. A file that ends with .test is a test, one with .litmus a
listing of herd's for X86, one with .pattern a pattern, one with .query a query; each other file is a model. A folder
stands for its tests, listings, patterns and queries. Where no word names a model all of examples/models are taken, and
where none names a test those of examples/tests. Only tests have no ending in the table. A file that is named twice is
taken once.

A model names its memory model once, in a comment `% Memory model: NAME`; examples/memory-models.tsv says what that
allows of each shipped test, whose bytes it knows by their hash. Of a test of one's own its own `Permitted` or
`Forbidden` decides, or the `~exists` of a listing, also where the model names no memory model. A cell compares the
verdict with that:

    ok        both agree
    BUG       the model shows an outcome that is forbidden
    stricter  the model does not show an outcome that is allowed: no bug, but something lost
    observable, unobservable   the verdict, where nothing says what it should be
    not taken   the test has locked instructions, and no axiom of the model asks for the type `Locked`
    time      no verdict, or no judgement of it, within the limit
    another   a fault: `model:WORD` or `test:WORD`, the word by which a file is refused; `unreadable`; `unnamed` (the
              model names no memory model that a row or a machine has); `certificate` (the verdict's certificate was
              judged again and refused); `unwritten` (no certificate could be kept); `machine` (that of the memory
              model failed on a pattern, or on a test of one's own: a line below the table says how); `status:N`; or
              `fault` (the program could not be called, or its text is none)

A pattern is swept, and its rows are compared with those of the memory model's machine in tools/agree/machines: `BUG` where a
row is shown that does not come up, `stricter` where one is missing, `swept` where no machine runs the pattern.

A query is a formula that is asked of a test (`docs/ask.md`). Comments of its own say which answer is right, always,
sometimes or never, and name the test: `% Expect: sometimes` and `% Test: NAME`. That test is NAME.test beside the query,
beside other tests that are named, or of examples/tests. The cell is `ok`, or `BUG (never)` with another answer. In a
folder a query with neither comment is passed over.

--differ shows only the tests on which the models differ, --bad only those with a cell that is not ok. Below the table
stand the models without a memory model; where the machine says otherwise than a test of one's own, or than the verdict
on one that states nothing; the rows of patterns that differ; and what `pipecheck lint` says of these files, each line
once, and of a refused listing what to do, as the script says it. The last line counts, with the time of all of this, and
says where the program had no proofs. Where the table goes to a terminal that is narrower, the models have numbers and
a key.

--baseline compares with the cells of an earlier suite, a file `cells` as below: what is BUG, stricter, time or a fault
and was not the same there is told as new, and the status goes by that alone; what was so and is good now is told as gone,
and so are models and tests that are in this suite no more. --junit writes the table as JUnit XML,
a suite for each model, where BUG and stricter are failures, faults and time errors, and what is as in the baseline is
skipped. --sarif writes as SARIF 2.1.0 what is BUG or stricter, at the model and with the test beside it, and the lines
that name a place; both words and the kinds of `lint` are its rules.

The table is of the bytes that the files have at the start. Each certificate is kept, as MODEL/FILE.certificate, and
judged again by `verify`, that of a listing by `verify86`; of a pattern MODEL/FILE.rows is what was swept, and of a
query MODEL/FILE.answer what was answered, with its certificates. The rows of the last table stand beside them in
`cells`: model, test and cell, with a tab between two. A suite that was interrupted goes on from what it has: a verdict
stands, with its certificate, where model, test and program have the same bytes.

--axioms takes each axiom of a model out in turn, and says how many verdicts of the tests change by it, and the first of
them. An axiom that changes none is untested or not needed. No certificate is kept but in SUITE_KEPT.

The status is 0 where no cell is BUG, stricter, time or a fault; 1 where some are BUG; 3 where some are stricter, and
none is BUG; and 2 where some are time or a fault, or where there is no table. With --axioms it is 0 where each verdict
is known, and else 2.

Variables of the environment: PIPECHECK, the checker's command (the program that stands): one file where there is one
of that name, and otherwise words, taken apart at blanks as a shell does, with its quotes and backslashes; SUITE_SECONDS, the
limit of one call (20), and of all that machines are asked of tests of one's own; SUITE_JOBS, how many run side by side
(the number of processors); SUITE_TESTS, the folder of the tests where no word names one; SUITE_TABLE, another table of
what memory models allow, which goes by the names of tests alone; SUITE_FOLDER, where certificates go (out/suite, and
of an installed copy pipecheck/suite in XDG_CACHE_HOME or ~/.cache); SUITE_KEPT, a folder of verdicts that stand in
later suites too, where program, model and test have the same bytes, up to 1 GiB (none); PIPECHECK_MEMORY, the limit of
memory, as for `pipecheck`.
"""
import os
import sys
import traceback
from collections import Counter
from functools import partial
from typing import Collection, Mapping, Sequence

from tools import TOP
from tools.ending import SIGNALS, Refusal
from tools.suite.allowing import Rows
from tools.suite.calling import ENDING, Calls
from tools.suite.files import Copies
from tools.suite.keeping import Baseline, Folder, judge_place, kept_in, write_report
from tools.suite.pairs import BUG, NOT_TAKEN, OBSERVABLE, OK, STRICTER, SWEPT, TIME, UNOBSERVABLE, kind_of
from tools.suite.programs import checker_of, program_digest
from tools.suite.running import Suite
from tools.suite.telling import Unread, open_streams, put, tell, width_of_terminal
from tools.suite.words import BASELINE, JUNIT, SARIF, Words, folder_of, limits_of, read_words
from tools.texts.quoting import shown

NO_TABLE = 2
UNSTATED, FAULTS = "unstated", "faults"
# how cells are counted; each other one is a fault
COUNTED = {
    **{word: word for word in (OK, BUG, STRICTER, NOT_TAKEN, TIME)}, **dict.fromkeys((OBSERVABLE, UNOBSERVABLE, SWEPT), UNSTATED)
}
# deep formulas are read by calls within calls
RECURSION = 20_000


def counts_of(cells: Collection[str]) -> Counter[str]:
    return Counter(COUNTED.get(kind_of(cell), FAULTS) for cell in cells)


def last_line(cells: Collection[str], seconds: float) -> str:
    counts = counts_of(cells)
    words = (OK, BUG, STRICTER, *(word for word in (UNSTATED, NOT_TAKEN) if counts[word]), TIME, FAULTS)
    return f"{len(cells)} pairs: {', '.join(f'{counts[word]} {word}' for word in words)}, in {int(seconds)} s"


def status_of(cells: Collection[str]) -> int:
    """2 where some are time or a fault, 1 where some are BUG, 3 where some are stricter and none is BUG."""
    counts = counts_of(cells)
    if counts[TIME] or counts[FAULTS]:
        return 2
    return 1 if counts[BUG] else 3 if counts[STRICTER] else 0


def suite(words: Sequence[str], environ: Mapping[str, str], top: str) -> int:
    """Runs what the words ask for, prints the table and answers the status."""
    seconds, jobs = limits_of(environ)
    asked = read_words(words, environ, top)
    if "--axioms" not in asked.options:
        return pairs(asked, environ, top, seconds, jobs)
    # what few calls need is imported where they do, since it takes as long as all that is imported here
    from tools.suite.axioms import run_axioms

    with SIGNALS.temporary_folder() as folder:
        checker = checker_of(environ, top, seconds, Calls())
        kept = kept_in(environ.get("SUITE_KEPT", ""), program_digest(checker.command))
        lines, status = run_axioms(asked.models[0], asked.tests, checker, kept, folder, jobs)
    put([*lines[:-1], lines[-1] + checker.said])
    return status


def pairs(asked: Words, environ: Mapping[str, str], top: str, seconds: float, jobs: int) -> int:
    table = environ.get("SUITE_TABLE", "")
    rows = Rows(table or os.path.join(top, "examples", "memory-models.tsv"), by_name=bool(table))
    for option in (JUNIT, SARIF):
        if option in asked.options:
            judge_place(option, asked.options[option])
    baseline = Baseline(asked.options.get(BASELINE))
    # one suite at a time writes into a folder
    folder = Folder(folder_of(environ, top))
    folder.wait_in_turn()
    for model in asked.models:
        folder.make_room(model)
    with SIGNALS.temporary_folder() as place:
        checker = checker_of(environ, top, seconds, Calls())
        program = program_digest(checker.command)
        state, kept = folder.state(program), kept_in(environ.get("SUITE_KEPT", ""), program)
        run = Suite(top, asked, Copies(place, [*asked.models, *asked.tests]), rows, checker, folder, state, kept)
        run.run(jobs, seconds)
    status = status_of(baseline.new(run.cells).values())
    writers = [(folder.cells, partial(folder.write_cells, run.cells))]
    if JUNIT in asked.options or SARIF in asked.options:
        from tools.suite.reports import reports

        writers = [*((path, partial(write_report, path, text)) for path, text in reports(run, baseline)), *writers]
    for path, write in writers:
        try:
            write()
        except OSError as error:
            tell(f"suite: {shown(path)} cannot be written: {error.strerror}")
            status = NO_TABLE
    folder.clear_state()
    kept.shorten()
    last = [f"certificates: {shown(folder.path)}", last_line(run.cells.values(), run.seconds) + checker.said]
    put([*run.table(width_of_terminal()), *run.below, *baseline.lines(run.cells), *last])
    return status


def main(*words: str) -> int:
    """Runs the suite, and says what went wrong with it."""
    sys.setrecursionlimit(RECURSION)
    open_streams()
    SIGNALS.receive(ENDING)
    try:
        if "--help" in words:
            put([__doc__.strip()])
            return 0
        return suite(words, os.environ, TOP)
    except Unread:
        pass
    except Refusal as refusal:
        tell(refusal.line("suite"))
    except OSError as error:
        place = f": {shown(str(error.filename))}" if error.filename else ""
        tell(f"suite: {error.strerror}{place}")
    except MemoryError:
        tell("suite: memory was refused")
    except Exception:  # pylint: disable=broad-exception-caught
        # Python's own status for this is 1, which says that there are bugs
        tell(traceback.format_exc(), end="")
    return NO_TABLE
