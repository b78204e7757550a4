"""Compares models with the machines of their memory models, on tests or on many programs. docs/agree.md has all of it.

    pipecheck agree [--open] [--reading] [--as MACHINE] [MODEL..] [TEST..]
    pipecheck agree --all SHAPES [--locations N] [--fences] [--locked] [--reading] [--as MACHINE] [MODEL..]
    pipecheck agree --random SEED COUNT [--reading] [--as MACHINE] [MODEL..]
    pipecheck agree --between MODEL MODEL --all SHAPES | --random SEED COUNT [..]

Words that end with .uspec are models; the others are tests, your own too: listings where they end with .litmus, and
patterns where they end with .pattern. Without models and tests all of examples/ are taken. A model names its memory
model in a comment, `% Memory model: NAME`, and tools/agree/machines/NAME.py is its machine; with --as it is MACHINE.py for
each model. With --open all reads of each test are open; with --reading the second implementation sweeps.

With --all each model is compared on every small program of these shapes: 3+3 is two cores with three accesses each, and
4 all of up to four accesses on up to three cores. They have N addresses (2), fences between accesses with --fences, and
exchanges with --locked. With --random it is compared on COUNT programs that are made from the number SEED. The smallest
program that differs is printed. With --between two models are compared. A comparison that was ended goes on.
"""
import os
import signal
from argparse import ArgumentParser, ArgumentTypeError, Namespace, RawDescriptionHelpFormatter
from contextlib import closing
from glob import escape as glob_escape
from glob import glob

# quietly, up to where the workers are ended with this process
if signal.getsignal(signal.SIGINT) is not signal.SIG_IGN:
    signal.signal(signal.SIGINT, signal.SIG_DFL)

from tools import TOP
from tools.agree.comparing import Other, Pair, difference, is_allowed, machine_of, model_of, named_memory_model
from tools.agree.comparing import pattern_of, sweeper, take, test_of
from tools.agree.comparing_programs import Comparison
from tools.agree.small_programs import MOST_ACCESSES, MOST_LOCATIONS, Shape, shapes_of
from tools.agree.table import TABLE, rows_of
from tools.agree.working import ENDING, Counts, answers, tell
from tools.ending import SIGNALS, Ended, Refusal
from tools.second.patterns import ENDING as PATTERN
from tools.second.standard_output import UNREAD
from tools.suite.words import folder_of
from tools.texts.contents import Unreadable
from tools.texts.quoting import quoted, shown

TELLER = "agree"
KINDS = ("tests/*.test", "x86/*.litmus", "locked/*.test", "translation/*.test", "patterns/*.pattern")
# how many addresses small programs have where nothing is said
LOCATIONS = 2
# the folder of comparisons that were ended, in that of the suite; no model has such a name
KEPT = ".agree"


def shipped(kind: str) -> list[str]:
    """The paths of the examples of a kind, in order."""
    folder = os.path.join(TOP, "examples")
    return [os.path.join(folder, path) for path in sorted(glob(kind, root_dir=folder))]


def shipped_test(name: str) -> str:
    """The path of a test of the examples. The name of a listing has its ending."""
    file = name if name.endswith(".litmus") else name + ".test"
    for path in shipped(os.path.join("*", glob_escape(file))):
        return path
    raise Refusal(f"a table has a row of {shown(file)}, and there is no such test")


def pairs_of(models: list[tuple[str, str]], tests: list[str], options: Namespace, by_program: bool) -> list[Pair]:
    """The pairs that are compared, model by model, each model with its machine."""
    for test in tests:
        # each file is read before anything is compared
        test_of(test)
    compared = [test for test in tests if not options.open or test.endswith((PATTERN, ".test"))]
    found = [
        Pair(model, machine, test, options.open and not test.endswith(PATTERN), by_program)
        for model, machine in models for test in compared if take(model, machine, test)
    ]
    for test in {pair.test for pair in found if pair.is_opened}:
        pattern_of(test, True)
    return found


def compare_files(pairs: list[Pair], counts: Counts) -> None:
    """Prints each pair that differs."""
    with closing(answers(difference, pairs)) as found:
        for pair, said in found:
            name = f"{shown(os.path.basename(pair.model))} {shown(os.path.basename(pair.test))}"
            if counts.enter(name, said):
                print(f"{name}: {said}", flush=True)


def compare_table() -> int:
    """Prints each row of the tables that its machine does not say, and answers how many there are."""
    differ = 0
    folders = [it for it in ("", "translation") if os.path.exists(os.path.join(TOP, "examples", it, TABLE))]
    for name, test, allowed in [row for folder in folders for row in rows_of(folder)]:
        if is_allowed(name, shipped_test(test)) != allowed:
            differ += 1
            print(f"the table {name} {test}: the machine says {'no' if allowed else 'yes'}")
    return differ


def models_of(options: Namespace) -> list[tuple[str, str]]:
    """The models that are compared, each with its machine. All are read before anything is compared."""
    folders = ("models",) if options.random or options.all else ("models", "translation")
    given = [word for word in options.files if word.endswith(".uspec")]
    models = given or [path for folder in folders for path in shipped(os.path.join(folder, "*.uspec"))]
    for model in models:
        model_of(model)
    found = [(model, options.machine or named_memory_model(model)) for model in models]
    for _, machine in found:
        machine_of(machine)
    return found


def compare_programs(options: Namespace, by_program: bool, counts: Counts) -> None:
    """Compares on random programs, or on all small ones."""
    if options.between:
        first, second = options.between
        model_of(first)
        model_of(second)
        comparisons = [Comparison(first, Other(second, True), by_program)]
    else:
        comparisons = [Comparison(model, Other(machine), by_program) for model, machine in models_of(options)]
    for comparison in comparisons:
        comparison.judge_usable()
        if options.random:
            counts.update(comparison.random(*options.random))
        else:
            family = comparison.family(options.all, options.locations or LOCATIONS, options.fences, options.locked)
            counts.update(comparison.all_small(family, os.path.join(folder_of(os.environ, TOP), KEPT)))


def compare(options: Namespace) -> int:
    for path in options.files:
        if os.path.exists(path) and not os.path.isfile(path) and not os.path.isdir(path):
            raise Refusal(f"{shown(path)} is no file, and each one is read more than once")
    by_program = not options.reading and bool(sweeper().words)
    counts, is_swept = Counts(), True
    if options.random or options.all:
        compare_programs(options, by_program, counts)
    else:
        given = [word for word in options.files if not word.endswith(".uspec")]
        tests = given or [path for kind in KINDS for path in shipped(kind)]
        pairs = pairs_of(models_of(options), tests, options, by_program)
        compare_files(pairs, counts)
        is_swept = any(pair.is_swept for pair in pairs)
        counts["differ"] += 0 if given else compare_table()
        if not counts.total():
            raise Refusal("nothing is compared: no model here takes one of these tests with a machine that runs it")
        left_out = sorted({*given} - {pair.test for pair in pairs})
        if left_out:
            more = f" and {len(left_out) - 1} more" if left_out[1:] else ""
            tell(f"not taken by a model here with a machine that runs it: {shown(left_out[0])}{more}")
    if is_swept:
        print(f"swept by {'the program' if by_program else 'the second implementation'}")
    print(f"{counts.line}{sweeper().said if is_swept and by_program else ''}")
    return counts.status


def main(*words: str) -> int:
    """Compares what the words ask for, or says why not, and answers the exit status."""
    SIGNALS.receive(ENDING)
    reader = parser()
    options = reader.parse_args(words)
    fault = fault_of(options)
    if fault:
        reader.error(fault)
    try:
        return compare(options)
    except Unreadable as unreadable:
        raise Ended(UNREAD, f"{TELLER}: {unreadable}") from unreadable


def parser() -> ArgumentParser:
    found = ArgumentParser("pipecheck agree", description=__doc__, formatter_class=RawDescriptionHelpFormatter)
    found.add_argument("--open", action="store_true")
    found.add_argument("--reading", action="store_true")
    found.add_argument("--as", dest="machine", metavar="MACHINE")
    found.add_argument("--random", nargs=2, type=int, metavar=("SEED", "COUNT"))
    found.add_argument("--all", type=named_shapes, metavar="SHAPES")
    found.add_argument("--locations", type=int, choices=range(1, MOST_LOCATIONS + 1), metavar="N")
    found.add_argument("--fences", action="store_true")
    found.add_argument("--locked", action="store_true")
    found.add_argument("--between", nargs=2, metavar=("MODEL", "MODEL"))
    found.add_argument("files", nargs="*")
    return found


def named_shapes(words: str) -> tuple[Shape, ...]:
    try:
        return shapes_of(words)
    except ValueError as error:
        form = f"such as 4, 3+3 or 2+2+2, of at most {MOST_ACCESSES} accesses"
        raise ArgumentTypeError(f"{quoted(str(error))} is no shape, {form}") from error


def fault_of(options: Namespace) -> str:
    """Which words do not stand beside each other; nothing where all do."""
    making = "--random" if options.random else "--all" if options.all else ""
    if options.random and options.all:
        return "--random and --all make programs in two ways"
    if making and (options.open or not all(word.endswith(".uspec") for word in options.files)):
        return f"{making} makes the programs: there are no tests beside it"
    if options.random and options.random[1] < 1:
        return "--random makes at least one program"
    if not options.all and (options.locations or options.fences or options.locked):
        return "--locations, --fences and --locked say what --all makes"
    if options.between and (not making or options.machine or options.files):
        return "--between compares two models on the programs of --all or --random, and with no machine"
    return ""
