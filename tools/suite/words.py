"""The words and the variables of the environment that the suite is called with."""
import os
import re
from typing import Mapping, NamedTuple, Sequence

from tools.ending import Refusal
from tools.suite.files import KINDS, MODEL_ENDING, File, ending_of, is_row, is_test, judge_distinct, judge_present
from tools.suite.files import model_file, test_file
from tools.texts.quoting import quoted, shown

SECONDS = re.compile(r"[0-9]{1,9}(\.[0-9]+)?", re.ASCII)
JOBS = re.compile(r"[0-9]{1,4}", re.ASCII)
OPTIONS = ("--differ", "--bad", "--axioms")
# options that a path follows
BASELINE, JUNIT, SARIF = "--baseline", "--junit", "--sarif"
OPTIONS_OF_PATHS = (BASELINE, JUNIT, SARIF)


class Words(NamedTuple):
    """What the suite is asked for: options, some with a path, models and tests."""

    options: Mapping[str, str]
    models: list[File]
    tests: list[File]


def read_words(words: Sequence[str], environ: Mapping[str, str], top: str) -> Words:
    """The options, and the files that the other words name, in any order. Where no word names a model all that are
    shipped are taken, and where none names a test the folder SUITE_TESTS, or that of the shipped ones."""
    options, rest = options_of(words)
    models: list[str] = []
    tests: list[str] = []
    for word in rest:
        judge_present(word)
        if os.path.isdir(word):
            tests += tests_in(word)
        else:
            (tests if is_test(word) else models).append(word)
    shipped = os.path.join(top, "examples", "tests")
    models = models or files_in(os.path.join(top, "examples", "models"), (MODEL_ENDING,))
    if "--axioms" in options and len(models) != 1:
        raise Refusal("--axioms takes one model, which is named")
    models, tests = once(models), once(tests or tests_in(environ.get("SUITE_TESTS") or shipped))
    folders = [*dict.fromkeys(os.path.dirname(path) for path in tests), shipped]
    found = Words(options, [model_file(path) for path in models], [test_file(path, folders) for path in tests])
    judge_distinct("model", found.models)
    judge_distinct("test", found.tests)
    return found


def once(paths: Sequence[str]) -> list[str]:
    """The paths without those of a file that stands among them before."""
    found: dict[str, str] = {}
    for path in paths:
        # a link is a file of its own: it gives another name
        found.setdefault(os.path.join(os.path.realpath(os.path.dirname(path)), os.path.basename(path)), path)
    return list(found.values())


def options_of(words: Sequence[str]) -> tuple[Mapping[str, str], list[str]]:
    """The options, with the paths that follow them, and the other words."""
    options: dict[str, str] = {}
    rest: list[str] = []
    waiting = iter(words)
    for word in waiting:
        if word == "--":
            rest += waiting
        elif word in OPTIONS:
            options[word] = ""
        elif word in OPTIONS_OF_PATHS:
            path = next(waiting, "")
            if not path or word in options:
                raise Refusal(f"{word} takes one file, which is named behind it")
            options[word] = path
        elif word.startswith("-"):
            raise Refusal(f"there is no option {quoted(word)}; --help shows how it is called")
        else:
            rest.append(word)
    if "--axioms" in options and len(options) > 1:
        raise Refusal("--axioms takes no other option beside it")
    return options, rest


def tests_in(folder: str) -> list[str]:
    """The tests of a folder, which has some."""
    tests = [path for path in files_in(folder, tuple(KINDS)) if is_row(path)]
    if not tests:
        raise Refusal(f"there is no test in {shown(folder)}")
    return tests


def files_in(folder: str, endings: Sequence[str]) -> list[str]:
    """The files of a folder with these endings, in the order of their names. Hidden ones are passed over."""
    judge_present(folder)
    try:
        names = sorted(os.listdir(folder), key=os.fsencode)
    except OSError as error:
        raise Refusal(f"the folder {shown(folder)} cannot be read: {error.strerror}") from error
    found = [os.path.join(folder, name) for name in names if not name.startswith(".") and ending_of(name) in endings]
    for path in found:
        judge_present(path)
        if os.path.isdir(path):
            raise Refusal(f"{shown(path)} is a folder with the name of a file")
    return found


def limits_of(environ: Mapping[str, str]) -> tuple[float, int]:
    """The limit of one call, in seconds, and how many calls run side by side."""
    seconds = number_in(environ, "SUITE_SECONDS", SECONDS, "20", "a number above 0")
    return seconds, int(number_in(environ, "SUITE_JOBS", JOBS, str(len(os.sched_getaffinity(0))), "a number from 1 to 9999"))


def number_in(environ: Mapping[str, str], name: str, form: re.Pattern[str], default: str, kind: str) -> float:
    value = environ.get(name) or default
    if form.fullmatch(value) is None or float(value) == 0:
        raise Refusal(f"{name} is {kind}, and not {quoted(value)}")
    return float(value)


def folder_of(environ: Mapping[str, str], top: str) -> str:
    """Where certificates go. An installed copy has no place of its own for them."""
    if environ.get("SUITE_FOLDER"):
        return environ["SUITE_FOLDER"]
    if os.path.exists(os.path.join(top, "script", "build")):
        return os.path.join(top, "out", "suite")
    cache = environ.get("XDG_CACHE_HOME")
    if not cache:
        home = environ.get("HOME")
        if not home:
            raise Refusal("there is no HOME: name the folder of the certificates in SUITE_FOLDER")
        cache = os.path.join(home, ".cache")
    return os.path.join(cache, "pipecheck", "suite")
