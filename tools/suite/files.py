"""The models and tests of a suite: their bytes, their names in the table, and what checks and judges them."""
import hashlib
import os
import re
import stat
from dataclasses import dataclass, replace
from typing import Iterable, NamedTuple, Sequence

from tools.ending import Refusal
from tools.texts import contents as reading
from tools.texts.memory_models import comments
from tools.texts.quoting import CONTROL, quoted, shown

MODEL_ENDING = ".uspec"
TEST_ENDING = ".test"
PATTERN_ENDING = ".pattern"
QUERY_ENDING = ".query"
# what a query says in comments of its own: what its answer has to be, and the test that it is asked of
ROW = re.compile(rb"%[ \t]*(?:expect|test):", re.IGNORECASE)
EXPECTED = re.compile(rb"%[ \t]*Expect:[ \t]*(always|sometimes|never)\s*")
ASKED_OF = re.compile(rb"%[ \t]*Test:[ \t]*(\S(?:.*\S)?)\s*")
# the rows of the last table stand beside the folders of the models
CELLS = "cells"
# how the name of a file ends until it is whole
PART = ".part"


class Kind(NamedTuple):
    """What checks a test, and what judges its certificate; a sweep has none, and an answer several."""

    check: str
    verify: str | None


# the endings of tests; script/calls has those that `explain` takes
KINDS = {
    TEST_ENDING: Kind("check", "verify"),
    ".litmus": Kind("check86", "verify86"),
    PATTERN_ENDING: Kind("sweep", None),
    QUERY_ENDING: Kind("ask", "verify"),
}


@dataclass(frozen=True)
class File:
    """A model or a test: its name in the table, its bytes, and the hash of these bytes; it may be past reading. A query
    stands as a test: with the test that it is asked of, whose bytes are in the hash too, and the answer it expects."""

    path: str
    name: str
    text: bytes | None
    digest: str
    asked_of: "File | None" = None
    expected: str = ""

    @property
    def base(self) -> str:
        return os.path.basename(self.path)

    @property
    def kind(self) -> Kind:
        return KINDS[ending_of(self.path)]

    @property
    def is_query(self) -> bool:
        return self.asked_of is not None

    @property
    def is_pattern(self) -> bool:
        """Whether it is a test whose reads may be open."""
        return ending_of(self.path) == PATTERN_ENDING


class Copies:
    """What is called reads copies of the bytes that were read, so that it judges these where a file is replaced. Of a file that
    is past reading there is no copy: whoever reads it says so."""

    def __init__(self, folder: str, files: Sequence[File]) -> None:
        self.folder = folder
        for file in files:
            self.write(self.path(file), file)
            if file.asked_of is not None:
                self.write(self.path_of_asked(file), file.asked_of)

    def path(self, file: File) -> str:
        """Where the copy of a file is. What has one name in the table may be a model and a test."""
        return os.path.join(self.folder, "tests" if is_test(file.path) else "models", file.base)

    def path_of_asked(self, query: File) -> str:
        assert query.asked_of is not None
        return os.path.join(self.folder, "asked", query.base, query.asked_of.base)

    def write(self, path: str, file: File) -> None:
        if file.text is None:
            return
        try:
            os.makedirs(os.path.dirname(path), exist_ok=True)
            with open(path, "xb") as copy:
                copy.write(file.text)
        except OSError as error:
            raise Refusal(f"{shown(file.path)} cannot be copied into {shown(self.folder)}: {error.strerror}") from error


def ending_of(path: str) -> str:
    """What a file's name ends in, from its last dot."""
    return os.path.splitext(path)[1]


def is_test(path: str) -> bool:
    return ending_of(path) in KINDS


def contents(path: str) -> bytes | None:
    """The bytes of a file, of a longer one as many as the program refuses; None where they cannot be read."""
    try:
        return reading.contents(path)
    except reading.Unreadable:
        return None


def digest_of(text: bytes) -> str:
    return hashlib.sha256(text).hexdigest()


def in_order(files: Iterable[File]) -> list[File]:
    """Files by the bytes of their names."""
    return sorted(files, key=lambda file: file.name.encode("utf-8", "surrogateescape"))


def model_file(path: str) -> File:
    return file_at("model", path, os.path.basename(path).removesuffix(MODEL_ENDING))


def test_file(path: str, folders: Sequence[str] = ()) -> File:
    """A test. All but tests keep their endings in the table. The test of a query stands beside it, or in one of these folders."""
    file = file_at("test", path, os.path.basename(path).removesuffix(TEST_ENDING))
    if ending_of(path) != QUERY_ENDING:
        return file
    expected, name = row_of_query(file.text or b"")
    if not expected or not name:
        form = "% Expect: always, sometimes or never, and % Test: NAME"
        raise Refusal(f"{shown(path)} is no row of a table: it says so by one comment each, {form}")
    places = [os.path.join(folder, name + TEST_ENDING) for folder in (os.path.dirname(path), *folders)]
    place = next((place for place in places if os.path.isfile(place)), None)
    if place is None:
        raise Refusal(f"{shown(path)} is asked of a test that is not there: {shown(name + TEST_ENDING)}")
    asked_of = file_at("test", place, name)
    digest = digest_of(f"{file.digest} {asked_of.digest}".encode("ascii")) if asked_of.digest else ""
    return replace(file, digest=digest, asked_of=asked_of, expected=expected)


def row_of_query(text: bytes) -> tuple[str, str]:
    """What the answer to a query has to be, and the name of its test, as comments say; empty where not one does."""
    said = [comment for _, comment in comments(text)]
    found = [[match[1] for match in map(form.fullmatch, said) if match is not None] for form in (EXPECTED, ASKED_OF)]
    expected, name = (os.fsdecode(names[0]) if len(names) == 1 else "" for names in found)
    return expected, name


def is_row(path: str) -> bool:
    """Whether a file of a folder is a row of a table, as a query is by its comments, or is to be by one that is not right."""
    return ending_of(path) != QUERY_ENDING or any(ROW.match(it) for _, it in comments(contents(path) or b""))


def file_at(kind: str, path: str, name: str) -> File:
    """A file under this name, which would not stand outside the folder, and is one cell of a table."""
    if name in ("", CELLS, CELLS + PART) or name.startswith((".", "-")) or CONTROL.search(name):
        raise Refusal(f"no {kind} may be named {quoted(name)}")
    text = contents(path)
    return File(path, name, text, digest_of(text) if text is not None else "")


def judge_present(path: str) -> None:
    """Refuses a word that names no file and no folder."""
    try:
        mode = os.stat(path).st_mode
    except FileNotFoundError as error:
        raise Refusal(f"{shown(path)} is not there") from error
    except OSError as error:
        raise Refusal(f"{shown(path)} cannot be read: {error.strerror}") from error
    if not stat.S_ISREG(mode) and not stat.S_ISDIR(mode):
        raise Refusal(f"{shown(path)} is neither a file nor a folder: it is read more than once")
    if not os.access(path, os.R_OK):
        raise Refusal(f"{shown(path)} may not be read")


def judge_distinct(kind: str, files: list[File]) -> None:
    seen: dict[str, File] = {}
    for file in files:
        other = seen.setdefault(file.name, file)
        if other is not file:
            paths = f"{shown(other.path)} and {shown(file.path)}"
            raise Refusal(f"two {kind}s have one name: {file.name}: {paths}; a link gives one of them another name")
