"""Lists what in a model, and in tests and queries that are to be asked of it, may change the question without a word.

    python3 tools lint MODEL [TEST..] [QUERY..]

Each slip is a line `FILE:LINE:COLUMN: KIND: ..` on standard output, and so is a refused file, with the fault's word.
docs/lint.md has the exit statuses.
"""
import os
import sys
from functools import partial
from typing import Callable, Iterable, Iterator

from tools import TOP
from tools.lint.linting import Linter, read_query_file, read_test
from tools.lint.slips import Slip
from tools.second.listings import ENDING as LISTING
from tools.second.patterns import ENDING as PATTERN
from tools.second.queries import InModel
from tools.second.scopes import read_model
from tools.second.tokens import Fault
from tools.telling.files import sentence
from tools.telling.meant import meant
from tools.telling.refusals import misplaced, reader
from tools.texts.contents import Read, contents, read_within
from tools.texts.expecting import sentence_of
from tools.texts.quoting import line_and_column, line_of

TELLER = "pipecheck"
# how the name of a query ends; any other file is a test, a listing or a pattern
QUERY = ".query"
KINDS = {QUERY: "query", LISTING: "listing", PATTERN: "pattern"}


class Files:
    """The files that are read, by their paths, beside a model; and whether one was refused."""

    def __init__(self, model_path: str) -> None:
        self.model_path = model_path
        self.texts: dict[str, bytes] = {}
        self.is_refused = False

    def read(self, kind: str, path: str, reader: Callable[[bytes], Read]) -> Read | None:
        """What is read; None where it is refused, which is told: of the model where the fault of a query is there."""
        self.texts[path] = contents(path)
        try:
            return read_within(reader, self.texts[path])
        except Fault as fault:
            path = self.model_path if isinstance(fault, InModel) else path
            self.is_refused = True
            print(line_of(path, self.texts[path], fault.place, f"{fault.word}: {sentence(TOP, kind, fault.word)}"))
            for line in self.hints(kind, path, fault):
                print(line, file=sys.stderr)
            return None

    def hints(self, kind: str, path: str, fault: Fault) -> Iterator[str]:
        """What could stand at a fault; and that the file is of another kind than its place and its name say, where it is."""
        if sentence_of(fault):
            yield f"pipecheck: {sentence_of(fault)}"
        model, text = self.texts[self.model_path], self.texts[path]
        if kind in ("model", "query"):
            yield from meant(TOP, fault.word, text, line_and_column(text, fault.place), model)
        if (kind, path) != ("model", self.model_path):
            kind = KINDS.get(os.path.splitext(path)[1], "test")
        if fault.word in ("lexical", "syntax"):
            yield from misplaced(kind, "lint MODEL [TEST..] [QUERY..]", path, text)
            yield from reader("lint", path, text) if kind == "test" else ()


def main(model_path: str, *paths: str) -> int:
    """Writes the lines and answers the exit status."""
    files = Files(model_path)
    found: Iterable[Slip] = ()
    asked = [path for path in paths if path.endswith(QUERY)]
    model = files.read("model", model_path, read_model)
    tests = [files.read("test", path, partial(read_test, path)) for path in paths if path not in asked]
    if model is not None:
        queries = [files.read("query", path, partial(read_query_file, path, model=model)) for path in asked]
        text = files.texts[model_path]
        found = Linter(model_path, text, model, [it for it in tests if it], [it for it in queries if it]).slips()
    count = 0
    for slip in found:
        print(line_of(slip.path, files.texts[slip.path], slip.at, f"{slip.kind}: {slip.sentence}"))
        count += 1
    return 3 if files.is_refused else 1 if count else 0
