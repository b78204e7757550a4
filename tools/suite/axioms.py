"""What each axiom of a model is for: which verdicts of tests change without it."""
import os
import time
from contextlib import suppress
from functools import partial
from typing import Sequence

from tools.ending import Refusal
from tools.second.cores import without
from tools.second.scopes import read_model
from tools.second.tokens import Fault
from tools.suite.calling import side_by_side
from tools.suite.files import Copies, File, digest_of, in_order
from tools.suite.keeping import Kept
from tools.suite.pairs import TIME, Checker, Found
from tools.suite.running import checked
from tools.suite.telling import aligned
from tools.texts.answers import cut_text
from tools.texts.quoting import line_of

NEEDED = "untested or not needed"


def row_of(title: str, tests: Sequence[File], whole: Sequence[Found], rest: Sequence[Found]) -> list[str]:
    """The row of an axiom: how many verdicts change without it, and the first test whose does, or that none does; and on how many
    there is none with it or without it."""
    pairs = list(zip(tests, whole, rest))
    unknown = [test.name for test, here, there in pairs if here.fault or there.fault]
    changed = [test.name for test, here, there in pairs if "" != here.verdict != there.verdict != ""]
    said = changed[:1]
    if unknown:
        said.append(f"no verdict on {len(unknown)}, the first {unknown[0]}")
    return [title, str(len(changed)), "; ".join(said) or NEEDED]


def answers_of(
    models: Sequence[File], tests: Sequence[File], checker: Checker, kept: Kept, folder: str, jobs: int
) -> list[Found]:
    """What comes of each pair, model by model. What is written meanwhile goes to a folder."""
    copies = Copies(folder, [*models, *tests])

    def found(model: File, test: File) -> Found:
        place = os.path.join(folder, f"{model.name}.{test.base}")
        found = checked(checker, [kept], copies, model, test, place)
        with suppress(OSError):
            os.unlink(place)
        return found

    tasks = [partial(found, model, test) for model in models for test in tests]
    return side_by_side(checker.calls, jobs, tasks, is_long=True)


def run_axioms(model: File, tests: Sequence[File], checker: Checker, kept: Kept, folder: str, jobs: int) -> tuple[list[str], int]:
    """The lines of the table with the count, and the status."""
    text = model.text or b""
    try:
        read = read_model(text)
    except Fault as fault:
        raise Refusal(f"the model is refused: {line_of(model.path, text, fault.place, fault.word)}") from fault
    if any(test.is_pattern or test.is_query for test in tests):
        raise Refusal("--axioms compares verdicts, which patterns and queries have not")
    begun = time.monotonic()
    tests = in_order(tests)
    numbers = list(range(len(read.axioms)))
    texts = [text, *(cut_text(read, text, without(numbers, number)) for number in numbers)]
    models = [File(f"{place}.uspec", str(place), text, digest_of(text)) for place, text in enumerate(texts)]
    answers = answers_of(models, tests, checker, kept, folder, jobs)
    kept.tell_taken()
    kept.shorten()
    whole, *others = (answers[first : first + len(tests)] for first in range(0, len(answers), len(tests)))
    titles = (f'{number} "{axiom.title}"' for number, axiom in enumerate(read.axioms))
    rows = [row_of(title, tests, whole, rest) for title, rest in zip(titles, others)]
    changing = sum(row[1] != "0" for row in rows)
    late = sum(found.fault == TIME for found in answers)
    faults = sum(bool(found.fault) for found in answers) - late
    count = f"{len(rows)} axioms on {len(tests)} tests: {changing} change a verdict, {len(rows) - changing} change none, "
    count += f"{late} time, {faults} faults, in {int(time.monotonic() - begun)} s"
    return [*aligned([["axiom", "changes", "first"], *rows]), count], 2 if late or faults else 0
