"""Says what may stand next on a command line of `pipecheck`, for the completion of each shell, by the table commands.txt.

    python3 tools completing WORD..     the words that stand between `pipecheck` and the one that is looked for

A line `word WORD SENTENCE`, with a tab before the sentence, is a word that may stand there, and `file .ENDING` says that
a file with this ending may, `file` that any file may. Where a file may stand, a folder may.
"""
from typing import Iterator

from tools import TOP
from tools.telling.forms import Forms

OPTIONS = ("--all", "--as", "--between", "--fences", "--help", "--locations", "--locked", "--open", "--random", "--reading")
TESTS = {
    "explain": (".test", ".litmus"), "mend": (".test", ".litmus"),
    "lint": (".test", ".litmus", ".pattern"), "agree": (".test", ".litmus", ".pattern"),
}
# the endings of files by what a form calls them
ENDINGS = {
    "MODEL": (".uspec",), "FILE": (".litmus",), "LISTING": (".litmus",), "PATTERN": (".pattern", ".test"), "QUERY": (".query",),
}


def commands(forms: Forms) -> dict[str, str]:
    """The commands, each with what is said of it first."""
    found: dict[str, str] = {}
    for form in forms.forms:
        found.setdefault(form.word, form.sentence)
    return found


def may_stand(kind: str, command: str, forms: Forms) -> Iterator[str]:
    """What may stand for a word of a form, as `[TEST..]` or `QUERY`."""
    name = kind.strip("[].")
    if name == "WORD":
        yield from words(commands(forms))
    elif name == "OPTION":
        yield from words(dict.fromkeys(OPTIONS, ""))
    elif name == "N":
        yield from words({str(number): "" for number in range(2, 17)})
    elif name == "TEST":
        yield from (f"file {ending}" for ending in TESTS.get(command, (".test",)))
    else:
        yield from (f"file {ending}".rstrip() for ending in ENDINGS.get(name, ("",)))


def words(found: dict[str, str]) -> Iterator[str]:
    """Lines of these words, each with its sentence."""
    yield from (f"word {word}\t{sentence}" for word, sentence in found.items())


def kinds_at(kinds: list[str], place: int) -> Iterator[str]:
    """Which of these kinds of words may stand at a place, from 0."""
    first = len(kinds)
    for k, kind in enumerate(kinds):
        if kind.endswith("..]"):
            # any number of these, none too, so that the next ones may stand where the first of them does
            first = min(first, k)
            if place >= first:
                yield kind
        elif kind.endswith(".."):
            # one of these or more, so that the next one may stand behind the first of them
            if place >= k:
                yield kind
            if place > k:
                yield kinds[k + 1]
            return
        elif place == k:
            yield kind


def main(*before: str) -> None:
    """Writes the lines, each once."""
    forms = Forms(TOP)
    if before:
        command = before[0]
        kinds = [kind for form in forms.of(command) for kind in kinds_at(form.kinds, len(before) - 1)]
        found = [line for kind in kinds for line in may_stand(kind, command, forms)]
    else:
        found = [*words(commands(forms)), "word --help\tShows these forms."]
    for line in dict.fromkeys(found):
        print(line)
