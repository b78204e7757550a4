"""The forms of the commands, from the table commands.txt."""
import os
import textwrap
from typing import Iterator, NamedTuple

from tools.texts.quoting import quoted

STATUSES = "Exit status: 0 observable, 1 unobservable, 6 a refused certificate, any other no verdict (docs/faults.md)."
WIDTH = 80


class Form(NamedTuple):
    """One form of a command: who answers it, its word, the words after it, and what it does."""

    whose: str
    word: str
    after: str
    sentence: str

    @property
    def kinds(self) -> list[str]:
        """What the words after the first are."""
        return self.after.split()


class Forms:
    """The forms of all commands."""

    def __init__(self, top: str) -> None:
        with open(os.path.join(top, "commands.txt"), encoding="ascii") as file:
            rows = [line.rstrip("\n").split("|") for line in file if line.startswith(("program|", "script|"))]
        self.forms = [Form(*row) for row in rows]

    def of(self, word: str) -> list[Form]:
        return [form for form in self.forms if form.word == word]

    def kinds_of(self, words: list[str]) -> list[str]:
        """What the words after the first are, by the form that they fit; nothing where they fit none."""
        return next((it.kinds for it in self.of(words[0]) if len(it.kinds) == len(words) - 1), [])

    def lines(self, word: str = "") -> Iterator[str]:
        """The forms of all commands, or of one."""
        for form in self.of(word) if word else self.forms:
            yield f"pipecheck {form.word}{' ' if form.after else ''}{form.after}"
            yield from textwrap.wrap(form.sentence, WIDTH, initial_indent="    ", subsequent_indent="    ", break_on_hyphens=False)
        if not word:
            yield from textwrap.wrap(STATUSES, WIDTH, break_on_hyphens=False)

    def misuse(self, words: list[str]) -> Iterator[str]:
        """That the words are no command, after the forms of the command that the first word names, or of all."""
        if words[:1] == ["help"] and len(words) == 2:
            # of what is no command there are no forms to show
            words = words[1:]
        if not words:
            yield from self.lines()
            yield "pipecheck: a command is missing; those that there are stand above"
        elif self.of(words[0]):
            yield from self.lines(words[0])
            yield f"pipecheck: these words are no command; how {words[0]} is called stands above"
        else:
            yield from self.lines()
            yield f"pipecheck: there is no command {quoted(words[0])}; those that there are stand above"

    def before(self, words: list[str]) -> Iterator[str]:
        """That the words are no command, before a program is made that says so. The script judges its own."""
        if not any(it.whose == "script" or len(it.kinds) == len(words) - 1 for it in self.of(words[0])):
            said = "these words are no command, as the program will say when it is built: ./pipecheck help lists the forms"
            yield f"pipecheck: {said}"
