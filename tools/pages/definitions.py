"""Says which definitions have to be believed: the files that clauses of the top call speak of, and their lines.

    python3 tools definitions                how many there are for each word below
    python3 tools definitions WORD           the files in reading order, each after those that it takes from
    python3 tools definitions --status WORD  of a command, those of its status: which one comes, and what it says of the files
    python3 tools definitions --page         all in short, as docs/architecture.md has it
    python3 tools definitions --sentence     what README says of them

A WORD is `observable`, the first word of a command, or `all`. Definitions are followed by the names that they say. A
file is shown with its first sentence, and where only a part of it is reached, with the names of that part. Lines are
those of definitions: a blank line, a comment and an import are none.
"""
import glob
import os
import re
from collections.abc import Iterable, Iterator
from dataclasses import dataclass, field

from tools import TOP
from tools.ending import Refusal
from tools.pages.antt import Definition, Import, first_sentence, imports_of, is_said, read_file, with_modules
from tools.pages.antt import without_imports, words_in

TELLER = "definitions"
# what is no command, and can be asked for too
OBSERVABLE, ALL = "observable", "all"


@dataclass
class Meaning:
    """What a word of a user stands for: the files where reading it ends, and what their definitions reach: of each file its
    definitions, and of each file of the code its types and constants."""

    roots: list[str]
    files: dict[str, set[Definition]] = field(default_factory=dict)
    types: dict[str, set[str]] = field(default_factory=dict)
    # what each file takes from others
    below: dict[str, set[str]] = field(default_factory=dict)
    # lines that stand for a part of a definition
    parts: dict[Definition, list[str]] = field(default_factory=dict)

    def lines_of(self, it: Definition) -> list[str]:
        """The lines of a definition that count."""
        return self.parts.get(it, it.lines)

    def add(self, definitions: Iterable[Definition]) -> None:
        """Takes definitions, with all that they reach."""
        waiting = list(definitions)
        while waiting:
            definition = waiting.pop()
            taken = self.files.setdefault(definition.path, set())
            if definition not in taken:
                taken.add(definition)
                waiting += self.named(definition)

    def named(self, definition: Definition) -> Iterator[Definition]:
        """The definitions that one names."""
        file = read_file(definition.path)
        words = words_in(line for it in with_modules([definition]) for line in self.lines_of(it))
        for it in file.definitions:
            if it is not definition and any(is_said(name, words) for name in it.names):
                yield it
        for name, imported in file.imports.items():
            if is_said(name, words):
                yield from self.imported(definition.path, imported)

    def imported(self, path: str, it: Import) -> Iterator[Definition]:
        """The definition of what a file imports. The standard library's are part of the toolchain."""
        if it.crate == "std":
            return
        if it.module[0] in ("declared", "contracts"):
            path, name = code_type(it)
            self.types.setdefault(path, set()).add(name)
            return
        found = read_file(it.path).defining(it.name) if os.path.isfile(it.path) else None
        if found is None:
            raise Refusal(f"{path} imports {it.name}, which {it.path} does not define")
        self.below.setdefault(path, set()).add(it.path)
        yield found

    def in_order(self) -> list[str]:
        """Its files in reading order, each after those that it takes from."""
        ordered: list[str] = []
        seen: set[str] = set()

        def visit(path: str) -> None:
            if path not in seen:
                seen.add(path)
                for it in read_file(path).imports.values():
                    if it.path in self.below.get(path, ()):
                        visit(it.path)
                ordered.append(path)

        for path in [*self.roots, *self.files]:
            visit(path)
        return [it for it in ordered if it in self.files]

    def count_in(self, path: str) -> int:
        """How many lines of a file are reached."""
        return sum(len(self.lines_of(it)) for it in with_modules(self.files[path]))

    def count(self) -> int:
        """How many lines are reached."""
        return sum(map(self.count_in, self.files))

    def partly(self, path: str) -> list[str]:
        """The names of a file's definitions that are reached, where not all are."""
        definitions, taken = read_file(path).definitions, self.files[path]
        return [] if len(taken) == len(definitions) else [it.names[0] for it in definitions if it in taken]

    def by_imports(self) -> tuple[int, int]:
        """How many files there would be, and lines, if each import were followed, also where nothing needs it. Of the roots, which
        are tables of all commands, the imports that are needed alone."""
        found: set[str] = set()
        waiting = [it for root in self.roots for it in self.below.get(root, ())]
        while waiting:
            path = waiting.pop()
            if path not in found:
                found.add(path)
                waiting += [it.path for it in read_file(path).imports.values() if os.path.isfile(it.path)]
        roots = [it for it in self.roots if it not in found]
        return len(found) + len(roots), sum(read_file(it).count() for it in found) + sum(map(self.count_in, roots))


def code_type(it: Import) -> tuple[str, str]:
    """The file of the code that an import is of, and what it names there. What it has of a type is the type's."""
    parts = it.module[1:]
    for count in range(len(parts), 0, -1):
        path = f"{TOP}/crates/{it.crate}/src/{'/'.join(parts[:count])}.rt"
        if os.path.isfile(path):
            more = [part for part in parts[count:] if not part.startswith("The")]
            return path, more[0] if more else it.name
    raise Refusal(f"no file of crates/{it.crate}/src is the module {'.'.join(parts)}")


def only(pattern: str) -> str:
    """The one file of this pattern."""
    found = glob.glob(pattern)
    if len(found) != 1:
        raise Refusal(f"{pattern} is {len(found)} files")
    return found[0]


def constructors(path: str) -> dict[str, str]:
    """Of each first word of a command line the constructor that it is, by the equations of a file that spell them."""
    lines = [line for definition in read_file(path).definitions for line in definition.lines]
    spelt = [re.fullmatch(r'\w+ (?:\((\w+)[^)]*\)|(\w+)) = codes "([\w-]+)".*', line) for line in lines]
    return {it[3]: it[1] or it[2] for it in spelt if it is not None}


class Top:
    """The top call: the crate whose specs/ has Headline.antt, which says which status comes, and Answers.antt, which says
    the text too; and the definitions of commands that they take."""

    def __init__(self) -> None:
        headline = only(f"{TOP}/crates/*/specs/Headline.antt")
        self.crate = os.path.dirname(os.path.dirname(headline))
        self.roots = [headline, f"{self.crate}/specs/Answers.antt"]
        imported = dict.fromkeys(it.path for it in read_file(headline).imports.values())
        spelt = {it: constructors(it) for it in imported if os.path.isfile(it)}
        self.commands = next((it for it, words in spelt.items() if words), "")
        if not self.commands:
            raise Refusal(f"no command is spelt in a file that {headline} imports")
        self.words = spelt[self.commands]

    def names(self) -> list[str]:
        """What can be asked for."""
        return [OBSERVABLE, *self.words, ALL]

    def of_word(self, word: str, of_status: bool = False) -> Meaning:
        """What a word stands for, or, of a command, its status alone."""
        if word == OBSERVABLE:
            return of_observable()
        if word == ALL:
            return self.of_all()
        if word not in self.words:
            raise Refusal(f"no such word: {word}. There are {', '.join(self.names())}")
        return self.of_command(word, self.roots[:1] if of_status else self.roots)

    def of_command(self, word: str, roots: list[str]) -> Meaning:
        """What a command answers, by these tables: their lines that are of other commands are left out."""
        meaning = Meaning(roots)
        others = set(self.words.values()) - {self.words[word]}
        for path in [*roots, self.commands]:
            meaning.parts.update((it, without(it.lines, others)) for it in read_file(path).definitions)
        for path in roots:
            meaning.add(read_file(path).definitions)
        return meaning

    def of_all(self) -> Meaning:
        """What all clauses of the top call name."""
        meaning = Meaning(self.roots)
        for path in glob.glob(f"{self.crate}/src/*.rt"):
            with open(path, encoding="utf-8") as file:
                text = file.read()
            contract = re.search(r"^pub fn run\b.*?^\{", text, re.M | re.S)
            if contract is not None:
                words = words_in(contract[0].split("\n"))
                imports, _ = without_imports(text.split("\n"))
                for name, it in imports_of(it for it in imports if it.startswith("ghost ")).items():
                    if is_said(name, words):
                        meaning.add(meaning.imported(path, it))
        for path in self.roots:
            meaning.add(read_file(path).definitions)
        return meaning


def of_observable() -> Meaning:
    """What it means that an outcome is observable."""
    path = only(f"{TOP}/crates/*/specs/Observable.antt")
    definition = read_file(path).defining("Observable")
    if definition is None:
        raise Refusal(f"{path} does not define Observable")
    meaning = Meaning([path])
    meaning.add([definition])
    return meaning


def without(lines: list[str], others: set[str]) -> list[str]:
    """The lines of a definition but for its equations, and constructors, at one of these constructors of commands."""
    kept: list[str] = []
    is_kept = True
    for line in lines:
        equation = re.match(r"\S+ (.*?) =(?: |$)", line)
        constructor = re.match(r"  (\S+) : ", line)
        if equation is not None:
            is_kept = not words_in([equation[1]]) & others
        elif constructor is not None:
            is_kept = constructor[1] not in others
        elif not line.startswith("    "):
            is_kept = True
        if is_kept:
            kept.append(line)
    return kept


def by_crate(paths: Iterable[str]) -> dict[str, list[str]]:
    """The names of files, by their crates, both in the order given."""
    found: dict[str, list[str]] = {}
    for path in paths:
        crate = path.rpartition("/crates/")[2].partition("/")[0]
        found.setdefault(crate, []).append(os.path.basename(path).removesuffix(".antt"))
    return found


def meanings(top: Top) -> Iterator[tuple[str, Meaning | None, Meaning]]:
    """Each meaning, by the words for it: words of one command have one. Before it that of a command's status."""
    same: dict[str, list[str]] = {}
    for word in top.names():
        same.setdefault(top.words.get(word, f"no command: {word}"), []).append(word)
    for words in same.values():
        status = top.of_word(words[0], of_status=True) if words[0] in top.words else None
        yield ", ".join(f"`{it}`" for it in words), status, top.of_word(words[0])


def counts(top: Top) -> Iterator[str]:
    """How many files and lines each word has."""
    yield "what                   status: files  lines    all: files  lines    with all that they import"
    for words, status, meaning in meanings(top):
        of_status = (len(status.files), status.count()) if status else ("", "")
        of_all = (len(meaning.files), meaning.count(), *meaning.by_imports())
        yield "{:<22} {:>13} {:>6} {:>13} {:>6} {:>10} files, {:>5} lines".format(words.replace("`", ""), *of_status, *of_all)


def listing(meaning: Meaning) -> Iterator[str]:
    """The files of a meaning, and what they take of the code."""
    for path in meaning.in_order():
        names = meaning.partly(path)
        of_all = f" of {read_file(path).count()}" if names else ""
        said = first_sentence(read_file(path).comment) if read_file(path).comment else ""
        yield f"{meaning.count_in(path):>4}{of_all:<7} {os.path.relpath(path, TOP):<48} {said}".rstrip()
        if names:
            yield f"            these: {', '.join(names)}"
    count = f"{len(meaning.files)} files, {meaning.count()} lines"
    yield "{}; with all that they import {} files, {} lines".format(count, *meaning.by_imports())
    yield "They speak of these types and constants of the code:"
    for path, named in sorted(meaning.types.items()):
        yield f"  {os.path.relpath(path, TOP)}: {', '.join(sorted(named))}"


def page(top: Top) -> Iterator[str]:
    """The counts as a table, and the files by crate."""
    yield from ("| what | of its status: files | lines | with its text: files | lines |", "|---|---|---|---|---|")
    for words, status, meaning in meanings(top):
        of_status = f"{len(status.files)} | {status.count():,}" if status else "|"
        yield f"| {words} | {of_status} | {len(meaning.files)} | {meaning.count():,} |"
    yield from ("", "| crate | files of `specs/` that clauses of `run` reach | lines |", "|---|---|---|")
    meaning = top.of_word(ALL)
    files = meaning.in_order()
    for crate, names in by_crate(files).items():
        lines = sum(meaning.count_in(it) for it in files if f"/crates/{crate}/" in it)
        yield f"| `{crate}` | {', '.join(f'`{it}`' for it in names)} | {lines:,} |"


def sentence(top: Top) -> Iterator[str]:
    """How few lines say what a verdict means, and how many all."""
    few, every = top.of_word(OBSERVABLE), top.of_word(ALL)
    yield f"{len(few.files)} files with {few.count():,} lines of definitions say what *observable* means, and"
    yield f"{len(every.files)} files with {every.count():,} lines what all clauses of `run` mean."


def main(*words: str) -> int:
    """Answers one call."""
    top = Top()
    asked = words or ("--counts",)
    of_status = asked[0] == "--status"
    if len(asked) != 1 + of_status:
        raise Refusal("definitions takes one word")
    if of_status and asked[-1] not in top.words:
        raise Refusal(f"no such command: {asked[-1]}. There are {', '.join(top.words)}")
    forms = {"--counts": counts, "--page": page, "--sentence": sentence}
    lines = forms[asked[0]](top) if asked[0] in forms else listing(top.of_word(asked[-1], of_status))
    print("\n".join(lines))
    return 0
