"""The files of definitions in crates/*/specs: what each defines, and what it imports.

Lines are those of definitions: a blank line, a comment and an import are none.
"""

from __future__ import annotations

import itertools
import os
import re
from collections.abc import Iterable
from dataclasses import dataclass, field
from functools import cache, cached_property

from tools import TOP
from tools.ending import Refusal

IMPORT = re.compile(r"(?:ghost |pub )?use .+")
# a list in an import that has no other list in it, and the path before it
MEMBERS = re.compile(r"([^\s{},]+)\.\{([^{}]*)\}")
HEAD = re.compile(r"(?:(?:pub|unfoldable|abbrev|data|record)\s+)+([^\s:({]+)|([^\s:({]+) :")
MUTUAL = re.compile(r"(?:pub |abbrev )?mutual")
DATA = re.compile(r"\s*(?:pub\s+)?data\b")
MEMBER = re.compile(r"\s*(?:pub\s+)?(?:(?:data|record)\s+)?([^\s:({]+)(?:\s*\{[^}]*\}|\s*\([^)]*\))*\s*:")
WORD = re.compile(r"[^\s(){}\[\],;:.λ→×]+")
TEXT = re.compile(r'"[^"]*"')


@dataclass(frozen=True)
class Import:
    """A name that another file defines, by the name that it has there."""

    crate: str
    folder: str
    module: list[str]
    name: str

    @cached_property
    def path(self) -> str:
        """Where that file stands. A constructor may be named after the type that it is of."""
        folder = f"{TOP}/crates/{self.crate}/{self.folder}"
        places = [f"{folder}/{'/'.join(parts)}.antt" for parts in (self.module, self.module[:-1])]
        return next((place for place in places if os.path.isfile(place)), places[0])


@dataclass(eq=False)
class Definition:
    """A definition of a file: its lines, the names that it defines, itself and its constructors, and the modules that it stands in.
    A module is one without a name, whose lines are its head."""

    path: str
    lines: list[str]
    names: list[str] = field(default_factory=list)
    modules: list[Definition] = field(default_factory=list)


@dataclass
class File:
    """What a file of definitions has. Its comment is the one that it begins with."""

    comment: str
    imports: dict[str, Import]
    definitions: list[Definition]

    def defining(self, name: str) -> Definition | None:
        """The definition of a name, if it stands here."""
        return next((it for it in self.definitions if name in it.names), None)

    def count(self) -> int:
        """How many lines its definitions have."""
        return sum(len(it.lines) for it in with_modules(self.definitions))


def with_modules(definitions: Iterable[Definition]) -> set[Definition]:
    """These, and the modules that they stand in."""
    return {part for it in definitions for part in (it, *it.modules)}


def without_imports(lines: Iterable[str]) -> tuple[list[str], list[str]]:
    """The imports of a file, each in one line, and its other lines."""
    imports: list[str] = []
    others: list[str] = []
    for line in lines:
        if imports and imports[-1].count("{") > imports[-1].count("}"):
            imports[-1] += f" {line.strip()}"
        elif IMPORT.fullmatch(line.strip()):
            imports.append(line.strip())
        else:
            others.append(line)
    return imports, others


def paths_of(text: str) -> list[str]:
    """Each path of an import, which may be renamed at its end."""
    while inner := MEMBERS.search(text):
        members = [f"{inner[1]}.{it.strip()}" for it in inner[2].split(",") if it.strip()]
        text = text[: inner.start()] + ", ".join(members) + text[inner.end() :]
    return text.split(", ")


def imports_of(imports: Iterable[str]) -> dict[str, Import]:
    """What imports bring of specs/ and proofs/, by the names that the file has for it."""
    found: dict[str, Import] = {}
    for text in imports:
        for path in paths_of(text.removesuffix(";").partition("use ")[2]):
            whole, _, renamed = path.partition(" as ")
            library, *parts = whole.split(".")
            if library != "Rattle" or parts[1:2] not in (["specs"], ["proofs"]) or len(parts) < 4:
                raise Refusal(f"has an import of another form: {text}")
            crate, folder, *module, name = parts
            found[renamed or name] = Import(crate, folder, module, name)
    return found


def definitions_of(path: str, lines: Iterable[str]) -> list[Definition]:
    """The definitions of a file, in its order."""
    found: list[Definition] = []
    modules: list[Definition] = []
    in_head = is_mutual = False
    for line in lines:
        text = line.strip()
        if not text or text.startswith("--"):
            continue
        if in_head:
            modules[-1].lines.append(line)
            in_head = not text.endswith("where")
            continue
        margin = margin_of(line)
        # a module ends with its indented lines
        modules = [it for it in modules if margin_of(it.lines[0]) < margin]
        mutual, head = MUTUAL.fullmatch(text), HEAD.match(text)
        if text.startswith("module "):
            modules = [*modules, Definition(path, [line])]
            in_head = not text.endswith("where")
        elif margin == 2 * len(modules) and (mutual or head):
            is_mutual = mutual is not None
            found.append(Definition(path, [line], [] if mutual or not head else [head[1] or head[2]], modules))
        elif not found:
            raise Refusal(f"has a line of no definition: {text}")
        else:
            found[-1].lines.append(line)
            member = MEMBER.match(line)
            if member is not None and (is_mutual or DATA.match(found[-1].lines[0])):
                found[-1].names.append(member[1])
    return found


def margin_of(line: str) -> int:
    """How many blanks a line begins with."""
    return len(line) - len(line.lstrip())


@cache
def read_file(path: str) -> File:
    """A file of definitions."""
    with open(path, encoding="utf-8") as file:
        lines = file.read().split("\n")
    comment = itertools.takewhile(lambda line: line.startswith("--"), lines)
    imports, others = without_imports(lines)
    try:
        return File(" ".join(it[2:].strip() for it in comment), imports_of(imports), definitions_of(path, others))
    except Refusal as fault:
        raise Refusal(f"{path} {fault}") from fault


def first_sentence(text: str) -> str:
    """The first sentence of a text. One in a pair of backquotes does not end it."""
    ended = re.match(r"(?:[^`.?]|`[^`]*`|[.?](?!\s|$))*[.?](?=\s|$)", text)
    if ended is None:
        raise Refusal(f"no sentence ends in: {text}")
    return ended[0]


def words_in(lines: Iterable[str]) -> set[str]:
    """The words of lines, without comments and texts."""
    return {word for line in lines for word in WORD.findall(TEXT.sub("", line).partition(" -- ")[0])}


def is_said(name: str, words: set[str]) -> bool:
    """Whether words have a name, which may be an operator with holes."""
    return all(part in words for part in name.split("◌") if part)
