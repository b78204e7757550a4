"""What may be meant by a name, or a sign, that a model or a query has wrong."""
import os
import re
from difflib import get_close_matches
from typing import Iterator

from tools.second.models import RESERVED
from tools.telling.files import rows_of

NAME = "[A-Za-z0-9_']+"
NEAR = 0.75
# what is longer is no slip of a word that there is
LONGEST = 100
SIGNS = {"&": "/\\", "|": "\\/", "!": "~", "not": "~", "->": "=>", "#": "%", "'": '"',
         '"': "a text of printable ASCII that ends in its line"}
# what is said of a name that there is
SAID = {
    "predicate-unknown": "a macro has this name:",
    "macro-unknown": "a macro expands only those above it, and this one is below:",
}


def forms_of(top: str, word: str, model: bytes) -> dict[str, str]:
    """What can be meant where a fault has this word, and how each of it is written."""
    text = model.decode("latin-1")
    macros = {name: " ".join(["ExpandMacro", name, *re.findall(NAME, parameters)])
              for name, parameters in re.findall(rf'DefineMacro\s+"({NAME})"((?:\s+"{NAME}")*)', text)}
    predicates = {form.split()[0]: form for form, _ in rows_of(os.path.join(top, "docs", "language.md"), "| predicate |")}
    words = {word: word for word in RESERVED}
    return {
        "syntax": words, "predicate-unknown": words | predicates | macros,
        "stage-unknown": {name: name for name in re.findall(rf'StageName\s+[0-9]+\s+"({NAME})"', text)},
        "macro-unknown": macros, "macro-arguments": macros, "arity": predicates, "unbound": predicates, "wrong-sort": predicates,
    }.get(word, {})


def meant(top: str, word: str, data: bytes, place: str, model: bytes) -> Iterator[str]:
    """What may be meant where a fault of this word has this line and column; or how what has the name is written."""
    line, column = (int(it) for it in place.split(":"))
    text = [*data.decode("latin-1").split("\n"), ""][line - 1]
    # in one pass, since a line may be as long as a file
    before = re.split(r"[^A-Za-z0-9_' \t]", text[: column - 1])[-1].split()
    # a misspelt word of the language is read as a predicate, so that the fault is behind it; so are wrong arguments
    here = {"lexical": [text[column - 1 : column]], "syntax": [*before[-1:], text[column - 1 : column + 1]],
            "unbound": before[:1], "wrong-sort": before[:1]}
    node = re.match(rf"({NAME}), *({NAME})\)", text[column - 1 :])
    if word == "unbound" and node and len(node[0]) <= LONGEST and node[1] in forms_of(top, "stage-unknown", model):
        yield f"pipecheck: ({node[0]} may be meant for ({node[2]}, {node[1]})"
    for name in here.get(word, re.findall(rf"\A{NAME}", text[column - 1 :])):
        forms = forms_of(top, word, model)
        if name in SIGNS and name not in forms:
            yield f"pipecheck: {name} may be meant for {SIGNS[name]}"
        elif name not in forms:
            # a word may be its capital alone; the word before a fault of syntax may be right
            short = re.sub("(?<=[A-Z])(?=[A-Z]|$)", "[a-z]*", re.escape(name[:LONGEST]))
            near = [it for it in forms if word != "syntax" and re.fullmatch(short, it)]
            near += get_close_matches(name[:LONGEST], forms, 1, NEAR)
            yield from (f"pipecheck: {name} may be meant for {forms[it]}" for it in near[:1])
        elif word != "syntax":
            yield f"pipecheck: {SAID.get(word, 'it takes')} {forms[name]}"
