"""Names the axioms that an answer of the program has numbers of, each with its place in the form that editors jump to.

    python3 tools axiom_names core MODEL ANSWER        the axioms of a core
    python3 tools axiom_names ask MODEL QUERY          the query, which is the last axiom of both models that are searched

The exit status is 0, or 125 where the files are none that the program can have answered.
"""
from pathlib import Path
from typing import Iterator

from tools.second.models import Axiom
from tools.second.scopes import read_model
from tools.second.standard_output import FAILED
from tools.second.tokens import Fault, tokens
from tools.texts.answers import AnswerRefused, Core, read_answer
from tools.texts.quoting import line_and_column, shown


def of_core(model_path: str, answer_path: str) -> Iterator[str]:
    """A line for each axiom of a core."""
    text = Path(model_path).read_bytes()
    model = read_model(text)
    answer = read_answer(Path(answer_path).read_bytes(), model)
    axioms: list[Axiom] = model.axioms
    for number in answer.kept or [] if isinstance(answer, Core) else []:
        place = line_and_column(text, axioms[number].at)
        yield f'{shown(model_path)}:{place}: axiom {number}: "{axioms[number].title}"'


def of_query(model_path: str, query_path: str) -> Iterator[str]:
    """What the query is in both models."""
    number, query = len(read_model(Path(model_path).read_bytes()).axioms), Path(query_path).read_bytes()
    place = f"{shown(query_path)}:{line_and_column(query, tokens(query)[0].at)}"
    yield f"{place}: axiom {number} of `with`: the query"
    yield f"{place}: axiom {number} of `against`: the denial of the query"


def main(word: str, model_path: str, other_path: str) -> int:
    """Writes the lines."""
    try:
        lines = list((of_core if word == "core" else of_query)(model_path, other_path))
    except (AnswerRefused, Fault, OSError):
        return FAILED
    print("".join(f"{line}\n" for line in lines), end="")
    return 0
