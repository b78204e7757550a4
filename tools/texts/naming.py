"""How micro-ops, addresses, nodes and places of a model are written where a certificate is explained; and the names of addresses
that the comments of a test give: `% x = 1` or `% x is 1` behind the micro-op of its line."""
import re

from tools.second.cases import Address, Case, Page
from tools.second.listings import ENDING, read_file_case
from tools.second.meaning import Node
from tools.second.models import Axiom, Model
from tools.second.positions import NodeNames
from tools.texts.origins import Origin
from tools.texts.quoting import line_and_column

LETTERS = ("x", "y", "z", "w", "u", "v", "a", "b", "c", "d", "e", "f")
# behind a micro-op: a name, and the value that the micro-op has
NAMED = re.compile(rb"[^%\n]*%[ \t]*([A-Za-z_][A-Za-z0-9_]{0,15})[ \t]*(?:=|\bis\b)[ \t]*([0-9]{1,100})\b[^\n]*")

# a node (with None) or an edge, and whether it is asked for
Fact = tuple[Node, Node | None, bool]


class Names:
    """How micro-ops, addresses, nodes and places of the model are written. From `query_at` on the text is that of a query, which
    is one more axiom, or its denial is."""

    def __init__(self, model: Model, case: Case, model_text: bytes, query_at: int | None = None) -> None:
        self.case = case
        self.nodes = NodeNames(model, case)
        self.text = model_text
        self.query_at = len(model_text) if query_at is None else query_at
        pages = dict.fromkeys([op.pa for op in case.ops if op.pa is not None] + [*case.initial, *case.final])
        # those of a listing have names of their own
        has_letters = len(pages) <= len(LETTERS) and not any(isinstance(page, Page) and page.name for page in pages)
        letters = (letter for letter in LETTERS if letter not in case.names.values())
        self.pages = {page: case.names.get(page) or (next(letters) if has_letters else str(page)) for page in pages}

    def microop(self, op: int) -> str:
        return f"{self.case.ops[op].g}.{self.case.ops[op].n}"

    def page(self, page: Address) -> str:
        return f"[{self.pages[page]}]"

    def node(self, node: Node) -> str:
        return self.nodes.write(node)

    def place(self, at: int) -> str:
        """A place in the model, or in the query."""
        if at < self.query_at:
            return line_and_column(self.text, at)
        return f"query {line_and_column(self.text[self.query_at :], at - self.query_at)}"

    def axiom(self, axiom: Axiom) -> str:
        """An axiom by its title; the query is none that the model has."""
        return f"the {axiom.title}" if self.is_query(axiom) else f'axiom "{axiom.title}"'

    def is_query(self, axiom: Axiom) -> bool:
        """Whether an axiom is the query, or its denial."""
        return axiom.at >= self.query_at

    def fact(self, fact: Fact) -> str:
        start, end, wanted = fact
        if end is None:
            return f"{self.node(start)} is {'' if wanted else 'not '}there"
        return f"{'' if wanted else 'not '}{self.node(start)} before {self.node(end)}"

    def chain(self, nodes: list[Node]) -> str:
        return " before ".join(map(self.node, nodes))

    def origin(self, origin: Origin | None) -> str:
        """Where a part of the tree comes from."""
        label = f'"{origin.label}" by ' if origin is not None and origin.label else ""
        return label + self.formula(origin) + self.inside(origin)

    def formula(self, origin: Origin | None) -> str:
        """The axiom that a part of the tree comes from, what its quantifiers took, and the innermost macro."""
        if origin is None:
            return "several axioms"
        words = [f"{self.axiom(origin.axiom)} at {self.place(origin.axiom.at)}"]
        for taken in origin.taken:
            words.append(f"{taken.name} = {self.microop(taken.value) if taken.is_microop else f'core {taken.value}'}")
        if origin.macro is not None:
            words.append(f"in macro {origin.macro}")
        return ", ".join(words)

    def inside(self, origin: Origin | None) -> str:
        """The place in the innermost macro, where there is one."""
        return "" if origin is None or origin.macro is None else f" at {self.place(origin.at)}"

    def of_side(self, origin: Origin | None, side: str) -> str:
        """Where a part of the tree comes from that holds on a side of a split alone, whose line says the rest."""
        if origin is None:
            return side
        label = f'"{origin.label}" by ' if origin.label else ""
        return f"{label}{side}, {self.axiom(origin.axiom)}"


def case_with_names(path: str, text: bytes) -> Case:
    """What a test says, with the names of its addresses. A listing has names of its own."""
    case = read_file_case(path, text)
    if not path.endswith(ENDING):
        case.names = names_in(text, case)
    return case


def names_in(text: bytes, case: Case) -> dict[Address, str]:
    """Each address that the comments have one name for, which they have for no other one."""
    found: dict[Address, set[str]] = {}
    for item in case.op_items:
        if item.op.pa is not None:
            comment = NAMED.match(text, item.at)
            if comment is not None and int(comment[2]) == item.op.value:
                found.setdefault(item.op.pa, set()).add(comment[1].decode("ascii"))
    given = [name for names in found.values() for name in names]
    return {pa: name for pa, (name, *more) in found.items() if not more and given.count(name) == 1}
