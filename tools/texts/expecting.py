"""What could stand where a file has a fault of syntax, in words."""
from tools.second.cases import CaseReader
from tools.second.listings import ListingReader, PIECE, behind_header
from tools.second.models import Model, ModelReader
from tools.second.queries import read_query
from tools.second.tokens import Fault, tokens


def sentence_of(fault: Fault) -> str:
    """What is expected in place of what stands there; nothing where the fault does not say so."""
    if fault.word != "syntax" or not fault.expected:
        return ""
    *others, last = fault.expected
    return f"{', '.join(others)} or {last} is expected" if others else f"{last} is expected"


def syntax_fault(kind: str, data: bytes) -> Fault | None:
    """The fault of tokens or of syntax of a text that is to be a model, a query, a test, a pattern or a listing."""
    try:
        if kind == "model":
            ModelReader(tokens(data)).model()
        elif kind == "query":
            read_query(data, Model((), ()))
        elif kind == "listing":
            _, start = behind_header(data)
            ListingReader(tokens(data, PIECE, start)).listing()
        else:
            CaseReader(tokens(data), kind == "pattern").items()
    except Fault as fault:
        return fault
    return None
