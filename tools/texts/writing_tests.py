"""The test that a listing of herd's says, as a text that every command takes.

The names of the listing stand in comments: of its threads, locations and registers, and what its author wrote beside them.
"""
from typing import Iterable, Iterator

from tools.second.cases import OPEN, Address, Entry, Op, Page, Value, case_of, read_case
from tools.second.listings import PIECE, Instruction, Judge, ListingReader, behind_header
from tools.second.tokens import Fault, tokens
from tools.texts.contents import LIMIT

# how much of a line is shown in a comment
MOST_CHARACTERS = 100


def test_of_listing(data: bytes) -> str:
    """The text of the test that a listing says, or the listing's first fault. Comments are left out where the text
    would have too many bytes with them; where it has without them too, the listing is refused."""
    title, start = behind_header(data)
    listing = ListingReader(tokens(data, PIECE, start)).listing()
    case = case_of(title, Judge(listing).items())
    ops = [(op, op_comment(op, one)) for op, (_, one) in zip(case.ops, listing.instructions)]
    lines = item_lines(case.initial.items(), ops, case.final.items(), case.expectation == "forbidden")
    text = within_limit(title, notes(data, start), lines)
    assert read_case(text.encode("ascii")) == case
    return text


def within_limit(title: str, above: Iterable[str], lines: list[tuple[str, str]]) -> str:
    """A text with comments, or without them where it would be too long with them, or the fault that it is too long."""
    for text in (written(title, [*above], lines), written(title, [], [(line, "") for line, _ in lines])):
        if len(text) <= LIMIT:
            return text
    raise Fault("too-large", 0)


def written(title: str, above: list[str], lines: list[tuple[str, str]]) -> str:
    """A text of a title, lines of comments and items with a comment each, which may be empty."""
    width = max((len(line) for line, comment in lines if comment), default=0)
    found = [f'Litmus "{printable(title).replace(chr(34), chr(39))}".']
    found += [f"% {line}".rstrip() for line in above]
    found += [f"{line.ljust(width)} % {comment}" if comment else line for line, comment in lines]
    return "\n".join([*found, ""])


def printable(text: str) -> str:
    """The text with `?` for what is no printable ASCII, cut short where it is long and says nothing to `lint`."""
    shown = "".join(letter if " " <= letter <= "~" else "?" for letter in text.replace("\t", " "))
    is_whole = len(shown) <= MOST_CHARACTERS or shown.lower().startswith("lint allows:")
    return shown if is_whole else shown[:MOST_CHARACTERS].rstrip() + " .."


def notes(data: bytes, start: int) -> Iterator[str]:
    """What the author of a listing wrote beside it: the lines of its header after the first, and comments."""
    header = data[:start].decode("latin-1").splitlines()[1:]
    comments = (match.group() for match in PIECE.finditer(data, start) if match.lastgroup == "comment")
    inside = [line for one in comments for line in one.decode("latin-1")[2:-2].splitlines()]
    yield from (printable(line.strip()) for line in [*header, *inside] if line.strip())


def item_lines(
    starts: Iterable[tuple[Address, Value]], ops: Iterable[tuple[Op, str]], ends: Iterable[tuple[Address, Value]],
    is_forbidden: bool = False,
) -> list[tuple[str, str]]:
    """The items of a test, each with a comment: that of a value at the start or at the end names its location."""
    first, last = (
        [(f"{word} {address_text(it)} {stated_text(value)}.", f"{printable(str(it))} = {value}") for it, value in values]
        for word, values in (("Init", starts), ("Final", ends))
    )
    return [*first, *((op_text(op), comment) for op, comment in ops), *last, *([("Forbidden.", "")] if is_forbidden else [])]


def stated_text(value: Value) -> str:
    """A value at the start or at the end."""
    return f"({value})" if isinstance(value, Entry) else str(value)


def op_text(op: Op) -> str:
    """A micro-op as a test writes it, or as a pattern does where it has no value."""
    words = " ".join([op.access, *sorted(op.types)])
    if op.va is not None and op.pa is not None:
        value = op.value if isinstance(op.value, Entry) else f"Data {OPEN if op.value is None else op.value}"
        words += f" (VA {op.va.tag} {op.va.index}) {address_text(op.pa)} ({value})"
    return f"Microop {op.g} {op.core} {op.thread} {op.n} ({words})."


def address_text(address: Address) -> str:
    return f"(PA {address.tag} {address.index})" if isinstance(address, Page) else f"({address})"


def op_comment(op: Op, one: Instruction) -> str:
    """A micro-op as the listing writes it, with its thread; of a load the value that its register gets, too."""
    if one.location is None:
        return f"P{op.core}: {one.word.piece}"
    location = f"[{printable(one.location.piece)}]"
    if one.register is None:
        return f"P{op.core}: MOV {location},${op.value}"
    register = printable(one.register.piece)
    return f"P{op.core}: MOV {register},{location}, and {register} = {op.value}"
