"""Bytes to tokens, for models and tests alike, and for listings by their own pieces; and the faults of a file."""
import re
from typing import Callable, NamedTuple, TypeVar

GREATEST_NUMBER = (1 << 64) - 1
MOST_DIGITS = len(str(GREATEST_NUMBER))

# Each piece is the longest that begins at its place. A text that is not closed in its line, or a block comment that
# is not closed at all, begins none.
PIECE = re.compile(
    rb"""(?P<blank>[ \t\r\n]+)
       | (?P<comment>%[^\n]*|//[^\n]*|\(\*.*?\*\))
       | (?P<name>[A-Za-z][A-Za-z0-9_']*)
       | (?P<number>[0-9]+)
       | (?P<text>"[\x20\x21\x23-\x7e]*")
       | (?P<symbol>/\\|\\/|=>|->|\((?!\*)|[)\[\],;:.~])""",
    re.VERBOSE | re.DOTALL,
)

# how what could stand at a place is called, by its kind
KINDS = {"name": "a name", "number": "a number", "text": "a text in quotes", "end": "the end of the file"}

Part = TypeVar("Part")


class Fault(Exception):
    """The first fault of a file: its word, and its place as a number of bytes before it. One of syntax has what could
    stand there, too, and one of a name says in words what it is."""

    def __init__(self, word: str, place: int, expected: tuple[str, ...] = (), said: str = "") -> None:
        super().__init__(f"{word} at byte {place}")
        self.word = word
        self.place = place
        self.expected = expected
        self.said = said


class Token(NamedTuple):
    """A piece that counts, a number without zeros in front. `kind` is name, number, text, symbol, or end after the last one."""

    kind: str
    piece: str
    at: int

    @property
    def content(self) -> str:
        """What stands between the quotes of a text."""
        return self.piece[1:-1]

    @property
    def value(self) -> int:
        return int(self.piece)


def tokens(data: bytes, piece: re.Pattern[bytes] = PIECE, start: int = 0) -> list[Token]:
    """The tokens of a file from a place on, with the end as one more, or the fault `lexical`."""
    found = []
    at = start
    while at < len(data):
        match = piece.match(data, at)
        if match is None:
            raise Fault("lexical", at)
        text = match.group()
        if match.lastgroup == "number":
            # Python takes 4,300 digits for a number, with the zeros in front
            text = text.lstrip(b"0") or b"0"
            if len(text) > MOST_DIGITS or int(text) > GREATEST_NUMBER:
                raise Fault("lexical", at)
        if match.lastgroup not in ("blank", "comment"):
            found.append(Token(str(match.lastgroup), text.decode("ascii"), at))
        at = match.end()
    return found + [Token("end", "", len(data))]


class Reader:
    """Walks over tokens. What it does not find at its place is a fault of syntax there. What it looked for since the last
    token is what could stand there."""

    def __init__(self, all_tokens: list[Token]) -> None:
        self.all_tokens = all_tokens
        self.next_index = 0
        self.looked_for: list[str] = []

    @property
    def next(self) -> Token:
        return self.all_tokens[self.next_index]

    def take(self) -> Token:
        """The next token, which is left after it."""
        token = self.next
        self.next_index += 1
        self.looked_for.clear()
        return token

    def refuse(self) -> Fault:
        """The fault that no text goes on with the next token."""
        return Fault("syntax", self.next.at, tuple(dict.fromkeys(self.looked_for)))

    def sees(self, *pieces: str) -> bool:
        """Whether the next token is one of these names or symbols."""
        self.looked_for += [f"`{piece}`" for piece in pieces]
        return self.next.kind in ("name", "symbol") and self.next.piece in pieces

    def expect(self, *pieces: str) -> Token:
        """The next token, which has to be one of these names or symbols."""
        if not self.sees(*pieces):
            raise self.refuse()
        return self.take()

    def passes(self, piece: str) -> bool:
        """Whether the next token is this name or symbol, which is taken then."""
        is_there = self.sees(piece)
        if is_there:
            self.take()
        return is_there

    def within(self, opening: str, closing: str, read: Callable[[], Part]) -> list[Part]:
        """What this reads between these two, with `;` between each and the next; one may stand after the last, too."""
        found = []
        self.expect(opening)
        while not self.sees(closing):
            found.append(read())
            if not self.sees(closing):
                self.expect(";")
        self.take()
        return found

    def sees_kind(self, kind: str, called: str = "") -> bool:
        """Whether the next token is of this kind, which may be called otherwise at this place."""
        self.looked_for.append(called or KINDS[kind])
        return self.next.kind == kind

    def expect_kind(self, kind: str) -> Token:
        """The next token, which has to be of this kind."""
        if not self.sees_kind(kind):
            raise self.refuse()
        return self.take()

    def number(self) -> int:
        """The value of the next token, which has to be a number."""
        return self.expect_kind("number").value
