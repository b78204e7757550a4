"""The folder of a suite: certificates, the rows of the last table, and what an interrupted suite has got so far; reports; and
folders of verdicts that are kept.

Each file is written under another name first and then takes the place of the old one: so no link is followed, and what
stood before stands until the new one is whole.
"""
import os
import re
import shutil
import stat
from contextlib import contextmanager, suppress
from typing import IO, Iterator, Mapping

from tools.ending import SIGNALS, Refusal
from tools.suite.files import CELLS, PART, File, digest_of
from tools.suite.pairs import BUG, GOOD, STRICTER, TIME, Found, found_in
from tools.suite.telling import tell
from tools.texts.quoting import quoted, shown

CERTIFICATE, ROWS, ANSWER = ".certificate", ".rows", ".answer"
# other files of such a folder may end in .part, too
PARTS = (CERTIFICATE + PART, ROWS + PART, ANSWER + PART)
# no model has a name that begins with a dot; the second is the folder of what an interrupted suite has got
LOCK, STATE = ".lock", ".state"
# how much stays of verdicts that are kept over suites
MOST_BYTES = 1 << 30
# what is written there; nothing else in that folder is touched
ENTRY = re.compile(r"[0-9a-f]{64}(\.[0-9a-f]{32}\.part)?")
FORMAT = "2"
# by the names of model and test
Cells = Mapping[tuple[str, str], str]
# how what is new is told, by these words first
FIRST = (BUG, STRICTER, TIME)


@contextmanager
def new_file(place: str, mark: str = "") -> Iterator[IO[bytes]]:
    """A file that is written beside a place, under a name with this mark. Nothing is left of it, if it is not moved there."""
    part = place + mark + PART
    with suppress(FileNotFoundError):
        os.unlink(part)
    with open(part, "x+b") as file:
        try:
            yield file
        finally:
            with suppress(OSError):
                os.unlink(part)


def write_anew(place: str, text: bytes, mark: str = "") -> None:
    with new_file(place, mark) as file:
        file.write(text)
        file.flush()
        os.replace(file.name, place)


def judge_place(option: str, path: str) -> None:
    """Refuses a place that a report cannot be written to, before anything runs."""
    if os.path.exists(path) and not os.path.isfile(path):
        is_writable = not os.path.isdir(path) and os.access(path, os.W_OK)
    else:
        folder = os.path.dirname(os.path.realpath(path))
        is_writable = os.path.isdir(folder) and os.access(folder, os.W_OK)
    if not is_writable:
        raise Refusal(f"{option}: {shown(path)} cannot be written")


def write_report(path: str, text: bytes) -> None:
    """Writes a report whole: a file has its former text until then. What is no file, as a pipe, gets it as it comes."""
    try:
        is_file = stat.S_ISREG(os.stat(path).st_mode)
    except FileNotFoundError:
        is_file = True
    if is_file:
        write_anew(os.path.realpath(path), text)
    else:
        with open(path, "wb") as file:
            file.write(text)


class Kept:
    """Verdicts that are kept, in a folder that many suites may read and write at once. Without a path nothing is kept.

    An entry is a file by the hash of all that a verdict comes from: program, model, test and the words of the call. It has what the
    program wrote, and so the verdict. An entry that is spoilt is none, and is made anew.
    """

    def __init__(self, path: str, program: str, origin: str) -> None:
        self.path = path
        # the hash of the program; empty where its bytes are not known, and then nothing is kept
        self.program = program
        # what verdicts stand from, in a sentence
        self.origin = origin
        # the entries that this suite made, and those of others that pairs stand from
        self.made: set[str] = set()
        self.taken: list[str] = []

    def knows(self, model: File, test: File) -> bool:
        """Whether something is kept, and all bytes are known that a verdict comes from."""
        return "" not in (self.path, self.program, model.digest, test.digest)

    def place(self, model: File, test: File) -> str:
        origin = (FORMAT, self.program, model.digest, test.digest, f"{test.kind.check} {test.kind.verify}")
        return os.path.join(self.path, digest_of("\n".join(origin).encode("ascii")))

    def found(self, model: File, test: File) -> tuple[Found, bytes] | None:
        """The verdict of a pair with the program's text, where it is kept."""
        place = self.place(model, test)
        text = whole_text(place) if self.knows(model, test) else None
        if text is None:
            return None
        found = found_in(test, text)
        if not found.verdict:
            return None
        # what is taken stays longest
        with suppress(OSError):
            os.utime(place)
        if place not in self.made:
            self.taken.append(place)
        return found, text

    def keep(self, model: File, test: File, said: IO[bytes]) -> None:
        """Keeps what the program said of a verdict. Where that fails the program is asked again the next time."""
        if self.knows(model, test):
            place = self.place(model, test)
            self.made.add(place)
            said.seek(0)
            with suppress(OSError):
                keep_whole(place, said.read(), f".{os.urandom(16).hex()}")

    def tell_taken(self) -> None:
        if self.taken:
            tell(f"suite: {len(self.taken)} pairs stand from {self.origin}")

    def shorten(self) -> None:
        """Removes what was not taken for longest, until the rest is no more than so much."""
        entries = sorted(self.entries())
        length = sum(size for _, _, size in entries)
        for _, path, size in entries:
            if length <= MOST_BYTES:
                return
            with suppress(OSError):
                os.unlink(path)
            length -= size

    def entries(self) -> Iterator[tuple[float, str, int]]:
        """Of each entry, and of what a suite that was ended by force left of one: when it was last taken, its path and its size."""
        with suppress(OSError), os.scandir(self.path) as entries:
            for entry in entries:
                if ENTRY.fullmatch(entry.name):
                    with suppress(OSError):
                        status = entry.stat(follow_symlinks=False)
                        yield status.st_mtime, entry.path, status.st_size


class Folder:
    """The folder that one suite at a time writes into."""

    def __init__(self, path: str) -> None:
        self.path = path
        self.cells = os.path.join(path, CELLS)
        try:
            os.makedirs(path, exist_ok=True)
            flags = os.O_RDWR | os.O_CREAT | os.O_NOFOLLOW | os.O_CLOEXEC
            # the lock is held until the suite ends
            self.lock = os.open(os.path.join(path, LOCK), flags, 0o666)
        except OSError as error:
            raise Refusal(f"the folder {shown(path)} cannot be written") from error

    def wait_in_turn(self) -> None:
        """Waits for another suite that writes here."""
        SIGNALS.lock(self.lock, lambda: tell(f"suite: another suite writes into {shown(self.path)}: waiting for it"))

    def make_room(self, model: File) -> None:
        """Makes the folder of a model's certificates. A link to another folder is none."""
        path = os.path.join(self.path, model.name)
        try:
            is_own = not os.path.islink(path)
            if is_own:
                os.makedirs(path, exist_ok=True)
                # what a suite that was ended by force left half written goes
                for name in os.listdir(path):
                    if name.endswith(PARTS):
                        with suppress(OSError):
                            os.unlink(os.path.join(path, name))
        except OSError:
            is_own = False
        if not is_own or not os.access(path, os.W_OK):
            raise Refusal(f"the folder {shown(path)} cannot be written")

    def place(self, model: File, test: File) -> str:
        """Where the certificate of a pair is kept, or the text of a sweep or of an answer."""
        ending = ROWS if test.is_pattern else ANSWER if test.is_query else CERTIFICATE
        return os.path.join(self.path, model.name, test.base + ending)

    def state(self, program: str) -> Kept:
        """What an interrupted suite has got. It stands for the same bytes of model, test and program alone."""
        path = os.path.join(self.path, STATE)
        if os.path.lexists(path) and (os.path.islink(path) or not os.path.isdir(path)):
            tell(f"suite: {shown(path)} is spoilt: it is made anew")
            os.unlink(path)
        with suppress(OSError):
            os.makedirs(path, exist_ok=True)
        return Kept(path, program, "a suite that was interrupted")

    def clear_state(self) -> None:
        """A suite that is done leaves nothing to go on from."""
        shutil.rmtree(os.path.join(self.path, STATE), ignore_errors=True)

    def write_cells(self, cells: Cells) -> None:
        """Keeps the rows of a table: model, test and cell."""
        write_anew(self.cells, os.fsencode("".join("\t".join((*pair, cell)) + "\n" for pair, cell in cells.items())))


class Baseline:
    """The cells of an earlier suite, which the file `cells` of its folder has; none without a path."""

    def __init__(self, path: str | None) -> None:
        self.path = path
        self.cells: dict[tuple[str, str], str] = {}
        if path is None:
            return
        try:
            with open(path, encoding="utf-8", errors="surrogateescape", newline="\n") as file:
                lines = file.read().split("\n")
        except OSError as error:
            raise Refusal(f"the baseline {shown(path)} cannot be read: {error.strerror}") from error
        if lines.pop():
            raise Refusal(f"the baseline {shown(path)} ends in the midst of a line")
        for line in lines:
            row = line.split("\t")
            if len(row) != 3 or "" in row:
                raise Refusal(f"the baseline {shown(path)} has a line that is no model, test and cell: {quoted(line)}")
            self.cells[row[0], row[1]] = row[2]

    def has(self, pair: tuple[str, str], cell: str) -> bool:
        return self.cells.get(pair) == cell

    def new(self, cells: Cells) -> dict[tuple[str, str], str]:
        """The pairs that are BUG, stricter, late or a fault, and were not the same before."""
        return {pair: cell for pair, cell in cells.items() if cell not in GOOD and not self.has(pair, cell)}

    def lines(self, cells: Cells) -> list[str]:
        """What is new, a line for each word of a cell, and what is gone."""
        if self.path is None:
            return []
        pairs: dict[str, list[str]] = {}
        for (model, test), cell in self.new(cells).items():
            pairs.setdefault(cell, []).append(f"{model} {test}")
        order = [*(cell for cell in FIRST if cell in pairs), *sorted(cell for cell in pairs if cell not in FIRST)]
        lines = [f"{len(pairs[cell])} new {cell}: {', '.join(pairs[cell])}" for cell in order]
        lines = lines or [f"nothing is new beside {shown(self.path)}"]
        gone = [*self.gone(cells)]
        return [*lines, f"{len(gone)} gone: {', '.join(gone)}"] if gone else lines

    def gone(self, cells: Cells) -> Iterator[str]:
        """The pairs that were not good and are now; and the models and the tests that are not in this suite any more."""
        for pair, cell in self.cells.items():
            if cell not in GOOD and cells.get(pair) in GOOD:
                yield f"{' '.join(pair)} ({cell})"
        for place, kind in enumerate(("model", "test")):
            left = {pair[place] for pair in cells}
            yield from (f"{kind} {name}" for name in dict.fromkeys(pair[place] for pair in self.cells) if name not in left)


def kept_in(path: str, program: str) -> Kept:
    """What is kept over suites in a folder, which is made where it is not there."""
    if path:
        if not program:
            tell(f"suite: nothing is kept in {shown(path)}: PIPECHECK is not one binary")
        try:
            os.makedirs(path, exist_ok=True)
        except OSError as error:
            raise Refusal(f"the folder {shown(path)} cannot be made: {error.strerror}") from error
        if not os.access(path, os.R_OK | os.W_OK | os.X_OK):
            raise Refusal(f"the folder {shown(path)} cannot be written")
    return Kept(path, program, shown(path))


def keep_whole(place: str, text: bytes, mark: str = "") -> None:
    """Keeps a text of the suite's own behind a line with its hash."""
    write_anew(place, digest_of(text).encode("ascii") + b"\n" + text, mark)


def whole_text(place: str, most: int = -1) -> bytes | None:
    """What is kept so in a file, of so many bytes at most; None where there is none, or it is spoilt. No link is followed, and no pipe
    is waited for."""
    with suppress(OSError):
        handle = os.open(place, os.O_RDONLY | os.O_NOFOLLOW | os.O_NONBLOCK | os.O_CLOEXEC)
        with os.fdopen(handle, "rb") as file:
            head, _, text = file.read(most).partition(b"\n") if stat.S_ISREG(os.fstat(handle).st_mode) else (b"", b"", b"")
        if head == digest_of(text).encode("ascii"):
            return text
    return None
