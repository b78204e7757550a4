"""Has the program judge a certificate, or each one in an answer of `core` or of `ask`, and says then each line of it.

    python3 tools judged PROGRAM MODEL TEST [CERTIFICATE [QUERY]]

Without a certificate the program makes it. PIPECHECK names another judge. docs/faults.md has the exit statuses.
"""
import os
import shutil
import tempfile
from contextlib import contextmanager, suppress
from pathlib import Path
from typing import Iterable, Iterator, Sequence

from tools import TOP
from tools.ending import SIGNALS, Ended, Refusal
from tools.explain.files import explain_files, parts_of
from tools.second.listings import ENDING
from tools.second.queries import InModel
from tools.second.scopes import read_model
from tools.second.standard_output import UNREAD, UNWRITTEN
from tools.second.tokens import Fault
from tools.suite.calling import Calls, limited, memory_limit, said_by
from tools.suite.programs import command_of
from tools.telling.files import unreadable
from tools.telling.refusals import place_of, refusal_of, told
from tools.texts.answers import AnswerRefused, is_answer, read_answer
from tools.texts.origins import TooLarge
from tools.texts.quoting import line_and_column, quoted

TELLER = "pipecheck"
# how long a model, a test or a query may be, and a certificate
MOST, MOST_OF_CERTIFICATE = 1_048_576, 67_108_864
REFUSED, CERTIFICATE_REFUSED = 3, 6
FORM = "explain MODEL TEST ANSWER QUERY"
ONLY_ASK = f"only an answer of ask has a query: {FORM}"
VERDICTS = {0: b"verified observable", 1: b"verified unobservable"}


def unkept(what: str) -> Refusal:
    """That a text could not be kept, so that it is judged and explained by nobody."""
    folder = quoted(os.environ.get("TMPDIR") or "/tmp")
    return Refusal(f"{what} could not be kept in {folder}, the folder for temporary files; TMPDIR names another one")


@contextmanager
def keeping(what: str) -> Iterator[None]:
    """Tells where the system does not let a text be kept."""
    try:
        yield
    except OSError as error:
        raise unkept(what) from error


def folder_for_texts() -> tempfile.TemporaryDirectory[str]:
    """A new folder for what is kept. Whether there is room in it is seen later."""
    with keeping("the certificate"):
        return tempfile.TemporaryDirectory(dir=os.environ.get("TMPDIR") or "/tmp")


def meaning(status: int, text: bytes, word: str, paths: Sequence[str]) -> Ended | Refusal:
    """What a call that gave no verdict wrote, and what its status means, of the files as the words name them."""
    if status == UNWRITTEN:
        return unkept(f"the answer of {word}")
    said: Iterable[str] = ()
    if status == REFUSED and all(map(os.path.isfile, paths)):
        said = told(TOP, text.decode("ascii", "replace"), [word, *paths], "explain")
    elif status == UNREAD:
        said = unreadable(paths)
    return Ended(status, *said, text=text.decode("ascii", "surrogateescape"))


def look_for_verdict(status: int, text: bytes) -> None:
    """Tells where a judge's answer is no verdict that agrees with its status, as that of any command need not be one."""
    if not text.startswith(VERDICTS[status]):
        raise Refusal(f"no judge: the checker ended with status {status} and not with its verdict")


class Judge:
    """The program, or what PIPECHECK names, within its limit of memory; and a folder for what is kept."""

    def __init__(self, program: str, folder: str) -> None:
        self.calls = Calls()
        self.folder = folder
        self.command = [program]
        value = os.environ.get("PIPECHECK", "")
        if value:
            self.command = command_of(value)
            if shutil.which(self.command[0]) is None:
                raise Refusal(f"PIPECHECK is no command: {quoted(value)}")
        self.kib = memory_limit(os.environ.get("PIPECHECK_MEMORY", ""))

    def call(self, word: str, paths: Sequence[str]) -> tuple[int, bytes]:
        """The status of a call, and what it writes."""
        return said_by(self.calls, limited([*self.command, word, *paths], self.kib, None), self.folder)

    def copied(self, name: str, path: str, most: int) -> str:
        """The path, or where the file can be read only once, as a pipe, that of a copy with the file's ending. Of a file past the
        limit one byte more is copied."""
        if not os.path.exists(path) or os.path.isfile(path) or os.path.isdir(path) or not os.access(path, os.R_OK):
            return path
        copy = os.path.join(self.folder, name + os.path.splitext(path)[1])
        with keeping(f"the text of {quoted(path)}"), open(path, "rb") as source, open(copy, "wb") as target:
            target.write(source.read(most + 1))
        return copy

    def kept(self, name: str, text: bytes, what: str) -> str:
        """The path of a file with this text."""
        path = os.path.join(self.folder, name)
        with keeping(what), open(path, "wb") as file:
            file.write(text)
        return path


def beginning(path: str) -> bytes | None:
    """The first bytes of a file, the first three lines of a certificate among them; None where it cannot be read."""
    with suppress(OSError), open(path, "rb") as file:
        return file.read(200)
    return None


def judge_answer(judge: Judge, word: str, names: Sequence[str], paths: list[str]) -> int:
    """Has each certificate of an answer judged in the model that it is of."""
    # an answer is no certificate, so that a file with a fault is told, and else line 1 is refused
    status, text = judge.call(word, paths[:3])
    if status != CERTIFICATE_REFUSED:
        raise meaning(status, text, word, names[:3])
    model_text, data = Path(paths[0]).read_bytes(), Path(paths[2]).read_bytes()
    if data.startswith(b"ask ") is not (len(paths) == 4):
        raise Refusal(ONLY_ASK if len(paths) == 4 else f"an answer of ask is explained beside its query: {FORM}")
    model = read_model(model_text)
    try:
        query = Path(paths[3]).read_bytes() if len(paths) == 4 else b""
    except OSError as error:
        raise Ended(UNREAD, *unreadable(names[3:])) from error
    try:
        parts = list(parts_of(model, model_text, read_answer(data, model), query))
    except AnswerRefused as refused:
        raise Ended(CERTIFICATE_REFUSED, text=f"{refused}\n") from refused
    except Fault as fault:
        kind, of, name = ("model", model_text, names[0]) if isinstance(fault, InModel) else ("query", query, names[3])
        line = f"refused {kind} {fault.word} at {line_and_column(of, fault.place)}"
        said = place_of(TOP, name, of, refusal_of(line)) if os.path.isfile(name) else ()
        raise Ended(REFUSED, *said, text=f"{line}\n") from fault
    for number, (at, wanted, written, certificate) in enumerate(parts):
        of_part = judge.kept(f"{number}.model", written, "the parts of the answer")
        part = judge.kept(f"{number}.certificate", certificate, "the parts of the answer")
        judge_part(judge, word, [of_part, paths[1], part], at, wanted)
    return 0


def judge_part(judge: Judge, word: str, paths: list[str], at: int, wanted: int) -> None:
    """Has one certificate of an answer judged, which begins at this line of it."""
    status, text = judge.call(word, paths)
    if status == wanted:
        look_for_verdict(status, text)
        return
    if status == REFUSED:
        said = text.decode("ascii", "replace").rstrip("\n")
        raise Refusal(f"the certificate at line {at} of the answer is not judged, since verify does not take its model: {said}")
    if status == CERTIFICATE_REFUSED:
        line = int(text.split()[4])
        raise Ended(CERTIFICATE_REFUSED, text=f"answer refused at line {at + max(0, line - 1)}\n")
    raise unkept(f"the answer of {word}") if status == UNWRITTEN else Ended(status)


def explained(judge: Judge, names: Sequence[str]) -> tuple[list[str], int]:
    """The files that are explained, once the judge has accepted what they show, and its status."""
    model, test, *more = names
    check, verify = ("check86", "verify86") if test.endswith(ENDING) else ("check", "verify")
    paths = [judge.copied("model", model, MOST), judge.copied("test", test, MOST)]
    if not more:
        status, text = judge.call(check, paths)
        if status > 1:
            raise meaning(status, text, check, names)
        more = [judge.kept("certificate", text, "the certificate")]
    paths.append(judge.copied("certificate", more[0], MOST_OF_CERTIFICATE))
    begins = beginning(paths[2])
    if begins is not None and is_answer(begins):
        paths += [judge.copied("query", path, MOST) for path in more[1:]]
        return paths, judge_answer(judge, verify, [model, test, *more], paths)
    # one that cannot be read is told by the judge
    if begins is not None and len(more) == 2:
        raise Refusal(ONLY_ASK)
    is_lifted = begins is not None and begins.split(b"\n")[2:3] == [b"lifted"]
    word = "verify-lifted" if verify == "verify" and is_lifted else verify
    status, text = judge.call(word, paths)
    if status > 1:
        raise meaning(status, text, word, [model, test, more[0]])
    look_for_verdict(status, text)
    return paths, status


def main(program: str, *names: str) -> int:
    """Writes what is said of the certificate, and answers the exit status."""
    SIGNALS.receive()
    try:
        with SIGNALS.temporary_folder(folder_for_texts) as folder:
            paths, status = explained(Judge(program, folder), names)
            for line in explain_files(names[0], *paths, *names[3:]):
                print(line)
            return status
    except (AnswerRefused, Fault, TooLarge, UnicodeDecodeError) as problem:
        raise Refusal(f"not explained: {problem}", "explain") from problem
