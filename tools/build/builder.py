"""Makes the program of the sources that are here, keeps the proved one alone, and says what stands. script/build calls it.

    python3 tools builder make [WORD..]    makes the program that is to answer; the words are the command, if there is one
    python3 tools builder prove            makes the proved one, where it does not stand
    python3 tools builder clean            removes all that was built but the proved one
    python3 tools builder version          writes what `--version` says

The status is 0 where it is done. What stood before is kept until then. A signal that asks for an end ends all that was started
here, and removes the copy.
"""
import contextlib
import os
import shutil
from typing import Callable, Iterator

from tools import TOP
from tools.build.make_program import Proved
from tools.build.make_unproved import Unproved
from tools.build.making import OUT, Failed, NothingMade, asked, crates, put, put_over, say
from tools.build.processes import SIGNALS
from tools.build.versions import origin, program_line
from tools.ending import Interrupted, Refusal
from tools.telling.forms import Forms

MAKERS = {it.kind: it for it in (Proved, Unproved)}


def stands(kind: str) -> bool:
    """Whether the program of this kind stands for the sources that are here now."""
    return asked(f"find_program {kind}") is not None


def refuse(what: str) -> None:
    """Refuses where no program can be made, so that there is none that is built, or proved, as the word says."""
    if shutil.which("rt") is None:
        missing = "and the toolchain that builds it, rt, is missing: README.md, 'Getting started', says which one"
    elif not crates():
        missing = f"and its crates could not be read from {TOP}/crates.txt"
    else:
        os.makedirs(OUT, exist_ok=True)
        return
    raise Refusal(f"the program is not {what}, {missing}")


@contextlib.contextmanager
def in_turn(kind: str) -> Iterator[None]:
    """While no other call makes that program, or clears it away."""
    with open(f"{OUT}/{kind}_lock", "wb") as lock:
        SIGNALS.lock(lock.fileno(), lambda: say("another call is building the program: waiting for it"))
        yield


def make_kind(kind: str) -> None:
    """Makes that program, where no other call made it meanwhile."""
    with in_turn(kind):
        if stands(kind):
            return
        tool, sources = asked("rt --version"), asked("hash_sources")
        if sources is None or tool is None:
            raise Refusal("the sources that the program is made of could not be read, or what rt says of itself")
        MAKERS[kind](sources, tool.partition("\n")[0], crates()).make()
        if not stands(kind):
            raise Refusal("a source changed while the program was made, so call again")


def make(*words: str) -> None:
    """Makes the program without its proofs, or the proved one where that is to answer alone, and also where a toolchain makes
    nothing by the words that it is given."""
    refuse("built")
    for line in Forms(TOP).before(list(words)) if words else ():
        put(f"{line}\n")
    which = os.environ.get("PIPECHECK_PROVED", "")
    if which != "yes":
        try:
            make_kind("unproved")
            return
        except NothingMade as failed:
            if which:
                raise
            say(str(failed))
            say("so the program is proved now")
    make_kind("pipecheck")


def prove() -> None:
    """Proves the program."""
    if stands("pipecheck"):
        say("the program of these sources is proved already")
    else:
        refuse("proved")
        make_kind("pipecheck")


def clean() -> None:
    """Removes from the folders of what is built all but the proved program, with its note. It can be called, and nothing of it is
    proved again; so the one without its proofs is of no use."""
    if not stands("pipecheck"):
        what = "of these sources is not proved" if stands("unproved") else "is not built from these sources"
        raise Refusal(f"the program {what}, so that what proves it is kept")
    with in_turn("pipecheck"), in_turn("unproved"):
        for crate in os.scandir(f"{TOP}/crates"):
            folder = f"{crate.path}/out"
            for name in os.listdir(folder) if os.path.isdir(folder) else ():
                path = f"{folder}/{name}"
                if folder == OUT and (name in ("pipecheck_cli", "pipecheck_built") or name.endswith("_lock")):
                    continue
                if os.path.isdir(path) and not os.path.islink(path):
                    shutil.rmtree(path)
                else:
                    os.remove(path)


def version() -> None:
    """Writes which program stands here."""
    print(f"{origin()}\n{program_line()}")


def main(work: str, *words: str) -> int:
    """Does it, and says what hinders it."""
    SIGNALS.receive()
    try:
        works: dict[str, Callable[..., None]] = {"make": make, "prove": prove, "clean": clean, "version": version}
        works[work](*words)
    except (Refusal, Failed) as problem:
        say(str(problem))
        return 1
    except (OSError, shutil.Error) as error:
        say(str(Failed(str(error))))
        return 1
    except Interrupted:
        put_over("")
        raise
    return 0
