"""What both makers of the program share: make_program.py, which proves it, and make_unproved.py, which compiles it without its
proofs. A program that was made stands for its sources by its note; what stood before is kept until then."""
import contextlib
import hashlib
import os
import re
import shutil
import subprocess
import tempfile
import time
from dataclasses import dataclass, field
from typing import IO, ClassVar, Mapping

from tools import TOP
from tools.build.processes import SIGNALS, end_group

# What `rt` and its tools print that says nothing of why they failed.
WELL = re.compile(r": proved$|^(statements|library|logic|by-macro) ")
# the crate of the program, and where the programs stand
PROGRAM = "pipecheck_cli"
OUT = f"{TOP}/crates/{PROGRAM}/out"


class Failed(Exception):
    """The program is not made."""

    def __str__(self) -> str:
        return f"the program could not be built: {self.args[0]}"


class NothingMade(Failed):
    """The toolchain did nothing by the words that it was given, as where its words are others."""


def asked(words: str) -> str | None:
    """What a command prints, or a function of script/build; None where it fails."""
    done = subprocess.run(
        ["bash", "-p", "-c", f'top=$1; . "$top/script/calls" && {words}', "asked", TOP], stdin=subprocess.DEVNULL,
        stdout=subprocess.PIPE, stderr=subprocess.DEVNULL, check=False,
    )
    return os.fsdecode(done.stdout).rstrip("\n") if done.returncode == 0 else None


def crates() -> list[str]:
    """The crates that the program is made of; none where they could not be read."""
    return (asked("parts") or "").split()


def uses_of(checkout: str) -> dict[str, list[str]]:
    """What each crate of a checkout stands on."""
    with open(f"{checkout}/crates.txt", encoding="utf-8") as given:
        rows = [line.partition("#")[0].partition(":") for line in given]
    return {head.split()[0]: below.split() for head, colon, below in rows if colon and head.strip()}


def toolchain() -> str:
    """The folder of the toolchain; `rt` prints the path of a page in it."""
    return os.path.dirname(asked("rt doc || :") or "")


def proving(tools: str, call: str, name: str, root: str, uses: list[str], folders: Mapping[str, str]) -> list[str]:
    """The call of the prover on a crate with this root file, over libraries in these folders, or else in the toolchain."""
    words = [f"{tools}/bin/rattle", call, "--crate-name", name, root, "-L", f"dependency={tools}/rlibs"]
    for it in ["std", *uses]:
        words += ["--extern", f"{it}={folders.get(it, f'{tools}/rlibs')}/{it}.rlib"]
    for folder in folders.values():
        words += ["-L", f"dependency={folder}"]
    return [*words, "--antt-project", f"{tools}/rattle/logic/antt-project.json", "--logic-built", f"{tools}/logic_built"]


def linking(tools: str, compiled: str, program: str) -> list[str]:
    """The call that links what was compiled."""
    words = [f"{tools}/bin/rattle-link", "--target", "x86_64-unknown-linux-gnu", "--toolchain", f"{tools}/toolchain"]
    return [*words, "-o", program, compiled, f"{tools}/c/libos_c.a", f"{tools}/c/liblibc_c.a"]


def put(text: str) -> None:
    """Writes to standard error, which nobody need read."""
    with contextlib.suppress(OSError):
        os.write(2, text.encode("utf-8", "surrogateescape"))


def put_over(text: str) -> None:
    """Writes in the place of the line on a terminal that says how far the work is."""
    put(("\r\x1b[K" if os.isatty(2) else "") + text)


def say(text: str) -> None:
    put_over(f"pipecheck: {text}\n")


def folder_for_copies() -> tempfile.TemporaryDirectory[str]:
    """A new folder, by its whole path. TMPDIR says where, and no other place is taken."""
    where = os.path.abspath(os.environ.get("TMPDIR") or "/tmp")
    try:
        return tempfile.TemporaryDirectory(prefix="pipecheck-", dir=where, ignore_cleanup_errors=True)
    except OSError as error:
        raise Failed(f"no folder for temporary files (TMPDIR) can be made in {where}: {error.strerror}") from error


@dataclass
class Job:
    """A program that is made: the hash of its sources, what the toolchain says of itself, and the crates that it is made of. Each
    kind of program has its own way. While it is made `room` has copies of the crates, and what is temporary, and `log` gets what
    the toolchain prints."""

    sources: str
    tool: str
    crates: list[str]
    begun: float = field(default_factory=time.monotonic)
    room: str = field(init=False)
    log: IO[bytes] = field(init=False)

    kind: ClassVar[str]
    # what is said before it is made, with how many crates it has, and after it
    begins: ClassVar[str]
    ends: ClassVar[str]

    def progress(self) -> str:
        """How far the work is."""
        raise NotImplementedError

    def made(self) -> str:
        """Makes the program of the copies. Returns where it is."""
        raise NotImplementedError

    def copy(self) -> None:
        """Makes the copies."""
        self.copy_crates(self.crates, "checkout")

    def make(self) -> None:
        """Makes the program, and says on standard error how that goes."""
        say(self.begins.format(len(self.crates)))
        with SIGNALS.temporary_folder(folder_for_copies) as self.room, open(self.at("build.log"), "wb", buffering=0) as self.log:
            # where rt runs as root, it runs programs as nobody, in a folder below this one
            os.chmod(self.room, 0o711)
            os.mkdir(f"{self.room}/temporary", 0o711)
            self.copy()
            # the copies may have more than one state of the sources; they are all made by now
            if asked("hash_sources") != self.sources:
                raise Failed("a source changed while it was copied, so call again")
            self.put_in_place(self.made())
        say(f"{self.ends} after {self.elapsed()}")

    def at(self, what: str) -> str:
        """The place of a file of this kind of program."""
        return f"{OUT}/{self.kind}_{what}"

    def elapsed(self) -> str:
        seconds = int(time.monotonic() - self.begun)
        return f"{seconds // 60}:{seconds % 60:02}"

    def copy_crates(self, crates: list[str], name: str) -> None:
        """Makes a repository of these crates alone, without their edits that must fail."""
        to = f"{self.room}/{name}"
        os.makedirs(f"{to}/.git")
        shutil.copy(f"{TOP}/HANDLES", to)
        with open(f"{TOP}/crates.txt", encoding="utf-8") as given, open(f"{to}/crates.txt", "w", encoding="utf-8") as kept:
            kept.writelines(line for line in given if re.split("[ :]", line)[0] in crates)
        for it in crates:
            crate = f"{TOP}/crates/{it}"

            def left_out(folder: str, _: list[str], crate: str = crate) -> list[str]:
                return ["out", "must-fail"] if folder == crate else []

            # what a link leads to is what the hash of the sources is of
            shutil.copytree(crate, f"{to}/crates/{it}", ignore=left_out)

    def run(self, words: list[str], folder: str, said: IO[bytes] | None = None) -> int:
        """Runs a command of the toolchain to its end, as a group of processes of its own, with a line on a terminal that says how far
        the work is. What it says goes to the log, or to this file. Returns its status."""
        out = said or self.log
        with SIGNALS.held():
            leader = subprocess.Popen(
                words, cwd=folder, env={**os.environ, "TMPDIR": f"{self.room}/temporary"}, stdin=subprocess.DEVNULL, stdout=out,
                stderr=out, start_new_session=True,
            )
            SIGNALS.leaders.append(leader)
        try:
            while True:
                if os.isatty(2):
                    put(f"\rpipecheck: {self.progress()}, {self.elapsed()} ")
                with contextlib.suppress(subprocess.TimeoutExpired):
                    return leader.wait(timeout=0.5)
                SIGNALS.look()
        finally:
            with SIGNALS.held():
                end_group(leader)
                SIGNALS.leaders.remove(leader)

    def told(self, fault: Failed) -> Failed:
        """Shows the last lines of what the toolchain printed that may say why it failed. Returns the fault."""
        with open(self.at("build.log"), encoding="utf-8", errors="replace") as it:
            lines = [line for line in it if not WELL.search(line.rstrip("\n"))]
        put_over("".join(lines[-60:]))
        return fault

    def put_in_place(self, made: str) -> None:
        """Has a program that was made stand for its sources. What its note has of its bytes is of neither program while one
        takes the place of the other. A signal comes before all of it, or after."""
        program, note = self.at("cli"), self.at("built")
        with SIGNALS.held():
            try:
                shutil.copy2(made, f"{program}.new")
                with open(made, "rb") as whole, open(f"{note}.new", "w", encoding="utf-8") as file:
                    file.write(f"{self.sources}\n{self.tool}\n{hashlib.sha256(whole.read()).hexdigest()}\n")
                for place in (program, note):
                    os.replace(f"{place}.new", place)
            finally:
                for place in (program, note):
                    with contextlib.suppress(OSError):
                        os.remove(f"{place}.new")
