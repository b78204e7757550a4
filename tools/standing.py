"""The program that stands for the sources of a checkout, or that of an installed copy, for scripts that call it. The shell decides
which it is, and makes it (`script/build`)."""
import os
import subprocess
from typing import NamedTuple


class Standing(NamedTuple):
    """A program, and whether it is the proved one."""

    path: str
    is_proved: bool

    @property
    def said(self) -> str:
        """What the last line of a script says of it, behind all else."""
        return "" if self.is_proved else ", by the program without its proofs"


def command(top: str) -> list[str]:
    """What prints which program stands; it is made where there is none."""
    return [os.path.join(top, "script", "standing")]


def read_standing(said: bytes) -> Standing:
    """From what that prints."""
    word, _, path = os.fsdecode(said).rstrip("\n").partition(" ")
    return Standing(path, word == "proved")


def standing(top: str) -> Standing:
    """The program that stands."""
    done = subprocess.run(command(top), stdin=subprocess.DEVNULL, stdout=subprocess.PIPE, check=False)
    if done.returncode != 0:
        raise SystemExit(f"there is no program to call in {top}")
    return read_standing(done.stdout)


def tested(top: str) -> Standing:
    """The program that PIPECHECK names, of which nothing is said, or the one that stands."""
    named = os.environ.get("PIPECHECK")
    return Standing(named, True) if named else standing(top)
