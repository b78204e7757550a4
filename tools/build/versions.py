"""What `--version` says in a checkout: its commit, the logic that the program was proved by, and which program stands."""
import hashlib
import os
import subprocess

from tools import TOP
from tools.build.making import OUT, asked, crates


def here(*words: str) -> bytes | None:
    """What a command of git writes of this checkout; None where it fails. Variables of git's own would name other places."""
    own = {name: value for name, value in os.environ.items() if not name.startswith("GIT_")}
    try:
        done = subprocess.run(
            ["git", "-C", TOP, *words], env=own, stdin=subprocess.DEVNULL, stdout=subprocess.PIPE, stderr=subprocess.DEVNULL,
            check=False,
        )
    except OSError:
        return None
    return done.stdout if done.returncode == 0 else None


def has_changed() -> bool:
    """Whether a source of the program is not as in the commit, by the hashes of both: git may be told to look away from a file."""
    paths = ["crates.txt", *(f"crates/{name}/{folder}" for name in crates() for folder in ("src", "specs", "proofs"))]
    rows = (here("ls-tree", "-r", "-z", "HEAD", "--", *paths) or b"").split(b"\0")[:-1]
    wanted = {os.fsdecode(name): head.split()[2] for head, _, name in (row.partition(b"\t") for row in rows)}
    walked = [f"{place}/{name}" for it in paths for place, _, files in os.walk(f"{TOP}/{it}", followlinks=True) for name in files]
    found = ["crates.txt", *(os.path.relpath(it, TOP) for it in walked)]
    return wanted != dict(zip(found, (here("hash-object", "--no-filters", "--", *found) or b"").split()))


def origin() -> str:
    """The lines of the checkout: its commit, and the logic."""
    # a checkout without its history may stand in another one
    is_top = (here("rev-parse", "--show-toplevel") or b"") == os.fsencode(f"{TOP}\n")
    commit = os.fsdecode(here("rev-parse", "HEAD") or b"").strip() if is_top else ""
    changed = ", changed since" if commit and has_changed() else ""
    tool = note_line(1) or asked("rt --version") or ""
    return f"commit {commit or 'unknown'}{changed}\nlogic {tool.rpartition(' logic ')[2].strip() if ' logic ' in tool else 'unknown'}"


def note_line(number: int) -> str:
    """A line of the note of the proved program, from 0; nothing where there is none."""
    try:
        with open(f"{OUT}/pipecheck_built", encoding="utf-8", errors="surrogateescape") as file:
            return [*file.read().splitlines(), "", "", ""][number]
    except OSError:
        return ""


def program_line() -> str:
    """The line of the program."""
    kind = asked('find_program pipecheck unproved && echo "$kind"')
    path = f"{OUT}/{kind or 'pipecheck'}_cli"
    if not os.path.exists(path):
        return "program not built"
    with open(path, "rb") as file:
        own = hashlib.sha256(file.read()).hexdigest()
    if kind is None:
        what = "built from other sources" if own == note_line(2) else "not the one that was built here"
    else:
        what = "proved" if kind == "pipecheck" else "without its proofs"
    return f"program sha256 {own}, {what}"
