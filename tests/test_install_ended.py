"""Ends installs, updates and uninstalls by SIGKILL before each change of a file that they make, and looks at what stands. Then the
same, where the disk is full from a change on.

Each command that is there has to be of the old installation or of the new one, and that one whole. After it an install brings all,
and an uninstall takes all away and nothing else. On a full disk an install leaves all as it was, and an uninstall does its work.
The changes are those that the interpreter reports. A small folder stands for the checkout.
"""
from __future__ import annotations

import errno
import os
import random
import shutil
import signal
import sys
import tempfile
from contextlib import suppress
from itertools import count
from typing import Callable, Iterable, NamedTuple

from tests.cases import Cases, write

# where these stand tests.cases says
from tools.ending import Refusal
from tools.install import installer
from tools.install.installer import FORMER, LINKS

EVENTS = {"os.chmod", "os.mkdir", "os.remove", "os.rename", "os.rmdir", "os.symlink"}
TAKE_ROOM = {"open", "os.mkdir", "os.symlink"}
FILES = {
    "README.md": "read me\n",
    "CONTRIBUTING.md": "how to work on it\n",
    "NEWS.md": "news\n",
    "commands.txt": "program|check|MODEL TEST|Says.\n",
    "docs/faults.md": "# Faults\n",
    "editors/vim/syntax/uspec.vim": "syntax\n",
    "examples/mp.test": "test\n",
    "examples/suite": "#!/bin/sh\n",
    "pipecheck": "#!/bin/sh\n",
    "tools/lint/main.py": "lint\n",
    "script/build": "build\n",
    "script/completion.bash": "bash\n",
    "script/completion.fish": "fish\n",
    "script/completion.zsh": "zsh\n",
    "tools/agree/machines/sc.py": "machine\n",
}
COMMANDS = ("bin/pipecheck", "bin/pipecheck-suite")
Texts = dict[str, str]


class Room(NamedTuple):
    """A folder of temporary files: checkouts by their version, and a prefix beside others."""

    path: str
    name: str = "prefix"

    @property
    def around(self) -> str:
        """A folder that no installation makes."""
        return os.path.join(self.path, "around")

    @property
    def prefix(self) -> str:
        """The prefix that is installed under."""
        return os.path.join(self.around, self.name)

    def make(self, version: str) -> None:
        """Makes the checkout of a version. A later one has a file more and one less."""
        files = {**FILES, "program": "#!/bin/sh\n", f"docs/{version}.md": "page\n"}
        put({name: f"{text}# {version}\n" for name, text in files.items()}, os.path.join(self.path, version))

    def install(self, version: str) -> None:
        """An install or update from the checkout of a version."""
        installer.TOP = os.path.join(self.path, version)
        installer.Installation(self.prefix).install(f"{installer.TOP}/program", f"version {version}")

    def uninstall(self) -> None:
        """An uninstall; that there is nothing is no fault."""
        with suppress(Refusal):
            installer.Installation(self.prefix).uninstall()

    def install_former(self) -> None:
        """An installation of the former layout, as that installer made it, of version 1."""
        tree = os.path.join(self.prefix, "lib", "pipecheck")
        folders = ("bin", "share", "share/man", "share/man/man1")
        made = [folder for folder in folders if not os.path.isdir(f"{self.prefix}/{folder}")]
        made += ["share/bash-completion", "share/bash-completion/completions", "lib", "lib/pipecheck/script"]
        for folder in made:
            os.makedirs(os.path.join(self.prefix, folder), exist_ok=True)
        for name in ("README.md", "commands.txt", "docs", "editors", "examples", "pipecheck", "tools"):
            installer.copy(os.path.join(self.path, "1", name), os.path.join(tree, name))
        installer.copy(os.path.join(self.path, "1", "program"), os.path.join(tree, "pipecheck_cli"))
        for name in COMMANDS:
            os.symlink(f"../lib/pipecheck/{LINKS[name]}", os.path.join(self.prefix, name))
        for name, begin in FORMER.items():
            write(os.path.join(self.prefix, name), begin + b"\n")
        lines = [f"file {name}" for name in (*COMMANDS, *FORMER)] + ["tree lib/pipecheck"]
        lines += [f"folder {self.prefix}/{name}" for name in reversed(made)]
        write(os.path.join(tree, "installed"), "".join(f"{it}\n" for it in lines))


def texts(folder: str) -> Texts:
    """Each file, link and folder below a folder, with its bytes or what it leads to."""
    found = {}
    pending = [folder]
    while pending:
        with os.scandir(pending.pop()) as entries:
            for entry in entries:
                key = entry.path[len(folder) + 1 :]
                if entry.is_symlink():
                    found[key] = f"-> {os.readlink(entry.path)}"
                elif entry.is_dir():
                    found[key] = "folder"
                    pending.append(entry.path)
                else:
                    with open(entry.path, encoding="ascii") as file:
                        found[key] = file.read()
    return found


def put(found: Texts, folder: str) -> None:
    """Has a folder with these files, links and folders stand in the place of another one."""
    shutil.rmtree(folder, ignore_errors=True)
    os.makedirs(folder)
    for name, text in found.items():
        path = f"{folder}/{name}"
        os.makedirs(path if text == "folder" else os.path.dirname(path), exist_ok=True)
        if text.startswith("-> "):
            os.symlink(text[3:], path)
        elif text != "folder":
            os.chmod(write(path, text), 0o755 if text.startswith("#!") else 0o644)


def commands(room: Room) -> list[Texts]:
    """What the trees of the commands that are there have, without their lists."""
    names = [name for name in COMMANDS if os.path.exists(f"{room.prefix}/{name}")]
    trees = [os.path.realpath(f"{room.prefix}/{name}").removesuffix(f"/{LINKS[name]}") for name in names]
    found = {tree: {name: text for name, text in texts(tree).items() if not name.startswith("installed")} for tree in set(trees)}
    return [found[tree] for tree in trees]


def served(room: Room) -> set[str]:
    """The names outside of the tree that are of some use: links that lead to a file, and files."""
    return {name for name in LINKS if os.path.isfile(os.path.join(room.prefix, name))}


def is_change(event: str, words: tuple[object, ...]) -> bool:
    """Whether an event changes a file."""
    writes = event == "open" and isinstance(words[2], int) and words[2] & (os.O_WRONLY | os.O_RDWR | os.O_CREAT)
    return event in EVENTS or bool(writes)


def status_of(work: Callable[[], int | None], change: Callable[[int, str], None]) -> int:
    """Does the work in a process of its own, where this is called before each change with its number and its event; how it ends."""
    pid = os.fork()
    if pid == 0:
        numbers, status = count(1), 3

        def look(event: str, words: tuple[object, ...]) -> None:
            if is_change(event, words):
                change(next(numbers), event)

        sys.addaudithook(look)
        try:
            status = work() or 0
        finally:
            os._exit(status)
    return os.waitstatus_to_exitcode(os.waitpid(pid, 0)[1])


def ended(last: int, work: Callable[[], None]) -> bool:
    """Does the work in a process that is ended before this change; whether it was."""
    def change(number: int, _: str) -> None:
        if number == last:
            os.kill(os.getpid(), signal.SIGKILL)

    status = status_of(work, change)
    assert status in (0, -signal.SIGKILL), f"status {status} before change {last}"
    return status != 0


def lacks_room(first: int, work: Callable[[], None]) -> bool:
    """Does the work in a process where the disk is full from this change on; whether it wanted room."""
    wanted = False

    def change(number: int, event: str) -> None:
        nonlocal wanted
        if number >= first and event in TAKE_ROOM:
            wanted = True
            raise OSError(errno.ENOSPC, os.strerror(errno.ENOSPC))

    def refused() -> int:
        try:
            work()
        except OSError as error:
            return 1 if error.errno == errno.ENOSPC else 2
        # one that it could do without
        return 2 if wanted else 0

    status = status_of(refused, change)
    assert status in (0, 1), f"status {status} without room for change {first}"
    return status == 1


class Case(NamedTuple):
    """What is there before, what is ended, and whether nothing of another stands under the prefix."""

    name: str
    before: str
    work: str
    is_alone: bool
    prefix: str = "prefix"


INSTALLS = (
    Case("a first install", "", "install", False),
    Case("a first install under a folder that is not there", "", "install", True),
    Case("a first install under folders that are not there", "", "install", True, "new/deep/prefix"),
    Case("an update", "installed", "install", False),
    Case("an update of the former layout", "former", "install", False),
)
UNINSTALLS = (
    Case("an uninstall", "installed", "uninstall", False),
    Case("an uninstall of a folder that was made", "installed", "uninstall", True),
    Case("an uninstall of folders that were made", "installed", "uninstall", True, "new/deep/prefix"),
    Case("an uninstall of the former layout", "former", "uninstall", False),
)
CASES = INSTALLS + UNINSTALLS
ENDED = "ended before each change"


def prepare(room: Room, case: Case) -> tuple[Texts, Texts, list[Texts], set[str]]:
    """What stands before the case; answers what no installation made, all that there is, the tree in use, and what is served."""
    mine = () if case.is_alone else ("bin/mine", "share/man/man1/mine.1", "lib/mine/file")
    put({f"{room.name}/{name}": "mine\n" for name in mine}, room.around)
    own = texts(room.around)
    if case.before == "installed":
        room.install("1")
    elif case.before == "former":
        room.install_former()
    return own, texts(room.around), commands(room)[:1], served(room)


def run_case(room: Room, case: Case, new: Texts) -> int:
    """Ends the work before each change in turn; answers how many changes there are. What follows on what was left is looked at
    once, where several changes leave the same."""
    own, before, old, names = prepare(room, case)
    followed: list[Texts] = []
    for change in count(1):
        put(before, room.around)
        is_ended = ended(change, (lambda: room.install("2")) if case.work == "install" else room.uninstall)
        after = commands(room)
        assert all(tree in old + [new] for tree in after), f"a part of a tree before change {change}"
        assert len(after) in (0, 2) or case.work == "uninstall", f"one command of two before change {change}"
        assert names <= served(room) or case.work == "uninstall", f"a command or a page is lost before change {change}"
        kept = texts(room.around)
        if kept not in followed:
            followed.append(kept)
            room.install("2")
            assert commands(room) == [new, new], f"install after change {change}"
            rest = [name for name in texts(room.around) if "-part" in name]
            assert not rest, f"a rest after change {change}"
            room.uninstall()
            assert texts(room.around) == own, f"install and uninstall after change {change}"
            put(kept, room.around)
            room.uninstall()
            assert texts(room.around) == own, f"uninstall after change {change}"
        if not is_ended:
            break
    return change


def run_without_room(room: Room, case: Case, new: Texts) -> int:
    """Has the disk full from each change on in turn; answers how many changes there are. What is left is taken away once, where
    several leave the same."""
    own, before, old, names = prepare(room, case)
    followed: list[Texts] = []
    for change in count(1):
        put(before, room.around)
        if case.work == "uninstall":
            assert not lacks_room(1, room.uninstall), "an uninstall wants room"
            assert texts(room.around) == own, "uninstall without room"
            break
        is_full = lacks_room(change, lambda: room.install("2"))
        left = texts(room.around)
        if case.before == "former":
            # of the two layouts each command is of the one or of the other
            assert all(tree in old + [new] for tree in commands(room)), f"a part of a tree without room for {change}"
            assert names <= served(room), f"a command or a page is lost without room for change {change}"
        elif is_full:
            assert left == before, f"something is left, or lost, without room for change {change}"
        assert is_full or commands(room) == [new, new], f"install without room for change {change}"
        if left not in followed:
            followed.append(left)
            assert not lacks_room(1, room.uninstall), f"an uninstall wants room after change {change}"
            assert texts(room.around) == own, f"uninstall without room after change {change}"
        if not is_full:
            break
    return change


def run_again_and_again(room: Room, new: Texts) -> int:
    """Ends call after call at changes of chance, the same in each run; answers how many calls were ended."""
    chance, ends = random.Random(48), 0
    for number in range(35):
        case = CASES[number % len(CASES)]
        own, _, old, names = prepare(room, case)
        for _ in range(4):
            ends += ended(chance.randrange(1, 90), lambda: room.install("2"))
            after = commands(room)
            assert all(tree in old + [new] for tree in after) and len(after) in (0, 2), f"after {ends} calls"
            assert names <= served(room), f"a command or a page is lost after {ends} calls"
        if number % 2:
            ends += ended(chance.randrange(1, 30), room.uninstall)
        room.uninstall()
        assert texts(room.around) == own, f"uninstall after {ends} calls"
    return ends


def page(_: str, name: str) -> str:
    """A man page. The small checkout has none of the pages that one is made of."""
    return f"the page {name}\n"


class InARoom(Cases):
    """Cases over a folder of temporary files with two versions of the small checkout. Many small files: in memory, where that is
    there."""

    room: Room
    new: Texts

    @classmethod
    def setUpClass(cls) -> None:
        memory = "/dev/shm"
        folder = tempfile.mkdtemp(prefix="pipecheck-tests-", dir=memory if os.access(memory, os.W_OK) else None)
        cls.addClassCleanup(shutil.rmtree, folder, ignore_errors=True)
        cls.replace(installer, "manual", page)
        cls.addClassCleanup(os.umask, os.umask(0o022))
        cls.room = Room(folder)
        for version in ("1", "2"):
            cls.room.make(version)
        prepare(cls.room, CASES[0])
        cls.room.install("2")
        cls.new = commands(cls.room)[0]

    def walk(self, kind: str, run_one: Callable[[Room, Case, Texts], int], cases: Iterable[Case], least: int) -> None:
        """Each of these cases, of which each has at least so many changes."""
        for case in cases:
            if self.is_wanted(f"{kind}: {case.name}"):
                with self.case(f"{kind}: {case.name}"):
                    self.assertGreaterEqual(run_one(self.room._replace(name=case.prefix), case, self.new), least)


class EndedInstalls(InARoom):
    """Installs that end before each change."""

    def test_installs(self) -> None:
        self.walk(ENDED, run_case, [it for it in INSTALLS if not it.before], 50)


class EndedUpdates(InARoom):
    """Updates and uninstalls that end before each change."""

    def test_updates(self) -> None:
        self.walk(ENDED, run_case, [it for it in INSTALLS if it.before], 50)
        self.walk(ENDED, run_case, UNINSTALLS, 20)


class FullDisks(InARoom):
    """A disk that is full from each change on, and calls that end one after the other."""

    def test_full_disks(self) -> None:
        for cases, least in ((INSTALLS, 50), (UNINSTALLS, 1)):
            self.walk("on a full disk", run_without_room, [it for it in cases if "/" in it.prefix or not it.is_alone], least)

    def test_call_after_call(self) -> None:
        self.walk(ENDED, lambda room, _, new: run_again_and_again(room, new), [Case("call after call", "", "", False)], 50)
