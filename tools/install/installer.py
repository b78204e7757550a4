"""Installs pipecheck under a folder, or takes away what was installed there.

    ./install [PREFIX]               default: the user's ~/.local; over an older one it updates
    ./install --uninstall [PREFIX]

PREFIX/lib/pipecheck gets the program, the scripts without what builds, the pages, the examples, the machines of the
memory models and the files for editors; PREFIX/bin the commands pipecheck and pipecheck-suite; PREFIX/share their man
pages, and the completion for bash, zsh and fish. What is installed needs neither this checkout nor the toolchain.

Ended at any moment it leaves what stood there whole, or the new installation whole, and can be called again. A file of
yours under one of these names is left, and nothing is installed. To take away needs no room on the disk. The status is
0 where it is done, 1 where it is not, 125 where the program could not be proved; HUP, INT, QUIT and TERM end it by the
signal.
"""
# The script `install` calls it twice: with `judge` and its words, which does all but to install; the status is 3 where that is to
# be done; and then, once a program stands, with `install`, that program and its words.
#
# An installation is a folder, its tree, PREFIX/lib/pipecheck.1 or PREFIX/lib/pipecheck.2. The link PREFIX/lib/pipecheck
# leads to the tree that is in use, and each command, page and completion is a link through that one. The file `installed`
# of a tree lists these links, and the folders that were made for them, also those around the prefix (`..`, `../..`).
# In the former layout the tree was PREFIX/lib/pipecheck itself, and the man page and the completion were files.
#
# An update makes the other tree, and one rename of the link puts it in use. The list of a tree stands before anything that
# it lists is made, and goes after all of it. So what was ended halfway is known, and the next call takes it away. To take
# away needs no room on the disk: nothing is written for it.
import fcntl
import io
import os
import shutil
import sys
import unicodedata
from collections.abc import Iterator, Sequence
from contextlib import ExitStack, contextmanager, suppress
from dataclasses import dataclass
from functools import partial, reduce
from operator import or_

import tools
from tools.build.processes import SIGNALS
from tools.build.versions import origin
from tools.ending import Refusal
from tools.install.manual import NAMES, manual
from tools.telling.files import hindrance

TELLER = "install"
TOP = tools.TOP

# what a tree has of the checkout, and what of that it has not: what builds and installs, maps, and what Python keeps
COPIED = ("README.md", "CONTRIBUTING.md", "NEWS.md", "commands.txt", "docs", "editors", "examples", "pipecheck", "script",
          "tools")
# what builds, and what says what the crates and their definitions are
LEFT_OUT = {"script/build", "tools/build", "tools/install", "tools/pages"}
LEFT_OUT_NAMES = {"__pycache__", ".gitignore"}

IN_USE = "lib/pipecheck"
TREES = ("lib/pipecheck.1", "lib/pipecheck.2")
LIST = "installed"
# each link, and the file of the tree that it leads to
LINKS = {
    "bin/pipecheck": "pipecheck",
    "bin/pipecheck-suite": "examples/suite",
    "share/man/man1/pipecheck.1": "man/pipecheck.1",
    "share/man/man1/pipecheck-suite.1": "man/pipecheck-suite.1",
    "share/bash-completion/completions/pipecheck": "script/completion.bash",
    "share/zsh/site-functions/_pipecheck": "script/completion.zsh",
    "share/fish/vendor_completions.d/pipecheck.fish": "script/completion.fish",
}
# how the files of the former layout begin
FORMER = {
    "share/man/man1/pipecheck.1": b".TH PIPECHECK 1 ",
    "share/bash-completion/completions/pipecheck": b"# shellcheck shell=bash\n# Completion of `pipecheck` for bash.",
}


@dataclass(frozen=True)
class Listing:
    """What stands outside of a tree for it, by paths from the prefix: links or files, and folders that were made."""

    files: frozenset[str] = frozenset()
    folders: frozenset[str] = frozenset()

    def __or__(self, other: "Listing") -> "Listing":
        return Listing(self.files | other.files, self.folders | other.folders)


def parents(name: str) -> list[str]:
    """The folders that a path from the prefix goes through, the prefix first."""
    parts = name.split("/")
    return ["."] + ["/".join(parts[:k]) for k in range(1, len(parts))]


# all of these, the outer ones first
FOLDERS = sorted({folder for name in (IN_USE, *LINKS) for folder in parents(name)})


def is_below(name: str) -> bool:
    """Whether a path from the prefix stays in it."""
    return name != "" and not os.path.isabs(name) and ".." not in name.split("/")


def is_around(name: str) -> bool:
    """Whether a path from the prefix leads to a folder around it."""
    return set(name.split("/")) == {".."}


def write_new(path: str, text: str) -> None:
    """A file with this text, in place of what has the name; no link is followed."""
    with suppress(FileNotFoundError):
        os.remove(path)
    with open(path, "x", encoding="utf-8", errors="surrogateescape") as file:
        file.write(text)


def pass_over_gone(_: object, __: str, problem: tuple[object, BaseException, object]) -> None:
    """Raises why something could not be taken away, but where another call took it away."""
    if not isinstance(problem[1], FileNotFoundError):
        raise problem[1]


def remove(path: str) -> bool:
    """Takes away a file, a link or a folder, and says whether there was one."""
    if os.path.isdir(path) and not os.path.islink(path):
        shutil.rmtree(path, onerror=pass_over_gone)
    elif os.path.lexists(path):
        os.remove(path)
    else:
        return False
    return True


def copy(source: str, target: str) -> None:
    """A file, or a folder with all that is not left out; what may be run stays so."""
    if os.path.isdir(source):
        os.makedirs(target, exist_ok=True)
        for name in sorted(os.listdir(source)):
            path = os.path.join(source, name)
            if name not in LEFT_OUT_NAMES and path.removeprefix(f"{TOP}/") not in LEFT_OUT:
                copy(path, os.path.join(target, name))
    else:
        shutil.copyfile(source, target)
        os.chmod(target, 0o755 if os.access(source, os.X_OK) else 0o644)


class Installation:
    """What stands under a folder, the prefix. Names of files are paths from it."""

    def __init__(self, path: str) -> None:
        self.locks = ExitStack()
        self.locked: list[str] = []
        if os.path.islink(path) and not os.path.exists(path):
            raise Refusal(f"{path} {hindrance(path)}")
        self.path = os.path.realpath(path)
        try:
            self.path.encode("utf-8")
        except UnicodeEncodeError as error:
            raise Refusal("no folder is taken whose path is not UTF-8: the program could not be called there") from error
        if any(unicodedata.category(it) == "Cc" for it in self.path):
            raise Refusal("no folder is taken whose path has a control character")
        depth = len([part for part in self.path.split("/") if part])
        # the folders around the prefix, the outer ones first
        self.around = ["/".join([".."] * steps) for steps in range(depth, 0, -1)]

    def at(self, name: str) -> str:
        """The whole path."""
        return os.path.normpath(os.path.join(self.path, name))

    def part(self, name: str) -> str:
        """Where something is made before a rename gives it this name, or goes to after one took it."""
        folder, base = os.path.split(self.at(name))
        return os.path.join(folder, f".{base}.pipecheck-part")

    def trees(self) -> list[str]:
        """The trees that stand."""
        return [it for it in (IN_USE, *TREES) if not os.path.islink(self.at(it)) and os.path.isfile(self.at(f"{it}/{LIST}"))]

    def listing(self, tree: str) -> Listing:
        """What the list of a tree says; of the former layout all folders are whole paths."""
        files, folders = set(), set()
        with open(os.path.join(self.at(tree), LIST), encoding="utf-8", errors="surrogateescape") as file:
            for line in file.read().split("\n"):
                kind, _, name = line.partition(" ")
                if kind == "folder":
                    kind, name = "made", os.path.relpath(os.path.realpath(name), self.path)
                if is_below(name) and kind == "file":
                    files.add(name)
                elif kind == "made" and (is_around(name) or is_below(name) and not name.startswith(IN_USE)):
                    folders.add(name)
        return Listing(frozenset(files), frozenset(folders))

    def known(self) -> Listing:
        """What the lists of all trees say."""
        return reduce(or_, map(self.listing, self.trees()), Listing())

    def led_to(self, name: str) -> str | None:
        """The tree that a link leads to by its own words: IN_USE for one that goes through it."""
        path = self.at(name)
        if not os.path.islink(path):
            return None
        end = os.path.normpath(os.path.join(os.path.dirname(name), os.readlink(path)))
        return next((tree for tree in (IN_USE, *TREES) if f"{end}/".startswith(f"{tree}/")), None)

    def in_use(self) -> str | None:
        """The tree that is in use."""
        tree = self.led_to(IN_USE) or IN_USE
        return tree if tree in self.trees() else None

    def is_ours(self, name: str, known: Listing) -> bool:
        """Whether an installation made what has the name: a link into a tree, or a file of the former layout."""
        path = self.at(name)
        if os.path.islink(path) or not os.path.isfile(path):
            return self.led_to(name) is not None
        if name not in FORMER or name not in known.files:
            return False
        with open(path, "rb") as file:
            return file.read(len(FORMER[name])) == FORMER[name]

    def is_followed(self, name: str) -> bool:
        """Whether a folder on the way to a name is a link, so that the name is another place's."""
        return any(os.path.islink(self.at(folder)) for folder in parents(name)[1:])

    def refuse(self) -> None:
        """Refuses where nothing can be installed, as where something that is not of an installation stands in the way."""
        for name in COPIED:
            folder = os.path.join(TOP, name)
            if f"{self.path}/".startswith(f"{folder}/"):
                raise Refusal(f"{self.path} is in {folder}, all of which is installed: name a folder outside of it")
        for folder in (*self.around, *FOLDERS):
            path = self.at(folder)
            if os.path.islink(path):
                raise Refusal(f"{path} is a link, so that what is installed there would stand elsewhere")
            if os.path.lexists(path) and not os.path.isdir(path):
                raise Refusal(f"{path} is no folder")
        for tree in (IN_USE, *TREES):
            is_link_to_tree = tree == IN_USE and self.led_to(tree) in TREES
            if os.path.lexists(self.at(tree)) and tree not in self.trees() and not is_link_to_tree:
                raise Refusal(f"{self.at(tree)} is not of an installation")
        known = self.known()
        for name in LINKS:
            if os.path.lexists(self.at(name)) and not self.is_ours(name, known):
                raise Refusal(f"{self.at(name)} is not of an installation: it is left as it is")

    # what is made

    def put_list(self, tree: str, listing: Listing) -> None:
        """Puts the list of a tree in its place by one rename, with the folders on the way that are not there. Older installers
        know `file` and `tree`. A folder around the prefix has its whole path, so that none is taken for it where the prefix was
        moved."""
        lines = [f"file {name}" for name in sorted(listing.files)] + [f"tree {tree}"]
        lines += [f"made {name}" for name in sorted(listing.folders) if is_below(name)]
        lines += [f"folder {self.at(name)}" for name in sorted(listing.folders) if is_around(name)]
        text = "".join(line + "\n" for line in lines)
        if os.path.isdir(self.at(tree)):
            path = os.path.join(self.at(tree), LIST)
            write_new(f"{path}.part", text)
            os.replace(f"{path}.part", path)
            return
        first = next(name for name in (*self.around, ".", "lib", tree) if not os.path.isdir(self.at(name)))
        inner = os.path.join(self.part(first), os.path.relpath(self.at(tree), self.at(first)))
        os.makedirs(inner)
        write_new(os.path.join(inner, LIST), text)
        os.rename(self.part(first), self.at(first))

    def fill(self, tree: str, program: str, version: str) -> None:
        """Makes all of a tree but its list."""
        folder = self.at(tree)
        self.empty(tree)
        for name in COPIED:
            copy(os.path.join(TOP, name), os.path.join(folder, name))
        copy(program, os.path.join(folder, "pipecheck_cli"))
        write_new(os.path.join(folder, "version"), version + "\n")
        os.mkdir(os.path.join(folder, "man"))
        for name in NAMES:
            write_new(os.path.join(folder, "man", f"{name}.1"), manual(TOP, name))

    def put_link(self, name: str, end: str) -> None:
        """Puts a link in its place by one rename; its end is a path from the prefix."""
        path, text = self.at(name), os.path.relpath(end, os.path.dirname(name))
        if os.path.islink(path) and os.readlink(path) == text:
            return
        os.makedirs(os.path.dirname(path), exist_ok=True)
        with suppress(FileNotFoundError):
            os.remove(self.part(name))
        os.symlink(text, self.part(name))
        os.replace(self.part(name), path)

    def put_in_use(self, tree: str) -> None:
        """Has the links lead to the tree. One rename decides, but where the former layout stands: there each link leads
        to the tree of its own, and the former one makes room."""
        is_former = os.path.isdir(self.at(IN_USE)) and not os.path.islink(self.at(IN_USE))
        way = tree if is_former or any(self.led_to(name) == tree for name in LINKS) else IN_USE
        for name, file in LINKS.items():
            self.put_link(name, f"{way}/{file}")
        if is_former:
            other = next(name for name in TREES if name != tree)
            self.take_tree(other, Listing())
            os.rename(self.at(IN_USE), self.at(other))
        self.put_link(IN_USE, tree)
        for name, file in LINKS.items():
            self.put_link(name, f"{IN_USE}/{file}")

    # what is taken away

    def take_file(self, name: str, known: Listing) -> None:
        """Takes away a link, or a file of the former layout; what is of another is left."""
        if self.is_followed(name):
            print(f"install: {self.at(name)} stands behind a link: it is left as it is", file=sys.stderr)
            return
        with suppress(FileNotFoundError):
            os.remove(self.part(name))
        if self.is_ours(name, known):
            os.remove(self.at(name))
        elif os.path.lexists(self.at(name)):
            print(f"install: {self.at(name)} is not of an installation: it is left as it is", file=sys.stderr)

    def empty(self, tree: str) -> None:
        """Takes away all of a tree but its list."""
        for name in os.listdir(self.at(tree)):
            if name != LIST:
                remove(os.path.join(self.at(tree), name))

    def take_tree(self, tree: str, listing: Listing) -> None:
        """Takes away a tree, with the folders around it that the list has and that hold nothing else. Its list goes by
        one rename with all of these, after what gives the disk room for it."""
        if tree not in self.trees():
            return
        self.empty(tree)
        whole = [tree]
        for folder in ("lib", ".", *reversed(self.around)):
            if folder not in listing.folders or not self.has_locked(folder, False):
                break
            if os.listdir(self.at(folder)) != [os.path.basename(self.at(whole[-1]))]:
                break
            whole.append(folder)
        while True:
            first = whole.pop()
            try:
                os.rename(self.at(first), self.part(first))
                break
            except OSError:
                # as where the folder around the prefix may not be written
                if not whole:
                    raise
        remove(self.part(first))

    def take_parts(self) -> bool:
        """Takes away what a call that was ended had not given its name, and says whether there was something."""
        return any([remove(self.part(name)) for name in (*self.around, ".", "lib", IN_USE, *TREES)])

    def take_all_but(self, kept: str | None, stays: Listing) -> None:
        """Takes away what the lists have and is not to stay, and all trees but the kept one, if any is kept."""
        known = self.known()
        # the last one has all of it to the end: each install lists what it found listed
        others = sorted((tree for tree in self.trees() if tree != kept), key=lambda it: len(self.listing(it).folders))
        for name in sorted(known.files - stays.files):
            self.take_file(name, known)
        inner = [name for name in known.folders - stays.folders - {".", "lib"} if is_below(name)]
        for folder in sorted(inner, key=lambda name: -name.count("/")):
            if not self.is_followed(f"{folder}/."):
                with suppress(OSError):
                    os.rmdir(self.at(folder))
        if kept is None and os.path.islink(self.at(IN_USE)) and self.led_to(IN_USE):
            os.remove(self.at(IN_USE))
        for tree in others:
            self.take_tree(tree, known)

    # the three calls

    def install(self, program: str, version: str) -> None:
        """Installs or updates."""
        with self.alone():
            self.refuse()
            self.take_parts()
            for tree in TREES:
                if any(self.led_to(name) == tree for name in LINKS):
                    # a call was ended while it left the former layout
                    self.put_in_use(tree)
            in_use = self.in_use()
            fresh = next(tree for tree in TREES if tree != in_use)
            made = frozenset(name for name in (*self.around, *FOLDERS) if not os.path.isdir(self.at(name)))
            known = self.known() | Listing(frozenset(LINKS), made)
            try:
                self.put_list(fresh, known)
                self.fill(fresh, program, version)
                self.put_in_use(fresh)
            except BaseException:
                if not any(self.led_to(name) == fresh for name in (IN_USE, *LINKS)):
                    with SIGNALS.held(), suppress(OSError):
                        self.take_parts()
                        self.take_all_but(in_use, self.listing(in_use) if in_use else Listing())
                raise
            stays = Listing(frozenset(LINKS), known.folders)
            self.take_all_but(fresh, stays)
            if stays != known:
                self.put_list(fresh, stays)

    def uninstall(self) -> None:
        """Takes away what is installed, and what an install that was ended left."""
        with self.alone():
            had_parts = self.take_parts()
            if self.trees():
                self.take_all_but(None, Listing())
            elif not had_parts:
                raise Refusal(f"nothing is installed under {self.path}")

    # one call at a time

    @contextmanager
    def alone(self) -> Iterator[None]:
        """One call at a time works on a prefix: the nearest folder around it is locked."""
        with self.locks:
            nearest = ""
            while nearest != self.nearest():
                # the call that was waited for may have made a nearer one, or taken this one away
                nearest = self.nearest()
                if not self.has_locked(nearest, True):
                    nearest = ""
            yield

    def nearest(self) -> str:
        """The nearest folder around the prefix that is there."""
        return next((name for name in reversed(self.around) if os.path.isdir(self.at(name))), ".")

    def has_locked(self, name: str, waits: bool) -> bool:
        """Locks a folder until the call ends, and says whether it did. One that may not be read, or is of another
        machine, may not be locked, and counts as locked."""
        if name in self.locked:
            return True
        try:
            folder = os.open(self.at(name), os.O_RDONLY)
            self.locks.callback(os.close, folder)
            if waits:
                tell = partial(print, f"install: another call works in {self.at(name)}: waiting for it", file=sys.stderr)
                SIGNALS.lock(folder, tell)
            else:
                fcntl.flock(folder, fcntl.LOCK_EX | fcntl.LOCK_NB)
        except BlockingIOError:
            return False
        except OSError:
            return True
        # an open folder need not have its name any more
        with suppress(OSError):
            if os.path.samestat(os.fstat(folder), os.stat(self.at(name))):
                self.locked.append(name)
                return True
        return False


def prefix_of(words: Sequence[str]) -> str:
    """The folder that words name."""
    if len(words) > 1 or words and (not words[0] or words[0].startswith("-")):
        raise Refusal("call it as ./install [PREFIX], or ./install --uninstall [PREFIX]; --help says more")
    if not words and not os.environ.get("HOME"):
        raise Refusal("HOME says no folder, so name one: ./install PREFIX")
    return words[0] if words else os.path.join(os.environ["HOME"], ".local")


def judge(*words: str) -> int:
    """Does what needs no program, and answers the status."""
    if words[:1] == ("--help",):
        print(__doc__, end="")
        return 0
    if words[:1] == ("--uninstall",):
        prefix = Installation(prefix_of(words[1:]))
        prefix.uninstall()
        print(f"removed from {prefix.path}")
        return 0
    Installation(prefix_of(words)).refuse()
    return 3


def install(program: str, *words: str) -> int:
    """Installs this program, and says what is there now."""
    prefix = Installation(prefix_of(words))
    prefix.install(program, origin())
    names = "pipecheck, pipecheck-suite, their man pages, completion for bash, zsh and fish"
    print(f"installed under {prefix.path}: {names}")
    if prefix.at("bin") not in [os.path.realpath(folder) for folder in os.environ.get("PATH", "").split(":")]:
        print(f"{prefix.at('bin')} is not in PATH")
    return 0


def main(work: str, *words: str) -> int:
    """Does it, and says what hinders it."""
    SIGNALS.receive()
    os.umask(0o022)
    for stream in (sys.stdout, sys.stderr):
        # a name need not be UTF-8
        if isinstance(stream, io.TextIOWrapper):
            stream.reconfigure(errors="surrogateescape")
    try:
        return judge(*words) if work == "judge" else install(*words)
    except OSError as error:
        raise Refusal(f"{error.filename2 or error.filename or ' '.join(words[-1:])}: {error.strerror}") from error
