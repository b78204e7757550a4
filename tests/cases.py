"""What the families of tests share: calls of programs and of tools with what they wrote, and a judge of cases.

A family is a module tests/test_NAME.py with classes of `Cases`, which `tests/program` runs side by side; `python3 -m unittest`
runs them too. A case is what `gives`, `judge` or `holds` judges by a name that says what it shows.
"""
from __future__ import annotations

import atexit
import compileall
import contextlib
import functools
import os
import re
import resource
import runpy
import shutil
import signal
import subprocess
import sys
import tempfile
import textwrap
import threading
import time
import unittest
from concurrent.futures import ThreadPoolExecutor
from dataclasses import dataclass
from hashlib import sha256
from multiprocessing import get_context
from typing import Any, Callable, Iterator, Mapping, Sequence

from tools.__main__ import TOOLS, called
from tools.ending import Signals

TOP = os.path.dirname(os.path.dirname(os.path.realpath(__file__)))

# What the script says where the program without its proofs answers. Where that one is tested, cases say what stands on standard
# error beside this line, and on standard output beside the last words of scripts that call it.
WITHOUT_PROOFS = ("pipecheck: this answer is of the program without its proofs; ./pipecheck --prove proves it here, in 12 to 35 "
                  "minutes on four processors\n")
BY_THAT_PROGRAM = ", by the program without its proofs"
USAGE = "pipecheck: bad command line\n"
# message passing on a pipeline in order, and its verdict
MP = ("examples/in-order.uspec", "examples/mp.test")
VERDICT = "unobservable\ntest forbidden: ok\ncycle 0.0@0:Mem 1.0@0:Mem 2.0@1:Mem 3.0@1:Mem\nend\n"
# where the program stands in a checkout
OUT = "crates/pipecheck_cli/out"
UNWRITTEN = "pipecheck: standard output could not be written: what it got is not the whole answer\n"
NO_TEST, NO_MODEL = (f"syntax: no {it} can continue with this token" for it in ("test", "model"))
# what it says where no program stands and none can be made
NO_TOOLCHAIN = ("pipecheck: the program is not built, and the toolchain that builds it, rt, is missing: README.md, "
                "'Getting started', says which one\n")

# How many seconds a process may take to come to where it is looked at, and how many to its end, on a machine with much else to do.
# What is waited for longer than that comes no more.
PATIENCE, LONGEST = 240, 1800

# whether the environment names the program that is tested, so that no other one is built
IS_NAMED = "TESTED_PROGRAM" in os.environ
# a part of the names of the cases that are to run, where not all are
wanted: str | None = None


def is_proved() -> bool:
    """Whether the program that is tested is the proved one."""
    program()
    return os.environ["PIPECHECK_PROVED"] != "no"


@functools.cache
def program() -> str:
    """The program that stands for these sources, proved or not, which is made where there is none. What is called from here stays
    with it."""
    said = os.environ.get("TESTED_PROGRAM")
    if said is None:
        done = subprocess.run([f"{TOP}/script/standing"], stdin=subprocess.DEVNULL, stdout=subprocess.PIPE, check=True, text=True)
        which, _, said = done.stdout.rstrip("\n").partition(" ")
        os.environ["PIPECHECK_PROVED"] = "yes" if which == "proved" else "no"
        os.environ["TESTED_PROGRAM"] = said
    # of one that is named nothing says that it is proved
    os.environ.setdefault("PIPECHECK_PROVED", "no")
    return said


@functools.cache
def apart() -> str:
    """A folder, one for all families of a run, where the scripts stand as where they are installed, with the program that stands
    here: which one does is not asked there at each call, and what is in Python is compiled."""
    if "APART" not in os.environ:
        folder = tempfile.mkdtemp(prefix="pipecheck-apart-")
        atexit.register(shutil.rmtree, folder, ignore_errors=True)
        # in a checkout that may not be written none of it is
        compileall.compile_dir(f"{TOP}/tools", quiet=2)
        for it in ("commands.txt", "docs", "pipecheck", "script", "tools"):
            _take(f"{TOP}/{it}", f"{folder}/{it}", it != "docs")
        os.remove(f"{folder}/script/build")
        shutil.copy2(program(), f"{folder}/pipecheck_cli")
        os.mkdir(f"{folder}/examples")
        for it in os.listdir(f"{TOP}/examples"):
            _take(f"{TOP}/examples/{it}", f"{folder}/examples/{it}", it == "suite")
        os.environ["APART"] = folder
    return os.environ["APART"]


def pipecheck() -> str:
    """The script `pipecheck` as it stands apart."""
    return f"{apart()}/pipecheck"


def checkout_script() -> str:
    """The script of this checkout; where the program is named the one that stands apart, since here another would be built."""
    return pipecheck() if IS_NAMED else f"{TOP}/pipecheck"


@dataclass(frozen=True)
class Done:
    """A call that has ended: its status, as a shell sees it, and what it wrote to standard output and to standard error."""

    status: int
    out: str
    err: str


def text_of(said: bytes) -> str:
    """What was written; bytes that are no UTF-8 stay apart from each other."""
    return said.decode("utf-8", "surrogateescape")


def environment(more: Mapping[str, str | None] | None = None) -> dict[str, str]:
    """The environment with these variables, and without those that are None."""
    joined: dict[str, str | None] = {**os.environ, **(more or {})}
    return {name: value for name, value in joined.items() if value is not None}


def run(
    words: Sequence[str | bytes], *, cwd: str = TOP, env: Mapping[str, str | None] | None = None, stdin: bytes | int = b"",
    seconds: float = LONGEST, **how: Any,
) -> Done:
    """Runs a command with nothing, these bytes or this file as standard input. `how` are further words of `subprocess.run`."""
    options: dict[str, Any] = {"stdout": subprocess.PIPE, "stderr": subprocess.PIPE, "cwd": cwd, "timeout": seconds}
    options["stdin" if isinstance(stdin, int) else "input"] = stdin
    done = subprocess.run(list(words), env=environment(env), check=False, **{**options, **how})
    return Done(status_of(done.returncode), text_of(done.stdout or b""), text_of(done.stderr or b""))


def at_once(count: int, ask: Callable[[], Done]) -> list[Done]:
    """What so many calls give that are made side by side."""
    with ThreadPoolExecutor(count) as pool:
        return [it.result() for it in [pool.submit(ask) for _ in range(count)]]


def status_of(code: int) -> int:
    """The status that a shell makes of that of a process."""
    return code if code >= 0 else 128 - code


def call(
    entry: Callable[[], object], words: Sequence[str], *, cwd: str = TOP, env: Mapping[str, str | None] | None = None,
    stdin: bytes = b"",
) -> Done:
    """Calls an entry of a tool, which reads `sys.argv`, with these words in a process that is forked from this one: what it imports
    is there already, and what it changes goes with it."""
    with tempfile.TemporaryFile() as given, tempfile.TemporaryFile() as out, tempfile.TemporaryFile() as err:
        given.write(stdin)
        given.seek(0)
        files = [given.fileno(), out.fileno(), err.fileno()]
        child = get_context("fork").Process(target=_become, args=(entry, list(words), cwd, environment(env), files))
        child.start()
        child.join()
        out.seek(0)
        err.seek(0)
        return Done(status_of(child.exitcode or 0), text_of(out.read()), text_of(err.read()))


def _become(entry: Callable[[], object], words: list[str], cwd: str, env: dict[str, str], files: list[int]) -> None:
    """The child of `call`."""
    for number, file in enumerate(files):
        os.dup2(file, number)
    sys.stdin = open(0, encoding="utf-8", errors="surrogateescape", closefd=False)
    sys.stdout = open(1, "w", encoding="utf-8", closefd=False)
    sys.stderr = open(2, "w", encoding="utf-8", errors="backslashreplace", closefd=False)
    os.environ.clear()
    os.environ.update(env)
    os.chdir(cwd)
    sys.argv = words
    found = entry()
    sys.exit(found if isinstance(found, int) else 0)


def tool(word: str, folder: str = TOP) -> list[str]:
    """The command that calls a tool by its word, as the scripts call it."""
    return [sys.executable, "-E", "-S", f"{folder}/tools", word]


def tool_entry(module: str) -> Callable[[], object]:
    """An entry that calls this module of tools/ as its word does."""
    word = next(word for word, it in TOOLS.items() if it == f"tools.{module}")
    return lambda: called(word, *sys.argv[1:])


def script_entry(path: str) -> Callable[[], object]:
    """An entry that runs the Python script at this path as if it were called."""

    def entry() -> None:
        runpy.run_path(path, run_name="__main__")

    return entry


def without_proofs(done: Done) -> Done:
    """Takes out what is said of the program without its proofs, where that one is tested."""
    if os.environ.get("PIPECHECK_PROVED") != "no":
        return done
    out = done.out
    if out.endswith(BY_THAT_PROGRAM + "\n"):
        out = out.removesuffix(BY_THAT_PROGRAM + "\n") + "\n"
    return Done(done.status, out, done.err.replace(WITHOUT_PROOFS, ""))


def comes(is_so: Callable[[], bool]) -> bool:
    """Whether something comes true in time."""
    end = time.monotonic() + PATIENCE
    while not is_so():
        if time.monotonic() > end:
            return False
        time.sleep(0.05)
    return True


def done_by(signals: Signals, work: Callable[[], int]) -> Done:
    """What a tool wrote that does this work, and how it ended."""
    return call(lambda: signals.status_or_end(work), [])


def done_by_unseen(signals: Signals, work: Callable[[], object]) -> Done:
    """The same, where a thread gets TERM in a second, when the main thread waits: so Python does not see it at once."""
    def get() -> None:
        time.sleep(1)
        signal.pthread_kill(threading.get_ident(), signal.SIGTERM)

    def entry() -> int:
        # where it is not seen, the clock ends this process
        signal.alarm(PATIENCE)
        signals.receive()
        threading.Thread(target=get, daemon=True).start()
        work()
        return 0

    return done_by(signals, entry)


def write(path: str, text: str | bytes) -> str:
    """Writes a file, with the folders on the way to it. Returns its path."""
    os.makedirs(os.path.dirname(path) or ".", exist_ok=True)
    with open(path, "wb") as file:
        file.write(text if isinstance(text, bytes) else text.encode("utf-8", "surrogateescape"))
    return path


def hash_of(path: str) -> str:
    """The SHA-256 of a file."""
    with open(path, "rb") as file:
        return sha256(file.read()).hexdigest()


def read(path: str) -> str:
    """The text of a file, which may be named from the top of the repository."""
    with open(os.path.join(TOP, path), "rb") as file:
        return text_of(file.read())


def end(process: subprocess.Popen[bytes]) -> None:
    """Ends a process, where it has not ended yet."""
    if process.poll() is None:
        process.kill()
    process.communicate()


class Cases(unittest.TestCase):
    """Cases that share a table or what they need. `work` is a folder for each test method, which goes at its end."""

    maxDiff = None
    work: str

    def setUp(self) -> None:
        self.work = tempfile.mkdtemp(prefix="pipecheck-tests-")
        self.addCleanup(shutil.rmtree, self.work, ignore_errors=True)

    @classmethod
    def replace(cls, owner: object, name: str, value: object) -> None:
        """Has a module or a class this in place of its own in the cases of this class."""
        cls.addClassCleanup(setattr, owner, name, getattr(owner, name))
        setattr(owner, name, value)

    def begin(self, words: Sequence[str], env: Mapping[str, str | None], **how: Any) -> subprocess.Popen[bytes]:
        """Starts a command as a process of its own, which ends with the test. `how` are words of `subprocess.Popen`."""
        options: dict[str, Any] = {**dict.fromkeys(("stdin", "stdout", "stderr"), subprocess.DEVNULL), **how}
        process = subprocess.Popen(words, cwd=TOP, env=environment(env), **options)
        self.addCleanup(end, process)
        return process

    def is_wanted(self, name: str) -> bool:
        """Whether the case of this name is to run."""
        return wanted is None or wanted in name

    @contextlib.contextmanager
    def case(self, name: str) -> Iterator[None]:
        """A case of this name, which the statements under `with` judge by `assert..`."""
        with self.subTest(case=name):
            yield

    def judge(self, name: str, done: Done | Callable[[], Done], status: int = 0, out: str = "", err: str = "") -> None:
        """Judges what a call wrote, or a call that is made where this case is to run, beside what is said of the program without
        its proofs."""
        if self.is_wanted(name):
            with self.case(name):
                self.assertEqual(without_proofs(done if isinstance(done, Done) else done()), Done(status, out, err))

    def gives(self, name: str, words: Sequence[str | bytes], status: int = 0, out: str = "", err: str = "", **how: Any) -> None:
        """A command ends with this status and writes these two texts; `how` are words of `run`."""
        self.judge(name, lambda: run(words, **how), status, out, err)

    def shows(self, name: str, status: int, out: str, *words: str) -> None:
        """The program itself writes this to standard output, and nothing to standard error."""
        self.gives(name, [program(), *words], status, out)

    def says(self, name: str, status: int, out: str, err: str, *words: str) -> None:
        """By the script standard output and the status are the program's, and this is said on standard error."""
        self.gives(name, [pipecheck(), *words], status, out, err)

    def holds(self, name: str, condition: object) -> None:
        """This holds."""
        self.same(name, bool(condition))

    def finds(self, name: str, pattern: str, text: str) -> None:
        """This stands in a text, where `^` and `$` are of each line."""
        with self.case(name):
            self.assertRegex(text, re.compile(pattern, re.M))

    def skips(self, name: str, why: str) -> None:
        """A case that cannot run here, which is said and is no passed one."""
        with self.case(name):
            self.skipTest(why)

    def same(self, name: str, found: object, wanted: object = True) -> None:
        """What is found is what is wanted, which may be that something holds."""
        with self.case(name):
            self.assertEqual(found, wanted)


def forms_of(word: str | None = None) -> str:
    """The forms of a command as `help WORD` lists them, by the table: a sentence in lines of at most 76 columns after 4 blanks; of
    no word the forms of all commands."""
    forms = ""
    for line in read("commands.txt").splitlines():
        who, *parts = line.split("|")
        if who in ("program", "script") and word in (None, parts[0]):
            after = f" {parts[1]}" if parts[1] else ""
            sentence = "".join(f"    {it}\n" for it in textwrap.wrap(parts[2], 76, break_long_words=False, break_on_hyphens=False))
            forms += f"pipecheck {parts[0]}{after}\n{sentence}"
    return forms


def command_forms() -> str:
    """The forms of all commands, as `help` lists them."""
    statuses = "Exit status: 0 observable, 1 unobservable, 6 a refused certificate, any other no\nverdict (docs/faults.md).\n"
    return forms_of() + statuses


def meant(word: str) -> str:
    """What is said of words that are no command, of which the first one is a command's."""
    return f"{forms_of(word)}pipecheck: these words are no command; how {word} is called stands above\n"


def missing(path: str) -> str:
    """What is said of a file that is missing."""
    return f"pipecheck: a file could not be read\npipecheck: {path} is not there\n"


def told(path: str, place: str, said: str, due: str = "", folder: str = TOP) -> str:
    """How a refusal of a file is told: the place, the fault's word with its sentence, the line there with blanks for tabs, a mark
    below its column, and what is expected there."""
    line, column = map(int, place.split(":"))
    row = read(os.path.join(folder, path)).splitlines()[line - 1].replace("\t", " ")
    expected = f"pipecheck: {due} is expected\n" if due else ""
    return f"{path}:{place}: {said}\n    {row}\n{' ' * (3 + column)}^\n{expected}"


def copy_checkout(folder: str, copied: Sequence[str] = (), crates: Sequence[str] = ()) -> str:
    """Makes a checkout without what was built: its files, the scripts, and the folders and crates of these names are copies, and
    the others, which are only read, are links. Returns the folder."""
    os.makedirs(f"{folder}/crates")
    for name in set(os.listdir(TOP)) - {".git", "crates"}:
        _take(f"{TOP}/{name}", f"{folder}/{name}", name in ("script", *copied) or os.path.isfile(f"{TOP}/{name}"))
    for name in os.listdir(f"{TOP}/crates"):
        os.mkdir(f"{folder}/crates/{name}")
        for part in set(os.listdir(f"{TOP}/crates/{name}")) - {"out", "must-fail"}:
            _take(f"{TOP}/crates/{name}/{part}", f"{folder}/crates/{name}/{part}", name in crates)
    return folder


class InACheckout(Cases):
    """Cases in a checkout, `top`, with a PATH that has no toolchain, `plain`; both are in a folder of the class, `room`."""

    # the programs that may answer
    proved: str | None = None
    room: str
    top: str
    plain: str

    @classmethod
    def setUpClass(cls) -> None:
        cls.room = os.path.realpath(tempfile.mkdtemp(prefix="pipecheck-tests-"))
        cls.addClassCleanup(shutil.rmtree, cls.room, ignore_errors=True)
        cls.top, cls.plain = f"{cls.room}/checkout", commands_without(f"{cls.room}/plain", "rt")

    @classmethod
    def run_it(cls, words: Sequence[str | bytes], env: Mapping[str, str | None] | None = None, **how: Any) -> Done:
        """Runs a command there."""
        its = {"PATH": cls.plain, "PIPECHECK_PROVED": cls.proved, **(env or {})}
        return run(words, cwd=how.pop("cwd", cls.top), env=its, **how)

    def does(self, name: str, status: int, out: str, err: str, words: Sequence[str | bytes], **how: Any) -> None:
        """A command that runs there ends with this status and writes these two texts."""
        self.same(name, self.run_it(words, **how), Done(status, out, err))


def _take(path: str, at: str, is_copied: bool) -> None:
    """Copies what stands at this path, or links it."""
    if not is_copied:
        os.symlink(path, at)
    elif os.path.isdir(path):
        shutil.copytree(path, at, symlinks=True, ignore=shutil.ignore_patterns("out"))
    else:
        shutil.copy2(path, at)


def within(which: int, size: int) -> Callable[[], None]:
    """Of `run` a `preexec_fn`, by which the command may have no more than this of one of the resources that `resource` names."""
    return lambda: resource.setrlimit(which, (size, size))


def heed_signals() -> None:
    """Of `run` a `preexec_fn`, by which the command ignores no signal that asks for an end, also where a shell runs these cases
    beside itself."""
    for it in (signal.SIGHUP, signal.SIGINT, signal.SIGQUIT, signal.SIGTERM):
        signal.signal(it, signal.SIG_DFL)


def as_a_job() -> None:
    """Of a process that begins: a group of its own, which signals end."""
    os.setpgrp()
    heed_signals()


class Beside:
    """A command that runs beside a test, as a job of a shell does, and has by now written to this file, or where none is named to
    standard error. `how` are words of `subprocess.Popen`."""

    def __init__(self, words: Sequence[str], begun: str | None, env: Mapping[str, str | None], **how: Any) -> None:
        with contextlib.suppress(FileNotFoundError):
            os.remove(begun or "")
        self.out, self.err = tempfile.TemporaryFile(), tempfile.TemporaryFile()
        self.process = subprocess.Popen(  # pylint: disable=subprocess-popen-preexec-fn,consider-using-with
            words, env=environment(env), stdin=subprocess.DEVNULL, stdout=self.out, stderr=self.err, preexec_fn=as_a_job, **how
        )
        noted = begun or f"/proc/self/fd/{self.err.fileno()}"
        comes(lambda: self.process.poll() is not None or os.path.exists(noted) and os.path.getsize(noted) > 0)

    def ended_by(self, name: str, is_group: bool = False) -> Done:
        """What it wrote until this signal ended it, or all that it began with it; it is ended by force where it lives on."""
        if is_group:
            os.killpg(self.process.pid, signal.Signals[f"SIG{name}"])
        else:
            self.process.send_signal(signal.Signals[f"SIG{name}"])
        try:
            self.process.wait(PATIENCE)
        except subprocess.TimeoutExpired:
            self.process.kill()
        with self.out, self.err:
            self.out.seek(0)
            self.err.seek(0)
            return Done(status_of(self.process.wait()), text_of(self.out.read()), text_of(self.err.read()))


@contextlib.contextmanager
def unread(named: str | None = None) -> Iterator[int]:
    """The end of a pipe to write to, which nobody reads any more: of one between two commands, or of one of this name."""
    if named is None:
        reader, writer = os.pipe()
    else:
        os.mkfifo(named)
        reader = os.open(named, os.O_RDONLY | os.O_NONBLOCK)
        writer = os.open(named, os.O_WRONLY)
    os.close(reader)
    with open(writer, "wb", buffering=0):
        yield writer


def commands_without(folder: str, name: str) -> str:
    """Makes a folder with a link to each command of this machine but those whose names begin so. Returns it, as a PATH."""
    os.makedirs(folder)
    for place in ("/usr/local/bin", "/usr/bin", "/bin"):
        for it in os.listdir(place):
            if not it.startswith(name) and not os.path.lexists(f"{folder}/{it}"):
                os.symlink(f"{place}/{it}", f"{folder}/{it}")
    return folder


@contextlib.contextmanager
def without_output(kind: str) -> Iterator[dict[str, Any]]:
    """Words of `run` by which standard output takes nothing: a `full` device, a `closed` file, or a pipe `unread` by anyone."""
    if kind == "closed":
        yield {"stdout": None, "preexec_fn": functools.partial(os.close, 1)}
    elif kind == "full":
        with open("/dev/full", "wb") as device:
            yield {"stdout": device}
    else:
        with unread() as pipe:
            yield {"stdout": pipe}


def command(path: str, text: str) -> str:
    """Writes a command, which this shell script is. Returns its path."""
    write(path, text if text.startswith("#!") else f"#!/bin/sh\n{text}")
    os.chmod(path, 0o755)
    return path


def as_proved(checkout: str, path: str) -> None:
    """Has a copy of this program stand as the proved one in a checkout."""
    script = ('top=$PWD; . script/calls; mkdir -p "$out" && cp "$1" "$out/pipecheck_cli" && '
              'take_program "$(hash_sources)" "a kit logic 0123456789abcdef"')
    subprocess.run(["bash", "-c", script, "as_proved", path], cwd=checkout, check=True)


@contextlib.contextmanager
def replaced(owner: object, name: str, value: object) -> Iterator[None]:
    """Has a module or a class this in place of its own meanwhile. `unittest.mock` does so too, and takes longer to load than most
    families take to run."""
    was = getattr(owner, name)
    setattr(owner, name, value)
    try:
        yield
    finally:
        setattr(owner, name, was)


@contextlib.contextmanager
def holding(path: str, text: str) -> Iterator[None]:
    """Has a file with this text meanwhile, also in the place of another one."""
    was = read(path) if os.path.exists(path) else None
    write(path, text)
    try:
        yield
    finally:
        os.remove(path) if was is None else write(path, was)


def files_below(folder: str) -> list[str]:
    """Each file below a folder, by its path there."""
    return sorted(os.path.relpath(f"{place}/{it}", folder) for place, _, names in os.walk(folder) for it in names)
