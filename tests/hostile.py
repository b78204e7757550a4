"""Runs the program that stands on random texts, some made to break it, and judges each answer. It is no part of the gate.

    python3 -m tests.hostile [SECONDS [SEED]]      60 seconds, and a seed of the system's
    python3 -m tests.hostile --again CASE          one case, by the name that is told where it was wrong

A run is one call of the program. What it may answer is said by docs/faults.md and, of these very files, by the second
reading under tools/second, which also judges each certificate that the program writes, each lifted refutation that it makes
of one, and each change of one that the program judges. Tests on shipped models, and sweeps of them with their reads
open, are compared with the machines of tools/agree. Runs under a small limit of memory may end with status 7 in
place of their answer; those that a signal ended are counted apart, as are those that came too late.

The seed is printed first: with it the same cases come again, as many as there is time for. Files of what was wrong are
kept in a folder that is named. The last line is 'N runs, M wrong', and the status is 1 where M is not 0.

Variables of the environment: PIPECHECK, the program (the one that stands); HOSTILE_JOBS, how many run side by side (the
number of processors); HOSTILE_FOLDER, where wrong runs are kept (out/hostile).
"""
import io
import os
import re
import resource
import secrets
import shutil
import signal
import subprocess
import sys
import tempfile
import time
from collections import Counter
from concurrent.futures import ProcessPoolExecutor
from dataclasses import dataclass, field
from glob import escape as glob_escape
from glob import glob
from importlib import import_module
from itertools import count, takewhile
from random import Random
from typing import Any, Callable, Iterable

from tests import cases, random_texts
from tools import TOP
from tools.agree.litmus import test_of_text
from tools.second.cases import read_case
from tools.second.lifted import LiftedJudge
from tools.second.main import run
from tools.second.patterns import ENDING as PATTERN
from tools.second.scopes import read_model
from tools.standing import tested
from tools.telling.files import rows_of
from tools.texts.memory_models import memory_model_of

TESTED = tested(TOP)
PROGRAM = TESTED.path
SECONDS_OF_A_CALL = 20
SECONDS_OF_A_READING = 5
# the words that docs/faults.md has for the faults of each file
WORDS = {kind: dict(rows_of(f"{TOP}/docs/faults.md", f"| word of a {kind} |")) for kind in ("model", "test")}
Answer = tuple[int, bytes]
Words = list[str | bytes]


class Wrong(Exception):
    """What a run answered and should not have."""


class Late(Exception):
    """The program, or the second implementation, took longer than it may."""


def within(work: Callable[..., Any], *args: Any, seconds: float = SECONDS_OF_A_READING) -> Any:
    """What the work gives within so many seconds."""

    def stop(*_: Any) -> None:
        raise Late

    signal.signal(signal.SIGALRM, stop)
    signal.setitimer(signal.ITIMER_REAL, seconds)
    try:
        return work(*args)
    except (RecursionError, MemoryError) as error:
        raise Late from error
    finally:
        signal.setitimer(signal.ITIMER_REAL, 0)


def of_second(args: Words) -> Answer:
    """What the second implementation answers to these words."""
    out = io.StringIO()
    return run([os.fsdecode(it) for it in args], out), out.getvalue().encode()


@dataclass
class Runs:
    """The runs of one worker."""

    folder: str
    keep: str
    random: Random = field(default_factory=Random)
    counts: Counter[str] = field(default_factory=Counter)
    said: list[str] = field(default_factory=list)

    def path(self, name: str) -> str:
        return os.path.join(self.folder, name)

    def write(self, name: str, text: bytes) -> str:
        return cases.write(self.path(name), text)

    def call(self, args: Words, memory: int = 0, **how: Any) -> Answer:
        """Runs the program: its status, negative where a signal ended it, and what it wrote."""
        self.counts["runs"] += 1
        if memory:
            how["preexec_fn"] = cases.within(resource.RLIMIT_AS, memory)
        options: dict[str, Any] = {"stdin": subprocess.DEVNULL, "stdout": subprocess.PIPE, "stderr": subprocess.PIPE, **how}
        try:
            done = subprocess.run([PROGRAM, *args], timeout=SECONDS_OF_A_CALL, check=False, **options)
        except subprocess.TimeoutExpired as error:
            raise Late from error
        # under a limit of memory it is the system that may say there why the program could not begin
        if done.stderr and not memory:
            raise Wrong(f"{args}: standard error has {done.stderr[:80]!r}")
        return done.returncode, done.stdout or b""

    def demand(self, args: Words, *allowed: Answer) -> Answer:
        """Runs the program; its answer has to be one of these."""
        answer = self.call(args)
        if answer not in allowed:
            wanted = " or ".join(f"{status}, {text[:80]!r}" for status, text in allowed)
            raise Wrong(f"{args}: status {answer[0]}, {answer[1][:80]!r}, and not {wanted}")
        return answer

    def alike(self, args: Words, seconds: float = SECONDS_OF_A_READING) -> Answer:
        """Runs the program; its answer has to be that of the second implementation."""
        return self.demand(args, within(of_second, args, seconds=seconds))

    def pair(self) -> None:
        """Both kinds of check on a model and a test, as often changed as not, against the second implementation; then what can be
        done with the certificate."""
        texts = [random_texts.ModelMaker(self.random).text(), random_texts.test_text(self.random)]
        for place in self.random.choice(((), (), (), (0,), (1,), (0, 1))):
            texts[place] = random_texts.changed_file(self.random, texts[place])
        files: Words = [*map(self.write, ("model", "test"), texts)]
        status, text = within(of_second, ["check", *files])
        if status == 3:
            self.refused(files, text)
            return
        for word in ("check", "check2"):
            answer = self.alike([word, *files])
            self.certificate(files, *answer)
            self.outside([word, *files], answer)
        self.alike(["core", *files])
        # texts that begin as a lifted refutation does, and changes of them
        text = within(random_texts.lifted_text, self.random, LiftedJudge(read_model(texts[0]), read_case(texts[1])))
        for _ in range(3):
            self.lifted(files, status, text)
            text = random_texts.changed_certificate(self.random, text)

    def lifted(self, files: Words, status: int, text: bytes) -> bool:
        """Whether both judges take a lifted refutation. They take none where the status of `check` is that of an observable one."""
        is_taken = self.alike(["verify-lifted", *files, self.write("lifted", text)])[0] == 1
        if is_taken and status == 0:
            raise Wrong("a lifted refutation of an observable outcome is taken")
        return is_taken

    def lift(self, files: Words, status: int) -> None:
        """What `lift` makes of a certificate, which is there as a file. Both judges take the text that it makes."""
        lift: Words = ["lift", *files, self.path("certificate")]
        answer = self.alike(lift)
        if answer[1].startswith(b"unobservable\n"):
            if not self.lifted(files, status, answer[1]):
                raise Wrong(f"lift: {answer[1][:80]!r}, which is not taken")
            self.outside(lift, answer)

    def refused(self, files: Words, line: bytes) -> None:
        """All commands on two files refuse them by this line, which has a word of docs/faults.md."""
        word = self.word_of(line)
        third = self.path("none")
        for command in ("check", "check2", "core"):
            self.demand([command, *files], (3, line))
        for command in ("verify", "verify-lifted", "lift"):
            self.demand([command, *files, third], (3, line))
        # the query is read before anything is judged
        self.demand(["ask", *files, third], (3, line) if word == b"too-large" else (4, b""))
        self.outside(["check", *files], (3, line))

    @staticmethod
    def word_of(line: bytes) -> bytes:
        """The word of a refusal's line, which is one of docs/faults.md; a query has those of a model."""
        kind, word = re.match(rb"refused (\w+) ([a-z-]+) at ", line).groups()  # type: ignore[union-attr]
        if word.decode() not in WORDS[kind.decode().replace("query", "model")]:
            raise Wrong(f"docs/faults.md has no word {word!r} of a {kind!r}")
        return word

    def certificate(self, files: Words, status: int, text: bytes) -> None:
        """The certificate that `check` writes with this status, rewritings that keep it right, and changes of it."""
        verify: Words = ["verify", *files, self.write("certificate", text)]
        accepted = status, b"verified " + text.partition(b"\n")[0] + b"\n"
        self.demand(verify, accepted)
        if len(text) > 20_000:
            return
        self.lift(files, status)
        self.write("certificate", random_texts.rewritten_certificate(self.random, text))
        self.demand(verify, accepted)
        for _ in range(self.random.choice((1, 2, 4))):
            self.write("certificate", random_texts.changed_certificate(self.random, text))
            self.alike(verify)
            self.lift(files, status)

    def outside(self, args: Words, answer: Answer) -> None:
        """Now and then the same with an output that fails, or with little memory."""
        if self.random.random() < 0.1:
            self.failing_output(args)
        if self.random.random() < 0.2:
            self.little_memory(args, answer)

    def failing_output(self, args: Words) -> None:
        """A full device, a closed output, a pipe that nobody reads: status 5."""
        kind = self.random.choice(("full", "closed", "unread"))
        # a worker makes so many of these calls that none of them may leave a file open
        with cases.without_output(kind) as how:
            status, _ = self.call(args, **how)
        if status != 5:
            raise Wrong(f"{args}: status {status} where the output is {kind}")

    def little_memory(self, args: Words, answer: Answer) -> None:
        """A limit of address space: the same answer, or status 7 and nothing written."""
        memory = int(2 ** self.random.uniform(21, 25))
        found = self.call(args, memory=memory)
        if found[0] < 0 and not found[1]:
            self.counts["signals"] += 1
        elif found[0] == 127 and not found[1]:
            self.counts["not begun"] += 1
        elif found not in (answer, (7, b"")):
            raise Wrong(f"{args} with {memory} bytes of memory: status {found[0]}, {found[1][:80]!r}")

    def arguments(self) -> None:
        """Arguments of any kind: no command, names of no file, bytes that are no text."""
        names: Words = [
            self.write("model", b'StageName 0 "S".\n'), self.write("test", b'Litmus "t".\n'), self.path("none"), self.folder, "",
            b"\xff", "x" * 300, "--help", "check", "verify", "core", "sweep", "lift", "ask", "gen",
            str(self.random.randint(0, 9)), "02", "+4", "4 ", "17", "1e1"]
        words = "check check2 verify core sweep verify-lifted lift ask gen Check help".split()
        firsts: Words = [*words, "", b"\xc3("]
        args = [self.random.choice(firsts)]
        count = self.random.choice((0, 1, 1, 2, 2, 2, 3, 3, 4))
        args += self.random.choices(names, weights=[6, 6] + [1] * (len(names) - 2), k=count)
        self.demand(args, self.answer_to(args))

    def answer_to(self, args: Words) -> Answer:
        """What the program answers to arguments of the names above, by docs/faults.md: the second implementation has no `gen`, and
        takes any bytes."""
        if b"\xff" in args or b"\xc3(" in args:
            return 8, b""
        if args[0] == "gen" and args[1:] in [[str(n)] for n in range(2, 17)]:
            n = int(args[1])
            splits = n * n - 2 * n + 2
            return 0, f"gen {n}\nunobservable\nnodes {2 * n}\nsplits {splits}\nleaves {splits + 1}\nend\n".encode()
        return of_second(args)

    def pattern(self) -> None:
        """A sweep, against the second implementation's."""
        pattern_text = random_texts.opened(self.random, random_texts.test_text(self.random), self.random.random() < 0.05)
        if self.random.random() < 0.3:
            pattern_text = random_texts.changed_file(self.random, pattern_text)
        files: Words = [self.write("model", random_texts.ModelMaker(self.random).text()), self.write("test", pattern_text)]
        answer = self.alike(["sweep", *files])
        self.outside(["sweep", *files], answer)

    def query(self) -> None:
        """A query, against the second implementation's answer."""
        maker = random_texts.ModelMaker(self.random)
        texts = [maker.text(), random_texts.test_text(self.random), maker.query()]
        if self.random.random() < 0.4:
            which = self.random.choice((0, 1, 2, 2, 2))
            texts[which] = random_texts.changed_file(self.random, texts[which])
        files: Words = [*map(self.write, ("model", "test", "query"), texts)]
        answer = self.alike(["ask", *files], 2 * SECONDS_OF_A_READING)
        if answer[0] == 3:
            self.word_of(answer[1])
        self.outside(["ask", *files], answer)

    def machine(self) -> None:
        """A test on a shipped model, against the machine that the model names."""
        path = self.random.choice(SHIPPED)
        model_text = cases.read(path).encode()
        name = memory_model_of(model_text).name
        text = random_texts.machine_test(self.random)
        self.write("model", model_text)
        test_path = self.write("test", text)
        test = test_of_text(test_path, text)
        outcomes = within(import_module(f"tools.agree.machines.{name}").outcomes, test, seconds=SECONDS_OF_A_CALL)
        allowed = bool(test.rows_shown_by(outcomes))
        status, answer = self.call(["check", self.path("model"), test_path])
        if status != (0 if allowed else 1):
            raise Wrong(f"{path}: status {status}, {answer[:80]!r}; the machine {name} {'allows' if allowed else 'forbids'} it")
        # the same with some of the reads open
        opened = random_texts.opened(self.random, text)
        self.write("pattern", opened)
        test = test_of_text(PATTERN, opened)
        wanted = {" ".join(map(str, row)) for row in test.rows_shown_by(outcomes)}
        status, answer = self.call(["sweep", self.path("model"), self.path("pattern")])
        lines = [line.split(" ") for line in answer.decode().splitlines() if line.startswith("row")]
        if status != 0 or {" ".join(line[1:-1]) for line in lines if line[-1] == "observable"} != wanted:
            raise Wrong(f"{path}: status {status}, {answer[:200]!r}; the machine {name} shows {sorted(wanted)}")

    def judged(self, name: str) -> None:
        """The case of this name; what is wrong with it is kept."""
        self.random = Random(name)
        kinds = {self.pair: 10, self.arguments: 1, self.machine: 2, self.pattern: 3, self.query: 3}
        (kind,) = self.random.choices([*kinds], weights=[*kinds.values()])
        try:
            kind()
        except Late:
            self.counts["late"] += 1
        except (Wrong, AssertionError) as wrong:
            self.kept(name, wrong)

    def kept(self, name: str, wrong: Exception) -> None:
        """Keeps the files of a wrong run."""
        self.counts["wrong"] += 1
        folder = tempfile.mkdtemp(prefix="wrong-", dir=self.keep)
        shutil.copytree(self.folder, folder, dirs_exist_ok=True)
        cases.write(os.path.join(folder, "said"), f"case {name}\n{wrong}\n")
        self.said.append(f"case {name}, kept in {folder}: {wrong}")


SHIPPED = sorted(glob(os.path.join(glob_escape(TOP), "examples", "models", "*.uspec")))


def work(seed: str, seconds: float, keep: str) -> tuple[Counter[str], list[str]]:
    """The runs of one worker, until the time is over."""
    until = time.monotonic() + seconds
    return run_all((f"{seed}.{case}" for case in takewhile(lambda _: time.monotonic() < until, count())), keep)


def run_all(names: Iterable[str], keep: str) -> tuple[Counter[str], list[str]]:
    """Runs the cases of these names: how many runs there were and how they ended, and lines on those that were wrong."""
    with tempfile.TemporaryDirectory(prefix="hostile-") as folder:
        runs = Runs(folder, keep)
        for name in names:
            runs.judged(name)
        return runs.counts, runs.said


def tell(counts: Counter[str], said: list[str]) -> int:
    """Prints what was wrong and the counts, and returns the status."""
    for line in said:
        print(line)
    print(f"{counts['late']} came too late to be judged, {counts['signals']} were ended by a signal under a limit of memory, "
          f"{counts['not begun']} could not begin under one")
    print(f"{counts['runs']} runs, {counts['wrong']} wrong{TESTED.said}")
    return 1 if counts["wrong"] else 0


def main(words: list[str]) -> int:
    """Runs the workers."""
    if words[:1] == ["--help"]:
        print(__doc__)
        return 0
    keep = os.path.abspath(os.environ.get("HOSTILE_FOLDER", os.path.join(TOP, "out", "hostile")))
    os.makedirs(keep, exist_ok=True)
    sys.setrecursionlimit(20_000)
    if words[:1] == ["--again"] and len(words) == 2:
        return tell(*run_all([words[1]], keep))
    if len(words) > 2 or not all(re.fullmatch(r"\d{1,9}", word) for word in words[:1]):
        sys.exit("hostile: --help tells how it is called")
    seconds, seed = int(words[0]) if words else 60, words[1] if len(words) == 2 else secrets.token_hex(4)
    jobs = int(os.environ.get("HOSTILE_JOBS", os.cpu_count() or 1))
    print(f"seed {seed}", flush=True)
    counts: Counter[str] = Counter()
    said: list[str] = []
    with ProcessPoolExecutor(jobs) as pool:
        for found, lines in pool.map(work, [f"{seed}.{k}" for k in range(jobs)], [seconds] * jobs, [keep] * jobs):
            counts += found
            said += lines
    return tell(counts, said)


if __name__ == "__main__":
    sys.exit(main(sys.argv[1:]))
