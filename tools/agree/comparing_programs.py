"""A model beside a machine, or another model, on many programs: random ones, or all small ones.

What a comparison of all small ones has got so far is kept, so that one that was ended goes on: in a small file for each question, with
the hash of all that the answers depend on, the bytes of the models, of the machines and of the program. So it holds for the same bytes
alone, and the next comparison of that name takes its place.
"""
import json
import os
import time
from contextlib import closing, suppress
from dataclasses import dataclass, field
from glob import glob
from itertools import islice
from pathlib import Path
from random import Random
from typing import Iterable, Iterator, NamedTuple

from tools import TOP
from tools.agree.comparing import Other, asks_for_locked, machine_of, rows_shown, sweeper, types_asked
from tools.agree.programs import Program, named, random_program, smallest
from tools.agree.small_programs import Family, Shape
from tools.agree.working import Counts, answers, tell
from tools.ending import Refusal
from tools.second.patterns import MOST_ROWS
from tools.suite.files import digest_of
from tools.suite.keeping import keep_whole, whole_text
from tools.suite.pairs import rows_told
from tools.suite.telling import Progress as Meter
from tools.texts.quoting import shown

# how often what is done is kept
SECONDS = 2.0
FULL = "Full"
# of what is kept
MOST_BYTES = 4096


@dataclass
class Progress:
    """How many programs are done, with what they said, and the number of the smallest of those that differ, if any."""

    counts: Counts = field(default_factory=Counts)
    smallest: int | None = None


class Kept:
    """The file of one comparison. Where nothing can be written nothing is kept, which is told once."""

    def __init__(self, folder: str, question: str, origin: str) -> None:
        self.folder = folder
        self.place = os.path.join(folder, digest_of(os.fsencode(question)))
        self.origin = origin
        self.is_told = False

    def read(self) -> Progress:
        """What a comparison has got; nothing where the file is none that was written of it."""
        found = json.loads(whole_text(self.place, MOST_BYTES) or b"{}")
        return Progress(Counts(found["counts"]), found["smallest"]) if found.get("origin") == self.origin else Progress()

    def write(self, progress: Progress) -> None:
        try:
            os.makedirs(self.folder, exist_ok=True)
            keep_whole(self.place, json.dumps({"origin": self.origin, **vars(progress)}).encode("ascii"))
        except OSError as error:
            if not self.is_told:
                tell(f"{shown(self.folder)}: {error.strerror}: what is done is not kept")
            self.is_told = True

    def clear(self) -> None:
        """A comparison that is done leaves nothing."""
        with suppress(OSError):
            os.unlink(self.place)


def digest_of_files(*paths: str) -> str:
    """One hash of the bytes of files, and of the modules of folders."""
    modules = {path: sorted(glob("**/*.py", root_dir=path, recursive=True)) for path in paths if os.path.isdir(path)}
    files = (Path(path, name) for path in paths for name in modules.get(path, [""]))
    return digest_of("".join(digest_of(file.read_bytes()) for file in files).encode("ascii"))


class Comparison(NamedTuple):
    """A model, what it is compared with, and whether the program sweeps."""

    model: str
    other: Other
    by_program: bool

    @property
    def name(self) -> str:
        """The model in a line."""
        return shown(os.path.basename(self.model))

    def family(self, shapes: tuple[Shape, ...], locations: int, has_fences: bool, has_exchanges: bool) -> Family:
        """The small programs that are asked for: with fences of the types that the models ask for, or of the full one alone,
        and with exchanges if they are taken."""
        fences = {FULL} if FULL in self.types else self.types
        return Family(shapes, locations, tuple(sorted(fences)) if has_fences else (), has_exchanges and self.takes_locked)

    def judge_usable(self) -> None:
        """Programs have no page tables."""
        if not self.other.is_model and getattr(machine_of(self.other.name), "TAKES_ENTRIES", False):
            raise Refusal(f"{shown(self.model)}: no programs are made for a machine with page tables")

    def difference(self, program: Program) -> str:
        """How the two differ on a program; nothing where they do not."""
        if not any(op.reads for op in program.ops):
            return ""
        if program.rows > MOST_ROWS:
            raise Refusal(f"its reads may get values in {program.rows} ways, and a sweep takes {MOST_ROWS}")
        pattern = program.pattern.encode("ascii")
        seen, wanted = rows_shown(self.model, pattern, self.by_program), self.other.rows_of(pattern, self.by_program)
        return "; ".join(rows_told(self.other.words(self.model), seen, wanted))

    def answers(self, programs: Iterable[Program], counts: Counts) -> Iterator[tuple[Program, bool]]:
        """Of each program in its order whether the two differ, once it is counted."""
        with closing(answers(self.difference, programs)) as found:
            for program, said in found:
                yield program, counts.enter(f"{self.name}: {named(program)}", said)

    def show_smallest(self, program: Program) -> None:
        """Takes parts out of a program as long as the two differ, and prints what is left."""
        least = smallest(program, lambda less: self.difference(less) != "")
        print(f"{self.name}: {named(least)}: {self.difference(least)}\n{least.pattern}", end="", flush=True)

    def random(self, seed: int, count: int) -> Counts:
        """Compares on random programs, and prints the smallest on which the two differ, if there is one."""
        random, types, counts = Random(seed), tuple(sorted(self.types)), Counts()
        programs = (random_program(random, types) for _ in range(count))
        least: Program | None = None
        for program, differs in self.answers(programs, counts):
            if differs and (least is None or len(program.ops) < len(least.ops)):
                least = program
        if least is not None:
            self.show_smallest(least)
        return counts

    def all_small(self, family: Family, folder: str) -> Counts:
        """Compares on all small programs, and goes on from what an ended comparison has got. Prints the smallest on
        which the two differ, if there is one."""
        count, kept = family.count, Kept(folder, repr((self, family)), self.origin)
        progress = kept.read()
        before = f", {progress.counts.total()} of them compared before" if progress.counts else ""
        print(f"{self.name}: {count} programs{before}", flush=True)
        programs = family.programs
        least: Program | None = None
        for number, program in enumerate(islice(programs, progress.counts.total())):
            if number == progress.smallest:
                least = program
        counts, meter, moment = Counts(progress.counts), Meter(count), time.monotonic()
        meter.done = counts.total()
        try:
            for program, differs in self.answers(programs, counts):
                if differs and (least is None or len(program.ops) < len(least.ops)):
                    least, progress.smallest = program, counts.total() - 1
                progress = Progress(Counts(counts), progress.smallest)
                meter.step()
                if time.monotonic() > moment + SECONDS:
                    moment = time.monotonic()
                    kept.write(progress)
        except BaseException:
            kept.write(progress)
            raise
        finally:
            meter.end()
        if least is not None:
            self.show_smallest(least)
        kept.clear()
        return counts

    @property
    def models(self) -> list[str]:
        """The models that programs are made for."""
        return [self.model, self.other.name] if self.other.is_model else [self.model]

    @property
    def types(self) -> set[str]:
        """The types that they ask for."""
        return {name for model in self.models for name in types_asked(model)}

    @property
    def takes_locked(self) -> bool:
        """Whether exchanges mean something to both."""
        takes = self.other.is_model or getattr(machine_of(self.other.name), "TAKES_LOCKED", False)
        return takes and all(map(asks_for_locked, self.models))

    @property
    def origin(self) -> str:
        """One hash of all that the answers depend on, but for the programs."""
        code = [os.path.join(TOP, "tools"), *(sweeper().words if self.by_program else [])]
        return digest_of_files(*self.models, *filter(os.path.exists, code))
