"""Proves the program's crates and builds the program. `rt ci` proves the libraries, in a copy, since it takes no repository inside
another one. Over them one call proves the program and compiles it by LLVM, with all processors, and another links it: `rt ci` would
have it compiled by two compilers, since it runs what both make and compares, and that is for the gate."""
import contextlib
import os
import re
import subprocess
import tempfile

from tools.build.making import PROGRAM, Failed, Job, linking, proving, toolchain, uses_of

# The last line of a proof that rests on nothing but the toolchain's own libraries, and takes no handle.
PROVED = re.compile(
    r"logic=proved( (functions|axioms|target|cpu|threads|sum)=\S+)+"
    r" native=nat,char,string logic-built=trusted libraries-built=trusted statements=trusted"
)
# What a program calls of the C library only where HANDLES allows it threads, sockets or other programs, which it does not.
BEYOND = re.compile(
    r"pthread_create|thrd_create"
    r"|epoll_\w+|eventfd|socket|socketpair|bind|connect|listen|accept4?|getaddrinfo|getnameinfo|gethostby\w+"
    r"|send|sendto|sendmsg|recv|recvfrom|recvmsg"
    r"|posix_spawn\w*|fork|vfork|clone3?|execv\w*|execl\w*|fexecve|system|popen|waitpid|waitid|wait[34]?"
)
# What the proof of a crate takes: 1.1 to 1.8 GB, the largest one 3.1. In bytes.
NEED = 2_500_000_000
# `rt` by itself guesses 3 to 7 GB, and keeps processors idle for it. With so much for each processor it keeps none
# idle, and it gives a crate that is proved alone more than one, as the first and the last are: so it is left to itself.
PLENTY = 4_000_000_000
# The limit of the control group, and what of it is held and can't be given back.
LIMIT = "/sys/fs/cgroup/memory.max"
HELD = "/sys/fs/cgroup/memory.stat"


def free_memory() -> float:
    """What the machine has free, and its control group may still take."""
    with open("/proc/meminfo", encoding="ascii") as lines:
        free = next((int(line.split()[1]) << 10 for line in lines if line.startswith("MemAvailable:")), 0)
    with contextlib.suppress(OSError, ValueError):
        with open(LIMIT, encoding="ascii") as limit, open(HELD, encoding="ascii") as held:
            found = re.search(r"^anon (\d+)$", held.read(), re.M)
            return min(free, int(limit.read()) - (int(found[1]) if found else 0))
    return free


def jobs_for(processors: int, memory: float) -> int | None:
    """How many crates are proved at a time: as many as memory holds; None where that is left to `rt`."""
    return None if memory >= processors * PLENTY else int(max(1, min(processors, memory // NEED)))


def processors() -> int:
    """How many a crate may take that is proved alone, or what RT_JOBS says."""
    said = os.environ.get("RT_JOBS", "")
    return int(said) if said.isdigit() and int(said) > 0 else len(os.sched_getaffinity(0))


def is_proved(said: str) -> bool:
    """Whether the call that proves says so, and nothing of handles."""
    lines = said.splitlines()
    return bool(lines) and PROVED.fullmatch(lines[-1]) is not None


def calls_beyond(tools: str, program: str) -> bool:
    """Whether a program calls of the C library what only a handle gives; also where that cannot be seen."""
    listed = subprocess.run(
        # several tools are one file, which goes by the name that it is called by
        ["llvm-nm", "-D", "--undefined-only", "-j", program], executable=f"{tools}/toolchain/bin/clang",
        stdin=subprocess.DEVNULL, capture_output=True, text=True, errors="replace", check=False,
    )
    names = {it.partition("@")[0] for it in listed.stdout.split()}
    return listed.returncode != 0 or not names or any(BEYOND.fullmatch(it) for it in names)


class Proved(Job):
    """The proved program, of two copies: a repository of the libraries, and that of all crates."""

    kind = "pipecheck"
    begins = "proving and building {} crates, once; the first time 12 to 35 minutes on four processors"
    ends = "proved and built"

    def progress(self) -> str:
        with open(self.at("build.log"), "rb") as log:
            # rt writes a heading when a crate is done, and one for its summary
            done = len(re.findall(rb"^== ", log.read(), re.M))
        count = len(self.crates)
        return f"{min(done, count)} of {count} crates are proved"

    def copy(self) -> None:
        self.copy_crates([it for it in self.crates if it != PROGRAM], "libraries")
        super().copy()

    def proof(self, tools: str) -> list[str]:
        """The call that proves and compiles the program, in its folder of the checkout. The other repository has the crates
        that it stands on, as `rt ci` left them."""
        places = {name: f"{self.room}/libraries/crates/{name}/out/rlib" for name in self.crates if name != PROGRAM}
        uses = uses_of(f"{self.room}/checkout").get(PROGRAM, [])
        words = proving(tools, "build", PROGRAM, "src/main.rt", uses, places)
        words += ["--jobs", str(processors()), "--links", f"{PROGRAM}=", "--toolchain", f"{tools}/toolchain"]
        return [*words, "--backend", "llvm", "-o", f"out/{PROGRAM}.o"]

    def is_called(self) -> bool:
        """Whether one call proved the program over its libraries, compiled it, and it was linked."""
        tools, folder = toolchain(), f"{self.room}/checkout/crates/{PROGRAM}"
        os.makedirs(f"{folder}/out", exist_ok=True)
        words = self.proof(tools)
        with tempfile.TemporaryFile(dir=f"{self.room}/temporary") as said:
            status = self.run(words, folder, said)
            said.seek(0)
            text = said.read()
        self.log.write(text)
        if status != 0 or not is_proved(text.decode("utf-8", "replace")):
            return False
        program = f"out/{PROGRAM}"
        is_linked = self.run(linking(tools, f"{program}.o", program), folder) == 0
        return is_linked and not calls_beyond(tools, f"{folder}/{program}")

    def is_made(self) -> bool:
        """Whether the program is proved and built. Where the one call comes to nothing, as with a toolchain of other
        words, `rt ci` judges all crates, and says why."""
        # a crate reads of those below it what they state, and not their proofs: so this takes less time than `rt run`
        if self.run(["rt", "ci"], f"{self.room}/libraries") != 0:
            return False
        try:
            if self.is_called():
                return True
        except OSError as error:
            self.log.write(f"{error}\n".encode())
        return self.run(["rt", "ci"], f"{self.room}/checkout") == 0

    def made(self) -> str:
        jobs = jobs_for(len(os.sched_getaffinity(0)), free_memory())
        if jobs is not None:
            # where whoever builds has not said it
            os.environ.setdefault("RT_JOBS", str(jobs))
        if not self.is_made():
            raise self.told(Failed(f"all that rt printed stands in {self.at('build.log')}"))
        return f"{self.room}/checkout/crates/{PROGRAM}/out/{PROGRAM}"
