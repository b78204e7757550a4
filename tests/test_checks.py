"""Checkers look at the scripts of the repository: shellcheck at those of the shell, and mypy, strictly, at those of Python, at what
they import, and at the families of tests. And what runs those says what comes to no end."""
from __future__ import annotations

import os
import re
import shutil
from collections import Counter
from glob import glob
from typing import Any, Sequence

from tests.cases import BY_THAT_PROGRAM, TOP, Beside, Cases, copy_checkout, read, run, write

SHELL = re.compile(r"#!.*(/|[ \t])(ba|da)?sh$|# shellcheck shell=")
PYTHON = re.compile(r"#!.*[ \t]python3( -I -S)?$")
# where scripts find modules by their bare names
FOLDERS = ("bench", "tests")


def begin_so(pattern: re.Pattern[str]) -> list[str]:
    """The files whose first line is so; what is built, and the crates, have no scripts."""
    found = []
    for folder, below, names in os.walk(TOP):
        below[:] = [it for it in below if it not in (".git", "out", "__pycache__") and f"{folder}/{it}" != f"{TOP}/crates"]
        for path in (f"{folder}/{name}" for name in names if os.path.isfile(f"{folder}/{name}")):
            with open(path, encoding="latin-1", newline="\n") as file:
                if pattern.match(file.readline().rstrip("\n")):
                    found.append(os.path.relpath(path, TOP))
    return sorted(found)


class Checked(Cases):
    """What one call of a checker says."""

    def judge_parts(self, what: str, words: Sequence[str], starts: dict[str, str], **how: Any) -> None:
        """Of each part there is no line, which would start so. With another status than 0 and 1 nothing is judged."""
        if not any(map(self.is_wanted, starts)):
            return
        if shutil.which(words[0]) is None:
            self.skips(what, f"there is no {words[0]}")
            return
        said = run(words, **how)
        lines = [*said.out.splitlines(), *said.err.splitlines()]
        for name, start in starts.items():
            found = [it for it in lines if it.startswith(start)]
            lines = [it for it in lines if not it.startswith(start)]
            self.same(name, (said.status in (0, 1), found), (True, []))


class Shell(Checked):
    """Scripts of the shell."""

    def test_shellcheck(self) -> None:
        files = begin_so(SHELL)
        self.judge_parts(f"shellcheck of {len(files)} scripts", ["shellcheck", "-x", "-f", "gcc", *files], {
            **{f"shellcheck of {it}": f"{it}:" for it in files},
            "shellcheck of what these take": "",
        })


class Types(Checked):
    """What is written in Python."""

    def test_mypy(self) -> None:
        kinds = ("tools/**/*.py", "tests/*.py", "bench/*.py")
        files = [it for kind in kinds for it in sorted(glob(kind, root_dir=TOP, recursive=True))]
        # A script without the ending of a module has a copy under such a name. One call looks at all, and what mypy found stands for
        # later calls, by the bytes of the files: to read the types of all anew takes many times as long.
        copies = {it: f"{self.work}/script_{number}.py" for number, it in enumerate(begin_so(PYTHON)) if not it.endswith(".py")}
        for it, copy in copies.items():
            shutil.copy(f"{TOP}/{it}", copy)
        options = ["--python-version", "3.10", "--strict", "--no-error-summary", "--explicit-package-bases", "--cache-dir"]
        words = ["mypy", *options, f"{TOP}/out/types", *copies.values(), *files]
        self.judge_parts(f"types of {len(files)} files of Python", words, {
            **{f"types of {it}": f"{copy}:" for it, copy in copies.items()},
            **{f"types of {it}": it for it in sorted(glob("tools/[!_]*/", root_dir=TOP))},
            "types of what all tools take": "tools/",
            "types of the families of tests": "tests/",
            "types of the scripts of bench/": "bench/",
            "types of what else scripts take": "",
        }, env={"MYPYPATH": f"{TOP}:{TOP}/bench"})

    def test_second(self) -> None:
        """the second implementation takes nothing of the other tools"""
        texts = "".join(map(read, glob(f"{TOP}/tools/second/*.py")))
        taken = {*re.findall(r"(?m)^ *(?:from|import) (tools[\w.]*)", texts)}
        self.assertEqual({it for it in taken if not it.startswith("tools.second")}, set())

    def test_entries(self) -> None:
        """each word of tools/ calls a module that is there"""
        found = re.findall(r'(?m)^    "\w+": "([\w.]+)",$', read("tools/__main__.py"))
        self.assertEqual([it for it in found if not os.path.isfile(f"{TOP}/{it.replace('.', '/')}.py")], [])
        self.assertGreater(len(found), 10)

    def test_names(self) -> None:
        """modules of scripts have names of their own"""
        names = Counter(os.path.basename(it) for folder in FOLDERS for it in glob(f"{TOP}/{folder}/*.py"))
        self.assertEqual([it for it, count in names.items() if count > 1], [])


class Families(Cases):
    """Families of a copy, of a few cases each."""

    def setUp(self) -> None:
        super().setUp()
        self.top = copy_checkout(f"{self.work}/top", ("tests", "tools"))
        for name, text in (
            ("good", "self.same('one', 1, 1)\n        self.same('two', 2, 2)"), ("wrong", "self.same('three', 3, 4)"),
            ("parts", "for name in ('five', 'six'):\n            with self.case(name):\n                pass"),
            ("slow", f"open('{self.work}/begun', 'w').close()\n        time.sleep(1)"), ("ended", "os._exit(0)"),
            ("long", f"open('{self.work}/begun', 'w').write('begun')\n        time.sleep(600)"),
            ("deep", "self.same('deep', sys.getrecursionlimit(), 5000)\n\n\nsys.setrecursionlimit(5000)"),
            ("flat", "self.same('flat', sys.getrecursionlimit(), 1000)"),
            ("named", "self.gives('named', [checkout_script(), 'gen', '2'])"),
        ):
            case = f"class It(Cases):\n    def test_it(self) -> None:\n        {text}\n"
            head = "import os, sys, time\nfrom tests.cases import Cases, checkout_script\n"
            write(f"{self.top}/tests/test_{name}.py", head + case)
        write(f"{self.top}/tests/test_unread.py", "import no_such_module\n")
        os.mkdir(f"{self.work}/room")
        self.env = {"TESTED_PROGRAM": "/bin/true", "PIPECHECK_PROVED": "no", "TMPDIR": f"{self.work}/room"}

    def runs(self, name: str, status: int, counts: str, lines: list[str], *words: str, before: str = "") -> None:
        """These words give these lines, in any order, behind the one that names the program, and the one that counts so."""
        done = run(["bash", "-c", f'{before} unset SHOW_FAILED; exec tests/program "$@"', "bash", *words], cwd=self.top, env=self.env)
        wanted = sorted([*lines, f"{counts}, 0 skipped{BY_THAT_PROGRAM}"])
        self.same(name, (done.status, sorted(done.out.splitlines()[1:]), done.err), (status, wanted, ""))

    def test_families(self) -> None:
        good = ["ok      one", "ok      two"]
        self.runs("a family of which all cases pass", 0, "2 passed, 0 failed", good, "good")
        self.runs("... in place of a shell that began something else", 0, "1 passed, 0 failed", ["ok      test it"], "slow",
                  before=f"until [ -e '{self.work}/begun' ]; do sleep 0.1; done &")
        self.runs("one case by a part of its name", 0, "1 passed, 0 failed", ["ok      two"], "good", "wo")
        self.runs("... that stands under with", 0, "1 passed, 0 failed", ["ok      six"], "parts", "six")
        self.runs("no case has that name", 1, "0 passed, 0 failed", [], "good", "four")
        self.runs("the script of a checkout asks the program that is named, and builds none", 0, "1 passed, 0 failed",
                  ["ok      named"], "named")
        both = ["ok      deep", "ok      flat"]
        self.runs("how deep Python goes one family says for itself", 0, "2 passed, 0 failed", both, "deep", "flat")
        self.runs("one that cannot be read, and one whose process ends, fail, and the others run", 1, "2 passed, 3 failed", [
            *good, "FAILED  three: AssertionError: 3 != 4",
            "FAILED  tests/test_unread.py can be read: AssertionError: ModuleNotFoundError(\"No module named 'no_such_module'\")",
            "FAILED  tests.test_ended.It came to no end: status 0",
        ], "good", "unread", "ended", "wrong")

    def test_signals(self) -> None:
        """what is ended is told, and leaves nothing where temporary files go"""
        done = Beside(["tests/program", "long"], f"{self.work}/begun", self.env, cwd=self.top).ended_by("INT", True)
        self.assertEqual((done.status, done.err), (130, "tests: tests.test_long.It is ended\n"))
        self.assertEqual(os.listdir(f"{self.work}/room"), [])
