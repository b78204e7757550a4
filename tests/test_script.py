"""The script `pipecheck` where there is no toolchain, in copies of the checkout. Nothing is built here."""
from __future__ import annotations

import os
import re
import resource
import shutil
from typing import Any

from tests.cases import (
    MP, NO_TOOLCHAIN, OUT, TOP, UNWRITTEN, VERDICT, Done, InACheckout, as_proved, command, command_forms, copy_checkout,
    files_below, forms_of, hash_of, meant, missing, program, read, unread, within, write
)

CHECK = ("check", *MP)
MEMORY = "pipecheck: memory was refused, so there is no answer\n"
AXIOM = 'Axiom "a": forall microop "i", forall microop "j", ProgramOrder i j => AddEdge ((i, S), (j, S), "").\n'
MANY = 'StageName 0 "S".\n' + AXIOM * 10_000


class InACopy(InACheckout):
    """Cases in a copy of the checkout without what was built, where the proved program alone answers, as if it were of fewer
    crates, which are read at each call."""

    proved = "yes"

    @classmethod
    def setUpClass(cls) -> None:
        super().setUpClass()
        copy_checkout(cls.top, ("tests", "tools"))
        write(f"{cls.top}/crates.txt", "pc_common:\nsolver: pc_common\nmodel_bench: pc_common\npipecheck_cli: pc_common solver\n")

    def call_it(self, *words: str, **how: Any) -> Done:
        """Calls the script of the copy where there is no toolchain."""
        return self.run_it(["./pipecheck", *words], **how)

    def answers(self, name: str, words: tuple[str, ...], status: int = 0, out: str = "", err: str = "", **how: Any) -> None:
        """The script of the copy answers so."""
        self.does(name, status, out, err, ["./pipecheck", *words], **how)


class NotBuilt(InACopy):
    """A copy where no program stands."""

    def test_a_clone_without_the_toolchain(self) -> None:
        self.answers("a clone without the toolchain", CHECK, 125, "", NO_TOOLCHAIN)
        self.answers("explain in a clone without the toolchain", ("explain", *MP), 125, "", NO_TOOLCHAIN)
        self.answers("--clean keeps what proves a program that is not built", ("--clean",), 125, "",
                     "pipecheck: the program is not built from these sources, so that what proves it is kept\n")

    def test_forms(self) -> None:
        for word in ("--help", "help", "-h"):
            self.answers(f"{word} builds nothing", (word,), 0, command_forms())
        words = [it.split("|")[1] for it in read("commands.txt").splitlines() if it.startswith(("program|", "script|"))]
        for word in dict.fromkeys(words):
            if word != "agree":
                self.answers(f"{word} --help", (word, "--help"), 0, forms_of(word))
        for form in (("help", "explain"), ("explain", "-h")):
            self.answers(" ".join(form), form, 0, forms_of("explain"))
        done = self.call_it("help", "agree")
        self.same("help agree", (done.status, "".join(done.out.splitlines(True)[:3]), done.err), (0, forms_of("agree"), ""))
        self.finds("... has the options too", "--between MODEL MODEL", done.out)

    def test_the_script_alone(self) -> None:
        alone = f"{self.work}/alone"
        os.mkdir(alone)
        shutil.copy2(f"{TOP}/pipecheck", alone)
        self.answers("a copied script has no checkout", CHECK, 125, "",
                     f"pipecheck: {alone} has neither a checkout nor an installed program beside this script: nothing is built\n",
                     cwd=alone)
        self.same("... and leaves nothing behind", os.listdir(alone), ["pipecheck"])
        shutil.copy2(f"{TOP}/commands.txt", alone)
        shutil.copytree(f"{TOP}/script", f"{alone}/script")
        self.answers(
            "a part of a checkout", CHECK, 125, "",
            f"pipecheck: there is no program at {alone}/{OUT}/pipecheck_cli, and {alone} is no whole checkout to build it from\n",
            cwd=alone,
        )


class Built(InACopy):
    """A copy where the program that is tested stands as the proved one."""

    def setUp(self) -> None:
        super().setUp()
        shutil.rmtree(f"{self.top}/{OUT}", ignore_errors=True)
        as_proved(self.top, program())

    def test_clean(self) -> None:
        for it in ("pc_common/out/lib.rlib", "pc_common/out/incremental/kept", "solver/out/x", "pipecheck_cli/out/pipecheck_cli.o"):
            write(f"{self.top}/crates/{it}", "")
        self.judge("--clean", self.call_it("--clean"))
        left = [f"pipecheck_cli/out/{it}" for it in ("pipecheck_built", "pipecheck_cli", "pipecheck_lock", "unproved_lock")]
        self.same("... leaves the program", [it for it in files_below(f"{self.top}/crates") if "/out/" in it], left)
        self.answers("... which is called as before", CHECK, 1, VERDICT)
        command(f"{self.work}/tools/rt", "echo 'a kit logic 0123456789abcdef'\n")
        self.answers("--version names the program", ("--version",), 0,
                     f"commit unknown\nlogic 0123456789abcdef\nprogram sha256 {hash_of(program())}, proved\n",
                     env={"PATH": f"{self.work}/tools:{self.plain}"})

    def test_a_signal(self) -> None:
        """The shell says its own word of it before."""
        as_proved(self.top, command(f"{self.work}/ended", "kill -SEGV $$\n"))
        done = self.call_it(*CHECK)
        said = "".join(it for it in done.err.splitlines(True) if it.startswith("pipecheck: "))
        self.judge("a signal is named", Done(done.status, done.out, said), 139, "",
                   "pipecheck: the signal SEGV ended the program, so there is no answer: docs/faults.md, 'A signal'\n")

    def test_limits_of_memory(self) -> None:
        many = ("check", write(f"{self.work}/many.uspec", MANY), "examples/two.test")
        self.answers("a limit of memory", many, 7, "", MEMORY, env={"PIPECHECK_MEMORY": "16"})
        self.answers("a limit is never raised", many, 7, "", MEMORY, env={"PIPECHECK_MEMORY": "4000"},
                     preexec_fn=within(resource.RLIMIT_AS, 16384 * 1024))
        self.answers("no limit of memory", CHECK, 1, VERDICT, env={"PIPECHECK_MEMORY": "none"})
        self.answers("PIPECHECK_MEMORY=64", CHECK, 1, VERDICT, env={"PIPECHECK_MEMORY": "64"})
        for size in ("0", "1", "2"):
            said = f"pipecheck: PIPECHECK_MEMORY is {size} MiB, and the program takes more to start\n"
            self.answers(f"PIPECHECK_MEMORY={size}", CHECK, 125, "", said, env={"PIPECHECK_MEMORY": size})
        self.answers("a limit that is no number", CHECK, 125, "",
                     "pipecheck: PIPECHECK_MEMORY is a number of MiB, or none, and not lots\n", env={"PIPECHECK_MEMORY": "lots"})

    def test_limits_of_files(self) -> None:
        """Of 1,024 bytes, and where no file may have a byte."""
        stages = "".join(f'StageName {k} "S{k}".\n' for k in range(64))
        nodes = "".join(f"(i, S{k});" for k in range(64))
        model = write(f"{self.work}/nodes.uspec", f'{stages}Axiom "n": forall microops "i", NodesExist [{nodes}].\n')
        words = ("./pipecheck", "check", model, "examples/two.test")
        first = self.run_it(words).out[:1024]
        self.assertEqual(len(first), 1024)
        for name, size, asked, status, out, said in (
            ("a limit of the size of files", 1024, words, 5, first, UNWRITTEN),
            ("... ends the program without the script by a signal", 1024, (program(), *words[1:]), 153, first, ""),
            ("no file may be written: check", 0, ("./pipecheck", *CHECK), 5, "", UNWRITTEN),
            ("... help", 0, ("./pipecheck", "help"), 5, "", UNWRITTEN),
            ("... agree", 0, ("./pipecheck", "agree", "examples/models/tso-ooo.uspec", "examples/patterns/MP.pattern"), 125, "",
                "agree: File too large\n"),
            ("... mend", 0, ("./pipecheck", "mend", "examples/buggy/tutorial-early.uspec", "examples/tests/MP.test"), 125, "",
                "pipecheck: mend: No usable temporary directory found; TMPDIR names another folder for temporary files\n"),
        ):
            with open(f"{self.work}/answer", "w+b") as kept:
                done = self.run_it(asked, stdout=kept, preexec_fn=within(resource.RLIMIT_FSIZE, size))
            told = re.sub(r"directory found in .*;", "directory found;", done.err)
            self.judge(name, Done(done.status, read(f"{self.work}/answer"), told), status, out, said)

    def test_a_pipe_that_nobody_reads(self) -> None:
        """Its reader has enough, as `head` has."""
        model, test = MP
        none, many = f"{self.work}/none", write(f"{self.work}/many.uspec", MANY)
        small: dict[str, str | None] = {"PIPECHECK_MEMORY": "16"}
        with unread(f"{self.work}/pipe") as pipe:
            self.answers("a named pipe that nobody reads, and an unobservable outcome", CHECK, 1, stdout=pipe)
        with unread() as pipe:
            for name, status, said, words, env in (
                ("an observable outcome", 0, "", ("check", "examples/po.uspec", "examples/two.test"), {}),
                ("an unobservable one", 1, "", CHECK, {}),
                ("a core", 0, f'{model}:5:1: axiom 1: "PO"\n{model}:7:1: axiom 2: "read"\n', ("core", *MP), {}),
                ("a certificate that is refused", 6, "", ("verify", *MP, "examples/certificates/mp-spoilt.txt"), {}),
                ("a file that is not there", 4, missing(none), ("check", none, test), {}),
                ("a limit of memory", 7, MEMORY, ("check", many, "examples/two.test"), small),
                ("words that are no command", 2, meant("check"), ("check", model), {}),
                ("the forms", 0, "", ("help",), {}),
                ("the version", 0, "", ("--version",), {}),
            ):
                self.answers(f"a pipe that nobody reads, and {name}", words, status, "", said, env=env, stdout=pipe)
            reader, writer = os.pipe()
            os.write(writer, read(test).encode())
            os.close(writer)
            self.answers("a pipe that nobody reads, and a test that can be read only once", ("check", model, f"/dev/fd/{reader}"),
                         5, stdout=pipe, pass_fds=(reader,))
            os.close(reader)
