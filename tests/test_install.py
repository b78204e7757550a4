"""Installs pipecheck under folders of many kinds, runs what is installed where no checkout is beside it, updates it and takes it
away. The family install_ended ends each of these in its course."""
from __future__ import annotations

import contextlib
import json
import os
import re
import resource
import shutil
import subprocess
from typing import Any, Callable, Iterator, Mapping, Sequence

from tests.cases import (
    MP, NO_TEST, NO_TOOLCHAIN, OUT, TOP, VERDICT, Beside, Done, InACheckout, as_proved, at_once, call, command, command_forms,
    copy_checkout, hash_of, heed_signals, holding, program, read, run, told, tool, tool_entry, within, write
)

# where these stand tests.cases says
from tools.install import installer
from tools.second.models import RESERVED
from tools.second.predicates import PREDICATES

NAMES = "pipecheck, pipecheck-suite, their man pages, completion for bash, zsh and fish"
USAGE = "call it as ./install [PREFIX], or ./install --uninstall [PREFIX]; --help says more"
NO_HOME = "install: HOME says no folder, so name one: ./install PREFIX\n"
SHELLS = ("bash", "zsh", "fish")
BY_BASH = """. "$1"
for line in "${@:2}"; do
    read -ra COMP_WORDS <<<"$line"
    [ "${line% }" = "$line" ] || COMP_WORDS+=("")
    COMP_CWORD=$((${#COMP_WORDS[@]} - 1)) && _pipecheck
    printf '%s\\n' "${COMPREPLY[@]}" end
done
"""
BY_FISH = """source $argv[1]
for line in $argv[2..]
    complete -C $line | string replace -r "\\t.*" ""
    echo end
end
"""


def installed_under(prefix: str) -> str:
    """What an install says."""
    return f"installed under {prefix}: {NAMES}\n{prefix}/bin is not in PATH\n"


def state(folder: str) -> list[tuple[str, int, int, str]]:
    """Each file, link and folder below a folder: its path, inode and size, and what it leads to."""
    found = []
    for place, folders, files in os.walk(folder):
        for it in (*folders, *files):
            path = f"{place}/{it}"
            status = os.lstat(path)
            size = 0 if os.path.isdir(path) else status.st_size
            found.append((os.path.relpath(path, folder), status.st_ino, size, os.readlink(path) if os.path.islink(path) else ""))
    return sorted(found)


def completed(shell: str, prefix: str, cwd: str, lines: Sequence[str]) -> list[str]:
    """What the shell offers for the last word of each line, each candidate once, in one line."""
    share = f"{prefix}/share"
    words = {
        "bash": ["bash", "--norc", "-c", BY_BASH, "_", f"{share}/bash-completion/completions/pipecheck"],
        "zsh": ["zsh", "-f", f"{TOP}/tests/completes.zsh", f"{share}/zsh/site-functions"],
        "fish": ["fish", "--no-config", "-c", BY_FISH, f"{share}/fish/vendor_completions.d/pipecheck.fish"],
    }[shell]
    rows: list[set[str]] = [set()]
    for it in run([*words, *lines], cwd=cwd, stderr=subprocess.STDOUT).out.splitlines():
        if it == "end":
            rows.append(set())
        elif it:
            rows[-1].add(it.removesuffix("/"))
    return [" ".join(sorted(row)) for row in rows[:-1]]


class Installs(InACheckout):
    """Cases with a checkout where the program that is tested stands as the proved one. Nothing is built here."""

    # whether the checkout has all examples, and not those few that are called
    has_all = False

    @classmethod
    def setUpClass(cls) -> None:
        super().setUpClass()
        copy_checkout(cls.top, ("docs", "editors", "tools", "tests", *["examples"] * cls.has_all))
        if not cls.has_all:
            os.remove(f"{cls.top}/examples")
            os.mkdir(f"{cls.top}/examples")
            for it in (*MP, "examples/suite"):
                shutil.copy2(f"{TOP}/{it}", f"{cls.top}/examples")
        # as if it were of one crate, which is read at each call
        write(f"{cls.top}/crates.txt", "pipecheck_cli:\n")
        as_proved(cls.top, program())

    def installs(self, name: str, prefix: str) -> None:
        """An install under this folder."""
        self.does(name, 0, installed_under(prefix), "", ["./install", prefix])

    def takes_away(self, name: str, prefix: str, err: str = "") -> None:
        """An uninstall of what stands there."""
        self.does(name, 0, f"removed from {prefix}\n", err, ["./install", "--uninstall", prefix])


class Installed(Installs):
    """What is installed, where the checkout that it is of stands elsewhere then."""

    has_all = True
    prefix: str
    tree: str
    without: Done
    done: Done

    @classmethod
    def setUpClass(cls) -> None:
        super().setUpClass()
        cls.prefix = f"{cls.room}/prefix"
        cls.tree = f"{cls.prefix}/lib/pipecheck"
        words = ["./install", cls.prefix]
        # the same program, as it stands without its proofs
        for old, new in (("pipecheck_cli", "unproved_cli"), ("pipecheck_built", "unproved_built")):
            os.rename(f"{cls.top}/{OUT}/{old}", f"{cls.top}/{OUT}/{new}")
        cls.without = cls.run_it(words)
        as_proved(cls.top, program())
        os.mkdir(cls.prefix)
        cls.done = cls.run_it(words, preexec_fn=lambda: os.umask(0o077))
        os.rename(cls.top, f"{cls.room}/elsewhere")
        cls.top = f"{cls.room}/elsewhere"

    def setUp(self) -> None:
        super().setUp()
        for it in MP:
            shutil.copy2(f"{TOP}/{it}", self.work)
        os.mkdir(f"{self.work}/tests")
        shutil.copy2(f"{TOP}/{MP[1]}", f"{self.work}/tests/mine.test")

    def answer(self, *words: str, env: Mapping[str, str | None] | None = None) -> Done:
        """What is installed is called by its name."""
        return self.run_it(words, {"PATH": f"{self.prefix}/bin:{self.plain}", **(env or {})}, cwd=self.work)

    def test_install(self) -> None:
        self.same("no program is installed without its proofs", self.without, Done(125, "", NO_TOOLCHAIN))
        self.same("install", self.done, Done(0, installed_under(self.prefix), ""))
        paths = [f"{place}/{it}" for place, folders, files in os.walk(self.prefix) for it in (*folders, *files)]
        hidden = [it for it in paths if not os.path.islink(it) and os.stat(it).st_mode & 0o444 != 0o444]
        self.same("... for all to read", hidden, [])

    def test_commands(self) -> None:
        for name, status, out, err, words in (
            ("check", 1, VERDICT, "", ("check", "in-order.uspec", "mp.test")),
            ("a refusal with its sentence", 3, "refused test syntax at 2:1\n",
             told("in-order.uspec", "2:1", NO_TEST, "`Litmus` or `Litmus2`", self.work)
             + "pipecheck: in-order.uspec is a model, and stands for the test: check MODEL TEST\n",
             ("check", "in-order.uspec", "in-order.uspec")),
            ("help", 0, command_forms(), "", ("help",)),
            ("lint", 0, "", "", ("lint", "in-order.uspec", "mp.test")),
            ("nothing to clean", 125, "", "pipecheck: an installed copy has nothing to clean\n", ("--clean",)),
            ("nothing to prove", 125, "", "pipecheck: an installed copy has nothing to prove\n", ("--prove",)),
        ):
            self.same(f"installed: {name}", self.answer("pipecheck", *words), Done(status, out, err))
        shutil.copy2(f"{self.tree}/examples/x86/SB.litmus", self.work)
        examples = f"{self.tree}/examples"
        for name, line, words in (
            ("explain of a listing", r"^  1.0 core 0 reads \[y\] = 0$", ("explain", "in-order.uspec", "SB.litmus")),
            ("mend", "^add 1.0@1:Execute before 2.0@1:Execute$", (
                "mend", f"{examples}/buggy/weak-ooo-read-read.uspec", f"{examples}/tests/CoRR.test"
            )),
            ("explain", '1.0@0:Mem before 2.0@1:Mem   "rf" by axiom "read"', ("explain", "in-order.uspec", "mp.test")),
            ("--version", f"^program sha256 {hash_of(program())}$", ("--version",)),
        ):
            self.finds(f"installed: {name}", line, self.answer("pipecheck", *words).out)
        self.same("installed: of script/ what an installed copy calls", sorted(os.listdir(f"{self.tree}/script")), [
            "calls", "completion.bash", "completion.fish", "completion.zsh", "standing", "telling",
        ])
        os.rename(f"{self.tree}/docs", f"{self.tree}/away")
        self.holds("without its pages a refusal is told",
                   self.answer("pipecheck", "check", "in-order.uspec", "in-order.uspec").status == 3)
        os.rename(f"{self.tree}/away", f"{self.tree}/docs")

    def test_the_suite_and_the_machines(self) -> None:
        examples, user = f"{self.tree}/examples", f"{self.work}/user"
        model = f"{examples}/models/tutorial.uspec"
        done = self.answer("pipecheck-suite", model, env={"SUITE_TESTS": "tests", "SUITE_FOLDER": "kept"})
        rows = [it for it in done.out.splitlines() if it.startswith(("test ", "mine "))]
        self.same("installed: the suite", (done.status, rows), (0, ["test  tutorial", "mine  ok"]))
        self.answer("pipecheck-suite", model, env={"HOME": user, "XDG_CACHE_HOME": "", "SUITE_TESTS": "tests"})
        self.holds("installed: where the suite keeps certificates",
                   os.path.exists(f"{user}/.cache/pipecheck/suite/tutorial/mine.test.certificate"))
        its = [f"{examples}/{it}" for it in ("models/tso-ooo.uspec", "tests/SB.test", "patterns/SB.pattern")]
        done = self.run_it([*tool("agree", self.tree), *its], cwd=self.work)
        swept = done.status, re.findall("swept by .*", done.out)
        self.same("installed: the machines of memory models, and the program sweeps", swept, (0, ["swept by the program"]))
        self.does("installed: agree, on all small programs", 0,
                  "tso-ooo.uspec: 6 programs\nswept by the program\n6 agree, 0 differ\n", "",
                  [f"{self.prefix}/bin/pipecheck", "agree", "--all", "2,1+1", its[0]], env={"SUITE_FOLDER": "kept"},
                  cwd=self.work)

    def test_man_pages(self) -> None:
        pages = {it: f"{self.prefix}/share/man/man1/{it}.1" for it in ("pipecheck", "pipecheck-suite")}
        page, suite = (read(it) for it in pages.values())
        self.holds("installed: the man page", re.search(r"(?m)^.B pipecheck check", page))
        for word in (
            "verify", "sweep", "verify\\-lifted", "ask MODEL", "lift MODEL", "explain", "lint", "mend", "agree [OPTION", "arity",
            "PIPECHECK_MEMORY",
        ):
            self.holds(f"installed: the man page has {word}", word in page)
        for word in (".B pipecheck\\-suite ", "\\-\\-differ", "stricter", "SUITE_SECONDS", "XDG_CACHE_HOME"):
            self.holds(f"installed: the man page of the suite has {word}",
                f"\n{word}" in suite if word[0] == "." else word in suite)
        self.holds("installed: the man page of the suite has its name", "examples/suite" not in suite)
        for name, path in pages.items():
            if shutil.which("groff"):
                self.does(f"installed: {name}(1) is well-formed", 0, "", "", ["groff", "-man", "-ww", "-Tutf8", "-z", path])
            else:
                self.skips(f"installed: {name}(1) is well-formed", "there is no groff")

    def test_completion(self) -> None:
        shutil.copy2(f"{self.tree}/examples/x86/SB.litmus", self.work)
        for it in ("mp.pattern", "mp.query"):
            shutil.copy2(f"{self.work}/mp.test", f"{self.work}/{it}")
        os.mkdir(f"{self.work}/kept")
        rows = (
            ("a command", "pipecheck ch", "check check2 check86"),
            ("a command that begins another one", "pipecheck li", "lift lint"),
            ("a command of the script", "pipecheck me", "mend"),
            ("a word with dashes", "pipecheck --v", "--version"),
            ("a model, or a folder on the way", "pipecheck check ", "in-order.uspec kept tests"),
            ("a test", "pipecheck check in-order.uspec m", "mp.test"),
            ("a listing", "pipecheck check86 in-order.uspec S", "SB.litmus"),
            ("a test or a listing", "pipecheck lint in-order.uspec mp.test S", "SB.litmus"),
            ("the listing of a model", "pipecheck mend in-order.uspec S", "SB.litmus"),
            ("the certificate of a listing", "pipecheck verify86 in-order.uspec SB.litmus S", "SB.litmus"),
            ("any third file", "pipecheck verify in-order.uspec mp.test in", "in-order.uspec"),
            ("a pattern", "pipecheck sweep in-order.uspec m", "mp.pattern mp.test"),
            ("a query", "pipecheck ask in-order.uspec mp.test m", "mp.query"),
            ("an option or a model", "pipecheck agree --o", "--open"),
            ("a model where options may stand", "pipecheck agree in", "in-order.uspec"),
            ("a command behind help", "pipecheck help me", "mend"),
            ("many tests, patterns and queries", "pipecheck lint in-order.uspec mp.test mp.test m", "mp.pattern mp.query mp.test"),
            ("a listing before a log", "pipecheck compare in-order.uspec ", "SB.litmus kept tests"),
            ("many listings, and a log", "pipecheck compare in-order.uspec SB.litmus in", "in-order.uspec"),
            ("a number", "pipecheck gen 1", "10 11 12 13 14 15 16"),
        )
        for shell in SHELLS:
            found = completed(shell, self.prefix, self.work, [it[1] for it in rows]) if shutil.which(shell) else []
            for number, (name, _, offered) in enumerate(rows):
                if not shutil.which(shell):
                    self.skips(f"completion by {shell}: {name}", f"there is no {shell}")
                    continue
                self.same(f"completion by {shell}: {name}", found[number : number + 1], [offered])

    def test_editors(self) -> None:
        """They know each word of the languages."""
        for name in ("vim/syntax/uspec.vim", "textmate/uspec.tmLanguage.json"):
            text = read(f"{self.tree}/editors/{name}")
            # microops? stands for two words
            lacking = [it for it in RESERVED | PREDICATES.keys() if not re.search(rf"\b{it}\b|\b{it.removesuffix('s')}s\?", text)]
            self.same(f"installed: {name} has each word", lacking, [])
        for name in sorted(os.listdir(f"{self.tree}/editors/textmate")):
            if name.endswith(".json"):
                with self.case(f"installed: {name} is JSON"):
                    self.assertTrue(json.loads(read(f"{self.tree}/editors/textmate/{name}")))


class Refusals(Installs):
    """Updates, and what stands in the way of an install, which is left."""

    def test_update_and_uninstall(self) -> None:
        prefix, none = f"{self.work}/prefix", f"{self.work}/none/none"
        suite = f"{prefix}/bin/pipecheck-suite"
        self.run_it(["./install", prefix])
        shutil.rmtree(f"{prefix}/lib/pipecheck/docs")
        write(f"{prefix}/share/mine", "mine\n")
        self.installs("install over an older one", prefix)
        self.holds("... brings all of it", os.path.isfile(f"{prefix}/lib/pipecheck/docs/faults.md"))
        self.holds("... and leaves no older one", sorted(os.listdir(f"{prefix}/lib")) == ["pipecheck", "pipecheck.2"])
        os.remove(suite)
        write(suite, "mine\n")
        left = f"install: {suite} is not of an installation: it is left as it is\n"
        self.does("a command that was replaced", 1, "", left, ["./install", prefix])
        self.takes_away("uninstall", prefix, left)
        left_there = ["bin", "bin/pipecheck-suite", "share", "share/mine"]
        self.same("... takes all of it away, and nothing else", [it[0] for it in state(prefix)], left_there)
        for name, folder in (("nothing to uninstall", prefix), ("nothing to uninstall where no folder is", none)):
            self.does(name, 1, "", f"install: nothing is installed under {folder}\n", ["./install", "--uninstall", folder])

    def refuses(self, name: str, said: str, prefix: str, is_called: bool = False) -> None:
        """An install is refused by this sentence, and leaves all as it was. The script calls the judge that is called here."""
        before = state(self.work)
        if is_called:
            done = self.run_it(["./install", prefix.encode("utf-8", "surrogateescape")])
        else:
            installer.TOP = self.top
            done = call(tool_entry("install.installer"), ["installer.py", "judge", prefix])
        self.same(name, done, Done(1, "", f"install: {said}\n"))
        self.holds("... and nothing is changed", before == state(self.work))

    @contextlib.contextmanager
    def way(self, name: str) -> Iterator[str]:
        """A folder for one case, and in it that of this name."""
        way = f"{self.work}/way"
        os.makedirs(os.path.dirname(f"{way}/{name}"))
        yield way
        shutil.rmtree(way)

    def test_what_is_in_the_way(self) -> None:
        kinds: tuple[tuple[str, Callable[[str], object]], ...] = (
            ("a file", lambda it: write(it, "mine\n")),
            ("a folder", os.mkdir),
            ("a link", lambda it: os.symlink("/nowhere/at/all", it)),
            ("a link to a program", lambda it: os.symlink(program(), it)),
        )
        rows = [(kind, make, name) for name in ("bin/pipecheck", "share/man/man1/pipecheck.1") for kind, make in kinds]
        rows += [(*kinds[0], name) for name in (
            "bin/pipecheck-suite", "share/man/man1/pipecheck-suite.1", "share/bash-completion/completions/pipecheck",
            "share/zsh/site-functions/_pipecheck", "share/fish/vendor_completions.d/pipecheck.fish",
        )]
        for number, (kind, make, name) in enumerate(rows):
            with self.way(name) as way:
                make(f"{way}/{name}")
                said = f"{way}/{name} is not of an installation: it is left as it is"
                self.refuses(f"{kind} that is called {name}", said, way, number == 0)

    def test_folders_in_the_way(self) -> None:
        foreign = f"{self.work}/foreign"
        os.mkdir(foreign)
        for name in ("bin", "lib", "share/man"):
            with self.way(name) as way:
                os.symlink(foreign, f"{way}/{name}")
                self.refuses(f"a link in place of the folder {name}",
                             f"{way}/{name} is a link, so that what is installed there would stand elsewhere", way)
                self.holds("... there neither", os.listdir(foreign) == [])
                os.remove(f"{way}/{name}")
                write(f"{way}/{name}", "mine\n")
                self.refuses(f"a file in place of the folder {name}", f"{way}/{name} is no folder", way)
        for name in ("pipecheck", "pipecheck.1", "pipecheck.2"):
            with self.way(f"lib/{name}/it") as way:
                self.refuses(f"a folder lib/{name} that is not of an installation", f"{way}/lib/{name} is not of an installation",
                             way)
        with self.way("it") as way:
            os.symlink("/nowhere/at/all", f"{way}/link")
            write(f"{way}/file", "mine\n")
            self.refuses("a link to nothing as the prefix", f"{way}/link is a link to what is not there", f"{way}/link")
            os.symlink("loop", f"{way}/loop")
            self.refuses("a loop of links as the prefix", f"{way}/loop leads into a loop of links", f"{way}/loop")
            self.refuses("a file as the prefix", f"{way}/file is no folder", f"{way}/file")

    def test_folders_that_are_copied(self) -> None:
        for name, copied in (("examples/prefix", "examples"), ("docs/new/prefix", "docs"), ("tools/agree", "tools")):
            at = f"{self.top}/{name}"
            self.refuses(f"the folder {name}, which is copied",
                         f"{at} is in {self.top}/{copied}, all of which is installed: name a folder outside of it", at)
            self.holds("... there neither",
                not os.path.exists(f"{at.removesuffix('/prefix')}/lib") and not os.path.exists(f"{at}/prefix"))

    def test_words(self) -> None:
        way = f"{self.work}/way"
        self.refuses("an option that there is not", USAGE, "--prefix", True)
        self.refuses("a folder without a name", USAGE, "", True)
        self.refuses("a path that is not UTF-8",
                     "no folder is taken whose path is not UTF-8: the program could not be called there", f"{way}/\udcff", True)
        self.refuses("a character of control in the path", "no folder is taken whose path has a control character", f"{way}/a\nb",
                     True)
        self.does("two folders", 1, "", f"install: {USAGE}\n", ["./install", f"{way}/a", f"{way}/b"])
        self.does("no HOME, and no folder", 1, "", NO_HOME, ["./install"], env={"HOME": None})
        self.does("uninstall without HOME", 1, "", NO_HOME, ["./install", "--uninstall"], env={"HOME": ""})
        self.holds("--help", "\n    ./install --uninstall [PREFIX]\n" in self.run_it(["./install", "--help"]).out)
        os.rename(f"{self.plain}/python3", f"{self.plain}/away")
        self.does("without Python", 1, "", "pipecheck: install is written in Python, and there is no python3 here\n",
                  ["./install", way])
        os.rename(f"{self.plain}/away", f"{self.plain}/python3")


class Folders(Installs):
    """Folders of odd names, on the way and of the user."""

    def test_odd_names(self) -> None:
        for shown, name in (
            (r"a\&b\\c", r"a&b\c"), (r"\ a\ \"b", ' a "b'), (r"a\'b\|", "a'b|"), (r"\$a\*\;\(~\)\ ", "$a*;(~) "),
            ("\u00b5", "\u00b5"),
        ):
            prefix = f"{self.work}/odd/{name}"
            os.mkdir(f"{self.work}/odd")
            self.installs(f"a folder named {shown}", prefix)
            self.does("... whose command answers", 1, VERDICT, "", [f"{prefix}/bin/pipecheck", "check", *MP])
            for shell in SHELLS:
                if shutil.which(shell):
                    completes = "... and completes" if shell == "bash" else f"... by {shell}"
                    self.same(completes, completed(shell, prefix, self.work, ["pipecheck sw"]), ["sweep"])
            self.takes_away("... is taken away", prefix)
            with self.case("... all of it"):
                os.rmdir(f"{self.work}/odd")

    def test_folders_on_the_way(self) -> None:
        done = self.run_it([f"{self.top}/install", "./-way/to"], cwd=self.work)
        said = Done(0, installed_under(f"{self.work}/-way/to"), "")
        self.same("a folder that is named from here, with folders on the way", done, said)
        self.holds("... is taken away", self.run_it(["./install", "--uninstall", f"{self.work}/-way/to"]).status == 0)
        self.holds("... with the folders on the way", os.listdir(self.work) == [])
        deep, moved = f"{self.work}/deep/er/prefix", f"{self.work}/moved/prefix"
        os.mkdir(f"{self.work}/moved")
        self.run_it(["./install", deep])
        os.rename(deep, moved)
        self.takes_away("a folder that was moved is taken away", moved)
        with self.case("... and no folder around it"):
            for it in ("deep/er", "deep", "moved"):
                os.rmdir(f"{self.work}/{it}")
        self.run_it(["./install", deep])
        write(f"{self.work}/deep/mine", "mine\n")
        self.takes_away("a folder on the way that holds something else", deep)
        self.same("... is left", [it[0] for it in state(self.work)], ["deep", "deep/mine"])

    def test_the_folder_of_the_user(self) -> None:
        home = f"{self.work}/home"
        os.mkdir(home)
        local, env = f"{home}/.local", {"HOME": home}
        self.does("the folder of the user", 0, installed_under(local), "", ["./install"], env=env)
        self.does("... is in PATH then", 0, f"installed under {local}: {NAMES}\n", "", ["./install"],
                  env={**env, "PATH": f"{self.plain}:{local}/bin"})
        self.does("... is taken away", 0, f"removed from {local}\n", "", ["./install", "--uninstall"], env=env)
        with self.case("... all of it"):
            os.rmdir(home)


class Fails(Installs):
    """Steps that fail, signals, two calls at once, and a disk that is full."""

    def setUp(self) -> None:
        super().setUp()
        self.way = f"{self.work}/way"
        os.mkdir(self.way)

    def is_refused(self, name: str, said: str, words: Sequence[str], **how: Any) -> None:
        """A call ends with 1, and says this but for which tree it is."""
        done = self.run_it(words, **how)
        self.same(name, (done.status, done.out, re.sub(r"lib/pipecheck.[12]", "lib/TREE", done.err)), (1, "", said))

    def older_one(self) -> Callable[[str], None]:
        """Installs one, and judges later whether it is left as it was."""
        self.run_it(["./install", self.way])
        before = state(self.way)

        def is_left(name: str = "... leaves the older one") -> None:
            self.same(name, state(self.way), before)

        return is_left

    def test_steps_that_fail(self) -> None:
        """The size of a file is limited to 300 blocks of 1,024 bytes, which the program alone exceeds."""
        limit, said = within(resource.RLIMIT_FSIZE, 300 * 1024), f"install: {self.way}/lib/TREE/pipecheck_cli: File too large\n"
        self.is_refused("a file that cannot be written", said, ["./install", self.way], preexec_fn=limit)
        self.same("... leaves nothing", os.listdir(self.way), [])
        is_left = self.older_one()
        self.is_refused("an update that fails", said, ["./install", self.way], preexec_fn=limit)
        is_left("... leaves the older one")
        with holding(f"{self.top}/examples/suite", "#!/bin/sh\nexit 1\n"):
            self.is_refused("a man page that cannot be made", "install: the man page pipecheck-suite(1) could not be made\n",
                            ["./install", self.way])
        is_left("... leaves the older one")

    def test_signals(self) -> None:
        is_left, begun = self.older_one(), f"{self.work}/begun"
        env: dict[str, str | None] = {"PATH": self.plain, "PIPECHECK_PROVED": None}
        with holding(f"{self.top}/examples/suite", f"#!/bin/sh\necho >'{begun}'\nexec sleep 600\n"):
            for name, status in (("HUP", 129), ("INT", 130), ("QUIT", 131), ("TERM", 143)):
                done = Beside(["./install", self.way], begun, env, cwd=self.top).ended_by(name)
                self.judge(f"an install that {name} ends", done, status)
                is_left("... leaves the older one")
        # Ctrl-C reaches all that the script began, also a Python that loads, and would say then where it was
        command(f"{self.work}/late/python3", """[ "${5-}" = "$LATE" ] || exec "$PYTHON" "$@"
exec "$PYTHON" -c 'import sys, time; open(sys.argv[1], "w").write("begun"); time.sleep(600)' "$BEGUN"
""")
        way = [self.way]
        for name, late, words in (("judge", "judge", way), ("install", "install", way), ("uninstall", "judge", ["--uninstall", *way])):
            env |= {"PYTHON": f"{self.plain}/python3", "BEGUN": begun, "LATE": late, "PATH": f"{self.work}/late:{self.plain}"}
            done = Beside(["./install", *words], begun, env, cwd=self.top).ended_by("INT", True)
            self.judge(f"Ctrl-C while Python loads to {name}: nothing is said", done, 130)
        is_left("... and the older one is left")
        # Ctrl-\ reaches what the script waits for, too; a shell names the signal then
        for name in ("readlink", "python3"):
            command(f"{self.work}/{name}/{name}", "kill -s QUIT 0\n")
            done = self.run_it(["./install", "--uninstall", self.way], {"PATH": f"{self.work}/{name}:{self.plain}"},
                               start_new_session=True, preexec_fn=heed_signals)
            said = "".join(it for it in done.err.splitlines(True) if not it.startswith("Quit"))
            self.judge(f"Ctrl-\\ at the {name} of an uninstall: nothing is said", Done(done.status, done.out, said), 131)
        is_left("... and all is left")

    def test_two_at_once(self) -> None:
        calls = at_once(2, lambda: self.run_it(["./install", self.way]))
        with self.case("two installs at once"):
            self.assertEqual([(it.status, it.out) for it in calls], [(0, installed_under(self.way))] * 2)
            self.assertEqual([row for it in calls for row in it.err.splitlines() if "another call works" not in row], [])
        self.does("... of which one stands", 1, VERDICT, "", [f"{self.way}/bin/pipecheck", "check", *MP])
        shutil.copy2(f"{TOP}/install", f"{self.way}/lib/pipecheck")
        self.does("an installed copy installs nothing", 1, "", "install: this is an installed copy: install from a checkout\n",
                  [f"{self.way}/lib/pipecheck/install", f"{self.work}/more"])

    def test_a_full_disk(self) -> None:
        """One that has no room for an installation, and one that fills up behind it."""
        disk = f"{self.work}/disk"
        os.mkdir(disk)
        if run(["mount", "-t", "tmpfs", "-o", "size=1m", "tmpfs", disk]).status != 0:
            self.skips("a full disk", "no file system may be mounted here")
            return
        self.addCleanup(run, ["umount", disk])
        prefix = f"{disk}/new/prefix"

        def is_full(name: str) -> None:
            """An install says that there is no room, whatever file wants it."""
            done = self.run_it(["./install", prefix])
            with self.case(name):
                self.assertEqual((done.status, done.out), (1, ""))
                self.assertRegex(done.err, rf"\Ainstall: {disk}/.*: No space left on device\n\Z")

        is_full("a disk without room")
        self.holds("... leaves nothing", os.listdir(disk) == [])
        self.assertEqual(run(["mount", "-o", "remount,size=20m", disk]).status, 0)
        self.installs("a disk with room", prefix)
        with contextlib.suppress(OSError), open(f"{disk}/filled", "wb", buffering=0) as file:
            while True:
                file.write(bytes(65536))
        before = state(disk)
        is_full("an update on a full disk")
        self.holds("... leaves the older one", state(disk) == before)
        self.takes_away("an uninstall on a full disk", prefix)
        self.holds("... takes all away", os.listdir(disk) == ["filled"])
