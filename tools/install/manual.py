"""Makes the man pages: that of `pipecheck` from the table commands.txt and pages of docs/, and that of `pipecheck-suite` from what
`examples/suite --help` says."""
import os
import re
import subprocess
from itertools import dropwhile
from typing import Iterator

from tools.ending import Refusal
from tools.telling.forms import Forms

NAMES = ("pipecheck", "pipecheck-suite")
# the pages of docs/ that a man page has whole
PAGES = ("explain", "lint", "mend", "agree", "compare")
HEAD = """\
.TH PIPECHECK 1 "" "pipecheck" "User Commands"
.SH NAME
pipecheck \\- says whether the outcome of a litmus test is observable on a model of a pipeline
.SH SYNOPSIS"""
FOOT = """\
.SH FILES
The pages, the examples and files for editors stand beside the installed script, in
.I lib/pipecheck
.
.SH SEE ALSO
.BR pipecheck\\-suite (1)"""
SUITE_HEAD = """\
.TH PIPECHECK\\-SUITE 1 "" "pipecheck" "User Commands"
.SH NAME
pipecheck\\-suite \\- runs litmus tests on models of pipelines, and prints one table
.SH SYNOPSIS"""
SUITE_FOOT = ".SH SEE ALSO\n.BR pipecheck (1)"
BEGIN_BLOCK, END_BLOCK = ".PP\n.RS\n.nf", ".fi\n.RE"
# the command by the name that it has in a checkout
SUITE = re.compile(r"(^|[ `])[^ `]*examples/suite(?=[ `]|$)", re.MULTILINE)
# of its help text a line that shows a call, and a block that is moved in
CALL = re.compile(r"^ +(pipecheck-suite(?: .*)?)\n", re.MULTILINE)
MOVED_IN = re.compile(r"^ .*\n(?:\n*(?: .*\n))*", re.MULTILINE)


def plain(text: str) -> str:
    """A text without what roff would take for its own."""
    return text.replace("\\", "\\e").replace("-", "\\-")


def marked(text: str) -> str:
    """The same of a text with names in backticks."""
    parts = [f"\\fB{plain(it)}\\fR" if number % 2 else plain(it) for number, it in enumerate(text.split("`"))]
    return "".join(parts).replace("**", "")


def line_of(text: str) -> str:
    """A line that does not begin as a request does."""
    return ("\\&" if text.startswith((".", "'")) else "") + text


def roff(text: str, is_whole: bool) -> Iterator[str]:
    """Markdown as roff: headings, paragraphs, lists, tables (a row is an item: its first cell, and the others after it) and blocks of
    text. Of a page that is not taken whole the title is left out, and what stands before the first heading below it."""
    sections = {"# ": ".SH", "## ": ".SS"} if is_whole else {"## ": ".SH"}
    is_block = is_table = False
    for line in dropwhile(lambda it: not is_whole and not it.startswith("## "), text.splitlines()):
        if re.match(" *```", line):
            is_block = not is_block
            yield BEGIN_BLOCK if is_block else END_BLOCK
        elif is_block:
            yield line_of(plain(line))
        elif not line.startswith("|"):
            is_table = False
            yield roff_line(line, {**sections, "### ": ".SS"})
        elif not line.startswith("|---"):
            cells = [marked(it) for it in re.split(r" *\| *", line)[1:-1]]
            # the heading of a table is one line
            others = line_of("; ".join(it for it in cells[1:] if it))
            yield f".TP\n{cells[0]}\n{others}" if is_table else f".PP\n\\fI{'; '.join(cells)}\\fR"
            is_table = True


def roff_line(line: str, sections: dict[str, str]) -> str:
    """A line that is no table's and no block's."""
    for head, request in sections.items():
        if line.startswith(head):
            title = line.removeprefix(head)
            return f"{request} {marked(title.upper() if request == '.SH' else title)}"
    if found := re.match(r"\d+\. ", line):
        return f".IP {found[0].rstrip()} 4\n{line_of(marked(line[found.end():]))}"
    if line.startswith("- "):
        return f".IP \\(bu 2\n{line_of(marked(line[2:]))}"
    return line_of(marked(line.lstrip(" "))) if line else ".PP"


def page(top: str, name: str, is_whole: bool) -> Iterator[str]:
    """The lines of a page of docs/."""
    with open(os.path.join(top, "docs", f"{name}.md"), encoding="utf-8") as file:
        yield from roff(file.read(), is_whole)


def program_page(top: str) -> Iterator[str]:
    """The page of `pipecheck`."""
    forms = Forms(top).forms
    yield HEAD
    yield from (f".B pipecheck {plain(it.word)}\n.I {it.after}\n.br" for it in forms)
    yield ".SH DESCRIPTION"
    yield from (f".TP\n.B {plain(it.word)} {it.after}\n{it.sentence}" for it in forms)
    yield from page(top, "faults", False)
    for name in PAGES:
        yield from page(top, name, True)
    yield FOOT


def suite_page(top: str) -> Iterator[str]:
    """The page of the suite. A help text knows paragraphs, and blocks that are moved in. The command gets the name that it is
    installed by, and the lines that begin with it are the synopsis."""
    done = subprocess.run([os.path.join(top, "examples", "suite"), "--help"], stdout=subprocess.PIPE, check=False)
    if done.returncode != 0:
        raise Refusal("the man page pipecheck-suite(1) could not be made")
    text = SUITE.sub(r"\1pipecheck-suite", done.stdout.decode("utf-8"))
    yield SUITE_HEAD
    yield from (f".B {plain(it)}\n.br" for it in CALL.findall(text))
    yield ".SH DESCRIPTION"
    yield from roff(MOVED_IN.sub(r"```\n\g<0>```\n", CALL.sub("", text)), True)
    yield SUITE_FOOT


def manual(top: str, name: str) -> str:
    """The text of a man page."""
    return "".join(f"{line}\n" for line in (program_page if name == "pipecheck" else suite_page)(top))
