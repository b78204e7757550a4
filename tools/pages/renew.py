"""Writes anew the parts of pages that scripts write, where they are stale.

    python3 tools renew [PAGE..]          of these pages, or of README.md and all of docs/

Such a part stands between a line `<!-- python3 tools WORD.. -->`, which says what writes it, and a line `<!-- end -->`.
Prints the pages that were stale. The family `pages` fails where one is.
"""
import glob
import os
import re
import subprocess

from tools import TOP
from tools.ending import Refusal

TELLER = "renew"
# its groups are the command and what the page has of it
MADE_PART = re.compile(r"^<!-- (python3 tools [a-z]+(?: --[a-z]+)*) -->\n(.*?)^<!-- end -->\n", re.M | re.S)


def written_by(top: str, command: str) -> str:
    """What a tool of `top` writes now, as it stands in a page."""
    done = subprocess.run(command.split(), cwd=top, capture_output=True, text=True, check=False)
    if done.returncode != 0:
        raise Refusal(f"{command} ends with {done.returncode}: {done.stderr.strip()}")
    return done.stdout


def main(*pages: str) -> int:
    """Every page."""
    for page in pages or [f"{TOP}/README.md", *sorted(glob.glob(f"{TOP}/docs/*.md"))]:
        with open(page, encoding="utf-8") as file:
            text = file.read()
        wanted = MADE_PART.sub(lambda it: f"<!-- {it[1]} -->\n{written_by(TOP, it[1])}<!-- end -->\n", text)
        if wanted != text:
            with open(page, "w", encoding="utf-8") as file:
                file.write(wanted)
            print(os.path.relpath(page, TOP))
    return 0
