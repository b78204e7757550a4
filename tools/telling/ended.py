"""What is told where a tool ends without an answer, and the status then."""
from typing import Callable, Iterable, Sequence

from tools.ending import Ended, Refusal
from tools.second.standard_output import UNREAD
from tools.suite.telling import tell
from tools.telling.files import unreadable
from tools.texts.contents import Unreadable


def status_told(call: Callable[[], int], words: Sequence[str], teller: str, failed: int) -> int:
    """The status of a tool, and this one where it refuses, as this teller tells. Its words are files that it may not be able to
    read."""
    told: Iterable[str]
    try:
        return call()
    except Ended as ended:
        print(ended.text, end="", flush=True)
        status, told = ended.status, ended.told
    except Refusal as refusal:
        status, told = failed, [refusal.line(teller)]
    except Unreadable:
        status, told = UNREAD, unreadable(words)
    for line in told:
        tell(line)
    return status
