"""Logs of tests: of a machine, as litmus7 writes them, with how often each state came, or of a memory model, as herd7
writes them."""
import re
from dataclasses import dataclass, field

from tools.listings.reading import Variable
from tools.texts.quoting import shown

# how much of a line is told
MOST_CHARACTERS = 60
# the name of a test has no control characters
NAME = r"([^\x00-\x20\x7f-\xa0]+)"
TEST = re.compile(rf"Test {NAME} (Allowed|Forbidden|Required)")
# the quantifier of the condition by the word of the test, and what the log says to it
QUANTIFIERS = {"Allowed": "exists", "Forbidden": "~exists", "Required": "forall"}
ANSWERS = {"Ok": True, "No": False}
# longer ones are none of a log
NUMBER = "[0-9]{1,100}"
# how many states of a test come next, which are counted, or only listed
STATES = re.compile(rf"Histogram \(({NUMBER}) states?\)|States ({NUMBER})")
# a state with how often it came, which is marked where the condition holds of it
TIMES = re.compile(rf"\s*({NUMBER})\s*[*:]>(.*)")
VALUE = re.compile(
    rf"""\s*( {NUMBER}:%?\w+ | [A-Za-z_]\w* | \[[A-Za-z_]\w*\] )
        \s*=\s*( -?{NUMBER} | 0x[0-9a-fA-F]{{1,100}} )\s*;\s*""",
    re.VERBOSE | re.ASCII,
)
OBSERVATION = re.compile(rf"Observation {NAME} (?:Sometimes|Always|Never) ({NUMBER}) ({NUMBER})")
# what else stands in a test, and dates
PASSED = re.compile(
    r"""\s*
      | Ok | No | Witnesses | Positive:.* | Condition\ .* | Hash=.* | Time\ \S+\ [0-9.]+
      | [A-Z][A-Za-z]*=.* | (?:Relax|Safe|Topology|Cache)\b.*
      | (?:Mon|Tue|Wed|Thu|Fri|Sat|Sun)\ [A-Z][a-z]{2}\ .*""",
    re.VERBOSE,
)
# what begins lines of any form around tests: the head of a file's results, with the listing and what it was compiled to, or of
# what ran it
AROUND = re.compile(r"%+|% Results for .* %|(?:Revision|Version|Command line:|Compilation command:|Machine:|Parameters).*")

# the values of the variables, in the order of the test
State = tuple[int, ...]


@dataclass
class Result:
    """What a log has of a test: its states, each with how often it came, where that is counted."""

    name: str
    quantifier: str
    line: int
    is_counted: bool = False
    # how the log spells them
    spelled: tuple[str, ...] = ()
    variables: tuple[Variable, ...] = ()
    states: dict[State, int] = field(default_factory=dict)
    # whether the condition is met, as the log says; it may say so more than once
    answers: set[bool] = field(default_factory=set)
    # how many states are announced, once they are; how many were there, how often they came, and whether one may come next
    announced: int | None = None
    there: int = 0
    times: int = 0
    is_open: bool = False
    is_observed: bool = False

    def read(self, line: str) -> str:
        """Takes in a line. What is wrong with it; nothing where nothing is."""
        head, observation = STATES.fullmatch(line), OBSERVATION.fullmatch(line)
        if head is not None:
            if self.announced is not None:
                return no_line(line)
            self.announced, self.is_counted, self.is_open = int(head[1] or head[2]), head[1] is not None, True
            return ""
        if self.is_open:
            times = TIMES.fullmatch(line)
            found = values_of(line if times is None else times[2])
            if found and (times is not None) is self.is_counted:
                return self.take(found, 0 if times is None else int(times[1]))
            self.is_open = self.there != self.announced
        if observation is not None and self.announced is not None:
            return self.observe(observation)
        if line in ANSWERS and self.announced is not None:
            self.answers.add(ANSWERS[line])
        return "" if PASSED.fullmatch(line) else no_line(line)

    def take(self, found: list[tuple[str, Variable, int]], times: int) -> str:
        self.there += 1
        self.times += times
        spelled, variables, state = zip(*found)
        if len(set(variables)) < len(variables):
            return "a state has a variable twice"
        if not self.states:
            self.spelled, self.variables = spelled, variables
        if variables != self.variables:
            return "the state has other variables than the first one"
        is_new = state not in self.states
        self.states[state] = self.states.get(state, 0) + times
        if self.announced is not None and self.there == self.announced + 1:
            return f"{self.announced} states are announced, and here is one more"
        return "" if is_new else "the state stands here a second time"

    def observe(self, observation: "re.Match[str]") -> str:
        """The last line on its states."""
        self.is_open = False
        self.is_observed = True
        total = int(observation[2]) + int(observation[3])
        if observation[1] != self.name:
            return f"this is of {observation[1]}, and the test is {self.name}"
        if self.is_counted and self.times != total and self.there == self.announced:
            return f"{total} runs are counted here, and {self.times} in the states"
        return ""

    def cut(self) -> str:
        """How the log is cut off in it; nothing where it is whole."""
        if self.announced is None:
            return f"{self.name} has no states"
        if self.there < self.announced:
            there = f"{self.there} {'is' if self.there == 1 else 'are'} there"
            return f"of {self.name} {self.announced} states are announced, and {there}"
        return "" if self.is_observed else f"{self.name} has no line Observation"


class Log:
    """What a log says: the results of its tests by name and form, and what is wrong with it, each with its line."""

    def __init__(self, data: bytes) -> None:
        self.results: dict[tuple[str, bool], Result] = {}
        self.faults: list[tuple[int, str]] = []
        self.notes: list[tuple[int, str]] = []
        # the test that is read; where none is, whether lines may have any form
        self.test: Result | None = None
        self.is_text = False
        for number, line in enumerate(data.decode("latin-1").split("\n"), 1):
            self.read(number, line.rstrip())
        self.end_test()
        if not self.results and not self.faults:
            self.faults.append((1, "the log has no test"))

    def read(self, number: int, line: str) -> None:
        """Takes in a line."""
        begun = TEST.fullmatch(line)
        if begun is not None:
            self.end_test()
            self.test = Result(begun[1], QUANTIFIERS[begun[2]], number)
        elif AROUND.fullmatch(line):
            self.end_test()
            self.is_text = True
        else:
            sentence = self.test.read(line) if self.test else self.fault_around(line)
            if sentence:
                self.faults.append((number, sentence))

    def fault_around(self, line: str) -> str:
        """What is wrong with a line where no test is read; nothing where nothing is."""
        if self.is_text:
            is_known = not any(form.fullmatch(line) for form in (STATES, TIMES, OBSERVATION))
        else:
            is_known = PASSED.fullmatch(line) is not None
        return "" if is_known else no_line(line)

    def end_test(self) -> None:
        """The test that is read has ended."""
        test, self.test = self.test, None
        if test is not None:
            if test.cut():
                self.faults.append((test.line, f"the log is cut off: {test.cut()}"))
            if test.announced is not None:
                self.keep(test)

    def keep(self, test: Result) -> None:
        """Keeps what was read of a test, beside what an earlier part of the log has of it."""
        earlier = self.results.setdefault((test.name, test.is_counted), test)
        if earlier is test:
            return
        if not earlier.states:
            earlier.spelled, earlier.variables = test.spelled, test.variables
        if test.states and test.variables != earlier.variables:
            sentence = f"{test.name} has other variables than at line {earlier.line}, and is left out here"
            self.faults.append((test.line, sentence))
            return
        sentence = f"{test.name} comes again: its states are taken together with those of line {earlier.line}"
        self.notes.append((test.line, sentence))
        earlier.answers |= test.answers
        for state, times in test.states.items():
            earlier.states[state] = earlier.states.get(state, 0) + times


def no_line(line: str) -> str:
    """That a line is none of a log."""
    return f"no line of a log: {shown(line.strip()[:MOST_CHARACTERS])}"


def values_of(text: str) -> list[tuple[str, Variable, int]]:
    """The values of a state, each with its variable and how that is spelled; none where the text is no state."""
    found = []
    at = 0
    while at < len(text):
        match = VALUE.match(text, at)
        if match is None:
            return []
        thread, colon, register = match[1].partition(":")
        variable = Variable(int(thread), register.lstrip("%")) if colon else Variable(None, match[1].strip("[]"))
        found.append((match[1], variable, int(match[2], 16 if "x" in match[2] else 10)))
        at = match.end()
    return found
