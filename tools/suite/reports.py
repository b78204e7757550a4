"""Files that a suite writes for other programs: its table as JUnit XML, a suite for each model with a case for each test; and as
SARIF what is BUG or stricter, and below its table slips that lint names, and faults of files."""
import json
import os
import re
from typing import Iterable, Iterator, Mapping, NamedTuple, Sequence
from urllib.parse import quote
from xml.etree import ElementTree
from xml.etree.ElementTree import Element, SubElement

from tools.suite.files import File
from tools.suite.keeping import Baseline
from tools.suite.pairs import BUG, NOT_TAKEN, OBSERVABLE, OK, STRICTER, SWEPT, TIME, UNOBSERVABLE, kind_of
from tools.suite.running import Suite
from tools.suite.words import JUNIT, SARIF
from tools.telling.files import rows_of
from tools.texts.quoting import shown

# what no XML may have, and what not all that read JSON take
UNWRITABLE = re.compile("[^\t\n\r\x20-\ud7ff\ue000-\ufffd\U00010000-\U0010ffff]")
SENTENCES = {
    BUG: "the model shows an outcome that is forbidden",
    STRICTER: "the model does not show an outcome that is allowed",
    TIME: "no verdict, or no judgement of it, within the limit of time",
    SWEPT: "swept: no machine runs the pattern",
    NOT_TAKEN: "not taken: the test has locked instructions, and no axiom of the model asks for them",
}
PASSED = (OK, OBSERVABLE, UNOBSERVABLE)
SKIPPED = (SWEPT, NOT_TAKEN)
FAILURES = (BUG, STRICTER)
# each count of a suite, and the elements that it counts
COUNTS = (("tests", "testcase"), ("failures", "failure"), ("errors", "error"), ("skipped", "skipped"))
SCHEMA = "https://json.schemastore.org/sarif-2.1.0.json"
PLACE = re.compile(r":([1-9][0-9]*):([1-9][0-9]*): ([a-z0-9'-]+): (.*)", re.DOTALL)


class Case(NamedTuple):
    """A pair: its cell, whether that is the same in the baseline, and the lines below the table that speak of it."""

    model: File
    test: File
    cell: str
    is_as_before: bool
    lines: Sequence[str]


def cases_of(run: Suite, baseline: Baseline) -> Iterator[Case]:
    for model, test in run.pairs:
        names = (model.name, test.name)
        cell = run.cells[names]
        lines = [*run.lines_of_pair(model, test)]
        if run.found[model, test].fault:
            lines += (line for line in run.below if line.startswith((f"{shown(model.path)}:", f"{shown(test.path)}:")))
        yield Case(model, test, cell, baseline.has(names, cell), lines)


def reports(run: Suite, baseline: Baseline) -> Iterator[tuple[str, bytes]]:
    """The reports that the options ask for: the path of each, and its text."""
    options, cases = run.words.options, [*cases_of(run, baseline)]
    if JUNIT in options:
        yield options[JUNIT], junit(cases, run.seconds)
    if SARIF in options:
        yield options[SARIF], sarif(cases, run.below, [*run.words.models, *run.words.tests], rules_in(run.top))


def writable(text: str) -> str:
    """A text with all that a report cannot have as an escape."""
    return UNWRITABLE.sub(lambda found: ascii(found[0])[1:-1], text)


def sentence_of(case: Case) -> str:
    if case.cell != kind_of(case.cell):
        return f"the answer to the query is {case.cell[len(BUG) + 2 : -1]}, and {case.test.expected} is expected"
    return SENTENCES.get(case.cell, f"a fault: {case.cell}")


def junit(cases: Iterable[Case], seconds: float) -> bytes:
    """The cases, which come model by model."""
    root = Element("testsuites", name="pipecheck-suite", time=f"{seconds:.3f}")
    suites: dict[str, Element] = {}
    for case in cases:
        name = case.model.name
        if name not in suites:
            suites[name] = SubElement(root, "testsuite", name=writable(name))
        add(suites[name], case)
    for element in (*suites.values(), root):
        for name, tag in COUNTS:
            element.set(name, str(sum(1 for _ in element.iter(tag))))
    ElementTree.indent(root)
    # all that is not ASCII is written as its number
    return bytes(ElementTree.tostring(root, "us-ascii", xml_declaration=True)) + b"\n"


def add(suite: Element, case: Case) -> None:
    """Adds a case, with what it has where it is not passed."""
    names = {"classname": case.model.name, "name": case.test.name, "file": case.test.path}
    element = SubElement(suite, "testcase", {key: writable(name) for key, name in names.items()})
    sentence = sentence_of(case)
    if case.cell in PASSED:
        return
    if case.cell in SKIPPED:
        SubElement(element, "skipped", message=sentence)
    elif case.is_as_before:
        SubElement(element, "skipped", message=writable(f"as in the baseline: {sentence}"))
    else:
        kind = "failure" if kind_of(case.cell) in FAILURES else "error"
        result = SubElement(element, kind, type=writable(case.cell), message=writable(sentence))
        result.text = writable("\n".join(case.lines)) or None


class Rule(NamedTuple):
    """A kind of lines: its word, what pages say of it, and whether it is a fault, that is no slip."""

    name: str
    sentence: str
    is_fault: bool


def rules_in(top: str) -> list[Rule]:
    """What cells say of pairs, and the kinds of lint and the words of faults, as the pages have them."""
    slips = rows_of(os.path.join(top, "docs", "lint.md"), "| kind | what it says |")
    faults = rows_of(os.path.join(top, "docs", "faults.md"), "| word of a model |", "| word of a test |")
    found = [Rule(name, SENTENCES[name], name == BUG) for name in FAILURES]
    found += [Rule(name, said, False) for name, said in slips] + [Rule(name, said, True) for name, said in faults]
    return list({rule.name: rule for rule in found}.values())


def sarif(cases: Iterable[Case], lines: Sequence[str], files: Iterable[File], rules: Sequence[Rule]) -> bytes:
    """The pairs that are BUG or stricter, and of the lines those that name a place of a file, with all rules."""
    known = {rule.name: rule for rule in rules}
    # the longest name first, since one may begin another
    names = sorted({shown(file.path): file.path for file in files}.items(), key=lambda item: len(item[0]), reverse=True)
    results = []
    for case in cases:
        if kind_of(case.cell) in FAILURES:
            model, test = case.model.path, case.test.path
            said = f"{shown(model)} on {shown(test)}: {sentence_of(case)}"
            results.append(result(known, kind_of(case.cell), said, location(model, 1, 1), location(test, 1, 1)))
    for line in lines:
        found = ((path, PLACE.fullmatch(line, len(name))) for name, path in names if line.startswith(name))
        path, place = next((it for it in found if it[1] is not None), ("", None))
        if place is not None:
            # the faults of names in a macro, and `unnamed`, have no row of their own
            known.setdefault(place[3], Rule(place[3], place[3], True))
            results.append(result(known, place[3], place[4], location(path, int(place[1]), int(place[2]))))
    described = [{"id": rule.name, "shortDescription": {"text": writable(rule.sentence)}} for rule in known.values()]
    driver = {"name": "pipecheck-suite", "rules": described}
    log = {"$schema": SCHEMA, "version": "2.1.0", "runs": [{"tool": {"driver": driver}, "results": results}]}
    return json.dumps(log, indent=1).encode("ascii") + b"\n"


def result(rules: Mapping[str, Rule], name: str, said: str, place: dict[str, object], *beside: object) -> dict[str, object]:
    """A result by the rule of this name, at a place, with what stands beside it. Rules that come later stand behind."""
    return {
        "ruleId": name,
        "ruleIndex": [*rules].index(name),
        "level": "error" if rules[name].is_fault else "warning",
        "message": {"text": writable(said)},
        "locations": [place],
        **({"relatedLocations": beside} if beside else {}),
    }


def location(path: str, line: int, column: int) -> dict[str, object]:
    uri = quote(os.fsencode(path))
    if os.path.isabs(path):
        uri = f"file://{uri}"
    return {"physicalLocation": {"artifactLocation": {"uri": uri}, "region": {"startLine": line, "startColumn": column}}}
