"""Random models, tests, queries and certificates, and changes of them, for tests/hostile.py and others.

What is made here is well-formed, and may mean anything. A change may spoil a text or not: what the answer has to be is
said by the second implementation, which reads the changed text too. Rewritings of certificates keep them right.

    python3 -m tests.random_texts FOLDER SEED..     writes a model and a test of each seed, SEED.uspec and SEED.test
"""
import re
import sys
from collections import Counter
from itertools import count
from random import Random
from typing import Iterator, Sequence

from tools.second.cases import Case
from tools.second.judging import second_line
from tools.second.lifted import LiftedJudge
from tools.second.predicates import CORE, MICROOP, PLAIN, PREDICATES

TYPES = ("Full", "Light", "Walk", "VA")
KINDS = ("addr", "data", "ctrl")
NUMBERS = ("0", "1", "2", "00", "63", "64", "65", "0" * 5_000 + "7", "18446744073709551615", "18446744073709551616", "9" * 5_000)
PIECE = re.compile(rb'\s+|"[^"\n]*"|[A-Za-z0-9_\']+|/\\|\\/|=>|->|.', re.DOTALL)
# what a listing may have beside its own words
LISTING_WORDS = b"MOV MFENCE exists P2 0:EAX=1 x=1; X86 locations EBX [x]".split()

# the first words of lines of certificates and of lifted refutations, and what may come behind a line
FIRST_WORDS = b"split cycle path absent false node edge end left right not bind inst member".split()
ENDS = (b" ", b"\r", b"\t", b" 0.0@0:S", b" 0", b".0", b"0", b" 18446744073709551616")

# the parts of a text that are changed, and what stands in their place then
Change = tuple[slice, list[bytes]]
# the variables in scope, each with what it stands for: a micro-op or a core
Scope = dict[str, str]


class ModelMaker:
    """A model of one to five stages, with macros that expand macros and bindings that hide bindings."""

    def __init__(self, random: Random) -> None:
        self.random = random
        self.stages = random.sample("STUVW", random.choice((1, 2, 3, 3, 4, 5)))
        # each macro with what its parameters stand for, and how many quantifiers stand over each other in it
        self.macros: list[tuple[str, list[str], int]] = []

    def text(self) -> bytes:
        """The text of the model."""
        numbers = self.random.sample(range(64), len(self.stages))
        items = [f'StageName {number} "{stage}".' for number, stage in zip(numbers, self.stages)]
        for k in range(self.random.choice((0, 0, 1, 2, 4))):
            items.append(self.macro(f"M{k}"))
        for k in range(self.random.choice((1, 1, 2, 3, 5))):
            items.append(f'Axiom "a{k}": {self.axiom()}.')
        return ("\n".join(items) + "\n").encode()

    def query(self) -> bytes:
        """A formula in the language of the model, with its macros and stages."""
        return (self.axiom() + "\n").encode()

    def macro(self, name: str) -> str:
        """A macro; its body names its parameters alone."""
        sorts = [self.random.choice((MICROOP, MICROOP, CORE)) for _ in range(self.random.randint(0, 3))]
        names = self.random.sample("ijkcd", len(sorts))
        self.deepest = 0
        body = self.formula(dict(zip(names, sorts)), 2, 1)
        self.macros.append((name, sorts, self.deepest))
        return f'DefineMacro "{name}"{"".join(f" {chr(34)}{k}{chr(34)}" for k in names)}: {body}.'

    def axiom(self) -> str:
        """An axiom, mostly a guarded order of two micro-ops."""
        self.deepest = 0
        if self.random.random() < 0.4:
            return self.formula({}, 4, 3)
        scope = {"i": MICROOP, "j": MICROOP}
        guard, body = self.atom(scope, False), self.formula(scope, 2, 1)
        return f'forall microops "i", forall microops "j", {guard} => {body}'

    def formula(self, scope: Scope, depth: int, quantifiers: int) -> str:
        """A formula over this scope: at most so deep, with at most so many quantifiers over each other."""
        forms = ["atom", "atom", "and", "or", "implies", "not"] + ["quantifier"] * (2 if MICROOP in scope.values() else 20)
        form = self.random.choice(forms)
        macros = [macro for macro in self.macros if macro[2] <= quantifiers and set(macro[1]) <= set(scope.values())]
        if macros and self.random.random() < 0.25:
            return self.expansion(scope, *self.random.choice(macros))
        if depth == 0 or form == "atom" or (form == "quantifier" and quantifiers == 0):
            return self.atom(scope, True)
        if form == "quantifier":
            return self.quantified(scope, depth, quantifiers)
        if form == "not":
            return f"~({self.formula(scope, depth - 1, quantifiers)})"
        connective = {"and": "/\\", "or": "\\/", "implies": "=>"}[form]
        left, right = (self.formula(scope, depth - 1, quantifiers) for _ in range(2))
        # brackets that are left out change how the text is grouped
        sides = [f"({side})" if self.random.random() < 0.7 or side.startswith("(") else side for side in (left, right)]
        return f"{sides[0]} {connective} {sides[1]}"

    def quantified(self, scope: Scope, depth: int, quantifiers: int) -> str:
        """A quantifier, whose variable may hide one. Its brackets let it stand anywhere."""
        sort = self.random.choice((MICROOP, MICROOP, MICROOP, CORE))
        name = self.random.choice("ijk" if sort == MICROOP else "cdi")
        self.deepest = max(self.deepest, 4 - quantifiers)
        body = self.formula(scope | {name: sort}, depth - 1, quantifiers - 1)
        word = self.random.choice(("forall", "exists"))
        return f'({word} {sort}{self.random.choice(("", "s"))} "{name}", {body})'

    def expansion(self, scope: Scope, name: str, sorts: list[str], deepest: int) -> str:
        """An expansion with arguments of the sorts that the macro was made for."""
        self.deepest = max(self.deepest, deepest)
        return " ".join(["ExpandMacro", name] + [self.argument(scope, sort) for sort in sorts])

    def argument(self, scope: Scope, sort: str) -> str:
        """An argument of this sort."""
        names = [name for name, its in scope.items() if its == sort]
        if sort == CORE and (not names or self.random.random() < 0.4):
            return str(self.random.randint(0, 3))
        return self.random.choice(names)

    def atom(self, scope: Scope, may_order: bool) -> str:
        """A predicate, or nodes or edges where there is a micro-op to speak of."""
        if MICROOP not in scope.values():
            return self.random.choice(("True", "False", "True"))
        if may_order and self.random.random() < 0.75:
            return self.order(scope)
        name = self.random.choice(list(PREDICATES))
        takes, _ = PREDICATES[name]
        plain = KINDS if name == "HasDependency" else TYPES
        return " ".join([name, *(self.random.choice(plain) if it == PLAIN else self.argument(scope, it) for it in takes)])

    def node(self, scope: Scope) -> str:
        """A node, at its own core or at another one."""
        stage = self.random.choice(self.stages)
        if self.random.random() < 0.2:
            stage = f"({self.argument(scope, CORE)}, {stage})"
        return f"({self.argument(scope, MICROOP)}, {stage})"

    def order(self, scope: Scope) -> str:
        """Nodes or edges."""
        if self.random.random() < 0.25:
            return f"NodeExists {self.node(scope)}"
        edges = [f"({self.node(scope)}, {self.node(scope)})" for _ in range(self.random.choice((1, 1, 1, 0, 2, 3)))]
        if len(edges) == 1:
            return f"{self.random.choice(('AddEdge', 'EdgeExists'))} {edges[0]}"
        return f"{self.random.choice(('AddEdges', 'EdgesExist'))} [{'; '.join(edges)}]"


def test_text(random: Random) -> bytes:
    """A test of either format, of at most twelve micro-ops."""
    has_entries = random.random() < 0.3
    ops: list[tuple[int, int]] = []
    lines: list[str] = []
    g = core = thread = n = 0
    for _ in range(random.choice((0, 1, 2, 3, 4, 4, 5, 6, 8, 10, 12))):
        if ops and random.random() < 0.15:
            n += 1
        else:
            g, core, thread, n = g + 1, random.randint(0, 3), int(random.random() < 0.1), 0
        ops.append((g, n))
        lines.append(f"Microop {g} {core} {thread} {n} ({access(random, has_entries)}).")
    for _ in range(random.choice((0, 0, 1, 2)) if ops else 0):
        first, second = random.choice(ops), random.choice(ops)
        lines.append(f"Relationship {random.choice(KINDS)} {first[0]} {first[1]} -> {second[0]} {second[1]}.")
    for word in ("Init", "Final"):
        for address in random.sample(addresses(has_entries), random.choice((0, 0, 0, 1, 2))):
            value = f"({entry(random)})" if has_entries and random.random() < 0.5 else str(random.randint(0, 3))
            lines.append(f"{word} {address} {value}.")
    stated = random.choice(("", "Permitted.\n", "Forbidden.\n"))
    return "\n".join([f'Litmus{"2" if has_entries else ""} "r".', *lines, stated]).encode()


def addresses(has_entries: bool) -> list[str]:
    """The physical addresses that tests use."""
    pages = [f"(PA {tag} {index})" for tag in range(3) for index in range(2)]
    return pages + [f"(Entry {tag})" for tag in range(3)] if has_entries else pages


def entry(random: Random) -> str:
    """An entry as a value."""
    return f"Maps {random.randint(0, 2)} {random.randint(0, 1)} {random.randint(0, 1)}"


def access(random: Random, has_entries: bool) -> str:
    """What a micro-op does."""
    types = "".join(f" {word}" for word in random.sample(TYPES[:3], random.choice((0, 0, 1, 2))))
    if random.random() < 0.15:
        return f"Fence{types}"
    value = entry(random) if has_entries and random.random() < 0.4 else f"Data {random.randint(0, 3)}"
    va = f"(VA {random.randint(0, 2)} {random.randint(0, 1)})"
    return f"{random.choice(('Read', 'Write'))}{types} {va} {random.choice(addresses(has_entries))} ({value})"


def machine_test(random: Random) -> bytes:
    """A test that the machines of tools/agree can run: each write of an address has a value of its own."""
    plan = [(core, random.choice("RRWWF"), random.randint(0, 1)) for core in range(random.choice((2, 2, 3)))
            for _ in range(random.choice((1, 2, 2, 3)))]
    lines, written, values = [], Counter(page for _, kind, page in plan if kind == "W"), (count(1), count(1))
    for g, (core, kind, page) in enumerate(plan):
        if kind == "F":
            lines.append(f"Microop {g} {core} 0 0 (Fence Full).")
            continue
        value = random.randint(0, written[page])
        if kind == "W":
            value = next(values[page])
        word = "Read" if kind == "R" else "Write"
        lines.append(f"Microop {g} {core} 0 0 ({word} (VA {page} 0) (PA {page} 0) (Data {value})).")
    return "\n".join(['Litmus "m".'] + lines + [""]).encode()


def opened(random: Random, text: bytes, opens_writes: bool = False) -> bytes:
    """A pattern of a test: some or all of its reads are open, and its writes too where this is asked for, which is a fault."""
    share = random.choice((0.3, 0.7, 1.0))
    kind = rb"(?:Read|Write)" if opens_writes else rb"Read"
    value = re.compile(rb"(\(" + kind + rb"[^()]*(?:\([^()]*\) ){2})\((?:Data|Maps)[^()]*\)")
    return value.sub(lambda found: found[1] + b"(Data Any)" if random.random() < share else found[0], text)


def changed_file(random: Random, text: bytes, words: Sequence[bytes] = ()) -> bytes:
    """The text with one to three changes of its pieces, which may become one of these words."""
    pieces = PIECE.findall(text)
    for _ in range(random.choice((1, 1, 2, 3))):
        pieces = changed_pieces(random, pieces, words) or [b" "]
    return b"".join(pieces)


def changed_listing(random: Random, text: bytes) -> bytes:
    return changed_file(random, text, LISTING_WORDS)


def moved(parts: list[bytes], at: int, other: int) -> list[Change]:
    """Changes that leave each part of a text as it is: one goes, or comes twice, or two change places."""
    first, last = sorted((at, other))
    swapped = [parts[last], *parts[first + 1 : last], parts[first]]
    return [(slice(at, at + 1), []), (slice(other, other), [parts[at]]), (slice(first, last + 1), swapped)]


def changed_pieces(random: Random, pieces: list[bytes], words: Sequence[bytes]) -> list[bytes]:
    """One change: pieces go, come again, move or become others, or the text breaks off."""
    at, other = (random.randrange(len(pieces)) for _ in range(2))
    opening = random.choice((b"(", b"~", b"(*", b"//", b'"'))
    # what may stand in place of the piece
    instead = [
        pieces[other], random.choice(NUMBERS).encode(), opening * random.choice((1, 127, 128, 129)),
        bytes([random.choice((0, 9, 13, 34, 37, 40, 127, 128, 195, 255, random.randrange(256)))]),
        *(random.choice(words) for _ in range(2) if words),
    ]
    changes: list[Change] = [
        *moved(pieces, at, other), (slice(at, at + 5), []), (slice(at, None), []), (slice(at, at), 199 * [pieces[at]]),
        (slice(at, at), [b"\n", *pieces[min(at, other) : max(at, other)]]),
        *((slice(at, at + 1), [it]) for it in instead),
    ]
    where, new = random.choice(changes)
    pieces[where] = new
    return pieces


def changed_certificate(random: Random, text: bytes) -> bytes:
    """The certificate, or lifted refutation, with one change of its lines or of a line, which may spoil it or not."""
    lines = text.split(b"\n")
    at = random.randrange(len(lines))
    other = random.choice((max(0, at - 1), min(len(lines) - 1, at + 1), random.randrange(len(lines))))
    line, words = lines[at], lines[at].split(b" ")
    start, place, step = random.randrange(len(line) + 1), random.randrange(len(words)), random.choice((-2, -1, -1, 1, 1, 2, 100))
    nodes = [word for it in lines for word in it.split(b" ") if b"@" in word] or [b"0.0@0:S"]
    number = re.sub(rb"\d+", lambda found: str(max(0, int(found[0]) + step)).encode(), words[place], count=1)
    # what may stand in place of a word, and in place of the line
    new_words = [[random.choice(nodes)], [random.choice(words), words[place]], *4 * [[number]]]
    instead = [
        b" ".join([random.choice(FIRST_WORDS), *words[1:]]), line + random.choice(ENDS),
        line[:start] + bytes([random.randrange(256)]) + line[start + 1 :],
        line.replace(b"split ~", b"split ") if b"~" in line else line.replace(b"split ", b"split ~"),
        *(b" ".join([*words[:place], *it, *words[place + 1 :]]) for it in new_words),
    ]
    changes: list[Change] = [
        *moved(lines, at, other), (slice(at, None), [line[:start]]),
        (slice(2, 3), [] if lines[2:3] == [b"version 2"] else [b"version 2", *lines[2:3]]),
        *((slice(at, at + 1), [it]) for it in instead),
    ]
    where, new = random.choice(changes)
    lines[where] = new
    return b"\n".join(lines)


def lifted_text(random: Random, judge: LiftedJudge) -> bytes:
    """Lines that the judge takes one after another, as of a lifted refutation: closing ones where one is found, else ones
    that add or split. It may be whole, break off, or go on with a line that is not taken."""
    lines = ["unobservable", second_line(False, judge.case), "lifted"]
    count = random.choice((3, 10, 40))
    while judge.open and len(lines) < count:
        taken = next(filter(judge.accepts, lifted_lines(random, len(judge.open[-1]), judge.case)), None)
        if taken is None:
            break
        lines.append(taken)
    if not judge.open:
        lines.append("end")
    elif random.random() < 0.5:
        lines.append(next(lifted_lines(random, len(judge.open[-1]) + 2, judge.case)))
    return "\n".join(lines + [""]).encode()


def lifted_lines(random: Random, facts: int, case: Case) -> Iterator[str]:
    """Lines that may be taken where there are so many facts, the later ones more often."""

    def fact() -> int:
        return max(random.randrange(facts + 1), random.randrange(facts + 1)) if facts else 0

    values = [f"{op.g}.{op.n}" for op in case.ops] + list(map(str, case.cores)) or ["0"]
    if random.random() < 0.8:
        yield from (f"false {k}" for k in range(facts))
        yield from (f"cycle {k}" for k in range(facts))
        yield from (f"{random.choice(('path', 'absent', 'cycle'))} {fact()} {fact()}" for _ in range(3 * facts))
    for _ in range(20):
        word = random.choice("left right not bind inst inst member member split split path".split())
        more = {"inst": f" {random.choice(values)}", "member": f" {random.randrange(3)}", "path": f" {fact()} {fact()}"}
        yield f"{word} {fact()}{more.get(word, '')}"


def rewritten_certificate(random: Random, text: bytes) -> bytes:
    """Another right certificate of the same verdict: a graph's lines come in another order and again, a cycle begins
    elsewhere, and a split that is made already is made again."""
    lines = text.decode().split("\n")
    if lines[0] == "observable":
        nodes, edges = ([line for line in lines if line.startswith(word)] for word in ("node ", "edge "))
        for part in (nodes, edges):
            part += random.sample(part, min(len(part), random.randint(0, 2)))
            random.shuffle(part)
        return "\n".join(lines[:2] + nodes + edges + ["end", ""]).encode()
    for k, line in enumerate(lines):
        word, *nodes = line.split(" ")
        if word == "cycle":
            at = random.randrange(len(nodes))
            lines[k] = " ".join([word] + nodes[at:] + nodes[:at])
    splits = [k for k, line in enumerate(lines) if line.startswith("split ")]
    if splits and random.random() < 0.7:
        # the left branch of a split has its side twice then, and so has its left and its right branch again
        at = random.choice(splits)
        left = lines[at + 1:refuted_to(lines, at + 1)]
        lines[at + 1:at + 1 + len(left)] = [lines[at]] + left + left
    return "\n".join(lines).encode()


def refuted_to(lines: list[str], at: int) -> int:
    """Behind the steps from this line on that refute one branch."""
    is_open = 1
    while is_open:
        is_open += 1 if lines[at].startswith("split ") else -1
        at += 1
    return at


def write_pairs(folder: str, *seeds: str) -> None:
    """A model and a test of each seed."""
    for seed in seeds:
        random = Random(int(seed))
        texts = {"uspec": ModelMaker(random).text(), "test": random.choice((machine_test, test_text))(random)}
        for ending, text in texts.items():
            with open(f"{folder}/{seed}.{ending}", "wb") as file:
                file.write(text)


if __name__ == "__main__":
    write_pairs(*sys.argv[1:])
