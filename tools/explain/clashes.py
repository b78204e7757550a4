"""What clashes at the end of a branch, in words."""
from collections import Counter
from dataclasses import dataclass, field
from typing import Iterator

from tools.second.meaning import Node
from tools.texts.naming import Fact, Names

# a clash of more facts is no part of a line; its facts are told apart from it
MOST_FACTS = 4
# Of more branches a line says first what closes them all, by so many orders or axioms at most.
MOST_BRANCHES = 4
MOST_COMMON = 3
ENDS = {
    "cycle": "a cycle", "path": "an order that is denied", "absent": "a node that is denied",
    "false": "what is false in this test",
}
HEADINGS = {"cycle": "no order has one", "path": "this order is asked for and denied"}


@dataclass
class Closed:
    """How branches end, and the facts and the axioms that close each of them."""

    words: Counter[str] = field(default_factory=Counter)
    facts: list[Fact] = field(default_factory=list)
    axioms: list[str] = field(default_factory=list)

    def add(self, word: str, facts: list[Fact], axioms: list[str]) -> None:
        """One more branch."""
        is_first = not self.words
        self.words[word] += 1
        self.facts = [fact for fact in (facts if is_first else self.facts) if fact in facts]
        self.axioms = [axiom for axiom in dict.fromkeys(axioms if is_first else self.axioms) if axiom in axioms]

    def line(self, names: Names) -> Iterator[str]:
        """Of many branches one line: how they end, and what of that they have in common."""
        count = sum(self.words.values())
        if count <= MOST_BRANCHES:
            return
        ends = [f"{number} end in {ENDS[word]}" for word, number in self.words.items()]
        said = f"Of {count} branches {', '.join(ends)}"
        if not ends[1:]:
            said = f"All {count} branches end in {ENDS[next(iter(self.words))]}"
        common = [names.fact(fact) for fact in self.facts] or self.axioms
        shared = " and ".join(common[:MOST_COMMON]) + (" and more" if len(common) > MOST_COMMON else "")
        yield f"{said}; each by {shared}." if common else f"{said}; no one order or axiom closes all."


def clash_nodes(word: str, facts: list[Fact]) -> list[Node]:
    """The nodes of a chain of edges, the first one again at the end of a cycle; or the one node. Of a path and of an
    absent node the denied fact is the last one."""
    if word == "absent":
        return [facts[-1][0]]
    chain = facts if word == "cycle" else facts[:-1]
    return [chain[0][0], *(end for _, end, _ in chain if end is not None)]


def clash_heading(names: Names, word: str, facts: list[Fact]) -> str:
    """What stands above the facts."""
    return HEADINGS.get(word) or f"{names.node(clash_nodes(word, facts)[0])} is asked for and denied"


def clash_reason(names: Names, word: str, facts: list[Fact], new: list[Fact]) -> str:
    """Why a side cannot be that adds the new ones of these facts. Where it only denies what the others say, or says
    what they deny, they say so. The orders of a long clash are left out."""
    others = [fact for fact in facts if fact not in new]
    chain = "" if len(facts) > MOST_FACTS else names.chain(clash_nodes(word, facts))
    said = " and ".join(map(names.fact, new))
    if word == "cycle":
        made = f"{said} closes a cycle" if said else "there is a cycle"
        return f"{made}: {chain}" if chain else made
    denial, denied = facts[-1], names.fact(facts[-1])
    if new == [denial]:
        if word == "absent":
            return names.fact(others[0])
        return chain or f"{names.fact((denial[0], denial[1], True))} follows"
    if len(new) == 1 and others == [denial] and new[0][:2] == denial[:2]:
        return denied
    order = chain or "an order"
    made = f"{said} makes {order}" if word == "path" and said else said or f"{order} is asked for"
    return f"{made}, and {denied}"
