"""Words in a model that a reader of it would take for others: axioms that constants decide, two of one title, and ones that a
comment swallows; predicates of virtual addresses where the others are of physical ones; and macros that nothing expands, with
their name faults, which no refusal tells."""
import re
from typing import Iterator

from tools.lint.asked import Asked
from tools.lint.formulas import ByForm, written
from tools.lint.slips import Slip, counted, owner, word_of
from tools.second.models import Formula, Model, Static
from tools.second.scopes import NameJudge, Scope, below
from tools.second.tokens import Fault
from tools.texts.memory_models import comments
from tools.texts.quoting import line_and_column

BEGINS = re.compile(rb'\b(Axiom|DefineMacro)[ \t\r\n]*"([^"\r\n]*)')
# the predicate of physical addresses that says the same as one of virtual addresses
PHYSICAL = {"SameVirtualAddress": "SamePhysicalAddress", "SameVirtualTag": "SamePhysicalTag"}
# where a model has so many of the one, and one of the other, this one may be a slip
MANY_PHYSICAL = 4


def constant_slips(path: str, model: Model, constants: ByForm) -> Iterator[Slip]:
    """Axioms that are one and the same of every test."""
    for axiom in model.axioms:
        truth = constants.truth(axiom.body)
        if truth is not None:
            sentence = f'axiom "{axiom.title}" is {truth} of every test by its constants alone'
            yield Slip(path, axiom.at, "constant", word_of(axiom.title), sentence)


def title_slips(path: str, text: bytes, model: Model) -> Iterator[Slip]:
    """A line for each title that is not empty and stands more than once, at the second axiom of it."""
    places: dict[str, list[int]] = {}
    for axiom in model.axioms:
        if axiom.title:
            places.setdefault(axiom.title, []).append(axiom.at)
    again = [(others[0], first, len(others) - 1, title) for title, (first, *others) in places.items() if others]
    for at, first, count, title in sorted(again):
        more = f", and {counted(count, 'more axiom')} of it" if count else ""
        sentence = f'the axiom at {line_and_column(text, first)} has the title "{title}", too{more}'
        yield Slip(path, at, "same-title", word_of(title), sentence)


def swallowed_slips(path: str, text: bytes) -> Iterator[Slip]:
    """A line for each axiom or macro that begins in a comment."""
    for at, comment in comments(text):
        for found in BEGINS.finditer(comment):
            word, name = (part.decode("latin-1") for part in found.groups())
            what, own_name = (f'axiom "{name}"', word_of(name)) if word == "Axiom" else (f"macro {name}", name)
            yield Slip(path, at + found.start(), "swallowed", own_name, f"{what} begins in a comment, so that it is none")


def mixed_slips(path: str, model: Model, bodies: list[Formula], has_entries: bool) -> Iterator[Slip]:
    """Places where an axiom or a macro speaks of the virtual addresses of a pair of micro-ops and of the physical ones,
    too; or the one place where a model that asks for no page-table entries speaks of virtual ones."""
    told: set[int] = set()
    for item in model.items:
        asked = address_predicates(item.body)
        physical = {pair_of(one): one for one in asked if one.predicate.name in PHYSICAL.values()}
        for one in asked:
            other = physical.get(pair_of(one))
            if one.predicate.name in PHYSICAL and other is not None:
                told.add(one.predicate.at)
                sentence = f"{written(one)} stands beside {written(other)}: a virtual and a physical address"
                yield Slip(path, one.predicate.at, "mixed", owner(item), sentence)
    if has_entries:
        return
    everywhere = [one for body in bodies for one in address_predicates(body)]
    for virtual, physical_name in PHYSICAL.items():
        virtuals = [one for one in everywhere if one.predicate.name == virtual]
        count = sum(one.predicate.name == physical_name for one in everywhere)
        if len(virtuals) == 1 and count >= MANY_PHYSICAL and virtuals[0].predicate.at not in told:
            name = next(owner(item) for item in model.items if virtuals[0] in below(item.body))
            sentence = f"{written(virtuals[0])} here alone, and {physical_name} in {counted(count, 'place')}"
            yield Slip(path, virtuals[0].predicate.at, "mixed", name, sentence)


def address_predicates(formula: Formula) -> list[Static]:
    """The predicates that compare addresses in a formula, macros not followed, from left to right."""
    names = {*PHYSICAL, *PHYSICAL.values()}
    return [part for part in below(formula) if isinstance(part, Static) and part.predicate.name in names]


def pair_of(formula: Static) -> frozenset[str]:
    """The names of the two micro-ops."""
    return frozenset(written(arg) for arg in formula.args)


class MacroJudge(NameJudge):
    """Judges the names of a macro by itself: what it expands is judged there, and no number of variables is too many."""

    def body(self, formula: Formula, scope: Scope) -> Iterator[Fault]:
        return iter(())

    def too_many(self, scope: Scope, at: int) -> Iterator[Fault]:
        return iter(())


def unexpanded_slips(path: str, model: Model, asked: Asked) -> Iterator[Slip]:
    """The macros that no axiom and no query expands, each with its name faults behind it."""
    judge = MacroJudge(model)
    for name, macro in model.macros.items():
        if name not in asked.expanded:
            yield Slip(path, macro.name.at, "unexpanded", name, f"no axiom expands macro {name}")
            for fault in judge.faults(macro.body, tuple((parameter.name, None) for parameter in macro.parameters)):
                sentence = f"in macro {name}, which no axiom expands: {fault.said}"
                yield Slip(path, fault.place, fault.word, name, sentence)
