"""Partial store order: as total store order, but a buffer keeps the order of writes to one address alone."""
from tools.agree.litmus import Outcome, Test
from tools.agree.machines import tso


def outcomes(test: Test) -> set[Outcome]:
    return tso.outcomes(test, by_address=True)
