"""Cache lines with half of the mend: no read before it may be left when a read asks, and a fence may be."""
from tools.agree.litmus import Outcome, Test
from tools.agree.machines.caches import lines


def outcomes(test: Test) -> set[Outcome]:
    return lines.outcomes(test, lambda waiting: all(op.kind != "Read" for op in waiting))
