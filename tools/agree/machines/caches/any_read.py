"""Cache lines without the mend: any read may use an answer that is late."""
from tools.agree.litmus import Outcome, Test
from tools.agree.machines.caches import lines


def outcomes(test: Test) -> set[Outcome]:
    return lines.outcomes(test, lambda waiting: True)
