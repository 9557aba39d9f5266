"""The search of one case: for prices that prove that no roster of it costs less than the best one,
else for the best split of it."""

from typing import List, NamedTuple, Optional, Sequence, Tuple

from ..judging.runs import NEVER
from ..programs.clock import Clock
from ..solvers.linear_solvers import LinearSolver
from .case_limits import CaseLimits
from .case_pricing import CasePricing, PricedRow
from .case_program import CaseProgram, CaseSolution
from .case_splits import Rated, best_split, suggested
from .certificate import Case
from .plan import POINT, STEP, Points, Thousandths
from .pricing import Crews, Prices
from .row_generation import SMOOTHING, WORTH
from .row_graph import Check
from .row_program import EXACT
from .row_search import Known, Take

# After this number of rounds of new rows a case is split, even if its prices might become better.
MOST_ROUNDS = 60


class Proved(NamedTuple):
    """Prices and a surcharge for a case, and what they prove."""

    prices: Prices
    surcharge: int
    bound: Thousandths


class CaseTask(NamedTuple):
    """A case, what is proved of it, and the penalty that its prices are to prove."""

    case: Case
    known: Proved
    target: Points


class Examined(NamedTuple):
    """What a search of a case proves. If that is not its target, it has the value of its program in
    points, and its best split, if any."""

    proved: Proved
    value: float = 0.0
    split: Optional[Rated] = None


class CaseSearch:
    """Searches cases of a plan with one program, whose rows stay from one case to the next."""

    def __init__(self, pricing: CasePricing, program: CaseProgram) -> None:
        self.pricing = pricing
        self._program = program

    @staticmethod
    def begin(known: Known, crews: Crews, solver: LinearSolver, check: Check) -> "CaseSearch":
        """A search that begins with the rows that are known."""
        pricing = CasePricing(known.plan, crews, check)
        program = CaseProgram(pricing, solver.program())
        found: List[PricedRow] = []
        for nurse, rows in enumerate(known.rows):
            check()
            found += filter(None, (pricing.counted(nurse, row) for row in rows))
        program.add(found)
        return CaseSearch(pricing, program)

    def close(self, clock: Clock, take: Take, task: CaseTask) -> Examined:
        """Adds rows until the prices of a case prove its target, or they cannot. `take` gets each
        roster that a solution is."""
        limits = self.pricing.limits(task.case)
        best = task.known
        self._program.take(limits)
        share = 0.0
        turn = 0
        while True:
            now = self._program.solve(clock, is_new_case=turn == 0)
            turn = turn + 1
            if now.is_real:
                self._see(now, task.target, take)
                if limits.in_steps(best.bound) >= limits.in_steps(
                    Thousandths(round((now.value - EXACT) * POINT))
                ):
                    break
            tried, surcharge = _between(best, now, share)
            found = self.pricing.price(limits, tried, surcharge)
            if found is None:
                return Examined(Proved(best.prices, best.surcharge, Thousandths(NEVER)))
            if found.bound > best.bound or not best.bound:
                best = Proved(tried, surcharge, found.bound)
            if limits.in_steps(best.bound) >= task.target:
                return Examined(best)
            new = self._program.add(self._better(now, found.rows))
            if turn >= MOST_ROUNDS or not (new or share):
                break
            share = SMOOTHING if new else 0.0
        if limits.in_steps(best.bound) >= task.target:
            return Examined(best)
        return Examined(best, now.value, self._split(now, task, limits, clock))

    def _split(
        self, now: CaseSolution, task: CaseTask, limits: CaseLimits, clock: Clock
    ) -> Optional[Rated]:
        """The best split of a case by a new fact, if one raises its value. Without rows for a limit
        a solution may suggest old ones, too."""
        old = {claim.fact for claim in task.case}
        facts = [
            fact for fact in suggested(self.pricing, self._program, now, limits) if fact not in old
        ]
        return (
            best_split(self.pricing, self._program, now, task.case, facts, task.target, clock)
            if facts
            else None
        )

    def _better(self, now: CaseSolution, rows: Sequence[PricedRow]) -> List[PricedRow]:
        """The rows that make a solution better."""
        earned = self.pricing.crews.earned(
            now.prices, [row.nurse for row in rows], [row.row for row in rows]
        )
        costs = (
            row.cost * POINT + now.surcharge * row.runs - now.nurses[row.nurse] for row in rows
        )
        return [
            row for row, cost, less in zip(rows, costs, earned.tolist()) if cost - less < -WORTH
        ]

    def _see(self, now: CaseSolution, target: Points, take: Take) -> None:
        """Offers the roster that a solution is, if it is one and costs less than the target."""
        whole = (
            self._program.rows[number] for number, share in now.shares.items() if share > 1 - EXACT
        )
        rows = {priced.nurse: priced.row for priced in whole}
        if now.value < target - STEP / 2 and len(rows) == len(self.pricing.plan.nurses):
            take([rows[nurse] for nurse in range(len(rows))], "cases")


def _between(best: Proved, now: CaseSolution, share: float) -> Tuple[Prices, int]:
    """Prices between the best ones of a case and those of a solution."""
    old = [*best.prices, best.surcharge]
    new = [*now.prices, now.surcharge]
    *prices, surcharge = (round(share * one + (1 - share) * other) for one, other in zip(old, new))
    return prices, surcharge
