"""The search for rosters over rows: each nurse's whole week, or whole period, is one column of a
linear program.
"""

from typing import Callable, Dict, List, NamedTuple, Optional, Sequence

from ..programs.clock import Clock
from ..week.faults import Misuse
from .descent import Descent
from ..solvers.linear_solvers import LinearSolver
from .plan import POINT, STEP, Plan, Points, Thousandths
from .pricing import NurseWeek, Prices, Pricing
from .row_generation import RowGeneration
from .row_program import RowColumn, RowProgram
from .skills import staffed

# The most times that all nurses get new rows without a solver.
MOST_SWEEPS = 3
# The name of what found the rows with which a search begins.
GIVEN = "the given roster"

# Takes rows of all nurses and the name of what found them, and returns their penalty, or None if
# they are no roster.
Offer = Callable[[List[NurseWeek], str], Optional[Points]]
# Takes rows and the name of what found them, and returns whether they are kept.
Take = Callable[[List[NurseWeek], str], bool]


class Known(NamedTuple):
    """What is known of a plan."""

    plan: Plan
    # The best prices.
    prices: Prices
    # Rows of each nurse, the cheapest at these prices first.
    rows: List[List[NurseWeek]]
    # The number of rows of the first roster, which the program has before all others.
    first: int = 0
    # The program of the rows, if dives are to begin with it.
    program: Optional[RowProgram] = None


class WrongBound(Misuse):
    """A bound above the penalty of a roster, so numbers of this computer are wrong."""

    def __init__(self, bound: int, penalty: int) -> None:
        super().__init__(
            f"the lower bound {bound} is above the penalty {penalty} of a roster: Python or NumPy"
            " computes wrong numbers here"
        )


class RowSearch(RowGeneration):
    """A search over the rows of a plan. `offer` gets each roster; `heard` is called if the bound
    rises, and when it is final."""

    def __init__(
        self,
        pricing: Pricing,
        solver: Optional[LinearSolver],
        clock: Clock,
        offer: Offer,
        heard: Callable[[], None],
    ) -> None:
        super().__init__(pricing, solver, heard)
        self.clock = clock
        self._offer = offer
        # The rows and the penalty of the best roster.
        self.rows: Optional[List[NurseWeek]] = None
        self.penalty: Optional[Points] = None
        # How many rows the program has got from the first roster.
        self._first = 0

    @property
    def is_proved(self) -> bool:
        """Whether the best roster costs no more than the bound."""
        return (
            self.penalty is not None
            and self.lower_bound is not None
            and self.penalty <= self.lower_bound
        )

    def _meets(self, value: float) -> bool:
        return self.is_proved or super()._meets(value)

    def keep(self, rows: List[NurseWeek], finder: str) -> bool:
        """Offers rows that may be better than the best roster. Returns whether they are."""
        value = self.value_of(rows)
        if value is None or (self.penalty is not None and value >= self.penalty):
            return False
        penalty = self._offer(rows, finder)
        if penalty is not None and self.plan.adds:
            penalty = value
        if penalty is None or (self.penalty is not None and penalty >= self.penalty):
            return False
        self.rows = rows
        self.penalty = penalty
        return True

    def value_of(self, rows: Sequence[NurseWeek]) -> Optional[Points]:
        """What rows cost; None if they break a hard rule."""
        found = staffed(self.plan, self.pricing.crews, rows)
        costs = [self.pricing.cost(nurse, row) for nurse, row in enumerate(rows)]
        if found.below or None in costs:
            return None
        return Points(
            sum(cost for cost in costs if cost is not None) + self.plan.missing_cost * found.missing
        )

    # ---- a first roster

    def begin(self, rows: List[NurseWeek], penalty: Optional[Points]) -> None:
        """Begins with these rows, and the penalty of their roster if they are one. Makes them
        better without a solver, if that is easy."""
        value = None if penalty is None else self.value_of(rows)
        if value is not None:
            self.rows = rows
            self.penalty = value if self.plan.asks else penalty
        self.descend(rows, "one nurse after another")
        self._first = len(self.program.columns)

    def descend(self, rows: Sequence[NurseWeek], finder: str) -> None:
        """Takes these rows, made better one after another, and adds them to the program."""
        descent = Descent(self.pricing, rows)
        try:
            for _ in range(MOST_SWEEPS):
                if not descent.sweep(self.clock.check):
                    break
                # The nurses get skills anew.
                descent = Descent(self.pricing, descent.rows)
        finally:
            self.keep(descent.rows, finder)
            self.add_roster(descent.rows)

    # ---- the rows of a better roster

    def gap(self) -> Thousandths:
        """By how much rows of a better roster may cost more than the cheapest ones, together."""
        assert self.penalty is not None and self.bound is not None
        return Thousandths((self.penalty - STEP) * POINT - self.bound)

    def _reduced(self, columns: Sequence[RowColumn]) -> List[int]:
        """What rows cost less what they earn at the best prices, in thousandths."""
        known = list(columns)
        earned = self.pricing.crews.earned(
            self.prices, [column.nurse for column in known], [column.row for column in known]
        )
        return [column.cost * POINT - less for column, less in zip(known, earned.tolist())]

    def known(self) -> Known:
        """What is known now."""
        found: List[Dict[NurseWeek, int]] = [{} for _ in self.plan.nurses]
        for column, reduced in zip(self.program.columns, self._reduced(self.program.columns)):
            found[column.nurse][column.row] = reduced
        return Known(
            self.plan,
            self.prices,
            [sorted(rows, key=lambda row: (rows[row], row)) for rows in found],
            self._first,
        )
