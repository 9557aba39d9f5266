"""The generation of rows: each nurse's whole week, or whole period, is one column of a linear
program.

The program's prices of places find better rows, until none is left; the same prices prove a lower
bound.
"""

import math
from typing import Callable, Dict, List, Optional, Sequence, Tuple

from ..programs.clock import Clock
from ..solvers.linear_solvers import LinearSolver
from ..solvers.resident_program import LinearProgram
from .plan import POINT, STEP, Points, Thousandths
from .price_rounds import FEW, MANY, approach
from .pricing import Priced, Prices, Pricing, NurseWeek, in_steps
from ..week.records import Place
from .row_program import EXACT, MOST_BELOW, RowProgram, Solved

# The rounds of the first prices with whose rows the linear program begins.
BEGINNING = 10
# The share of the best prices in those that are tried next, and in a long period, in which a
# solution of the linear program takes longer. With the prices of the solution alone four weeks of
# 80 nurses were open after 113 and 118 seconds.
SMOOTHING = 0.4
LONG_SMOOTHING = 0.7
# A row is worth a column if it costs less than the known ones by more than this many thousandths.
WORTH = 1


class NoRow(Exception):
    """A nurse has no row: held rows break a hard rule."""

    def __init__(self, nurse: str) -> None:
        super().__init__(nurse)
        self.nurse = nurse


class RowGeneration:
    """The generation of rows for a plan, and of prices. `heard` is called if the bound rises, and
    when it is final."""

    def __init__(
        self, pricing: Pricing, solver: Optional[LinearSolver], heard: Callable[[], None]
    ) -> None:
        self.pricing = pricing
        self.plan = pricing.plan
        self._solver = solver
        self._heard = heard
        self.program = RowProgram(self.plan, pricing.crews, self.linear_program())
        self.prices: Prices = [0] * len(pricing.crews.places)
        # No roster costs less, in thousandths.
        self.bound: Optional[Thousandths] = None
        # Whether the linear program has all the rows that it needs.
        self.complete = False
        # The last solution of that program.
        self.solved: Optional[Solved] = None
        # Whether nurses are missing below minimums even so.
        self.misses_minimums = False

    def linear_program(self) -> LinearProgram:
        """An empty program of its solver."""
        return self._solver.program() if self._solver else LinearProgram(None)

    @property
    def lower_bound(self) -> Optional[Points]:
        """No roster costs less, by the best prices."""
        return None if self.bound is None else in_steps(self.bound)

    # ---- known rows

    def add_roster(self, rows: Sequence[NurseWeek]) -> None:
        """Adds the rows of a roster."""
        for nurse, row in enumerate(rows):
            self.add_row(nurse, row)

    def begin_at(self, places: Sequence[Place], prices: Prices) -> None:
        """Begins with the prices of these places."""
        known = dict(zip(places, prices))
        self.prices = [known.get(place, 0) for place in self.pricing.crews.places]

    def add_row(self, nurse: int, row: NurseWeek) -> bool:
        """Adds a row, if no hard rule forbids it. Returns whether it is new."""
        cost = self.pricing.cost(nurse, row)
        return cost is not None and self.program.add(nurse, row, cost)

    # ---- prices and new rows

    def _priced(self, prices: Prices, nurses: Sequence[int], clock: Clock) -> Dict[int, Priced]:
        """The cheapest row of each of these nurses at these prices."""
        gains = self.pricing.crews.gains(prices)
        found = {}
        clock.check()
        for nurse, priced in zip(nurses, self.pricing.cheapest_of(nurses, gains)):
            if priced is None:
                raise NoRow(self.plan.nurses[nurse])
            found[nurse] = priced
        return found

    def _raise_bound(self, prices: Prices, found: Dict[int, Priced]) -> None:
        bound = self._proved(prices, found)
        if self.bound is None or bound > self.bound:
            self.bound = Thousandths(bound)
            self.prices = prices
            self._heard()

    def approach(self, clock: Clock) -> None:
        """Begins with prices that are found without the linear program, and with the rows of the
        last rounds on the way to them."""
        found = approach(self.pricing, MANY if self.plan.is_long else FEW, clock.check)
        self.prices = found.prices
        self._add_rounds(found.rounds[-BEGINNING:])

    def _add_rounds(self, rounds: Sequence[Sequence[NurseWeek]]) -> None:
        for nurse, row in dict.fromkeys(
            (nurse, row) for rows in rounds for nurse, row in enumerate(rows)
        ):
            self.add_row(nurse, row)

    def prove(self, clock: Clock) -> None:
        """Takes the bound of the prices, with the rows that prove it."""
        found = self._priced(self.prices, range(len(self.plan.nurses)), clock)
        self._raise_bound(self.prices, found)
        for nurse, priced in found.items():
            self.add_row(nurse, priced.row)

    def generate(self, clock: Clock) -> None:
        """Adds rows until none is missing, or the bound is as good as the linear program's
        value."""
        self.prove(clock)
        share = 0.0
        smoothing = LONG_SMOOTHING if self.plan.is_long else SMOOTHING
        while not self.complete:
            now = self.solved = self.program.solve(clock)
            tried, found, new = self._round(now, self.prices, share, clock)
            self._raise_bound(tried, found)
            if self._meets(now.value) or not (new or share):
                self.misses_minimums = now.missing > EXACT
                if self.misses_minimums and self.plan.charging and self.program.below < MOST_BELOW:
                    self.program.raise_below(min(MOST_BELOW, 10 * self.program.below))
                else:
                    self.complete = True
            share = smoothing if new else 0.0
        self._heard()

    def _round(
        self, now: Solved, best: Prices, share: float, clock: Clock
    ) -> Tuple[Prices, Dict[int, Priced], int]:
        """Adds the cheapest rows at prices between those of a solution and the best ones, which
        have this share. Returns these prices, the rows, and how many of them are new and make the
        solution better."""
        tried = (
            [round(share * one + (1 - share) * price) for one, price in zip(best, now.prices)]
            if share
            else now.prices
        )
        found = self._priced(tried, range(len(self.plan.nurses)), clock)
        return (
            tried,
            found,
            sum(self.add_row(nurse, found[nurse].row) for nurse in self._better(found, tried, now)),
        )

    def _proved(self, prices: Prices, found: Dict[int, Priced]) -> int:
        """What no roster costs less than by these prices and each nurse's cheapest row, in
        thousandths."""
        return sum(priced.value for priced in found.values()) + self.pricing.places_cost(prices)

    def _better(self, found: Dict[int, Priced], tried: Prices, now: Solved) -> List[int]:
        """The nurses whose cheapest rows at the prices that were tried make the solution better."""
        rows = [priced.row for priced in found.values()]
        changed = self.pricing.crews.earned(tried, list(found), rows) - self.pricing.crews.earned(
            now.prices, list(found), rows
        )
        values = zip(found.items(), changed.tolist())
        return [
            nurse
            for (nurse, priced), more in values
            if priced.value + more - now.nurses[nurse] < -WORTH
        ]

    def _meets(self, value: float) -> bool:
        """Whether the bound is as good as this value of the program."""
        if self.bound is None:
            return False
        if not self.plan.charging:
            return self.bound >= value * POINT - WORTH
        return in_steps(self.bound) >= STEP * math.ceil((value - EXACT) / STEP)
