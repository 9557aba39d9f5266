"""The linear program over known rows for one case after another: rows are added to it, and a case
changes its bounds."""

import math
from typing import Dict, Iterable, List, NamedTuple, Set, Tuple

from ..programs.clock import Clock
from ..solvers.answers import SolverFault
from ..solvers.resident_program import DUAL, OPTIMAL, PRIMAL, STOPPED, Column, LinearProgram
from .case_limits import CaseLimits
from .case_pricing import CasePricing, PricedRow
from .plan import POINT
from .pricing import MAX_PRICE, Prices, NurseWeek
from .row_program import BELOW_MINIMUM, EXACT

# The cost of what makes each program feasible: a nurse without a row, and charges of shift runs
# that are due or too many.
_ARTIFICIAL = 20_000.0
# The most steps of the simplex method for one solution. The prices at which it was stopped prove
# something, too.
SOLUTION_STEPS = 20_000


class CaseSolution(NamedTuple):
    """A solution: its value in points, prices of places and of nurses and the surcharge of shift
    runs in thousandths, the shares of rows, and the nurses that are missing at places. `is_real`
    says whether its rows keep the minimums and the limits of the case.
    """

    value: float
    prices: Prices
    nurses: List[int]
    surcharge: int
    shares: Dict[int, float]
    missing: Dict[int, float]
    is_real: bool


class CaseProgram:
    """The known rows of all nurses as columns of a linear program that stays in a solver."""

    def __init__(self, pricing: CasePricing, program: LinearProgram) -> None:
        self.rows: Dict[int, PricedRow] = {}
        # The steps of the simplex method until now.
        self.iterations = 0
        self._pricing = pricing
        self._crews = pricing.crews
        self._program = program
        self._limits = pricing.limits(())
        self._basis = program.basis
        self._known: Set[Tuple[int, NurseWeek]] = set()
        self._numbers: List[List[int]] = [[] for _ in pricing.plan.nurses]
        nurses = len(pricing.plan.nurses)
        places = len(self._crews.places)
        self._cover = range(nurses, nurses + places)
        shared = [crew for crew, members in enumerate(self._crews.members) if len(members) > 1]
        self._links = {crew: nurses + places + index for index, crew in enumerate(shared)}
        self._runs = nurses + places + len(shared)
        program.add_rows(
            [(1.0, 1.0)] * nurses + [(float(best), math.inf) for best in self._crews.optimal]
        )
        program.add_rows([(0.0, math.inf)] * len(shared) + [(-math.inf, math.inf)])
        self._missing, self._fixed = self._add_fixed()

    def _add_fixed(self) -> Tuple[Dict[int, int], List[int]]:
        """Adds the columns that are no rows of nurses. Returns those of nurses that are missing at
        places, and of what no roster has."""
        program = self._program
        crews = self._crews
        cost = float(self._pricing.plan.missing_cost)
        asked = zip(self._cover, crews.minimum, crews.optimal)
        first = program.add_columns(
            [Column(cost, 0.0, float(best - least), [(row, 1.0)]) for row, least, best in asked]
        )
        flows = [(crew, place) for crew in self._links for place in crews.members[crew]]
        program.add_columns(
            [
                Column(0.0, 0.0, math.inf, [(self._links[crew], -1.0), (self._cover[place], 1.0)])
                for crew, place in flows
            ]
        )
        below = program.add_columns(
            [Column(float(BELOW_MINIMUM), 0.0, math.inf, [(row, 1.0)]) for row in self._cover]
        )
        last = program.add_columns(
            [Column(_ARTIFICIAL, 0.0, 1.0, [(nurse, 1.0)]) for nurse in range(self._cover.start)]
            + [Column(_ARTIFICIAL, 0.0, math.inf, [(self._runs, sign)]) for sign in (1.0, -1.0)]
        )
        return {place: first + place for place in range(len(self._cover))}, list(
            range(below, last + self._cover.start + 2)
        )

    def add(self, found: Iterable[PricedRow]) -> int:
        """Adds the rows that are new. Returns their number."""
        new = [priced for priced in found if (priced.nurse, priced.row) not in self._known]
        first = self._program.add_columns([self._column(priced) for priced in new])
        for number, priced in enumerate(new, first):
            self._known.add((priced.nurse, priced.row))
            self.rows[number] = priced
            self._numbers[priced.nurse].append(number)
        return len(new)

    def _column(self, priced: PricedRow) -> Column:
        entries = {priced.nurse: 1.0}
        for crews, choice in zip(self._crews.of[priced.nurse], priced.row):
            places = self._crews.members[crews[choice]]
            if places:
                entries[
                    self._links[crews[choice]] if len(places) > 1 else self._cover[places[0]]
                ] = 1.0
        if priced.runs:
            entries[self._runs] = float(priced.runs)
        forbidden = self._limits.forbidden.get(priced.nurse, ())
        return Column(
            float(priced.cost),
            0.0,
            0.0 if _is_forbidden(priced.row, forbidden) else math.inf,
            list(entries.items()),
        )

    def take(self, limits: CaseLimits) -> None:
        """Goes on with the case of these limits."""
        old = self._limits
        self._limits = limits
        rows = {}
        columns = {}
        for place, row in enumerate(self._cover):
            if (old.minimum[place], old.optimal[place]) != (
                limits.minimum[place],
                limits.optimal[place],
            ):
                rows[row] = (float(limits.optimal[place]), math.inf)
                columns[self._missing[place]] = (
                    0.0,
                    float(limits.optimal[place] - limits.minimum[place]),
                )
        least = limits.least.number if limits.least else -math.inf
        most = limits.most.number if limits.most else math.inf
        rows[self._runs] = (float(least), float(most))
        for nurse in {*old.forbidden, *limits.forbidden}:
            before = old.forbidden.get(nurse, set())
            now = limits.forbidden.get(nurse, set())
            for number in self._numbers[nurse] if before != now else ():
                columns[number] = (
                    0.0,
                    0.0 if _is_forbidden(self.rows[number].row, now) else math.inf,
                )
        self._program.bound_rows(rows)
        self._program.bound_columns(columns)

    def keep_basis(self) -> None:
        """Keeps the basis of the last solution."""
        self._basis = self._program.basis

    def rise(self, limits: CaseLimits, clock: Clock, iterations: int) -> float:
        """The value in another case by the known rows, from the kept basis and after at most these
        steps of the dual simplex method."""
        self.take(limits)
        self._program.take_basis(self._basis)
        found = self._program.solve(clock, DUAL, iterations, whole=False)
        self.iterations += found.iterations
        return self._value(found.value)

    def solve(self, clock: Clock, is_new_case: bool) -> CaseSolution:
        """A solution of the program in the case that it has now, or where the method was stopped
        after its most steps."""
        found = self._program.solve(clock, DUAL, SOLUTION_STEPS) if is_new_case else None
        if found is None or found.status != OPTIMAL:
            found = self._program.solve(clock, PRIMAL, SOLUTION_STEPS)
        if not found.prices or found.status not in (OPTIMAL, STOPPED):
            raise SolverFault("a linear program that has solutions has none")
        prices = [min(MAX_PRICE, max(0, round(found.prices[row] * POINT))) for row in self._cover]
        nurses = [round(found.prices[nurse] * POINT) for nurse in range(self._cover.start)]
        shares = {
            number: found.columns[number] for number in self.rows if found.columns[number] > EXACT
        }
        missing = {
            place: found.columns[number]
            for place, number in self._missing.items()
            if found.columns[number] > EXACT
        }
        is_real = all(found.columns[number] <= EXACT for number in self._fixed)
        return CaseSolution(
            self._value(found.value),
            prices,
            nurses,
            -round(found.prices[self._runs] * POINT),
            shares,
            missing,
            is_real,
        )

    def _value(self, value: float) -> float:
        return value + self._pricing.plan.missing_cost * self._limits.given_up


def _is_forbidden(row: NurseWeek, forbidden: Iterable[Tuple[int, int]]) -> bool:
    return any(row[day] == choice for day, choice in forbidden)
