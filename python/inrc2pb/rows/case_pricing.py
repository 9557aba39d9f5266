"""The pricing of cases, for all nurses at once: charges of shift runs are counted apart, so that a
surcharge is one number."""

import numpy
from typing import Any, Dict, List, NamedTuple, Optional, Set, Tuple

from ..judging.runs import NEVER
from ..week.soft_rules import SHIFT_RUN
from .case_limits import CaseLimits
from .certificate import Case, Certificate, Leaf
from .compiled import priced_together
from .plan import POINT, Plan, Points, Thousandths
from .pricing import Crews, NurseWeek, Prices, Pricing
from .row_arrays import Arrays, Member
from .row_graph import Check

# The points that a charge of a shift run costs in the graphs, so that the number of charges can be
# read from a cost.
_CODE = 10_000_000


class PricedRow(NamedTuple):
    """A row of a nurse, its cost, and its number of charges of shift runs."""

    nurse: int
    row: NurseWeek
    cost: Points
    runs: int


class Found(NamedTuple):
    """The cheapest row of each nurse at some prices, and what no roster of the case costs less than
    by these prices."""

    rows: List[PricedRow]
    bound: Thousandths


def _split(coded: Any) -> Tuple[Any, Any]:
    """The costs of steps without shift runs, in thousandths, and their numbers of charges of
    them."""
    runs = (coded + _CODE * POINT // 2) // (_CODE * POINT)
    return coded - runs * _CODE * POINT, runs


def _apart(arrays: Arrays) -> Arrays:
    """The same graph with the charges of shift runs apart."""
    days = []
    runs = []
    for coded, heads, entered in arrays.days:
        never = coded >= NEVER // 2
        costs, charges = _split(numpy.where(never, 0, coded))
        days.append((numpy.where(never, NEVER, costs), heads, entered))
        runs.append(charges)
    return Arrays(days, runs)


class CasePricing:
    """The nurses of a plan with the graphs of their rows."""

    def __init__(self, plan: Plan, crews: Crews, check: Check) -> None:
        pricing = Pricing(plan, crews, check, _CODE)
        self.plan = plan
        self.crews = crews
        self.numbers = {nurse: number for number, nurse in enumerate(plan.nurses)}
        self.shifts = {shift: number for number, shift in enumerate(plan.scenario.shift_types, 1)}
        self._starts = pricing.starts
        self._base = pricing.base
        self._graphs = pricing.graphs
        apart = {id(graph): _apart(graph.arrays) for graph in pricing.graphs}
        graphs = zip(pricing.graphs, pricing.starts)
        self._together = priced_together(
            [Member(nurse, apart[id(graph)], start) for nurse, (graph, start) in enumerate(graphs)],
            range(plan.days),
        )
        self._wishes = pricing.wish_table()
        self._missing = plan.missing_cost * POINT

    def limits(self, case: Case) -> CaseLimits:
        """The limits of a case."""
        return CaseLimits(self.crews, case, self.numbers, self.shifts)

    def counted(self, nurse: int, row: NurseWeek) -> Optional[PricedRow]:
        """A row with its cost and its charges; None if a hard rule forbids it."""
        node = self._starts[nurse]
        cost = self._base[nurse]
        number = 0
        for day, (arcs, choice) in enumerate(zip(self._graphs[nurse].days, row)):
            if (
                arcs.costs[choice][node] >= NEVER // 2
                or self._wishes[nurse, day, choice] >= NEVER // 2
            ):
                return None
            step, runs = _split(arcs.costs[choice][node])
            cost = cost + step + int(self._wishes[nurse, day, choice])
            number = number + runs
            node = arcs.heads[choice][node]
        return PricedRow(nurse, row, Points(cost // POINT + SHIFT_RUN * number), number)

    def price(self, limits: CaseLimits, prices: Prices, surcharge: int) -> Optional[Found]:
        """The cheapest rows of a case at these prices, and its bound; None if it has no roster. A
        surcharge below 0 is for charges of shift runs that are due, one above 0 for those that are
        too many; without such a limit there is none.
        """
        if limits.is_empty:
            return None
        limit = limits.most if surcharge > 0 else limits.least
        surcharge = surcharge if limit else 0
        pay = self._pay(prices, limits.forbidden)
        weight = NEVER if limits.most and limits.most.number == 0 else SHIFT_RUN * POINT + surcharge
        total = (
            sum(self._base)
            + self._places_cost(limits, prices)
            - surcharge * (limit.number if limit else 0)
        )
        found: List[PricedRow] = []
        costs, rows = self._together.cheapest(pay, range(len(self.plan.nurses)), weight)
        for nurse, (cost, row) in enumerate(zip(costs.tolist(), rows)):
            priced = self.counted(nurse, row.tobytes()) if cost < NEVER // 2 else None
            if priced is None:
                return None
            found.append(priced)
            total += cost
        return Found(found, Thousandths(total))

    def _pay(self, prices: Prices, forbidden: Dict[int, Set[Tuple[int, int]]]) -> Any:
        """What each choice costs each nurse beside the costs of her row."""
        pay = (
            self._wishes
            - numpy.array(self.crews.gains(prices), dtype=numpy.int64)[self.crews.table]
        )
        for nurse, choices in forbidden.items():
            for day, choice in choices:
                pay[nurse, day, choice] = NEVER
        return pay

    def _places_cost(self, limits: CaseLimits, prices: Prices) -> int:
        """What all places cost at least, if they pay these prices to their nurses."""
        asked = zip(limits.minimum, limits.optimal, prices)
        return self._missing * limits.given_up + sum(
            least * price + (best - least) * min(self._missing, price)
            for least, best, price in asked
        )

    def bound(self, case: Case, leaf: Leaf) -> Optional[Points]:
        """What no roster of a case costs less than by a leaf; None if it has no roster."""
        limits = self.limits(case)
        found = self.price(limits, leaf.prices, surcharge_of(limits, leaf))
        return None if found is None else limits.in_steps(found.bound)

    def bound_of(self, certificate: Certificate, check: Check = lambda: None) -> Points:
        """What no roster costs less than by a certificate, each leaf priced anew. `check` is called
        before each, and ends this by a fault if no time is left."""
        bound = Points(NEVER)
        for case, leaf in certificate.leaves():
            check()
            points = self.bound(case, leaf)
            bound = bound if points is None else min(bound, points)
        return bound


def surcharge_of(limits: CaseLimits, leaf: Leaf) -> int:
    """The surcharge of a leaf for a charge of a shift run: below 0 if charges are due."""
    surcharges = leaf.surcharges
    most, least = (
        surcharges[limit.fact] if limit and limit.fact < len(surcharges) else 0
        for limit in (limits.most, limits.least)
    )
    return most - least


def leaf_of(limits: CaseLimits, prices: Prices, surcharge: int) -> Leaf:
    """The leaf with these prices and this surcharge."""
    limit = limits.most if surcharge > 0 else limits.least
    if not (surcharge and limit):
        return Leaf(prices)
    return Leaf(prices, (*[0] * limit.fact, abs(surcharge)))
