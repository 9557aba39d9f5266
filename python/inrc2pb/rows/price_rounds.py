"""Prices without a linear program: the price of a place rises while too few nurses are there in
their cheapest rows, and falls while there are too many."""

import numpy
from typing import Any, List, NamedTuple, Optional, Tuple

from .plan import POINT, Thousandths
from .pricing import NurseWeek, Prices, Pricing
from .row_graph import Check


class Steps(NamedTuple):
    """The number of rounds; by how much a price rises in the first round and in the last one, in
    thousandths, while all nurses of a place are missing; and the share of a round in the number of
    missing nurses that counts."""

    rounds: int
    first: float
    last: float
    share: float


# From nothing, in a few weeks and in more; and from prices that were good before some weeks of
# nurses were fixed. By them the prices of 40 nurses and eight weeks take 20 seconds of processors,
# and 46 by the linear program alone.
FEW = Steps(50, 10.0 * POINT, 0.1 * POINT, 0.3)
MANY = Steps(150, 10.0 * POINT, 0.05 * POINT, 0.1)
AGAIN = Steps(12, 3.0 * POINT, 0.3 * POINT, 0.2)


class Approached(NamedTuple):
    """The prices of all rounds that prove the most, what they prove, and the cheapest rows of all
    nurses in each round."""

    prices: Prices
    value: Thousandths
    rounds: List[List[NurseWeek]]


def approach(
    pricing: Pricing, steps: Steps, check: Check, begin: Optional[Prices] = None
) -> Approached:
    """What the rounds come to, from these prices."""
    crews = pricing.crews
    missing_cost = pricing.plan.missing_cost * POINT
    minimum = numpy.array(crews.minimum)
    optimal = numpy.array(crews.optimal)
    prices = (
        numpy.full(len(optimal), missing_cost / 2)
        if begin is None
        else numpy.array(begin, dtype=float)
    )
    missing = numpy.zeros(len(optimal))
    best = ([0] * len(optimal), -numpy.inf)
    rounds = []
    for number in range(steps.rounds):
        check()
        whole = numpy.rint(prices).astype(numpy.int64).tolist()
        value, there, rows = priced(pricing, whole)
        best = max(best, (whole, value), key=lambda found: found[1])
        rounds.append(list(map(bytes, rows)))
        wanted = numpy.where(prices < missing_cost, optimal, minimum)
        missing += steps.share * ((wanted - there) / numpy.maximum(1, optimal) - missing)
        prices = numpy.maximum(
            0,
            prices + steps.first * (steps.last / steps.first) ** (number / steps.rounds) * missing,
        )
    return Approached(best[0], Thousandths(int(best[1])), rounds)


def priced(pricing: Pricing, prices: List[int]) -> Tuple[int, Any, Any]:
    """What no roster costs less than by these prices, how many nurses are at each place in their
    cheapest rows, and these rows."""
    crews = pricing.crews
    everyone = range(len(pricing.plan.nurses))
    values, rows = pricing.least(everyone, crews.gains(prices))
    # A nurse who counts nowhere is at a place after the last one.
    places = [
        crews.best_place(crew, prices) if members else len(prices)
        for crew, members in enumerate(crews.members)
    ]
    there = numpy.bincount(
        numpy.array(places)[crews.at(everyone, rows)].ravel(), minlength=len(prices) + 1
    )
    return int(values.sum()) + pricing.places_cost(prices), there[:-1], rows
