"""The bound of a certificate for a tiny period, in plain Python: each leaf by all that each nurse
may do, and all places.

A certificate has lists of prices, each with the price of each place (a place without one has the
price 0), and a tree: an inner node is ("SPLIT", fact, the tree if it holds, the tree if not), a
leaf ("LEAF", number of its list, surcharges).
"""

import math
from typing import Any, Dict, Iterator, List, NamedTuple, Optional, Sequence, Tuple

from plain_plans import DAYS, MISSING, POINTS, Chain, Condition, Period, Place, allows

Tree = Tuple[Any, ...]
Prices = Dict[Place, int]
POINT = 1000
# The bound of a case without a plan.
NONE = math.inf


class Certificate(NamedTuple):
    """Lists of prices, and a tree of cases."""

    prices: List[Prices]
    tree: Tree


class Leaf(NamedTuple):
    """A leaf: the conditions of its case, the given ones last, with the surcharge of each, and its
    prices."""

    case: List[Condition]
    surcharges: List[int]
    prices: Prices


def leaves(certificate: Certificate, given: List[Condition]) -> Iterator[Leaf]:
    """The leaves of a certificate, from left to right."""

    def below(tree: Tree, path: List[Condition]) -> Iterator[Leaf]:
        if tree[0] == "SPLIT":
            yield from below(tree[2], [*path, (tree[1], True)])
            yield from below(tree[3], [*path, (tree[1], False)])
        else:
            case = [*path, *given]
            surcharges = [*tree[2], *[0] * len(case)][: len(case)]
            yield Leaf(case, surcharges, certificate.prices[tree[1]])

    return below(certificate.tree, [])


# ---- charges that are counted


class Limit(NamedTuple):
    """A limit of a number of charges, of a nurse or all: at most so many, or more."""

    kind: str
    nurse: Optional[str]
    most: int
    holds: bool
    surcharge: int

    def counts(self, kind: str, nurse: str) -> bool:
        """Whether it counts these charges of a nurse."""
        return self.kind == kind and self.nurse in (None, nurse)


def limits(leaf: Leaf) -> List[Limit]:
    """The limits of a leaf; an odd number of charges of shift runs is more than 0."""
    found = []
    for (fact, holds), surcharge in zip(leaf.case, leaf.surcharges):
        if fact[0] == "CHARGES":
            kind, nurse, most = fact[1:]
            found.append(Limit(kind, nurse, most, holds, surcharge))
        elif fact[0] == "EVEN" and not holds:
            found.append(Limit("SHIFT_RUNS", None, 0, False, surcharge))
    return found


def weight(found: List[Limit], unit: int, kind: str, nurse: str) -> int:
    """The weight of a charge: by the rules, with the surcharges of limits, less those of the
    opposite."""
    own = [one for one in found if one.counts(kind, nurse)]
    return unit * POINTS[kind] + sum(one.surcharge if one.holds else -one.surcharge for one in own)


def gain(found: List[Limit]) -> int:
    """What the bound gains by the surcharges, less what it loses."""
    return sum(
        -one.surcharge * one.most if one.holds else one.surcharge * (one.most + 1) for one in found
    )


# ---- the parts of a leaf's bound


def nurse_value(
    chain: Chain, leaf: Leaf, unit: int, weights: Dict[str, int], never: Sequence[str]
) -> float:
    """What a nurse costs by this chain, less the highest prices of her cells; infinite if the case
    does not allow it."""
    if any(chain.counts[kind] for kind in never):
        return NONE
    paid = 0
    for number, shift in enumerate(chain.shifts):
        week, day = divmod(number, DAYS)
        if not allows(leaf.case, week, chain.nurse, day, shift):
            return NONE
        if shift is not None:
            paid += max(
                leaf.prices.get((week, day, shift, skill), 0) for skill in chain.skills[number]
            )
    return unit * chain.fixed + sum(weights[kind] * chain.counts[kind] for kind in POINTS) - paid


def place_value(
    demand: Tuple[int, int], price: int, unit: int, place: Place, case: Sequence[Condition]
) -> int:
    """What a place costs at least over all numbers of nurses, with the price of each, and with the
    nurses that the case gives up."""
    minimum, optimal = demand
    for fact, holds in case:
        if fact[0] == "PLACE" and fact[1:5] == place:
            minimum, optimal = (
                (minimum, min(optimal, fact[5])) if holds else (max(minimum, fact[5] + 1), optimal)
            )
    numbers = range(minimum, max(minimum, optimal) + 1)
    return min(
        MISSING * unit * max(0, optimal - number) + price * number for number in numbers
    ) + MISSING * unit * (demand[1] - optimal)


def leaf_bound(
    period: Period, leaf: Leaf, every: Dict[str, List[Chain]], unit: int = POINT
) -> float:
    """The bound of a leaf in thousandths of a point; 0 if the surcharges make a weight negative.
    With unit 0 soft rules do not count."""
    found = limits(leaf)
    weights = {
        nurse: {kind: weight(found, unit, kind, nurse) for kind in POINTS} for nurse in every
    }
    if any(one < 0 for kinds in weights.values() for one in kinds.values()):
        return 0
    total: float = gain(found)
    for place, demand in period.demands.items():
        total += place_value(demand, leaf.prices.get(place, 0), unit, place, leaf.case)
    for nurse, own in every.items():
        never = [
            kind
            for kind in POINTS
            if any(one.counts(kind, nurse) and one.holds and one.most == 0 for one in found)
        ]
        total += min(
            (nurse_value(chain, leaf, unit, weights[nurse], never) for chain in own), default=NONE
        )
    return max(0, total)


# ---- the bounds


def rounded_up(bound: float, case: Sequence[Condition]) -> float:
    """In points, up to a multiple of 5: an even one if the number of charges of shift runs is even
    in this case, an odd one if odd."""
    if bound == NONE:
        return NONE
    points = 5 * math.ceil(int(bound) / (5 * POINT))
    if (("EVEN",), True) in case:
        return points + points % 10
    if (("EVEN",), False) in case:
        return points + (5 - points % 10) % 10
    return points


def lower_bound(period: Period, certificate: Certificate, every: Dict[str, List[Chain]]) -> float:
    """The minimum of the bounds of all leaves."""
    return min(
        rounded_up(leaf_bound(period, leaf, every), leaf.case)
        for leaf in leaves(certificate, period.given)
    )


def minimums_bound(
    period: Period, certificate: Certificate, every: Dict[str, List[Chain]]
) -> float:
    """The same without the soft rules and the surcharges: above 0 only if no plan keeps the hard
    rules."""
    plain = [
        leaf._replace(surcharges=[0] * len(leaf.case)) for leaf in leaves(certificate, period.given)
    ]
    return min(leaf_bound(period, leaf, every, 0) for leaf in plain)
