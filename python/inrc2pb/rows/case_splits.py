"""The splits of a case that its solution suggests, and the choice among them by the known rows."""

import math
from typing import Dict, Iterator, List, NamedTuple, Optional, Sequence, Tuple, TypeVar

from ..programs.clock import Clock
from ..week.facts import SHIFT_RUNS, AtPlace, Charged, Choice, Claim, Fact
from ..week.records import WEEK_DAYS
from .case_limits import CaseLimits, NurseChoice
from .case_pricing import CasePricing
from .case_program import CaseProgram, CaseSolution
from .certificate import Case
from .plan import STEP, Points
from .row_program import WHOLE

_Key = TypeVar("_Key", int, NurseChoice)
# The splits of each kind that are tried, the most steps of the dual simplex method for each case of
# one and for all, and the minimum rise that counts as one. If no split has it, the tree ends: for
# 60 nurses and four weeks the value is 2170, all cases still had it after fourteen splits, and the
# best plan costs just as much.
TRIED = 5
STEPS = 400
MOST_STEPS = 6000
LEAST_RISE = 1e-3
# The weight of the higher of the two rises; the lower one has weight 1.
HIGHER = 0.1


class Rated(NamedTuple):
    """A fact by which a case is split, and how much the value rises in the case in which it holds
    and in the one in which it does not."""

    fact: Fact
    rises: Tuple[float, float]

    @property
    def score(self) -> float:
        """A split is better if the lower of its rises is higher."""
        lower, higher = sorted(self.rises)
        if lower < LEAST_RISE:
            return LEAST_RISE * max(higher, LEAST_RISE)
        return 1 + lower + HIGHER * higher


def suggested(
    pricing: CasePricing, program: CaseProgram, now: CaseSolution, limits: CaseLimits
) -> Iterator[Fact]:
    """The facts by which a solution is partly in one case and partly in the other: of each kind
    those nearest to one half."""
    runs = 0.0
    off: Dict[NurseChoice, float] = {}
    on: Dict[NurseChoice, float] = {}
    for number, share in now.shares.items():
        nurse, row, _, charges = program.rows[number]
        runs += share * charges
        for day, choice in enumerate(row):
            counts = on if choice else off
            counts[nurse, day, choice] = counts.get((nurse, day, choice), 0.0) + share
    if limits.odd is not None and _is_partly(runs):
        yield Charged(SHIFT_RUNS, None, math.floor(runs))
    names = pricing.plan.nurses
    shifts = [None, *pricing.shifts]
    for partly in (on, off):
        shares = {key: share for key, share in partly.items() if _is_partly(share)}
        for nurse, day, choice in _halves(shares):
            yield Choice(day // WEEK_DAYS + 1, names[nurse], day % WEEK_DAYS, shifts[choice])
    there = {
        number: limits.optimal[number] - share
        for number, share in now.missing.items()
        if _is_partly(share)
    }
    for number in _halves(there):
        place = pricing.crews.places[number]
        yield AtPlace(
            place.day // WEEK_DAYS + 1,
            place._replace(day=place.day % WEEK_DAYS),
            math.floor(there[number]),
        )


def _is_partly(number: float) -> bool:
    return abs(number - round(number)) > WHOLE


def _halves(numbers: Dict[_Key, float]) -> List[_Key]:
    """The keys whose numbers are nearest to the middle between two whole ones."""
    return sorted(numbers, key=lambda key: (round(abs(numbers[key] % 1 - 0.5), 3), key))[:TRIED]


def best_split(
    pricing: CasePricing,
    program: CaseProgram,
    now: CaseSolution,
    case: Case,
    facts: Sequence[Fact],
    target: Points,
    clock: Clock,
) -> Optional[Rated]:
    """The split whose cases cost most by the known rows, what they cost above the target not
    counted. None if no split makes one dearer."""
    program.keep_basis()
    most = pricing.limits(case).below(target) + STEP
    tried: List[Rated] = []
    spent = program.iterations
    for fact in facts:
        if program.iterations - spent > MOST_STEPS:
            break
        cases = [pricing.limits((*case, Claim(fact, holds))) for holds in (True, False)]
        holds, fails = (
            min(float(most), program.rise(limits, clock, STEPS)) - now.value for limits in cases
        )
        tried.append(Rated(fact, (holds, fails)))
        if min(holds, fails) >= most - now.value:
            # Both cases seem to be closed: no split is better.
            break
    best = max(tried, key=lambda split: split.score)
    return best if max(best.rises) >= LEAST_RISE else None
