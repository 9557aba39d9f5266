"""What nurses had in the periods of the twelve months before a plan, so that its nights, weekends
and bank holidays are shared as those of a year: who worked last Christmas is off on this one."""

import datetime
from typing import Iterator, Mapping, NamedTuple, Sequence

from ..week.dates import DAY
from ..week.faults import FileFault
from .fairness import Share, contracts_of, shares_of
from .periods import Period, past_plan
from .ward import WardPlan

# The days of a year, and its weeks for plans without dates.
_YEAR = 365


class LastYear(NamedTuple):
    """The nights, weekends and bank holidays of nurses in earlier periods, and the first day that
    counts; None if the plan has no dates, or there are no such periods."""

    shares: Mapping[str, Share] = {}
    since: datetime.date | None = None


def last_year(periods: Sequence[Period], plan: WardPlan) -> LastYear:
    """What nurses had in the periods before a plan. Who had no shift in one of them, since she was
    not there, counts as if she had had the mean of her contract."""
    shares = dict.fromkeys(plan.scenario.nurses, Share())
    since: datetime.date | None = None
    for period, first in _earlier(periods, plan):
        try:
            past = past_plan(period)
        except (FileFault, OSError):
            continue
        named = past.state.renamed(plan.ward.names_since(past.state.was))
        cells = [cell for cell in named.cells if cell.day >= first]
        had = shares_of(plan, cells, past.ward.holidays)
        there = {cell.nurse for cell in cells}
        for group in contracts_of(plan).values():
            mean = _mean([had[nurse] for nurse in group if nurse in there])
            for nurse in group:
                shares[nurse] = shares[nurse].plus(had[nurse] if nurse in there else mean)
        since = since or (period.days.date(first) if period.days.monday else None)
    return LastYear(shares if any(map(any, shares.values())) else {}, since)


def _earlier(periods: Sequence[Period], plan: WardPlan) -> Iterator[tuple[Period, int]]:
    """The periods before a plan that have days of the last year, each with the first of these."""
    before = sorted(period for period in periods if period.number < plan.state.period)
    left = 0
    found: list[tuple[Period, int]] = []
    for period in reversed(before):
        left += period.days.total
        if plan.days.monday and period.days.monday:
            left = (plan.days.monday - period.days.monday) // DAY
        first = max(0, left - _YEAR)
        if first < period.days.total:
            found.append((period, first))
    return reversed(found)


def _mean(shares: Sequence[Share]) -> Share:
    """The mean of each number, rounded."""
    count = max(1, len(shares))
    return Share(*(round(sum(numbers) / count) for numbers in zip(*shares or [Share()])))
