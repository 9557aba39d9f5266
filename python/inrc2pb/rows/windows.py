"""Windows: all nurses get new rows on some days, and keep their rows on the others. This module
says which window comes next."""

import random
from typing import List, NamedTuple, Optional

from ..week.records import WEEK_DAYS
from .plan import Plan

# The number of weeks of a window in a long period, and the numbers of days of those in a week and
# in a few weeks. From plans of 2875 and 2900 points for 40 nurses and eight weeks the windows of
# four weeks came to 2830 in 48 seconds.
WEEKS = 4
DAYS = (5, 6)
PERIOD_DAYS = (7, 14)
# With more nurses than this a window of a few weeks takes as long as a dive, which ends lower: with
# windows 100 nurses are proved in 38 seconds of processors, without them in 24 (medians).
FEW_NURSES = 50


class Window(NamedTuple):
    """The days on which all nurses may get new rows, and the seed of its dive; None: without
    chance."""

    days: range
    seed: Optional[float]


class Windows:
    """The windows of a roster in the order in which they are tried: each of them once, and once
    more by chance, until the roster is better."""

    def __init__(self, plan: Plan, chance: random.Random) -> None:
        self._days = _days(plan)
        self._chance = chance
        self._left: List[Window] = []
        self.open()

    def open(self) -> None:
        """Begins again, because the roster is another one."""
        first, again = (self._chance.sample(self._days, len(self._days)) for _ in range(2))
        self._left = [Window(days, None) for days in first] + [
            Window(days, self._chance.random()) for days in again
        ]

    def close(self, days: range) -> None:
        """No new rows on these days make the roster better."""
        self._left = [window for window in self._left if window.days != days]

    def next(self) -> Optional[Window]:
        """The next window; None if all were in vain."""
        return self._left.pop(0) if self._left else None


def of_weeks(weeks: int, number: int) -> List[range]:
    """The days of all windows of this number of weeks."""
    firsts = range(weeks - number + 1)
    return [range(WEEK_DAYS * first, WEEK_DAYS * (first + number)) for first in firsts]


def _days(plan: Plan) -> List[range]:
    """The days of all windows of a plan."""
    if plan.is_long:
        return of_weeks(len(plan.weeks), WEEKS)
    is_week = len(plan.weeks) == 1
    if not is_week and len(plan.nurses) > FEW_NURSES:
        return []
    numbers = DAYS if is_week else PERIOD_DAYS
    return [range(first, first + days) for days in numbers for first in range(plan.days - days + 1)]
