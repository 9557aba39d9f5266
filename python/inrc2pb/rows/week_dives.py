"""Dives: the weeks of nurses are fixed a few at a time, those first that most shares of a solution
have in common. A dive over a whole period fixes one week after another: for 40 nurses and eight
weeks such dives ended between 2875 and 2995 points, and one that fixed the weeks in any order at
3010. A fixing that makes the solution much worse is undone, and half of it is fixed. A nurse still
gets new rows with her fixed weeks. Each dive begins with the rows that were known before the first
one: with those of earlier dives, too, the first three dives for 30 nurses and eight weeks took 22,
32 and 44 seconds, and now 22 to 26.
"""

import collections
import math
import random
from typing import Dict, List, NamedTuple, Optional, Sequence, Tuple

from ..programs.clock import Clock, TimeIsOver
from ..solvers.resident_program import DUAL
from ..week.records import WEEK_DAYS
from .plan import POINT, STEP
from .price_rounds import AGAIN, approach
from .pricing import NurseWeek, Prices, Pricing
from .row_generation import SMOOTHING
from .row_program import EXACT, WHOLE, RowProgram, Solved
from .row_search import RowSearch

# The share of the open weeks that is fixed at once, if a dive has none of its own: at first, at
# least, and at most.
FIRST_SHARE = 0.06
LEAST_SHARE = 0.02
MOST_SHARE = 0.5
# A fixing of several weeks is undone if the value, in points, rises by more than the first number.
# If it rises by less than the second one, more weeks are fixed at once. With it four weeks of 80
# and of 100 nurses are proved in 17 and 24 seconds of processors (the medians of three seeds),
# without it in 42 and 36, and in 25 and 17 if the first eight that cost more than 5 points are
# undone, too.
MOST_RISE = 6 * STEP
LITTLE_RISE = 1.5 * STEP
# The most rounds of new rows between two fixings. They end sooner if the value of the program, in
# points, is so near to what prices prove.
MOST_ROUNDS = 40
NEAR = STEP / 2
# A plan with more places than this is large: a solution of its program takes longer than rounds of
# prices without it. So after each fixing the rows of the last of such rounds come first, and the
# rounds of new rows end, too, if the last solutions made the value, in points, fall by less than
# this. A dive for 40 nurses and eight weeks takes 40 seconds of processors with such rounds, and 70
# without. A small plan loses more time by them than it gains.
MANY_PLACES = 400
KEPT_AGAIN = 4
TAIL = 2
LITTLE_FALL = 2 * STEP
# A dive by chance multiplies each share by a number between these.
BY_CHANCE = (0.8, 1.0)


class _Week(NamedTuple):
    """A week of a nurse."""

    nurse: int
    number: int

    @property
    def days(self) -> range:
        """Its days in the plan."""
        return range(WEEK_DAYS * self.number, WEEK_DAYS * (self.number + 1))

    def of(self, row: NurseWeek) -> NurseWeek:
        """The choices of a row in it."""
        return row[WEEK_DAYS * self.number : WEEK_DAYS * (self.number + 1)]


class _Fixing(NamedTuple):
    """Weeks of nurses that are fixed at once. Those that have no other choices in the solution come
    first, and then `others` further ones, in the order of their shares. The pricing is the one
    before the fixing, and `shut` has the columns that it shut.
    """

    weeks: Dict[_Week, NurseWeek]
    others: int
    pricing: Pricing
    shut: List[int]


class WeekDives(RowSearch):
    """A search that also dives."""

    def dive(
        self,
        clock: Clock,
        share: float = 0.0,
        chance: Optional[random.Random] = None,
        in_order: bool = False,
    ) -> Optional[List[NurseWeek]]:
        """Fixes at most this share of the open weeks of nurses at once, without one as many as the
        solutions allow, and by chance not only those of the greatest shares; `in_order` only some
        of the first open weeks, as many as there are nurses.

        Returns a row of each nurse, None if they cannot be better than the best. At the end of the
        time the rows are those of the greatest shares, made better one after another."""
        pricing = self.pricing
        program = self.program
        # The rows of the largest shares in the last solution.
        self._last = self._greatest(self.solved)
        try:
            return self._dive(clock, share, chance, in_order)
        except TimeIsOver:
            self.pricing = pricing
            self.clock.check()
            if len(self._last) == len(self.plan.nurses):
                self.descend(
                    [self._last[nurse] for nurse in range(len(self._last))],
                    "fixing rows in a short time",
                )
            return None
        finally:
            self._leave(program)
            self.pricing = pricing
            program.free_all()

    def _greatest(self, solved: Optional[Solved]) -> Dict[int, NurseWeek]:
        """The row of each nurse that has the greatest share in a solution."""
        shares = solved.shares if solved else {}
        columns = self.program.columns
        return {
            columns[number].nurse: columns[number].row
            for number in sorted(shares, key=shares.__getitem__)
        }

    def _dive(
        self, clock: Clock, most: float, chance: Optional[random.Random], in_order: bool
    ) -> Optional[List[NurseWeek]]:
        whole = self.program
        nurses = range(len(self.plan.nurses))
        weeks = range(len(self.plan.weeks))
        left = [_Week(nurse, number) for number in weeks for nurse in nurses]
        fixed: Dict[_Week, NurseWeek] = {}
        fixing = _Fixing({}, 0, self.pricing, [])
        near = None
        last = -math.inf
        share = most or FIRST_SHARE
        while True:
            rise = math.inf if fixing.others < 2 else MOST_RISE
            found = self._relaxed_with(near, last, last + rise, clock)
            if found is None:
                fixing = self._halved(fixing)
                share = share / 2
                continue
            now, near = found
            if self._is_no_better(now.value):
                return None
            share = _next_share(share, most, now.value - last)
            last = now.value
            self._last = self._greatest(now)
            fixed.update(fixing.weeks)
            left = [week for week in left if week not in fixing.weeks]
            if not left:
                return [
                    b"".join(fixed[_Week(nurse, number)] for number in weeks) for nurse in nurses
                ]
            new, others = self._chosen(now, left, share, chance, in_order)
            if not new:
                return None
            self._shrink(whole)
            fixing = self._fix(new, others)

    def _fix(self, weeks: Dict[_Week, NurseWeek], others: int) -> _Fixing:
        """Lets nurses have rows with these weeks only. The last `others` of them have other choices
        in the solution."""
        before = self.pricing
        of_nurse = collections.defaultdict(list)
        self.pricing = before.keeping(
            [(week.nurse, week.days, choices) for week, choices in weeks.items()]
        )
        for week in weeks:
            of_nurse[week.nurse].append(week)
        columns = enumerate(self.program.columns)
        out = [
            number
            for number, (nurse, row, *_) in columns
            if any(week.of(row) != weeks[week] for week in of_nurse.get(nurse, ()))
        ]
        return _Fixing(weeks, others, before, self.program.shut(out))

    def _halved(self, fixing: _Fixing) -> _Fixing:
        """Undoes a fixing, and fixes its weeks again without the last half of those that had other
        choices."""
        self.pricing = fixing.pricing
        self.program.free(fixing.shut)
        undone = fixing.others - fixing.others // 2
        return self._fix(dict(list(fixing.weeks.items())[:-undone]), fixing.others - undone)

    def _shrink(self, whole: RowProgram) -> None:
        """Goes on with a program without shut columns, if there are many: the solver looks at them,
        too."""
        if self.program.has_many_shut:
            part = self.program.open_part(self.linear_program())
            self._leave(whole)
            self.program = part

    def _is_no_better(self, value: float) -> bool:
        """Whether rosters of at least this value, in points, are not better than the best one."""
        return self.penalty is not None and value > self.penalty - STEP + EXACT

    def _leave(self, whole: RowProgram) -> None:
        """Goes back to the program with which the dive began, with the new rows."""
        if self.program is not whole:
            whole.take_new(self.program)
            self.program.close()
        self.program = whole

    def _relaxed_with(
        self, near: Optional[Prices], last: float, limit: float, clock: Clock
    ) -> Optional[Tuple[Solved, Prices]]:
        """The linear program with the fixed weeks, and the prices that prove the most. These are
        not far from those that did so before the last fixing; without any no week is fixed yet. It
        gets new rows while its value is above the last one, and above what prices prove, and, in a
        large plan, falls. None if it stays above the limit, so that the last fixing is to be
        undone.
        """
        if near is None:
            now = self.program.solve(clock)
            return now, now.prices
        best = near
        bound = -math.inf
        is_large = len(self.pricing.crews.places) > MANY_PLACES
        smoothing, tail = (SMOOTHING, TAIL) if is_large else (0.0, MOST_ROUNDS)
        if is_large:
            found = approach(self.pricing, AGAIN, clock.check, near)
            self._add_rounds(found.rounds[-KEPT_AGAIN:])
            best = found.prices
            bound = found.value / POINT
            if bound > limit:
                return None
        # Fixed weeks take columns away, for which the dual method is made, and new rows add
        # columns.
        now = self.program.solve(clock, DUAL)
        share = smoothing
        values = [now.value]
        for _ in range(MOST_ROUNDS):
            if now.value <= last + EXACT or (
                len(values) > tail and values[-tail - 1] - now.value < LITTLE_FALL
            ):
                break
            tried, priced, new = self._round(now, best, share, clock)
            proved = self._proved(tried, priced) / POINT
            if proved > bound:
                best = tried
                bound = proved
            is_near = now.value - bound <= NEAR and not self._is_no_better(now.value)
            if not (new or share) or bound > limit or self._is_no_better(bound) or is_near:
                break
            if new:
                now = self.program.solve(clock)
                values.append(now.value)
            share = smoothing if new else 0.0
        return (now, best) if now.value <= limit else None

    def _chosen(
        self,
        now: Solved,
        left: Sequence[_Week],
        share: float,
        chance: Optional[random.Random],
        in_order: bool,
    ) -> Tuple[Dict[_Week, NurseWeek], int]:
        """The weeks to fix, and the number of those that have other choices in the solution. Of
        such weeks this share is fixed, of different nurses and the greatest shares first; at least
        one. `in_order` these are among the first ones, as many as there are nurses. Weeks without
        other choices are fixed, too, `in_order` only if they come before these.
        """
        shares = self._shares(now, left)
        whole = {
            week
            for week, of_week in shares.items()
            if max(of_week.values(), default=0.0) > 1 - WHOLE
        }
        best = {
            week: max(of_week, key=of_week.__getitem__)
            for week, of_week in shares.items()
            if of_week
        }
        others = [week for week in left if week in best and week not in whole]
        first = others[: len(self.plan.nurses)] if in_order else others
        most = max(1, int(share * len(first)))
        weights = {
            week: shares[week][best[week]] * (chance.uniform(*BY_CHANCE) if chance else 1)
            for week in first
        }
        taken: Dict[int, _Week] = {}
        for week in sorted(weights, key=weights.__getitem__, reverse=True):
            if len(taken) < most:
                taken.setdefault(week.nurse, week)
        last = left.index(first[-1]) if in_order and first else len(left)
        return {
            week: best[week]
            for week in (*(week for week in left[:last] if week in whole), *taken.values())
        }, len(taken)

    def _shares(self, now: Solved, weeks: Sequence[_Week]) -> Dict[_Week, Dict[NurseWeek, float]]:
        """The share of each choice of these weeks in a solution."""
        shares: Dict[_Week, Dict[NurseWeek, float]] = {week: {} for week in weeks}
        for column, taken in now.shares.items():
            nurse, row, *_ = self.program.columns[column]
            for week in (_Week(nurse, number) for number in range(len(self.plan.weeks))):
                if week in shares:
                    shares[week][week.of(row)] = shares[week].get(week.of(row), 0.0) + taken
        return shares


def _next_share(share: float, most: float, rise: float) -> float:
    """The share of the open weeks to fix at once, after a fixing with which the value, in points,
    rose so much."""
    if most:
        return min(most, 2 * share) if rise < LITTLE_RISE else share
    return min(MOST_SHARE, 1.5 * share) if rise <= EXACT else max(LEAST_SHARE, 0.7 * share)
