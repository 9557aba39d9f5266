"""The search for better rows by dives over a whole plan, and by windows. It needs what other
searches know of the plan, and a solver; so several can run at once, each in a process of its
own."""

import random
from dataclasses import replace
from typing import List, NamedTuple, Optional, Sequence

from ..programs.clock import Clock, TimeIsOver
from ..solvers.linear_solvers import LinearSolver
from .plan import POINT, STEP, Points
from .pricing import NurseWeek, Pricing
from .row_generation import NoRow
from .row_search import Known, Take
from .week_dives import WeekDives
from .windows import Window

# The most work of a window, in steps of the simplex method: work is the same on a busy machine.
MOST_WORK = 60_000
# The share of the open weeks that is fixed at once in a window, and the known rows of each nurse
# with which it begins.
WINDOW_SHARE = 0.1
MOST_KNOWN = 20
# The share of the time of a dive for fixing rows. In the rest the other rows are chosen if that has
# not ended.
FIXING_SHARE = 0.9


class Dive(NamedTuple):
    """A dive over all nurses and days."""

    # The share of the rows that it fixes at once.
    share: float
    # Whether it begins without the rows of the first roster, so at another solution.
    is_apart: bool
    # The seed of its chance; None: without chance.
    seed: Optional[float]
    # Its roster has to cost less.
    penalty: Optional[Points]


class Done(NamedTuple):
    """How a search ended: whether there are better rows or it has seen that there are none."""

    ended: bool


def put(window: Window, rows: Sequence[NurseWeek], found: Sequence[NurseWeek]) -> List[NurseWeek]:
    """The rows with the found ones on the days of a window."""
    first = window.days.start
    stop = window.days.stop
    return [row[:first] + new[first:stop] + row[stop:] for row, new in zip(rows, found)]


class PartSearch:
    """Searches for better rows with a solver, from what is known of the whole plan."""

    def __init__(self, pricing: Pricing, known: Known, solver: LinearSolver) -> None:
        self._pricing = pricing
        self._known = known
        self._solver = solver

    def dive(self, clock: Clock, take: Take, task: Dive) -> Done:
        """Fixes rows of all nurses, a few at a time. It begins with the known rows only: rows of
        earlier dives would make it slow."""
        assert self._known.program is not None
        search = self._search(self._pricing, clock, take)
        without = range(self._known.first if task.is_apart else 0)
        search.program = program = self._known.program.open_part(self._solver.program(), without)
        search.penalty = task.penalty
        try:
            part = clock.part(clock.left() * FIXING_SHARE)
            search.generate(part)
            chance = None if task.seed is None else random.Random(task.seed)
            found = search.dive(part, task.share, chance, self._known.plan.is_long)
            if found:
                search.keep(found, "fixing rows")
                search.descend(found, "fixing rows")
        except TimeIsOver:
            return Done(False)
        finally:
            program.close()
        return Done(True)

    def _search(self, pricing: Pricing, clock: Clock, take: Take) -> WeekDives:
        """A search that begins with the prices of the whole plan."""

        def offer(found: List[NurseWeek], finder: str) -> Optional[Points]:
            return search.value_of(found) if take(found, finder) else None

        search = WeekDives(pricing, self._solver, clock, offer, lambda: None)
        search.begin_at(self._pricing.crews.places, self._known.prices)
        return search

    def improve(self, clock: Clock, take: Take, window: Window, rows: List[NurseWeek]) -> Done:
        """Looks for better rows of a window, beside these rows on the other days."""
        search = self._search(self._beside(window, rows), clock, take)
        search.program.most_iterations = MOST_WORK
        try:
            return Done(self._improve(search, window, rows, clock))
        except NoRow:
            return Done(True)
        except TimeIsOver:
            return Done(False)
        finally:
            search.program.close()

    def _beside(self, window: Window, rows: List[NurseWeek]) -> Pricing:
        """The rows that differ from these in a window only."""
        demand = {
            place: asked
            for place, asked in self._known.plan.demand.items()
            if place.day in window.days
        }
        pricing = self._pricing.part(replace(self._known.plan, demand=demand))
        return pricing.on_days(window.days, rows)

    def _improve(
        self, search: WeekDives, window: Window, rows: List[NurseWeek], clock: Clock
    ) -> bool:
        search.rows = rows
        search.penalty = search.value_of(rows)
        search.add_roster(rows)
        for nurse, known in enumerate(self._known.rows):
            kept = [rows[nurse]] * len(known)
            for row in put(window, kept[:MOST_KNOWN], known):
                search.add_row(nurse, row)
        search.generate(clock)
        if search.is_proved:
            return True
        if search.penalty is not None and search.gap() <= STEP * POINT:
            return False
        chance = None if window.seed is None else random.Random(window.seed)
        share = WINDOW_SHARE if len(self._known.plan.weeks) > 1 else 0.0
        found = search.dive(clock, share, chance)
        name = f"{len(window.days)} days, fixing rows"
        return bool(found) and search.keep(found or [], name)
