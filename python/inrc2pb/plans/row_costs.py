"""What rows of choices cost their nurses, and how much work a search for exchanges may take."""

from dataclasses import replace
from typing import Callable

from ..judging.runs import NEVER
from ..rows.plan import Extra, Plan
from ..rows.pricing import Crews, Pricing
from .facts import next_days
from .ward import WardPlan


CHARGED = 4


class Work:
    """The steps of work that are left."""

    def __init__(self, steps: int, ends: Callable[[], bool]) -> None:
        self._left = steps
        self._ends = ends

    def takes(self, steps: int) -> None:
        """So many steps are done."""
        self._left -= steps

    @property
    def is_done(self) -> bool:
        """Whether no steps are left, or it ends."""
        return self._left <= 0 or self._ends()


class RowCosts:
    """What a nurse is charged for a row of choices, as a search counts it: 0 for a day off, and one
    more than the index of its shift type otherwise. Limits that hold and days away do not count
    here, and the first days of the next period do, if it is planned."""

    def __init__(self, plan: WardPlan, work: Work) -> None:
        weeks = replace(
            Plan.of(plan.scenario, plan.past, plan.data[plan.state.open_week :]),
            away=frozenset(),
            limits=frozenset(),
            extra=Extra(then=next_days(plan)),
        )
        self._pricing = Pricing(weeks, Crews(weeks), lambda: None)
        self._work = work
        self._nurses = {nurse: number for number, nurse in enumerate(weeks.nurses)}
        self.numbers = {shift: number for number, shift in enumerate(plan.scenario.shift_types, 1)}
        self._known: dict[tuple[str, bytes], int] = {}

    def of(self, nurse: str, row: bytes) -> int:
        """The charges; NEVER if a shift type may not follow another one."""
        known = self._known.get((nurse, row))
        if known is None:
            self._work.takes(CHARGED)
            cost = self._pricing.cost(self._nurses[nurse], row)
            known = self._known[nurse, row] = NEVER if cost is None else cost
        return known
