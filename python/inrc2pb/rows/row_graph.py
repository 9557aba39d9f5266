"""The rows of nurses with one contract and equal totals, as the paths through one graph.

A row is the nurse's choice on each day. The nodes of a day are what a choice may leave to the days
after it: the runs that are open, and what more assignments and weekends would cost. Nodes with the
same future are one node.
"""

import numpy
from typing import (
    Any,
    Callable,
    Dict,
    Iterable,
    Iterator,
    List,
    NamedTuple,
    Optional,
    Sequence,
    Tuple,
)

from ..judging.runs import NEVER, RunState, Runs
from ..week.facts import SHIFTS, WEEKENDS
from ..week.records import WEEK_DAYS, Contract, NurseHistory
from ..week.soft_rules import ASSIGNMENT_TOTAL, WEEKEND_TOTAL
from .plan import POINT, Plan
from .row_arrays import Arrays, merged

# From here on a cost in points has NEVER in it, perhaps less what it saves.
FORBIDDEN = NEVER // 2
Check = Callable[[], None]


class Totals(NamedTuple):
    """What each further assignment (S6) and each further weekend (S7) of a nurse costs, in points,
    one after another."""

    works: Tuple[int, ...]
    weekends: Tuple[int, ...]

    @staticmethod
    def of(plan: Plan, contract: Contract, past: NurseHistory) -> "Totals":
        """The totals of a nurse in the days of the plan."""
        (minimum, maximum) = contract.assignments
        most = contract.max_weekends
        counts = plan.charging and (plan.ends or plan.early)
        totals = range(past.assignments, past.assignments + plan.days)
        works = [
            ASSIGNMENT_TOTAL
            * (counts * (total >= maximum) - (plan.charging and plan.ends and total < minimum))
            for total in totals
        ]
        weekends = [
            WEEKEND_TOTAL * (counts and past.weekends + number >= most)
            for number in range(len(plan.weeks))
        ]
        return Totals(
            _kept(plan, works, plan.most_above(past.nurse, SHIFTS), maximum - past.assignments),
            _kept(plan, weekends, plan.most_above(past.nurse, WEEKENDS), most - past.weekends),
        )

    @staticmethod
    def base(plan: Plan, contract: Contract, past: NurseHistory) -> int:
        """What a nurse without any assignment in the plan pays for her totals, in points."""
        if not (plan.charging and plan.ends):
            return 0
        (minimum, maximum) = contract.assignments
        most = contract.max_weekends
        excess = ASSIGNMENT_TOTAL * max(0, past.assignments - maximum) + WEEKEND_TOTAL * max(
            0, past.weekends - most
        )
        return ASSIGNMENT_TOTAL * max(0, minimum - past.assignments) + (0 if plan.early else excess)


def _kept(plan: Plan, costs: Sequence[int], most: Optional[int], left: int) -> Tuple[int, ...]:
    """What each further one costs, if after those that are left, and `most` more, none is allowed,
    or each costs more."""
    if most is None:
        return tuple(costs)
    return tuple(
        cost if number < left + most else min(NEVER, cost + plan.keeping.limit)
        for number, cost in enumerate(costs)
    )


def _first_with(futures: Sequence[Tuple[int, ...]]) -> List[int]:
    """For each future the index of the first one that is the same."""
    first: Dict[Tuple[int, ...], int] = {}
    return [first.setdefault(future, index) for index, future in enumerate(futures)]


class _Day(NamedTuple):
    """A day of a graph: by choice and node the cost in thousandths, and the node of the next day
    that is reached. These are views of its arrays, since lists would take three times the memory.
    """

    costs: List[memoryview]
    heads: List[memoryview]


class Graph:
    """The graph of the nurses with one contract and the same totals. `starts` has the node of each
    state before the first day."""

    def __init__(
        self, runs: Runs, totals: Totals, states: Iterable[RunState], check: Check
    ) -> None:
        self._runs = runs
        self._totals = totals
        self._check = check
        firsts = list(dict.fromkeys(states))
        days = list(self._reached(firsts))
        classes = merged(days, self._check)
        self.arrays = Arrays(days)
        self.days = [
            _Day(list(map(memoryview, costs)), list(map(memoryview, heads)))
            for costs, heads, _ in days
        ]
        self.starts = {state: int(classes[index]) for index, state in enumerate(firsts)}

    def _same(self, day: int) -> Tuple[List[int], List[int]]:
        """For each number of assignments, and of weekends, after a day the least one from which
        more cost as much."""
        works, weekends = self._totals
        left = self._runs.days - day - 1
        weeks = -(-left // WEEK_DAYS)
        same_works = _first_with([works[total : total + left] for total in range(day + 2)])
        return same_works, _first_with(
            [weekends[total : total + weeks] for total in range(day // WEEK_DAYS + 2)]
        )

    def _reached(self, states: List[RunState]) -> Iterator[Tuple[Any, Any, Any]]:
        """All nodes that are reached, day by day: the costs, the nodes that are reached, and the
        choice that reaches them."""
        runs = self._runs
        works_on = (numpy.arange(len(self._runs.shifts)) > 0)[:, None]
        works, weekends = (numpy.array(costs, dtype=numpy.int64) for costs in self._totals)
        state = numpy.arange(len(states))
        work = numpy.zeros(len(states), dtype=int)
        rest = numpy.zeros(len(states), dtype=int)
        before = numpy.array([now.choice for now in states])
        for day in range(runs.days):
            self._check()
            number: Dict[RunState, int] = {}
            steps = [
                [(cost, number.setdefault(to, len(number))) for cost, to in runs.steps(day, now)]
                for now in states
            ]
            costs, reached = (
                numpy.array([[step[part] for step in row] for row in steps])[state].T
                for part in range(2)
            )
            weekend = (day % WEEK_DAYS == WEEK_DAYS - 1) & (works_on | (before > 0))
            costs = costs + works_on * works[work] + weekend * weekends[rest]
            never = costs >= FORBIDDEN
            same_works, same_weekends = map(numpy.array, self._same(day))
            shape = len(number), len(same_works), len(same_weekends)
            keys = numpy.ravel_multi_index(
                (reached, same_works[work + works_on], same_weekends[rest + weekend]), shape
            )
            there = numpy.zeros(shape, dtype=bool).ravel()
            there[keys[~never]] = True
            heads = numpy.where(never, 0, (numpy.cumsum(there, dtype=numpy.int32) - 1)[keys])
            states = list(number)
            state, work, rest = numpy.unravel_index(numpy.flatnonzero(there), shape)
            before = numpy.array([now.choice for now in states])[state]
            yield numpy.where(never, NEVER, POINT * costs), heads, before

    def walked(self, start: int, row: Sequence[int]) -> Tuple[int, int]:
        """The node at which these first choices of a row end, and what they cost without any pay;
        NEVER or more if a hard rule forbids them."""
        node = start
        total = 0
        for day, choice in zip(self.days, row):
            total += day.costs[choice][node]
            node = day.heads[choice][node]
        return node, total
