"""The weeks of single nurses: what a nurse is charged for her shifts, and why she cannot have
them."""

from dataclasses import replace
from typing import Iterator, Mapping, NamedTuple

from ..judging import days_away
from ..judging.days_away import DaysAway
from ..judging.limits import exceeded, excess
from ..judging.next_history import next_nurse_history
from ..judging.obstacles import Obstacle, obstacles
from ..judging.rules import Charge, costs
from ..judging.runs import cost_then
from ..week.records import (
    Cell,
    History,
    NurseDay,
    NurseHistory,
    Week,
    WeekData,
    in_week,
    together,
)
from .facts import WrongBeside, beside_of, next_days
from .state import SetDay
from .ward import WardPlan


# A nurse's shifts, by the days of the plan.
NurseCells = Mapping[int, Cell]


class Above(NamedTuple):
    """What a nurse has in a week above limits that hold, and her shifts in it, with the days of the
    week."""

    week: int
    charges: tuple[Charge, ...]
    cells: tuple[Cell, ...]


class Fault(NamedTuple):
    """Why a nurse cannot have some shifts."""

    kind: Obstacle
    nurse: str
    day: int = 0
    # A word for why she is away, a shift type, a skill or a place, and the shift type before
    # it.
    what: str = ""
    before: str = ""
    # What she has above limits.
    above: tuple[Above, ...] = ()
    # What is wrong beside her days away.
    beside: WrongBeside | None = None
    # The minimum number of the place that she leaves.
    number: int = 0
    # What was promised to her.
    promise: SetDay | None = None

    @property
    def is_minimum(self) -> bool:
        """Whether only the minimum number of the place that she leaves is in the way, which may be
        left open."""
        return self.kind is Obstacle.MINIMUM


class NurseWeeks:
    """The weeks of a plan that are not over as each nurse has them, as if the ward had her alone
    and needed nobody."""

    def __init__(self, plan: WardPlan) -> None:
        self._plan = plan
        self._held = by_nurse(plan, plan.held)
        self._then = next_days(plan)
        self._data = {number: _of_nurses(plan.data[number]) for number in plan.weeks}

    def _weeks(self, nurse: str, cells: NurseCells) -> Iterator[tuple[Week, tuple[Cell, ...]]]:
        """Each week, with her shifts."""
        plan = self._plan
        scenario = replace(plan.scenario, nurses={nurse: plan.scenario.nurses[nurse]})
        for number, past in zip(plan.weeks, self._pasts(nurse, cells)):
            of_week = in_week(cells.values(), number)
            data = self._data[number].get(nurse, self._data[number][""])
            yield Week(scenario, History(number, scenario.name, {nurse: past}), data), of_week

    def _pasts(self, nurse: str, cells: NurseCells) -> list[NurseHistory]:
        """Her history before each week, and after the last one."""
        pasts = [self._plan.past.nurses[nurse]]
        for number in self._plan.weeks:
            shifts = {cell.day: cell.shift for cell in in_week(cells.values(), number)}
            pasts.append(next_nurse_history(pasts[-1], shifts))
        return pasts

    def cost_then(self, nurse: str, cells: NurseCells) -> int:
        """What the first days of the next period cost her after these shifts, if it is planned."""
        if nurse not in self._then:
            return 0
        types = tuple(self._plan.scenario.shift_types.values())
        return cost_then(types, self._then[nurse], self._pasts(nurse, cells)[-1])

    def cost(self, nurse: str, cells: NurseCells) -> int:
        """What the nurse is charged for these shifts."""
        return sum(
            sum(costs(week, of_week).values()) for week, of_week in self._weeks(nurse, cells)
        )

    def faults(self, nurse: str, cells: NurseCells) -> list[Fault]:
        """The hard rules, absences and held shifts that these shifts break, each by itself, in the
        order of days."""
        last = self._plan.past.nurses[nurse].last_shift
        shift_on = {
            **({self._plan.first - 1: last} if last else {}),
            **{day: cell.shift for day, cell in cells.items()},
        }
        faults = [
            Fault(Obstacle.HELD, nurse, day)
            for day, cell in self._held[nurse].items()
            if cells.get(day) != cell
        ]
        for cell in cells.values():
            faults += self._cell_faults(cell, shift_on.get(cell.day - 1))
        return sorted(faults, key=lambda fault: fault.day)

    def _cell_faults(self, cell: Cell, before: str | None) -> Iterator[Fault]:
        """Why the nurse cannot have this shift after that of the day before."""
        place = cell.nurse_day
        words = {Obstacle.AWAY: self._plan.away.get(place, ""), Obstacle.SKILL: cell.skill}
        for kind in obstacles(self._plan.scenario, self._plan.absences, cell, before):
            yield Fault(kind, *place, words.get(kind, cell.shift), before or "")

    def above(self, nurse: str, cells: NurseCells) -> list[Above]:
        """What these shifts of the nurse have above limits that hold."""
        weeks = (
            (week, exceeded(week, week.data.limits, of_week), of_week)
            for week, of_week in self._weeks(nurse, cells)
        )
        return [
            Above(week.history.week, tuple(charges), of_week)
            for week, charges, of_week in weeks
            if charges
        ]

    def excess(self, nurse: str, cells: NurseCells) -> int:
        """How much that is in all."""
        return sum(excess(week.charges) for week in self.above(nurse, cells))

    def beside(self, nurse: str, cells: NurseCells) -> list[WrongBeside]:
        """What is wrong beside the nurse's days of training and leave with these shifts."""
        return beside_of(self._plan, *self._around(nurse, cells))

    def excess_beside(self, nurse: str, cells: NurseCells) -> int:
        """By how many days rows with training are too long, with the number of nights before
        training or leave."""
        return days_away.excess(self._plan.scenario, self._plan.past, *self._around(nurse, cells))

    def _around(self, nurse: str, cells: NurseCells) -> tuple[DaysAway, dict[NurseDay, str]]:
        """The nurse's days away, and her shift types on the days from the first one that is not
        over."""
        return self._plan.days_away.of(nurse), {
            NurseDay(nurse, day - self._plan.first): cell.shift for day, cell in cells.items()
        }


def _of_nurses(data: WeekData) -> dict[str, WeekData]:
    """What a week's file has about each nurse whom it names, and, without a name, about others."""
    requests = together((request.nurse, request) for request in data.requests)
    limits = together((limit.nurse, limit) for limit in data.limits)
    return {
        nurse: replace(
            data,
            requirements={},
            requests=tuple(requests.get(nurse, ())),
            limits=frozenset(limits.get(nurse, ())),
        )
        for nurse in ("", *requests, *limits)
    }


def by_nurse(plan: WardPlan, works: Mapping[NurseDay, Cell]) -> dict[str, dict[int, Cell]]:
    """The shifts of each nurse, by day."""
    rows: dict[str, dict[int, Cell]] = {nurse: {} for nurse in plan.scenario.nurses}
    for (nurse, day), cell in works.items():
        rows.setdefault(nurse, {})[day] = cell
    return rows
