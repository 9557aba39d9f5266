"""Changes that a plan with few changes does not need: those are taken back whose end costs
nothing."""

from typing import Callable, Iterator, Mapping, NamedTuple, Sequence

from ..judging.obstacles import Obstacle
from ..judging.rules import numbers
from ..programs.clock import Clock
from ..week.records import Cell, NurseDay, in_a_row, together
from ..week.soft_rules import MISSING_NURSE
from .changes import (
    CALL_POINTS,
    SECONDS,
    ShiftChange,
    Works,
    days_off_beside_absences,
    is_other_shift,
    new_shift_points,
    shift_changes,
)
from .nurse_weeks import NurseWeeks, by_nurse
from .ward import WardPlan


class _Value(NamedTuple):
    """How good assignments are: a smaller value is better."""

    broken: int
    not_kept: int
    points: int
    changes: int


class _Judge:
    """Judges assignments by the rules, by what they should keep, and by how they differ from the
    old plan."""

    def __init__(self, old: WardPlan, plan: WardPlan) -> None:
        self._plan = plan
        self._alone = NurseWeeks(plan)
        self._before = by_nurse(plan, old.works)
        self._beside = days_off_beside_absences(old)
        self._agreed = frozenset(old.state.kept)
        self._known: dict[tuple[str, tuple[Cell, ...]], _Value] = {}

    def value(self, works: Works) -> _Value:
        """The value of assignments."""
        parts = [self._place_value(works)]
        for nurse, cells in by_nurse(self._plan, works).items():
            key = nurse, tuple(sorted(cells.values(), key=lambda cell: cell.day))
            if key not in self._known:
                self._known[key] = self._nurse_value(nurse, cells)
            parts.append(self._known[key])
        return _Value(*map(sum, zip(*parts)))

    def _place_value(self, works: Works) -> _Value:
        """What the places with too few nurses add."""
        number = numbers(works.values())
        below = missing = 0
        for place, asked in self._plan.needs.items():
            below += max(0, asked.minimum - number[place])
            missing += max(0, asked.optimal - number[place])
        return _Value(below, 0, MISSING_NURSE * missing, 0)

    def _nurse_value(self, nurse: str, cells: Mapping[int, Cell]) -> _Value:
        """What the shifts of a nurse add: the hard rules that they break, what they do not keep of
        absences, of promises, of limits that hold and beside days away, what they cost, and how
        much they change."""
        faults = self._alone.faults(nurse, cells)
        working = sum(fault.kind in (Obstacle.AWAY, Obstacle.NEVER) for fault in faults)
        promised = sum(
            promise.nurse == nurse and cells.get(promise.day) != promise.cell
            for promise in self._plan.state.set_days
        )
        not_kept = (
            working
            + promised
            + self._alone.excess(nurse, cells)
            + self._alone.excess_beside(nurse, cells)
        )
        return _Value(
            len(faults) - working, not_kept, self._points(nurse, cells), self._changes(nurse, cells)
        )

    def _points(self, nurse: str, cells: Mapping[int, Cell]) -> int:
        """What the nurse is charged, also for the first days of the next period, with the points of
        her changes, as a search counts them; a nurse without shifts in the old plan may have
        any."""
        before = self._before[nurse]
        changed = (
            [day for day in {*before, *cells} if is_other_shift(before.get(day), cells.get(day))]
            if before
            else []
        )
        is_called = any(NurseDay(nurse, day) not in self._plan.away for day in changed)
        new = sum(
            new_shift_points((nurse, day), self._agreed, self._beside)
            for day in changed
            if day in cells
        )
        charged = self._alone.cost(nurse, cells) + self._alone.cost_then(nurse, cells)
        return charged + new + (CALL_POINTS if is_called else 0)

    def _changes(self, nurse: str, cells: Mapping[int, Cell]) -> int:
        """The days of the nurse with another shift or skill: of equal plans the one with fewer of
        them is better."""
        before = self._before[nurse]
        return sum(before.get(day) != cells.get(day) for day in {*before, *cells})


def without_needless_changes(
    old: WardPlan, new: WardPlan, ends: Callable[[], bool] = lambda: False
) -> WardPlan:
    """The new plan with shifts of the old one, or of fewer nurses, wherever that is worth it:
    changes of a nurse or of a day are taken back, or given to another nurse, as long as a step
    makes the plan better, each change and each nurse to call counted as a charge, and until it
    `ends`.
    """
    clock = Clock(SECONDS)
    judge = _Judge(old, new)
    works: Works = new.works
    is_better = True
    value = judge.value(works)
    while is_better:
        is_better = False
        for tried in _steps(old.works, works, list(new.scenario.nurses)):
            if ends() or not clock.left():
                return new.with_cells(works.values())
            worth = judge.value(tried)
            if worth < value:
                works = tried
                value = worth
                is_better = True
                break
    return new.with_cells(works.values())


def _steps(old: Works, works: Works, nurses: Sequence[str]) -> Iterator[Works]:
    """The assignments after each step: without some changes, or with those of a nurse given to
    another one, first to one who has to be called already."""
    changes = shift_changes(old.values(), works.values())
    yield from (_taken_back(works, group) for group in _groups(changes))
    by_nurse = together((change.nurse, change) for change in changes)
    for nurse, of_nurse in by_nurse.items():
        for other in dict.fromkeys((*by_nurse, *nurses)):
            given = _given_to(old, works, of_nurse, other) if other != nurse else None
            if given is not None:
                yield given


def _taken_back(works: Works, group: Sequence[ShiftChange]) -> dict[NurseDay, Cell]:
    """The assignments without these changes."""
    taken = dict(works)
    for change in group:
        taken.pop(change.place, None)
        if change.before:
            taken[change.place] = change.before
    return taken


def _given_to(
    old: Works, works: Works, of_nurse: Sequence[ShiftChange], other: str
) -> Works | None:
    """The assignments with a nurse's new shifts given to another one; None if there are none, or
    she worked on one of these days."""
    given = _taken_back(works, of_nurse)
    new = [change for change in of_nurse if change.now]
    if not new or any(NurseDay(other, change.day) in old for change in new):
        return None
    given.update(
        {
            NurseDay(other, change.day): change.now._replace(nurse=other)
            for change in new
            if change.now
        }
    )
    return given


def _groups(changes: Sequence[ShiftChange]) -> Iterator[list[ShiftChange]]:
    """All changes of a nurse, her days in a row, those of a day, two of a day, and each alone."""
    by_nurse = together((change.nurse, change) for change in changes)
    by_day = together((change.day, change) for change in changes)
    yield from by_nurse.values()
    for of_nurse in by_nurse.values():
        on = {change.day: change for change in of_nurse}
        yield from ([on[day] for day in days] for days in in_a_row(on))
    yield from by_day.values()
    for of_day in by_day.values():
        yield from (
            [change, other] for number, change in enumerate(of_day) for other in of_day[:number]
        )
    yield from ([change] for change in changes)
