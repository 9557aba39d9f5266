"""Changes of a plan: how they are counted, what they cost in a search, and which of them a plan on
the wall does not need.

A shift that is new for its nurse costs points, and so does a nurse to call. A day off in place of a
shift is no new shift. In a search new shifts are requests in a copy of a week's file.
"""

from dataclasses import replace
from itertools import permutations
from typing import Collection, Iterable, Iterator, Mapping, NamedTuple, Sequence

from ..sheets.written_days import BACK, SHEET
from ..week.records import Cell, NurseDay, Request, Scenario, WeekData, together
from ..week.soft_rules import REQUEST
from .ward import DAYS_OFF, WardPlan

# The cost of a new shift of a nurse, in points, in addition to the charges of the rules; and on a
# day that she has agreed on. It is less than an absence.
POINTS = 20
AGREED_POINTS = 250
# The cost of a nurse with another shift or day off, in addition to the cost of her shifts, since
# she has to be called.
CALL_POINTS = 20
# The cost of a shift on a day off next to days away, in addition to the cost of the shift.
BESIDE_POINTS = 60
# How many days off before and after a day away are kept if others can be called.
NEAR = 2
# The most nurses of a shift who get other skills in all orders.
_MOST_NEW = 5
# The most seconds to take needless changes back.
SECONDS = 8.0
Works = Mapping[NurseDay, Cell]


class ShiftChange(NamedTuple):
    """A nurse's day, and her assignments on it; None if she is off."""

    nurse: str
    day: int
    before: Cell | None
    now: Cell | None

    @property
    def place(self) -> NurseDay:
        """The nurse's day."""
        return NurseDay(self.nurse, self.day)


def shift_changes(old: Iterable[Cell], new: Iterable[Cell]) -> list[ShiftChange]:
    """The nurses' days with another shift type or skill, in the order of days."""
    before, now = ({(cell.day, cell.nurse): cell for cell in cells} for cells in (old, new))
    changes = [
        ShiftChange(nurse, day, before.get((day, nurse)), now.get((day, nurse)))
        for day, nurse in sorted({*before, *now})
    ]
    return [change for change in changes if change.before != change.now]


def called(changes: Iterable[ShiftChange], away: Mapping[NurseDay, str]) -> list[str]:
    """The nurses to call: those with a change on a day on which they are not away."""
    return list(dict.fromkeys(change.nurse for change in changes if change.place not in away))


def is_other_shift(before: Cell | None, now: Cell | None) -> bool:
    """Whether a nurse's day has another shift type, or is off in only one of two rosters. Another
    skill is no other shift."""
    return (before.shift if before else None) != (now.shift if now else None)


def new_shift_points(
    place: tuple[str, int], agreed: Collection[tuple[str, int]], beside: Collection[tuple[str, int]]
) -> int:
    """What another shift of a nurse on a day costs, if it is one on which she has agreed, or a day
    off beside days away."""
    if place in agreed:
        return AGREED_POINTS
    return POINTS + BESIDE_POINTS if place in beside else POINTS


def with_few_changes(
    scenario: Scenario,
    data: WeekData,
    old: Collection[Cell],
    days: Collection[int],
    agreed: Collection[tuple[str, int]] = (),
    new: Collection[str] = (),
    beside: Collection[tuple[str, int]] = (),
) -> WeekData:
    """The week's file with requests against all shifts on these days, and on agreed days of nurses,
    but those of the old roster. A new nurse may have any shift. The days off `beside` days away
    cost more."""
    shift_on = {cell.nurse_day: cell.shift for cell in old}
    places = dict.fromkeys(
        (*((nurse, day) for nurse in scenario.nurses if nurse not in new for day in days), *agreed)
    )
    costs = {place: new_shift_points(place, agreed, beside) for place in places}
    asked = [
        (request, cost)
        for (nurse, day), cost in costs.items()
        for request in _requests(scenario, nurse, day, shift_on)
    ]
    return replace(
        data,
        requests=(
            *data.requests,
            *(request for request, cost in asked for _ in range(cost // REQUEST)),
        ),
    )


def _requests(
    scenario: Scenario, nurse: str, day: int, shift_on: dict[NurseDay, str]
) -> Iterator[Request]:
    """Who was off is asked to work nothing, who worked to work no other shift type."""
    old: str | None = shift_on.get(NurseDay(nurse, day))
    if old is None:
        yield Request(nurse, None, day)
    else:
        yield from (Request(nurse, shift, day) for shift in scenario.shift_types if shift != old)


def days_off_beside_absences(plan: WardPlan) -> frozenset[NurseDay]:
    """The nurses' days off in the weeks that are not over, at most two days from a day on which
    they are away. Days on which a nurse is back earlier are none."""
    back = {
        (absence.nurse, absence.day)
        for absence in plan.state.absences
        if absence.word in (BACK, SHEET)
    }
    away = [(nurse, day) for (nurse, day), word in plan.away.items() if word not in DAYS_OFF]
    near = {NurseDay(nurse, day + later) for nurse, day in away for later in range(-NEAR, NEAR + 1)}
    return frozenset(
        place
        for place in near
        if place not in plan.works and place not in plan.away and place not in back
    )


# ---- skills of shifts that stay


def with_old_skills(scenario: Scenario, cells: Sequence[Cell], old: Sequence[Cell]) -> list[Cell]:
    """The same shifts, each place with as many nurses, and with the skills of the old roster where
    possible."""
    before = {(cell.nurse, cell.day, cell.shift): cell.skill for cell in old}
    by_shift = together(((cell.day, cell.shift), cell) for cell in cells)
    return [
        cell for of_shift in by_shift.values() for cell in _labelled(scenario, of_shift, before)
    ]


def _labelled(
    scenario: Scenario, cells: list[Cell], before: dict[tuple[str, int, str], str]
) -> list[Cell]:
    """The nurses of a shift with other skills; as they are if their number of each skill would
    differ."""
    kept = [cell._replace(skill=before[cell[:3]]) for cell in cells if cell[:3] in before]
    others = [cell for cell in cells if cell[:3] not in before]
    left = [cell.skill for cell in cells]
    for cell in kept:
        if cell.skill not in left:
            return cells
        left.remove(cell.skill)
    if len(others) > _MOST_NEW:
        return cells
    return next((kept + new for new in _fitting(scenario, others, left)), cells)


def _fitting(scenario: Scenario, cells: list[Cell], skills: list[str]) -> Iterator[list[Cell]]:
    """These nurses with these skills, in each order in which they have them."""
    for order in permutations(skills):
        if all(skill in scenario.nurses[cell.nurse].skills for cell, skill in zip(cells, order)):
            yield [cell._replace(skill=skill) for cell, skill in zip(cells, order)]


# ---- what a new plan does not keep


class Agreement(NamedTuple):
    """A nurse's day that later plans should keep, and the shift on it, or None for a day off: that
    of a swap, or one that was set."""

    place: NurseDay
    cell: Cell | None
    is_set: bool = False


def broken_agreements(old: WardPlan, new: WardPlan) -> list[Agreement]:
    """What a new plan does not keep of the days of swaps, and of those that were set. A promise to
    a nurse who is away is told once: the older plan had kept it."""
    kept = {*new.state.agreed, *new.state.promised}
    swaps = [
        Agreement(place, old.works.get(place)) for place in old.state.agreed if place not in kept
    ]
    broken = [
        promise for promise in new.state.set_days if new.works.get(promise.place) != promise.cell
    ]
    told = [
        promise
        for promise in broken
        if promise.place not in new.away or old.works.get(promise.place) == promise.cell
    ]
    return [*swaps, *(Agreement(promise.place, promise.cell, is_set=True) for promise in told)]
