"""A plan of a ward: what its spreadsheet says now, and what verbs have made of it."""

from collections import Counter
from dataclasses import dataclass, replace
from functools import cached_property
from typing import Iterable, Mapping, Sequence

from ..judging.absences import absences_of
from ..judging.days_away import DaysAway
from ..judging.leave import ILL, credited
from ..judging.limits import with_given
from ..judging.next_history import next_history
from ..judging.obstacles import obstacles
from ..sheets.ward import Ward
from ..sheets.written_days import SHEET, DayWord
from ..shown.roster_view import RosterView, WeekView
from ..week.dates import PlanDays
from ..week.facts import Claim
from ..week.faults import Misuse
from ..week.records import (
    WEEK_DAYS,
    Absence,
    Cell,
    History,
    NurseDay,
    Place,
    Requirement,
    Scenario,
    Week,
    WeekData,
    in_a_row,
    in_plan,
    in_week,
    together,
)
from ..week.words import OFF, readable
from .fits import check_days, check_names
from .limits import limits_for_leavers, limits_of
from .state import State

# The words for a day on which a nurse never works, and for a day off that the spreadsheet promises.
ALWAYS_OFF = OFF
PROMISED = "promised"
# Days off for these words are no days away.
DAYS_OFF = (ALWAYS_OFF, PROMISED)
# The reasons to be away that are work in a row, and those before which nobody should have a night
# shift.
_TRAINING = ("training",)
_FREE = ("training", "leave", "unpaid")


@dataclass(frozen=True)
class WardPlan:
    """A ward, what verbs have made of it, and the limits that it is judged by. A plan that is made
    from it is judged by the same limits. `unknown` are the planned shifts that were left out, since
    the spreadsheet does not have their names.
    """

    ward: Ward
    state: State
    limits: tuple[Claim, ...]
    unknown: tuple[Cell, ...] = ()

    @property
    def days(self) -> PlanDays:
        """The days of all weeks."""
        return self.ward.days

    @property
    def scenario(self) -> Scenario:
        """The ward's contracts, nurses and shift types."""
        return self.ward.scenario

    @property
    def first(self) -> int:
        """The first day that is not over."""
        return self.state.first

    @property
    def weeks(self) -> range:
        """The weeks that are not over."""
        return range(self.state.open_week, self.days.weeks)

    @property
    def is_planned(self) -> bool:
        """Whether each week that is not over has a roster."""
        return self.state.planned >= self.days.weeks

    @cached_property
    def data(self) -> tuple[WeekData, ...]:
        """The needs, wishes, absences and limits of each week, with the days of the week, as judges
        of a week take them."""
        return tuple(
            with_given(self.scenario, self.ward.asked(number), self.limits, number)
            for number in range(len(self.ward.weeks))
        )

    @cached_property
    def needs(self) -> dict[Place, Requirement]:
        """How many nurses the places of the weeks that are not over need."""
        weeks = ((WEEK_DAYS * number, self.data[number].requirements) for number in self.weeks)
        return {
            place._replace(day=first + place.day): needed
            for first, of_week in weeks
            for place, needed in of_week.items()
        }

    @cached_property
    def absences(self) -> frozenset[Absence]:
        """The shifts that nurses may not have in the weeks that are not over."""
        absences = in_plan(absences_of(week) for week in self.data)
        return frozenset(absence for absence in absences if absence.day >= self.first)

    def may_have(self, cell: Cell) -> bool:
        """Whether a nurse may have this shift beside her absences, by her skills."""
        return not obstacles(self.scenario, self.absences, cell)

    @cached_property
    def away(self) -> dict[NurseDay, str]:
        """The days of the weeks that are not over on which nurses are away, and why: a word of the
        sheet plan, `promised` for days off that it promises, or `off` for days on which they are
        always off."""
        return {place: word for place, word in self._away.items() if place.day >= self.first}

    @cached_property
    def _away(self) -> dict[NurseDay, str]:
        """The same with the days of weeks that are over."""
        off = in_plan(absences_of(week) for week in self.data)
        return {
            **{
                absence.nurse_day: PROMISED
                if absence.nurse_day in self.ward.promised
                else ALWAYS_OFF
                for absence in off
                if absence.shift is None
            },
            **self.ward.reasons,
        }

    @cached_property
    def days_away(self) -> DaysAway:
        """The days away that concern the days beside them, in the weeks that are not over. Here and
        in `shifts` days count from the first one that is not over."""
        training, free = (
            frozenset(
                NurseDay(place.nurse, place.day - self.first)
                for place, word in self.away.items()
                if word in words
            )
            for words in (_TRAINING, _FREE)
        )
        return DaysAway(training, free, self.ward.nights, kept=self.ward.kept_runs)

    @cached_property
    def cells(self) -> tuple[Cell, ...]:
        """The shifts of the weeks that are not over."""
        return tuple(cell for cell in self.state.cells if cell.day >= self.first)

    @cached_property
    def works(self) -> dict[NurseDay, Cell]:
        """The shift of each nurse's day in the weeks that are not over."""
        return {cell.nurse_day: cell for cell in self.cells}

    @cached_property
    def held(self) -> dict[NurseDay, Cell]:
        """The shifts of the weeks that are not over that the sheet plan fixes."""
        return {cell.nurse_day: cell for cell in self.ward.held if cell.day >= self.first}

    @cached_property
    def shifts(self) -> dict[NurseDay, str]:
        """The shift types of the nurses' days in the weeks that are not over."""
        return {
            NurseDay(nurse, day - self.first): cell.shift
            for (nurse, day), cell in self.works.items()
        }

    @cached_property
    def histories(self) -> list[History]:
        """The history of each week, as far as rosters are known."""
        histories = [credited(self.state.start, self.ward.counted)]
        for number in range(min(self.state.planned, self.days.weeks - 1)):
            histories.append(next_history(self.scenario, histories[-1], self.state.roster(number)))
        return histories

    @property
    def past(self) -> History:
        """The history of the first week that is not over."""
        return self.histories[self.state.open_week]

    def week(self, number: int) -> Week:
        """A week's ward, history and file."""
        return Week(self.scenario, self.histories[number], self.data[number])

    def day_names(self, number: int) -> list[str]:
        """The days of a week in sentences."""
        return [self.days.text(WEEK_DAYS * number + day) for day in range(WEEK_DAYS)]

    @cached_property
    def shifts_of(self) -> Mapping[str, int]:
        """The shifts of each nurse in the period, with those as which days away count, but none of
        these days."""
        there = Counter(place.nurse for place in self.works if place not in self.away)
        return {nurse: past.assignments + there[nurse] for nurse, past in self.past.nurses.items()}

    def with_cells(self, cells: Iterable[Cell]) -> "WardPlan":
        """The same with these shifts in the weeks that are not over."""
        return self.with_state(self.state.with_open(cells))

    def with_state(self, state: State) -> "WardPlan":
        """The same ward and limits with what verbs have made now."""
        return replace(self, state=state)

    def with_absences(self, absences: Sequence[DayWord]) -> "WardPlan":
        """The same with these days away that verbs have written, judged by the limits of a plan
        with them."""
        return continued(
            self.ward.with_absences(absences), replace(self.state, absences=tuple(absences))
        )

    def view(self, shown: range | None = None) -> RosterView:
        """Some weeks, or those that are not over, to be shown."""
        weeks = []
        for number in self.weeks if shown is None else shown:
            week = self.week(number)
            weeks.append(
                WeekView(
                    number,
                    self.state.roster(number),
                    week.data,
                    week,
                    in_week(self.ward.held, number),
                    reasons=self.reasons(number),
                    named=self.days.week_text(number),
                )
            )
        ward = self.scenario
        names = (list(ward.nurses), list(ward.shift_types), list(ward.skills))
        return RosterView(ward.name, *names, weeks, credit=dict(self.ward.credit))

    def reasons(self, number: int) -> dict[tuple[str, int], str]:
        """Why nurses are away on the days of a week, also of one that is over, with the days of the
        week."""
        return {
            (nurse, day % WEEK_DAYS): word
            for (nurse, day), word in self._away.items()
            if day // WEEK_DAYS == number
        }


def plan_of(ward: Ward, state: State, unknown: tuple[Cell, ...] = ()) -> WardPlan:
    """The plan of a ward and of what verbs have made of it, judged by the limits of this state."""
    return WardPlan(ward, state, limits_of(ward, state), unknown)


def without_border(plan: WardPlan) -> WardPlan:
    """The plan, without regard to the shifts of the next period."""
    return plan_of(plan.ward.with_border({}, plan.ward.later_weeks), plan.state)


def for_leavers(plan: WardPlan, first: int) -> WardPlan:
    """The plan, judged as by a search from this day on: nurses who leave keep their shifts before
    it."""
    return replace(plan, limits=limits_for_leavers(plan.ward, plan.state, plan.limits, first))


# A plan before and after something; None if there is none.
BeforeAndAfter = tuple[WardPlan | None, WardPlan | None]


def first_plan(ward: Ward) -> WardPlan:
    """The plan of a spreadsheet before anything is planned."""
    return plan_of(ward, State(ward.days, ward.past))


def _start(ward: Ward, past: History) -> History:
    """The history before the first week. Nurses whom an older one does not have begin as the sheet
    says."""
    nurses = {nurse: past.nurses.get(nurse, row) for nurse, row in ward.past.nurses.items()}
    return replace(ward.past, nurses=nurses)


def continued(ward: Ward, state: State, past: History | None = None) -> WardPlan:
    """The plan of a folder, with what its spreadsheet says now; it begins with this history, which
    has the names of now, if the period before it is known. Raises Misuse if the spreadsheet has
    another period, or lacks a name of a week that is over; planned shifts whose names it lacks are
    left out."""
    ward = ward.with_open(state.opened)
    named = replace(state.renamed(ward.names_since(state.was)), was=tuple(ward.was))
    absences = _with_lost_shifts(ward, named)
    if absences != state.absences:
        return continued(ward.with_absences(absences), replace(named, absences=absences), past)
    check_days(ward.days, named.days)
    check_names(ward, [cell for cell in named.cells if cell.day < named.first])
    known = past.nurses if past else {}
    if any(row != named.start.nurses.get(nurse, row) for nurse, row in known.items()):
        # The period before it was corrected, so no bound of older plans holds.
        named = replace(named, least=None)
    start = _start(ward, replace(named.start, nurses={**named.start.nurses, **known}))
    _check_last_shifts(ward, start)
    unknown = tuple(cell for cell in named.cells if not ward.knows(cell))
    cells = tuple(cell for cell in named.cells if cell not in unknown)
    now = replace(named, days=ward.days, start=start, cells=cells)
    now = now.keeping(
        lambda place: place.nurse in ward.scenario.nurses
        and named.first <= place.day < ward.days.total
    )
    now = replace(
        now,
        set_days=tuple(
            promise for promise in now.set_days if promise.cell is None or ward.knows(promise.cell)
        ),
    )
    return plan_of(ward, now, unknown)


def _with_lost_shifts(ward: Ward, state: State) -> tuple[DayWord, ...]:
    """The words of verbs, and for an illness that only the spreadsheet has the shifts that it takes
    from a plan on the wall, if it takes some."""
    known = {absence[:2] for absence in state.absences}
    words = list(state.absences)
    works = {cell.nurse_day for cell in state.cells}
    ill = together(
        place
        for place, word in sorted(ward.reasons.items())
        if word == ILL and place not in known and state.published
    )
    for nurse, days in ill.items():
        for row in in_a_row(days):
            lost = [int((nurse, day) in works) for day in row]
            if any(lost):
                words += [DayWord(nurse, day, SHEET, took) for day, took in zip(row, lost)]
    return tuple(words)


def _check_last_shifts(ward: Ward, start: History) -> None:
    """The ward has the shift types with which its nurses begin."""
    for nurse, past in start.nurses.items():
        if past.last_shift and past.last_shift not in ward.scenario.shift_types:
            raise Misuse(
                f"{readable(nurse)} had {readable(past.last_shift)} on the Sunday before the plan,"
                " and the spreadsheet has no such shift type: keep its old name"
            )
