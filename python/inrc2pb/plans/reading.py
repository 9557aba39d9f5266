"""The plans of a ward's folder as they hold, by their periods, with what its spreadsheet says
now."""

import contextlib
import shlex
from dataclasses import replace
from typing import Iterator, Mapping, NamedTuple, Sequence

from ..sheets.gone_days import Gone, always_off, older_names_of
from ..sheets.older_names import Begin, Names
from ..sheets.ward import Ward
from ..sheets.ward_sheets import shift_times
from ..sheets.week_rows import WeekRow, unchanged_rows
from ..sheets.written_days import DayWord
from ..week.dates import PlanDays, Times
from ..week.faults import FileFault, FileFaults, Misuse
from ..week.files import read_scenario, read_week
from ..week.own_files import check_no_link
from ..week.records import WEEK_DAYS, History
from .periods import (
    KeptPlan,
    Period,
    border_of,
    end_of,
    kept_plans,
    past_plan,
    periods_of,
    state_of,
)
from .plan_files import known_record, read_state
from .sheet_words import missing_days, sheet_words
from .state import State, renamed
from .ward import BeforeAndAfter, WardPlan, continued, first_plan
from .ward_folder import WardFolder

# The verb that hangs a plan up.
PAGE = "page"


class Strangers(NamedTuple):
    """Nurses of whom some may have another name in the spreadsheet than in the last plan."""

    # Those whom the last plan does not have.
    come: tuple[str, ...] = ()
    # Those whom the spreadsheet does not have.
    gone: tuple[str, ...] = ()
    # Whether a period begins, which has no plan yet.
    begins: bool = False

    @property
    def alike(self) -> list[tuple[str, str]]:
        """Those who have come and gone with a part of their names in common."""
        return [
            (now, before)
            for now in self.come
            for before in self.gone
            if {*now.casefold().split("_")} & {*before.casefold().split("_")}
        ]


class PlanReader:
    """The plans of a folder. Verbs are about the period with this number, or about the first one
    that is not over."""

    def __init__(self, folder: WardFolder, number: int | None = None) -> None:
        self.folder = folder
        self._number = number

    @property
    def is_later(self) -> bool:
        """Whether verbs are about a period after the one that runs."""
        return self._number is not None and self._number > running(self.periods())

    def periods(self) -> list[Period]:
        """The periods of the folder."""
        check_no_link(self.folder.plans)
        return periods_of(self.folder.all_plans())

    def open_days(self) -> dict[int, PlanDays]:
        """The days of the periods that are not over, by their numbers: of those that have a plan,
        and of the next one, if the sheet plan has them."""
        periods = self.periods()
        days = {period.number: period.days for period in periods if not period.is_over}
        if periods and periods[-1].days.monday is not None:
            with contextlib.suppress(FileFault, FileFaults):
                after = periods[-1].days.next()._replace(weeks=self._usual_weeks(periods))
                if self.folder.days(self._gone()).first_of(after) is not None:
                    days[periods[-1].number + 1] = after
        return days

    def current(self, corrected: State | None = None) -> WardPlan:
        """The plan that holds, with what the spreadsheet says now. The period before it may have
        this state, which is not written yet."""
        periods = self.periods()
        number = self._number if self._number is not None else running(periods)
        return self.plan_of(number, corrected) if periods else first_plan(self._first_ward())

    def _first_ward(self) -> Ward:
        """The ward of the first period: all days of the sheet plan, if this has not the days of
        several ones."""
        weeks = self.folder.usual_weeks()
        days = self.folder.days() if weeks else None
        return self.folder.ward(
            period=_first_weeks(days, days._replace(weeks=0), weeks) if days and weeks else None
        )

    def _usual_weeks(self, periods: Sequence[Period]) -> int:
        """The weeks of a new period: those of the spreadsheet, or of the first period."""
        return self.folder.usual_weeks() or periods[0].days.weeks

    def plan_of(self, number: int, corrected: State | None = None) -> WardPlan:
        """The same of the period with this number, which has a plan, or follows one that has."""
        periods = {period.number: period for period in self.periods()}
        known = periods.get(number)
        self._check_columns()
        before = periods.get(number - 1)
        past = _end(before, corrected) if before else None
        begun = State(before.days.next(), past, period=number) if before and past else None
        state = state_of(known) if known else begun
        assert state
        state = replace(state, is_as_planned=before is not None and not before.is_over)
        weeks = self._usual_weeks(list(periods.values()))
        gone = self._gone()
        days = state.days if known else _first_weeks(self.folder.days(gone), state.days, weeks)
        of_before = (past, state_of(before).was) if before and past else (state.start, state.was)
        begin = Begin(tuple(of_before[0].nurses.values()), of_before[1]) if number else Begin()
        ward = self.folder.ward(
            state.start.scenario, state.absences, days, state.opened, begin, gone
        )
        after = periods.get(number + 1)
        border = border_of(ward, after) if after else {}
        later = sum(period.days.weeks for period in periods.values() if period.number > number)
        if before and past:
            past = renamed(past, ward.names_since(state_of(before).was))
        return continued(ward.with_border(border, later), state, past)

    def _check_columns(self) -> None:
        """Raises Misuse if a day that is not over, and is planned, has no column."""
        dates = self.folder.dates()
        for period in self.periods() if dates else ():
            days = period.days
            is_dated = days.monday is not None and not period.ended
            first = WEEK_DAYS * period.open_week if is_dated else days.total
            missing = [day for day in range(first, days.total) if days.date(day) not in dates]
            if missing:
                plan = past_plan(period)
                raise missing_days(plan, self._sheet_words(plan), missing)

    def _gone(self) -> Gone | None:
        """The days that are over, if the sheet plan has not all of them, or other ones before."""
        periods = self.periods()
        dates = self.folder.dates()
        runs = next((period for period in periods if not period.is_over), None)
        days = runs.days if runs else periods[-1].days.next() if periods else PlanDays(None, 0)
        if not dates or days.monday is None:
            return None
        over = WEEK_DAYS * runs.open_week if runs else 0
        past = {date for date in dates if date < days.date(over)}
        since = min(past, default=days.date(over))
        is_whole = since <= days.date(0) and since.weekday() == 0
        if len(past) == len(dates) or (is_whole and len(past) == (days.date(over) - since).days):
            return None
        words = self._sheet_words(past_plan(runs)) if runs and over else []
        gone = [word for word in words if word.day < over and days.date(word.day) not in dates]
        return Gone(days, over, tuple(gone))

    def _sheet_words(self, plan: WardPlan) -> list[DayWord]:
        """What the cells of a plan had, with the names of now."""
        off = always_off(self.folder.book())
        return list(sheet_words(plan.ward, self.names_since(plan.state), off))

    def before_and_after(self, corrected: State, number: int | None = None) -> BeforeAndAfter:
        """The plan that holds of a period, as it is, and if an older period has this state; None if
        there is none yet."""
        try:
            found = running(self.periods()) if number is None else number
            return self.plan_of(found), self.plan_of(found, corrected)
        except Misuse:
            return None, None

    def following(self, new: WardPlan) -> BeforeAndAfter:
        """The plan of the next period, as it is, and after this plan; None if there is none."""
        numbers = [period.number for period in self.periods()]
        number = new.state.period + 1
        return self.before_and_after(new.state, number) if number in numbers else (None, None)

    def _named(self, state: State, ward: Ward) -> State:
        """A state with the names that nurses and shift types have in a ward."""
        return state.renamed(ward.names_since(state.was))

    def undone_by_older(self) -> tuple[str, ...]:
        """The names of plans that an older version may have taken back, since it cannot read them:
        those after the last plan, if that is of such a version."""
        last = self.folder.last()
        record = known_record(last) if last else None
        if last is None or record is None or record.period is not None:
            return ()
        newer = (path for path in self.folder.undone() if path.name > last.name)
        records = ((path.name, known_record(path)) for path in newer)
        return tuple(sorted(name for name, one in records if one and one.period is not None))

    def names_since(self, state: State) -> Names:
        """The names in the spreadsheet for those of an older plan."""
        was = older_names_of(self.folder.book())
        return Names(one for one in was if one not in state.was)

    def times(self) -> Mapping[str, Times]:
        """The times that shift types have in the spreadsheet."""
        return shift_times(self.folder.book())

    def past_plans(self) -> Iterator[WardPlan]:
        """The plans of the periods that are over, the last one first."""
        for period in reversed(self.periods()):
            if period.is_over:
                yield past_plan(period, self.times())

    def planned(self) -> WardPlan:
        """The same. Raises Misuse if it has no rosters."""
        plan = self.current()
        if not plan.is_planned:
            raise Misuse(
                f"{self.folder.top} has no plan yet: type inrc2pb-plan"
                f" {shlex.quote(str(self.folder.top))} plan"
            )
        return plan

    def fitting(self) -> WardPlan:
        """The same. Raises Misuse if the spreadsheet does not have its names any more."""
        return fitted(self.planned())

    def hung_up(self, plan: WardPlan) -> WardPlan | None:
        """The last plan of the same days that was hung up before the one that holds, if the
        spreadsheet still has its names."""
        older = reversed(self.kept(plan)[:-1])
        path = next((kept.folder for kept in older if kept.record.verb == PAGE), None)
        if path is None:
            return None
        try:
            state = read_state(path)
            return continued(plan.ward.with_absences(state.absences), state)
        except (FileFault, Misuse, OSError):
            return None

    def kept(self, plan: WardPlan) -> list[KeptPlan]:
        """The plans of the period of a plan, in the order in which they were made."""
        return [
            kept for kept in kept_plans(self.folder.all_plans()) if kept.period == plan.state.period
        ]

    def anew(self, plan: WardPlan) -> tuple[WeekRow, ...]:
        """The rows of the needs that are as they were in the last period, at the begin of the next
        one."""
        periods = self.periods()
        if not periods or periods[-1].number >= plan.state.period:
            return ()
        last = periods[-1].folder
        ward = read_scenario(last / "ward.txt")
        paths = {row.week: last / f"week-{row.week}.txt" for row in plan.ward.week_rows}
        older = {
            number: read_week(path, ward).requirements
            for number, path in paths.items()
            if path.exists()
        }
        return tuple(unchanged_rows(plan.ward.week_rows, older))

    def strangers(self, plan: WardPlan) -> Strangers:
        """The nurses whom the last plan does not have, and those of the last plan whom the
        spreadsheet does not have."""
        periods = self.periods()
        if not periods:
            return Strangers()
        before = self._named(state_of(periods[-1]), plan.ward).start.nurses
        now = plan.scenario.nurses
        return Strangers(
            tuple(nurse for nurse in now if nurse not in before),
            tuple(nurse for nurse in before if nurse not in now),
            begins=not plan.is_planned,
        )


def fitted(plan: WardPlan) -> WardPlan:
    """The plan. Raises Misuse if the spreadsheet does not have its names any more."""
    if plan.unknown:
        row = plan.unknown[0]._replace(day=plan.unknown[0].day % WEEK_DAYS).row()
        names = f"the plan has '{row}', and the spreadsheet has not all of these names"
        raise Misuse(
            f"{names}: the verb plan makes a plan that fits, undo goes back to the plan before it"
        )
    return plan


def running(periods: Sequence[Period]) -> int:
    """The number of the first period that is not over."""
    after = periods[-1].number + 1 if periods else 0
    return next((period.number for period in periods if not period.is_over), after)


def _first_weeks(sheet: PlanDays, begun: PlanDays, usual: int) -> PlanDays | None:
    """The days of a period that begins on a Monday: as many weeks as usual, if the sheet has whole
    periods of these from there on, or else all that it has."""
    first = sheet.first_of(begun)
    if first is None or first >= sheet.total:
        return None
    rest = sheet.weeks - first // WEEK_DAYS
    return begun._replace(weeks=rest if rest % usual else usual)


def _end(period: Period, corrected: State | None) -> History:
    """The history at the end of a period, which may have this state."""
    is_it = corrected is not None and corrected.period == period.number
    return end_of(period._replace(ended=None), corrected) if is_it else end_of(period)
