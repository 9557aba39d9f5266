"""The plans of a ward's folder, with what its spreadsheet says now, and the pages that show
them."""

import contextlib
import datetime
import tempfile
from pathlib import Path
from typing import Callable, Iterator, NamedTuple, Sequence

from ..programs import clock
from ..programs.program import BROKEN_RULE, WeekFiles, penalty_of
from ..programs.progress import Progress, is_wide
from ..shown.totals import Sums
from ..sheets.ward import Ward
from ..week.dates import PlanDays, first_date
from ..week.faults import FileFault, FileFaults, Misuse, ProgramFault
from ..week.files import history_text, write_solution
from ..week.own_files import is_own_file
from ..week.records import Solution
from ..week.writing import write_text
from . import pages, tables
from .broken_days import without_broken
from .kept_shifts import published_days, sums_of_period
from .pages import Pages
from .periods import past_plan
from .plan_files import known_record, roster_name, state_texts
from .reading import PlanReader, running
from .roster_sheet import roster_sheets
from .state import Record, Swap
from .ward import WardPlan
from .ward_folder import WardFolder, plans_in
from .worked_table import worked_tables


class Means(NamedTuple):
    """How the verbs speak with their user."""

    progress: Progress
    # Says what goes before the result of a verb.
    say: Callable[[str], None]
    # How a search is ended.
    end: str = "Ctrl-C ends the search and keeps the best plan"

    def today(self) -> datetime.date:
        """The date of today."""
        return clock.today()


class PlanStore(PlanReader):
    """The same, which are written, too."""

    def __init__(self, folder: WardFolder, means: Means, number: int | None = None) -> None:
        super().__init__(folder, number)
        self.means = means

    def of_dates(self, words: Sequence[str], plans: bool) -> "PlanStore":
        """The plans of the period that has the first day of these words, if it is a date. Without
        words `plans` means the first period without a plan whose days the sheet plan has."""
        days = self.open_days()
        planned = {period.number for period in self.periods()}
        date = first_date(words)
        named = [number for number, its in days.items() if its.has(date)]
        free = [number for number in days if number not in planned and plans and not words]
        return PlanStore(self.folder, self.means, next(iter((*named, *free)), None))

    def save(self, verb: str, plan: WardPlan, typed: str = "", swap: Swap | None = None) -> Pages:
        """Writes the plan and its pages. Returns the pages."""
        self.add(verb, plan, typed, swap)
        return self.pages(plan)

    def add(
        self,
        verb: str,
        plan: WardPlan,
        typed: str = "",
        swap: Swap | None = None,
        then: Sequence[WardPlan] = (),
    ) -> None:
        """Writes the plan that this verb has made, for which these words were typed, and those of
        the next periods, without pages."""
        now = datetime.datetime.now()
        texts, *more = (
            plan_texts(one, one.state.record(verb, now, typed, swap)) for one in (plan, *then)
        )
        self.folder.add(verb.split(" ", 1)[0], texts, now, more)

    def other_pages(self) -> tuple[str, ...]:
        """The names of pages that show another plan than the one that holds, as after a run that
        was killed."""
        return pages.other_plan_pages(self.folder.top, self.folder.stamp)

    def worked_pages(self, plan: WardPlan | None) -> dict[str, str]:
        """The pages of weeks that are over, and their texts; if the sheet has a fault, so there is
        no plan, that of the roster too."""
        is_left = plan is None and is_own_file(self.folder.top / pages.ROSTER)
        links = {pages.ROSTER: "The roster as it was last written"} if is_left else {}
        return {**links, **pages.worked_pages(self.folder.top)}

    def pages(
        self, plan: WardPlan, undone: Record | None = None, corrected: WardPlan | None = None
    ) -> Pages:
        """Makes the pages of the folder those of a plan, and of the plans of other periods, with
        tables. They mark what differs from the plan that was hung up before. The plan with the
        record `undone` was taken back, and an older period has this corrected plan."""
        try:
            top = self.folder.top
            plans = [plan, *self._others(plan)]
            others = [one.days for one in (undone, corrected) if one]
            written = [*self._page_after(undone), *self._tables(plan.ward, plans, others)]
            gone: list[Path] = []
            for one in plans:
                is_first = one.state.period <= running(self.periods())
                done = pages.write_pages(
                    top,
                    one,
                    self.folder.stamp,
                    before=self._before(one.days),
                    old=self.hung_up(one),
                    earlier=self._earlier_sums(one),
                    into=top if is_first else pages.folder_of(top, one.days),
                )
                written = [*done.written, *written]
                gone += done.gone
            gone += pages.folders_taken_away(top, {path.parent for path in written})
            return Pages(tuple(written), tuple(path for path in gone if path not in written))
        except OSError as fault:
            return Pages(fault=fault)

    def _others(self, plan: WardPlan) -> Iterator[WardPlan]:
        """The plans of other periods that are not over, as far as they can be read."""
        for period in self.periods():
            if period.number != plan.state.period and not period.is_over:
                with contextlib.suppress(FileFault, FileFaults, Misuse):
                    yield self.plan_of(period.number)

    def _tables(
        self, ward: Ward, plans: Sequence[WardPlan], others: Sequence[PlanDays]
    ) -> tuple[Path, ...]:
        """Writes the tables of the years of these plans, and of other days that have changed."""
        top = self.folder.top
        changed = [*(plan.days for plan in plans), *others]
        names = tables.names_to_write(top, changed, [one.days for one in self.periods()])
        worked = worked_tables(self.folder.all_plans(), ward, names)
        found = {**worked, **roster_sheets([*plans, *self._past(names)])}
        return tables.write_tables(top, names, found)

    def _past(self, names: set[str]) -> Iterator[WardPlan]:
        """The plans of the periods that are over in the tables with these names, as far as they can
        be read."""
        for period in self.periods():
            if period.is_over and tables.sheet_name(period.days) in names:
                with contextlib.suppress(FileFault, FileFaults, Misuse):
                    yield past_plan(period, self.times())

    def _page_after(self, undone: Record | None) -> tuple[Path, ...]:
        """Writes the page of a period that is over, if the plan that was taken back was of it."""
        periods = [
            period
            for period in (self.periods() if undone else ())
            if period.is_over and undone and period.number == undone.period
        ]
        plans = (past_plan(period, self.times()) for period in periods)
        return tuple(pages.write_worked(self.folder.top, plan) for plan in plans)

    def pages_of_past(self, past: WardPlan, now: WardPlan | None) -> Pages:
        """The same for the plan that holds, if there is one, after one of weeks that are over has
        changed."""
        written = self.pages(now, corrected=past) if now else Pages()
        try:
            older = () if past.weeks else (pages.write_worked(self.folder.top, past),)
            tables_of = () if now else self._tables(past.ward, [], [past.days])
            return written._replace(written=(*older, *written.written, *tables_of))
        except OSError as fault:
            return Pages(fault=fault)

    def pages_undone(self, undone: Record | None) -> Pages:
        """Takes the pages of a plan away that was undone, which has this record, if the plan that
        holds cannot be read now."""
        top = self.folder.top
        last = self.folder.last()
        holds = known_record(last) if last else None
        names = [pages.ROSTER, pages.WALL]
        if undone and holds and (undone.days, undone.open_week) != (holds.days, holds.open_week):
            last_number = self.periods()[-1].number
            number = last_number if undone.period is None else undone.period
            days = undone.days if undone.days.weeks else holds.days
            names.append(pages.worked_name(days, number))
        before = {
            nurse: days
            for record in (undone, holds)
            if record
            for nurse, days in self._before(record.days).items()
        }
        try:
            gone = (*pages.taken_away(top, names), *pages.calendars_taken_away(top, [], before))
            return Pages(self._page_after(undone), gone)
        except OSError as fault:
            return Pages(fault=fault)

    def _earlier_sums(self, plan: WardPlan) -> dict[str, Sums]:
        """What each nurse had in the periods that are over, but for damaged folders."""
        sums: dict[str, Sums] = {}
        for period in self.periods():
            if period.number < plan.state.period:
                for nurse, of_period in sums_of_period(period, plan).items():
                    sums[nurse] = sums.get(nurse, Sums()).plus(of_period)
        return sums

    def _before(self, days: PlanDays) -> dict[str, set[int]]:
        """The days of each nurse's shifts in plans of these days that hung on the wall, also in
        those that were undone."""
        undone = (plan for made in self.folder.undone() for plan in plans_in(made))
        return published_days([*self.folder.all_plans(), *undone], days)


def plan_texts(plan: WardPlan, record: Record) -> dict[str, str]:
    """The files of a plan's folder. Its record has the bank holidays of the ward."""
    record = record._replace(holidays=tuple(sorted(plan.ward.holidays)))
    return {**plan.ward.texts, **state_texts(plan.state, record, plan.scenario, plan.histories)}


class Gap(NamedTuple):
    """What a plan costs, and what no plan costs less than."""

    points: int
    least: int


def wide_gap(plan: WardPlan) -> Gap | None:
    """The gap of a plan, if it is wide, and known."""
    if plan.state.least is None or not plan.is_planned:
        return None
    try:
        gap = Gap(sum(penalties(plan).values()), plan.state.least)
    except ProgramFault as fault:
        # A plan that the spreadsheet does not fit any more has no points.
        if fault.status != BROKEN_RULE:
            raise
        return None
    return gap if is_wide(*gap) else None


def penalties(plan: WardPlan) -> dict[int, int]:
    """The penalty of each week that is not over, by `inrc2pb extend`, but for weeks with recorded
    days that break a hard rule: of these it checks the rest."""
    legal = without_broken(plan)
    plan = legal.plan
    by_week = {}
    with tempfile.TemporaryDirectory(prefix="inrc2pb-plan-") as name:
        folder = Path(name)
        for file, text in plan.ward.texts.items():
            write_text(folder / file, text)
        for number in plan.weeks:
            history = folder / f"history-{number}.txt"
            roster = folder / roster_name(number)
            write_text(history, history_text(plan.histories[number]))
            write_solution(roster, Solution(number, plan.scenario.name, plan.state.roster(number)))
            by_week[number] = penalty_of(
                WeekFiles(folder / "ward.txt", history, folder / f"week-{number}.txt"), roster
            )
    return {number: points for number, points in by_week.items() if number not in legal.weeks}
