"""The periods of a ward's folder. A ward is a line of days, from its first Monday on, and a period
only says from when on contracts count anew. Each plan's folder is of one period, and the last one
of a period holds: so a period that is over can be corrected while another one runs, and `undo`
takes the last folder away, of whichever period it is.

A period begins as the one before it ends. That is computed each time, and never read where the
period before it is known, so no correction of the past is lost.
"""

import itertools
from dataclasses import dataclass, replace
from pathlib import Path
from typing import Iterable, Iterator, Mapping, NamedTuple, Sequence

from ..judging.leave import Counted
from ..judging.next_history import next_history
from ..judging.odd_values import Reach
from ..sheets.open_shifts import lowered
from ..sheets.sheet_files import Book
from ..sheets.border import NextShifts
from ..sheets.ward import Ward
from ..sheets.written_days import BACK, DayWord
from ..week.dates import PlanDays, Times
from ..week.facts import read_facts, read_reasons
from ..week.files import read_history, read_scenario, read_solution, read_week
from ..week.records import WEEK_DAYS, Cell, History, NurseDay, Scenario, in_plan
from .plan_files import known_record, read_record, read_state, roster_name
from .state import Record, State
from .ward import WardPlan, plan_of


class KeptPlan(NamedTuple):
    """A plan's folder, its record, and the number of its period."""

    folder: Path
    record: Record
    period: int


class Period(NamedTuple):
    """A period: its number, the folder of its plan that holds, its days, its first week that is not
    over, and the folder by which an older version has ended it."""

    number: int
    folder: Path
    days: PlanDays
    open_week: int
    ended: Path | None = None

    @property
    def is_over(self) -> bool:
        """Whether all its weeks are over."""
        return self.ended is not None or self.open_week >= self.days.weeks


def kept_plans(folders: Iterable[Path]) -> Iterator[KeptPlan]:
    """The folders that are not damaged, with their periods. The record of an older version has no
    number, and one without weeks ends a period."""
    ended = 0
    for folder, record in ((folder, known_record(folder)) for folder in folders):
        if record:
            yield KeptPlan(folder, record, ended if record.period is None else record.period)
            ended += record.period is None and not record.days.weeks


def periods_of(folders: Sequence[Path]) -> list[Period]:
    """The periods of these folders, in their order. Raises FileFault if a folder is damaged that
    may have the plan that holds."""
    periods: dict[int, Period] = {}
    for folder, record, number in kept_plans(folders):
        if record.days.weeks:
            periods[number] = Period(number, folder, record.days, record.open_week)
        elif number in periods:
            periods[number] = periods[number]._replace(ended=folder)
    last = periods[max(periods)] if periods else None
    for folder in folders[folders.index(last.ended or last.folder) if last else 0 :]:
        read_record(folder)
    return [periods[number] for number in sorted(periods)]


def state_of(period: Period) -> State:
    """What verbs have made of a period. One that an older version has ended was worked as the
    folder says that ended it, or, if that has no rosters, its last week is known as it was
    planned."""
    state = replace(read_state(period.folder), period=period.number)
    if period.ended is None:
        return state
    weeks = period.days.weeks
    rosters = [period.ended / roster_name(week) for week in range(weeks)]
    if all(path.exists() for path in rosters):
        cells = in_plan(read_solution(path).cells for path in rosters)
        return replace(state, open_week=weeks, cells=cells)
    return replace(state, open_week=weeks, as_planned=(weeks - 1,))


def end_of(period: Period, state: State | None = None) -> History:
    """The history at the end of a period, which may have this state: of what was worked, and where
    that is not known yet, of what is planned."""
    if period.ended:
        return read_state(period.ended).start
    state = state or state_of(period)
    past = state.start
    scenario = read_scenario(period.folder / "ward.txt")
    for week in range(period.days.weeks):
        past = next_history(scenario, past, state.roster(week), new_period=True)
    return past


def border_of(ward: Ward, after: Period) -> dict[str, NextShifts]:
    """The first shifts in a period of the nurses of a ward before it. Days after the first change
    between work and days off depend on nothing before the period."""
    state = state_of(after)
    then = read_scenario(after.folder / "ward.txt")
    names = ward.names_since(state.was)
    contracts = {names.nurse(nurse): then.contract_of(nurse) for nurse in then.nurses}
    works = {cell.nurse_day: cell.shift for cell in state.renamed(names).cells}
    found: dict[str, NextShifts] = {}
    for nurse in (nurse for nurse in ward.scenario.nurses if nurse in contracts):
        shifts = [works.get(NurseDay(nurse, day), "") for day in range(after.days.total)]
        same = itertools.takewhile(lambda shift: bool(shift) == bool(shifts[0]), shifts)
        found[nurse] = NextShifts(contracts[nurse], tuple(shifts[: len(list(same)) + 1]))
    return found


# ---- the ward of a period, as its folder has it


@dataclass(frozen=True)
class PastWard(Ward):
    """The ward of a period as the folder of its plan has it, if the spreadsheet is that of a later
    one, or lacks days."""

    def with_absences(self, absences: Sequence[DayWord]) -> Ward:
        """The same with these days away."""
        words = {NurseDay(absence.nurse, absence.day): absence.word for absence in absences}
        reasons = {**self.reasons, **words}
        return replace(
            self, reasons={place: word for place, word in reasons.items() if word != BACK}
        )


def past_plan(period: Period, times: Mapping[str, Times] = {}) -> WardPlan:
    """The plan of a period as its folder has it, with the times that shift types have now, if they
    are given."""
    state = state_of(period)
    folder = period.folder
    scenario = read_scenario(folder / "ward.txt")
    weeks = range(period.days.weeks)
    words = read_reasons(folder / "reasons.txt", scenario)
    ward = PastWard(
        warnings=(),
        reach=Reach.ALL,
        days=period.days,
        scenario=scenario,
        past=state.start,
        claims=read_facts(folder / "facts.txt", scenario, period.days.weeks),
        weeks=tuple(
            lowered(read_week(folder / f"week-{week}.txt", scenario), week, state.opened, by=-1)
            for week in weeks
        ),
        held=in_plan(_cells(folder / f"fix-{week}.txt") for week in weeks),
        reasons={
            NurseDay(away.nurse, WEEK_DAYS * (away.week - 1) + away.day): word
            for away, word in words.items()
        },
        promised=frozenset(),
        counted=_counted(folder, scenario, state.start),
        times=times,
        holidays=frozenset(read_record(folder).holidays),
        week_rows=(),
        was=state.was,
        book=Book(folder, {}),
        opened=state.opened,
    )
    return plan_of(ward, state)


def _cells(path: Path) -> Sequence[Cell]:
    return read_solution(path).cells


def _counted(folder: Path, scenario: Scenario, start: History) -> Counted:
    """As what days away have counted: the history before the first week has them, and the start has
    not."""
    pairs = {
        nurse: (start.nurses[nurse], past)
        for nurse, past in read_history(folder / "history-0.txt", scenario).nurses.items()
    }
    return Counted(
        shifts={nurse: past.assignments - old.assignments for nurse, (old, past) in pairs.items()},
        weekends={nurse: past.weekends - old.weekends for nurse, (old, past) in pairs.items()},
    )
