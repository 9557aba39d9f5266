"""What folders of plans say of shifts: the sums of a period, and the days that hung on the wall."""

from dataclasses import replace
from pathlib import Path
from typing import Iterable, Sequence

from ..judging.absences import wishes_of_weeks
from ..shown.totals import Sums, sums_of
from ..week.dates import PlanDays
from ..week.faults import FileFault
from ..week.files import read_solution
from ..week.records import WEEK_DAYS, Cell
from .periods import Period, past_plan
from .plan_files import known_record, roster_name
from .ward import WardPlan


def sums_of_period(period: Period, plan: WardPlan) -> dict[str, Sums]:
    """What each nurse had in a period; names, the times of shift types, and which are nights, are
    those of another plan."""
    try:
        past = past_plan(period)
    except (FileFault, OSError):
        return {}
    names = plan.ward.names_since(past.state.was)
    wishes = [
        replace(wish, nurse=names.nurse(wish.nurse), shift=wish.shift and names.shift(wish.shift))
        for wish in wishes_of_weeks(enumerate(past.ward.weeks))
    ]
    return sums_of(
        list(map(names.nurse, past.scenario.nurses)),
        past.state.renamed(names).cells,
        wishes,
        plan.ward.nights,
        plan.ward.times,
        {names.nurse(nurse): shifts for nurse, shifts in past.ward.credit.items()},
    )


def published_days(folders: Iterable[Path], days: PlanDays) -> dict[str, set[int]]:
    """The days of each nurse's shifts in plans of these days that hung on the wall, but for damaged
    files."""
    days_of: dict[str, set[int]] = {}
    records = ((folder, known_record(folder)) for folder in folders)
    published = [
        folder
        for folder, of_plan in records
        if of_plan and of_plan.published and of_plan.days == days
    ]
    for number, path in (
        (number, folder / roster_name(number))
        for folder in published
        for number in range(days.weeks)
    ):
        for cell in known_cells(path):
            days_of.setdefault(cell.nurse, set()).add(WEEK_DAYS * number + cell.day)
    return days_of


def known_cells(path: Path) -> Sequence[Cell]:
    """The shifts of a roster, but for a damaged file."""
    try:
        return read_solution(path).cells
    except (FileFault, OSError):
        return ()
