"""Whether a spreadsheet still has the days and the names of a plan."""

from typing import Sequence

from ..sheets.ward import Ward
from ..week.dates import PlanDays
from ..week.faults import Misuse
from ..week.records import WEEK_DAYS, Cell
from ..week.words import plural, readable
from .words import PERIOD_IS_OVER, PeriodOver


def check_days(now: PlanDays, before: PlanDays) -> None:
    """The spreadsheet has the days of the plan. At the beginning of a period its number of weeks is
    free."""
    if now.monday == before.monday and before.weeks in (0, now.weeks):
        return
    begin = "" if before.monday is None else f" from {before.monday} on"
    if not before.weeks:
        raise PeriodOver(
            f"a {PERIOD_IS_OVER}: write the days of the next one{begin} into the sheet plan, with"
            " its wishes and absences"
        )
    raise Misuse(other_days_text(before))


def other_days_text(planned: PlanDays) -> str:
    """That the spreadsheet has not the days of a plan, and what to do."""
    begin = "" if planned.monday is None else f" from {planned.monday} on"
    return (
        f"the plan has {plural(planned.weeks, 'week')}{begin}, and the sheet plan has other days:"
        " write these, and those of the next period to their right"
    )


def check_names(ward: Ward, worked: Sequence[Cell]) -> None:
    """Who worked in a week that is over is in the ward."""
    for cell in worked:
        week = cell.day // WEEK_DAYS
        if cell.nurse not in ward.scenario.nurses:
            cure = (
                "write it again, with away in the plan from her last day on, or, if she has another"
                " name now, the old one into the column was of her row"
            )
            raise Misuse(
                f"{readable(cell.nurse)} worked in {ward.days.week_text(week)}, and has no row in"
                f" the sheet nurses: {cure}"
            )
        if not ward.knows(cell):
            row = cell._replace(day=cell.day % WEEK_DAYS).row()
            raise Misuse(
                f"'{row}' was worked in {ward.days.week_text(week)}, and the spreadsheet has no"
                " such shift type or skill: keep its old name"
            )
