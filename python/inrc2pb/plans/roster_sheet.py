"""The spreadsheets of the plans of a ward's folder: a sheet for each period, with shifts, colors
and sums. They say no reasons of days away, as the page for the wall."""

import io
from typing import Iterable, Iterator

from ..sheets.ods_file import cell, color_style, no_formula, sheet, write_sheets
from ..shown.roster_text import COLORS, ink_on
from ..shown.totals import Sums, sum_heads
from ..week.records import Cell, NurseDay, together
from ..week.words import readable
from .facts import sums
from .tables import sheet_name
from .ward import WardPlan

# A day on which a nurse is away, for whatever reason.
_AWAY = "away"
_HOUR = 3600


def roster_sheets(plans: Iterable[WardPlan]) -> dict[str, bytes]:
    """The files with the plans of these periods, in their order, by their names."""
    planned = (plan for plan in plans if plan.state.planned)
    files = together(
        (sheet_name(plan.days), _sheet(plan))
        for plan in sorted(planned, key=lambda plan: plan.state.period)
    )
    return {name: _file("".join(sheets)) for name, sheets in files.items()}


def _file(sheets: str) -> bytes:
    styles = "".join(
        color_style(f"c{number}", color, ink_on(color)) for number, color in enumerate(COLORS)
    )
    file = io.BytesIO()
    write_sheets(file, sheets, styles)
    return file.getvalue()


def _sheet(plan: WardPlan) -> str:
    days = plan.days
    name = f"period {plan.state.period + 1}" if days.monday is None else f"from {days.monday}"
    heads = [days.head(day) if days.monday is None else days.date(day) for day in range(days.total)]
    sums_of_plan = sums(plan)
    works = together((shift.nurse, shift) for shift in plan.state.cells)
    has_times = bool(plan.ward.times)
    rows = [
        [
            cell(no_formula(readable(nurse))),
            *_days(plan, nurse, works.get(nurse, [])),
            *map(cell, _numbers(sums_of_plan.get(nurse, Sums()), has_times)),
        ]
        for nurse in plan.scenario.nurses
    ]
    head = [cell("nurse"), *map(cell, heads), *map(cell, sum_heads(has_times))]
    return sheet(name, [head, *rows], dates=days.total if days.monday else 0)


def _days(plan: WardPlan, nurse: str, shifts: Iterable[Cell]) -> Iterator[str]:
    """The cells of a nurse's days: her shifts, with their skills if she has several."""
    works = {shift.day: shift for shift in shifts}
    types = list(plan.scenario.shift_types)
    skills = plan.scenario.nurses[nurse].skills
    for day in range(plan.days.total):
        shift = works.get(day)
        if shift is None:
            is_away = NurseDay(nurse, day) in plan.ward.reasons
            yield cell(_AWAY if is_away else "")
            continue
        skill = f" {readable(shift.skill)}" if len(skills) > 1 else ""
        color = f"c{types.index(shift.shift) % len(COLORS)}" if shift.shift in types else ""
        yield cell(no_formula(f"{readable(shift.shift)}{skill}"), color)


def _numbers(of_nurse: Sums, has_times: bool) -> list[object]:
    """The sums of a nurse, as numbers, hours with two digits after the point."""
    hours = [round(of_nurse.hours.total_seconds() / _HOUR, 2)] if has_times else []
    wishes = f"{of_nurse.granted}/{of_nurse.wishes}" if of_nurse.wishes else ""
    return [of_nurse.shifts, *hours, of_nurse.nights, of_nurse.weekends, wishes]
