"""Plans with open shifts: minimum numbers that nobody fills, if the user leaves them open, and what
is left of these in a plan that fills some of them."""

from collections import Counter
from dataclasses import replace
from typing import Iterable, Sequence

from ..judging.absences import working_while_away
from ..sheets.open_shifts import OpenShift, missing, open_lines
from ..week.records import WEEK_DAYS, Cell, Place
from .ward import WardPlan


def with_open(plan: WardPlan, opened: Iterable[OpenShift]) -> WardPlan:
    """The plan with these open shifts in place of others."""
    now = tuple(sorted(opened))
    return replace(plan, ward=plan.ward.with_open(now), state=replace(plan.state, opened=now))


def left_open(plan: WardPlan, first: int = 0) -> WardPlan:
    """The plan in which each minimum number that nobody fills is left open, from a day on; before
    it the open shifts stay."""
    older = [one for one in plan.state.opened if one.day < first]
    return with_open(plan, [*older, *_missing(plan, first)])


def worked_open(plan: WardPlan) -> WardPlan:
    """The plan in which each minimum number that nobody has filled is open on the days that are
    over, or recorded as they were worked."""
    begin = plan.state.begin
    worked = [one for one in _missing(plan, 0) if one.day < begin]
    return with_fewer_open(
        with_open(plan, [*worked, *(one for one in plan.state.opened if one.day >= begin)])
    )


def with_fewer_open(plan: WardPlan) -> WardPlan:
    """The plan without the open shifts that it fills."""
    if not plan.state.opened:
        return plan
    now = {one.place: one.missing for one in _missing(plan, 0)}
    return with_open(
        plan,
        (
            one._replace(missing=min(one.missing, now[one.place]))
            for one in plan.state.opened
            if one.place in now
        ),
    )


def open_from(plan: WardPlan, first: int) -> Sequence[OpenShift]:
    """The open shifts from a day on."""
    return [one for one in plan.state.opened if one.day >= first]


def filled(plan: WardPlan, first: int) -> WardPlan:
    """The plan whose minimum numbers are those of the spreadsheet from a day on."""
    return with_open(plan, (one for one in plan.state.opened if one.day < first))


def without_away(plan: WardPlan, first: int) -> WardPlan:
    """The plan without the shifts that nurses have while they are away, or that they never work,
    and without those that may not follow the one before, from a day on: nobody fills them."""
    away = set(working_while_away(plan.absences, plan.cells))
    last = {nurse: (plan.first - 1, past.last_shift) for nurse, past in plan.past.nurses.items()}
    kept: list[Cell] = []
    for cell in sorted(plan.cells, key=lambda cell: cell.day):
        day, shift = last[cell.nurse]
        is_broken = day == cell.day - 1 and plan.scenario.forbids(shift, cell.shift)
        if cell.day < first or not (cell in away or is_broken):
            kept.append(cell)
            last[cell.nurse] = cell.day, cell.shift
    return plan.with_cells(kept)


def new_open_lines(before: WardPlan | None, now: WardPlan) -> list[str]:
    """A line for each open shift of weeks that are not over that an older plan does not have."""
    known = before.state.opened if before else ()
    return open_lines((one for one in open_from(now, now.first) if one not in known), now.days)


def all_open_lines(plan: WardPlan, weeks: range | None = None) -> list[str]:
    """A line for each open shift of some weeks, or of those that are not over."""
    shown = plan.weeks if weeks is None else weeks
    return open_lines(
        (one for one in plan.state.opened if one.day // WEEK_DAYS in shown), plan.days
    )


def _missing(plan: WardPlan, first: int) -> Iterable[OpenShift]:
    """The minimum numbers of the spreadsheet that a plan does not fill, from a day on."""
    there = Counter(Place(*cell[1:]) for cell in plan.state.cells)
    planned = range(plan.state.planned)
    return missing({week: plan.ward.weeks[week] for week in planned}, there, first)
