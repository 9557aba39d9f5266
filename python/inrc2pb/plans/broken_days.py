"""Recorded days that break the order of shift types: they were worked so, and no plan can mend
that. A search and the program judge the rest of the week without the shifts that break it."""

from dataclasses import replace
from typing import NamedTuple

from ..week.facts import Choice, Claim
from ..week.records import WEEK_DAYS, Cell
from .left_open import worked_open
from .ward import WardPlan


class WithoutBroken(NamedTuple):
    """A plan without recorded shifts that break the order of shift types, and these shifts."""

    plan: WardPlan
    broken: tuple[Cell, ...] = ()

    @property
    def weeks(self) -> frozenset[int]:
        """The weeks of these shifts."""
        return frozenset(cell.day // WEEK_DAYS for cell in self.broken)


def without_broken(plan: WardPlan) -> WithoutBroken:
    """The plan without the recorded shifts that may not come before the next one, or not after the
    week before. What may follow the last of them does not change, and their places are open."""
    begin = plan.state.begin
    kept: dict[str, Cell] = {}
    broken: list[Cell] = []
    for cell in sorted(plan.cells, key=lambda cell: cell.day):
        if cell.day >= begin:
            break
        before = kept.get(cell.nurse)
        last = plan.past.nurses[cell.nurse].last_shift if cell.day == plan.first else None
        if plan.scenario.forbids(last, cell.shift):
            broken.append(cell)
            continue
        if (
            before
            and before.day == cell.day - 1
            and plan.scenario.forbids(before.shift, cell.shift)
        ):
            broken.append(before)
        kept[cell.nurse] = cell
    if not broken:
        return WithoutBroken(plan)
    claims = tuple(
        Claim(Choice(begin // WEEK_DAYS + 1, cell.nurse, begin % WEEK_DAYS, shift), holds=False)
        for cell in broken
        for shift in plan.scenario.shift_types
        if cell.day == begin - 1 and plan.scenario.forbids(cell.shift, shift)
    )
    cells = tuple(cell for cell in plan.state.cells if cell not in broken)
    legal = replace(
        plan,
        ward=replace(plan.ward, claims=(*plan.ward.claims, *claims)),
        state=replace(plan.state, cells=cells),
        limits=(*plan.limits, *claims),
    )
    return WithoutBroken(worked_open(legal), tuple(broken))
