"""Swaps of two nurses: on each day of a swap they have each other's shifts, so each place keeps its
number of nurses; and single days of a nurse that are set.

A swap is judged by the weeks of its two nurses alone: what they are charged, what they have above
limits that hold, and what is wrong beside their days away. A day that is set is judged so, and by
the places that the nurse leaves and takes.
"""

from typing import Iterator, NamedTuple, Sequence

from ..judging.obstacles import Obstacle
from ..judging.rules import numbers
from ..week.records import Cell, NurseDay, Place, exchanged
from ..week.soft_rules import MISSING_NURSE
from .nurse_weeks import Fault, NurseCells, NurseWeeks, by_nurse
from .state import Swap
from .ward import WardPlan


# A single exchange that costs more points is compared with what a search finds.
MOST_POINTS = 30
# Why a nurse cannot have a shift, whatever other shifts she and others have.
_FIRM = (Obstacle.HELD, Obstacle.AWAY, Obstacle.NEVER, Obstacle.SKILL, Obstacle.PROMISED)


class Offer(NamedTuple):
    """A swap that has no fault, and what it adds to the penalty."""

    cost: int
    swap: Swap


class Instead(NamedTuple):
    """A nurse who could do what is set for another one, what that adds to the penalty, and the swap
    that does it; without a swap it is to be set for her."""

    cost: int
    nurse: str
    swap: Swap | None = None


def swapped(cells: Sequence[Cell], swap: Swap) -> list[Cell]:
    """The shifts after the swap."""
    days = (
        (NurseDay(nurse, day), NurseDay(other, day))
        for nurse, other in swap.pairs
        for day in swap.days
    )
    return exchanged(cells, dict(days))


class Swaps:
    """The swaps in a plan, judged by its rules."""

    def __init__(self, plan: WardPlan) -> None:
        self.plan = plan
        self._cells = by_nurse(plan, plan.works)
        self._alone = NurseWeeks(plan)
        self._costs = {
            nurse: self._alone.cost(nurse, cells) for nurse, cells in self._cells.items()
        }
        self._number = numbers(plan.cells)

    def works(self, nurse: str, day: int) -> Cell | None:
        """The nurse's shift on a day, if she has one."""
        return self._cells[nurse].get(day)

    def _after(self, swap: Swap) -> Iterator[tuple[str, dict[int, Cell]]]:
        """The shifts of the two nurses after the swap."""
        for nurse, other in swap.pairs:
            kept = {day: cell for day, cell in self._cells[nurse].items() if day not in swap.days}
            gained = {
                day: cell._replace(nurse=nurse)
                for day, cell in self._cells[other].items()
                if day in swap.days
            }
            yield nurse, {**kept, **gained}

    def cost(self, swap: Swap) -> int:
        """What the swap adds to the penalty: only the two nurses' charges change."""
        return sum(
            self._alone.cost(nurse, cells) - self._costs[nurse]
            for nurse, cells in self._after(swap)
        )

    def faults(self, swap: Swap) -> list[Fault]:
        """Why the swap cannot be: promises, hard rules, limits, absences and held shifts that it
        breaks, and what it makes worse beside days away."""
        after = list(self._after(swap))
        promises = [
            fault
            for nurse, cells in after
            for fault in self._broken_promises(nurse, cells, swap.days)
        ]
        return [
            *promises,
            *(fault for nurse, cells in after for fault in self._faults(nurse, cells, swap.days)),
        ]

    def _broken_promises(
        self, nurse: str, cells: NurseCells, days: Sequence[int]
    ) -> Iterator[Fault]:
        """The promised days of the nurse, of these days, on which such shifts are other ones than
        now, and not those that were promised."""
        promised = self.plan.state.promised
        for promise in (
            promised[place] for place in (NurseDay(nurse, day) for day in days) if place in promised
        ):
            if cells.get(promise.day) not in (promise.cell, self.works(nurse, promise.day)):
                yield Fault(Obstacle.PROMISED, nurse, promise.day, promise=promise)

    def offers(self, nurse: str, day: int) -> list[Offer]:
        """All swaps by which another nurse takes this shift, the cheapest and nearest first: alone,
        or for one of her shifts."""
        offers = [
            Offer(self.cost(swap), swap)
            for swap in self._possible(nurse, day)
            if not self.faults(swap)
        ]
        return sorted(
            offers,
            key=lambda offer: (
                offer.cost,
                len(offer.swap.days),
                max(abs(other - day) for other in offer.swap.days),
            ),
        )

    # ---- one day of one nurse

    def day_faults(self, place: NurseDay, now: Cell | None) -> list[Fault]:
        """Why the nurse cannot have this shift on her day in place of her old one, or cannot be
        off."""
        nurse, day = place
        faults = list(self._faults(nurse, self._with_day(place, now), (day,)))
        for left, step in self._steps(place, now):
            minimum = self.plan.needs[left].minimum if left in self.plan.needs else 0
            if step < 0 and self._number[left] <= minimum:
                faults.append(
                    Fault(
                        Obstacle.MINIMUM, nurse, day, f"{left.shift} {left.skill}", number=minimum
                    )
                )
        return faults

    def may_vanish(self, fault: Fault, place: NurseDay) -> bool:
        """Whether other shifts than that of this nurse's day may make room, so that this is wrong
        no more."""
        if fault.kind is not Obstacle.FOLLOWS:
            return fault.kind not in _FIRM
        beside = NurseDay(fault.nurse, fault.day - (fault.day == place.day))
        fixed = {*self.plan.held, *self.plan.state.kept}
        return beside.day >= self.plan.state.begin and beside not in fixed

    def day_cost(self, place: NurseDay, now: Cell | None) -> int:
        """What that adds to the penalty: the charges of the nurse, and of the places that she
        leaves and takes."""
        changed = (
            self._alone.cost(place.nurse, self._with_day(place, now)) - self._costs[place.nurse]
        )
        for left, step in self._steps(place, now):
            missing = (
                self.plan.needs[left].optimal - self._number[left] if left in self.plan.needs else 0
            )
            changed += MISSING_NURSE * (max(0, missing - step) - max(0, missing))
        return changed

    def instead(self, place: NurseDay, now: Cell | None) -> list[Instead]:
        """Who could do it instead, the cheapest first: take the shift of a nurse who is to be off,
        or have the shift that she is to have, by a swap with one who has it, or in addition to
        those who have it."""
        if now is None:
            offers = self.offers(*place) if self.works(*place) else []
            return [Instead(offer.cost, offer.swap.other, offer.swap) for offer in offers]
        ways = [self._instead(place, now, other) for other in self._cells if other != place.nurse]
        return sorted((way for way in ways if way), key=lambda way: way.cost)

    def _instead(self, place: NurseDay, now: Cell, other: str) -> Instead | None:
        """How another nurse could have this shift instead, if she could."""
        before = self.works(other, place.day)
        swap = Swap(place.nurse, other, (place.day,))
        if before:
            same = before.shift == now.shift and not self.faults(swap)
            return Instead(self.cost(swap), other, swap) if same else None
        her = NurseDay(other, place.day)
        hers = now._replace(nurse=other)
        is_refused = her in self.plan.state.promised or self.day_faults(her, hers)
        return None if is_refused else Instead(self.day_cost(her, hers), other)

    def _with_day(self, place: NurseDay, now: Cell | None) -> dict[int, Cell]:
        """The nurse's shifts with this one on her day, or with none."""
        others = {day: cell for day, cell in self._cells[place.nurse].items() if day != place.day}
        return {**others, place.day: now} if now else others

    def _steps(self, place: NurseDay, now: Cell | None) -> Iterator[tuple[Place, int]]:
        """The place that the nurse leaves, which has a nurse less then, and the one that she takes,
        which has one more."""
        before = self.works(*place)
        if before and now and before[1:] == now[1:]:
            return
        yield from ((Place(*cell[1:]), step) for cell, step in ((before, -1), (now, 1)) if cell)

    def _possible(self, nurse: str, day: int) -> Iterator[Swap]:
        for other, cells in self._cells.items():
            if other == nurse:
                continue
            same = cells.get(day)
            if same is None or same.shift != self._cells[nurse][day].shift:
                yield Swap(nurse, other, (day,))
            if same is None:
                yield from (
                    Swap(nurse, other, (day, back))
                    for back in cells
                    if back not in self._cells[nurse] and back >= self.plan.state.begin
                )

    def _faults(self, nurse: str, cells: NurseCells, days: Sequence[int]) -> Iterator[Fault]:
        """Why the nurse cannot have these shifts, of which those on these days are new."""
        before = self._cells[nurse]
        if self._alone.excess(nurse, cells) > self._alone.excess(nurse, before):
            yield Fault(Obstacle.LIMIT, nurse, above=tuple(self._alone.above(nurse, cells)))
        if self._alone.excess_beside(nurse, cells) > self._alone.excess_beside(nurse, before):
            known = self._alone.beside(nurse, before)
            yield from (
                Fault(Obstacle.BESIDE, nurse, beside=beside)
                for beside in self._alone.beside(nurse, cells)
                if beside not in known
            )
        for fault in self._alone.faults(nurse, cells):
            if fault.day in days or (fault.kind is Obstacle.FOLLOWS and fault.day - 1 in days):
                yield fault
