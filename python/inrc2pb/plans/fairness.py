"""Nights, weekends and bank holidays: who has how many, and how evenly they are shared.

Only nurses of the same contract are compared, and only those who may work at night, on weekends or
on bank holidays.
"""

from typing import Collection, Iterable, Iterator, Mapping, NamedTuple, Sequence

from ..judging.leave import whole_contract
from ..judging.rules import SATURDAY
from ..week.records import WEEK_DAYS, Cell, together
from .ward import WardPlan


class Share(NamedTuple):
    """The nights of a nurse in some weeks, her weekends and her bank holidays with work."""

    nights: int = 0
    weekends: int = 0
    holidays: int = 0

    def plus(self, other: "Share") -> "Share":
        """Both together."""
        return Share(*(one + more for one, more in zip(self, other)))


class Spread(NamedTuple):
    """The fewest and the most nights, weekends or bank holidays that nurses of a contract have who
    may work them."""

    contract: str
    fewest: int
    most: int


class Evenness(NamedTuple):
    """How evenly nights, weekends and bank holidays are shared, for each contract that several
    nurses have who may work them."""

    nights: tuple[Spread, ...]
    weekends: tuple[Spread, ...]
    holidays: tuple[Spread, ...] = ()


def shares(plan: WardPlan) -> dict[str, Share]:
    """What each nurse has in the period, in weeks that are over and in those that are planned."""
    return shares_of(plan, plan.state.cells, plan.ward.holidays)


def shares_of(plan: WardPlan, cells: Iterable[Cell], holidays: Collection[int]) -> dict[str, Share]:
    """What each nurse of a plan has of these shifts, some of them on bank holidays."""
    rows: dict[str, dict[int, str]] = {nurse: {} for nurse in plan.scenario.nurses}
    for cell in cells:
        rows.setdefault(cell.nurse, {})[cell.day] = cell.shift
    return {
        nurse: Share(
            len([day for day, shift in row.items() if shift in plan.ward.nights]),
            len({day // WEEK_DAYS for day in row if day % WEEK_DAYS >= SATURDAY}),
            len([day for day in row if day in holidays]),
        )
        for nurse, row in rows.items()
    }


def evenness(plan: WardPlan, before: Mapping[str, Share] = {}) -> Evenness:
    """How even a plan is, with what nurses had before it."""
    by_nurse = {nurse: now.plus(before.get(nurse, Share())) for nurse, now in shares(plan).items()}
    owners = contracts_of(plan)
    holidays = {
        name: [by_nurse[nurse].holidays for nurse in nurses if may_work_holidays(plan, nurse)]
        for name, nurses in owners.items()
    }
    nights = {
        name: [by_nurse[nurse].nights for nurse in nurses if may_work_nights(plan, nurse)]
        for name, nurses in owners.items()
    }
    weekends = {
        name: [by_nurse[nurse].weekends for nurse in nurses if may_work_weekends(plan, nurse)]
        for name, nurses in owners.items()
    }
    return Evenness(_spreads(nights), _spreads(weekends), _spreads(holidays))


def _spreads(numbers: Mapping[str, Sequence[int]]) -> tuple[Spread, ...]:
    """The fewest and the most of each contract that several nurses have, unless all have none."""
    return tuple(
        Spread(name, min(some), max(some))
        for name, some in numbers.items()
        if len(some) > 1 and any(some)
    )


def contracts_of(plan: WardPlan) -> dict[str, list[str]]:
    """The nurses of each contract, also those for whom a part of it counts."""
    scenario = plan.scenario
    return together((whole_contract(scenario, nurse), nurse) for nurse in scenario.nurses)


def may_work_nights(plan: WardPlan, nurse: str) -> bool:
    """Whether a nurse could have a night shift on some day of the weeks that are not over."""
    return any(place.shift in plan.ward.nights for place in _places_of(plan, nurse))


def may_work_weekends(plan: WardPlan, nurse: str) -> bool:
    """Whether a nurse could have a shift on some weekend of them, and her contract has a weekend
    with work."""
    on_weekend = any(place.day % WEEK_DAYS >= SATURDAY for place in _places_of(plan, nurse))
    return plan.scenario.contract_of(nurse).max_weekends > 0 and on_weekend


def may_work_holidays(plan: WardPlan, nurse: str) -> bool:
    """Whether a nurse could have a shift on a bank holiday of them."""
    return any(place.day in plan.ward.holidays for place in _places_of(plan, nurse))


def _places_of(plan: WardPlan, nurse: str) -> Iterator[Cell]:
    """The shifts that a nurse could have, by her skills and absences."""
    cells = (Cell(nurse, *place) for place, needed in plan.needs.items() if needed.optimal)
    return filter(plan.may_have, cells)
