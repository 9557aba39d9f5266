"""What each nurse works in the weeks of a table: shifts and weekends beside her contract, shifts of
each type, and wishes."""

import collections
import datetime
from typing import Collection, Iterable, Mapping, NamedTuple, Sequence

from ..judging.absences import not_granted, wishes_of
from ..judging.rules import SATURDAY, SUNDAY
from ..week.dates import Times
from ..week.records import DAYS, Cell, Limits, Request, together
from .roster_view import RosterView, WeekView


class Wish(NamedTuple):
    """A request, the week of the table that has it, and whether it is granted."""

    week: int
    request: Request
    granted: bool


class Totals(NamedTuple):
    """A nurse's totals in a table."""

    # Her shifts and weekends in the period until now, with the limits of her contract.
    shifts: int
    contract: Limits
    weekends: int
    max_weekends: int
    # Her shifts of each type and her wishes in the weeks of the table.
    by_shift: dict[str, int]
    wishes: Sequence[Wish]
    # The shifts among them that are days away that count as work.
    away: int = 0

    @property
    def granted(self) -> int:
        """How many wishes are granted."""
        return sum(wish.granted for wish in self.wishes)

    def texts(self) -> tuple[str, str, str]:
        """The shifts, the weekends and the wishes with their limits, as `5/17-21`, `1/2` and
        `2/3`."""
        contract = f"{self.contract.minimum}-{self.contract.maximum}"
        wishes = len(self.wishes)
        return (
            f"{self.shifts}/{contract}",
            f"{self.weekends}/{self.max_weekends}",
            f"{self.granted}/{wishes}" if wishes else "-",
        )


HEADS = ("shifts", "weekends", "wishes")
LEGEND = (
    "shifts and weekends: in the period until now / the contract's limits; wishes: granted / all"
)


def wishes_by_nurse(week: WeekView, index: int) -> dict[str, list[Wish]]:
    """The wishes of a week, each once."""
    wishes = dict.fromkeys(wishes_of(week.data) if week.data else ())
    refused = not_granted(wishes, week.cells)
    return together((wish.nurse, Wish(index, wish, wish not in refused)) for wish in wishes)


def totals(view: RosterView) -> dict[str, Totals] | None:
    """The totals of each nurse, if the files of the last week are known."""
    last = view.weeks[-1]
    if not last.week:
        return None
    wishes = [wishes_by_nurse(week, index) for index, week in enumerate(view.weeks)]
    number = collections.Counter(
        (row.nurse, row.shift) for week in view.weeks for row in week.cells
    )
    days = together((row.nurse, row.day) for row in last.cells)
    by_nurse = {}
    for nurse in view.nurses:
        past = last.week.history.nurses[nurse]
        contract = last.week.scenario.contract_of(nurse)
        mine = days.get(nurse, [])
        by_nurse[nurse] = Totals(
            past.assignments + len(mine),
            contract.assignments,
            past.weekends + (SATURDAY in mine or SUNDAY in mine),
            max_weekends=contract.max_weekends,
            by_shift={shift: number[nurse, shift] for shift in view.shifts},
            wishes=[wish for of_week in wishes for wish in of_week.get(nurse, ())],
            away=view.credit.get(nurse, 0),
        )
    return by_nurse


def worked(view: RosterView) -> dict[str, list[int]]:
    """The shifts of each type of each nurse in the weeks of a table, and her weekends with work."""
    number = collections.Counter(
        (row.nurse, row.shift) for week in view.weeks for row in week.cells
    )
    weekends = {
        (index, row.nurse)
        for index, week in enumerate(view.weeks)
        for row in week.cells
        if row.day in (SATURDAY, SUNDAY)
    }
    on_weekends = collections.Counter(nurse for _, nurse in weekends)
    return {
        nurse: [*(number[nurse, shift] for shift in view.shifts), on_weekends[nurse]]
        for nurse in view.nurses
    }


class Sums(NamedTuple):
    """What a nurse has in one or more periods."""

    # Her shifts, with those as which days away count, and the hours of both, which are none if
    # times are not known.
    shifts: int = 0
    hours: datetime.timedelta = datetime.timedelta()
    nights: int = 0
    # Her weekends with work.
    weekends: int = 0
    wishes: int = 0
    # How many of her wishes are granted.
    granted: int = 0

    def plus(self, other: "Sums") -> "Sums":
        """Both together."""
        return Sums(
            shifts=self.shifts + other.shifts,
            hours=self.hours + other.hours,
            nights=self.nights + other.nights,
            weekends=self.weekends + other.weekends,
            wishes=self.wishes + other.wishes,
            granted=self.granted + other.granted,
        )

    def texts(self, has_times: bool) -> list[str]:
        """The numbers as they stand in a table, hours rounded."""
        hours = [f"{self.hours / datetime.timedelta(hours=1):.0f}"] if has_times else []
        return [
            str(self.shifts),
            *hours,
            str(self.nights),
            str(self.weekends),
            f"{self.granted}/{self.wishes}" if self.wishes else "-",
        ]


def sum_heads(has_times: bool) -> list[str]:
    """The heads of these numbers."""
    return ["shifts", *(["hours"] if has_times else []), "nights", "weekends", "wishes granted"]


def mean_length(times: Mapping[str, Times]) -> datetime.timedelta:
    """How long the shift types last on average; nothing if their times are not known."""
    lengths = [of_type.length for of_type in times.values()]
    return sum(lengths, datetime.timedelta()) / max(1, len(lengths))


def sums_of(
    nurses: Iterable[str],
    cells: Sequence[Cell],
    wishes: Iterable[Request],
    nights: Collection[str],
    times: Mapping[str, Times],
    credit: Mapping[str, int] = {},
) -> dict[str, Sums]:
    """The sums of nurses with these shifts and wishes of a period, both with its days; `nights` has
    the shift types of the night, and `credit` the shifts as which days away count, each with the
    hours of the mean of the shift types."""
    rows: dict[str, dict[int, str]] = {nurse: {} for nurse in nurses}
    for cell in cells:
        rows.setdefault(cell.nurse, {})[cell.day] = cell.shift
    asked = set(wishes)
    wished = collections.Counter(wish.nurse for wish in asked)
    refused = collections.Counter(wish.nurse for wish in not_granted(asked, cells))
    return {
        nurse: Sums(
            shifts=len(row) + credit.get(nurse, 0),
            hours=sum(
                (times[shift].length for shift in row.values() if shift in times),
                credit.get(nurse, 0) * mean_length(times),
            ),
            nights=sum(shift in nights for shift in row.values()),
            weekends=len({day // len(DAYS) for day in row if day % len(DAYS) >= SATURDAY}),
            wishes=wished[nurse],
            granted=wished[nurse] - refused[nurse],
        )
        for nurse, row in rows.items()
    }
