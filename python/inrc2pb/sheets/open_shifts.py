"""Shifts that are left open: of a place that nobody fills the minimum number is lowered, so that a
plan without these nurses is one, and the best number charges 30 points for each of them. A best
number is never below the minimum of the spreadsheet."""

from dataclasses import replace
from typing import Counter, Iterable, Iterator, Mapping, NamedTuple, Sequence

from ..week.dates import PlanDays
from ..week.records import WEEK_DAYS, Place, WeekData
from ..week.words import plural, readable


class OpenShift(NamedTuple):
    """A shift on a day of the plan that so many nurses fewer work than the minimum number asks
    for."""

    day: int
    shift: str
    skill: str
    missing: int

    @property
    def place(self) -> Place:
        """The day, shift type and skill."""
        return Place(self.day, self.shift, self.skill)

    def text(self, days: PlanDays) -> str:
        """Who is missing, as `Late Nurse, Fri 19 Dec: 1 nurse missing`."""
        number = plural(self.missing, "nurse")
        return readable(f"{self.shift} {self.skill}, {days.text(self.day)}: {number} missing")


def lowered(data: WeekData, week: int, opened: Iterable[OpenShift], by: int = 1) -> WeekData:
    """The data of a week with minimum numbers without the open shifts; with these for -1."""
    numbers = dict(data.requirements)
    for one in opened:
        place = one.place._replace(day=one.day % WEEK_DAYS)
        if one.day // WEEK_DAYS == week and place in numbers:
            asked = numbers[place]
            least = max(0, asked.minimum - by * one.missing)
            numbers[place] = replace(asked, minimum=least)
    return replace(data, requirements=numbers)


def missing(
    weeks: Mapping[int, WeekData], there: Counter[Place], first: int = 0
) -> Iterator[OpenShift]:
    """The places that have fewer nurses than the minimum numbers of these weeks, from a day on."""
    for week, data in weeks.items():
        for place, asked in data.requirements.items():
            of_plan = place._replace(day=WEEK_DAYS * week + place.day)
            number = asked.minimum - there[of_plan]
            if number > 0 and of_plan.day >= first:
                yield OpenShift(*of_plan, number)


def number_of(opened: Sequence[OpenShift]) -> int:
    """How many nurses are missing in all."""
    return sum(one.missing for one in opened)


def open_lines(opened: Iterable[OpenShift], days: PlanDays) -> list[str]:
    """A line for each open shift, in the order of days."""
    return [one.text(days) for one in sorted(opened)]
