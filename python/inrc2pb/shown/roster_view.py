"""A roster of one or more weeks, ready to be shown: cells with marks, charges, and lines that go
below."""

import itertools
from dataclasses import dataclass, field
from functools import cached_property
from typing import Callable, Iterable, Iterator, Mapping, NamedTuple, Sequence

from ..judging import rules
from ..judging.absences import absences_of, asked_off, is_broken_by
from ..judging.breaches import Breach, breaches
from ..judging.limits import exceeded, limits_in_words
from ..week.records import DAYS, Absence, Cell, Place, Week, WeekData, together, week_name
from ..week.soft_rules import SOFT_RULES
from ..week.words import plural

HELD = "*"
REFUSED = "!"
AWAY = "#"
MEANINGS = {
    HELD: "held",
    REFUSED: "a request to be off was not granted",
    AWAY: "on duty while away, or on a shift type that she never works",
}


class ShownCell(NamedTuple):
    """A shift with a skill in the table, and its marks."""

    shift: str
    skill: str
    marks: str


@dataclass
class WeekView:
    """One week of a table: its roster, the requests and held rows if they are known, and all files
    of the week if they are. Its number is that of the history, and `named` its name if that says
    more, as its calendar week."""

    number: int
    cells: Sequence[Cell]
    data: WeekData | None = None
    week: Week | None = None
    held: Sequence[Cell] = ()
    early: bool = False
    # Why nurses are away, as far as it is known.
    reasons: Mapping[tuple[str, int], str] = field(default_factory=dict)
    named: str = ""

    @property
    def name(self) -> str:
        """The week of the period, from 1, such as `week 1`: the history counts from 0."""
        return self.named or week_name(self.number)

    def marks(self, cell: Cell) -> str:
        """The marks of an assignment."""
        away = is_broken_by(self.absences, cell)
        wish = AWAY if away else REFUSED if is_broken_by(self._asked, cell) else ""
        return f"{HELD if cell in self._held else ''}{wish}"

    @cached_property
    def _held(self) -> frozenset[Cell]:
        return frozenset(self.held)

    @cached_property
    def absences(self) -> frozenset[Absence]:
        """The absences of the week's file."""
        return absences_of(self.data) if self.data else frozenset()

    @cached_property
    def _asked(self) -> frozenset[Absence]:
        """What the requests ask for."""
        return frozenset(map(asked_off, self.data.requests) if self.data else ())

    @cached_property
    def breaches(self) -> list[Breach]:
        """The hard rules that the roster breaks, if the week's files are known."""
        return breaches(self.week, self.cells, self.held) if self.week else []

    @cached_property
    def charges(self) -> list[rules.Charge] | None:
        """What the soft rules charge; None if the week's files are not known, or the roster breaks
        a hard rule."""
        return (
            list(rules.charges(self.week, self.cells, self.early))
            if self.week and not self.breaches
            else None
        )

    @cached_property
    def above(self) -> list[rules.Charge]:
        """What the roster has above limits that hold, if the week's files are known."""
        return (
            exceeded(self.week, self.week.data.limits, self.cells)
            if self.week and not self.breaches
            else []
        )

    def for_absence(self, charge: rules.Charge) -> int:
        """The part of a charge that is for absences: days off above the maximum in a row, while the
        nurse is away."""
        if (charge.rule, charge.what) != ("S3", "off above") or not charge.days:
            return 0
        first, last = charge.days
        away = sum(
            Absence(charge.nurse or "", day, None) in self.absences
            for day in range(first, last + 1)
        )
        return charge.weight * min(charge.times, away)

    @property
    def penalty(self) -> int | None:
        """The penalty of the roster, if it has one."""
        return None if self.charges is None else sum(charge.cost for charge in self.charges)

    @property
    def notes(self) -> list[str]:
        """Lines on held rows that are missing, and on the cost."""
        cells = set(self.cells)
        lines = [
            f"held, and not in the roster: {cell.row()}" for cell in self.held if cell not in cells
        ]
        if self.breaches:
            lines.append(f"roster breaks {self.breaches[0].rule}: it has no penalty")
        if self.charges is not None:
            places = sum(charge.cost for charge in self.charges if charge.nurse is None)
            whole = sum(charge.cost for charge in self.charges)
            away = sum(map(self.for_absence, self.charges))
            absent = f", {away} of it for absences" if away else ""
            lines.append(
                f"cost: of the nurses {whole - places}{absent}, of places not filled (S1) {places};"
                f" penalty {whole}"
            )
        return lines + [
            f"above a limit that holds: {limits_in_words([charge], self.cells)}"
            for charge in self.above
        ]

    @property
    def misfilled(self) -> list[str]:
        """A line for each day with places that have too few nurses, and then for each with too
        many."""
        return (
            [*missing_nurses(self.week, self.cells), *spare_nurses(self.week, self.cells)]
            if self.week
            else []
        )


@dataclass
class RosterView:
    """A table: nurses, shift types and skills in the order in which they are shown, its weeks, and
    warnings of its files."""

    name: str
    nurses: Sequence[str]
    shifts: Sequence[str]
    skills: Sequence[str]
    weeks: Sequence[WeekView]
    warnings: Sequence[str] = ()
    # The shifts as which days away count in the histories, as far as they are known.
    credit: Mapping[str, int] = field(default_factory=dict)

    @cached_property
    def _cells(self) -> dict[tuple[int, str, int], list[ShownCell]]:
        return together(
            ((index, *row.nurse_day), ShownCell(row.shift, row.skill, week.marks(row)))
            for index, week in enumerate(self.weeks)
            for row in week.cells
        )

    @property
    def title(self) -> str:
        """The name of the ward, the weeks, and the number of assignments."""
        return (
            f"{self.name}, {self.weeks_text}:"
            f" {plural(sum(len(week.cells) for week in self.weeks), 'assignment')}"
        )

    @property
    def weeks_text(self) -> str:
        """The numbers of the weeks, as `weeks 1 to 4`."""
        numbers = [week.number + 1 for week in self.weeks]
        if len(numbers) == 1:
            return f"week {numbers[0]}"
        if numbers == list(range(numbers[0], numbers[-1] + 1)):
            return f"weeks {numbers[0]} to {numbers[-1]}"
        return f"weeks {', '.join(map(str, numbers))}"

    def cells(self, week: int, nurse: str, day: int) -> list[ShownCell]:
        """A nurse's cells on a day; weeks are counted from 0 in the table."""
        return self._cells.get((week, nurse, day), [])

    def is_away(self, week: int, nurse: str, day: int) -> bool:
        """Whether the nurse is away on this day by the week's file."""
        return Absence(nurse, day, None) in self.weeks[week].absences

    def reason(self, week: int, nurse: str, day: int) -> str:
        """Why the nurse is away on this day, or `away`."""
        return self.weeks[week].reasons.get((nurse, day), "away")

    @property
    def has_costs(self) -> bool:
        """Whether the cost of each nurse is known."""
        return any(week.charges is not None for week in self.weeks)

    def without_costs(self) -> Iterator[str]:
        """A line for each week that has no cost, since its roster breaks a hard rule."""
        for week in (week for week in self.weeks if week.breaches):
            others = ": the sums on this page are without it" if len(self.weeks) > 1 else ""
            yield (
                f"{week.name.capitalize()} has no cost, since it breaks rule"
                f" {week.breaches[0].rule}{others}."
            )

    @cached_property
    def costs(self) -> dict[str, dict[str, int]]:
        """The cost of each nurse in all weeks, by rule."""
        paid = {nurse: dict.fromkeys(SOFT_RULES, 0) for nurse in self.nurses}
        for charge in (charge for week in self.weeks for charge in week.charges or ()):
            if charge.nurse is not None:
                paid[charge.nurse][charge.rule] += charge.cost
        return {
            nurse: {rule: cost for rule, cost in by_rule.items() if cost}
            for nurse, by_rule in paid.items()
        }

    def legend(self) -> list[str]:
        """The meaning of the marks, and notes on the whole roster."""
        marks = {mark for week in self.weeks for row in week.cells for mark in week.marks(row)}
        meanings = [f"{mark} = {MEANINGS[mark]}" for mark in sorted(marks, reverse=True)]
        return [*meanings, *self._with_week(lambda week: week.notes), *self._sum()]

    @property
    def breaks_absences(self) -> bool:
        """Whether someone works while she is away."""
        return any(AWAY in week.marks(row) for week in self.weeks for row in week.cells)

    @property
    def penalty(self) -> int | None:
        """The penalty of all weeks together, if each has one."""
        penalties = [week.penalty for week in self.weeks if week.penalty is not None]
        return sum(penalties) if len(penalties) == len(self.weeks) else None

    def _sum(self) -> Iterator[str]:
        if len(self.weeks) > 1 and self.penalty is not None:
            yield f"all {len(self.weeks)} weeks: penalty {self.penalty}"

    def misfilled(self) -> list[str]:
        """The lines of each week on places with too few or too many nurses."""
        return self._with_week(lambda week: week.misfilled)

    def _with_week(self, lines_of: Callable[[WeekView], list[str]]) -> list[str]:
        return [f"{self.prefix(week)}{line}" for week in self.weeks for line in lines_of(week)]

    def prefix(self, week: WeekView) -> str:
        """The beginning of a line on this week, if there are several."""
        return f"{week.name}: " if len(self.weeks) > 1 else ""


class Covered(NamedTuple):
    """How many nurses a place has, its minimum, and the number that is best."""

    number: int
    minimum: int
    optimal: int

    @property
    def wanted(self) -> int:
        """The number above which a nurse is too many."""
        return max(self.minimum, self.optimal)


def _covered(week: Week, number: Mapping[Place, int], place: Place) -> Covered:
    """A place with this number of nurses at each."""
    need = week.data.needed(place)
    return Covered(number[place], need.minimum, need.optimal)


def coverage(week: Week, cells: Iterable[Cell]) -> list[tuple[str, str, list[Covered]]]:
    """The shift types and skills that are needed or filled, each with its seven days."""
    number = rules.numbers(cells)
    covered = []
    for shift, skill in itertools.product(week.scenario.shift_types, week.scenario.skills):
        places = [Place(day, shift, skill) for day in range(7)]
        days = [_covered(week, number, place) for place in places]
        if any(any(day) for day in days):
            covered.append((shift, skill, days))
    return covered


def missing_nurses(week: Week, cells: Iterable[Cell]) -> Iterator[str]:
    """A line for each day on which a place has fewer nurses than it asks for."""
    number = rules.numbers(cells)
    for day, name in enumerate(DAYS):
        places = []
        for place in week.data.requirements:
            has = _covered(week, number, place)
            if place.day == day and has.number < has.wanted:
                minimum = f", at least {has.minimum}" if has.number < has.minimum else ""
                places.append(
                    f"{place.shift} {place.skill} ({has.number} of {has.wanted}{minimum})"
                )
        if places:
            yield f"missing on {name}: {', '.join(places)}"


def spare_nurses(week: Week, cells: Iterable[Cell]) -> Iterator[str]:
    """A line for each day on which a place has more nurses than are best, also one that asks for
    none. They cost nothing."""
    number = rules.numbers(cells)
    for day, name in enumerate(DAYS):
        places = []
        for shift, skill in itertools.product(week.scenario.shift_types, week.scenario.skills):
            has = _covered(week, number, Place(day, shift, skill))
            if has.number > has.wanted:
                places.append(f"{shift} {skill} ({has.number} of {has.wanted})")
        if places:
            yield f"too many on {name}: {', '.join(places)}"
