"""A scenario, a history, a week and a roster as values. Days are numbers from 0 (Monday); `DAYS`
has their names."""

from dataclasses import dataclass
from typing import Collection, Iterable, Mapping, NamedTuple, Sequence, TypeVar

DAYS = ("Mon", "Tue", "Wed", "Thu", "Fri", "Sat", "Sun")
NONE = "None"
ANY = "Any"
WEEK_DAYS = len(DAYS)
_Key = TypeVar("_Key")
_Value = TypeVar("_Value")


class Limits(NamedTuple):
    """A minimum and a maximum."""

    minimum: int
    maximum: int


@dataclass(frozen=True)
class ShiftType:
    """A shift type, the limits of its consecutive assignments, and the ones that may not follow
    it."""

    name: str
    consecutive: Limits
    forbidden_next: tuple[str, ...]


def successions(types: Sequence[ShiftType]) -> list[set[int]]:
    """For each choice of a day, the choices that may not follow it (H3): 0 is a day off, and shift
    types count from 1."""
    numbers = {shift.name: number for number, shift in enumerate(types, 1)}
    return [set(), *({numbers[name] for name in shift.forbidden_next} for shift in types)]


@dataclass(frozen=True)
class Contract:
    """The limits of a contract; assignments and weekends are those of the whole period."""

    name: str
    assignments: Limits
    working_days: Limits
    days_off: Limits
    max_weekends: int
    complete_weekends: bool


@dataclass(frozen=True)
class Nurse:
    """A nurse, the name of her contract, and her skills."""

    name: str
    contract: str
    skills: tuple[str, ...]


@dataclass(frozen=True)
class Scenario:
    """A ward. The dictionaries have the order of the file."""

    name: str
    weeks: int
    skills: tuple[str, ...]
    shift_types: dict[str, ShiftType]
    contracts: dict[str, Contract]
    nurses: dict[str, Nurse]

    def contract_of(self, nurse: str) -> Contract:
        """The contract of the nurse with this name."""
        return self.contracts[self.nurses[nurse].contract]

    def forbids(self, before: str | None, after: str | None) -> bool:
        """Whether the second shift type may not follow the first one on the next day (H3). Days off
        (None) forbid nothing."""
        return before is not None and after in self.shift_types[before].forbidden_next


@dataclass(frozen=True)
class NurseHistory:
    """A nurse's past before the week; `last_shift` is None if she was off on the last Sunday."""

    nurse: str
    assignments: int
    weekends: int
    last_shift: str | None
    consecutive_shifts: int
    working_days: int
    days_off: int


@dataclass(frozen=True)
class History:
    """The number of the week that comes now (0 is the first), and each nurse's history in the order
    of the file."""

    week: int
    scenario: str
    nurses: dict[str, NurseHistory]


class NurseDay(NamedTuple):
    """A nurse on a day of the plan."""

    nurse: str
    day: int


class Place(NamedTuple):
    """A day, shift type and skill, for which a number of nurses is needed."""

    day: int
    shift: str
    skill: str


@dataclass(frozen=True)
class Requirement:
    """How many nurses a place needs at least, and how many are best."""

    minimum: int
    optimal: int


@dataclass(frozen=True)
class Request:
    """A nurse's request not to work on a day; `shift` is None if it is for any shift type."""

    nurse: str
    shift: str | None
    day: int


class Absence(NamedTuple):
    """A day on which a nurse may not work this shift type; None: any."""

    nurse: str
    day: int
    shift: str | None

    @property
    def nurse_day(self) -> NurseDay:
        """The nurse's day."""
        return NurseDay(self.nurse, self.day)


class KeptLimit(NamedTuple):
    """A maximum of a nurse's contract that may be exceeded at most so often in a plan. The kinds
    are those of the charges in `facts`."""

    nurse: str
    kind: str
    most: int


@dataclass(frozen=True)
class WeekData:
    """The requirements that the week's file lists, and its requests; the absences and limits that a
    file of facts has for the week."""

    name: str
    requirements: dict[Place, Requirement]
    requests: tuple[Request, ...]
    absences: frozenset[Absence] = frozenset()
    limits: frozenset[KeptLimit] = frozenset()

    def needed(self, place: Place) -> Requirement:
        """How many nurses a place needs."""
        return self.requirements.get(place, Requirement(0, 0))


class Cell(NamedTuple):
    """A nurse who has a shift with a skill on a day."""

    nurse: str
    day: int
    shift: str
    skill: str

    @property
    def nurse_day(self) -> NurseDay:
        """The nurse's day."""
        return NurseDay(self.nurse, self.day)

    def row(self) -> str:
        """The assignment as a row of a solution file."""
        return f"{self.nurse} {DAYS[self.day]} {self.shift} {self.skill}"


@dataclass(frozen=True)
class Solution:
    """A solution or fix file: its week number, the scenario's name, and its cells in order."""

    week: int
    scenario: str
    cells: tuple[Cell, ...]


@dataclass(frozen=True)
class Week:
    """The three files of a week."""

    scenario: Scenario
    history: History
    data: WeekData

    @property
    def is_last(self) -> bool:
        """Whether the week is the last of its period."""
        return self.history.week + 1 == self.scenario.weeks


# ---- days and weeks of a plan, whose days count from its first Monday

_Dated = TypeVar("_Dated", Cell, Absence)


def in_week(cells: Iterable[Cell], week: int) -> tuple[Cell, ...]:
    """The shifts of a week, with the days of the week, as files have them."""
    return tuple(
        cell._replace(day=cell.day % WEEK_DAYS) for cell in cells if cell.day // WEEK_DAYS == week
    )


def in_plan(weeks: Iterable[Iterable[_Dated]]) -> tuple[_Dated, ...]:
    """The shifts or absences of weeks, one after another from the first one on, with the days of
    the plan."""
    return tuple(
        one._replace(day=WEEK_DAYS * week + one.day)
        for week, of_week in enumerate(weeks)
        for one in of_week
    )


def exchanged(cells: Iterable[Cell], days: Mapping[NurseDay, NurseDay]) -> list[Cell]:
    """The shifts after nurses' days have got those of other nurses' days, each of which is the key
    of the other."""
    places = ((cell, days.get(cell.nurse_day, cell.nurse_day)) for cell in cells)
    return [cell._replace(nurse=place.nurse, day=place.day) for cell, place in places]


def week_name(index: int) -> str:
    """A week in words. Everybody counts weeks from 1; only the number of a history, and the names
    of files, count from 0."""
    return f"week {index + 1}"


# ---- groups


def together(pairs: Iterable[tuple[_Key, _Value]]) -> dict[_Key, list[_Value]]:
    """The values of each key, in their order."""
    values_of: dict[_Key, list[_Value]] = {}
    for key, value in pairs:
        values_of.setdefault(key, []).append(value)
    return values_of


def in_a_row(days: Collection[int]) -> list[list[int]]:
    """The days in groups of days that follow one another."""
    order = enumerate(sorted(days))
    return list(together((day - number, day) for number, day in order).values())
