"""Days away as a ward counts them: as what they count in the history before them, for judges,
searches and sentences alike; and contracts that count for some nurses only.

Training counts as a shift a day, and as a weekend with work. An illness counts the shift that it
takes from a plan on the wall. Other days, such as those of leave, count on Monday to Friday: as a
shift for a full contract, and in proportion to the maximum of other ones. On a weekend they count
only if nothing is on the weekdays beside it.
"""

import math
from collections import Counter
import re
from dataclasses import replace
from fractions import Fraction
from typing import Collection, Iterable, Mapping, NamedTuple

from ..week.faults import Misuse
from ..week.records import WEEK_DAYS, History, NurseDay, Scenario, together
from ..week.slots import MAX_NUMBER
from ..week.words import plural, readable
from .rules import SATURDAY

_NAME = re.compile("(.+?)(?:_([0-9]+)_of_([0-9]+)_days)?(_any_days_off)?_*")

ILL = "ill"
TRAINING = "training"


class Counted(NamedTuple):
    """As what days away count: the shifts of each nurse's day, those of each nurse in all, rounded
    up, and her weekends with training."""

    days: Mapping[NurseDay, Fraction] = {}
    shifts: Mapping[str, int] = {}
    weekends: Mapping[str, int] = {}

    def of_week(self, number: int) -> dict[str, Fraction]:
        """The shifts of each nurse's days away in a week, counted from 0."""
        sums: dict[str, Fraction] = {}
        for (nurse, day), shifts in self.days.items():
            if day // WEEK_DAYS == number:
                sums[nurse] = sums.get(nurse, Fraction(0)) + shifts
        return sums


def counted(
    scenario: Scenario,
    reasons: Mapping[NurseDay, str],
    words: Collection[str],
    lost: Mapping[NurseDay, int] = {},
) -> Counted:
    """As what the days away of a period count for these of their reasons. The contracts are those
    of the whole period, and `lost` has the shifts that illnesses have taken from plans on the wall,
    as far as that is known."""
    days = {
        place: _shifts_of(scenario, reasons, place, lost)
        for place, word in reasons.items()
        if word in words
    }
    numbers = together((nurse, number) for (nurse, _), number in days.items())
    shifts = {nurse: math.ceil(sum(of_nurse)) for nurse, of_nurse in numbers.items()}
    on_weekends = (NurseDay(nurse, day) for nurse, day in days if day % WEEK_DAYS >= SATURDAY)
    trained = {
        (nurse, day // WEEK_DAYS)
        for nurse, day in on_weekends
        if reasons[NurseDay(nurse, day)] == TRAINING
    }
    weekends = dict(Counter(nurse for nurse, _ in sorted(trained)))
    return Counted(days, shifts, weekends)


def _shifts_of(
    scenario: Scenario,
    reasons: Mapping[NurseDay, str],
    place: NurseDay,
    lost: Mapping[NurseDay, int],
) -> Fraction:
    """The shifts as which a day away counts."""
    (nurse, day) = place
    word = reasons[place]
    if word == TRAINING:
        return Fraction(1)
    if word == ILL and place in lost:
        return Fraction(lost[place])
    saturday = day - day % WEEK_DAYS + SATURDAY
    beside = (nurse, saturday - 1) in reasons or (nurse, saturday + 2) in reasons
    return Fraction(0) if day >= saturday and beside else _shifts_of_weekday(scenario, nurse)


def _shifts_of_weekday(scenario: Scenario, nurse: str) -> Fraction:
    """The shifts of a nurse for each day from Monday to Friday, if she has the most of her
    contract: one for a full contract. A contract without a maximum has its minimum."""
    minimum, maximum = scenario.contract_of(nurse).assignments
    most = minimum if maximum >= WEEK_DAYS * scenario.weeks else maximum
    return min(Fraction(1), Fraction(most, SATURDAY * scenario.weeks))


def credit_line(nurse: str, days: int, shifts: int, file: str) -> str:
    """Days away that count as work, in words."""
    return (
        f"{readable(nurse)}: {plural(days, 'day')} away {'counts' if days == 1 else 'count'} as"
        f" {plural(shifts, 'shift')} in {file}"
    )


def credited(history: History, days_away: Counted) -> History:
    """The history with the shifts and weekends as which days away count. Raises Misuse if a nurse
    gets more than a history can have."""
    nurses = dict(history.nurses)
    for nurse, shifts in days_away.shifts.items():
        past = nurses[nurse]
        total = past.assignments + shifts
        if total > MAX_NUMBER:
            raise Misuse(
                f"{nurse} would have more than {MAX_NUMBER} assignments: correct her history"
            )
        weekends = min(MAX_NUMBER, past.weekends + days_away.weekends.get(nurse, 0))
        nurses[nurse] = replace(past, assignments=total, weekends=weekends)
    return replace(history, nurses=nurses)


class PartContract(NamedTuple):
    """A contract that is a part of another one."""

    # The other one.
    whole: str
    # The days on which it counts, and those of the period; 0: it counts on all of them.
    days: int = 0
    total: int = 0
    # Whether there is no maximum of days off.
    any_days_off: bool = False

    @property
    def name(self) -> str:
        """The name of the nurse's own contract."""
        part = f"_{self.days}_of_{self.total}_days" if self.total else ""
        return f"{self.whole}{part}{'_any_days_off' if self.any_days_off else ''}"


def part_contract(name: str, contracts: Iterable[str]) -> PartContract | None:
    """What the name of a contract says, if it is a part of another one of these."""
    match = _NAME.fullmatch(name)
    if not match or match[1] == name or match[1] not in contracts:
        return None
    return PartContract(match[1], int(match[2] or 0), int(match[3] or 0), bool(match[4]))


def whole_contract(scenario: Scenario, nurse: str) -> str:
    """The contract of a nurse, or the one that it is a part of."""
    name = scenario.nurses[nurse].contract
    part = part_contract(name, scenario.contracts)
    return part.whole if part else name
