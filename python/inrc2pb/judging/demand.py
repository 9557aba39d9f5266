"""What can be counted before planning: nurses who are needed at once, and shifts that a week asks
for and contracts supply."""

import math
from collections import Counter
from fractions import Fraction
from typing import Collection, Iterator, Mapping, NamedTuple, Sequence

from ..week.facts import SHIFTS
from ..week.records import (
    DAYS,
    Absence,
    Cell,
    History,
    Place,
    Scenario,
    WeekData,
    in_plan,
    together,
)
from ..week.soft_rules import ASSIGNMENT_TOTAL, MISSING_NURSE
from ..week.words import joined
from .absences import absences_of
from .obstacles import Obstacle, obstacles
from .odd_values import IMPOSSIBLE, Reach, Warned

# For each week, from the week of a history on, the shifts as which each nurse's days away count.
# The history has them.
Paid = Sequence[Mapping[str, Fraction]]


class _Short(NamedTuple):
    """That places of a day need more nurses than there are, and what would help."""

    text: str
    cure: str


def demand_warnings(
    scenario: Scenario, history: History | None, data: WeekData, paid: Paid = ()
) -> Iterator[Warned]:
    """Warnings of days for which no choice of nurses fills all minimum numbers, and of more shifts
    than the contracts supply."""
    short = ((_short_day(scenario, history, data, day), name) for day, name in enumerate(DAYS))
    for warned, days in together(short).items():
        if warned:
            yield Warned(f"{joined(days)}: {warned}", warned.reach)
    asked = asked_shifts(data)
    supplied = supplied_shifts(scenario, history, paid)
    if asked[0] > supplied[1]:
        supply = (
            f"it asks for at least {asked[0]} shifts, and the contracts supply at most"
            f" {supplied[1]} a week"
        )
        yield Warned(f"{supply}: if all weeks ask for so many, each shift above costs points")


def _short_day(
    scenario: Scenario, history: History | None, data: WeekData, day: int
) -> Warned | None:
    """That no choice of nurses fills all minimum numbers of a day, with absences or without."""
    always = _shortage(scenario, history, data, day, ())
    if always:
        return Warned(f"{always.text}: {IMPOSSIBLE}: {always.cure}", Reach.NONE)
    there = _shortage(scenario, history, data, day, absences_of(data))
    if not there:
        return None
    return Warned(
        f"{there.text}: no roster that keeps every absence can meet it: {there.cure}, or"
        " shorten an absence",
        Reach.NOT_ALL,
    )


def asked_shifts(data: WeekData) -> tuple[int, int]:
    """The minimum and the best number of shifts of the week."""
    return sum(needed.minimum for needed in data.requirements.values()), sum(
        max(needed.minimum, needed.optimal) for needed in data.requirements.values()
    )


def supplied_shifts(
    scenario: Scenario, history: History | None, paid: Paid = ()
) -> tuple[int, int]:
    """The shifts that the contracts ask for at least and allow at most in the first of the weeks
    that are left, rounded outwards: the same part for each week, without the shifts of its own days
    away that count as work."""
    left = scenario.weeks - (history.week if history else 0)
    zero = Fraction(0)
    minimum = most = zero
    for name in scenario.nurses:
        limits = scenario.contract_of(name).assignments
        done = (
            history.nurses[name].assignments - sum((week.get(name, zero) for week in paid), zero)
            if history
            else zero
        )
        away = paid[0].get(name, zero) if paid else zero
        minimum += max(zero, (limits.minimum - done) / left - away)
        most += max(zero, min(max(zero, limits.maximum - done) / left, Fraction(len(DAYS))) - away)
    return math.floor(minimum), math.ceil(most)


def supply_warnings(
    scenario: Scenario, history: History, weeks: Sequence[WeekData]
) -> Iterator[Warned]:
    """A warning if the best numbers of the weeks to the end of the period ask for more shifts than
    contracts supply beside absences."""
    if history.week + len(weeks) != scenario.weeks:
        return
    supplied = _supplied_to_the_end(scenario, history, weeks)
    least, best = (sum(numbers) for numbers in zip(*map(asked_shifts, weeks)))
    if best <= supplied:
        return
    asks = (
        f"the best numbers ask for {best} shifts, the minimum numbers for {least}, and the"
        f" contracts supply at most {supplied} beside absences"
    )
    hold = {limit.nurse for data in weeks for limit in data.limits if limit.kind == SHIFTS}
    if not hold.issuperset(scenario.nurses):
        costs = (
            f"each shift above costs {ASSIGNMENT_TOTAL} points, and a nurse below a best number"
            f" {MISSING_NURSE}: lower best numbers"
        )
        yield Warned(f"{asks}: {costs}")
    elif least > supplied:
        cure = f"{least - supplied} too many to keep the limits that hold: lower minimum numbers"
        yield Warned(f"{asks}: {cure}", Reach.NOT_ALL)
    else:
        costs = f"{best - supplied} will be missing, for {MISSING_NURSE} points each"
        yield Warned(f"{asks}: {costs}: lower best numbers")


def _supplied_to_the_end(scenario: Scenario, history: History, weeks: Sequence[WeekData]) -> int:
    """The shifts that contracts allow in these weeks, on days on which nurses are not away."""
    away = in_plan(absences_of(data) for data in weeks)
    off = {absence.nurse_day for absence in away if absence.shift is None}
    days_off = Counter(nurse for nurse, _ in off)
    days = len(DAYS) * len(weeks)
    left = {
        nurse: scenario.contract_of(nurse).assignments.maximum - past.assignments
        for nurse, past in history.nurses.items()
    }
    return sum(max(0, min(left[nurse], days - days_off[nurse])) for nurse in scenario.nurses)


def can_work(
    scenario: Scenario,
    history: History | None,
    away: Collection[Absence],
    nurse: str,
    place: Place,
) -> bool:
    """Whether the nurse has the skill, is not away, and may have the shift on Monday after her last
    one."""
    last = history.nurses[nurse].last_shift if history and place.day == 0 else None
    return not obstacles(scenario, away, Cell(nurse, *place), last)


def _shortage(
    scenario: Scenario,
    history: History | None,
    data: WeekData,
    day: int,
    away: Collection[Absence],
) -> _Short | None:
    """The places of a day that need more nurses at once than could fill them, if there are any."""
    places = [
        place
        for place, asked in data.requirements.items()
        if place.day == day
        for _ in range(min(asked.minimum, len(scenario.nurses) + 1))
    ]
    could = {
        place: [
            nurse for nurse in scenario.nurses if can_work(scenario, history, away, nurse, place)
        ]
        for place in set(places)
    }
    filled: dict[str, int] = {}
    # Who has a place is never without one again, so each place asks each nurse once.
    asked = {place: iter(nurses) for place, nurses in could.items()}
    for slot, place in enumerate(places):
        free = next((nurse for nurse in asked[place] if nurse not in filled), None)
        if free:
            filled[free] = slot
            continue
        tried = _fill(slot, places, could, filled)
        if tried is not None:
            some = {places[slot], *(places[filled[nurse]] for nurse in tried)}
            short = [place for place in data.requirements if place in some]
            return _short_of(scenario, data, short, len(tried))
    return None


def _fill(
    slot: int, places: Sequence[Place], could: dict[Place, list[str]], filled: dict[str, int]
) -> list[str] | None:
    """Finds a nurse for a place by giving others another place. If there is none, returns all
    nurses who were tried."""
    came: dict[str, int] = {}
    waiting = [slot]
    for other in waiting:
        for nurse in could[places[other]]:
            if nurse in came:
                continue
            came[nurse] = other
            if nurse not in filled:
                _move(nurse, slot, came, filled)
                return None
            waiting.append(filled[nurse])
    return list(came)


def _move(nurse: str, slot: int, came: dict[str, int], filled: dict[str, int]) -> None:
    """Gives the nurse the place for which she was tried, the nurse of that place another one, and
    so on up to the slot."""
    holders = {left: who for who, left in filled.items()}
    while True:
        left = filled[nurse] = came[nurse]
        if left == slot:
            return
        nurse = holders[left]


def _short_of(scenario: Scenario, data: WeekData, short: Sequence[Place], have: int) -> _Short:
    """Places that need more nurses than there are, in words."""
    need = sum(data.requirements[place].minimum for place in short)
    skills = {place.skill for place in short}
    some = [f"{place.shift} {data.requirements[place].minimum}" for place in short]
    if len(skills) > 1:
        named = joined(f"{place.shift} {place.skill}" for place in short)
        return _Short(
            f"{named} need {need} nurses at once, and {have} could do it",
            f"lower minimum numbers by {need - have} in all",
        )
    skill = short[0].skill
    owners = sum(skill in nurse.skills for nurse in scenario.nurses.values())
    has = f"{have} have it" if owners == have else f"{have} of the {owners} who have it could do it"
    cure = f"lower minimum numbers by {need - have}, or give more nurses the skill"
    return _Short(f"{need} with {skill} needed at once ({', '.join(some)}), and {has}", cure)


def hindrance(
    scenario: Scenario,
    history: History,
    away: Collection[Absence],
    cells: Sequence[Cell],
    nurse: str,
    place: Place,
) -> str:
    """Why a nurse with the skill does not fill a place in a roster; empty if nothing hinders
    her."""
    shifts = {cell.day: cell.shift for cell in cells if cell.nurse == nurse}
    before = history.nurses[nurse].last_shift if place.day == 0 else shifts.get(place.day - 1)
    after = shifts.get(place.day + 1)
    found = obstacles(scenario, away, Cell(nurse, *place), before, after)
    if Obstacle.AWAY in found:
        return "is away"
    if Obstacle.NEVER in found:
        return f"never works {place.shift} then"
    if place.day in shifts:
        return f"works {shifts[place.day]} on this day"
    if Obstacle.FOLLOWS in found:
        return f"works {before} on the day before"
    return f"works {after} on the next day" if Obstacle.PRECEDES in found else ""
