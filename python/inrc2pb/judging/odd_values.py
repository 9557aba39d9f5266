"""Warnings of values that are allowed in the files of a week, but are probably mistakes."""

import enum
from typing import Iterable, Iterator

from ..week.faults import obeyed, printable
from ..week.records import (
    DAYS,
    Contract,
    History,
    Limits,
    NurseHistory,
    Requirement,
    Scenario,
    WeekData,
    together,
)
from ..week.slots import is_utf8
from ..week.words import plural

# What helps if two values contradict one another.
_CORRECT = "correct one of the two"
# The words of a warning about a week that has no roster.
IMPOSSIBLE = "no roster can meet it"


class Reach(enum.IntEnum):
    """What plans can reach: all that is asked for, not each absence and limit, or not even the
    minimum numbers."""

    ALL = 0
    NOT_ALL = 1
    NONE = 2


class Warned(str):
    """A warning, and what plans can reach if nobody heeds it."""

    reach: Reach

    def __new__(cls, text: str, reach: Reach = Reach.ALL) -> "Warned":
        """The warning with this text."""
        warned = super().__new__(cls, text)
        warned.reach = reach
        return warned


def reach_of(warnings: Iterable[Warned]) -> Reach:
    """What plans can reach beside all of these."""
    return max((warned.reach for warned in warnings), default=Reach.ALL)


def scenario_warnings(scenario: Scenario) -> Iterator[str]:
    """Warnings of a scenario."""
    names = (*scenario.skills, *scenario.shift_types, *scenario.contracts, *scenario.nurses)
    if not all(map(is_utf8, names)):
        yield (
            "it is not saved as UTF-8, so tables and pages have wrong letters: save each file of"
            " the ward as UTF-8"
        )
    for name in filter(obeyed, filter(is_utf8, names)):
        yield (
            f"the name {printable(name)} has a sign that no table shows: remove it in each file of"
            " the ward"
        )
    for shift in scenario.shift_types.values():
        yield from _reversed_limits(f"shift type {shift.name}", shift.consecutive)
    for contract in scenario.contracts.values():
        for what, limits in (
            ("assignments", contract.assignments),
            ("working days", contract.working_days),
            ("days off", contract.days_off),
        ):
            yield from _reversed_limits(f"contract {contract.name}, {what}", limits)
        yield from _too_many_assignments(contract, scenario.weeks)
    for nurse in scenario.nurses.values():
        if not nurse.skills:
            yield f"{nurse.name} has no skill, so nobody can plan her"


def _reversed_limits(what: str, limits: Limits) -> Iterator[str]:
    if limits.minimum > limits.maximum:
        yield f"{what}: the minimum of ({limits.minimum},{limits.maximum}) is above its maximum"


def _too_many_assignments(contract: Contract, weeks: int) -> Iterator[str]:
    """A warning if the minimum of assignments does not fit the period, or not with the limits of
    days in a row."""
    days = 7 * weeks
    minimum = contract.assignments.minimum
    work = contract.working_days.maximum
    off = max(1, contract.days_off.minimum)
    rounds, rest = divmod(days, work + off)
    most = rounds * work + min(rest, work)
    if minimum > days:
        asks = f"contract {contract.name}: at least {minimum} assignments are asked for"
        yield f"{asks}, and the period has {days} days: count shifts, not hours"
    elif minimum > most:
        in_a_row = f"with at most {work} working days and at least {off} off in a row"
        yield (
            f"contract {contract.name}: at least {minimum} assignments are asked for, and"
            f" {days} days have {most} {in_a_row}"
        )


def history_warnings(history: History, scenario: Scenario | None = None) -> Iterator[str]:
    """Warnings of a history. With the scenario a nurse may have her contract's minimum of
    assignments as leave."""
    for past in history.nurses.values():
        yield from _last_days(past)
        yield from _totals(
            past,
            history.week,
            scenario.contract_of(past.nurse).assignments.minimum if scenario else 0,
        )


def _last_days(past: NurseHistory) -> Iterator[str]:
    """Warnings of days in a row that contradict one another."""
    if past.last_shift is None:
        if past.consecutive_shifts or past.working_days:
            yield (
                f"{past.nurse} was off on Sunday, but has consecutive shifts or working days:"
                f" {_CORRECT}"
            )
        return
    worked = f"{past.nurse} worked on Sunday ({past.last_shift})"
    if past.days_off:
        yield f"{worked}, but has {plural(past.days_off, 'day')} off in a row: {_CORRECT}"
    if past.consecutive_shifts == 0:
        yield f"{worked}, but has 0 days in a row on this shift type: {_CORRECT}"
    elif past.consecutive_shifts > past.working_days:
        on_shift = f"{plural(past.consecutive_shifts, 'day')} in a row on {past.last_shift}"
        yield f"{past.nurse} has {on_shift}, and only {past.working_days} with work: {_CORRECT}"


def _totals(past: NurseHistory, week: int, leave: int) -> Iterator[str]:
    """Warnings of totals that the weeks before this one and so many shifts of leave cannot have, or
    that contradict the days in a row."""
    over = f"{plural(week, 'week')} of the period {'is' if week == 1 else 'are'} over"
    if past.assignments > 7 * week + leave:
        yield (
            f"{past.nurse} has {plural(past.assignments, 'assignment')}, and {over} (leave with"
            " credit?)"
        )
    if past.weekends > week:
        yield f"{past.nurse} has {plural(past.weekends, 'weekend')}, and {over}"
    if past.assignments < min(past.working_days, 7 * week):
        yield (
            f"{past.nurse} has {plural(past.working_days, 'working day')} in a row, and"
            f" {plural(past.assignments, 'assignment')}"
        )


def week_warnings(scenario: Scenario, data: WeekData) -> Iterator[Warned]:
    """Warnings of a week's requirements."""
    have = {
        skill: sum(skill in nurse.skills for nurse in scenario.nurses.values())
        for skill in scenario.skills
    }
    odd = (
        ((f"{place.shift} {place.skill}", warned), DAYS[place.day])
        for place, required in data.requirements.items()
        for warned in [_odd_number(required, have[place.skill])]
        if warned
    )
    for (row, warned), days in together(odd).items():
        yield Warned(f"{row} on {', '.join(days)}: {warned}", warned.reach)
    yield from map(Warned, _unasked(scenario, data))


def _odd_number(required: Requirement, have: int) -> Warned | None:
    """A warning of a place for which this number of nurses has the skill."""
    if required.minimum > have:
        cure = f"lower {required.minimum} to {have}, or give more nurses the skill"
        asks = (
            f"at least {required.minimum} are needed, and {plural(have, 'nurse')} {_has(have)} the"
            " skill"
        )
        return Warned(f"{asks}: {IMPOSSIBLE}: {cure}", Reach.NONE)
    if required.optimal > have:
        return Warned(
            f"{required.optimal} are best, and {plural(have, 'nurse')} {_has(have)} the skill"
        )
    if 0 < required.optimal < required.minimum:
        return Warned(
            f"({required.minimum},{required.optimal}) has a minimum above the optimal number"
        )
    return None


def _has(count: int) -> str:
    return "has" if count == 1 else "have"


def _unasked(scenario: Scenario, data: WeekData) -> Iterator[str]:
    """Shift types for which nobody is asked, unless there is a row with zeros for each skill."""
    for shift in scenario.shift_types:
        rows = {
            place: required for place, required in data.requirements.items() if place.shift == shift
        }
        asked = any(required.minimum or required.optimal for required in rows.values())
        if not asked and len(rows) < len(scenario.skills) * len(DAYS):
            yield (
                f"nobody is asked for {shift} on any day: write a row for each skill, with 0 if"
                " nobody is needed"
            )
