"""Absences: nurses who are away on a day, or never work a shift type on it.

They are facts that plans keep. For solvers that know only a week's file they are also written as
many equal requests: one that is there `MARK` times or more is an absence too, and each command
keeps it.
"""

import collections
from dataclasses import replace
from typing import Collection, Iterable, NamedTuple, Sequence

from ..week.records import DAYS, WEEK_DAYS, Absence, Cell, Request, Scenario, WeekData, together
from ..week.slots import MAX_NUMBER
from ..week.words import joined, plural, readable

# Nobody wishes a day off thirty times. A broken absence with the most requests costs more than most
# rosters. The rows of a file that absences leave are for wishes.
MARK = 30
MOST_REQUESTS = 200
ROWS = 9000


def absences_of(data: WeekData) -> frozenset[Absence]:
    """The absences of a week: those of the facts, and those that its file has as requests."""
    number = collections.Counter(map(asked_off, data.requests))
    return data.absences | frozenset(absence for absence, times in number.items() if times >= MARK)


def wishes_of(data: WeekData) -> tuple[Request, ...]:
    """The requests that are no absences, in the order of the file."""
    away = absences_of(data)
    return tuple(request for request in data.requests if asked_off(request) not in away)


def wishes_of_weeks(weeks: Iterable[tuple[int, WeekData]]) -> list[Request]:
    """The same of weeks with these numbers, with the days of the plan."""
    return [
        replace(wish, day=WEEK_DAYS * number + wish.day)
        for number, data in weeks
        for wish in wishes_of(data)
    ]


def not_granted(wishes: Iterable[Request], cells: Iterable[Cell]) -> list[Request]:
    """The wishes, each once, that a roster does not grant."""
    works = {(*cell.nurse_day, shift) for cell in cells for shift in (cell.shift, None)}
    return [wish for wish in dict.fromkeys(wishes) if asked_off(wish) in works]


def asked_off(request: Request) -> Absence:
    """What a request asks for, as an absence."""
    return Absence(request.nurse, request.day, request.shift)


def is_broken_by(absences: Collection[Absence], cell: Cell) -> bool:
    """Whether the nurse of this row is away."""
    return any(Absence(*cell.nurse_day, shift) in absences for shift in (None, cell.shift))


def working_while_away(absences: Collection[Absence], cells: Iterable[Cell]) -> list[Cell]:
    """The rows that break an absence, in their order."""
    return [cell for cell in cells if is_broken_by(absences, cell)]


def in_words(cells: Iterable[Cell], names: Sequence[str] = DAYS) -> str:
    """Who works when, as `Chen works Late on Fri and Sat, Grace works Night on Sun`. The days of
    the week have these names."""
    days = together(((cell.nurse, cell.shift), cell.day) for cell in cells)
    return ", ".join(
        f"{readable(nurse)} works {readable(shift)} on {joined(names[day] for day in sorted(on))}"
        for (nurse, shift), on in days.items()
    )


def way_out(scenario: Scenario, held: Iterable[Cell], broken: Collection[Cell]) -> str:
    """What to do if these rows break absences: the held shifts of nurses who could work them
    instead, or how to find the cause."""
    wanted = {(row.day, row.shift, row.skill) for row in broken}
    others = [row for row in held if (row.day, row.shift, row.skill) not in wanted]
    able = [
        row
        for row in others
        if any(
            row.day == day and skill in scenario.nurses[row.nurse].skills
            for day, _, skill in wanted
        )
    ]
    if not able:
        return (
            "type inrc2pb-roster check with the same files and --why-none: it says which minimum"
            " numbers to lower"
        )
    some = ", ".join(
        f"{readable(row.nurse)} {DAYS[row.day]} {readable(row.shift)}" for row in able[:6]
    )
    more = ", and more" if len(able) > 6 else ""
    return f"hold fewer shifts with --fix; these nurses have the skill: {some}{more}"


# ---- requests for other solvers


class Written(NamedTuple):
    """A week's data with absences as requests, and the requests that each of them has."""

    data: WeekData
    requests: int


class TooMany(Exception):
    """More absences than the requests of a week's file allow."""


# The cure.
NO_SKILL = "give someone who is away for the whole week no skill, in a copy of the ward"


def with_requests(scenario: Scenario, data: WeekData, added: Iterable[Absence]) -> Written:
    """The week with these absences as requests too: all of them have the same number of requests.
    Raises TooMany if a week's file cannot have so many."""
    away = sorted(
        {*absences_of(data), *added},
        key=lambda absence: (
            list(scenario.nurses).index(absence.nurse),
            absence.day,
            absence.shift or "",
        ),
    )
    wishes = [request for request in wishes_of(data) if asked_off(request) not in away]
    times = min(MOST_REQUESTS, min(ROWS, MAX_NUMBER - len(wishes)) // max(1, len(away)))
    if times < MARK:
        raise TooMany(
            f"{plural(len(away), 'absence')} with {MARK} requests each and"
            f" {plural(len(wishes), 'other request')} need more than the {MAX_NUMBER} requests of a"
            " week's file"
        )
    rows = [
        Request(absence.nurse, absence.shift, absence.day) for absence in away for _ in range(times)
    ]
    return Written(replace(data, requests=(*wishes, *rows)), times)
