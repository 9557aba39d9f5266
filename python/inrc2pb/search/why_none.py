"""Why no roster exists: the smallest set of minimum numbers to lower, found by a search over rows.

In a copy of the week each minimum is only the best number, and nothing else costs anything, but for
absences. So the cost of a roster is 30 points for each nurse below a minimum, and the best roster
shows the fewest that have to be lowered.
"""

import tempfile
from dataclasses import replace
from pathlib import Path
from typing import Iterator, NamedTuple, Sequence, Tuple

from ..judging.absences import absences_of, in_words, wishes_of, working_while_away
from ..week.faults import Misuse, NoneExists
from ..judging.demand import hindrance
from ..week.files import read_solution, scenario_text, week_text
from ..week.records import DAYS, Absence, Cell, Limits, Place, Requirement, Scenario, Week, WeekData
from ..week.writing import write_text
from .improving import SearchResult, improve
from ..programs.program import WeekFiles
from ..judging.rules import numbers

SECONDS = 30.0
_ANY = Limits(0, 9999)
# The words for a nurse whom nothing hinders.
CAN = "could, if nothing else needs her"


class Owner(NamedTuple):
    """A nurse with the skill of a place who does not fill it, whether she is away, and what hinders
    her in words, if something does."""

    nurse: str
    is_away: bool
    why: str


class ShortPlace(NamedTuple):
    """A place whose minimum has to be lowered to the number of nurses there; whether someone has
    its skill, and who does not fill it."""

    place: Place
    minimum: int
    there: int
    owners: Tuple[Owner, ...]
    is_known: bool


class Shortage(NamedTuple):
    """The minimum numbers to lower so that a roster exists, who works in it though she is away,
    whether it keeps absences, if there are some, and whether no roster can do with less."""

    places: Tuple[ShortPlace, ...]
    working: Tuple[Cell, ...]
    keeps_absences: bool
    is_proved: bool

    @property
    def lowered(self) -> int:
        """By how much the minimum numbers are lowered in all."""
        return sum(short.minimum - short.there for short in self.places)


def only_minimums(week: Week) -> Week:
    """The week in which only a missing nurse and a broken absence cost something."""
    contracts = {
        name: replace(
            contract,
            assignments=_ANY,
            working_days=_ANY,
            days_off=_ANY,
            max_weekends=9999,
            complete_weekends=False,
        )
        for name, contract in week.scenario.contracts.items()
    }
    types = {
        name: replace(shift, consecutive=_ANY) for name, shift in week.scenario.shift_types.items()
    }
    scenario: Scenario = replace(week.scenario, contracts=contracts, shift_types=types)
    requirements = {
        place: Requirement(0, asked.minimum) for place, asked in week.data.requirements.items()
    }
    wishes = set(wishes_of(week.data))
    requests = tuple(request for request in week.data.requests if request not in wishes)
    data: WeekData = replace(week.data, requirements=requirements, requests=requests)
    return Week(scenario, week.history, data)


def why_none(files: WeekFiles, week: Week) -> Shortage:
    """What to lower so that a roster exists."""
    with tempfile.TemporaryDirectory() as name:
        folder = Path(name)
        easy = only_minimums(week)
        scenario, data, roster = (
            folder / part for part in ("scenario.txt", "week.txt", "roster.txt")
        )
        write_text(scenario, scenario_text(easy.scenario))
        write_text(data, week_text(easy.data))
        found = _solve(replace(files, scenario=scenario, week=data, early=False), roster)
        cells = read_solution(roster).cells
    number = numbers(cells)
    away = absences_of(week.data)
    places = [
        _short(week, cells, place)
        for place, asked in week.data.requirements.items()
        if number[place] < asked.minimum
    ]
    working = tuple(working_while_away(away, cells))
    return Shortage(tuple(places), working, bool(away) and not working, found.proved)


def _solve(files: WeekFiles, roster: Path) -> SearchResult:
    """Writes a roster that lowers few numbers; if it is proved, none lowers fewer."""
    try:
        return improve(files, roster, seconds=SECONDS)
    except NoneExists as fault:
        cause = "the cause is a shift that --fix holds, so look at its file"
        raise Misuse(f"even without minimum numbers there is no roster: {cause}") from fault


def _short(week: Week, cells: Sequence[Cell], place: Place) -> ShortPlace:
    """A place that is not filled, and why nurses with its skill do not fill it in this roster."""
    away = absences_of(week.data)
    there = {cell.nurse for cell in cells if Place(cell.day, cell.shift, cell.skill) == place}
    known = [
        nurse for nurse, of_ward in week.scenario.nurses.items() if place.skill in of_ward.skills
    ]
    owners = tuple(
        Owner(
            nurse,
            Absence(nurse, place.day, None) in away,
            hindrance(week.scenario, week.history, away, cells=cells, nurse=nurse, place=place),
        )
        for nurse in known
        if nurse not in there
    )
    return ShortPlace(
        place, week.data.requirements[place].minimum, numbers(cells)[place], owners, bool(known)
    )


def shortage_lines(found: Shortage) -> Iterator[str]:
    """What to lower, line by line."""
    yield shortage_head(found)
    for short in found.places:
        yield f"{DAYS[short.place.day]} {lowered_text(short)}"
        if not short.is_known:
            yield f"    nobody has the skill {short.place.skill}"
        yield from (f"    {owner.nurse} {owner.why or CAN}" for owner in short.owners)
    yield from kept_no_absence_lines(found)


def shortage_head(found: Shortage) -> str:
    """How much is to be lowered in all, and whether less is enough."""
    kept = ", and keeps every absence" if found.keeps_absences else ""
    if not found.places:
        return f"A roster exists that meets all minimum numbers{kept}."
    if not found.is_proved:
        return (
            f"These minimum numbers, lowered by {found.lowered} in all, have a roster{kept}; fewer"
            " may be enough:"
        )
    return (
        f"No roster meets all minimum numbers{kept}. Lower these by {found.lowered} in all; no"
        " roster can do with less:"
    )


def lowered_text(short: ShortPlace) -> str:
    """What to lower at a place, without its day."""
    return f"{short.place.shift} {short.place.skill}: lower {short.minimum} to {short.there}"


def kept_no_absence_lines(found: Shortage) -> Iterator[str]:
    """Who works though she is away in the roster that lowers least, if someone does."""
    if found.working:
        yield (
            f"{in_words(found.working)}, though away: no roster keeps every absence, even without"
            " minimum numbers; look at --fix"
        )
