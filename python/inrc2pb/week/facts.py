"""Facts about a plan of several weeks, the file of those that plans are asked to keep, and the file
of reasons of days away beside it.

The layout of docs/formats.md has them as `HOLDS fact` or `NOT fact`. A week's number is counted
from 1.
"""

from typing import Callable, Iterable, NamedTuple, Sequence

from .records import DAYS, NONE, Place, Scenario
from .slots import MAX_WEEKS, PathLike, Slots

# The kinds of charges: days in runs of a shift type, working days in a row, and totals of
# assignments and of weekends.
SHIFT_RUNS = "SHIFT_RUNS"
WORK_DAYS = "WORK_DAYS"
SHIFTS = "SHIFTS"
WEEKENDS = "WEEKENDS"
KINDS = (SHIFT_RUNS, WORK_DAYS, SHIFTS, WEEKENDS)
HOLDS = "HOLDS"
NOT = "NOT"


class Choice(NamedTuple):
    """On this day of a week the nurse has this shift type; None: she is off."""

    week: int
    nurse: str
    day: int
    shift: str | None


class AtPlace(NamedTuple):
    """A place of a week has at most this number of nurses."""

    week: int
    place: Place
    most: int


class Charged(NamedTuple):
    """The charges of this kind, of one nurse or of all (None), are at most this number."""

    kind: str
    nurse: str | None
    most: int


class Even(NamedTuple):
    """The charges of SHIFT_RUNS of all nurses are an even number."""


Fact = Choice | AtPlace | Charged | Even


class Claim(NamedTuple):
    """That a fact holds, or that it does not."""

    fact: Fact
    holds: bool = True


def fact_text(fact: Fact) -> str:
    """A fact as its words in a file."""
    if isinstance(fact, Choice):
        return f"CHOICE {fact.week} {fact.nurse} {DAYS[fact.day]} {fact.shift or NONE}"
    if isinstance(fact, AtPlace):
        return (
            "PLACE"
            f" {fact.week} {DAYS[fact.place.day]} {fact.place.shift} {fact.place.skill} {fact.most}"
        )
    if isinstance(fact, Charged):
        return (
            "CHARGES"
            f" {fact.kind} {'ALL' if fact.nurse is None else f'NURSE {fact.nurse}'} {fact.most}"
        )
    return "EVEN"


def facts_text(name: str, claims: Sequence[Claim]) -> str:
    """The text of a file of facts of the ward with this name."""
    rows = "".join(f"{HOLDS if holds else NOT} {fact_text(fact)}\n" for fact, holds in claims)
    return f"FACTS\n{name}\n\nROWS = {len(claims)}\n{rows}"


def read_facts(
    path: PathLike, scenario: Scenario, weeks: int = MAX_WEEKS, text: str | None = None
) -> tuple[Claim, ...]:
    """Reads a file of facts about a plan of so many weeks of this ward."""
    slots = Slots(path, text)
    slots.words("FACTS")
    slots.any_word("the scenario's name")
    slots.words("ROWS", "=")
    claims: list[Claim] = []
    for _ in range(slots.number("the number of facts")):
        holds = slots.known_name("word", (HOLDS, NOT), "a row").text == HOLDS
        claims.append(Claim(read_fact(slots, scenario, weeks), holds))
    slots.end("fact")
    return tuple(claims)


def read_fact(slots: Slots, scenario: Scenario, weeks: int) -> Fact:
    """Takes the words of a fact about a plan of so many weeks."""
    return _READERS[slots.known_name("kind of fact", _READERS, "a row").text](
        slots, scenario, weeks
    )


def _choice(slots: Slots, scenario: Scenario, weeks: int) -> Choice:
    week = _week(slots, weeks)
    nurse = _nurse(slots, scenario)
    day = _day(slots)
    shift = slots.known_name("shift type", scenario.shift_types, "SHIFT_TYPES", (NONE,)).text
    return Choice(week, nurse, day, None if shift == NONE else shift)


def _place(slots: Slots, scenario: Scenario, weeks: int) -> AtPlace:
    week = _week(slots, weeks)
    day = _day(slots)
    shift = slots.known_name("shift type", scenario.shift_types, "SHIFT_TYPES").text
    skill = slots.known_name("skill", scenario.skills, "SKILLS").text
    return AtPlace(week, Place(day, shift, skill), slots.number("the most nurses of the place"))


def _charged(slots: Slots, scenario: Scenario, _weeks: int) -> Charged:
    kind = slots.known_name("kind of charges", KINDS, "a fact").text
    of_all = slots.known_name("word", ("ALL", "NURSE"), "a fact").text == "ALL"
    nurse = None if of_all else _nurse(slots, scenario)
    return Charged(kind, nurse, slots.number("the most charges"))


_READERS: dict[str, Callable[[Slots, Scenario, int], Fact]] = {
    "CHOICE": _choice,
    "PLACE": _place,
    "CHARGES": _charged,
    "EVEN": lambda slots, scenario, weeks: Even(),
}


def _week(slots: Slots, weeks: int) -> int:
    return slots.number("the week of a fact", 1, weeks)


def _nurse(slots: Slots, scenario: Scenario) -> str:
    return slots.known_name("nurse", scenario.nurses, "NURSES").text


def _day(slots: Slots) -> int:
    return DAYS.index(slots.known_name("day", DAYS, "the week").text)


def of_weeks(claims: Iterable[Claim], first: int, count: int) -> tuple[Claim, ...]:
    """The claims about `count` weeks of a period, the first of which has this number from 0, with
    weeks counted from 1 in them."""
    claims_of_weeks: list[Claim] = []
    for fact, holds in claims:
        if isinstance(fact, (Choice, AtPlace)):
            if not 1 <= fact.week - first <= count:
                continue
            fact = fact._replace(week=fact.week - first)
        claims_of_weeks.append(Claim(fact, holds))
    return tuple(claims_of_weeks)


class DayAway(NamedTuple):
    """A nurse on a day of a week; weeks are counted from 1 in their period, as in the facts."""

    week: int
    nurse: str
    day: int


# The word for each day away, such as `leave`.
Reasons = dict[DayAway, str]


def reasons_text(name: str, reasons: Reasons) -> str:
    """The text of a file of reasons of the ward with this name."""
    rows = "".join(
        f"{away.week} {away.nurse} {DAYS[away.day]} {word}\n" for away, word in reasons.items()
    )
    return f"REASONS\n{name}\n\nROWS = {len(reasons)}\n{rows}"


def read_reasons(path: PathLike, scenario: Scenario, text: str | None = None) -> Reasons:
    """Reads a file of reasons of this ward."""
    slots = Slots(path, text)
    slots.words("REASONS")
    slots.any_word("the scenario's name")
    slots.words("ROWS", "=")
    reasons: Reasons = {}
    for _ in range(slots.number("the number of reasons")):
        week = slots.number("the week of a reason", 1, MAX_WEEKS)
        nurse = slots.known_name("nurse", scenario.nurses, "NURSES").text
        token = slots.known_name("day", DAYS, "the week")
        away = DayAway(week, nurse, DAYS.index(token.text))
        if away in reasons:
            slots.fault(
                token,
                "repeated",
                f"{nurse} has two reasons on {token.text} of week {week}: remove one",
            )
        reasons[away] = slots.any_word("the reason of a day away").text
    slots.end("reason")
    return reasons
