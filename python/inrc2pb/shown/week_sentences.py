"""Some weeks in sentences: the numbers of nurses, absences with their reasons, wishes and held
shifts. Equal days share a sentence."""

from typing import Callable, Collection, Iterable, Iterator, Mapping, NamedTuple, Sequence

from ..judging.absences import absences_of, wishes_of_weeks
from ..week.records import (
    DAYS,
    WEEK_DAYS,
    Cell,
    Place,
    Requirement,
    Scenario,
    WeekData,
    in_plan,
    together,
)
from ..week.words import joined

# The reason of nurses who are away without one, that of days on which they are always off, and how
# sentences on the others begin.
_AWAY = "away"
_ALWAYS = "off"
_REASONS = {
    "ill": "Ill",
    "leave": "Leave",
    "training": "Training",
    "unpaid": "Unpaid",
    _AWAY: "Away",
    "promised": "Promised days off",
}
# Days of some weeks in words.
DaysText = Callable[[Collection[int]], str]


class DescribedWeek(NamedTuple):
    """A week to be described."""

    number: int
    data: WeekData
    # Why nurses are away on its days, as far as that is known.
    reasons: Mapping[tuple[str, int], str] = {}
    # Its held shifts.
    held: Sequence[Cell] = ()
    # Its name, if it has one beside its number.
    name: str = ""


def days_of_week(days: Collection[int]) -> str:
    """Days of a week in words: `all days`, `Mon to Fri`, `Sat and Sun`."""
    ordered = sorted(days)
    if len(ordered) == WEEK_DAYS:
        return "all days"
    if len(ordered) > 2 and ordered[-1] - ordered[0] == len(ordered) - 1:
        return f"{DAYS[ordered[0]]} to {DAYS[ordered[-1]]}"
    return joined(DAYS[day] for day in ordered)


def weeks_sentences(
    scenario: Scenario, weeks: Sequence[DescribedWeek], days_text: DaysText = days_of_week
) -> Iterator[str]:
    """Weeks in sentences. Their days count from the Monday of the first one, and have these
    texts."""
    yield from _needs_sentences(weeks)
    order = {nurse: number for number, nurse in enumerate(scenario.nurses)}
    absences = (
        (index, absence) for index, week in enumerate(weeks) for absence in absences_of(week.data)
    )
    away = [
        (absence.nurse, WEEK_DAYS * index + absence.day, absence.shift)
        for index, absence in absences
    ]
    away.sort(key=lambda absence: (order[absence[0]], absence[1]))
    for shift in scenario.shift_types:
        never = ((nurse, day) for nurse, day, what in away if what == shift)
        yield from _sentence(
            f"Never {shift}",
            never,
            lambda days: "" if len(days) == WEEK_DAYS * len(weeks) else days_text(days),
        )
    whole = together(
        (_reason(weeks, nurse, day), (nurse, day)) for nurse, day, shift in away if shift is None
    )
    yield from _sentence(
        "Always off",
        whole.get(_ALWAYS, ()),
        lambda days: days_of_week({day % WEEK_DAYS for day in days}),
    )
    for reason, label in _REASONS.items():
        yield from _sentence(label, whole.get(reason, ()), days_text)
    yield from _wishes_sentences(scenario, weeks, days_text)
    yield from held_sentences(in_plan(week.held for week in weeks), days_text)


def held_sentences(held: Iterable[Cell], days_text: DaysText = days_of_week) -> Iterator[str]:
    """Held shifts."""
    yield from _sentence(
        "For certain",
        ((f"{cell.nurse} {cell.shift} {cell.skill}", cell.day) for cell in held),
        days_text,
    )


def _sentence(label: str, pairs: Iterable[tuple[str, int]], days_text: DaysText) -> Iterator[str]:
    """A sentence on who has what on which days, if anybody has; those with the same days are
    joined."""
    alike = together((days_text(days), name) for name, days in together(pairs).items())
    words = (f"{joined(names)}{f' on {days}' if days else ''}" for days, names in alike.items())
    if alike:
        yield f"{label}: {'; '.join(words)}."


def _reason(weeks: Sequence[DescribedWeek], nurse: str, day: int) -> str:
    return weeks[day // WEEK_DAYS].reasons.get((nurse, day % WEEK_DAYS), _AWAY)


def _wishes_sentences(
    scenario: Scenario, weeks: Sequence[DescribedWeek], days_text: DaysText
) -> Iterator[str]:
    """Wishes, and how many equal requests of a file they are."""
    wishes = wishes_of_weeks((index, week.data) for index, week in enumerate(weeks))
    order = {nurse: number for number, nurse in enumerate(scenario.nurses)}
    by_shift = together((wish.shift, (wish.nurse, wish.day)) for wish in wishes)

    def days_and_requests(days: Collection[int]) -> str:
        times = f" ({len(days)} requests)" if len(days) > len(set(days)) else ""
        return f"{days_text(set(days))}{times}"

    for shift in (None, *scenario.shift_types):
        pairs = sorted(by_shift.get(shift, ()), key=lambda pair: order[pair[0]])
        yield from _sentence(
            f"Would rather {'be off' if shift is None else f'not work {shift}'}",
            pairs,
            days_and_requests,
        )


def _needs_sentences(weeks: Sequence[DescribedWeek]) -> Iterator[str]:
    """The numbers of each shift type and skill, those of most weeks first."""
    for shift, skill in dict.fromkeys(
        (place.shift, place.skill) for week in weeks for place in week.data.requirements
    ):
        numbers = [
            [week.data.needed(Place(day, shift, skill)) for day in range(WEEK_DAYS)]
            for week in weeks
        ]
        usual = max(numbers, key=numbers.count)
        others = together(
            (_other_numbers(of_week, usual), week)
            for week, of_week in zip(weeks, numbers)
            if of_week != usual
        )
        words = [f"; {_weeks_text(some)}: {text}" for text, some in others.items()]
        yield f"{shift} {skill}: {_numbers_by_day(enumerate(usual))}{''.join(words)}."


def _weeks_text(weeks: Sequence[DescribedWeek]) -> str:
    """Weeks by their names, or by their numbers, as `weeks 1 and 3`."""
    if all(week.name for week in weeks):
        return joined(week.name for week in weeks)
    return f"week{'s' if len(weeks) > 1 else ''} {joined(str(week.number + 1) for week in weeks)}"


def _other_numbers(numbers: Sequence[Requirement], usual: Sequence[Requirement]) -> str:
    return _numbers_by_day(
        (day, number) for day, number in enumerate(numbers) if number != usual[day]
    )


def _numbers_by_day(numbers: Iterable[tuple[int, Requirement]]) -> str:
    """The numbers of days; days with the same ones are joined."""
    alike = together((number, day) for day, number in numbers)
    return "; ".join(f"{_needed(number)} on {days_of_week(days)}" for number, days in alike.items())


def _needed(number: Requirement) -> str:
    if number.minimum >= number.optimal:
        return str(number.minimum)
    return f"{number.minimum}, better {number.optimal}"
