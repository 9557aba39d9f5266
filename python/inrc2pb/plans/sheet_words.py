"""What the cells of the sheet plan had when a plan was written, by the files of its folder: so the
columns of days that are over may be taken out, and any other one is missed with who has what."""

from typing import Iterable, Mapping, Sequence

from ..judging.absences import wishes_of_weeks
from ..sheets.older_names import Names
from ..sheets.plan_sheets import PROMISED_OFF
from ..sheets.ward import Ward
from ..sheets.written_days import DayWord
from ..week.facts import Choice
from ..week.faults import Misuse
from ..week.records import WEEK_DAYS, NurseDay, together
from ..week.words import OFF, joined, readable
from .fits import other_days_text
from .ward import WardPlan

# The most days of which it is said who has what.
_MOST_DAYS = 7


def sheet_words(
    ward: Ward, names: Names, always_off: Mapping[str, Sequence[int]]
) -> Iterable[DayWord]:
    """The words of the cells of a ward that count, with the names of now; nurses who are always off
    on a day of the week have no word for it."""
    for (nurse, day), word in _words(ward, names).items():
        now = names.nurse(nurse)
        if word != PROMISED_OFF or day % WEEK_DAYS not in always_off.get(now.casefold(), ()):
            yield DayWord(now, day, word)


def _words(ward: Ward, names: Names) -> dict[NurseDay, str]:
    facts = (claim.fact for claim in ward.claims if claim.holds)
    off = (fact for fact in facts if isinstance(fact, Choice) and fact.shift is None)
    wishes = together(
        (NurseDay(wish.nurse, wish.day), wish.shift)
        for wish in wishes_of_weeks(enumerate(ward.weeks))
    )
    return {
        **{
            NurseDay(fact.nurse, WEEK_DAYS * (fact.week - 1) + fact.day): PROMISED_OFF
            for fact in off
        },
        **{place: _wish(shifts, names) for place, shifts in wishes.items()},
        **{
            cell.nurse_day: readable(f"{names.shift(cell.shift)}/{cell.skill}")
            for cell in ward.held
        },
        **ward.reasons,
    }


def _wish(shifts: Sequence[str | None], names: Names) -> str:
    """The word of a cell for wishes of one day; None is a day off."""
    types = [readable(names.shift(shift)) for shift in shifts if shift]
    return f"no {', '.join(types)}" if len(types) == len(shifts) else "wish"


def missing_days(plan: WardPlan, words: Iterable[DayWord], missing: Sequence[int]) -> Misuse:
    """That these days of a plan have no column, with who has what on them."""
    promises = (
        (one.day, f"{one.shift or OFF}, promised", one.nurse) for one in plan.state.set_days
    )
    shifts = ((cell.day, cell.shift, cell.nurse) for cell in plan.state.cells)
    cells = ((one.day, one.word, one.nurse) for one in words)
    by_day: dict[int, dict[str, list[str]]] = {}
    for day, word, nurse in (*promises, *shifts, *cells):
        by_day.setdefault(day, {}).setdefault(word, []).append(nurse)
    said = [
        f"{plan.days.text(day)}: "
        + ", ".join(f"{joined(nurses)} {word}" for word, nurses in by_day.get(day, {}).items())
        for day in missing[:_MOST_DAYS]
    ]
    more = [plan.days.span(missing[_MOST_DAYS:])] if missing[_MOST_DAYS:] else []
    return Misuse(readable(f"{other_days_text(plan.days)}: {'; '.join([*said, *more])}"))
