"""The days away that verbs have written: each counts as if it were in the spreadsheet's plan."""

from typing import Collection, Iterable, Mapping, NamedTuple, Sequence

from ..judging.leave import ILL
from ..week.records import NurseDay
from ..week.words import readable
from .plan_days import Days
from .plan_sheets import AWAY
from .sheet_cells import tidy
from .sheet_files import Book
from .ward_sheets import table_of

# The words of days on which a nurse is back: the first empties her cell, the second gives the day
# its cell of the spreadsheet again.
BACK = "back"
SHEET = "sheet"


class DayWord(NamedTuple):
    """A nurse's day, and the word that a verb has written for it, such as `ill`: it counts as if it
    were in the spreadsheet's plan. `lost` is the number of shifts that an illness takes from a plan
    on the wall, if that is known."""

    nurse: str
    day: int
    word: str
    lost: int | None = None


def with_days(
    absences: Sequence[DayWord],
    nurse: str,
    days: Iterable[int],
    word: str,
    lost: Mapping[int, int] = {},
) -> tuple[DayWord, ...]:
    """The absences with this word for these days of a nurse, in place of older ones, or, if she is
    ill, above them; `lost` has the shifts that her illness takes from a plan on the wall."""
    new = [DayWord(nurse, day, word, lost.get(day)) for day in days]
    # Other words stay below: who is ill on days of leave has her leave again if she is back.
    taken = {(absence.nurse, absence.day) for absence in new}
    stay = word == ILL
    kept = (
        absence
        for absence in absences
        if (absence.nurse, absence.day) not in taken or (stay and absence.word not in (ILL, SHEET))
    )
    return (*kept, *new)


def without_last(
    absences: Sequence[DayWord], nurse: str, days: Collection[int]
) -> tuple[DayWord, ...]:
    """The absences without the last one of each of these days of a nurse: the one below it holds
    again, or else what the spreadsheet says."""
    words = {
        day: [absence.word for absence in absences if (absence.nurse, absence.day) == (nurse, day)]
        for day in days
    }
    others = (absence for absence in absences if absence.nurse != nurse or absence.day not in words)
    return (
        *others,
        *(
            DayWord(nurse, day, word)
            for day, written in words.items()
            for word in written[:-1] or [SHEET]
        ),
    )


def words_by_day(absences: Sequence[DayWord], nurse: str) -> dict[int, str]:
    """The word that holds on each day of a nurse for which a verb has written one."""
    return {absence.day: absence.word for absence in absences if absence.nurse == nurse}


def lost_shifts(absences: Sequence[DayWord]) -> dict[NurseDay, int]:
    """The shifts that illnesses have taken from plans on the wall, by the last word of each day
    that says it."""
    known = {NurseDay(absence.nurse, absence.day): absence.lost for absence in absences}
    return {place: lost for place, lost in known.items() if lost is not None}


def with_written(book: Book, days: Days, written: Sequence[DayWord]) -> Book:
    """The spreadsheet with these absences in its plan. A nurse without a row there gets one, unless
    she has none in the sheet nurses."""
    if not written:
        return book
    rows = [list(row) for row in book.sheets["plan"]]
    head = days.plan.columns["nurse"]
    places = {row.of("nurse").key: row.of("nurse").row - 1 for row in days.plan.rows}
    known = {row.of("nurse").key for row in table_of(book, "nurses").rows}
    for absence in written:
        nurse = absence.nurse.casefold()
        if absence.day >= len(days.columns) or nurse not in known:
            continue
        if nurse not in places:
            places[nurse] = len(rows)
            rows.append([""] * head + [readable(absence.nurse)])
        row = rows[places[nurse]]
        column = days.columns[absence.day].column
        row.extend([""] * (column + 1 - len(row)))
        row[column] = _cell(row[column], absence.word)
    return book._replace(sheets={**book.sheets, "plan": rows})


def _cell(text: str, word: str) -> str:
    """What the word makes of the text of a cell: who is back was away."""
    if word == SHEET:
        return text
    if word != BACK:
        return word
    return "" if tidy(text).casefold() in AWAY else text
