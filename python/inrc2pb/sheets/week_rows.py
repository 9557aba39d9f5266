"""The rows of the needs that have a week. In the next period the weeks of such rows, as those of
bank holidays, count anew."""

from typing import Iterable, Mapping, NamedTuple

from ..week.records import DAYS, Place, Requirement
from .plan_days import NO_WEEK, Days, date_of, week_of_row
from .plan_sheets import needed
from .sheet_files import Book
from .sheet_rows import SheetRow
from .ward_sheets import table_of

Needs = Mapping[Place, Requirement]


class WeekRow(NamedTuple):
    """A row of the needs that has a week."""

    number: int
    # From 0.
    week: int
    needs: Needs


def week_rows(book: Book, days: Days) -> list[WeekRow]:
    """The rows that have a week of these days, by its number, since a date is of one period only.
    The book has no faults."""
    cells = ((row, row.of("week")) for row in table_of(book, "needs").rows)
    numbers = (
        (row, week_of_row(cell, days))
        for row, cell in cells
        if cell.text.isdecimal() and not date_of(cell)
    )
    known = ((row, week) for row, week in numbers if week is not None and week != NO_WEEK)
    return [WeekRow(row.number, week, _needs_of(row)) for row, week in known]


def _needs_of(row: SheetRow) -> Needs:
    shift = row.of("shift").key
    skill = row.of("skill").key
    cells = [row.of(day.casefold()) for day in DAYS]
    return {Place(day, shift, skill): needed(cell) for day, cell in enumerate(cells) if cell.text}


def unchanged_rows(rows: Iterable[WeekRow], older: Mapping[int, Needs]) -> list[WeekRow]:
    """The rows that have the numbers of the same week of an older period, so nobody has made them
    those of this one yet."""
    unchanged = []
    for row in rows:
        needs = older.get(row.week, {})
        before = {
            place._replace(shift=place.shift.casefold(), skill=place.skill.casefold()): number
            for place, number in needs.items()
        }
        if row.needs and all(before.get(place) == number for place, number in row.needs.items()):
            unchanged.append(row)
    return unchanged
