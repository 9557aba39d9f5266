"""Days that are over, whose columns were taken out of the sheet plan: the folder of a ward knows
what their cells had."""

from typing import NamedTuple

from ..week.dates import PlanDays
from ..week.faults import Gathering
from .older_names import Renamed, older_names
from .plan_days import date_of, read_days
from .sheet_files import Book
from .sheet_rows import Table
from .ward_sheets import HEADS, days_off, table_of
from .written_days import DayWord, with_written


class Gone(NamedTuple):
    """A period that runs, how many of its first days are over, and what the cells had of those
    whose columns were taken out of the sheet plan, as far as that counts."""

    period: PlanDays
    days: int = 0
    words: tuple[DayWord, ...] = ()


def with_gone(book: Book, gone: Gone | None) -> Book:
    """The spreadsheet in which the days that are over stand behind the others: those of the period
    that runs, all of them, and no older ones."""
    if gone is None:
        return book
    columns = Table(book, "plan", ("nurse",), open_end=True).others
    rows = [list(row) for row in book.sheets["plan"]]
    heads = rows[columns[0].row - 1]
    width = max(map(len, rows))
    for row in rows:
        row += [""] * (width + gone.days - len(row))
    for cell in columns:
        date = date_of(cell)
        day = (date - gone.period.date(0)).days if date else gone.days
        for row in rows if 0 <= day < gone.days else ():
            row[width + day] = row[cell.column]
        if day < gone.days:
            heads[cell.column] = "#"
    heads[width:] = [gone.period.head(day) for day in range(gone.days)]
    added = book._replace(sheets={**book.sheets, "plan": rows}, added=gone.days)
    return with_written(added, read_days(added, gone.period), gone.words)


def always_off(book: Book) -> dict[str, list[int]]:
    """The days of the week on which each nurse is always off, by her name in small letters."""
    rows = table_of(book, "nurses").rows
    return {row.of("nurse").key: days_off(row.of("always off")) for row in rows}


def older_names_of(book: Book) -> list[Renamed]:
    """The older names in the sheets of a book, whose faults are told as these are read."""
    tables = ((table_of(book, sheet), HEADS[sheet][0][0]) for sheet in ("nurses", "shifts"))
    return [
        one
        for table, head in tables
        for one in older_names(table, head, [row.of(head).key for row in table.rows], Gathering())
    ]
