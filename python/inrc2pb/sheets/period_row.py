"""The row `period` of the sheet contracts: the weeks after which contracts begin anew."""

from ..week.slots import MAX_WEEKS
from .sheet_files import Book
from .sheet_rows import SheetRow
from .ward_sheets import HEADS, table_of

_NAME = "period"


def _row(book: Book) -> SheetRow | None:
    rows = table_of(book, "contracts").rows
    return next((row for row in rows if row.of("contract").key == _NAME), None)


def weeks_of_period(book: Book) -> int | None:
    """The number of weeks of a period, if the sheet has the row. Raises FileFault if it is none."""
    row = _row(book)
    if row is None:
        return None
    cells = [cell for head in HEADS["contracts"][1] for cell in [row.of(head)] if cell.text]
    if len(cells) != 1:
        row.of("contract").fault(
            "the row period has the number of weeks after which contracts begin anew: write it into"
            " one cell of the row, such as 4"
        )
    weeks = cells[0].number(most=MAX_WEEKS)
    if not weeks:
        cells[0].fault("a period has at least one week: write its number of weeks, such as 4")
    return weeks


def without_period(book: Book) -> Book:
    """The spreadsheet without this row, which is no contract."""
    row = _row(book)
    if row is None:
        return book
    rows = [
        [] if number == row.number else cells
        for number, cells in enumerate(book.sheets["contracts"], 1)
    ]
    return book._replace(sheets={**book.sheets, "contracts": rows})
