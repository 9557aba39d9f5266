"""What counts in a spreadsheet though nobody sees it, and what is seen there and does not count."""

from typing import Collection, Iterator

from ..week.words import joined, plural, quoted
from .plan_days import Days
from .sheet_cells import letters_of, tidy
from .sheet_files import Book
from .sheet_parts import SHEETS
from .ward_sheets import HEADS, table_of


def unseen_warnings(book: Book, days: Days) -> Iterator[str]:
    """Warnings of hidden sheets, columns, and rows of the plan, of white text, of comments, and of
    cells of the plan that are merged over nurses. Hidden rows of other sheets are told with their
    tables."""
    for sheet in (sheet for sheet in SHEETS if sheet in book.concealed):
        others = [name for name in book.sheets if name.startswith(sheet) and name != sheet]
        instead = (
            f", or, if {quoted(others)} is meant, delete {sheet} and rename that" if others else ""
        )
        yield f"sheet {sheet} is hidden, and it is the one that is read: show it{instead}"
    heads = {sheet: [*table_of(book, sheet).columns.values()] for sheet in HEADS}
    heads["plan"] = [head.column for head in days.columns]
    for sheet, columns in heads.items():
        yield from _hidden_columns(book, sheet, columns)
        yield from _looks(book, sheet)
    hidden = [row.number for row in days.plan.rows if row.number in book.hidden.get("plan", ())]
    if hidden:
        numbers = ", ".join(map(str, hidden))
        yield f"sheet plan: row {numbers} hidden, and counted: show it, or delete it"
    yield from _merged_over_nurses(book, days)


def _hidden_columns(book: Book, sheet: str, columns: Collection[int]) -> Iterator[str]:
    """A warning of columns of these that are hidden, and have more than a head."""
    rows = book.sheets.get(sheet, [])
    filled = [
        column
        for column in book.columns.get(sheet, ())
        if column in columns
        and sum(column < len(row) and bool(row[column].strip()) for row in rows) > 1
    ]
    if filled:
        names = ", ".join(map(letters_of, filled))
        yield f"sheet {sheet}: column {names} hidden, and counted: show it, or delete it"


def _looks(book: Book, sheet: str) -> Iterator[str]:
    """Warnings of white text, and of comments on empty cells."""
    marks = book.marks.get(sheet)
    rows = book.sheets.get(sheet, [])
    for row, column in sorted(marks.white if marks else ()):
        where = f"sheet {sheet}, row {row + 1}, column {letters_of(column)}"
        text = tidy(rows[row][column])
        yield f"{where}: '{text}' is white on white, and counts: give it a color, or delete it"
    for row, column in sorted(marks.commented if marks else ()):
        if row >= len(rows) or column >= len(rows[row]) or not rows[row][column].strip():
            where = f"sheet {sheet}, row {row + 1}, column {letters_of(column)}"
            yield f"{where}: a comment counts for nothing: write its word into the cell"


def _merged_over_nurses(book: Book, days: Days) -> Iterator[str]:
    """Warnings of cells of days that are merged over the rows of several nurses."""
    columns = {head.column for head in days.columns}
    for rows, over in book.merged.get("plan", ()):
        nurses = [row for row in days.plan.rows if row.number - 1 in rows]
        mine = sorted(columns & set(over))
        text = nurses[0].at(mine[0]).text if nurses and mine else ""
        if len(nurses) > 1 and text:
            names = joined(row.of("nurse").text for row in nurses)
            where = f"sheet plan, row {rows.start + 1}, column {letters_of(mine[0])}"
            yield (
                f"{where}: '{text}' is merged over {plural(len(nurses), 'row')}, and counts for"
                f" {names}: split the cell, and write it for each nurse whom it means"
            )
