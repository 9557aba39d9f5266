"""The rows below the head of a sheet, by the names of its columns; faults name the sheet, row,
column and cure."""

import re
from typing import Collection, Iterator, NoReturn, Sequence

from ..week.faults import FileFault, Gathering
from ..week.slots import closest
from ..week.words import quoted
from .sheet_cells import KEPT, SUM, SheetCell, day_meant, tidy
from .sheet_files import Book
from .sheet_parts import SHEETS, Rows


# The texts that spreadsheets show for a formula with a fault.
_BROKEN = re.compile(
    r"#(REF!|BEZUG!|DIV/0!|NAME\?|VALUE!|WERT!|NUM!|ZAHL!|NULL!|N/A|NV|SPILL!)|Err:[0-9]+",
    re.IGNORECASE,
)
_SAVE = "open the file in a spreadsheet program, and save it again"


class SheetRow:
    """A row below the head."""

    def __init__(self, table: "Table", number: int, cells: Sequence[str]) -> None:
        self._table = table
        self.number = number
        self._cells = cells

    def outside(self, columns: Collection[int]) -> Iterator[SheetCell]:
        """The cells outside these columns that are not empty."""
        others = (self.at(column) for column in range(len(self._cells)) if column not in columns)
        return (cell for cell in others if cell.text)

    def at(self, column: int) -> SheetCell:
        """The cell of the column with this number."""
        text = tidy(self._cells[column]) if column < len(self._cells) else ""
        return SheetCell(text, self._table.book, self._table.name, self.number, column)

    def of(self, head: str) -> SheetCell:
        """The cell of the column with this head; if there is none, an empty one."""
        return (
            self.at(self._table.columns[head])
            if head in self._table.columns
            else self.at(len(self._cells))
        )


class Table:
    """A sheet: its columns by their heads, and its rows. `book` and `name` are for faults."""

    def __init__(
        self,
        book: Book,
        name: str,
        heads: Sequence[str],
        optional: Sequence[str] = (),
        open_end: bool = False,
    ) -> None:
        self.book = book
        self.name = name
        self.heads = heads
        self.optional = optional
        self.columns: dict[str, int] = {}
        # The heads with the sign for maxima that are never exceeded.
        self.kept: dict[str, SheetCell] = {}
        # The columns after those with a known head, if the sheet may have any number of them.
        self.others: list[SheetCell] = []
        rows = self._sheet()
        first = self._find_head(rows)
        head, begin = _joined_head(rows, first, open_end)
        with Gathering() as faults:
            for column, text in enumerate(head):
                with faults.step():
                    self._take_head(
                        SheetCell(tidy(text), book, name, first + 1, column), head, open_end
                    )
        missing = [wanted for wanted in heads if wanted not in self.columns]
        if missing:
            raise FileFault(
                book.path,
                0,
                f"sheet {name}, row {first + 1}: there is no column '{missing[0]}': add it",
            )
        self.rows = [
            SheetRow(self, number + 1, rows[number])
            for number in range(begin, len(rows))
            if any(map(str.strip, rows[number]))
        ]
        self._check_heads({column for column, text in enumerate(head) if tidy(text)}, first + 1)
        self._check_formulas({*self.columns.values(), *(cell.column for cell in self.others)})

    def fault(self, message: str) -> NoReturn:
        """Raises a fault of the whole sheet."""
        raise FileFault(self.book.path, 0, f"sheet {self.name}: {message}")

    def _sheet(self) -> Rows:
        if self.name not in self.book.sheets:
            meant = self._renamed()
            cure = (
                f"rename '{meant}' to {self.name}, if that is the one"
                if meant
                else "add it; the verb new writes an example of all sheets into a new folder"
            )
            raise FileFault(
                self.book.path,
                0,
                f"there is no sheet '{self.name}' beside {quoted(self.book.sheets)}: {cure}",
            )
        return self.book.sheets[self.name]

    def _renamed(self) -> str | None:
        """The sheet that most likely was this one: one with its name in it, or the only other one
        if no other sheet of a ward is missing."""
        others = [name for name in self.book.sheets if name not in SHEETS]
        named = [name for name in others if self.name in name] or others
        missing = [name for name in SHEETS if name not in self.book.sheets]
        alone = len(named) == 1 and (self.name in named[0] or missing == [self.name])
        return named[0] if alone else closest(self.name, others)

    def _find_head(self, rows: Rows) -> int:
        """The row with the heads: titles may be above it."""
        for number, row in enumerate(rows):
            if any(tidy(cell).casefold() == self.heads[0] for cell in row):
                return number
        raise FileFault(
            self.book.path,
            0,
            (
                f"sheet {self.name}: no row has the head '{self.heads[0]}': write"
                f" {quoted(self.heads)} into the first row"
            ),
        )

    def _take_head(self, cell: SheetCell, heads: Sequence[str], open_end: bool) -> None:
        head = cell.text.casefold()
        if not head or head.startswith(("note", "comment", "#")):
            return
        if head.endswith(KEPT):
            head = head[: -len(KEPT)].strip()
            self.kept[head] = cell
        if head in self.columns:
            cell.fault(f"there is a second column '{cell.text}': rename or delete one")
        elif head in self.heads or head in self.optional:
            self.columns[head] = cell.column
        elif open_end:
            self.others.append(cell)
        else:
            meant = day_meant(cell.text) or self._meant(
                head, {tidy(text).casefold() for text in heads}
            )
            cell.fault(
                f"'{cell.text}' is no column of this sheet: "
                + (f"did you mean '{meant}'?" if meant else "delete it, or begin its head with #")
            )

    def _check_heads(self, columns: Collection[int], number: int) -> None:
        """A fault names the first cell of each column without a head. The given columns have one,
        in the row of this number."""
        first: dict[int, SheetCell] = {}
        for row in self.rows:
            for cell in row.outside(columns):
                first.setdefault(cell.column, cell)
        with Gathering() as faults:
            for _, cell in sorted(first.items()):
                with faults.step():
                    cell.fault(
                        f"'{cell.text}' has no head above it: write one into row {number}, or # to"
                        " leave the column out"
                    )

    def _check_formulas(self, columns: Collection[int]) -> None:
        """No cell of these columns may be a formula with a fault, or one whose value is not in the
        file."""
        with Gathering() as faults:
            for row in self.rows:
                for cell in map(row.at, sorted(columns)):
                    wrong = _wrong_formula(cell.text)
                    if wrong:
                        with faults.step():
                            cell.fault(wrong)

    def _meant(self, head: str, taken: Collection[str]) -> str | None:
        """The column that a wrong head most likely means: none that the sheet has already."""
        free = [name for name in (*self.heads, *self.optional) if name not in taken]
        return closest(head, free) or next(
            (name for name in free if {*head.split()} & {*name.split()}), None
        )


def _wrong_formula(text: str) -> str:
    """What is wrong with a cell that is a formula; nothing if it is none, or a sum."""
    if _BROKEN.fullmatch(text):
        return f"a formula has the fault {text}: correct it, or write its value in its place"
    if text.startswith("=") and not SUM.fullmatch(text):
        return f"the value of the formula {text} is not in the file: {_SAVE}, or write the value"
    return ""


def _joined_head(rows: Rows, first: int, open_end: bool) -> tuple[list[str], int]:
    """The heads, and the first row below them. A head over several columns is joined with the row
    below it, and dates with days."""
    head = [tidy(cell) for cell in rows[first]]
    below = [tidy(cell) for cell in (rows[first + 1] if first + 1 < len(rows) else [])]
    width = max(len(head), len(below))
    head, below = (row + [""] * (width - len(row)) for row in (head, below))
    # A head over two rows.
    below = ["" if under == upper else under for upper, under in zip(head, below)]
    has_days = all(
        re.match("mon|tue|wed|thu|fri|sat|sun", cell.casefold()) for cell in below if cell
    )
    is_over = any(under and not upper for upper, under in zip(head, below)) and not any(
        re.search("[0-9]", cell) for cell in below
    )
    if not any(below) or below[0] or not (has_days if open_end else is_over):
        return head, first + 1
    joined = []
    above = ""
    for upper, under in zip(head, below):
        above = upper or (above if under else "")
        joined.append(f"{above} {under}".strip())
    return joined, first + 2
