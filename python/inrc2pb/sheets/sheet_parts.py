"""The parts of a spreadsheet that its readers share: XML, and rows of text in limited sizes."""

import re
import zipfile
from pathlib import Path
from typing import NamedTuple, Sequence
from xml.etree import ElementTree
from xml.parsers import expat

from ..week.faults import FileFault

MAX_BYTES = 33_554_432
# The most elements of a part, with their attributes: the largest ward has two elements for each day
# of 1000 nurses in 52 weeks. A small file can have so many that are empty that they need all
# memory.
MAX_ELEMENTS = 2_000_000
# A tag, or a text, of more bytes than a program writes: all attributes of a tag are read before
# they can be counted.
_LONG = re.compile(rb"<[^<]{1000000}")
MAX_ROWS = 5000
MAX_COLUMNS = 1000
# The sheets of a ward. Others are not read.
SHEETS = ("shifts", "contracts", "nurses", "needs", "plan")
# A number that is no whole one by the last of its digits only, as 0.1 * 30 is.
NEARLY = 1e-9
_SUM = re.compile(r"(?:of:)?=?([0-9]{1,4}\+[0-9]{1,4})")
Rows = list[list[str]]
# The rows and columns of cells that are one.
Merged = tuple[range, range]
# The most rows and columns of one cell that is repeated, whose look counts: more are filled outside
# the table.
_MOST_REPEATED = 50, 400
# The namespaces of the parts of an XLSX file, and the beginning of an ODS file's.
MAIN_SPACES = (
    "{http://schemas.openxmlformats.org/spreadsheetml/2006/main}",
    "{http://purl.oclc.org/ooxml/spreadsheetml/main}",
)


class Look(NamedTuple):
    """Whether the text of a cell is struck through, whether the cell has a color, and whether the
    text is white."""

    struck: bool = False
    colored: bool = False
    white: bool = False


def ods_space(name: str) -> str:
    """A namespace of an ODS file."""
    return f"{{urn:oasis:names:tc:opendocument:xmlns:{name}:1.0}}"


class Marks(NamedTuple):
    """The rows and columns of cells whose text is struck through, of those that have a color, of
    those whose text is as white as the cell, and of those that have a comment."""

    struck: set[tuple[int, int]]
    colored: set[tuple[int, int]]
    white: set[tuple[int, int]]
    commented: set[tuple[int, int]]


class Parts:
    """The XML files in a spreadsheet."""

    def __init__(self, path: Path, archive: zipfile.ZipFile) -> None:
        self.path = path
        self._archive = archive

    def has(self, name: str) -> bool:
        """Whether there is a part of this name."""
        return name in self._archive.namelist()

    def read(self, name: str) -> ElementTree.Element:
        """The root of a part."""
        info = self._archive.getinfo(name)
        if info.flag_bits & 1:
            raise FileFault(self.path, 0, "the spreadsheet has a password: save it without one")
        if info.compress_type not in (zipfile.ZIP_STORED, zipfile.ZIP_DEFLATED):
            raise zipfile.BadZipFile("no program compresses a spreadsheet like this")
        with self._archive.open(name) as part:
            data = part.read(MAX_BYTES + 1)
        if len(data) > MAX_BYTES:
            raise FileFault(
                self.path,
                0,
                (
                    f"the spreadsheet has more than {MAX_BYTES} bytes of XML: delete what is no"
                    " part of the ward"
                ),
            )
        self._check(data)
        return ElementTree.fromstring(data)

    def _check(self, data: bytes) -> None:
        """The part has no document type, and not too many elements."""
        left = MAX_ELEMENTS
        many = (
            f"the spreadsheet has more than {MAX_ELEMENTS} elements of XML: delete what is no part"
            " of the ward"
        )

        def count(_name: str, attributes: dict[str, str]) -> None:
            nonlocal left
            left -= 1 + len(attributes)
            if left < 0:
                raise FileFault(self.path, 0, many)

        if _LONG.search(data):
            raise FileFault(self.path, 0, many)
        checking = expat.ParserCreate()
        checking.StartDoctypeDeclHandler = self._refuse
        checking.StartElementHandler = count
        checking.Parse(data, True)

    def _refuse(self, *_words: object) -> None:
        raise FileFault(
            self.path,
            0,
            (
                "the spreadsheet has a document type, which no program writes: save it again with"
                " LibreOffice or Excel"
            ),
        )

    def too_large(self, sheet: str) -> FileFault:
        """The fault of a sheet with too many cells."""
        return FileFault(
            self.path,
            0,
            (
                f"sheet {sheet} has more than {MAX_ROWS} rows or {MAX_COLUMNS} columns: delete"
                " those that are no part of the ward"
            ),
        )


class Grid:
    """The cells of a sheet while it is read. Cells that are merged have the value of the first of
    them; `hidden` has the numbers of hidden rows, counted from 1, and `columns` those of hidden
    columns, from 0. `is_shown` is whether the sheet itself is."""

    def __init__(self, sheet: str, parts: Parts) -> None:
        self.name = sheet
        self._parts = parts
        self._cells: dict[int, dict[int, str]] = {}
        self.merged: list[Merged] = []
        self.hidden: list[int] = []
        self.columns: list[int] = []
        self.is_shown = True
        self.marks = Marks(set(), set(), set(), set())

    def mark(self, rows: range, columns: range, look: Look, has_text: bool) -> None:
        """Keeps the look of cells, and of their text, if they have one."""
        if len(rows) <= _MOST_REPEATED[0] and len(columns) <= _MOST_REPEATED[1]:
            white = look.white and not look.colored
            looks = (look.struck and has_text, look.colored, white and has_text)
            for marked, looks_so in zip(self.marks, looks):
                marked.update((row, column) for row in rows for column in columns if looks_so)

    def hide(self, columns: range) -> None:
        """Keeps that these columns are hidden, as far as a sheet can have them."""
        self.columns += columns[:MAX_COLUMNS]

    def put(self, rows: range, columns: range, value: str) -> None:
        """Writes the value into these cells, if it is one."""
        if not value:
            return
        if rows.stop > MAX_ROWS or columns.stop > MAX_COLUMNS:
            raise self._parts.too_large(self.name)
        for row in rows:
            self._cells.setdefault(row, {}).update(dict.fromkeys(columns, value))

    def merge(self, rows: range, columns: range) -> None:
        """Makes one cell of these."""
        self.merged.append((rows, columns))

    def rows(self) -> Rows:
        """The rows, with merged cells filled as far as the sheet has others."""
        height = max(self._cells, default=-1) + 1
        width = max((max(cells) for cells in self._cells.values()), default=-1) + 1
        texts = [
            [self._cells.get(row, {}).get(column, "") for column in range(width)]
            for row in range(height)
        ]
        for rows, columns in self.merged:
            if rows.start < height and columns.start < width:
                for row in rows[: height - rows.start]:
                    texts[row][columns.start : columns.stop] = [
                        texts[rows.start][columns.start]
                    ] * len(columns[: width - columns.start])
        return trimmed(texts)


def new_grid(name: str, parts: Parts, grids: dict[str, Grid]) -> Grid:
    """The grid of one more sheet. Raises FileFault if a sheet of a ward is there twice."""
    key = name.strip().lower()
    if key in SHEETS and key in grids:
        raise FileFault(
            parts.path,
            0,
            f"two sheets are named {key}, perhaps with a blank: rename or delete one of the two",
        )
    grids[key] = Grid(key, parts)
    return grids[key]


def number_text(value: str) -> str:
    """The text of a number that a spreadsheet has stored; a whole one without a fraction."""
    try:
        number = float(value)
    except ValueError:
        return value
    if abs(number) > MAX_BYTES:
        return value
    return str(round(number)) if abs(number - round(number)) < NEARLY else str(number)


def formula_text(formula: str, value: str) -> str:
    """What stands for a formula: its value, but the formula itself if there is none, or if it is a
    sum such as =2+1."""
    added = _SUM.fullmatch(formula.replace(" ", ""))
    if added:
        return f"={added[1]}"
    return value or "=" + re.sub(r"^(of:)?=|\[\.|\]", "", formula)


def trimmed(rows: Sequence[Sequence[str]]) -> Rows:
    """The rows without empty cells at their ends, and without empty rows at the end."""
    shortened = [list(row) for row in rows]
    for row in shortened:
        while row and not row[-1].strip():
            row.pop()
    while shortened and not shortened[-1]:
        shortened.pop()
    return shortened
