"""The sheets of a spreadsheet: an ODS or XLSX file, or a folder of CSV files, as rows of text.

Only Python's library is used. A part of a file may not be larger than `MAX_BYTES`, and may not have
a document type: with one a small file can name entities that need all memory.
"""

import csv
import datetime
import errno
import io
import struct
import zipfile
import zlib
from pathlib import Path
from typing import Collection, Mapping, NamedTuple, Sequence
from xml.etree import ElementTree
from xml.parsers import expat

from ..week.faults import FileFault
from . import sheet_ods, sheet_xlsx
from .sheet_parts import (
    MAX_BYTES,
    MAX_COLUMNS,
    MAX_ROWS,
    Grid,
    Marks,
    Merged,
    Parts,
    Rows,
    trimmed,
)

_SEPARATORS = (";", ",", "\t")
# The first bytes of an Excel file before 2007, and of a zip file.
_OLD_EXCEL = b"\xd0\xcf\x11\xe0"
_ZIP = b"PK"
# The errors of the library for wrong bytes, and for elements that are nested too deep. OSError is
# for a place before the file's begin.
_DAMAGED = (
    zipfile.BadZipFile,
    zlib.error,
    struct.error,
    ElementTree.ParseError,
    expat.ExpatError,
    LookupError,
    ValueError,
    EOFError,
    NotImplementedError,
    RecursionError,
    OSError,
)


class Book(NamedTuple):
    """A spreadsheet that was read: its sheets are named in small letters."""

    path: Path
    sheets: dict[str, Rows]
    # The numbers of hidden rows.
    hidden: Mapping[str, Sequence[int]] = {}
    # The cells with a look that may mean something.
    marks: Mapping[str, Marks] = {}
    # The day with the number 0, if the file has dates as numbers.
    day_zero: datetime.date = datetime.date(1899, 12, 30)
    # The hidden columns, counted from 0, and the cells that are one.
    columns: Mapping[str, Sequence[int]] = {}
    merged: Mapping[str, Sequence[Merged]] = {}
    # The names of hidden sheets.
    concealed: Collection[str] = ()
    # The number of columns at the end of the sheet plan that the folder of a ward has added: they
    # are of days before the others.
    added: int = 0


def read_book(path: Path) -> Book:
    """Reads a spreadsheet, or a folder of CSV files. Raises FileFault if it is none, or damaged."""
    if path.is_dir():
        return Book(path, {sheet: _read_csv(file) for sheet, file in _csv_files(path).items()})
    with open(path, "rb") as file:
        begin = file.read(4)
    if begin == _OLD_EXCEL:
        raise FileFault(
            path,
            0,
            (
                "this is an old Excel file, or one with a password: save it without one as .xlsx or"
                " .ods"
            ),
        )
    if not begin.startswith(_ZIP):
        raise FileFault(
            path, 0, "this is no spreadsheet: give an .ods or .xlsx file, or a folder of .csv files"
        )
    try:
        with zipfile.ZipFile(path) as archive:
            return _read_archive(path, archive)
    except _DAMAGED as fault:
        if isinstance(fault, OSError) and fault.errno != errno.EINVAL:
            raise
        raise FileFault(
            path,
            0,
            (
                "the spreadsheet is damaged or has a password: open it in its program, and save it"
                " again without one"
            ),
        ) from fault


def _read_archive(path: Path, archive: zipfile.ZipFile) -> Book:
    names = set(archive.namelist())
    parts = Parts(path, archive)
    if "content.xml" in names:
        return _book(path, sheet_ods.grids(parts))
    if "xl/workbook.xml" in names:
        return _book(path, sheet_xlsx.grids(parts))._replace(day_zero=sheet_xlsx.day_zero(parts))
    raise FileFault(
        path, 0, "this file has no sheets: give an .ods or .xlsx file, or a folder of .csv files"
    )


def _book(path: Path, grids: Mapping[str, Grid]) -> Book:
    return Book(
        path,
        {name: grid.rows() for name, grid in grids.items()},
        {name: grid.hidden for name, grid in grids.items()},
        {name: grid.marks for name, grid in grids.items()},
        columns={name: grid.columns for name, grid in grids.items()},
        merged={name: grid.merged for name, grid in grids.items()},
        concealed=[name for name, grid in grids.items() if not grid.is_shown],
    )


def _csv_files(folder: Path) -> dict[str, Path]:
    """The files of a folder by their sheets. LibreOffice writes the sheet plan of ward.ods to
    ward-plan.csv."""
    files: dict[str, Path] = {}
    for file in sorted(folder.iterdir()):
        if file.suffix.lower() in (".csv", ".tsv") and file.is_file():
            sheet = file.stem.lower().rpartition("-")[2]
            if sheet in files:
                raise FileFault(
                    folder,
                    0,
                    (
                        f"{files[sheet].name} and {file.name} are both the sheet {sheet}: leave one"
                        " of them"
                    ),
                )
            files[sheet] = file
    if not files:
        raise FileFault(
            folder, 0, "this folder has no .csv files: save each sheet as one, such as shifts.csv"
        )
    return files


def _read_csv(path: Path) -> Rows:
    with open(path, "rb") as file:
        data = file.read(MAX_BYTES + 1)
    if len(data) > MAX_BYTES:
        raise FileFault(
            path, 0, f"the file has more than {MAX_BYTES} bytes: delete what is no part of the ward"
        )
    text = _text_of(path, data)
    first, _, rest = text.partition("\n")
    if first.strip().lower().startswith("sep="):
        separator = first.strip()[4:5] or ","
        text = rest
    else:
        separator = max(
            _SEPARATORS, key=lambda sign: next(filter(str.strip, text.split("\n")), "").count(sign)
        )
    try:
        rows = list(csv.reader(io.StringIO(text, newline=""), delimiter=separator))
    except (csv.Error, ValueError) as fault:
        raise FileFault(
            path, 0, f"this is no CSV file ({fault}): save the sheet again as CSV"
        ) from fault
    if len(rows) > MAX_ROWS or any(len(row) > MAX_COLUMNS for row in rows):
        raise FileFault(
            path,
            0,
            (
                f"the file has more than {MAX_ROWS} rows or {MAX_COLUMNS} columns: delete those"
                " that are no part of the ward"
            ),
        )
    return trimmed(rows)


def _text_of(path: Path, data: bytes) -> str:
    """The text: UTF-16 or UTF-8 with their marks, else UTF-8, else Windows-1252."""
    if data.startswith(_ZIP) or data.startswith(_OLD_EXCEL):
        raise FileFault(
            path,
            0,
            (
                "this is a spreadsheet with the name of a CSV file: give it itself, with its right"
                " name"
            ),
        )
    codes = ["utf-16"] if data[:2] in (b"\xff\xfe", b"\xfe\xff") else ["utf-8-sig", "cp1252"]
    for code in codes:
        try:
            return data.decode(code)
        except UnicodeDecodeError:
            continue
    raise FileFault(
        path,
        0,
        (
            "the file has another encoding than UTF-8, UTF-16 and Windows-1252: save it as CSV in"
            " UTF-8"
        ),
    )
