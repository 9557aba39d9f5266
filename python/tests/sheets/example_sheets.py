"""The spreadsheet of the tests, a change of the example of `inrc2pb-plan FOLDER new`, and the files
that `files` makes of it."""

import copy
from pathlib import Path

from ward import ROOT

from inrc2pb.week.records import DAYS
from inrc2pb.sheets.sheet_files import Book
from inrc2pb.sheets.ward import ward_of
from inrc2pb.sheets.ward_template import EXAMPLE

DATA = ROOT / "python" / "tests" / "data"
_EMPTY = [""] * 7
_ROWS = {
    "shifts": EXAMPLE["shifts"],
    "contracts": [
        EXAMPLE["contracts"][0],
        ("Full", 8, 11, 3, 5, 2, 3, 1, "yes"),
        ("Half", 4, 6, 2, 3, 2, 5, 1, "no"),
    ],
    "nurses": [
        EXAMPLE["nurses"][0],
        ("Amara Koch", "Full", "Charge, Nurse", "", "", 0, 0, "Day", 2, 2, 0),
        ("Bruno", "Full", "Charge, Nurse", "", "", 0, 0, "", 0, 0, 2),
        ("Chen", "Full", "Nurse", "", "", 0, 0, "Late", 1, 3, 0),
        ("Dilek", "Full", "Nurse", "", "", 0, 0, "Night", 3, 3, 0),
        ("Ewa", "Half", "Charge, Nurse", "Night", "", 0, 0, "", 0, 0, 3),
        ("Finn", "Half", "Nurse", "", "Wed", 0, 0, "", 0, 0, 1),
        ("Grace", "Full", "Nurse", "", "", 0, 0, "", 0, 0, 2),
        ("Hana", "Full", "Charge, Nurse", "", "", 0, 0, "Day", 1, 4, 0),
    ],
    "needs": [
        *EXAMPLE["needs"],
        (2, "Day", "Nurse", "0+1", *["1+1"] * 4, "0+1", "0+1"),
    ],
    "plan": [
        ("nurse", *(f"{day} {week}" for week in (1, 2) for day in DAYS)),
        ("Amara Koch", *_EMPTY, "leave", "leave", *[""] * 5),
        ("Bruno", *_EMPTY, *_EMPTY),
        ("Chen", "", "", "", "", "", "wish", "", *_EMPTY),
        ("Dilek", "", "", "", "", "wish", "", "", *_EMPTY),
        ("Ewa", "", "", "", "", "", "", "wish", *_EMPTY),
        ("Finn", "", "", "no Late", "", "", "", "", *_EMPTY),
        ("Grace", "", "no Night", "", "", "", "", "", "Day", *[""] * 6),
        ("Hana", *_EMPTY, *_EMPTY),
    ],
}
SHEETS = {name: [[str(cell) for cell in row] for row in rows] for name, rows in _ROWS.items()}


def made(sheets, reasons=(), name="ward"):
    """The ward of these sheets."""
    return ward_of(Book(Path("ward.ods"), sheets), name, reasons=reasons)


def texts(sheets, reasons=(), name="ward"):
    """The files of these sheets."""
    return made(sheets, reasons, name).texts


def changed(sheet, row, column, text):
    """The example with another text in a cell; rows are counted from 1."""
    sheets = copy.deepcopy(SHEETS)
    cells = sheets[sheet][row - 1]
    cells += [""] * (column + 1 - len(cells))
    cells[column] = text
    return sheets
