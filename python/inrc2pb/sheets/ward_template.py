"""An example spreadsheet for `inrc2pb-plan`, as an ODS file, whose plan begins on a Monday that is
given."""

import datetime
from pathlib import Path
from typing import Sequence

from ..week.dates import DAY, date_text
from ..week.faults import Misuse
from ..week.records import DAYS, WEEK_DAYS
from ..week.writing import check_target
from .ods_file import cell, sheet, write_sheets

Rows = Sequence[Sequence[object]]


def _days(*weeks: str) -> list[str]:
    """The cells of some weeks, each given as `leave on Mon, wish on Sat`."""
    given = [{part[-3:]: part[: -len(" on Mon")] for part in week.split(", ")} for week in weeks]
    return [cells.get(day, "") for cells in given for day in DAYS]


# Columns with the head `note` are not read.
KEPT_NOTE = "22! in place of 22: she never has more; so may work max and weekends"
HOLIDAY_NOTE = (
    "if {} is a bank holiday: one more row, with {} for week, Day for shift, Nurse for skill, and"
    " 0+1 for Fri only"
)
# The plan of the example has four weeks, and its days have no dates.
EXAMPLE: dict[str, Rows] = {
    "shifts": [
        ("shift", "min in a row", "max in a row", "not followed by", "times"),
        ("Day", 2, 5, "", "07:00-15:30"),
        ("Late", 2, 4, "Day", "14:30-23:00"),
        ("Night", 2, 4, "Day, Late", "22:30-07:15"),
    ],
    "contracts": [
        (
            "contract",
            "shifts min",
            "shifts max",
            "work min",
            "work max",
            "off min",
            "off max",
            "weekends",
            "complete weekends",
            "note",
        ),
        ("Full", 17, 22, 3, 5, 2, 3, 2, "yes", KEPT_NOTE),
        ("Half", 8, 12, 2, 3, 2, 5, 2, "no"),
    ],
    "nurses": [
        (
            "nurse",
            "contract",
            "skills",
            "never",
            "always off",
            "worked",
            "worked weekends",
            "last shift",
            "days on it",
            "days of work",
            "days off",
            "was",
        ),
        ("Amara", "Full", "Charge, Nurse", "", "", 0, 0, "Day", 2, 2, 0),
        ("Bruno", "Full", "Charge, Nurse", "", "", 0, 0, "", 0, 0, 2),
        ("Chen", "Full", "Nurse", "", "", 0, 0, "", 0, 0, 1),
        ("Dilek", "Full", "Nurse", "", "", 0, 0, "Night", 2, 2, 0),
        ("Ewa", "Half", "Charge, Nurse", "", "", 0, 0, "", 0, 0, 3),
        ("Finn", "Half", "Nurse", "Night", "", 0, 0, "Late", 1, 1, 0),
        ("Grace", "Full", "Nurse", "", "", 0, 0, "", 0, 0, 2),
    ],
    "needs": [
        ("week", "shift", "skill", *DAYS, "note"),
        ("", "Day", "Charge", *[1] * 7),
        ("", "Day", "Nurse", *["1+1"] * 5, "0+1", "0+1", HOLIDAY_NOTE.format("Fri of week 3", "3")),
        ("", "Late", "Nurse", *[1] * 7),
        ("", "Night", "Nurse", *[1] * 7),
    ],
    "plan": [
        ("nurse", *(f"{day} {week}" for week in range(1, 5) for day in DAYS)),
        ("Amara", *_days("", "wish on Wed", "", "")),
        ("Bruno", *_days("", "", "", "Day/Charge on Mon")),
        ("Chen", *_days("wish on Sat", "", "leave on Mon, leave on Tue, leave on Wed", "")),
        ("Dilek", *_days("wish on Fri", "", "", "")),
        ("Ewa", *_days("wish on Sun", "", "", "")),
        ("Finn", *_days("no Late on Wed", "", "", "training on Thu")),
        ("Grace", *_days("no Night on Tue", "", "", "")),
    ],
}


def next_monday(today: datetime.date) -> datetime.date:
    """The Monday after this day."""
    return today + (WEEK_DAYS - today.weekday()) * DAY


def dated_example(monday: datetime.date) -> dict[str, Rows]:
    """The example with dates from this Monday on."""
    heads, *rows = EXAMPLE["plan"]
    dates = [monday + day * DAY for day in range(len(heads) - 1)]
    friday = dates[2 * WEEK_DAYS + DAYS.index("Fri")]
    notes = HOLIDAY_NOTE.format("Fri of week 3", "3"), HOLIDAY_NOTE.format(
        f"Fri {date_text(friday)}", friday
    )
    needs = [[notes[1] if cell == notes[0] else cell for cell in row] for row in EXAMPLE["needs"]]
    return {**EXAMPLE, "needs": needs, "plan": [(heads[0], *dates), *rows]}


def write_template(path: Path, monday: datetime.date) -> None:
    """Writes the example, whose plan begins on this Monday. Raises Misuse if there is a file of
    this name, since a ward may have changed it."""
    if path.suffix.lower() != ".ods":
        raise Misuse(
            f"{path}: the example is an .ods file, which Excel opens too: end its name with .ods"
        )
    if path.exists() or path.is_symlink():
        raise Misuse(f"{path}: there is such a file, perhaps with your ward: give another name")
    check_target(path)
    sheets = "".join(_sheet(name, rows) for name, rows in dated_example(monday).items())
    try:
        with open(path, "xb") as file:
            write_sheets(file, sheets)
    except FileExistsError:
        raise
    except BaseException:
        path.unlink()
        raise


def _sheet(name: str, rows: Rows) -> str:
    dates = sum(isinstance(head, datetime.date) for head in rows[0])
    return sheet(name, [list(map(cell, row)) for row in rows], dates)
