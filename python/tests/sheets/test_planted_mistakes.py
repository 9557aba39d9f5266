"""Mistakes that head nurses make, planted in a ward's spreadsheet: each gets a sentence with its cell
and its cure, whether LibreOffice or Excel has written the file."""

import datetime

import pytest
from book_writer import Sheet, write_book

from inrc2pb.sheets.sheet_files import read_book
from inrc2pb.sheets.ward import ward_of
from inrc2pb.sheets.ward_template import dated_example
from inrc2pb.week.faults import FileFault, FileFaults

MONDAY = datetime.date(2026, 11, 30)
# Friday of week 4.
CHRISTMAS = datetime.date(2026, 12, 25)
FORMATS = ("ods", "xlsx")
HOLIDAY = ["", "Day", "Nurse", "", "", "", "", "0+1"]


def example(**cells):
    """The sheets of the dated example, with other values in some cells, given as `needs_D2=..`."""
    sheets = {name: [list(row) for row in rows] for name, rows in dated_example(MONDAY).items()}
    for place, value in cells.items():
        name, _, cell = place.partition("_")
        row = sheets[name]
        row, column = row[int(cell[1:]) - 1], ord(cell[0]) - ord("A")
        row += [""] * (column + 1 - len(row))
        row[column] = value
    return sheets


def with_row(sheets, name, row):
    """The sheets with one more row in the sheet of this name."""
    return {**sheets, name: [*sheets[name], row]}


def books(sheets, **looks):
    """The sheets, with the looks of some of them."""
    return [Sheet(name, rows)._replace(**looks.get(name, {})) for name, rows in sheets.items()]


def holiday(week, thursday="", friday="0+1"):
    """The example with a row for a bank holiday."""
    row = [week, "Day", "Nurse", "", "", "", thursday, friday]
    return with_row(example(), "needs", row)


PLAN = example()["plan"]
SHORT_REST = example(shifts_D3="")
LEAVE_OF_TWO = example(plan_H4="leave", plan_H5="")
# What is planted, as sheets of a book, and the sentence about it.
WARNED = {
    "hidden sheet": (
        [*books(example(), plan={"is_hidden": True}), Sheet("plan (2)", PLAN)],
        "sheet plan is hidden, and it is the one that is read: show it, or, if plan (2) is meant,"
        " delete plan and rename that",
    ),
    "hidden rows of the plan": (
        books(example(), plan={"hidden_rows": (3,)}),
        "sheet plan: row 3 hidden, and counted: show it, or delete it",
    ),
    "hidden columns of the plan": (
        books(example(), plan={"hidden_columns": ("F", "G")}),
        "sheet plan: column F, G hidden, and counted: show it, or delete it",
    ),
    "a number beside the date": (
        books(holiday(CHRISTMAS, thursday="0+1", friday="")),
        "sheet needs, row 6, column G: 2026-12-25 is a Fri, and '0+1' is below Thu: move it below"
        " Fri, or write CW 52 in place of the date",
    ),
    "hours": (
        books(example(contracts_B2=100, contracts_C2=154)),
        "sheet contracts, row 2, column C: at most 154 shifts, and the period has 28 days: count"
        " shifts, not hours; for no limit leave the cell empty",
    ),
    "a night by mistake": (
        books(example(shifts_E2="14:12-06:00")),
        "sheet shifts, row 2, column E: Day lasts 15:48 hours, 14:12 to 06:00: correct one of the"
        " two times, unless it is meant so",
    ),
    "two in a row that may not follow": (
        books(example(shifts_D4="Day, Late, Night")),
        "sheet shifts, row 4, column B: at least 2 days in a row on Night, and it may not follow"
        " itself: write 1, or take Night out of 'not followed by'",
    ),
    "up to two in a row that may not follow": (
        books(example(shifts_B4=1, shifts_C4=2, shifts_D4="Day, Late, Night")),
        "sheet shifts, row 4, column C: up to 2 days in a row on Night, and it may not follow"
        " itself: write 1, or take Night out of 'not followed by'",
    ),
    "no weekends": (
        books(example(contracts_H2="0!", contracts_H3="0!")),
        "sheet contracts, row 2, column H: no contract has a weekend with work, and the sheet needs"
        " asks for nurses on Sat and Sun: write how many weekends each contract has at most",
    ),
    "leave over two nurses": (
        books(LEAVE_OF_TWO, plan={"merged": ("H4:H5",)}),
        "sheet plan, row 4, column H: 'leave' is merged over 2 rows, and counts for Chen and Dilek:"
        " split the cell, and write it for each nurse whom it means",
    ),
    "a comment": (
        books(example(), plan={"comments": ("C5",)}),
        "sheet plan, row 5, column C: a comment counts for nothing: write its word into the cell",
    ),
    "white text": (
        books(example(), plan={"white": ("G4",)}),
        "sheet plan, row 4, column G: 'wish' is white on white, and counts: give it a color, or"
        " delete it",
    ),
    "rest": (
        books(SHORT_REST),
        "sheet shifts, row 3, column D: Day may follow Late on the next day after 8 hours of rest,"
        " and 11 hours are usual: write Day, or other hours into the column rest",
    ),
    "rest after nights": (
        books(example(shifts_D4="Day")),
        "sheet shifts, row 4, column D: Late may follow Night on the next day after 7:15 hours of"
        " rest, and 11 hours are usual: write Day, Late, or other hours into the column rest",
    ),
}
REFUSED = {
    "two sheets": (
        [*books(example()), Sheet("plan ", PLAN)],
        "two sheets are named plan, perhaps with a blank: rename or delete one of the two",
    ),
    "a number of a week with a letter": (
        books(holiday("W4")),
        "sheet needs, row 6, column A: 'W4' is no week: write 4 for the week of the plan, or CW 4"
        " for the calendar week",
    ),
    "no week": (
        books(holiday("Christmas")),
        "sheet needs, row 6, column A: 'Christmas' is no week: write its number in the plan, from 1,"
        " a calendar week such as CW 52, or a date such as 2026-11-30",
    ),
    "German heads": (
        books(example(needs_E1="Di")),
        "sheet needs, row 1, column E: 'Di' is no column of this sheet: did you mean 'Tue'?",
    ),
    "German days of a nurse": (
        books(example(nurses_E2="Mi, Do")),
        "sheet nurses, row 2, column E: 'Mi' is no day of the week: write Wed",
    ),
    "half a day": (
        books(example(plan_B3="leave (am)")),
        "sheet plan, row 3, column B: 'leave (am)': there are no half days, and no hours of one day:"
        " write leave if she is away on the whole day, else the shift that she works, such as Day,"
        " or nothing",
    ),
    "half a day in a number": (
        books(example(plan_B3="0.5 training")),
        "sheet plan, row 3, column B: '0.5 training': there are no half days, and no hours of one"
        " day: write training if she is away on the whole day, else the shift that she works, such"
        " as Day, or nothing",
    ),
    "hours of a day": (
        books(example(plan_B3="Late 13-17")),
        "sheet plan, row 3, column B: 'Late 13-17': there are no half days, and no hours of one day:"
        " write leave if she is away on the whole day, else the shift that she works, such as Late,"
        " or nothing",
    ),
    "1 bis 2": (
        books(example(needs_D3="1 bis 2")),
        "sheet needs, row 3, column D: '1 bis 2' is no whole number: write a number such as 2, or"
        " 1+1 for 1 at least and better 2",
    ),
    "min and max": (
        books(example(needs_D3="min 1 max 2")),
        "sheet needs, row 3, column D: 'min 1 max 2' is no whole number: write a number such as 2,"
        " or 1+1 for 1 at least and better 2",
    ),
    "numbers in brackets": (
        books(example(needs_D3="2 (3)")),
        "sheet needs, row 3, column D: '2 (3)' is no whole number: write a number such as 2, or 2+1"
        " for 2 at least and better 3",
    ),
    "a time": (
        books(example(shifts_E2=datetime.time(6))),
        "sheet shifts, row 2, column E: Day: '06:00' has no times: write when the shift begins and"
        " ends, such as 06:00-14:15; all shifts have times, or none has",
    ),
    "a date in place of two numbers": (
        books(example(needs_D3=datetime.date(2026, 3, 2))),
        "sheet needs, row 3, column D: a spreadsheet has made the date 2026-03-02 of what was typed,"
        " such as 2-3 or 2/3, so write 2+1 for 2 at least and better 3",
    ),
    "a renamed sheet": (
        [*books(example())[:-1], Sheet("Dienstplan", PLAN)],
        "there is no sheet 'plan' beside shifts, contracts, nurses, needs, dienstplan: rename"
        " 'dienstplan' to plan, if that is the one",
    ),
    "a sheet with another name": (
        [*books(example())[:-1], Sheet("Dezember", PLAN)],
        "there is no sheet 'plan' beside shifts, contracts, nurses, needs, dezember: rename"
        " 'dezember' to plan, if that is the one",
    ),
}


def read(folder, form, sheets):
    """The ward of these sheets in a file of this format."""
    return ward_of(read_book(write_book(folder / f"ward.{form}", sheets)), "ward")


@pytest.mark.parametrize("form", FORMATS)
def test_the_example_has_nothing_odd(tmp_path, form):
    ward = read(tmp_path, form, books(example(), needs={"hidden_columns": ("K",)}))
    odd = [line for line in ward.warnings if "contracts supply" not in line]
    assert odd == []
    assert ward.nights == {"Night"}


@pytest.mark.parametrize("form", FORMATS)
@pytest.mark.parametrize("planted", WARNED)
def test_what_counts_though_it_is_probably_a_mistake(tmp_path, form, planted):
    sheets, said = WARNED[planted]
    assert said in read(tmp_path, form, sheets).warnings


@pytest.mark.parametrize("form", FORMATS)
@pytest.mark.parametrize("planted", REFUSED)
def test_what_is_refused(tmp_path, form, planted):
    sheets, said = REFUSED[planted]
    with pytest.raises((FileFault, FileFaults)) as caught:
        read(tmp_path, form, sheets)
    assert said in str(caught.value)


@pytest.mark.parametrize("form", FORMATS)
@pytest.mark.parametrize("week", (CHRISTMAS, "25.12.", "25 Dec", "25. December", "CW 52", "4"))
def test_the_week_of_a_bank_holiday_may_be_said_in_many_ways(tmp_path, form, week):
    ward = read(tmp_path, form, books(holiday(week)))
    assert ward.holidays == {25}
    assert not [line for line in ward.warnings if "row 6" in line]


@pytest.mark.parametrize("form", FORMATS)
@pytest.mark.parametrize("week, days", ((CHRISTMAS, {25}), ("25.12.", {25}), ("CW 52", set())))
def test_a_date_makes_a_bank_holiday_also_with_the_usual_number(tmp_path, form, week, days):
    assert read(tmp_path, form, books(holiday(week, friday="1+1"))).holidays == days


@pytest.mark.parametrize("form", FORMATS)
def test_rest_is_judged_by_the_hours_that_the_sheet_has(tmp_path, form):
    sheets = example(shifts_D3="", shifts_F1="rest", shifts_F3=8)
    assert not [line for line in read(tmp_path, form, books(sheets)).warnings if "rest" in line]
    longer = example(shifts_F1="rest", shifts_F2=16)
    said = "Day may follow Day on the next day after 15:30 hours of rest, and 16 hours are asked"
    warnings = read(tmp_path, form, books(longer)).warnings
    assert [line for line in warnings if said in line]
