"""Tests of the verbs `new` and `files` of `inrc2pb-plan`: the files that they make of sheets, and
wrong cells."""

import copy
import csv
import datetime
import io
import os
import re
import unittest
from example_sheets import DATA, SHEETS, changed, made, texts
from pathlib import Path
from ward import HelperTest, files, run

from inrc2pb.commands import ward
from inrc2pb.sheets.ward import days_of, ward_of
from inrc2pb.judging.absences import absences_of
from inrc2pb.judging.limits import with_given
from inrc2pb.judging.rules import charges
from inrc2pb.sheets.plan_sheets import AWAY
from inrc2pb.sheets.sheet_files import Book, read_book
from inrc2pb.week.facts import Charged, Claim, read_facts
from inrc2pb.week.faults import FileFault, FileFaults, fault_line
from inrc2pb.week.records import Absence, Place, Requirement, Week

NAMES = [
    "ward.txt",
    "history-0.txt",
    "facts.txt",
    "reasons.txt",
    "week-0.txt",
    "fix-0.txt",
    "week-1.txt",
    "fix-1.txt",
]


class Contents(unittest.TestCase):
    def read(self, sheets, reasons=()):
        found = texts(sheets, reasons)
        scenario = files.read_scenario("ward.txt", found["ward.txt"])
        claims = read_facts("g", scenario, text=found["facts.txt"])
        return (
            scenario,
            files.read_history("h", scenario, found["history-0.txt"]),
            [
                with_given(
                    scenario,
                    files.read_week("w", scenario, found[f"week-{number}.txt"]),
                    claims,
                    number,
                )
                for number in (0, 1)
            ],
            [
                files.read_solution("f", scenario, found[f"fix-{number}.txt"]).cells
                for number in (0, 1)
            ],
        )

    def test_the_example(self):
        scenario, history, weeks, held = self.read(SHEETS)
        self.assertEqual(
            (scenario.name, scenario.weeks, scenario.skills, len(scenario.nurses)),
            ("ward", 2, ("Charge", "Nurse"), 8),
        )
        self.assertEqual(scenario.shift_types["Night"].forbidden_next, ("Day", "Late"))
        self.assertEqual(scenario.contracts["Half"].complete_weekends, False)
        self.assertEqual(
            (history.nurses["Dilek"].last_shift, history.nurses["Dilek"].working_days), ("Night", 3)
        )
        place = Place(0, "Day", "Nurse")
        self.assertEqual(
            [week.requirements[place] for week in weeks], [Requirement(1, 2), Requirement(0, 1)]
        )
        always = {Absence("Finn", 2, None), *(Absence("Ewa", day, "Night") for day in range(7))}
        self.assertEqual(absences_of(weeks[0]), always)
        self.assertEqual(
            absences_of(weeks[1]),
            {*always, Absence("Amara_Koch", 0, None), Absence("Amara_Koch", 1, None)},
        )
        self.assertEqual([row.row() for row in held[1]], ["Grace Mon Day Nurse"])
        self.assertEqual(
            [
                (one.nurse, one.shift, one.day)
                for one in weeks[0].requests
                if one.nurse in ("Chen", "Grace")
            ],
            [("Chen", None, 5), ("Grace", "Night", 1)],
        )

    def test_leave_counts_as_work_if_it_is_said(self):
        # Full asks for 8 shifts in 14 days: two days are 1.1 shifts.
        for reasons, shifts in (((), 0), (("ill",), 0), (("leave",), 2)):
            self.assertEqual(self.read(SHEETS, reasons)[1].nurses["Amara_Koch"].assignments, shifts)

    def test_a_contract_counts_in_proportion_to_the_days_of_a_nurse(self):
        sheets = copy.deepcopy(SHEETS)
        sheets["contracts"][1][2] = "11!"
        # Bruno leaves after a week and a day; Finn, whose contract has no limit, is on unpaid leave
        # on a day.
        sheets["plan"][2][9:] = ["away"] * 6
        sheets["contracts"][2][2] = ""
        sheets["plan"][6][1] = "unpaid"
        scenario, _, weeks, _ = self.read(sheets)
        bruno, finn = (scenario.contract_of(nurse) for nurse in ("Bruno", "Finn"))
        # 8 of 14 days: of 8 to 11 shifts these are 4.6 to 6.3; 13 of 14: of 4 shifts 3.7.
        self.assertEqual(
            (bruno.name, bruno.assignments), ("Full_8_of_14_days_any_days_off", (4, 7))
        )
        self.assertEqual(
            (finn.name, finn.assignments, finn.days_off), ("Half_13_of_14_days", (3, 9999), (2, 5))
        )
        self.assertEqual((bruno.working_days, bruno.max_weekends), ((3, 5), 1))
        # Her limit holds like the limits of the others, who keep their contract.
        self.assertIn(("Bruno", "SHIFTS", 0), weeks[0].limits)
        self.assertEqual(scenario.contract_of("Chen"), scenario.contracts["Full"])

    def test_leave_is_not_charged_as_days_off_in_a_row(self):
        sheets = copy.deepcopy(SHEETS)
        for words, days_off in (
            # Full has at most 3 days off in a row, and Grace was off on Saturday and Sunday.
            (["leave"], (2, 3)),
            (["leave", "leave"], (2, 9999)),
            (["", "ill", "leave", "training"], (2, 3)),
            (["", "ill", "leave", "training", "leave"], (2, 9999)),
            (["", "leave", "leave", "", "leave", "leave"], (2, 3)),
        ):
            with self.subTest(words):
                sheets["plan"][7] = ["Grace", *words, *[""] * (14 - len(words))]
                scenario, history, weeks, _ = self.read(sheets, ("ill", "leave", "training"))
                self.assertEqual(scenario.contract_of("Grace").days_off, days_off)
                off = [
                    charge
                    for charge in charges(Week(scenario, history, weeks[0]), ())
                    if (charge.nurse, charge.rule) == ("Grace", "S3")
                ]
                self.assertEqual(bool(off), days_off == (2, 3))

    def test_empty_limits_are_none(self):
        sheets = copy.deepcopy(SHEETS)
        sheets["contracts"][1] = ["Full"]
        contract = self.read(sheets)[0].contracts["Full"]
        self.assertEqual(
            (contract.assignments, contract.working_days, contract.max_weekends),
            ((0, 9999), (0, 9999), 9999),
        )

    def test_numbers_of_the_needs(self):
        for text, wanted in (
            ("", (0, 0)),
            ("-", (0, 0)),
            ("3", (3, 3)),
            ("2+1", (2, 3)),
            ("2..4", (2, 4)),
            ("(1,2)", (1, 2)),
            ("2,0", (2, 2)),
            ("2.0", (2, 2)),
        ):
            data = self.read(changed("needs", 2, 3, text))[2][0]
            self.assertEqual(
                data.requirements[Place(0, "Day", "Charge")], Requirement(*wanted), text
            )

    def test_wrong_cells(self):
        for sheet, row, column, text, said in (
            (
                "shifts",
                1,
                1,
                "min in row",
                (
                    "row 1, column B: 'min in row' is no column of this sheet: did you mean 'min in"
                    " a row'?"
                ),
            ),
            ("shifts", 1, 0, "type", "no row has the head 'shift': write shift into the first row"),
            *(
                (
                    "shifts",
                    2,
                    0,
                    text,
                    (
                        f"row 2, column A: '{text}' has a meaning of its own in the ward's files:"
                        " use another name"
                    ),
                )
                for text in ("Any", "Off", "wish", *AWAY)
            ),
            (
                "shifts",
                3,
                0,
                "day",
                "row 3, column A: the shift type 'day' is there already: use another name",
            ),
            (
                "shifts",
                2,
                0,
                "",
                (
                    "row 2, column A: the cell is empty: write the name of the shift type, or"
                    " delete the row"
                ),
            ),
            (
                "shifts",
                2,
                0,
                "D (long)",
                (
                    "row 2, column A: 'D (long)' has one of the signs ( ) , =: write the name"
                    " without it"
                ),
            ),
            ("shifts", 3, 3, "Dya", "row 3, column D: 'Dya' is no shift type: did you mean Day?"),
            (
                "shifts",
                2,
                1,
                "7",
                "row 2, column B: the minimum 7 is above the maximum 5: correct one of the two",
            ),
            (
                "contracts",
                2,
                1,
                "9.5",
                "row 2, column B: '9.5' is no whole number: shifts are counted, not hours",
            ),
            (
                "contracts",
                2,
                1,
                "50.00%",
                (
                    "row 2, column B: '50.00%' is no whole number: write the number itself, not a"
                    " part of another one"
                ),
            ),
            ("contracts", 2, 1, "O", "row 2, column B: 'O' is no whole number: write the digit 0"),
            (
                "contracts",
                2,
                8,
                "maybe",
                "row 2, column I: 'maybe' is neither yes nor no: write yes or no",
            ),
            ("nurses", 2, 1, "Ful", "row 2, column B: 'Ful' is no contract: did you mean Full?"),
            (
                "nurses",
                2,
                2,
                "",
                (
                    "row 2, column C: the cell is empty: write the nurse's skills, such as Charge,"
                    " Nurse"
                ),
            ),
            (
                "nurses",
                3,
                0,
                "Amara Koch",
                "row 3, column A: the nurse 'Amara Koch' is there already: use another name",
            ),
            (
                "nurses",
                1,
                4,
                "off days",
                (
                    "row 1, column E: 'off days' is no column of this sheet: did you mean 'always"
                    " off'?"
                ),
            ),
            (
                "nurses",
                1,
                3,
                "nights",
                (
                    "row 1, column D: 'nights' is no column of this sheet: delete it, or begin its"
                    " head with #"
                ),
            ),
            (
                "nurses",
                2,
                2,
                "Charge Nurse",
                (
                    "row 2, column C: 'Charge Nurse' is no skill of the sheet needs, and has"
                    " several in it: write commas between skills"
                ),
            ),
            (
                "nurses",
                2,
                2,
                "charge+Nurse",
                (
                    "row 2, column C: 'charge+Nurse' is no skill of the sheet needs, and has"
                    " several in it: write commas between skills"
                ),
            ),
            (
                "nurses",
                2,
                2,
                "Nurse, Chrage",
                (
                    "row 2, column C: no row of the sheet needs has the skill 'Chrage': write"
                    " Charge if you mean it, else add a row for it"
                ),
            ),
            *(
                (
                    "nurses",
                    2,
                    4,
                    text,
                    (
                        f"row 2, column E: '{text}' is no day of the week: write days with commas"
                        " between, such as Mon, Tue"
                    ),
                )
                for text in ("W", "Monday and Tue", "Mon Tue", "Mon-Wed", "Mon+Tue", "Sunrise")
            ),
            (
                "needs",
                1,
                3,
                "Mo",
                "row 1, column D: 'Mo' is no column of this sheet: did you mean 'Mon'?",
            ),
            (
                "needs",
                2,
                3,
                "46083",
                (
                    "row 2, column D: 46083 is more than 9999: a spreadsheet makes such a number of"
                    " 2-3 or 2/3, so write 2+1 for 2 at least and better 3"
                ),
            ),
            *(
                (
                    "needs",
                    2,
                    3,
                    text,
                    (
                        f"row 2, column D: '{text}' is no whole number: write a number such as 2,"
                        f" or {pair}"
                    ),
                )
                for text, pair in (
                    ("2-3", "2+1 for 2 at least and better 3"),
                    ("1 \u2013 4", "1+3 for 1 at least and better 4"),
                    ("0/2", "0+2 for 0 at least and better 2"),
                    *(
                        (text, "2+1 for 2 at least and better 3")
                        for text in ("4-4", "3-2", "02.03.2026", "3-Feb", "two")
                    ),
                )
            ),
            *(
                (
                    "needs",
                    2,
                    3,
                    text,
                    (
                        f"row 2, column D: '{text}' is no whole number, or it is two numbers: write"
                        f" 2 or 3, or {pair}"
                    ),
                )
                for text, pair in (
                    ("2,5", "2+3 for 2 at least and better 5"),
                    ("2.5", "2+3 for 2 at least and better 5"),
                    ("2,1", "2+1 for 2 at least and better 3"),
                )
            ),
            *(
                (
                    "needs",
                    2,
                    3,
                    text,
                    (
                        f"row 2, column D: '{text}' is no whole number: write 4, or 4+1 for 4 at"
                        " least and better 5"
                    ),
                )
                for text in ("ca. 4", "~4", "at least 4", "4 nurses", "4?")
            ),
            (
                "contracts",
                2,
                3,
                "3-5",
                "row 2, column D: '3-5' is no whole number: write a number such as 2",
            ),
            (
                "contracts",
                2,
                3,
                "46145",
                (
                    "row 2, column D: 46145 is more than 9999: a spreadsheet makes such a number of"
                    " 2-3 or 2/3, so write one number"
                ),
            ),
            (
                "needs",
                2,
                3,
                "3..2",
                (
                    "row 2, column D: at least 3 are needed, and 2 are best: write the smaller"
                    " number first"
                ),
            ),
            (
                "needs",
                2,
                2,
                "Char",
                "row 2, column C: 'Char' is no skill of the sheet nurses: did you mean Charge?",
            ),
            (
                "needs",
                4,
                1,
                "Day",
                "row 4, column B: Day Nurse has a row already: delete one, or write its week",
            ),
            (
                "plan",
                2,
                0,
                "Amara",
                (
                    "row 2, column A: 'Amara' is no nurse of the sheet nurses: did you mean Amara"
                    " Koch?"
                ),
            ),
            (
                "plan",
                3,
                0,
                "Legend: x",
                (
                    "row 3, column A: 'Legend: x' is no nurse of the sheet nurses: write one of"
                    " Amara Koch, Bruno, Chen, Dilek, Ewa, Finn, Grace, Hana, or delete the row"
                ),
            ),
            (
                "needs",
                3,
                1,
                "Total",
                (
                    "row 3, column B: 'Total' is no shift type: write one of Day, Late, Night, or"
                    " delete the row"
                ),
            ),
            (
                "plan",
                3,
                0,
                "Amara Koch",
                "row 3, column A: Amara Koch has a row already: put everything into one row",
            ),
            ("plan", 2, 1, "Dya", "row 2, column B: 'Dya' is no shift type: did you mean Day?"),
            (
                "plan",
                2,
                1,
                "trainin",
                "row 2, column B: 'trainin' is no shift type: did you mean training?",
            ),
            (
                "plan",
                2,
                1,
                "Xyz",
                (
                    "row 2, column B: 'Xyz' is no shift type: write one of Day, Late, Night, wish,"
                    " off, away, ill, leave, unpaid, training, no Day"
                ),
            ),
            (
                "plan",
                2,
                1,
                "Day",
                (
                    "row 2, column B: Amara Koch has more than one skill for it: write Day/Charge,"
                    " for example"
                ),
            ),
            (
                "plan",
                4,
                1,
                "Day/Charge",
                "row 4, column B: 'Charge' is no skill of Chen: write one of Nurse",
            ),
            (
                "plan",
                4,
                1,
                "Day",
                (
                    "row 4, column B: Chen may not work Day on the day after Late: change one of"
                    " the two"
                ),
            ),
            (
                "plan",
                6,
                3,
                "Night/Nurse",
                (
                    "row 6, column D: Ewa never works this shift or is always off on this day, by"
                    " the sheet nurses: change one of the two"
                ),
            ),
            (
                "contracts",
                2,
                2,
                "1,000",
                "row 2, column C: '1,000' is no whole number: write 1 or 1000",
            ),
            *(
                (
                    "contracts",
                    2,
                    2,
                    text,
                    (
                        f"row 2, column C: '{text}' is no whole number: write a number such as 2,"
                        " or leave the cell empty"
                    ),
                )
                for text in ("-", "n/a")
            ),
            (
                "contracts",
                2,
                2,
                "0",
                (
                    "row 2, column B: the minimum 8 is above the maximum 0: correct one of the two;"
                    " for no limit leave the cell empty"
                ),
            ),
            (
                "nurses",
                2,
                1,
                "",
                "row 2, column B: the cell is empty: write a contract, or delete the row",
            ),
        ):
            with (
                self.subTest(sheet=sheet, row=row, text=text),
                self.assertRaises(FileFault) as caught,
            ):
                texts(changed(sheet, row, column, text))
            where = f"sheet {sheet}" + (", " if said.startswith("row") else ": ")
            self.assertEqual(str(caught.exception), f"ward.ods: {where}{said}")

    def test_sheets_and_columns_that_are_missing(self):
        sheets = {name: rows for name, rows in SHEETS.items() if name != "needs"}
        with self.assertRaises(FileFault) as caught:
            texts(sheets)
        cure = "add it; the verb new writes an example of all sheets into a new folder"
        self.assertEqual(
            caught.exception.message,
            f"there is no sheet 'needs' beside shifts, contracts, nurses, plan: {cure}",
        )
        # It is a fault of no line.
        self.assertNotIn(" line ", fault_line(caught.exception))
        for sheet, column, name in (("nurses", 2, "skills"), ("needs", 9, "sun")):
            with self.assertRaises(FileFault) as caught:
                texts(changed(sheet, 1, column, ""))
            self.assertEqual(
                caught.exception.message,
                f"sheet {sheet}, row 1: there is no column '{name}': add it",
            )
        for sheet, kind, most in (("shifts", "shift types", 16), ("contracts", "contracts", 64)):
            with self.assertRaises(FileFault) as caught:
                texts(
                    {
                        **SHEETS,
                        sheet: SHEETS[sheet][:1] + [[f"n{number}"] for number in range(most + 1)],
                    }
                )
            self.assertEqual(
                caught.exception.message,
                (
                    f"sheet {sheet}: it has {most + 1} {kind}, and a ward has 1 to {most}: correct"
                    " the rows"
                ),
            )

    def test_cells_without_a_head(self):
        for sheet, row, column, place in (
            ("plan", 3, 15, "row 3, column P"),
            ("plan", 4, 6, "row 4, column G"),
            ("shifts", 3, 3, "row 3, column D"),
            ("contracts", 2, 8, "row 2, column I"),
            ("nurses", 9, 12, "row 9, column M"),
            ("needs", 6, 0, "row 6, column A"),
        ):
            sheets = changed(sheet, row, column, "Late")
            sheets[sheet][0][column : column + 1] = [" "]
            with self.subTest(place), self.assertRaises(FileFault) as caught:
                texts(sheets)
            said = "'Late' has no head above it: write one into row 1, or # to leave the column out"
            self.assertEqual(caught.exception.message, f"sheet {sheet}, {place}: {said}")

    def test_the_first_cell_of_each_column_without_a_head_is_reported(self):
        sheets = changed("plan", 5, 17, "x")
        for row, column in ((3, 16), (6, 16), (7, 17)):
            sheets["plan"][row - 1] += [""] * (column + 1 - len(sheets["plan"][row - 1]))
            sheets["plan"][row - 1][column] = "Late"
        with self.assertRaises(FileFaults) as caught:
            texts(sheets)
        self.assertEqual(
            [one.message.split(" has")[0] for one in caught.exception.faults],
            ["sheet plan, row 3, column Q: 'Late'", "sheet plan, row 5, column R: 'x'"],
        )
        sheets["plan"][0] += ["", "# late", "Note"]
        self.assertEqual(texts(sheets), texts(SHEETS))

    def test_all_mistakes_of_a_sheet_are_reported(self):
        for sheet, cells, places in (
            ("shifts", ((2, 3, "Dya"), (3, 1, "9")), ("row 2, column D", "row 3, column B")),
            ("contracts", ((2, 1, "9.5"), (3, 8, "maybe")), ("row 2, column B", "row 3, column I")),
            (
                "nurses",
                ((1, 3, "nevr"), (1, 4, "off days")),
                ("row 1, column D", "row 1, column E"),
            ),
            (
                "nurses",
                ((2, 4, "Mon-Wed"), (3, 2, "Charge Nurse"), (4, 1, "Ful")),
                ("row 2, column E", "row 3, column C", "row 4, column B"),
            ),
            ("needs", ((2, 3, "x"), (3, 1, "Dya")), ("row 2, column D", "row 3, column B")),
            (
                "plan",
                ((2, 1, "Dya"), (2, 3, "trainin"), (3, 0, "Brno")),
                ("row 3, column A", "row 2, column B", "row 2, column D"),
            ),
        ):
            sheets = copy.deepcopy(SHEETS)
            for row, column, text in cells:
                sheets[sheet][row - 1][column] = text
            with self.subTest(sheet), self.assertRaises(FileFaults) as caught:
                texts(sheets)
            self.assertEqual(
                [one.message.split(": ")[0] for one in caught.exception.faults],
                [f"sheet {sheet}, {place}" for place in places],
            )

    def test_days_on_which_a_nurse_is_always_off(self):
        for text in ("Mon,Tue", "monday, TUESDAY", "Mon; Tuesday", "Mon / Tue"):
            absences = absences_of(self.read(changed("nurses", 9, 4, text))[2][0])
            self.assertEqual({one.day for one in absences if one.nurse == "Hana"}, {0, 1}, text)

    def test_a_promised_day_off_is_kept_as_an_absence(self):
        absences = absences_of(self.read(changed("plan", 9, 3, "off"))[2][0])
        self.assertEqual(
            {(one.day, one.shift) for one in absences if one.nurse == "Hana"}, {(2, None)}
        )

    def test_skills(self):
        # A skill with a blank, one of two skills with a blank between, and one that nobody needs.
        sheets = changed("needs", 2, 2, "Charge Nurse")
        for row in (2, 3, 6, 9):
            sheets["nurses"][row - 1][2] = "Charge Nurse, Nurse"
        self.assertEqual(self.read(sheets)[0].skills, ("Charge_Nurse", "Nurse"))
        sheets["nurses"][1][2] = "Nurse Charge Nurse"
        with self.assertRaises(FileFault) as caught:
            texts(sheets)
        self.assertIn("row 2, column C: 'Nurse Charge Nurse' is no skill", caught.exception.message)
        book = Book(Path("ward.ods"), changed("nurses", 2, 2, "Charge, Nurse, Wound care"))
        found = ward_of(book, "ward", reasons=())
        self.assertIn(
            "sheet nurses: no row of the sheet needs has the skill Wound_care", found.warnings
        )

    def test_more_absences_than_a_file_has_rows(self):
        sheets = copy.deepcopy(SHEETS)
        for number in range(300):
            sheets["nurses"].append([f"n{number}", "Full", "Nurse", "Day"])
        self.assertIn("week-0.txt", texts(sheets))
        for row in sheets["nurses"][9:]:
            row[3] = "Day, Late"
        sheets["nurses"] += [[f"m{number}", "Full", "Nurse", "Day"] for number in range(150)]
        with self.assertRaises(FileFault) as caught:
            texts(sheets)
        # 300 nurses with 28 absences, 150 with 14, Ewa with 14, Finn with 2, and 2 days of leave.
        self.assertIn(
            "they have 10518 days away, and a file 9999 facts at most", caught.exception.message
        )

    def test_absences_as_requests(self):
        found = made(SHEETS)
        found = found.texts_of(found.with_requests())
        scenario = files.read_scenario("ward.txt", found["ward.txt"])
        # Ewa never works Night, and Finn is off on Wednesdays: 8 absences with 200 requests each,
        # and 5 wishes.
        data = files.read_week("w", scenario, found["week-0.txt"])
        self.assertEqual((len(data.requests), len(absences_of(data))), (1605, 8))
        self.assertEqual(
            len(files.read_week("w", scenario, texts(SHEETS)["week-0.txt"]).requests), 5
        )

    def test_limits_that_hold(self):
        def limits(sheets):
            found = texts(sheets)
            scenario = files.read_scenario("ward.txt", found["ward.txt"])
            return scenario, {
                claim
                for claim in read_facts("g", scenario, text=found["facts.txt"])
                if isinstance(claim.fact, Charged)
            }

        sheets = changed("contracts", 3, 2, "6!")
        scenario, found = limits(sheets)
        self.assertEqual(
            (scenario.contracts["Half"].assignments.maximum, found),
            (6, {Claim(Charged("SHIFTS", nurse, 0)) for nurse in ("Ewa", "Finn")}),
        )
        # A default for all contracts, and an empty cell.
        sheets["contracts"][0] = [
            head.replace("weekends", "Weekends !", head == "weekends")
            for head in sheets["contracts"][0]
        ]
        sheets["contracts"][1][7] = ""
        self.assertEqual(
            limits(sheets)[1] - found,
            {Claim(Charged("WEEKENDS", nurse, 0)) for nurse in ("Ewa", "Finn")},
        )
        # Finn has worked more shifts than his contract allows before the plan.
        sheets["nurses"][6][5] = "9"
        self.assertIn(Claim(Charged("SHIFTS", "Finn", 3)), limits(sheets)[1])
        for row, column, text, said in (
            (
                2,
                2,
                "!",
                "row 2, column C: there is no number before the sign !: write one, such as 10!",
            ),
            (
                2,
                1,
                "8!",
                (
                    "row 2, column B: '8!' is no whole number: the sign ! is for shifts max, work"
                    " max, weekends and max in a row"
                ),
            ),
            (
                1,
                5,
                "off min!",
                "row 1, column F: the sign ! is for shifts max, work max, weekends: delete it here",
            ),
        ):
            with self.assertRaises(FileFault) as caught:
                texts(changed("contracts", row, column, text))
            self.assertEqual(caught.exception.message, f"sheet contracts, {said}")

    def test_a_maximum_of_days_in_a_row_on_a_shift_type_that_holds(self):
        self.assertEqual(made(SHEETS).kept_runs, set())
        ward = made(changed("shifts", 4, 2, "3!"))
        self.assertEqual(ward.kept_runs, {"Night"})
        self.assertEqual(ward.scenario.shift_types["Night"].consecutive, (2, 3))
        self.assertEqual(
            made(changed("shifts", 1, 2, "max in a row!")).kept_runs, {"Day", "Late", "Night"}
        )
        for row, column, text, said in (
            (4, 2, "!3", "row 4, column C: '!3' has the sign ! before the number: write 3!"),
            (
                1,
                1,
                "min in a row!",
                "row 1, column B: the sign ! is for max in a row: delete it here",
            ),
        ):
            with self.assertRaises(FileFault) as caught:
                texts(changed("shifts", row, column, text))
            self.assertEqual(caught.exception.message, f"sheet shifts, {said}")

    def test_reasons_of_absences(self):
        self.assertEqual(
            texts(SHEETS)["reasons.txt"],
            "REASONS\nward\n\nROWS = 2\n2 Amara_Koch Mon leave\n2 Amara_Koch Tue leave\n",
        )
        self.assertIn("HOLDS CHOICE 2 Amara_Koch Mon None\n", texts(SHEETS)["facts.txt"])

    def test_an_empty_cell_of_a_week_is_the_cell_of_all_weeks(self):
        data = self.read(changed("needs", 6, 4, ""))[2][1]
        # Week 2 has 0+1 on Monday, and nothing on Tuesday: all weeks have 1+1 there.
        self.assertEqual(
            [data.requirements[Place(day, "Day", "Nurse")] for day in (0, 1)],
            [Requirement(0, 1), Requirement(1, 2)],
        )

    def test_empty_cells_of_the_past_are_0(self):
        # Amara has worked no shifts and no weekends in the period.
        for column in (5, 6):
            self.assertEqual(
                texts(changed("nurses", 2, column, ""))["history-0.txt"],
                texts(SHEETS)["history-0.txt"],
            )

    def test_all_mistakes_of_all_sheets_are_reported_at_once(self):
        sheets = copy.deepcopy(SHEETS)
        for sheet, row, column, text in (
            ("shifts", 2, 2, "5x"),
            ("contracts", 2, 2, "11 !!"),
            ("contracts", 2, 4, "6!x"),
            ("nurses", 3, 1, "Ful"),
            ("nurses", 3, 3, "Nihgt"),
            ("needs", 3, 4, "1 or 2 or 3"),
            ("plan", 2, 3, "trainin"),
            ("plan", 4, 0, "Brno"),
        ):
            sheets[sheet][row - 1][column] = text
        with self.assertRaises(FileFaults) as caught:
            texts(sheets)
        self.assertEqual([one.message for one in caught.exception.faults], [
            "sheet shifts, row 2, column C: '5x' is no whole number: write 5",
            "sheet contracts, row 2, column C: '11 !!' has the sign ! more than once: write 11!",
            "sheet contracts, row 2, column E: '6!x' is no whole number: write a number such as 2",
            "sheet nurses, row 3, column B: 'Ful' is no contract: did you mean Full?",
            "sheet nurses, row 3, column D: 'Nihgt' is no shift type: did you mean Night?",
            "sheet needs, row 3, column E: '1 or 2 or 3' is no whole number: write a number such as 2, or 2+1 for 2 at least and better 3",
            "sheet plan, row 4, column A: 'Brno' is no nurse of the sheet nurses: did you mean Bruno?",
            "sheet plan, row 2, column D: 'trainin' is no shift type: did you mean training?",
        ])  # fmt: skip

    def test_a_name_with_a_mistake_is_no_mistake_wherever_it_stands(self):
        # The shift type and the nurse stand in other sheets as they are meant.
        for sheet, row, column, text in (
            ("shifts", 2, 0, "off"),
            ("nurses", 4, 0, "Chen (new)"),
            ("contracts", 2, 0, ""),
        ):
            with self.subTest(sheet), self.assertRaises(FileFault) as caught:
                texts(changed(sheet, row, column, text))
            self.assertTrue(
                caught.exception.message.startswith(f"sheet {sheet}, row {row}, column A: ")
            )

    def test_words_that_mean_another_one(self):
        for text, cure in (
            ("sick", "'sick' is no word of the plan: write ill"),
            ("Vacation", "'Vacation' is no word of the plan: write leave"),
            ("day off", "'day off' is no word of the plan: write wish, or off if it is promised"),
            (
                "wish Night",
                (
                    "'wish Night': a wish is a day off: write wish, or no Night if she would rather"
                    " not have Night"
                ),
            ),
        ):
            with self.subTest(text), self.assertRaises(FileFault) as caught:
                texts(changed("plan", 2, 3, text))
            self.assertEqual(caught.exception.message, f"sheet plan, row 2, column D: {cure}")
        with self.assertRaises(FileFault) as caught:
            texts(changed("contracts", 2, 2, "!11"))
        cure = "'!11' has the sign ! before the number: write 11!"
        self.assertEqual(caught.exception.message, f"sheet contracts, row 2, column C: {cure}")

    def test_fixed_shifts_in_a_row_above_a_maximum(self):
        sheets = changed("contracts", 2, 4, "5!")
        sheets["plan"][7][2:8] = ["Day"] * 6
        # She has Day on the second Monday already.
        span = "Tue of week 1 to Mon of week 2"
        line = (
            f"sheet plan: Grace has 7 fixed shifts in a row, {span}, and never works more than 5:"
            " take some of them out, or the sign ! from work max"
        )
        self.assertEqual([one for one in made(sheets).warnings if "fixed" in one], [line])
        sheets["contracts"][1][4] = "5"
        self.assertEqual([one for one in made(sheets).warnings if "fixed" in one], [])

    def test_a_night_after_which_everything_may_follow(self):
        sheets = copy.deepcopy(SHEETS)
        sheets["shifts"][3][3] = ""
        line = (
            "sheet shifts: each shift type may follow Night on the next day: write those that may"
            " not into 'not followed by'"
        )
        self.assertIn(line, made(sheets).warnings)
        self.assertNotIn(line, made(SHEETS).warnings)

    def test_names_that_are_numbers(self):
        sheets = copy.deepcopy(SHEETS)
        for sheet in ("nurses", "plan"):
            sheets[sheet][3][0] = "12"
        line = (
            "sheet nurses, row 4: the name of the nurse is the number 12: write a name, or leave it"
            " if it is meant so"
        )
        self.assertIn(line, made(sheets).warnings)

    def test_older_names(self):
        # Column L has them; Amara Koch and Bruno are in rows 2 and 3.
        for cells, said in (
            (("Amara, Amara Ott", ""), None),
            (("bruno", ""), "row 2, column L: 'bruno' has a row: delete one of the two, or empty"),
            (("Amara Koch", ""), "row 2, column L: 'Amara Koch' has a row: delete one of the two"),
            (
                ("Ott", "ott"),
                "row 3, column L: 'ott' is the older name of two rows: empty one of the cells",
            ),
        ):
            sheets = copy.deepcopy(SHEETS)
            for row, text in enumerate(cells, 1):
                sheets["nurses"][row][11:] = [text]
            with self.subTest(cells):
                if said is None:
                    older = {"amara": "Amara_Koch", "amara_ott": "Amara_Koch"}
                    self.assertEqual({one.older: one.now for one in made(sheets).was}, older)
                    continue
                with self.assertRaises(FileFault) as caught:
                    made(sheets)
                self.assertIn(said, caught.exception.message)

    def test_signs_without_a_width(self):
        self.assertEqual(texts(changed("plan", 4, 0, "Chen\u200b")), texts(SHEETS))

    def test_no_shift_without_a_blank(self):
        for text in ("nonight", "no-Night", "NO NIGHT", "not night"):
            requests = self.read(changed("plan", 8, 2, text))[2][0].requests
            self.assertEqual(
                [(one.shift, one.day) for one in requests if one.nurse == "Grace"],
                [("Night", 1)],
                text,
            )

    def test_what_the_ward_seems_to_mean(self):
        night = copy.deepcopy(SHEETS)
        night["shifts"][1:] = [
            ["Day", "2", "5", "Late, Night"],
            ["Late", "2", "4", "Night"],
            ["Night", "2", "4", ""],
        ]
        missing = copy.deepcopy(SHEETS)
        del missing["plan"][3]
        for sheets, line in (
            (
                changed("nurses", 7, 3, "Day, Late, Night"),
                (
                    "sheet nurses: Finn never works: correct what she never works, or when she is"
                    " always off"
                ),
            ),
            (
                night,
                (
                    "sheet shifts: Night may not follow Day, and each shift type may follow Night:"
                    " is 'not followed by' the other way round?"
                ),
            ),
            (
                missing,
                (
                    "sheet plan: Chen has no row: she has no wishes and no absences; if she has"
                    " some, add a row"
                ),
            ),
        ):
            self.assertIn(line, made(sheets).warnings)
            self.assertNotIn(line, made(SHEETS).warnings)

    def test_best_numbers_above_what_contracts_supply(self):
        sheets = changed("contracts", 2, 2, "8")
        # Day Charge 14, Day Nurse 12 and 11, Late and Night 14 each; six nurses have 8 shifts, and
        # two have 6.
        asks = (
            "sheet needs: the best numbers ask for 65 shifts, the minimum numbers for 51, and the"
            " contracts supply at most 60 beside absences"
        )
        self.assertIn(
            (
                f"{asks}: each shift above costs 20 points, and a nurse below a best number 30:"
                " lower best numbers"
            ),
            made(sheets).warnings,
        )
        sheets["contracts"][0][2] = "shifts max!"
        self.assertIn(
            f"{asks}: 5 will be missing, for 30 points each: lower best numbers",
            made(sheets).warnings,
        )
        sheets["contracts"][1][1:3] = ["4", "6"]
        few = asks.replace("at most 60", "at most 48")
        self.assertIn(
            f"{few}: 3 too many to keep the limits that hold: lower minimum numbers",
            made(sheets).warnings,
        )
        self.assertFalse([line for line in made(SHEETS).warnings if "supply at most" in line])


class Command(HelperTest):
    def test_the_template_is_a_ward(self):
        folder = self.folder / "new"
        out = self.folder / "out"
        book = folder / "ward.ods"
        status, printed, said = run("plan", folder, "new")
        says = (
            f"written: {book}; change its rows into those of your ward, then type: inrc2pb-plan"
            f" {folder} check\n"
        )
        self.assertEqual((status, printed, said), (0, says, ""))
        status, printed, said = run("plan", folder, "files", "--out", out)
        self.assertEqual((status, said), (0, ""))
        names = [*NAMES, "week-2.txt", "fix-2.txt", "week-3.txt", "fix-3.txt"]
        self.assertRegex(
            printed.splitlines()[0],
            (
                "the best numbers ask for 132 shifts, .* and the contracts supply at most 130"
                " beside absences"
            ),
        )
        self.assertEqual(
            printed.split("\n", 1)[1],
            (
                f"{out}: {', '.join(names)}\nChen: 3 days away count as 3 shifts in"
                " history-0.txt\nFinn: 1 day away counts as 1 shift in history-0.txt\n"
            ),
        )
        words = (
            "--sce",
            out / "ward.txt",
            "--his",
            out / "history-0.txt",
            "--week",
            out / "week-0.txt",
            "--fix",
            out / "fix-0.txt",
        )
        status, printed, _ = run("roster", "check", *words)
        self.assertEqual((status, printed.splitlines()[-1]), (0, "No mistake found."))
        # Its notes are not read. A maximum with the sign, and the row of a bank holiday, are as
        # they say.
        sheets = read_book(book).sheets
        self.assertEqual(
            [row[4] for row in sheets["shifts"]],
            ["times", "07:00-15:30", "14:30-23:00", "22:30-07:15"],
        )
        contracts = sheets["contracts"]
        needs = sheets["needs"]
        self.assertEqual((contracts[0][9], needs[0][10]), ("note", "note"))
        example = texts(sheets)
        words = re.search(
            "with (.+) for week, (.+) for shift, (.+) for skill, and (.+) for Fri", needs[2][10]
        )
        contracts[1][2] = contracts[1][9].split(" ")[0]
        needs.append([*words.groups()[:3], "", "", "", "", words[4]])
        found = texts(sheets)
        self.assertEqual(
            [name for name in found if found[name] != example[name]], ["facts.txt", "week-2.txt"]
        )
        self.assertIn("Day Nurse (1,2) (1,2) (1,2) (1,2) (0,1) (0,1) (0,1)\n", found["week-2.txt"])
        self.assert_fault(
            run("plan", folder, "new"),
            f"inrc2pb-plan: {folder} has a spreadsheet: give a new folder",
        )

    def test_the_template_begins_on_the_next_monday(self):
        # 28 November 2026 is a Saturday, and who begins on a Monday plans from the next one on.
        for number, (today, monday) in enumerate(
            (
                ("2026-11-28", "2026-11-30"),
                ("2026-11-30", "2026-12-07"),
                ("2026-12-31", "2027-01-04"),
            )
        ):
            folder = self.folder / f"ward {number}"
            ward.new(folder, datetime.date.fromisoformat(today))
            book = read_book(folder / "ward.ods")
            days = days_of(book)
            self.assertEqual((str(days.monday), days.weeks), (monday, 4))
            # Each is a date for a spreadsheet program, which goes on with it if the row is filled.
            self.assertEqual(book.sheets["plan"][0][:2], ["nurse", monday])
            friday = days.monday + datetime.timedelta(days=18)
            self.assertIn(
                f"is a bank holiday: one more row, with {friday} for week, ",
                book.sheets["needs"][2][10],
            )

    def test_a_path_with_a_blank_is_printed_in_quotes(self):
        folder = self.folder / "my ward"
        self.assertIn(f"inrc2pb-plan '{folder}' check\n", run("plan", folder, "new")[1])

    def test_the_files_go_into_the_folder_of_the_ward(self):
        folder = self.folder / "my ward"
        self.assertEqual(run("plan", folder, "new")[0], 0)
        self.assertEqual(run("plan", folder, "files", "--requests")[0], 0)
        self.assertIn("SCENARIO = ward\n", (folder / "ward.txt").read_text())
        self.assertEqual(run("plan", folder, "check")[0], 0)
        # A spreadsheet may be given itself.
        book = DATA / "libreoffice.ods"
        out = self.folder / "out"
        self.assertEqual(run("plan", book, "files", "--out", out)[0], 0)
        self.assertIn("SCENARIO = libreoffice\n", (out / "ward.txt").read_text())

    def test_later_histories_without_the_credit_of_leave(self):
        out = self.folder / "out"
        words = ("plan", DATA / "libreoffice.ods", "files", "--out", out, "--credit", "none")
        said = (
            f"{out}: warning: history-0.txt has new numbers of Amara Koch, and {{}} the old ones:"
            " make {} again with inrc2pb-roster next or inrc2pb-solve"
        )
        self.assertEqual(run(*words)[0], 0)
        (out / "history-1.txt").write_text("")
        self.assertNotIn("again", run(*words)[1])
        # Two days of leave in week 2.
        self.assertEqual(run(*words[:-2])[1].splitlines()[-1], said.format("history-1.txt", "it"))
        self.assertNotIn("again", run(*words[:-2])[1])
        self.assertEqual(run(*words)[1].splitlines()[-1], said.format("history-1.txt", "it"))

    def test_days_on_which_too_few_are_there(self):
        sheets = copy.deepcopy(SHEETS)
        for row in sheets["plan"][1:]:
            row[3] = "ill"
        book = Book(Path("ward.ods"), sheets)
        warnings = ward_of(book, "ward", reasons=()).warnings
        self.assertIn(
            ": no roster that keeps every absence can meet it: lower minimum numbers by ",
            [line for line in warnings if line.startswith("sheet needs, week 1: Wed: ")][0],
        )

    def test_faults(self):
        book = DATA / "libreoffice.ods"
        out = self.folder / "out"
        away = "away,ill,leave,unpaid,training, or none"
        for words, said in (
            (
                (self.folder, "files"),
                (
                    f"{self.folder} has no spreadsheet: put the ward's .ods or .xlsx file into it,"
                    " or give a new folder and `new`"
                ),
            ),
            (
                (book, "files", "--out", out, "--credit", "holiday"),
                f"--credit holiday: 'holiday' is no reason to be away: give some of {away}",
            ),
            (
                (book, "check", "--out", out),
                "--out, --credit and --requests are for files: leave them out",
            ),
            ((book, "files", "Fri"), "'Fri' is a word too many: files has none"),
        ):
            self.assert_fault(run("plan", *words), f"inrc2pb-plan: {said}")
        self.assertFalse(out.exists())
        missing = self.folder / "none.ods"
        line = (
            f"inrc2pb-plan: {missing} is no folder: give the folder that has the ward's spreadsheet"
        )
        self.assert_fault(run("plan", missing, "files", "--out", out), line)

    def test_many_faults(self):
        folder = self.folder / "sheets"
        folder.mkdir()
        for name, rows in SHEETS.items():
            wrong = [
                [cell if not column or not number else "x" for column, cell in enumerate(row)]
                for number, row in enumerate(rows)
            ]
            text = io.StringIO()
            csv.writer(text).writerows(wrong if name == "plan" else rows)
            (folder / f"{name}.csv").write_text(text.getvalue())
        status, printed, said = run("plan", folder, "files", "--out", self.folder / "out")
        lines = said.splitlines()
        self.assertEqual(
            (status, printed, len(lines), lines[-1]),
            (1, "", 21, "inrc2pb-plan: and 92 more such faults"),
        )
        self.assertTrue(
            lines[19].startswith(
                f"inrc2pb-plan: {folder}: sheet plan, row 3, column G: 'x' is no shift type"
            ),
            lines[19],
        )

    def test_no_file_is_half_written(self):
        out = self.folder / "out"
        (out / "fix-1.txt").mkdir(parents=True)
        line = (
            f"inrc2pb-plan: {out / 'fix-1.txt'}: Is a directory: this is a folder: name a file"
            " in it"
        )
        self.assert_fault(run("plan", DATA / "libreoffice.ods", "files", "--out", out), line, 3)
        self.assertEqual(os.listdir(out), ["fix-1.txt"])
        file = self.folder / "file"
        file.write_text("")
        status, _, said = run("plan", DATA / "libreoffice.ods", "files", "--out", file)
        self.assertEqual(
            (status, said),
            (3, f"inrc2pb-plan: {file}: File exists: choose another name, or remove this file\n"),
        )


if __name__ == "__main__":
    unittest.main()
