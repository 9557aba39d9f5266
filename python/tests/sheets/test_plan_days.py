"""Tests of the days and weeks that the sheets name: heads of the sheet plan, and weeks of rows of
the sheet needs."""

import copy
import datetime
import unittest
from example_sheets import SHEETS, changed, made, texts
from pathlib import Path

from inrc2pb.sheets.ward import days_of
from inrc2pb.sheets.sheet_files import Book
from inrc2pb.week.faults import FileFault, FileFaults


class Heads(unittest.TestCase):
    def test_wrong_heads(self):
        whole = "whole dates such as 2026-11-30"
        days = "write one of Mon,Tue,Wed,Thu,Fri,Sat,Sun"
        once = "the plan begins on a Monday, and has each day once"
        gap = "the column before this one is no day: delete it, or move it after the last day"
        for column, text, said in (
            (14, "", ": it has 13 days: plan whole weeks, from Monday to Sunday"),
            (13, "", f", row 1, column O: {gap}"),
            (13, "# Sat", f", row 1, column O: {gap}"),
            (1, "Sun 1", f", row 1, column B: 'Sun 1' should be a Mon: {once}"),
            (3, "Tue 1", f", row 1, column D: 'Tue 1' should be a Wed: {once}"),
            (1, "2026-12-01", f", row 1, column B: '2026-12-01' should be a Mon: {once}"),
            # 1954 is the first year of dates.
            (1, "1954-01-05", f", row 1, column B: '1954-01-05' should be a Mon: {once}"),
            (1, "46357", f", row 1, column B: '2026-12-01' should be a Mon: {once}"),
            (
                1,
                "2026-02-30",
                ", row 1, column B: there is no day 2026-02-30: write a date such as 2026-11-30",
            ),
            (
                1,
                "30.11.",
                (
                    f", row 1, column B: '30.11.' is no day of the week: {days}, or {whole}, or"
                    " begin the head with #"
                ),
            ),
            *(
                (
                    1,
                    text,
                    (
                        f", row 1, column B: '{text}' may have the day or the month first: write"
                        f" {dates}"
                    ),
                )
                for text, dates in (
                    ("30/11/2026", "2026-11-30"),
                    ("11-30-2026", "2026-11-30"),
                    ("1/12/2026", "2026-12-01 or 2026-01-12"),
                )
            ),
            (
                1,
                "1900-01-29",
                (
                    ", row 1, column B: a spreadsheet makes 1900-01-29 of the number of a day:"
                    " write whole dates, such as 2026-11-30"
                ),
            ),
            (
                15,
                "Total",
                (
                    f", row 1, column P: 'Total' is no day of the week: {days}, or begin the head"
                    " with #"
                ),
            ),
            (
                2,
                "2026-12-01",
                (
                    ", row 1, column C: '2026-12-01' has a date, unlike the first day: write dates"
                    " for all days or for none"
                ),
            ),
        ):
            with self.subTest(text, column=column), self.assertRaises(FileFault) as caught:
                texts(changed("plan", 1, column, text))
            self.assertEqual(caught.exception.message, f"sheet plan{said}")

    def test_more_weeks_than_a_plan_has(self):
        # Column B has the first day, so the first one of week 53 is in column NB: 14 * 26 + 2.
        sheets = copy.deepcopy(SHEETS)
        monday = datetime.date(2026, 11, 30)
        for weeks, said in (
            (52, None),
            (
                53,
                (
                    "sheet plan, row 1, column NB: week 53 begins here, and a plan has at most 52"
                    " weeks: delete the days from here on"
                ),
            ),
        ):
            days = (monday + datetime.timedelta(days=day) for day in range(7 * weeks))
            sheets["plan"][0] = ["nurse", *map(str, days)]
            book = Book(Path("ward.ods"), sheets)
            with self.subTest(weeks):
                if said is None:
                    self.assertEqual(days_of(book).weeks, weeks)
                    continue
                with self.assertRaises(FileFault) as caught:
                    days_of(book)
                self.assertEqual(caught.exception.message, said)

    def test_mistakes_of_heads_are_reported_with_the_rows_of_other_sheets(self):
        sheets = copy.deepcopy(SHEETS)
        sheets["plan"][0][3] = "Midweek"
        sheets["contracts"][1][1] = "many"
        sheets["nurses"][0][1] = "kontrakt"
        with self.assertRaises(FileFaults) as caught:
            days_of(Book(Path("ward.ods"), sheets))
        self.assertEqual([one.message.split(": ")[0] for one in caught.exception.faults], [
            "sheet plan, row 1, column D", "sheet nurses, row 1, column B", "sheet contracts, row 2, column B",
        ])  # fmt: skip


class Weeks(unittest.TestCase):
    def test_wrong_weeks(self):
        last = "weeks are counted from 1, so write 2 for the last one"
        number = "the sheet plan has none: write the week's number, from 1"
        for text, said in (
            ("3", f"there is no week 3: {last}"),
            ("0", f"there is no week 0: {last}"),
            ("46381", f"'2026-12-25' is a date, and {number}"),
            ("25.12.2026", f"'25.12.2026' is a date, and {number}"),
        ):
            with self.subTest(text), self.assertRaises(FileFault) as caught:
                texts(changed("needs", 2, 0, text))
            self.assertEqual(caught.exception.message, f"sheet needs, row 2, column A: {said}")

    def dated(self, *weeks):
        """The example with dates from 30 November on, and these texts in the column week of the row
        of its second week, and of others."""
        sheets = copy.deepcopy(SHEETS)
        sheets["plan"][0] = [
            "nurse",
            *(f"2026-{'11-30' if not day else f'12-{day:02}'}" for day in range(14)),
        ]
        for row, week in enumerate(weeks, 5):
            sheets["needs"][row : row + 1] = [[week, *SHEETS["needs"][5][1:]]]
        return sheets

    def test_the_week_of_a_bank_holiday(self):
        # Calendar week 50 begins on 7 December.
        for text in (
            "2",
            "2026-12-07",
            "2026-12-13",
            "9.12.2026",
            "50",
            "CW 50",
            "cw50",
            "KW 50",
            "Calendar week 50",
            str(46365),
        ):
            with self.subTest(text):
                self.assertEqual(texts(self.dated(text)), texts(self.dated("2")))
                self.assertEqual(made(self.dated(text)).warnings, made(self.dated("2")).warnings)
        for text, said in (
            (
                "3",
                (
                    "there is no week 3: weeks are counted from 1, so write 2 for the last one, a"
                    " calendar week such as CW 50, or a date"
                ),
            ),
            (
                "CW 2",
                (
                    "there is no week CW 2: weeks are counted from 1, so write 2 for the last one,"
                    " a calendar week such as CW 50, or a date"
                ),
            ),
            (
                "soon",
                (
                    "'soon' is no week: write its number in the plan, from 1, a calendar week such"
                    " as CW 50, or a date such as 2026-11-30"
                ),
            ),
        ):
            with self.subTest(text), self.assertRaises(FileFault) as caught:
                texts(self.dated(text))
            self.assertEqual(caught.exception.message, f"sheet needs, row 6, column A: {said}")
        with self.assertRaises(FileFault) as caught:
            texts(changed("needs", 6, 0, "2026-12-08"))
        cure = (
            "'2026-12-08' is a date, and the sheet plan has none: write the week's number, from 1"
        )
        self.assertEqual(caught.exception.message, f"sheet needs, row 6, column A: {cure}")

    def test_a_date_of_another_period_counts_for_no_week(self):
        without = self.dated()
        del without["needs"][5:]
        for text in ("2026-11-29", "2026-12-14", "2025-12-25"):
            found = made(self.dated(text))
            line = (
                f"sheet needs, row 6: {text} is not in this plan, so the row counts for no week:"
                " correct the date, or delete the row"
            )
            self.assertEqual(
                ([one for one in found.warnings if "row 6" in one], found.texts),
                ([line], texts(without)),
            )

    def test_a_number_that_is_also_another_week_of_the_calendar(self):
        # The plan begins in calendar week 2.
        sheets = self.dated("2")
        sheets["plan"][0] = ["nurse", *(f"2027-01-{day}" for day in range(11, 25))]
        line = (
            "sheet needs, row 6: 2 is the week of the plan, Mon 18 Jan to Sun 24 Jan: write CW 2"
            " for the calendar week"
        )
        self.assertIn(line, made(sheets).warnings)
        sheets["needs"][5][0] = "CW 2"
        self.assertEqual([one for one in made(sheets).warnings if "row 6" in one], [])
        self.assertNotEqual(texts(sheets)["week-0.txt"], texts(self.dated("2"))["week-0.txt"])


if __name__ == "__main__":
    unittest.main()
