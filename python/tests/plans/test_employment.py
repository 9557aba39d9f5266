"""Tests of the columns `from` and `until` of the sheet nurses."""

import datetime
import unittest

from test_plans import DATES, MONDAY, FolderTest
from ward import run

from inrc2pb.plans.ward_folder import WardFolder
from inrc2pb.sheets.ward import read_sheet
from inrc2pb.week.dates import PlanDays
from inrc2pb.week.faults import FileFault, FileFaults
from inrc2pb.week.records import Limits

NEXT = [str(MONDAY + datetime.timedelta(days=day)) for day in range(14, 28)]


class Employment(FolderTest):
    def setUp(self):
        super().setUp()
        heads, *rows = self.rows["nurses"]
        self.rows["nurses"] = [[*heads, "from", "until"], *([*row, "", "", ""] for row in rows)]
        self.rows["plan"][7][1:] = [""] * 14
        self.rows["contracts"][1][1:3] = ["8", "10"]

    def stays(self, nurse, begin="", last=""):
        """The nurse is in the ward from a day to another one."""
        row = next(row for row in self.rows["nurses"] if row[0] == nurse)
        row[-2:] = [begin, last]
        self.write()

    def read(self):
        return read_sheet(self.ward)

    def refused(self):
        """The lines of the faults."""
        with self.assertRaises((FileFault, FileFaults)) as caught:
            self.read()
        found = caught.exception
        return [fault.message for fault in getattr(found, "faults", [found])]

    def test_on_other_days_she_is_away(self):
        self.rows["plan"][7][5] = "away"
        self.stays("Grace", DATES[5], DATES[10])
        ward = self.read()
        days = {place.day for place in ward.reasons if place.nurse == "Grace"}
        self.assertEqual(days, {*range(5), *range(11, 14)} | {4})
        # The same as away in each cell, so her contract counts in proportion.
        self.assertEqual(ward.scenario.contract_of("Grace").assignments, Limits(3, 5))
        self.assertIn("Grace is away or unpaid on 8 of 14 days", run("plan", self.ward, "check")[1])
        self.assertEqual(ward.leaving, {"Grace": 11})

    def test_a_nurse_who_is_not_in_the_ward_then(self):
        self.rows["plan"] = [
            [*self.rows["plan"][0], *NEXT],
            *([*row, *[""] * 14] for row in self.rows["plan"][1:]),
        ]
        self.rows["plan"][7][20] = "wish"
        self.stays("Grace", NEXT[0])
        self.stays("Finn", "", DATES[13])
        folder = WardFolder(self.ward)
        first = folder.ward(period=PlanDays(MONDAY, 2))
        second = folder.ward(period=PlanDays(MONDAY + datetime.timedelta(days=14), 2))
        self.assertEqual(
            {name: name in first.scenario.nurses for name in ("Finn", "Grace")},
            {"Finn": True, "Grace": False},
        )
        self.assertEqual(
            {name: name in second.scenario.nurses for name in ("Finn", "Grace")},
            {"Finn": False, "Grace": True},
        )
        self.assertEqual([wish.nurse for wish in second.weeks[0].requests], ["Grace"])

    def test_two_rows_that_meet_are_a_change_of_contract(self):
        row = [row for row in self.rows["nurses"] if row[0] == "Ewa"][0]
        self.stays("Ewa", "", DATES[3])
        self.rows["nurses"].append([*row[:1], "Full", *row[2:-2], DATES[4], ""])
        self.write()
        ward = self.read()
        # 4 of 14 days with 8 to 12 shifts and 2 weekends, and 10 with 8 to 10 and 2.
        contract = ward.scenario.contract_of("Ewa")
        self.assertEqual(contract.assignments, Limits(8, -(-(12 * 4 + 10 * 10) // 14)))
        self.assertEqual((contract.max_weekends, contract.complete_weekends), (2, True))
        self.assertNotIn("Ewa", [place.nurse for place in ward.reasons])
        self.assertEqual(list(ward.scenario.nurses).count("Ewa"), 1)
        said = run("plan", self.ward, "check")[1]
        self.assertIn("Contract Half 4 days Full 10 days (Ewa): 8 to 11 shifts", said)
        # At a period's beginning it is the later one.
        self.rows["nurses"][5][-1], self.rows["nurses"][-1][-2] = "2026-11-29", DATES[0]
        self.write()
        self.assertEqual(self.read().scenario.nurses["Ewa"].contract, "Full")

    def test_mistakes_of_the_two_columns(self):
        for begin, last, says in (
            ("soon", "", "row 8, column M: 'soon' is no date: write 2026-11-30, for example"),
            (DATES[3], DATES[1], "row 8, column N: '2026-12-01' is before '2026-12-03': correct"),
        ):
            self.stays("Grace", begin, last)
            self.assertIn(says, self.refused()[0])
        self.rows["plan"][7][3] = "wish"
        self.stays("Grace", DATES[5])
        self.assertEqual(len(self.refused()), 1)
        self.assertIn("sheet plan, row 8, column D: 'wish' is on a day on", self.refused()[0])
        self.rows["plan"][7][3] = ""
        row = self.rows["nurses"][7]
        self.rows["nurses"].append([*row[:-2], DATES[7], ""])
        for last in (DATES[5], DATES[8], ""):
            self.stays("Grace", "", last)
            self.assertIn("row 9, column M: Grace has row 8, too: let one", self.refused()[0], last)
        self.rows["nurses"][8][-2] = ""
        self.stays("Grace")
        self.assertIn("the nurse 'Grace' is there already", self.refused()[0])

    def test_days_without_dates(self):
        heads = [
            f"{name} {week}" for week in (1, 2) for name in "Mon Tue Wed Thu Fri Sat Sun".split()
        ]
        self.rows["plan"][0] = ["nurse", *heads]
        self.stays("Grace", "Wed 2")
        gone = {place.day for place in self.read().reasons if place.nurse == "Grace"}
        self.assertEqual(gone, set(range(9)))
        self.stays("Grace", DATES[5])
        self.assertIn("is a date, and the sheet plan has none: write Mon 1", self.refused()[0])


if __name__ == "__main__":
    unittest.main()
