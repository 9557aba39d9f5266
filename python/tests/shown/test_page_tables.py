"""Tests of the tables of a page below its roster: totals, also as text and as a spreadsheet,
wishes, changes and coverage."""

import csv
import io
import unittest

from test_page import MONDAY, PageTest, words
from ward import HISTORY, ROSTER, SCENARIO, WEEK, WEEK_OPTIONS, run


class Totals(PageTest):
    def test_the_table_and_the_spreadsheet(self):
        printed = run("roster", "show", *WEEK_OPTIONS, "--roster", ROSTER)[1]
        self.assertRegex(printed, r"(?m)^Chen .*  0 2 3  5/17-21  1/2       0/1       10  S4 10$")
        self.assertNotIn(
            "weekends", run("roster", "show", "--sce", SCENARIO, "--roster", ROSTER)[1]
        )
        chen = next(
            row
            for row in csv.reader(
                io.StringIO(run("roster", "show", *WEEK_OPTIONS, "--csv", "--roster", ROSTER)[1])
            )
            if row[0] == "Chen"
        )
        self.assertEqual(
            chen[8:], ["10", "S4 10", "5", "17", "21", "1", "2", "1", "0", "0", "2", "3"]
        )

    def test_the_last_week_says_what_is_missed(self):
        ward = self.changed(SCENARIO, "WEEKS = 4", "WEEKS = 1", "ward.txt")
        ward.write_text(ward.read_text().replace("Half (8,11)", "Half (2,4)"))
        rows = self.caption(
            self.page("--sce", ward, "--his", HISTORY, "--week", WEEK, "--roster", ROSTER), "Totals"
        )
        self.assertEqual({row[0]: row[3] for row in rows}, {
            "nurse": "difference", "Amara": "12 too few", "Bruno": "12 too few", "Chen": "12 too few", "Dilek": "12 too few", "Ewa": "within",
            "Finn": "1 too many", "Grace": "12 too few"})  # fmt: skip

    def test_on_duty_while_away(self):
        asked = "Chen Any Sat\n" * 30 + "Amara Any Thu\n" * 30 + "Grace Day Mon\n" * 30
        week = self.changed(
            WEEK, "SHIFT_OFF_REQUESTS = 5\n", f"SHIFT_OFF_REQUESTS = 95\n{asked}", "week.txt"
        )
        given = ("--sce", SCENARIO, "--his", HISTORY, "--week", week, "--roster", ROSTER)
        printed = run("roster", "show", *given)[1]
        self.assertIn("Night Nu#", printed)
        self.assertIn(
            "\n# = on duty while away, or on a shift type that she never works\n", printed
        )
        self.assertRegex(printed, r"(?m)^Grace  Day Nu#  ")
        # An absence is no wish.
        self.assertRegex(printed, r"(?m)^Chen .* 0 2 3  5/17-21  1/2       - ")
        self.assertIn("Night Nurse #", run("roster", "show", *given, "--csv")[1])
        self.assertIn(
            "310  S4  Chen, Sat: on Night, while away (31 requests)\n",
            run("roster", "why", *given)[1],
        )
        rows = {row[0]: row for row in self.caption(self.page(*given), "Shifts")}
        self.assertEqual(
            (rows["Chen"][6], rows["Amara"][4]),
            ("Night Nurse#, on duty while away, or on a shift type that she never works", "away"),
        )


class Tables(PageTest):
    def test_totals_coverage_wishes_and_charges(self):
        page = self.page(*WEEK_OPTIONS, "--roster", ROSTER)
        rows = self.caption(page, "Totals")
        self.assertEqual(
            rows[0],
            "nurse,shifts,contract,difference,Day,Late,Night,weekends,at"
            " most,wishes,granted,missed,cost".split(","),
        )
        self.assertIn("Chen,5,17 to 21,12 to 16 left,0,2,3,1,2,1,0,1,10".split(","), rows)
        self.assertIn(["Grace", "Tue no Night", ""], self.caption(page, "Wishes"))
        self.assertIn(["Dilek", "", "Fri off"], self.caption(page, "Wishes"))
        covered = self.caption(page, "Nurses at each place")
        self.assertEqual(
            covered[2][:3],
            ["Day Nurse", "2 1\u20132minimum 1, best 2", "2 1\u20132minimum 1, best 2"],
        )
        folds = [words(part) for part in page.iter("details")]
        self.assertEqual(
            folds,
            [
                "Chen: 10 (S4 10)10 (S4) Sat: on Night, and asked to be off",
                "Dilek: 10 (S4 10)10 (S4) Fri: on Day, and asked to be off",
            ],
        )

    def test_places_with_too_few_and_too_many(self):
        roster = self.changed(ROSTER, "Amara Mon Day Charge", "Amara Mon Day Nurse")
        page = self.page(*WEEK_OPTIONS, "--roster", roster)
        rows = self.caption(page, "Nurses at each place")
        self.assertEqual((rows[1][1], rows[2][1]), (
            "0 \u22121!1 too few, below the minimum 1\u20131minimum 1, best 1", "3 +11 too many 1\u20132minimum 1, best 2"))  # fmt: skip
        # The two have colors of their own, and no other cell has one.
        colored = [
            (name, words(cell)[:3])
            for cell in page.iter("td")
            for name in cell.get("class", "").split()
            if name in ("few", "more")
        ]
        self.assertEqual(colored, [("few", "0 \u2212"), ("more", "3 +")])
        self.assertIn(
            "the roster breaks H2: Mon Day Charge has 0 nurses and needs at least 1",
            [words(part) for part in page.iter("p")],
        )
        self.assertEqual(list(page.iter("details")), [])
        # A page without costs does not explain the names of rules.
        wall = self.page(*WEEK_OPTIONS, "--only-table", "--roster", roster)
        self.assertIn(
            "below the minimum number: Mon Day Charge has 0 nurses and needs at least 1",
            [words(part) for part in wall.iter("p")],
        )

    def test_a_place_at_its_minimum_is_not_below_it(self):
        roster = self.changed(ROSTER, "Bruno Mon Day Nurse\n", "")
        roster.write_text(roster.read_text().replace("= 33", "= 32"))
        rows = self.caption(self.page(*WEEK_OPTIONS, "--roster", roster), "Nurses at each place")
        self.assertEqual(rows[2][1], "1 \u221211 too few 1\u20132minimum 1, best 2")

    def test_changes(self):
        other = self.changed(ROSTER, "Grace Mon Day Nurse", "Chen Mon Late Nurse")
        page = self.page(*MONDAY, "--old", ROSTER, "--roster", other)
        self.assertEqual(
            self.caption(page, "2 changes")[1:],
            [
                ["Chen", "Mon 30 Nov", "off", "Late Nurse"],
                ["Grace", "Mon 30 Nov", "Day Nurse", "off"],
            ],
        )
        grace = next(row for row in self.caption(page, "Shifts") if row[0] == "Grace")
        self.assertEqual(grace[1], "off\u0394 changed since the older roster, instead of Day Nurse")
        self.assertIn(
            "Nothing is changed since the older roster.",
            [words(part) for part in self.page("--old", ROSTER, "--roster", ROSTER).iter("p")],
        )


if __name__ == "__main__":
    unittest.main()
