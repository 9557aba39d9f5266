"""Tests of the roster of a page: its dates, marks, legend, and the sums beside it on a wall."""

import unittest
import xml.etree.ElementTree as ElementTree
from dataclasses import replace

from test_page import MONDAY, PageTest, words
from ward import HISTORY, ROSTER, SCENARIO, WARD, WEEK, WEEK_OPTIONS

from inrc2pb.shown.page import page_text
from inrc2pb.shown.page_content import Content
from inrc2pb.shown.roster_files import RosterFiles, read_view
from inrc2pb.shown.totals import Sums
from inrc2pb.week.dates import times_of
from inrc2pb.week.records import DAYS


class Rosters(PageTest):
    def test_the_roster_and_its_dates(self):
        page = self.page(
            *WEEK_OPTIONS,
            *MONDAY,
            "--times",
            "Late=13:00-21:15",
            "--times",
            "Day=6:00-14:15",
            "--times",
            "Night=22:00-06:15",
            "--roster",
            ROSTER,
        )
        self.assertEqual(words(page.find(".//h1")), "ward, 30 Nov to 6 Dec 2026 (calendar week 49)")
        rows = self.caption(page, "Shifts")
        self.assertEqual(
            rows[0],
            [
                "nurse",
                "Mon 30 Nov",
                "Tue 1 Dec",
                "Wed 2 Dec",
                "Thu 3 Dec",
                "Fri 4 Dec",
                "Sat 5 Dec",
                "Sun 6 Dec",
            ],
        )
        chen = next(row for row in rows if row[0] == "Chen")
        refused = "Night Nurse!, a request to be off was not granted"
        self.assertEqual(
            chen[1:], ["", "", "Late Nurse", "Late Nurse", "Night Nurse", refused, "Night Nurse"]
        )
        self.assertIn("Day, 06:00 to 14:15", [words(item) for item in page.iter("li")])

    def test_several_weeks(self):
        later = self.changed(ROSTER, "0 ward", "1 ward", "later.txt")
        two = ("--sce", SCENARIO, "--his", HISTORY, "--week", WEEK, "--week", WARD / "week-1.txt")
        page = self.page(*two, *MONDAY, "--roster", ROSTER, later)
        rows = self.caption(page, "Shifts")
        self.assertEqual(
            (rows[0], rows[1][8], len(rows[2])),
            (["", "week 1, calendar week 49", "week 2, calendar week 50"], "Mon 7 Dec", 15),
        )
        self.assertEqual(rows[2][1], "DcDay Charge")
        self.assertIn("c = Charge", [words(item) for item in page.iter("li")])
        self.assertIn(
            "Amara,10,17 to 21,7 to 11 left,10,0,0,2,2,1,0,1,10".split(","),
            self.caption(page, "Totals"),
        )
        # On a wall the heads of the sums name their weeks.
        wall = self.page(
            "--only-table", "--roster", later, self.changed(ROSTER, "0 ward", "2 ward", "last.txt")
        )
        self.assertEqual(self.caption(wall, "Shifts")[0], ["", "week 2", "week 3", "weeks 2 to 3"])
        # A table of the roster has four weeks, and one of the coverage has two.
        page = self.page("--roster", *[ROSTER] * 5)
        self.assertEqual([len(one.find("thead")[0]) for one in page.iter("table")], [5, 2])
        page = self.page(
            *two,
            "--week",
            WEEK,
            "--roster",
            ROSTER,
            later,
            self.changed(ROSTER, "0 ward", "2 ward", "last.txt"),
        )
        heads = [
            one.find("thead")[0]
            for one in page.iter("table")
            if words(one.find("caption")).startswith("Nurses at each place")
        ]
        self.assertEqual([len(head) for head in heads], [3, 2])

    def test_the_dot_of_a_bank_holiday_in_the_second_week(self):
        files_of = RosterFiles([ROSTER, ROSTER], SCENARIO, [HISTORY], [WEEK, WARD / "week-1.txt"])
        page = ElementTree.fromstring(page_text(Content(read_view(files_of), holidays={11})))
        heads = [words(head) for head in page.find(".//table").iter("th")]
        days = [head for head in heads if head[:3] in DAYS]
        self.assertEqual(
            [number for number, head in enumerate(days) if "as on a bank holiday" in head], [11]
        )

    def test_only_the_table(self):
        page = self.page(
            *WEEK_OPTIONS,
            "--fix",
            ROSTER,
            "--only-table",
            "--old",
            self.changed(ROSTER, "Grace Mon", "Chen Mon"),
            "--roster",
            ROSTER,
        )
        self.assertEqual([words(one) for one in page.iter("caption")], ["Shifts of each nurse"])
        self.assertEqual([words(one) for one in page.iter("p")], ["7 nurses, 33 shifts"])
        self.assertEqual(
            [words(one) for one in page.iter("li")],
            ["\u0394 = changed since the older roster", "WE = weekends with work"],
        )
        # Beside the roster each nurse's shifts of each type, and her weekends, by the rows of the
        # file.
        rows = {row[0]: row[8:] for row in self.caption(page, "Shifts")}
        self.assertEqual(
            (rows["nurse"], rows["Finn"], rows["Grace"]),
            (["Day", "Late", "Night", "WE"], [*"0501"], [*"5000"]),
        )

    def test_the_legend_says_how_days_away_are_in_the_sums(self):
        names = ("Day", "Late", "Night")
        times = dict(
            zip(names, map(times_of, ("07:00-15:30", "14:30-23:00", "22:30-07:15"), names))
        )
        sums = {nurse: Sums(shifts=5) for nurse in ("Finn", "Grace")}
        view = read_view(RosterFiles([ROSTER]))
        page = page_text(Content(view, times=times, sums=sums, only_table=True))
        items = [words(item) for item in ElementTree.fromstring(page).iter("li")]
        self.assertEqual(
            items[-5:],
            [
                "\u03a3 = shifts in the period, with those as which days away count",
                "h = hours of these, 8:35 hours for each day away that counts as a shift",
                "Nt = nights",
                "WE = weekends with work",
                "W = wishes granted, of all",
            ],
        )

    def test_the_rows_of_a_ward_that_just_fits_a_page_are_high(self):
        content = Content(read_view(RosterFiles([ROSTER])))
        for nurses, is_roomy in ((25, True), (26, False)):
            names = [f"N{number}" for number in range(nurses)]
            shown = replace(content, view=replace(content.view, nurses=names), only_table=True)
            self.assertEqual('class="roster roomy"' in page_text(shown), is_roomy, nurses)

    def test_who_is_charged_nothing_is_named(self):
        view = read_view(RosterFiles([ROSTER], SCENARIO, [HISTORY], [WEEK]))
        charged = {charge.nurse for week in view.weeks for charge in week.charges}
        free = [nurse for nurse in view.nurses if nurse not in charged]
        self.assertTrue(free)
        self.assertIn(f"<p>Nothing is charged to {', '.join(free)}.</p>", page_text(Content(view)))

    def test_absences_show_without_the_days_that_are_kept(self):
        old = self.folder / "old.txt"
        ill = self.away("Amara=Thu", "Chen=Tue", name="ill.txt")
        kept = self.away("Amara=Thu", "Chen=Mon,Tue", name="kept.txt")
        old.write_text(ROSTER.read_text().replace("Bruno Thu", "Amara Thu"))
        for week, monday in ((ill, ""), (kept, "away")):
            page = self.page(
                "--sce",
                SCENARIO,
                "--his",
                HISTORY,
                "--week",
                week,
                "--old",
                old,
                "--roster",
                ROSTER,
            )
            rows = {row[0]: row for row in self.caption(page, "Shifts")}
            self.assertEqual(
                (rows["Chen"][1:3], rows["Amara"][4][:4], rows["Amara"][5]),
                ([monday, "away"], "away", ""),
            )
            # The older roster breaks the absence, so its penalty is left out.
            self.assertEqual(words(next(page.iter("p"))), "7 nurses, 33 shifts, penalty 20")


if __name__ == "__main__":
    unittest.main()
