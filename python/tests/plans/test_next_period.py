"""Tests of the plans of a ward's folder from one period to the next one."""

import datetime
import sys
import unittest
from dataclasses import replace
from xml.etree import ElementTree

from test_kept_plans import KeptTest
from test_plans import MONDAY, TWO_WEEKS
from ward import run

from inrc2pb.sheets.ward import read_sheet
from inrc2pb.plans.pages import worked_pages
from inrc2pb.plans.state import SetDay
from inrc2pb.plans.plan_files import read_state
from inrc2pb.sheets.written_days import with_days
from inrc2pb.plans.store import Means, plan_texts
from inrc2pb.plans.table import Verbs
from inrc2pb.plans.ward import continued
from inrc2pb.plans.ward_folder import WardFolder
from inrc2pb.programs.progress import Progress


class PeriodTest(KeptTest):
    """A ward whose period of two weeks ends."""

    def write_next(self, monday):
        """Writes the days of a period of two weeks into the sheet plan, from this Monday on, or
        without dates."""
        heads = [f"{monday + datetime.timedelta(days=day)}" for day in range(14)] if monday else []
        heads = heads or [
            f"{name} {week}"
            for week in range(2)
            for name in ("Mon", "Tue", "Wed", "Thu", "Fri", "Sat", "Sun")
        ]
        self.rows["plan"] = [["nurse", *heads], *([row[0]] for row in self.rows["plan"][1:])]
        self.write()

    def plan_next(self, cells=TWO_WEEKS):
        """Writes a plan of the period, which has the stored roster in both weeks, or these
        cells."""
        plan = self.verbs().current().with_cells(cells)
        now = datetime.datetime(2026, 12, 13, 12, 0)
        WardFolder(self.ward).add("plan", plan_texts(plan, plan.state.record("plan", now)), now)

    def verbs(self):
        """The verbs of the folder."""
        return Verbs(WardFolder(self.ward), Means(Progress(sys.stderr), print))

    def end_period(self):
        """Ends both weeks. Returns what the last verb has printed."""
        self.does("over")
        return self.does("over")

    def sums(self, page):
        """The sums of each nurse on a page."""
        tables = [
            table
            for table in ElementTree.parse(self.ward / page).iter("table")
            if "wishes of each nurse" in "".join(table.itertext())
        ]
        rows = [["".join(cell.itertext()) for cell in row] for row in tables[0].iter("tr")]
        return {row[0]: row[1:] for row in rows}


class NextPeriod(PeriodTest):
    def worked(self):
        """The names of the pages of weeks that are over."""
        return list(worked_pages(self.ward))

    def linked(self):
        """Those of them that the local page links."""
        verbs = self.verbs()
        return list(verbs.worked_pages(verbs.current()))

    def test_each_period_has_a_page_of_its_weeks(self):
        self.end_period()
        monday = MONDAY + datetime.timedelta(days=14)
        self.write_next(monday)
        self.plan_next()
        first, second = (f"worked-{day}.html" for day in (MONDAY, monday))
        before = (self.ward / first).read_bytes()
        self.assertEqual(self.linked(), [first])
        self.does("over")
        self.assertEqual(self.linked(), [second, first])
        self.assertEqual(
            (self.worked(), (self.ward / first).read_bytes()), ([second, first], before)
        )
        self.assertIn("14 Dec to 20 Dec 2026", (self.ward / second).read_text())
        self.does("undo")
        self.assertEqual(self.linked(), [first])

    def test_sums_of_the_period_and_of_all_periods(self):
        # Grace has five shifts in each week, of 8:30 hours, and Chen three nights and a weekend
        # with work.
        self.does("page")
        rows = self.sums("roster.html")
        self.assertEqual(
            (rows["Grace"], rows["Chen"]),
            (["10", "85", "0", "0", "1/1"], ["10", "86", "6", "2", "0/1"]),
        )
        (days,) = (
            row
            for row in ElementTree.parse(self.ward / "wall.html").iter("tr")
            if "".join(row.itertext()).startswith("Grace")
        )
        self.assertEqual(
            ["".join(cell.itertext()) for cell in days][-5:], ["10", "85", "0", "0", "1/1"]
        )
        self.end_period()
        self.write_next(MONDAY + datetime.timedelta(days=14))
        self.plan_next()
        self.does("page")
        rows = self.sums("roster.html")
        self.assertEqual(rows["Grace"], ["10", "85", "0", "0", "-", "20", "170", "0", "0", "1/1"])
        self.assertEqual(rows["Chen"][5:], ["20", "173", "12", "4", "0/1"])

    def test_sums_of_all_periods_are_those_of_shifts_that_were_worked(self):
        # Grace has five shifts of 8:30 hours in each week, is off on one of the last week, and ill on
        # another, which counts as a shift of 8:35 hours, the mean of the shift types.
        self.does("over")
        self.does("over", "Grace", "Thu", "off", "Grace", "Fri", "ill")
        self.write_next(MONDAY + datetime.timedelta(days=14))
        self.plan_next()
        self.does("page")
        self.assertEqual(self.sums("roster.html")["Grace"][5:7], ["19", "162"])

    def test_each_period_without_dates_has_a_page_of_its_weeks(self):
        for folder in (self.ward / "plans").glob("0*"):
            folder.rename(self.folder / folder.name)
        self.write_next(None)
        self.write_plan()
        self.end_period()
        self.assertEqual(self.worked(), ["worked-0.html"])
        before = (self.ward / "worked-0.html").read_text()
        self.assertIn("weeks 1 to 2", before)
        self.plan_next()
        self.does("over")
        self.assertEqual(self.worked(), ["worked-1.html", "worked-0.html"])
        # Undo leaves the page of the first period as it is.
        self.does("undo")
        self.does("undo")
        self.assertEqual(
            (self.worked(), (self.ward / "worked-0.html").read_text()), (["worked-0.html"], before)
        )
        self.assertEqual(self.linked(), ["worked-0.html"])

    def test_weeks_of_the_needs_count_anew(self):
        # The last row of the needs is of a bank holiday in week 2.
        self.rows["needs"].append(["2", "Day", "Nurse", *[""] * 4, "1", "", ""])
        self.write()
        row = (
            f"sheet needs, row {len(self.rows['needs'])}: weeks count anew, and this is week 2"
            " (calendar week 52), now Mon 21 Dec to Sun 27 Dec: "
        )
        self.assertNotIn("count anew", run("plan", self.ward, "check")[1])
        self.assertIn(row, self.end_period())
        self.write_next(MONDAY + datetime.timedelta(days=14))
        self.assertIn(f"warning: {row}", run("plan", self.ward, "check")[1])
        # Numbers of all weeks that change do not make the row right.
        self.rows["needs"][2][5] = "2+1"
        self.write()
        self.assertIn(f"warning: {row}", run("plan", self.ward, "check")[1])
        # After the row, its week or its days were corrected, or the row was emptied, the warning is
        # gone.
        right = ["2", "day", "Nurse", *[""] * 4, "1", "", ""]
        for other in (
            ["0", *right[1:]],
            [*right[:3], "1", *right[4:7], "", "", ""],
            [*right[:7], "2", "", ""],
            [*right[:7], "", "", ""],
        ):
            self.rows["needs"][-1] = other
            self.write()
            self.assertNotIn("count anew", run("plan", self.ward, "check")[1])
        self.rows["needs"][-1] = right
        self.write()
        self.assertIn(f"warning: {row}", run("plan", self.ward, "check")[1])
        self.plan_next()
        self.assertNotIn("count anew", run("plan", self.ward, "check")[1])

    def test_a_date_as_a_number_of_a_spreadsheet_does_not_count_anew(self):
        # 46365 is Wednesday 9 December 2026.
        self.rows["needs"].append(["46365", "Day", "Nurse", "0+1", *[""] * 6])
        self.write()
        self.assertNotIn("count anew", self.end_period())
        self.write_next(MONDAY + datetime.timedelta(days=14))
        printed = run("plan", self.ward, "check")[1]
        self.assertNotIn("count anew", printed)
        self.assertIn("2026-12-09 is not in this plan, so the row counts for no week", printed)

    def test_a_shift_type_with_another_name(self):
        # Chen has Night on the last Sunday.
        self.end_period()
        self.write_next(MONDAY + datetime.timedelta(days=14))
        for sheet in ("shifts", "needs"):
            self.rows[sheet] = [
                ["Nacht" if cell == "Night" else cell for cell in row] for row in self.rows[sheet]
            ]
        for row in self.rows["nurses"]:
            row[3:8] = [cell.replace("Night", "Nacht") for cell in row[3:8]]
        self.write()
        says = (
            "inrc2pb-plan: Chen had Night on the Sunday before the plan, and the spreadsheet has no"
            " such shift type: keep its old name\n"
        )
        for verb in ("check", "plan"):
            self.assertEqual(run("plan", self.ward, verb), (1, "", says))


class NewNames(PeriodTest):
    """Chen, who has Night on Friday, Saturday and Sunday of each week, is Chen Wu from now on."""

    SAYS = (
        "warning: sheet nurses: is Chen Wu the Chen of the last plan? If she is, write Chen into the"
        " column was of her row, so that her past is known\n"
    )

    def rename(self, older=""):
        """Writes the new name into the sheets, and the older one into the column was."""
        for row in (*self.rows["nurses"], *self.rows["plan"]):
            row[0] = "Chen Wu" if row[0] == "Chen" else row[0]
        for row in self.rows["nurses"]:
            row[11:] = ["was" if row[0] == "nurse" else older if row[0] == "Chen Wu" else ""]
        self.write()

    def test_in_the_next_period(self):
        self.end_period()
        self.write_next(MONDAY + datetime.timedelta(days=14))
        self.rename()
        printed = run("plan", self.ward, "check")[1]
        self.assertIn(self.SAYS, printed)
        self.assertIn("warning: sheet nurses: new since the last plan: Chen Wu\n", printed)
        self.assertIn("warning: sheet nurses: in the ward no more: Chen\n", printed)
        self.assertNotIn("Night on Sunday", printed)
        for older in ("Chen", "chen", "Chen Li, Chen"):
            self.rename(older)
            printed = run("plan", self.ward, "check")[1]
            self.assertNotIn("last plan", printed)
            self.assertIn("Night on Sunday: Chen Wu for 3 days", printed)

    def test_within_a_period(self):
        self.does("over")
        self.rename()
        status, _, said = run("plan", self.ward, "check")
        self.assertEqual(status, 1)
        self.assertIn("or, if she has another name now, the old one into the column was", said)
        self.rename("Chen")
        self.does("over")
        self.write_next(MONDAY + datetime.timedelta(days=14))
        self.rename("Chen")
        history = self.verbs().current().past.nurses["Chen_Wu"]
        self.assertEqual((history.last_shift, history.consecutive_shifts), ("Night", 3))

    def test_before_a_week_is_over(self):
        self.does("set", "Chen", "Mon", "off", "she asked", "--do")
        self.rename()
        self.assertIn(self.SAYS, run("plan", self.ward, "check")[1])
        self.rename("Chen")
        self.does("page")
        state = read_state(self.last())
        self.assertEqual(state.set_days, (SetDay("Chen_Wu", 0, "she asked"),))
        self.assertEqual(
            {cell.nurse for cell in state.cells},
            {cell.nurse for cell in TWO_WEEKS} ^ {"Chen", "Chen_Wu"},
        )

    def test_days_away_that_verbs_have_written(self):
        state = read_state(self.last())
        away = replace(state, absences=with_days(state.absences, "Chen", [1], "leave"))
        plan = continued(read_sheet(self.ward, None, ()), away)
        now = datetime.datetime(2026, 11, 29, 12, 0)
        WardFolder(self.ward).add("leave", plan_texts(plan, plan.state.record("leave", now)), now)
        self.rename("Chen")
        self.assertIn("Chen Wu on Tue 1 Dec", run("plan", self.ward, "check")[1])

    def test_nurses_without_a_part_of_their_names_in_common(self):
        self.end_period()
        self.write_next(MONDAY + datetime.timedelta(days=14))
        self.rename()
        for row in (*self.rows["nurses"], *self.rows["plan"]):
            row[0] = "Hana" if row[0] == "Chen Wu" else row[0]
        self.write()
        printed = run("plan", self.ward, "check")[1]
        self.assertIn("the last plan does not have Hana, and here is no row for Chen: if", printed)

    def exchange(self):
        """Chen has the name of Ewa, and Ewa that of Chen."""
        other = {"Chen": "Ewa", "Ewa": "Chen"}
        for row in (*self.rows["nurses"], *self.rows["plan"]):
            row[0] = other.get(row[0], row[0])
        for row in self.rows["nurses"]:
            row[11:] = ["was" if row[0] == "nurse" else other.get(row[0], "")]
        self.write()

    def test_two_nurses_exchange_their_names_once(self):
        before = read_state(self.last()).cells
        self.exchange()
        other = {"Chen": "Ewa", "Ewa": "Chen"}
        wanted = {cell._replace(nurse=other.get(cell.nurse, cell.nurse)) for cell in before}
        for _ in range(2):
            self.does("page")
            self.assertEqual(set(read_state(self.last()).cells), wanted)
            self.assertEqual(set(self.verbs().current().cells), wanted)
        self.does("over")
        with open(self.ward / "tables" / "worked-2026.csv", encoding="utf-8") as file:
            nights = {line.split(",")[0] for line in file if ",2026-12-04,Night" in line}
        self.assertEqual(nights, {"Ewa"})
        # Undo brings both pasts back.
        for _ in range(3):
            self.does("undo")
        self.assertEqual(set(self.verbs().current().cells), wanted)

    def test_mistakes_of_older_names(self):
        for older, says in (
            ("Grace", "row 4, column L: 'Grace' has a row: delete one of the two"),
            ("Chen Wu", "row 4, column L: 'Chen Wu' has a row: delete one of the two"),
            ("Chen, Chen", "row 4, column L: 'Chen' is the older name of two rows"),
        ):
            self.rename(older)
            self.assertIn(says, run("plan", self.ward, "check")[2])
            self.rows["nurses"][3][0] = self.rows["plan"][3][0] = "Chen"

    def test_a_shift_type_with_another_name(self):
        self.does("set", "Chen", "Fri", "Night", "--do")
        self.rows["shifts"][0].append("was")
        for sheet in ("shifts", "needs", "nurses", "plan"):
            self.rows[sheet] = [
                [cell.replace("Night", "Nacht") for cell in row] for row in self.rows[sheet]
            ]
        self.rows["shifts"][3].append("Night")
        self.rows["contracts"][0].append("was")
        self.write()
        plan = self.verbs().current()
        self.assertEqual(plan.unknown, ())
        self.assertEqual({cell.shift for cell in plan.cells}, {"Day", "Late", "Nacht"})
        self.assertEqual(plan.state.set_days[0].shift, "Nacht")
        self.assertEqual(plan.state.start.nurses["Dilek"].last_shift, "Nacht")
        self.end_period()
        self.write_next(MONDAY + datetime.timedelta(days=14))
        self.plan_next(
            [cell._replace(shift=cell.shift.replace("Night", "Nacht")) for cell in TWO_WEEKS]
        )
        self.does("page")
        self.assertEqual(self.sums("roster.html")["Chen"][5:8], ["20", "173", "12"])

    def test_sums_of_all_periods(self):
        self.end_period()
        self.write_next(MONDAY + datetime.timedelta(days=14))
        self.rename("Chen")
        self.plan_next(
            cell._replace(nurse="Chen_Wu" if cell.nurse == "Chen" else cell.nurse)
            for cell in TWO_WEEKS
        )
        self.does("page")
        self.assertEqual(self.sums("roster.html")["Chen Wu"][5:], ["20", "173", "12", "4", "0/1"])


if __name__ == "__main__":
    unittest.main()
