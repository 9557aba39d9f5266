"""Tests of corrections of what was worked, of the clock at the end of a week, and of the table of
what was worked."""

import csv
import datetime
import json
import re
import shutil
import unittest
from pathlib import Path
from unittest import mock

from test_next_period import PeriodTest
from test_plans import MONDAY, TWO_WEEKS
from ward import HAS_CBC, clock, run

from inrc2pb.plans.broken_days import without_broken
from inrc2pb.plans.exchanges import more_even
from inrc2pb.plans.offers import offers_of
from inrc2pb.plans.plan_files import read_state
from inrc2pb.plans.swaps import Swaps
from inrc2pb.plans.verb import Event
from inrc2pb.sheets.open_shifts import OpenShift
from inrc2pb.week.records import WEEK_DAYS

OLDER = Path(__file__).resolve().parents[1] / "data" / "older_version"
NEXT_MONDAY = MONDAY + datetime.timedelta(days=2 * WEEK_DAYS)


def today_is(year, month, day):
    """The clock says this date."""
    return mock.patch.object(clock, "today", lambda: datetime.date(year, month, day))


class PastTest(PeriodTest):
    """All weeks have ended, less than twelve months ago."""

    def setUp(self):
        super().setUp()
        clock_of_test = today_is(2027, 2, 1)
        clock_of_test.start()
        self.addCleanup(clock_of_test.stop)


class Corrected(PastTest):
    def table(self):
        """The rows of the table of what was worked, without the heads."""
        with open(self.ward / "tables" / "worked-2026.csv", newline="", encoding="utf-8") as file:
            return [tuple(row) for row in csv.reader(file)][1:]

    def begin_next(self):
        """Ends the period, and plans the next one."""
        self.end_period()
        self.write_next(NEXT_MONDAY)
        self.plan_next()

    def test_a_day_of_a_week_that_is_over(self):
        self.does("over")
        before = read_state(self.last())
        printed = self.does("over", "Finn", "4.12.", "off,", "Grace", "2.12.", "ill")
        self.assertIn("Finn, Fri 4 Dec: off instead of Late Nurse\n", printed)
        self.assertIn("Grace, Wed 2 Dec: ill instead of Day Nurse\n", printed)
        self.assertIn("Fri Late Nurse has 0 nurses and needs at least 1\n", printed)
        self.assertIn("this corrects week 1 (calendar week 49): no week ends\n", printed)
        now = read_state(self.last())
        gone = {cell for cell in before.cells if cell[:2] in (("Finn", 4), ("Grace", 2))}
        self.assertEqual(len(gone), 2)
        self.assertEqual((set(now.cells), now.open_week), (set(before.cells) - gone, 1))
        # The page has the new rows, and undo brings the old ones back.
        page = (self.ward / "worked-2026-11-30.html").read_text()
        self.assertIn('<span class="away">ill</span>', page)
        self.does("undo")
        self.assertNotIn(
            '<span class="away">ill</span>', (self.ward / "worked-2026-11-30.html").read_text()
        )
        self.assertEqual(read_state(self.last()).cells, before.cells)

    def test_what_follows_is_judged_again(self):
        self.does("over")
        printed = self.does("over", "Bruno", "6.12.", "Night")
        self.assertIn("Bruno may not work Day on Mon after Night on the Sunday before\n", printed)
        self.assertIn("plan again, from Mon 7 Dec on\n", printed)

    def test_corrections_of_the_week_that_ends_and_of_one_before_end_it(self):
        self.does("over")
        printed = self.does("over", "Finn", "4.12.", "off,", "Grace", "7.12.", "off")
        self.assertIn("and with it the period is over\n", printed)
        state = read_state(self.last())
        self.assertEqual(state.open_week, 2)
        works = {cell[:2] for cell in state.cells}
        self.assertFalse(works & {("Finn", 4), ("Grace", 7)})

    def test_a_period_that_is_over_before_the_next_one_is_planned(self):
        # Chen has Night on the last Sunday.
        self.end_period()
        printed = self.does("over", "Chen", "13.12.", "off")
        self.assertIn("Chen, Sun 13 Dec: off instead of Night Nurse\n", printed)
        self.assertIn("this corrects week 2 (calendar week 50): no week ends\n", printed)
        self.write_next(NEXT_MONDAY)
        self.assertNotIn("Night on Sunday: Chen", run("plan", self.ward, "check")[1])
        self.does("undo")
        self.assertIn("Night on Sunday: Chen", run("plan", self.ward, "check")[1])

    def test_a_period_that_is_over_while_the_next_one_runs(self):
        self.begin_next()
        self.does("page")
        before = self.sums("roster.html")
        printed = self.does("over", "Bruno", "13.12.", "Night")
        self.assertIn("Bruno, Sun 13 Dec: Night Nurse instead of off\n", printed)
        self.assertIn("Bruno may not work Day on Mon after Night on the Sunday before\n", printed)
        self.assertIn("plan again, from Mon 14 Dec on\n", printed)
        now = self.sums("roster.html")
        self.assertEqual(int(now["Bruno"][5]), int(before["Bruno"][5]) + 1)
        plan = self.verbs().current()
        self.assertEqual(
            (plan.days.monday, plan.past.nurses["Bruno"].last_shift), (NEXT_MONDAY, "Night")
        )
        self.assertIn("worked-2026-11-30.html", printed)
        self.does("undo")
        self.assertEqual(self.sums("roster.html"), before)
        self.assertIsNone(self.verbs().current().past.nurses["Bruno"].last_shift)

    def test_only_the_last_twelve_months(self):
        self.begin_next()
        with today_is(2027, 12, 6):
            self.does("over", "Chen", "6.12.2026", "off")
        with today_is(2027, 12, 7):
            status, _, said = run("plan", self.ward, "over", "Chen", "5.12.2026", "off")
        self.assertEqual(status, 1)
        self.assertIn("week 1 (calendar week 49), to 2026-12-06, is more than twelve months", said)

    def test_a_day_that_no_period_has(self):
        self.begin_next()
        status, _, said = run("plan", self.ward, "over", "Chen", "2026-10-01", "off")
        self.assertEqual(status, 1)
        self.assertIn("'2026-10-01' is not in this plan", said)

    def test_the_table_of_what_was_worked(self):
        self.does("page")
        self.assertFalse((self.ward / "tables" / "worked-2026.csv").exists())
        self.does(
            "over", "Finn", "Fri", "off,", "Grace", "Wed", "ill,", "Amara", "Sun", "Day/Nurse"
        )
        first = {(cell.nurse, cell.day): cell for cell in TWO_WEEKS if cell.day < WEEK_DAYS}
        wanted = {
            (nurse, str(MONDAY + datetime.timedelta(day)), cell.shift, cell.skill, cell.shift)
            for (nurse, day), cell in first.items()
        }
        friday, wednesday, sunday = (str(MONDAY + datetime.timedelta(day)) for day in (4, 2, 6))
        wanted -= {("Finn", friday, "Late", "Nurse", "Late")}
        wanted |= {("Finn", friday, "", "", "Late")}
        wanted -= {("Grace", wednesday, "Day", "Nurse", "Day")}
        wanted |= {("Grace", wednesday, "ill", "", "Day")}
        was = first.get(("Amara", 6))
        wanted = {row for row in wanted if row[:2] != ("Amara", sunday)}
        wanted |= {("Amara", sunday, "Day", "Nurse", was.shift if was else "")}
        rows = self.table()
        self.assertEqual((set(rows), len(rows)), (wanted, len(wanted)))
        self.does("undo")
        self.assertFalse((self.ward / "tables" / "worked-2026.csv").exists())

    def test_the_table_has_all_periods_and_is_never_read(self):
        self.begin_next()
        self.does("over")
        rows = self.table()
        self.assertEqual(len(rows), 3 * len([cell for cell in TWO_WEEKS if cell.day < WEEK_DAYS]))
        self.assertEqual([row[1] for row in rows], sorted(row[1] for row in rows))
        (self.ward / "tables" / "worked-2026.csv").write_text("nurse,contract\n=1+1,\n")
        self.does("over")
        self.assertGreater(len(self.table()), len(rows))


class Clock(PeriodTest):
    SAYS = "week 1 (calendar week 49) has not ended: today is {}, before Sun 6 Dec ends\n"

    def test_a_week_that_has_not_ended_asks_first(self):
        for day, text in ((2, "Wed 2 Dec"), (6, "Sun 6 Dec")):
            with today_is(2026, 12, day):
                status, printed, _ = run("plan", self.ward, "over")
            self.assertEqual(status, 6)
            self.assertIn(self.SAYS.format(text), printed)
            self.assertIn("nothing is written: type it again with --do\n", printed)
        self.assertEqual(read_state(self.last()).open_week, 0)
        with today_is(2026, 12, 2):
            self.does("over", "--do")
        self.assertEqual(read_state(self.last()).open_week, 1)

    def test_a_week_that_has_ended_does_not(self):
        with today_is(2026, 12, 7):
            self.does("over")
        self.assertEqual(read_state(self.last()).open_week, 1)

    def test_the_page_asks_once(self):
        with today_is(2026, 12, 2):
            asked = self.verbs().asked(Event("over")).question()
            self.assertIn(self.SAYS.format("Wed 2 Dec").strip(), asked)
            self.assertTrue(self.verbs().done(Event("over", on_page=True)).is_written)


class BegunDays(PeriodTest):
    """It is Wednesday of the first week."""

    def setUp(self):
        super().setUp()
        clock_of_test = today_is(2026, 12, 2)
        clock_of_test.start()
        self.addCleanup(clock_of_test.stop)
        self.does("page")

    def test_what_was_worked_is_recorded_and_no_week_ends(self):
        before = set(read_state(self.last()).cells)
        printed = self.does("over", "Finn", "Tue", "off,", "Grace", "Mon", "ill")
        self.assertIn("Finn, Tue 1 Dec: off instead of Late Nurse\n", printed)
        self.assertIn("Tue Late Nurse has 0 nurses and needs at least 1\n", printed)
        self.assertIn(
            "later plans leave all days to Tue 1 Dec as they are: no week ends\n", printed
        )
        self.assertNotIn("does not fit any more", printed)
        state = read_state(self.last())
        gone = {cell for cell in before if cell[:2] in (("Finn", 1), ("Grace", 0))}
        self.assertEqual((set(state.cells), state.open_week), (before - gone, 0))
        self.assertEqual(state.opened, (OpenShift(1, "Late", "Nurse", 1),))
        self.assertIn(
            "Late Nurse, Tue 1 Dec: 1 nurse missing", (self.ward / "wall.html").read_text()
        )
        self.does("undo")
        self.assertEqual(set(read_state(self.last()).cells), before)

    def test_a_day_away_on_which_she_was_off_is_no_day_away(self):
        self.does("over", "Grace", "Mon", "ill")
        printed = self.does("over", "Grace", "Mon", "off")
        self.assertIn("Grace: back, Mon 30 Nov\n", printed)
        self.does("over", "--do")
        table = (self.ward / "tables" / "worked-2026.csv").read_text()
        self.assertNotIn("Grace,2026-11-30,ill", table)
        for _ in range(2):
            self.does("undo")
        self.does("over", "--do")
        table = (self.ward / "tables" / "worked-2026.csv").read_text()
        self.assertIn("Grace,2026-11-30,ill,,Day\n", table)

    def test_later_verbs_leave_these_days(self):
        self.does("set", "Finn", "Tue", "Late", "--do")
        self.does("over", "Finn", "Tue", "off")
        days = {cell for cell in read_state(self.last()).cells if cell.day < 2}
        for words in (
            "set Ewa Tue Late",
            "ill Ewa Mon Fri",
            "swap Ewa Tue",
            "plan Tue",
            "back Ewa Mon",
        ):
            status, _, said = run("plan", self.ward, *words.split())
            day = "Mon 30 Nov" if "Mon" in words else "Tue 1 Dec"
            says = f"inrc2pb-plan: {day} is recorded as it was worked: the verb over corrects it\n"
            self.assertEqual((status, said), (1, says), words)
        plan = self.verbs().current()
        even = more_even(plan, plan.state.begin, 10_000)
        offers = offers_of(Swaps(plan), "Grace", 2).offers
        self.assertTrue(all(day > 1 for offer in offers for day in offer.swap.days))
        self.assertEqual({cell for cell in even.cells if cell.day < 2}, days)
        if HAS_CBC:
            self.does("plan")
            self.assertEqual({cell for cell in read_state(self.last()).cells if cell.day < 2}, days)
        self.assertEqual(read_state(self.last()).set_days, ())

    def test_what_follows_in_the_week_is_judged_again(self):
        # Chen has Late on Wednesday, which may not follow Night.
        printed = self.does("over", "Chen", "Tue", "Night")
        self.assertEqual(printed.count("Chen may not work Late on Wed after Night on Tue\n"), 1)
        self.assertIn("plan again, from Wed 2 Dec on\n", printed)
        self.assertEqual(read_state(self.last()).open_week, 0)

    @unittest.skipUnless(HAS_CBC, "cbc is not installed")
    def test_the_rest_of_a_week_in_which_a_hard_rule_was_broken_is_planned(self):
        # Night on Tuesday may not come before Late on Wednesday, nor Late then before Day.
        with today_is(2026, 12, 2):
            printed = self.does("over", "Chen", "Tue", "Night", "Chen", "Wed", "Late")
        self.assertIn("Chen may not work Late on Wed after Night on Tue\n", printed)
        worked = {cell for cell in read_state(self.last()).cells if cell.day < 3}
        printed = self.does("ill", "Grace", "Fri")
        self.assertIn("Grace, Fri 4 Dec: ill instead of Day Nurse\n", printed)
        says = "week 1 (calendar week 49) has no points, since days of it break a hard rule\n"
        self.assertIn(says, printed)
        self.assertNotIn("week 1 (calendar week 49): ", printed)
        self.does("set", "Grace", "Sat", "Day/Nurse", "--do", "--time", "0")
        self.does("plan")
        state = read_state(self.last())
        self.assertEqual({cell for cell in state.cells if cell.day < 3}, worked)
        shifts = {cell.day: cell.shift for cell in state.cells if cell.nurse == "Chen"}
        self.assertNotEqual(shifts.get(3), "Day")
        with today_is(2026, 12, 7):
            self.does("over")
        self.assertIn("week 2", self.does("plan"))

    @unittest.skipUnless(HAS_CBC, "cbc is not installed")
    def test_a_hard_rule_that_the_first_day_of_a_week_breaks(self):
        # Chen has Night on Sunday, Day on Monday, and so no Day after Late on Tuesday.
        with today_is(2026, 12, 7):
            self.does("over")
        with today_is(2026, 12, 8):
            self.does("over", "Chen", "7.12.", "Late", "Chen", "8.12.", "off")
            self.does("over", "Chen", "7.12.", "Late")
            plan = self.verbs().current()
            self.assertTrue(without_broken(plan).broken)
            self.does("ill", "Grace", "10.12.")
        state = read_state(self.last())
        shifts = {cell.day: cell.shift for cell in state.cells if cell.nurse == "Chen"}
        self.assertEqual((shifts[7], 8 in shifts), ("Late", False))

    def test_days_that_have_not_begun(self):
        for words in ("Finn Thu off", "Finn Tue off Grace 7.12. ill"):
            status, _, said = run("plan", self.ward, "over", *words.split())
            self.assertEqual(status, 1)
            self.assertRegex(
                said, "(Thu 3|Mon 7) Dec has not begun: the verb swap, or ill, changes"
            )
        self.does("over", "Amara", "Wed", "off")

    def test_a_week_of_which_a_day_is_recorded_ends(self):
        self.does("over", "Finn", "Tue", "off")
        with today_is(2026, 12, 7):
            # A day of the next week is recorded, and no week ends, and then one of the first.
            printed = self.does("over", "Grace", "7.12.", "off")
            self.assertIn("to Mon 7 Dec as they are: no week ends\n", printed)
            self.assertEqual(read_state(self.last()).open_week, 0)
            printed = self.does("over", "Amara", "Sun", "off")
        self.assertIn("week 1 (calendar week 49) is over: the plan goes on from Mon 7 Dec", printed)
        state = read_state(self.last())
        self.assertEqual((state.open_week, state.begin), (1, 8))
        with open(self.ward / "tables" / "worked-2026.csv", encoding="utf-8") as file:
            rows = [line.strip() for line in file]
        for row in ("Finn,2026-12-01,,,Late", "Amara,2026-12-06,,,Day"):
            self.assertIn(row, rows)
        with today_is(2026, 12, 14):
            self.does("over")
        with open(self.ward / "tables" / "worked-2026.csv", encoding="utf-8") as file:
            self.assertIn("Grace,2026-12-07,,,Day\n", list(file))

    def test_the_page_asks_and_says_that_no_week_ends(self):
        event = Event("over", ("Finn", "Tue", "off"), on_page=True)
        asked = self.verbs().asked(event).question()
        self.assertIn("later plans leave all days to Tue 1 Dec as they are: no week ends", asked)
        self.assertTrue(self.verbs().done(event).is_written)
        self.assertEqual(read_state(self.last()).open_week, 0)


class OlderVersion(PastTest):
    """A folder that an older version has made, and whose period it has ended: Grace was off on the last
    Thursday, and ill on the last Friday, and only the history says so."""

    def setUp(self):
        super().setUp()
        shutil.rmtree(self.ward / "plans")
        shutil.copytree(OLDER / "plans", self.ward / "plans")
        self.newer = self.ward / "plans" / "undone" / "0007-2026-12-01-1209-plan"
        shutil.copytree(self.newer, self.folder / "newer")
        shutil.rmtree(self.newer.parent)
        self.write_next(NEXT_MONDAY)

    def kept(self):
        return {
            path.relative_to(self.ward): path.read_bytes()
            for path in (self.ward / "plans").rglob("*")
            if path.is_file() and path.name != "lock"
        }

    def test_its_period_goes_on(self):
        before = self.kept()
        printed = run("plan", self.ward, "check")[1]
        self.assertIn("Night on Sunday: Chen for 3 days", printed)
        self.assertNotIn("older version", printed)
        self.plan_next()
        self.does("page")
        # The last week is as it was planned, as no folder has it as it was worked.
        self.assertEqual(self.sums("roster.html")["Grace"][5:7], ["20", "170"])
        self.assertEqual(self.verbs().current().past.nurses["Grace"].days_off, 4)
        now = self.kept()
        self.assertEqual({path: now[path] for path in before}, before)

    def test_its_weeks_can_be_corrected(self):
        self.plan_next()
        printed = self.does("over", "Grace", "10.12.", "off,", "Grace", "11.12.", "ill")
        self.assertIn("Grace, Thu 10 Dec: off instead of Day Nurse\n", printed)
        self.does("page")
        self.assertEqual(self.sums("roster.html")["Grace"][5:7], ["18", "153"])
        self.does("over", "Chen", "13.12.", "off")
        self.assertIsNone(self.verbs().current().past.nurses["Chen"].last_shift)

    def test_its_last_week_is_as_planned_and_never_said_to_be_worked(self):
        self.plan_next()
        self.does("page")
        with open(self.ward / "tables" / "worked-2026.csv", encoding="utf-8") as file:
            days = {line.split(",")[1] for line in file}
        last = str(MONDAY + datetime.timedelta(days=6))
        self.assertEqual(max(days - {"date"}), last)

    def as_planned(self):
        """The weeks of which the page of the weeks that are over says that they are as planned."""
        page = (self.ward / "worked-2026-11-30.html").read_text()
        self.assertIn("30 Nov to 13 Dec 2026", page)
        return re.findall("As planned: (week [^.]*). How it was worked is not known.", page)

    def last_worked(self):
        """The last day in the table of what was worked."""
        lines = (self.ward / "tables" / "worked-2026.csv").read_text().splitlines()
        return max(line.split(",")[1] for line in lines[1:])

    def test_its_last_week_stays_as_planned_until_it_is_corrected(self):
        last = ["week 2 (calendar week 50)"]
        self.plan_next()
        self.does("over", "Amara", "30.11.", "off")
        self.assertEqual(self.as_planned(), last)
        self.assertEqual(read_state(self.last()).as_planned, (1,))
        self.assertEqual(self.last_worked(), "2026-12-06")
        self.does("over", "Amara", "7.12.", "off")
        self.assertEqual(self.as_planned(), [])
        self.assertEqual(self.last_worked(), "2026-12-13")
        for _ in range(2):
            self.does("undo")
            self.assertEqual(self.as_planned(), last)
            self.assertEqual(self.last_worked(), "2026-12-06")

    def test_a_plan_that_the_older_version_has_taken_back(self):
        # It has refused a plan of a later one, whose cure was its undo.
        said = (OLDER / "said.txt").read_text()
        self.assertIn(f"plans/{self.newer.name}/plan.json: this file was changed: it has", said)
        self.assertIn("or type undo to go back to the plan before it", said)
        self.assertIn(f"undone: {self.newer.name}\n", said)
        shutil.copytree(self.folder / "newer", self.newer)
        printed = run("plan", self.ward, "check")[1]
        self.assertIn(
            f"warning: plans/undone/{self.newer.name} was taken back, perhaps by an older", printed
        )
        self.assertIn(": move it into plans to take that back\n", printed)
        self.newer.rename(self.ward / "plans" / self.newer.name)
        self.assertNotIn("older version", run("plan", self.ward, "check")[1])
        self.assertEqual(self.verbs().current().state.period, 1)
        self.assertTrue(self.verbs().current().is_planned)

    def test_a_plan_of_now_is_no_plan_of_it(self):
        # It refuses a record that has not the names that it knows, and says these.
        (names,) = set(
            re.findall("it has not the names ([^:]*):", (OLDER / "said.txt").read_text())
        )
        self.plan_next()
        record = json.loads((self.last() / "plan.json").read_text())
        self.assertEqual(set(record) - set(names.split(", ")), {"period"})
        for path in OLDER.glob("plans/0*/plan.json"):
            self.assertEqual(set(json.loads(path.read_text())), set(names.split(", ")))


if __name__ == "__main__":
    unittest.main()
