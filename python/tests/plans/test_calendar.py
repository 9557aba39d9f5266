"""Tests of a next period that is planned before this one ends."""

import datetime
import io
import re
import shutil
import unittest
from dataclasses import replace
from unittest import mock

from test_next_period import PeriodTest
from test_past import today_is
from test_plans import MONDAY, TWO_WEEKS
from ward import HAS_CBC, run

from inrc2pb.plans.plan_files import read_state
from inrc2pb.plans.facts import breaks
from inrc2pb.plans import planning, ward_folder
from inrc2pb.plans.store import Means, plan_texts
from inrc2pb.plans.table import Verbs
from inrc2pb.plans.verb import Event
from inrc2pb.plans.ward_folder import WardFolder
from inrc2pb.programs.progress import WardProgress
from inrc2pb.week.dates import PlanDays
from inrc2pb.week.records import WEEK_DAYS, Cell

NEXT = MONDAY + datetime.timedelta(days=2 * WEEK_DAYS)
NEXT_FOLDER = f"from-{NEXT}"


class CalendarTest(PeriodTest):
    """December runs, from 30 November on, and January is the period of two weeks after it."""

    def setUp(self):
        super().setUp()
        clock_of_test = today_is(2027, 2, 1)
        clock_of_test.start()
        self.addCleanup(clock_of_test.stop)
        self.write_both()

    def write_both(self):
        """The sheet plan has the days of both periods; wishes of the first one stay."""
        heads = [str(MONDAY + datetime.timedelta(days=day)) for day in range(4 * WEEK_DAYS)]
        rows = self.rows["plan"][1:]
        self.rows["plan"] = [
            ["nurse", *heads],
            *(row[:15] + [""] * (29 - len(row[:15])) for row in rows),
        ]
        self.write()

    def plan_january(self, cells=TWO_WEEKS, least=None):
        """Writes a plan of the next period, which has these cells."""
        plan = self.reader().of_dates([str(NEXT)], plans=False).current().with_cells(cells)
        plan = plan.with_state(replace(plan.state, least=least))
        now = datetime.datetime(2026, 12, 1, 12, 0)
        WardFolder(self.ward).add("plan", plan_texts(plan, plan.state.record("plan", now)), now)

    def reader(self):
        return self.verbs()._store

    def january(self):
        return self.reader().of_dates([str(NEXT)], plans=False).current()


class PeriodRow(CalendarTest):
    def says(self, *cells):
        """The sheet of contracts has a row with the weeks of a period."""
        self.rows["contracts"].append(["period", *cells])
        self.write()

    def test_the_first_period_of_a_sheet_with_several(self):
        shutil.rmtree(self.ward / "plans")
        self.assertEqual(self.reader().current().days, PlanDays(MONDAY, 4))
        self.says(2)
        plan = self.reader().current()
        self.assertEqual(plan.days, PlanDays(MONDAY, 2))
        self.assertNotIn("period", plan.scenario.contracts)

    def test_the_next_period_has_other_weeks(self):
        self.assertEqual(self.january().days.weeks, 2)
        self.says("", 1)
        self.assertEqual(self.january().days, PlanDays(NEXT, 1))
        self.assertEqual(self.reader().current().days, PlanDays(MONDAY, 2))

    def test_mistakes(self):
        for cells, says in (
            ((), "column A: the row period has the number of weeks after which contracts begin"),
            ((2, 3), "column A: the row period has the number of weeks after which contracts"),
            ((0,), "column B: a period has at least one week"),
            (("two",), "column B: 'two' is no whole number"),
        ):
            self.says(*cells)
            self.assertIn(f"sheet contracts, row 4, {says}", run("plan", self.ward, "check")[2])
            self.rows["contracts"].pop()


class ColumnsThatAreOver(CalendarTest):
    """Week 1 is over, and week 2 runs."""

    def setUp(self):
        super().setUp()
        # Grace works from Monday to Friday, Amara from Monday to Wednesday, Finn on Friday.
        cells = {"Grace": (3, "leave"), "Chen": (1, "wish"), "Ewa": (3, "off"), "Finn": (5, "Late")}
        for row in self.rows["plan"][1:]:
            if row[0] in cells:
                day, text = cells[row[0]]
                row[day] = text
            row[2] = "no Late, Night" if row[0] == "Amara" else row[2]
            row[9] = "wish" if row[0] == "Dilek" else row[9]
            row[10] = "off" if row[0] == "Ewa" else row[10]
        self.write()
        self.does("page")
        self.does("over", "Bruno", "1.12.", "ill")

    def without(self, *days):
        """The sheet plan has not the columns of these days."""
        self.rows["plan"] = [
            [cell for column, cell in enumerate(row) if column - 1 not in days]
            for row in self.rows["plan"]
        ]
        self.write()

    def test_they_may_go_within_a_period(self):
        self.plan_january()
        self.does("page")
        before, wall = self.reader().current(), (self.ward / "wall.html").read_text()
        self.without(*range(WEEK_DAYS))
        now = self.reader().current()
        self.assertEqual(now.days, before.days)
        for name in ("reasons", "promised", "weeks", "counted", "scenario", "holidays"):
            self.assertEqual(getattr(now.ward, name), getattr(before.ward, name), name)
        self.assertEqual(set(now.ward.held), set(before.ward.held))
        self.assertEqual((set(now.limits), now.cells), (set(before.limits), before.cells))
        # Nobody has typed a word of a day that is over: what remains of it is what counts.
        self.assertEqual(now.ward.reasons["Grace", 2], "leave")
        self.does("page")
        time = re.compile("[0-9]{4}-[0-9]{2}-[0-9]{2} [0-9]{2}:[0-9]{2}|00[0-9]{2}-[-0-9a-z]+")
        again = (self.ward / "wall.html").read_text()
        self.assertEqual(time.sub("", again), time.sub("", wall))

    def test_what_is_over_can_be_corrected_without_them(self):
        self.without(*range(WEEK_DAYS))
        printed = self.does("over", "Chen", "4.12.", "ill")
        self.assertIn("Chen, Fri 4 Dec: ill instead of Night Nurse\n", printed)
        self.assertEqual(self.reader().current().ward.reasons["Chen", 4], "ill")
        for row in (*self.rows["nurses"], *self.rows["plan"]):
            row[0] = "Grace Miller" if row[0] == "Grace" else row[0]
        for row in self.rows["nurses"]:
            row[11:] = ["was" if row[0] == "nurse" else "Grace" if "Grace" in row[0] else ""]
        self.write()
        self.assertEqual(self.reader().current().ward.reasons["Grace_Miller", 2], "leave")
        self.does("over")
        self.assertTrue(self.reader().periods()[0].is_over)

    def test_days_that_are_not_over_are_missed_with_who_has_what(self):
        self.does("set", "Amara", "9.12.", "off", "--open", "--do", "--time", "0")
        plans = sorted(self.ward.glob("plans/0*"))
        rows = [list(row) for row in self.rows["plan"]]
        for gone in (
            range(2 * WEEK_DAYS),
            (8,),
            (8, 9),
            range(WEEK_DAYS, 2 * WEEK_DAYS),
            range(WEEK_DAYS, 4 * WEEK_DAYS),
        ):
            self.rows["plan"] = [list(row) for row in rows]
            self.without(*gone)
            for words in (["check"], ["page"], ["over"], ["set", "Grace", "10.12.", "off", "--do"]):
                status, _, said = run("plan", self.ward, *words)
                self.assertEqual(status, 1, said)
                self.assertIn("the plan has 2 weeks from 2026-11-30 on, and the sheet plan", said)
                self.assertIn("; Tue 8 Dec: " if 7 in gone else ": Tue 8 Dec: ", said)
                tuesday = said.partition("Tue 8 Dec: ")[2].partition(";")[0]
                self.assertIn("Dilek wish", tuesday)
                self.assertRegex(tuesday, "Grace(, [A-Za-z]+)* and [A-Za-z]+ Day|Grace Day")
                self.assertEqual("Amara off, promised" in said, 9 in gone)
                self.assertEqual("Ewa off" in said, 9 in gone)
                self.assertNotIn("1 Dec:", said.replace("11 Dec:", ""))
        self.assertEqual(sorted(self.ward.glob("plans/0*")), plans)

    def test_single_days_that_are_over_may_go(self):
        self.plan_january()
        before, january = self.reader().current(), self.january()
        rows = [list(row) for row in self.rows["plan"]]
        for gone in ((0,), (1, 2, 5), range(3), range(4, WEEK_DAYS), range(1, WEEK_DAYS)):
            self.rows["plan"] = [list(row) for row in rows]
            self.without(*gone)
            now = self.reader().current()
            for name in ("days", "reasons", "promised", "weeks", "counted", "scenario"):
                self.assertEqual(getattr(now.ward, name), getattr(before.ward, name), (name, gone))
            self.assertEqual(self.january().days, january.days)
            self.assertIn("No mistake", re.sub("warning: .*", "No mistake", self.does("check")))
        self.does("over")
        # Some days of December are left, and January runs.
        self.rows["plan"] = rows
        self.without(*range(10), 12)
        now = self.reader().current()
        self.assertEqual((now.days, now.cells), (january.days, january.cells))
        self.does("page")

    def test_undo_needs_them_again(self):
        self.without(*range(WEEK_DAYS))
        printed = self.does("undo")
        self.assertIn("its pages are not written: the plan has 2 weeks from 2026-11-30", printed)
        self.assertIn("Wed 2 Dec: ", printed)
        self.assertIn("Grace leave", printed)


@unittest.skipUnless(HAS_CBC, "cbc is not installed")
class AcrossTheBorder(CalendarTest):
    """January hangs, too. Finn has Late on the last two days of December, and on the first two of
    January."""

    def setUp(self):
        super().setUp()
        self.plan_january()
        self.does("page")
        self.does("page", str(NEXT))

    def works(self):
        """The nurses' days with shifts of both periods, counted from December's first."""
        plans = self.reader().current(), self.january()
        return {
            (cell.nurse, cell.day + first)
            for plan, first in zip(plans, (0, 2 * WEEK_DAYS))
            for cell in plan.cells
        }

    def away(self):
        """The days away that verbs have written, and their words, counted so."""
        plans = self.reader().current(), self.january()
        return {
            (one.nurse, one.day + first): one.word
            for plan, first in zip(plans, (0, 2 * WEEK_DAYS))
            for one in plan.state.absences
        }

    def folders(self):
        return sorted(path.name for path in self.ward.glob("plans/0*"))

    def test_an_illness_is_typed_once_and_taken_back_once(self):
        days = {("Finn", day) for day in range(12, 16)}
        before, folders = self.works(), self.folders()
        self.assertTrue(days <= before)
        printed = self.does("ill", "Finn", "12.12.", "15.12.", "--open")
        self.assertEqual(self.away(), dict.fromkeys(days, "ill"))
        self.assertFalse(days & self.works())
        # What it takes from each plan on the wall counts as worked.
        self.assertEqual(self.reader().current().ward.credit["Finn"], 2)
        self.assertEqual(self.january().ward.credit["Finn"], 2)
        for text in ("Sun 13 Dec: ill instead of Late", "Mon 14 Dec: ill instead of Late"):
            self.assertIn(text, printed)
        self.assertEqual(printed.count("the period from Mon 14 Dec"), 1)
        self.assertEqual(printed.count("written: "), 1)
        for name in ("wall.html", f"{NEXT_FOLDER}/wall.html"):
            self.assertIn(">ill<", (self.ward / name.replace("wall", "roster")).read_text())
        done = self.verbs().history(9)[0]
        self.assertTrue(done.text.startswith("ill Finn 12.12. 15.12. --open, "), done)
        self.assertNotIn("ill", self.verbs().history(9)[1].text)
        printed = self.does("undo")
        self.assertIn("undone: ill Finn 12.12. 15.12. --open, ", printed)
        self.assertEqual((self.works(), self.away(), self.folders()), (before, {}, folders))

    def test_who_is_back_in_december_is_back_in_january_too(self):
        said = self.runs("ill", "Finn", "12.12.", "15.12.", "--open")[2]
        self.assertIn("Finn: ill, Mon 14 Dec to Tue 15 Dec\n", said)
        said = self.runs("back", "Finn", "13.12.")[2]
        self.assertIn("Finn: back, Mon 14 Dec to Tue 15 Dec (ill)\n", said)
        words = self.reader().current().ward.reasons, self.january().ward.reasons
        self.assertEqual(words, ({("Finn", 12): "ill"}, {}))
        self.does("undo")
        self.assertEqual(len(self.away()), 4)

    def test_the_status_is_that_of_both_plans(self):
        kept = planning.unkept
        for period in (0, 1):
            unkept = mock.Mock(side_effect=lambda plan: plan.state.period == period or kept(plan))
            with mock.patch.object(planning, "unkept", unkept):
                status = self.runs("ill", "Finn", "12.12.", "15.12.", "--open")[0]
            self.assertEqual((status, len(self.away())), (6, 4), period)
            self.does("undo")

    def test_both_plans_are_written_or_none(self):
        check = ward_folder.check_readable

        def ends(folder):
            if folder.name == "next":
                raise KeyboardInterrupt
            check(folder)

        before = sorted(self.ward.rglob("*"))
        with mock.patch.object(ward_folder, "check_readable", ends):
            status = self.runs("ill", "Finn", "12.12.", "15.12.", "--open")[0]
        self.assertEqual((status, sorted(self.ward.rglob("*"))), (130, before))
        self.does("ill", "Finn", "12.12.", "15.12.", "--open")
        self.assertEqual(len(self.away()), 4)
        self.assertEqual(read_state(self.last()).period, 0)
        self.assertEqual(read_state(self.last() / "next").period, 1)

    def test_days_of_a_period_that_is_not_planned(self):
        for _ in range(2):
            self.does("undo")
        self.does("undo")
        self.assertEqual(len(self.reader().periods()), 1)
        status, _, said = self.runs("leave", "Finn", "12.12.", "15.12.")
        self.assertEqual(status, 1)
        self.assertIn("on days that are not planned yet write leave into her cells of the", said)

    def lacks_a_night(self):
        """Chen has Night on Sunday, and all others who may work it have a shift on Monday."""
        self.does("undo")
        self.does("undo")
        self.does("undo")
        days = [Cell(nurse, 0, "Day", "Nurse") for nurse in ("Chen", "Dilek", "Ewa")]
        kept = [
            cell
            for cell in TWO_WEEKS
            if (cell.nurse, cell.day) not in (("Dilek", 0), ("Chen", 0), ("Ewa", 0), ("Ewa", 1))
        ]
        self.rows["needs"][4][3] = 0
        self.write()
        self.plan_january([*kept, *days])
        self.does("page")

    def test_what_january_would_have_to_give_up_is_asked(self):
        self.lacks_a_night()
        folders = self.folders()
        status, printed, _ = self.runs("ill", "Chen", "13.12.")
        self.assertEqual((status, self.folders()), (6, folders))
        self.assertIn("Night Nurse, Sun 13 Dec: 1 nurse missing\n", printed)
        self.assertIn("Ewa may not work Night on Sun 13 Dec before Day on Mon 14 Dec", printed)
        self.assertNotIn("set Chen", printed)
        self.assertIn(
            "nothing is written: type it again with --do, and the next period gives up what it has"
            " to, or with --open, and these shifts stay open\n",
            printed,
        )
        self.does("ill", "Chen", "13.12.", "--open")
        self.assertEqual([one.word for one in read_state(self.last()).absences], ["ill"])
        self.assertEqual(len(self.reader().current().state.opened), 1)
        self.does("undo")
        printed = self.does("ill", "Chen", "13.12.", "--do")
        plan, then = self.reader().current(), self.january()
        self.assertEqual(plan.state.opened, ())
        (night,) = (cell.nurse for cell in plan.cells if (cell.day, cell.shift) == (13, "Night"))
        self.assertNotEqual(night, "Chen")
        self.assertNotIn(then.works.get((night, 0), Cell("", 0, "", "")).shift, ("Day", "Late"))
        self.assertEqual(breaks(then, 0), [])
        self.assertIn(f"{night}, Mon 14 Dec: ", printed)
        self.does("undo")
        self.assertEqual(self.folders(), folders)


class NextBeforeTheEnd(CalendarTest):
    def test_its_history_is_what_is_planned_until_then(self):
        # Chen has Night from Friday to Sunday.
        plan = self.january()
        self.assertEqual(plan.days, PlanDays(NEXT, 2))
        past = plan.past.nurses["Chen"]
        self.assertEqual(
            (past.last_shift, past.consecutive_shifts, past.assignments), ("Night", 3, 0)
        )
        self.assertTrue(plan.state.is_as_planned)

    def test_both_periods_have_pages(self):
        self.does("page")
        self.plan_january()
        printed = self.does("page", str(NEXT))
        for name in (
            "roster.html",
            "wall.html",
            f"{NEXT_FOLDER}/roster.html",
            f"{NEXT_FOLDER}/wall.html",
        ):
            self.assertTrue((self.ward / name).exists(), name)
            self.assertIn(name, printed)
        self.assertIn("27 Dec", (self.ward / NEXT_FOLDER / "wall.html").read_text())
        self.assertNotIn("14 Dec", (self.ward / "wall.html").read_text())
        # Sums of all periods count what is planned until then.
        self.assertEqual(self.sums(f"{NEXT_FOLDER}/roster.html")["Grace"][5:7], ["20", "170"])
        self.does("undo")
        self.assertFalse((self.ward / NEXT_FOLDER / "wall.html").exists())
        self.does("undo")
        self.assertFalse((self.ward / NEXT_FOLDER).exists())

    def test_verbs_take_days_of_both_periods(self):
        self.plan_january()
        self.does("set", "Grace", "16.12.", "off", "--do")
        self.assertEqual(read_state(self.last()).days.monday, NEXT)
        self.assertEqual([one.day for one in read_state(self.last()).set_days], [2])
        self.does("set", "Grace", "2.12.", "off", "--do")
        self.assertEqual(read_state(self.last()).days.monday, MONDAY)
        # Both hold, and undo takes them back one after another.
        self.assertEqual(len(self.january().state.set_days), 1)
        self.does("undo")
        self.does("undo")
        self.assertEqual(len(self.january().state.set_days), 0)
        self.assertIn("Mon 14 Dec", run("plan", self.ward, "swap", "Grace", "14.12.")[1])

    def test_no_shift_comes_before_one_of_january_that_may_not_follow_it(self):
        # Bruno works Day on Monday 14 December, which may not follow Night.
        plan = self.reader().current()
        self.assertFalse(any(one.nurse == "Bruno" and one.day == 13 for one in plan.absences))
        self.plan_january()
        plan = self.reader().current()
        held = {one.shift for one in plan.absences if (one.nurse, one.day) == ("Bruno", 13)}
        self.assertTrue({"Night", "Late"} & held)
        self.assertNotIn("Day", held)
        status, printed, _ = run("plan", self.ward, "set", "Bruno", "13.12.", "Night", "--do")
        self.assertEqual(status, 6, printed)
        self.assertIn(
            "not possible: Bruno may not work Night on Sun 13 Dec before Day on Mon 14 Dec, in the"
            " plan of the next period: set Bruno 2026-12-14 off gives that up\n",
            printed,
        )

    def test_what_the_next_period_costs_then(self):
        self.plan_january()
        # Amara has Day on Sunday and on the next three days.
        printed = self.does("set", "Amara", "13.12.", "off", "--time", "0", "--open")
        before, after = (
            int(number)
            for number in re.search(
                "the period from Mon 14 Dec costs ([0-9]+) points then instead of ([0-9]+)", printed
            ).groups()
        )
        self.assertNotEqual(before, after)
        points = self.january().view().penalty
        self.assertEqual(points, after)
        self.does("set", "Amara", "13.12.", "off", "--time", "0", "--open", "--do")
        self.assertEqual(self.january().view().penalty, before)

    @unittest.skipUnless(HAS_CBC, "cbc is not installed")
    def test_a_search_counts_what_january_costs_after_it(self):
        # Chen has Night on Sunday. Ewa, who is off, could have it, and so could Dilek, who has Day.
        self.does("page")
        self.plan_january()
        before = self.reader().current()
        january = self.january().view().penalty
        printed = self.does("ill", "Chen", "13.12.")
        self.assertIn("Dilek, Sun 13 Dec: Night Nurse instead of Day Nurse\n", printed)
        plan = self.reader().current()
        kept = [cell for cell in before.cells if cell[:2] not in (("Chen", 13), ("Dilek", 13))]
        dilek, ewa = (
            plan.with_cells([*kept, *cells])
            for cells in (
                [Cell("Dilek", 13, "Night", "Nurse")],
                [Cell("Dilek", 13, "Day", "Nurse"), Cell("Ewa", 13, "Night", "Nurse")],
            )
        )
        self.assertEqual(set(plan.cells), set(dilek.cells))
        # Ewa costs less in December, and more in both.
        self.does("undo")
        (first, then), (cheaper, more) = (
            (one.view().penalty, self.reader().following(one)[1].view().penalty)
            for one in (dilek, ewa)
        )
        self.assertLess(cheaper, first)
        self.assertLess(first + then, cheaper + more)
        self.assertIn(f"costs {then} points then instead of {january}\n", printed)

    @unittest.skipUnless(HAS_CBC, "cbc is not installed")
    def test_a_plan_says_that_it_counts_what_january_costs_after_it(self):
        sentence = "The search also counts what the next period costs after this plan."
        self.assertNotIn(sentence, self.verbs().done(Event("plan", ("2.12.",), 5)).lines())
        self.plan_january()
        told = io.StringIO()
        verbs = Verbs(WardFolder(self.ward), Means(WardProgress(told), lambda line: None))
        done = verbs.done(Event("plan", ("2.12.",), 5))
        self.assertIn(sentence, done.lines())
        self.assertIn(" points, those for the first days of the next period among", told.getvalue())
        self.assertNotIn("cannot be avoided", told.getvalue())
        self.assertLessEqual(done.bound.bound.points, sum(done.penalties.values()))
        self.assertEqual(done.bound.penalty, sum(done.penalties.values()))

    def test_the_end_of_december(self):
        self.plan_january()
        self.does("over")
        printed = self.does("over", "Bruno", "13.12.", "Night")
        self.assertIn("and with it the period is over: the plan goes on from Mon 14 Dec\n", printed)
        self.assertIn("Bruno may not work Day on Mon after Night on the Sunday before\n", printed)
        plan = self.reader().current()
        self.assertEqual((plan.days.monday, plan.past.nurses["Bruno"].last_shift), (NEXT, "Night"))
        self.assertFalse((self.ward / NEXT_FOLDER).exists())
        self.assertIn("14 Dec", (self.ward / "roster.html").read_text())
        # The columns of December may go.
        self.write_next(NEXT)
        self.assertEqual(self.reader().current().cells, plan.cells)
        self.does("over")
        self.assertEqual(read_state(self.last()).open_week, 1)

    def test_all_of_december_may_be_deleted_after_january_is_published(self):
        self.plan_january()
        self.does("over")
        self.does("over")
        self.does("page")
        plan = self.reader().current()
        for folder in (self.ward / "plans").glob("0*"):
            if folder != self.last():
                shutil.rmtree(folder)
        self.write_next(NEXT)
        for words in (("check",), ("page",), ("set", "Grace", "14.12.", "off", "--open", "--do")):
            self.does(*words, *(("--time", "0") if "set" in words else ()))
        now = self.reader().current()
        self.assertEqual((now.days, now.past), (plan.days, plan.past))
        self.assertEqual(set(now.cells), {one for one in plan.cells if one[:2] != ("Grace", 0)})

    def test_a_correction_of_december_reaches_january(self):
        self.plan_january(least=0)
        self.does("over")
        self.does("over")
        self.assertEqual(self.reader().current().state.least, 0)
        self.does("over", "Chen", "13.12.", "off")
        plan = self.reader().current()
        self.assertIsNone(plan.past.nurses["Chen"].last_shift)
        # No bound of plans after the older past holds any more.
        self.assertIsNone(plan.state.least)

    def test_a_day_of_january_is_recorded_before_december_is_over(self):
        self.plan_january()
        with today_is(2026, 12, 15):
            printed = self.does("over", "Grace", "14.12.", "off")
        self.assertIn("Grace, Mon 14 Dec: off instead of Day Nurse\n", printed)
        self.assertIn("to Mon 14 Dec as they are: no week ends\n", printed)
        state = read_state(self.last())
        self.assertEqual((state.period, state.open_week, state.begin), (1, 0, 1))
        self.assertEqual([period.open_week for period in self.reader().periods()], [0, 0])
        with today_is(2026, 12, 13):
            status, _, said = run("plan", self.ward, "over", "Grace", "14.12.", "off")
        self.assertEqual(status, 1)
        self.assertIn("Mon 14 Dec has not begun: ", said)

    def test_needs_of_a_week_are_of_one_period(self):
        row = ["", "Day", "Nurse", *[""] * 4, "1", "", ""]
        self.rows["needs"] += [["2026-12-18", *row[1:]], ["2", *row[1:]]]
        self.write()
        self.plan_january()
        self.assertNotIn("counts for no week", run("plan", self.ward, "check")[1])
        self.assertEqual(self.january().ward.holidays, {4})
        self.assertEqual(self.reader().current().ward.holidays, {11})

    def test_planned_days_without_a_column_are_a_mistake(self):
        self.plan_january()
        self.rows["plan"] = [row[:15] for row in self.rows["plan"]]
        self.write()
        for verb in ("check", "page", "over"):
            status, _, said = run("plan", self.ward, verb)
            self.assertEqual(status, 1)
            self.assertIn(
                "the plan has 2 weeks from 2026-12-14 on, and the sheet plan has other", said
            )

    def test_the_first_day_of_a_verb_names_the_period(self):
        for words, wanted in (
            ("Chen 14.12.", NEXT),
            ("Chen 14 Dec off since 2.12.", NEXT),
            ("Chen Fri off trip 14.12.", MONDAY),
            ("Mona 2026-12-14", NEXT),
            ("Chen 2.12. off trip 14.12.", MONDAY),
            ("Chen", MONDAY),
        ):
            plan = self.reader().of_dates(words.split(), plans=False).current()
            self.assertEqual(plan.days.monday, wanted, words)

    def test_a_day_that_is_in_no_period(self):
        status, _, said = run("plan", self.ward, "ill", "Chen", "2027-03-01")
        self.assertEqual(status, 1)
        self.assertIn("is not in this plan", said)

    @unittest.skipUnless(HAS_CBC, "cbc is not installed")
    def test_plan_takes_the_first_period_without_a_plan(self):
        said = self.verbs().done(Event("plan", seconds=5))
        self.assertEqual(said.plan.days.monday, NEXT)
        self.assertIn("This holds if the period before it ends as planned.", said.lines())
        first = {cell.nurse: cell.shift for cell in said.plan.cells if cell.day == 0}
        self.assertNotIn(first.get("Chen"), ("Day", "Late"))
        again = self.verbs().done(Event("plan", seconds=5))
        self.assertEqual(again.plan.days.monday, MONDAY)


if __name__ == "__main__":
    unittest.main()
