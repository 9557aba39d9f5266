"""Tests of a folder that has the plans of ten years, and of one with 1000 nurses."""

import datetime
import shutil
import sys
import unittest
from dataclasses import replace
from unittest import mock

from test_calendar import CalendarTest
from test_past import today_is
from test_plans import MONDAY, TWO_WEEKS, FolderTest
from ward import HelperTest, run

from inrc2pb.plans import kept, plan_files, worked_table
from inrc2pb.plans.plan_files import NAME, read_record, record_text
from inrc2pb.plans.state import Record
from inrc2pb.plans.store import plan_texts
from inrc2pb.plans.ward import first_plan
from inrc2pb.plans.ward_folder import WardFolder
from inrc2pb.sheets.open_shifts import OpenShift
from inrc2pb.sheets.ward import read_sheet
from inrc2pb.sheets.written_days import DayWord
from inrc2pb.week.dates import PlanDays
from inrc2pb.week.records import WEEK_DAYS, NurseDay

YEARS = 10
WEEK = datetime.timedelta(days=WEEK_DAYS)
NOW = datetime.datetime(2026, 12, 1, 12, 0)


class TenYears(CalendarTest):
    def test_a_verb_writes_nothing_of_old_periods_anew(self):
        # Each period has two weeks, which have been worked as they were planned.
        plan = self.reader().current()
        (path,) = WardFolder(self.ward).all_plans()
        path.rename(self.folder / "first")
        number = 26 * YEARS
        for period in range(number):
            monday = MONDAY - datetime.timedelta(days=2 * WEEK_DAYS * (number - period))
            state = replace(plan.state, days=PlanDays(monday, 2), period=period, open_week=2)
            old = replace(plan, state=state)
            folder = self.ward / "plans" / f"{period + 1:04}-{NOW:%Y-%m-%d-%H%M}-over"
            folder.mkdir()
            for name, text in plan_texts(old, state.record("over 1", NOW)).items():
                (folder / name).write_text(text)
        (self.ward / "tables").mkdir()
        (self.ward / "tables" / "worked.csv").write_text("the table of an older version\n")
        last = replace(plan, state=replace(plan.state, period=number))
        WardFolder(self.ward).add("plan", plan_texts(last, last.state.record("plan", NOW)), NOW)
        looks = self.looks()
        self.does("page")
        now = self.looks()
        self.assertEqual({path: now[path] for path in looks}, looks)
        # Grace has ten shifts in each period, of 8:30 hours.
        periods = number + 1
        self.assertEqual(
            self.sums("roster.html")["Grace"][5:7], [str(10 * periods), str(85 * periods)]
        )
        lines = [line for path in self.tables("worked") for line in path.read_text().split("\n")]
        self.assertEqual(sum(line.startswith("Grace,") for line in lines), 10 * number)
        self.assertFalse((self.ward / "tables" / "worked.csv").exists())
        self.does_not_write_old_tables()

    def tables(self, name):
        """The tables of all years."""
        tables = sorted((self.ward / "tables").glob(f"{name}-20*"))
        self.assertEqual(len(tables), YEARS + 1)
        return tables

    def does_not_write_old_tables(self):
        """Only those of this year are written anew, and those that are not there; to see which,
        there is another text in all."""
        other = b"another text\n"
        worked, rosters = self.tables("worked"), self.tables("roster")
        for path in (*worked, *rosters):
            path.write_bytes(other)
        rosters[3].unlink()
        with mock.patch.object(worked_table, "_rows", wraps=worked_table._rows) as periods:
            self.does("page")
        self.assertLessEqual(periods.call_count, 2 * 26 + 1)
        new = {path for path in (*worked, *rosters) if path.read_bytes() != other}
        self.assertEqual(new, {worked[-1], rosters[-1], rosters[3]})

    def looks(self):
        """The times and sizes of all files of plans."""
        return {
            path: (path.stat().st_mtime_ns, path.stat().st_size)
            for path in (self.ward / "plans").glob("*/*")
        }


class ManyNurses(FolderTest):
    """Wards whose nurses, and what is needed of them, are those of the example many times."""

    WORDS = ("leave", "ill", "training", "unpaid", "away", "off", "no Late")
    VERBS = (("check",), ("page",), ("over", "--do"))

    def setUp(self):
        super().setUp()
        clock_of_test = today_is(2027, 2, 1)
        clock_of_test.start()
        self.addCleanup(clock_of_test.stop)
        # Files that have just been written are looked at again, as often as that takes.
        for module in (kept, plan_files):
            patch = mock.patch.object(module, "is_settled", lambda *_: True)
            patch.start()
            self.addCleanup(patch.stop)
        self.example = self.rows
        self.example["contracts"][1][2:5] = ["22!", "3", "5!"]
        self.example["shifts"][3][2] = "4!"
        for row, word in zip(self.example["plan"][1:], self.WORDS):
            row[8:11] = [word] * 3

    def write_ward(self, copies, periods, more=0):
        """A ward with so many copies of each nurse, and some more nurses, and its plans: of some
        periods of two weeks that are over, and of the one that runs."""
        shutil.rmtree(self.ward)
        self.ward.mkdir()
        self.rows = dict(self.example)
        for name in ("nurses", "plan"):
            head, *of_nurses = self.example[name]
            rows = [(row, number) for number in range(copies + 1) for row in of_nurses]
            rows = rows[: copies * len(of_nurses) + more]
            self.rows[name] = [head, *([f"{row[0]} {number}", *row[1:]] for row, number in rows)]
        self.rows["needs"] = [
            [
                "+".join(str(int(part) * copies) for part in cell.split("+"))
                if cell and 3 <= column < 10 and number
                else cell
                for column, cell in enumerate(row)
            ]
            for number, row in enumerate(self.example["needs"])
        ]
        self.write()
        plan = first_plan(read_sheet(self.ward)).with_cells(
            cell._replace(nurse=f"{cell.nurse}_{number}")
            for number in range(copies)
            for cell in TWO_WEEKS
        )
        for open_week, numbers in ((2, range(periods)), (0, (periods,))):
            worked = replace(plan, state=replace(plan.state, open_week=open_week))
            texts = plan_texts(worked, worked.state.record("over", NOW))
            for number in numbers:
                days = PlanDays(MONDAY - 2 * WEEK * (periods - number), 2)
                record = replace(worked.state, days=days, period=number).record("over", NOW)
                folder = self.ward / "plans" / f"{number + 1:04}-{NOW:%Y-%m-%d-%H%M}-over"
                folder.mkdir(parents=True)
                for name, text in {**texts, NAME: record_text(record)}.items():
                    (folder / name).write_text(text)

    def lines_run(self, *words):
        """How many lines of the product a verb runs."""
        number = 0

        def begins(frame, _event, _arg):
            return counts if "/inrc2pb/" in frame.f_code.co_filename else None

        def counts(_frame, event, _arg):
            nonlocal number
            number += event == "line"
            return counts

        before = sys.gettrace()
        sys.settrace(begins)
        try:
            ran = run("plan", self.ward, *words)
        finally:
            sys.settrace(before)
        self.assertIn(ran[0], (0, 6), ran)
        return number

    def test_more_nurses_take_work_in_proportion(self):
        of_sizes = []
        for copies in (1, 2, 3):
            self.write_ward(copies, 2)
            of_sizes.append([self.lines_run(*words) for words in self.VERBS])
        nurses = len(self.example["nurses"]) - 1
        for words, small, middle, large in zip(self.VERBS, *of_sizes):
            # A line for each pair of nurses would make this twice the square of their number.
            above = large - 2 * middle + small
            self.assertLess(abs(above), nurses * nurses, words)

    def test_a_year_of_1000_nurses(self):
        self.write_ward(142, 26, more=6)
        status, printed, said = run("plan", self.ward, "check")
        self.assertEqual(status, 6, said)
        self.assertIn(": 1000 nurses, 2 weeks in a period.\n", printed)


class LargestRecord(HelperTest):
    def test_the_record_of_a_year_of_1000_nurses_can_be_read_again(self):
        days = PlanDays(MONDAY, 52)
        nurses = [f"Nurse_{number}" for number in range(1000)]
        away = [DayWord(nurse, day, "leave") for nurse in nurses for day in range(28)]
        record = Record(
            "leave",
            NOW,
            days,
            absences=tuple(away),
            agreed=tuple(NurseDay(nurse, 30) for nurse in nurses),
            opened=tuple(OpenShift(day, "Late", "Nurse", 1) for day in range(days.total)),
            period=3,
        )
        folder = self.folder / "0001-2026-12-01-1200-leave"
        folder.mkdir()
        (folder / NAME).write_text(record_text(record))
        self.assertEqual(read_record(folder), record)


if __name__ == "__main__":
    unittest.main()
