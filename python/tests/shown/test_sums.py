"""Tests of what nurses have in a period and in all of them: shifts, hours, nights, weekends and
wishes that are granted."""

import datetime
import unittest

from ward import HISTORY, ROSTER, SCENARIO, WARD as FOLDER, WEEK, HelperTest, files

from inrc2pb.shown.roster_files import RosterFiles, read_view
from inrc2pb.shown.totals import Sums, sum_heads, sums_of, totals, worked
from inrc2pb.week.dates import times_of
from inrc2pb.week.records import DAYS, Cell, Request

WARD = files.read_scenario(SCENARIO)
CELLS = files.read_solution(ROSTER).cells
# The times of the example: 8:30, 8:30 and 8:45 hours.
TIMES = {
    name: times_of(text, name)
    for name, text in (("Day", "07:00-15:30"), ("Late", "14:30-23:00"), ("Night", "22:30-07:15"))
}


class Numbers(unittest.TestCase):
    def found(self, wishes=(), times=TIMES):
        return sums_of(WARD.nurses, CELLS, wishes, ("Night",), times)

    def test_shifts_hours_nights_and_weekends(self):
        # Chen has Late on Wednesday and Thursday, and Night from Friday to Sunday: 2 * 8:30 + 3 *
        # 8:45 hours.
        chen = self.found()["Chen"]
        self.assertEqual((chen.shifts, chen.nights, chen.weekends), (5, 3, 1))
        self.assertEqual(chen.hours, datetime.timedelta(hours=43, minutes=15))
        self.assertEqual(chen.texts(True), ["5", "43", "3", "1", "-"])
        # Grace has Day from Monday to Friday, and no times are known.
        self.assertEqual(self.found(times={})["Grace"].texts(False), ["5", "0", "0", "-"])
        self.assertEqual(sum_heads(False), ["shifts", "nights", "weekends", "wishes granted"])

    def test_days_away_count_as_in_the_contract(self):
        # Three shifts more, each with the mean of 8:30, 8:30 and 8:45 hours, and neither nights nor
        # weekends.
        grace = sums_of(WARD.nurses, CELLS, (), ("Night",), TIMES, {"Grace": 3})["Grace"]
        self.assertEqual((grace.shifts, grace.nights, grace.weekends), (8, 0, 0))
        self.assertEqual(grace.hours, datetime.timedelta(hours=5 * 8.5, minutes=3 * 515))
        without = sums_of(WARD.nurses, CELLS, (), ("Night",), {}, {"Grace": 3})["Grace"]
        self.assertEqual((without.shifts, without.hours), (8, datetime.timedelta()))

    def test_wishes(self):
        # Chen is off on Monday, has Night on Saturday, and has Late, and no Night, on Wednesday.
        # Equal wishes are one.
        off = Request("Chen", None, 0)
        saturday = Request("Chen", None, 5)
        no_night = Request("Chen", "Night", 2)
        no_late = Request("Chen", "Late", 2)
        chen = self.found([off, off, saturday, no_night, no_late])["Chen"]
        self.assertEqual((chen.granted, chen.wishes, chen.texts(False)[-1]), (2, 4, "2/4"))

    def test_periods_are_added(self):
        one = Sums(5, datetime.timedelta(hours=40), 3, 1, 4, 2)
        self.assertEqual(
            one.plus(Sums(1, datetime.timedelta(hours=8), 1, 0, 1, 1)),
            Sums(6, datetime.timedelta(hours=48), 4, 1, 5, 3),
        )
        self.assertEqual(Sums().plus(one), one)


class Weekends(HelperTest):
    """A weekend is worked by whoever works on its Saturday, on its Sunday, or on both."""

    # The days of each nurse in two weeks, and her weekends with work.
    ROWS = {
        "Amara": (("Sat",), (), 1),
        "Bruno": (("Sun",), ("Mon",), 1),
        "Chen": (("Sat", "Sun"), ("Sun",), 2),
        "Dilek": (("Fri",), ("Mon", "Fri"), 0),
        "Ewa": ((), ("Sat", "Sun"), 1),
    }

    def cells(self, week):
        return [
            Cell(nurse, DAYS.index(day), "Day", "Nurse")
            for nurse, row in self.ROWS.items()
            for day in row[week]
        ]

    def view(self):
        """Both weeks, before which Bruno had worked on two weekends."""
        rosters = [
            self.solution(*(cell.row() for cell in self.cells(week)), week=week, name=f"{week}.txt")
            for week in (0, 1)
        ]
        history = self.changed(HISTORY, "Bruno 0 0", "Bruno 9 2", "history.txt")
        weeks = (WEEK, FOLDER / "week-1.txt")
        return read_view(RosterFiles(rosters, SCENARIO, [history], weeks=weeks))

    def test_in_the_sums_of_a_period(self):
        cells = [
            cell._replace(day=7 * week + cell.day) for week in (0, 1) for cell in self.cells(week)
        ]
        found = sums_of(self.ROWS, cells, (), (), {})
        self.assertEqual(
            {nurse: sums.weekends for nurse, sums in found.items()},
            {nurse: row[2] for nurse, row in self.ROWS.items()},
        )

    def test_beside_the_table_of_a_wall(self):
        found = worked(self.view())
        self.assertEqual(
            {nurse: found[nurse] for nurse in self.ROWS},
            {nurse: [len(row[0]) + len(row[1]), 0, 0, row[2]] for nurse, row in self.ROWS.items()},
        )

    def test_beside_the_contract(self):
        found = totals(self.view())
        self.assertEqual(
            {nurse: found[nurse].texts()[:2] for nurse in self.ROWS},
            {
                "Amara": ("1/17-21", "1/2"),
                "Bruno": ("11/17-21", "3/2"),
                "Chen": ("3/17-21", "2/2"),
                "Dilek": ("3/17-21", "0/2"),
                "Ewa": ("2/8-11", "1/2"),
            },
        )


if __name__ == "__main__":
    unittest.main()
