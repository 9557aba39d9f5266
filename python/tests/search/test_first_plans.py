"""Tests of the first plan of a period, week after week."""

import unittest
from unittest import mock

from ward import ROOT

from inrc2pb.programs.clock import Clock
from inrc2pb.rows.pricing import Crews, Pricing
from inrc2pb.rows.row_search import RowSearch
from inrc2pb.search import first_plan
from inrc2pb.search.first_plan import week_after_week
from inrc2pb.search.planned_weeks import PeriodFiles, PlannedWeeks
from inrc2pb.week.records import Limits

MONTH = ROOT / "examples" / "month"
FILES = PeriodFiles(
    MONTH / "ward.txt",
    MONTH / "history-0.txt",
    [MONTH / f"week-{number}.txt" for number in range(4)],
)


class FirstPlans(unittest.TestCase):
    def test_a_contract_has_its_part_of_the_totals(self):
        ward = PlannedWeeks(FILES).scenario
        full = ward.contracts["FullTime"]
        self.assertEqual((ward.weeks, full.assignments, full.max_weekends), (4, Limits(15, 22), 2))
        part = first_plan._part(ward, 3)
        found = part.contracts["FullTime"]
        self.assertEqual(
            (part.weeks, found.assignments, found.max_weekends), (3, Limits(11, 16), 2)
        )
        self.assertEqual((part.nurses, found.days_off), (ward.nurses, full.days_off))
        self.assertEqual(first_plan._part(ward, 4), ward)

    def test_totals_are_not_used_up_in_the_first_weeks(self):
        weeks = PlannedWeeks(FILES)
        plan = weeks.plan()
        pricing = Pricing(plan, Crews(plan), lambda: None)
        whole = RowSearch(pricing, None, Clock(60), lambda rows, finder: None, lambda: None)
        fair = whole.value_of(week_after_week(plan, None, Clock(600)))
        with mock.patch.object(first_plan, "_part", lambda scenario, number: scenario):
            self.assertLess(fair, whole.value_of(week_after_week(plan, None, Clock(600))))

    def test_without_time_no_week_is_planned(self):
        plan = PlannedWeeks(FILES).plan()
        self.assertEqual(week_after_week(plan, None, Clock(0)), [b""] * len(plan.nurses))


if __name__ == "__main__":
    unittest.main()
