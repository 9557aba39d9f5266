"""Tests of plans whose gap is wide, as on a slow machine: the search goes on, `page` asks before it
hangs one up, and an illness keeps to few calls."""

import datetime
import re
import types
import unittest
from dataclasses import replace
from unittest import mock

from test_kept_plans import KeptTest
from ward import HAS_CBC, run, time_ends_at

from inrc2pb.plans import planning
from inrc2pb.plans.changes import CALL_POINTS
from inrc2pb.plans.plan_files import read_state, record_text
from inrc2pb.plans.planning import PATIENCE, search_lines
from inrc2pb.plans.searching import Asked
from inrc2pb.plans.store import Gap, plan_texts, wide_gap
from inrc2pb.plans.ward_folder import WardFolder
from inrc2pb.programs import clock
from inrc2pb.programs.clock import Clock, PatientClock, TimeIsOver
from inrc2pb.programs.progress import is_wide


class Gaps(unittest.TestCase):
    def test_which_gaps_are_wide(self):
        for penalty, least, wide in (
            (2385, 430, True),
            (500, 430, False),
            (500, 400, False),
            (505, 400, True),
            # A small plan: a nurse and two wishes.
            (50, 0, False),
            (60, 0, True),
            (430, 430, False),
        ):
            with self.subTest(penalty=penalty, least=least):
                self.assertEqual(is_wide(penalty, least), wide)


class Clocks(unittest.TestCase):
    def setUp(self):
        self.now = 0.0
        fake = types.SimpleNamespace(monotonic=lambda: self.now)
        patched = mock.patch.object(clock, "time", fake)
        patched.start()
        self.addCleanup(patched.stop)
        self.whole = Clock(20)

    def test_it_goes_on_once_and_takes_five_times_its_seconds(self):
        asked = []
        one = PatientClock(18, self.whole, 80, lambda: asked.append(self.now) or True)
        for now, left in ((0, 18), (17, 1), (18.5, 79.5), (97, 1), (98.5, 0)):
            self.now = now
            self.assertEqual(one.left(), left)
        self.assertEqual((asked, self.whole.left()), ([18.5], 1.5))
        with self.assertRaises(TimeIsOver):
            one.check()

    def test_it_ends_if_the_gap_is_not_wide_or_the_user_stops_it(self):
        one = PatientClock(18, self.whole, 80, lambda: False)
        self.now = 18.5
        self.assertEqual((one.left(), self.whole.left()), (0, 1.5))
        stopped = PatientClock(18, self.whole, 80, lambda: True)
        self.whole.stop()
        self.now = 60
        self.assertEqual(stopped.left(), 0)

    def test_a_second_search_has_what_is_left(self):
        for patience, used, seconds, most in (
            (1, 15, 5, 5),
            (5, 15, 5, 85),
            (5, 75, 5, 25),
            (5, 99, 1, 1),
            (5, 100, 0, 0),
        ):
            self.now = 0.0
            asked = Asked(0, False, 20.0, patience=patience)
            both = Clock(20.0 * patience)
            self.now = used
            rest = planning._with_rest(asked, both)
            with self.subTest(patience=patience, used=used):
                self.assertEqual((rest.seconds, rest.patience * rest.seconds), (seconds, most))


class Plans(KeptTest):
    def with_least(self, least):
        """Writes the stored plan with what no plan costs less than."""
        plan = self.read()
        plan = plan.with_state(replace(plan.state, least=least, published=False))
        folder = WardFolder(self.ward)
        now = self.record().time
        folder.add("plan", plan_texts(plan, plan.state.record("plan", now)), now)
        return plan

    def record(self):
        return self.plan.state.record("plan", datetime.datetime(2026, 11, 28, 12))

    def test_the_bound_is_kept_with_the_plan(self):
        plan = self.with_least(70)
        self.assertEqual(read_state(self.last()).least, 70)
        self.assertNotIn("least", record_text(self.record()))
        points = wide_gap(plan).points
        self.assertEqual(wide_gap(plan), Gap(points, 70))
        self.assertIsNone(wide_gap(plan.with_state(replace(plan.state, least=points - 50))))
        self.assertIsNone(wide_gap(plan.with_state(replace(plan.state, least=None))))

    def test_page_asks_before_it_hangs_up_a_plan_with_a_wide_gap(self):
        self.with_least(70)
        status, printed, _ = run("plan", self.ward, "page")
        self.assertEqual(status, 6)
        self.assertRegex(printed, "this plan costs [0-9]+ points, and only 70 cannot be avoided: ")
        self.assertIn("nothing is written: type it again with --do", printed)
        self.assertFalse((self.ward / "wall.html").exists())
        self.does("page", "--do")
        self.assertTrue((self.ward / "wall.html").exists())

    def test_an_illness_after_such_a_plan_calls_as_few_as_possible(self):
        plan = self.with_least(70)
        gap = wide_gap(plan)
        self.assertEqual(planning._call_points(plan), gap.points - 70)
        narrow = plan.with_state(replace(plan.state, least=gap.points))
        self.assertEqual(planning._call_points(narrow), CALL_POINTS)

    def test_what_a_search_says_of_its_time(self):
        asked = Asked(0, False, 40.0, patience=PATIENCE)
        self.assertIn(
            ", at most 40 seconds in all, and 200 while the gap is wide; Ctrl-C ends it",
            search_lines(self.read(), asked, "Ctrl-C ends it")[0],
        )
        typed = search_lines(self.read(), asked._replace(patience=1.0), "")
        self.assertTrue(typed[0].endswith("at most 40 seconds in all"))


@unittest.skipUnless(HAS_CBC, "needs cbc")
class Searches(KeptTest):
    def test_plan_goes_on_unless_its_time_is_typed(self):
        # The time is over when the first plan is there: no bound is known yet.
        for words, goes_on in (((), True), (("--time", "40"), False)):
            with self.subTest(words), time_ends_at("improved"):
                status, printed, said = run("plan", self.ward, "plan", *words)
            self.assertEqual(status, 0, said)
            found = re.search("this gap is wide, so the search goes on, at most [0-9]+ s", said)
            self.assertEqual(found is not None, goes_on, said)


if __name__ == "__main__":
    unittest.main()
