"""Tests of windows: in a long period all nurses get new rows in some weeks."""

import random
import unittest
from unittest import mock

from test_row_parts import LONG, DiveTest, search_of
from ward import HAS_CBC

from inrc2pb.programs.clock import Clock
from inrc2pb.rows import plan, sweeps, windows
from inrc2pb.rows.part_search import Done, PartSearch, put
from inrc2pb.rows.plan import POINT
from inrc2pb.rows.row_parts import RowParts
from inrc2pb.rows.row_search import RowSearch, WrongBound
from inrc2pb.rows.sweeps import Sweeps
from inrc2pb.rows.windows import Window, Windows
from inrc2pb.rows.workers import Worker
from inrc2pb.solvers.answers import SolverFault


def windows_of(weeks, nurses=30):
    """The windows of a plan of so many weeks and nurses."""
    plan = mock.Mock(weeks=[None] * weeks, days=7 * weeks, nurses=range(nurses), is_long=weeks > 4)
    return Windows(plan, random.Random(1))


def all_of(some):
    """The windows that are left."""
    return list(iter(some.next, None))


class Order(unittest.TestCase):
    def test_each_comes_twice_until_the_roster_is_better(self):
        some = windows_of(6)
        days = [range(7 * first, 7 * first + 28) for first in range(3)]
        for _ in range(2):
            found = all_of(some)
            for part, by_chance in ((found[:3], False), (found[3:], True)):
                self.assertEqual(
                    sorted((one.days for one in part), key=lambda one: one.start), days
                )
                self.assertTrue(all((one.seed is not None) == by_chance for one in part))
            self.assertIsNone(some.next())
            some.open()

    def test_closed_days_come_no_more(self):
        some = windows_of(6)
        some.close(range(7, 35))
        self.assertEqual({one.days.start for one in all_of(some)}, {0, 14})

    def test_windows_of_a_few_weeks_have_seven_and_fourteen_days(self):
        days = {one.days for one in all_of(windows_of(4))}
        self.assertEqual({len(some) for some in days}, {7, 14})
        self.assertEqual([sum(first in some for some in days) for first in (0, 13, 27)], [2, 21, 2])
        self.assertEqual(all_of(windows_of(4, 51)), [])
        self.assertTrue(all_of(windows_of(1, 51)) and all_of(windows_of(6, 51)))

    def test_windows_of_a_week_have_most_of_its_days(self):
        days = {one.days for one in all_of(windows_of(1))}
        self.assertEqual(days, {range(0, 5), range(1, 6), range(2, 7), range(0, 6), range(1, 7)})


@unittest.skipUnless(HAS_CBC, "needs cbc")
class Searched(DiveTest):
    def setUp(self):
        super().setUp()
        self.enterContext(mock.patch.object(windows, "WEEKS", 1))
        self.enterContext(mock.patch.object(plan, "FEW_WEEKS", 1))
        self.search = search_of(2)
        self.parts = RowParts(self.search, [self.solver])

    def test_windows_make_a_plan_better_until_all_are_in_vain(self):
        before = [self.search.penalty]
        while window := self.parts._windows.next():
            rows = self.search.rows
            self.parts._improve(self.solver, Clock(LONG), window)
            # Only the rows of the window change.
            self.assertEqual(put(window, self.search.rows, rows), rows)
            before.append(self.search.penalty)
        self.assertLess(before[-1], before[0])
        self.assertEqual(before, sorted(before, reverse=True))

    def test_a_window_is_closed_if_it_is_proved_that_it_makes_nothing_better(self):
        def ends(window, ended, meanwhile=None):
            def improve(*_):
                self.search.rows = meanwhile or self.search.rows
                return Done(ended)

            with mock.patch.object(PartSearch, "improve", improve):
                self.parts._improve(self.solver, Clock(LONG), window)
            some = self.parts._windows
            self.parts._windows = Windows(self.search.plan, random.Random(1))
            return {one.days for one in all_of(some)}

        both = {range(7), range(7, 14)}
        self.assertEqual(ends(Window(range(7), None), False), both)
        self.assertEqual(ends(Window(range(7), None), True), {range(7, 14)})
        # Another thread was better meanwhile.
        others = [*self.search.rows[:-1], bytes(14)]
        self.assertEqual(ends(Window(range(7), None), True, others), both)

    def test_rows_of_another_thread_stay(self):
        # The rows of the second week are another thread's by now.
        found = [bytes(14)] * 30
        self.search.rows = [bytes([1]) * 14] * 30
        given = []

        def improve(_search, _clock, take, _window, _rows):
            self.search.rows = [bytes([1]) * 7 + bytes([2]) * 7] * 30
            take(found, "7 days")
            return Done(False)

        def keep(rows, _finder):
            given.append(rows)
            return False

        with mock.patch.object(PartSearch, "improve", improve):
            with mock.patch.object(RowSearch, "keep", lambda _search, rows, _: given.append(rows)):
                self.parts._improve(self.solver, Clock(LONG), Window(range(7), None))
        self.assertEqual(
            given, [[bytes(7) + bytes([2]) * 7] * 30, [bytes(7) + bytes([1]) * 7] * 30]
        )

    def test_sweeps_until_all_windows_are_in_vain(self):
        finders = []
        before = self.search.penalty
        keep = self.search.keep
        with mock.patch.object(sweeps, "WEEKS", 1), mock.patch.object(
            self.search,
            "keep",
            lambda rows, finder: finders.append(finder) or keep(rows, finder),
        ):
            swept = Sweeps(self.search, self.solver, Clock(LONG))
            swept._done.result()
            swept.end()
        self.assertLess(self.search.penalty, before)
        self.assertEqual({finder.split(",")[0] for finder in finders}, {"7 days"})

    def test_sweeps_go_on_after_a_better_roster(self):
        seen = []

        def improve(_worker, _clock, _take, window, _rows):
            seen.append(window.days)
            self.search.penalty -= 5 if len(seen) in (2, 3) else 0
            return Done(True)

        with mock.patch.object(sweeps, "WEEKS", 1), mock.patch.object(Worker, "improve", improve):
            swept = Sweeps(self.search, self.solver, Clock(LONG))
            swept._done.result()
            swept.end()
        self.assertEqual(seen, [range(7), range(7, 14)] * 2 + [range(7)])

    def test_sweeps_that_are_ended_or_fail(self):
        with mock.patch.object(sweeps, "WEEKS", 1):
            swept = Sweeps(self.search, self.solver, Clock(LONG))
            swept.end()
            self.assertTrue(swept._done.done())
            # What solvers fail at is found in the search, too.
            with mock.patch.object(Worker, "improve", side_effect=SolverFault("Clp is broken")):
                swept = Sweeps(self.search, self.solver, Clock(LONG))
                swept.end()
            self.assertIsInstance(swept._done.exception(), SolverFault)
            # A bound above a plan is a fault of this computer, which the search has to know.
            with mock.patch.object(Worker, "improve", side_effect=WrongBound(100, 90)):
                swept = Sweeps(self.search, self.solver, Clock(LONG))
                with self.assertRaises(WrongBound):
                    swept.end()

    def test_a_window_near_its_bound_needs_no_dive(self):
        known = self.search.known()
        searcher = PartSearch(self.search.pricing, known, self.solver)
        window = Window(range(7), None)
        done = searcher.improve(Clock(0.0), lambda *_: False, window, self.search.rows)
        self.assertFalse(done.ended)
        with mock.patch.object(RowSearch, "gap", return_value=POINT):
            with mock.patch("inrc2pb.rows.week_dives.WeekDives.dive") as dive:
                searcher.improve(Clock(LONG), lambda *_: False, window, self.search.rows)
        dive.assert_not_called()


if __name__ == "__main__":
    unittest.main()
