"""Tests of what makes the best roster better: the rows and days of windows, and dives."""

import itertools
import random
import unittest
from unittest import mock

from ward import HAS_CBC, ROOT, HelperTest, files

from inrc2pb.programs.clock import Clock, TimeIsOver
from inrc2pb.programs.processes import Processes
from inrc2pb.rows.descent import all_off
from inrc2pb.rows.plan import POINT, Plan
from inrc2pb.rows.pricing import Crews, Pricing
from inrc2pb.rows.part_search import Dive, put
from inrc2pb.rows.row_arrays import Arrays
from inrc2pb.rows.row_parts import RowParts
from inrc2pb.rows.row_search import RowSearch
from inrc2pb.rows.week_dives import WeekDives
from inrc2pb.rows.windows import Window
from inrc2pb.solvers.linear_solvers import LinearSolver

MONTH = ROOT / "examples" / "month"
SCENARIO = files.read_scenario(MONTH / "ward.txt")
HISTORY = files.read_history(MONTH / "history-0.txt", SCENARIO)
WEEKS = [files.read_week(MONTH / f"week-{number}.txt", SCENARIO) for number in range(2)]
CHOICES = range(len(SCENARIO.shift_types) + 1)
# Seconds that are enough on each machine: a dive in a short time is another one.
LONG = 1e6
OFF, EARLY = (bytes([choice] * 7) for choice in (0, 1))


def search_of(weeks):
    """A search over the rows of the first weeks of the month, with a first roster, and without a
    solver."""
    plan = Plan.of(SCENARIO, HISTORY, WEEKS[:weeks])
    search = RowSearch(
        Pricing(plan, Crews(plan), lambda: None),
        None,
        Clock(600),
        lambda rows, _finder: search.value_of(rows),
        lambda: None,
    )
    search.begin(all_off(plan), None)
    return search


class DaysOfWindows(unittest.TestCase):
    def test_rows_change_on_the_days_of_a_window_only(self):
        rows = [b"\1\1\1", b"\0\0\0"]
        found = [b"\3\3\3", b"\4\4\4"]
        self.assertEqual(put(Window(range(1, 2), None), rows, found), [b"\1\3\1", b"\0\4\0"])
        self.assertEqual(put(Window(range(3), None), rows, found), found)

    def test_the_cheapest_rows_on_two_days(self):
        whole = search_of(1)
        chance = random.Random(3)
        gains = whole.pricing.crews.gains(
            [chance.choice((0, 7_123, 30_000)) for _ in whole.pricing.crews.places]
        )
        part = whole.pricing.on_days(range(4, 6), whole.rows)
        for nurse, row in enumerate(whole.rows):
            values = []
            for two in itertools.product(CHOICES, repeat=2):
                other = row[:4] + bytes(two) + row[6:]
                cost = whole.pricing.cost(nurse, other)
                crews = whole.pricing.crews.of[nurse]
                if cost is not None:
                    values.append(
                        POINT * cost
                        - sum(gains[crews[day][choice]] for day, choice in enumerate(other))
                    )
            found = part.cheapest(nurse, gains)
            self.assertEqual(
                (found.value, found.row[:4], found.row[6:]), (min(values), row[:4], row[6:])
            )

    def test_choices_that_are_kept_need_no_other_nurses(self):
        whole = search_of(1)
        part = whole.pricing.on_days(range(2, 5), whole.rows)
        gains = whole.pricing.crews.gains(whole.prices)
        before = part.cheapest_of(range(30), gains)
        kept = part.keeping([(4, range(3, 4), before[4].row[3:4])])
        with mock.patch.object(Arrays, "after", side_effect=AssertionError):
            self.assertEqual(kept.cheapest_of(range(30), gains), before)
            # Other days have other nurses.
            with self.assertRaises(AssertionError):
                whole.pricing.on_days(range(1, 5), whole.rows).cheapest(4, gains)

    def test_a_window_begins_with_the_cheapest_known_rows(self):
        whole = search_of(1)
        for row in (EARLY, OFF, bytes([2] * 7)):
            whole.add_row(3, row)
        costs = {
            row: whole.pricing.cost(3, row) for row in (EARLY, OFF, bytes([2] * 7), whole.rows[3])
        }
        whole.prices = [0] * len(whole.prices)
        known = whole.known().rows
        self.assertEqual([costs[row] for row in known[3]], sorted(costs.values()))
        self.assertEqual(known[4], [whole.rows[4]])

    def test_rows_that_a_hard_rule_forbids_are_not_added(self):
        search = search_of(1)
        forbidden = next(
            row
            for row in map(bytes, itertools.product(range(5), repeat=7))
            if search.pricing.cost(3, row) is None
        )
        self.assertFalse(search.add_row(3, forbidden))
        self.assertNotIn((3, forbidden), [column[:2] for column in search.program.columns])


class DiveTest(HelperTest):
    """Tests of dives."""

    def setUp(self):
        super().setUp()
        self.solver = LinearSolver(Processes(), self.folder, self.fail)
        self.addCleanup(self.solver.close)

    def generated(self, weeks=2, first=None):
        """A search over the first weeks of the month that knows all rows of its linear program, and
        begins with the first rows, if any."""
        plan = Plan.of(SCENARIO, HISTORY, WEEKS[:weeks])
        pricing = Pricing(plan, Crews(plan), lambda: None)
        search = WeekDives(
            pricing,
            self.solver,
            Clock(LONG),
            lambda rows, _finder: search.value_of(rows),
            lambda: None,
        )
        if first:
            search.begin(first(plan), None)
        search.generate(search.clock)
        return search


@unittest.skipUnless(HAS_CBC, "needs cbc")
class Dives(DiveTest):
    def test_a_dive_keeps_better_rows_only(self):
        search = self.generated()
        search.begin(all_off(search.plan), None)
        before = search.penalty
        parts = RowParts(search, [self.solver])
        parts._dive(self.solver, search.clock, Dive(0.12, True, None, before))
        self.assertLess(search.penalty, before)
        best = search.rows
        search.penalty = search.lower_bound
        parts._dive(self.solver, search.clock, Dive(0.12, True, None, search.penalty))
        parts._dive(self.solver, Clock(0.0), Dive(0.12, True, None, None))
        self.assertIs(search.rows, best)

    def test_a_solver_has_the_steps_that_are_left(self):
        search = self.generated()
        program = search.program
        asked = []
        program.most_iterations = program.iterations + 3
        solve = program._program.solve
        with mock.patch.object(
            program._program, "solve", lambda *words: asked.append(words[2]) or solve(*words)
        ):
            search.program.shut(list(search.solved.shares)[1:])
            for _ in range(2):
                try:
                    program.solve(search.clock)
                except TimeIsOver:
                    pass
        self.assertTrue(asked and all(0 < limit <= 3 for limit in asked), asked)


if __name__ == "__main__":
    unittest.main()
