"""Tests of plans of many weeks, which get better window by window."""

import itertools
import random
import tempfile
import unittest
from dataclasses import replace
from pathlib import Path

from ward import ENOUGH, ROOT

from inrc2pb.judging.days_away import DaysAway
from inrc2pb.programs.clock import Clock
from inrc2pb.programs.processes import Processes
from inrc2pb.judging.runs import NextDays
from inrc2pb.rows.plan import Extra, Plan
from inrc2pb.rows.pricing import Crews, Pricing
from inrc2pb.rows.row_search import RowSearch
from inrc2pb.rows.skills import rows_of, staffed
from inrc2pb.search.first_plan import week_after_week
from inrc2pb.search.long_plans import beside_others, better_plans, cost
from inrc2pb.solvers.linear_solvers import LinearSolver
from inrc2pb.week.files import read_history, read_scenario, read_week
from inrc2pb.week.records import WEEK_DAYS, Limits, NurseDay

HOME = ROOT / "examples" / "n005w4"


def long_plan(weeks, early=0):
    """So many weeks of five nurses, with the totals of a period of as many and those after an early
    end."""
    scenario = read_scenario(HOME / "ward.txt")
    contracts = {
        name: replace(
            contract,
            assignments=Limits(
                *(total * weeks // scenario.weeks for total in contract.assignments)
            ),
            max_weekends=contract.max_weekends * weeks // scenario.weeks,
        )
        for name, contract in scenario.contracts.items()
    }
    scenario = replace(scenario, weeks=weeks, contracts=contracts)
    history = read_history(HOME / "history-0.txt", scenario)
    data = [read_week(path, scenario) for path in sorted(HOME.glob("week-*.txt"))]
    known = [data[number % len(data)] for number in range(weeks - early)]
    return Plan.of(scenario, history, known, early > 0)


def search_of(plan):
    """A search that knows what rows cost."""
    pricing = Pricing(plan, Crews(plan), lambda: None)
    return RowSearch(pricing, None, Clock(600), lambda rows, finder: None, lambda: None)


def first_cells(plan):
    """The assignments of a first plan."""
    rows = week_after_week(plan, None, Clock(600))
    return staffed(plan, Crews(plan), rows).cells


class LongPlans(unittest.TestCase):
    def changed(self, plan, weeks, cells):
        """The assignments of the plan after the nurses have other rows in these weeks, if that is
        a roster, and what the rows of the window cost."""
        part = beside_others(plan, weeks, cells)
        first = WEEK_DAYS * weeks.start
        own = [cell._replace(day=cell.day - first) for cell in cells if cell.day >= first]
        rows = rows_of(part, (cell for cell in own if cell.day < part.days))
        search = search_of(part)
        yield cells, search.value_of(rows)
        chance = random.Random(1)
        for _ in range(60):
            nurse = chance.randrange(len(rows))
            day = chance.randrange(WEEK_DAYS * len(weeks))
            new = bytearray(rows[nurse])
            new[day] = chance.randrange(len(plan.scenario.shift_types) + 1)
            other = [*rows[:nurse], bytes(new), *rows[nurse + 1 :]]
            value = search.value_of(other)
            if value is not None:
                inside = staffed(part, search.pricing.crews, other).cells
                yield [
                    *(cell for cell in cells if cell.day // WEEK_DAYS not in weeks),
                    *(
                        cell._replace(day=cell.day + first)
                        for cell in inside
                        if cell.day < WEEK_DAYS * len(weeks)
                    ),
                ], value

    def check_costs(self, plan):
        """A change in a window costs there what it costs in the whole plan."""
        cells = first_cells(plan)
        whole = search_of(plan)
        for weeks in (range(2), range(2, 4), range(4, 6)):
            found = list(self.changed(plan, weeks, cells))
            self.assertGreater(len(found), 5)
            for now, value in found:
                penalty = cost(plan, now)
                self.assertEqual(penalty, whole.value_of(rows_of(plan, now)))
                self.assertEqual(penalty - value, cost(plan, cells) - found[0][1])

    def test_a_change_costs_what_it_costs_in_the_whole_plan(self):
        self.check_costs(long_plan(6))

    def test_that_holds_if_the_totals_count_from_the_first_week_on(self):
        self.check_costs(long_plan(7, early=1))

    def test_a_nurse_who_is_called_in_other_weeks_is_called_once(self):
        plan = long_plan(6)
        older = dict(zip(plan.nurses, rows_of(plan, first_cells(plan))))
        nurse, row = next(iter(older.items()))
        older[nurse] = bytes([1 - row[0]]) + row[1:] if row[0] < 2 else b"\0" + row[1:]
        self.check_costs(replace(plan, extra=Extra(older, 50)))

    def test_the_days_after_the_last_one_count_after_the_last_window(self):
        plan = long_plan(6)
        then = {
            nurse: NextDays(plan.scenario.contract_of(nurse), bytes([number % 3, number % 3, 0]))
            for number, nurse in enumerate(plan.nurses)
        }
        self.check_costs(replace(plan, extra=Extra(then=then)))

    def test_days_away_keep_their_places(self):
        plan = replace(
            long_plan(6),
            beside=DaysAway(frozenset({NurseDay("Andrea", 20)}), frozenset(), frozenset(), 9),
        )
        part = beside_others(plan, range(1, 3), first_cells(plan))
        self.assertEqual(part.beside.training, {NurseDay("Andrea", 13)})
        self.assertEqual(part.beside.fixed, 2)

    def test_plans_get_better(self):
        plan = long_plan(14)
        cells = first_cells(plan)
        with tempfile.TemporaryDirectory() as folder:
            solver = LinearSolver(Processes(), Path(folder), self.fail)
            try:
                plans = better_plans(plan, cells, solver, Clock(ENOUGH), 1)
                costs = [cost(plan, better) for better in itertools.islice(plans, 2)]
            finally:
                solver.close()
        self.assertGreater(len(costs), 1)
        self.assertEqual(
            [cost(plan, cells), *costs], sorted([cost(plan, cells), *costs], reverse=True)
        )
        self.assertLess(costs[-1], cost(plan, cells))


if __name__ == "__main__":
    unittest.main()
