"""Tests of the search over rows: proofs of the example weeks, weeks that no roster meets, and
solvers that fail or lie."""

import time
import unittest
from unittest import mock

from ward import ENOUGH, HAS_CBC, ROOT, HelperTest, files, records

from inrc2pb.programs import clock as clocks
from inrc2pb.rows import plan as plans
from inrc2pb.rows import row_run
from inrc2pb.programs.clock import Clock, TimeIsOver
from inrc2pb.solvers.answers import SolverFault
from inrc2pb.solvers.linear_solvers import LinearSolver
from inrc2pb.rows.descent import Descent, all_off
from inrc2pb.rows.plan import Plan
from inrc2pb.rows.pricing import Crews, Pricing
from inrc2pb.programs.processes import Processes
from inrc2pb.rows.row_run import RowRun
from inrc2pb.rows.row_search import RowSearch
from inrc2pb.judging.rules import costs, first_broken
from inrc2pb.judging.runs import NEVER
from inrc2pb.rows.skills import staffed
from inrc2pb.rows.week_dives import WeekDives

# The penalties that other solvers proved: docs/search.md.
OPTIMA = {"n005w4": 320, "last12": 435, "thirty": 605}


def week_of(name):
    """An example week."""
    folder = ROOT / "examples" / name
    return files.read_files(
        folder / "ward.txt", min(folder.glob("history-*")), min(folder.glob("week-*"))
    )


class RowSearches(HelperTest):
    def run_rows(self, week, has_solver=True, seconds=300.0, held=(), early=False):
        """A search over the rows of a week. `rules` judge each roster."""
        self.plan = Plan.of(week.scenario, week.history, [week.data], early, held)
        self.warnings = []
        self.penalties = []
        solver = (
            LinearSolver(Processes(), self.folder, self.warnings.append) if has_solver else None
        )

        def offer(rows, _finder):
            roster = staffed(self.plan, run.crews, rows).cells
            if first_broken(week, roster, held):
                return None
            self.penalties.append(sum(costs(week, roster, early).values()))
            return self.penalties[-1]

        run = RowRun(self.plan, solver, Clock(seconds), offer, lambda: None)
        try:
            run.run()
        except SolverFault as fault:
            self.warnings.append(str(fault))
        return run

    @unittest.skipUnless(HAS_CBC, "needs cbc")
    def test_known_optima_are_proved(self):
        for name, optimum in OPTIMA.items():
            with self.subTest(name):
                search = self.run_rows(week_of(name)).search
                self.assertEqual(
                    (search.penalty, search.lower_bound, search.is_proved), (optimum, optimum, True)
                )

    def test_a_first_roster_without_a_solver(self):
        week = week_of("last60")
        plan = Plan.of(week.scenario, week.history, [week.data])
        pricing = Pricing(plan, Crews(plan), lambda: None)
        search = RowSearch(
            pricing, None, Clock(600), lambda rows, finder: search.value_of(rows), lambda: None
        )
        search.begin(all_off(plan), None)
        rows = all_off(plan)
        for _ in range(3):
            descent = Descent(pricing, rows)
            self.assertGreater(descent.sweep(lambda: None), 0)
            rows = descent.rows
        self.assertEqual(search.rows, rows)
        self.assertEqual(search.penalty, search.value_of(rows))
        cells = staffed(plan, pricing.crews, rows).cells
        self.assertEqual(
            (first_broken(week, cells), sum(costs(week, cells).values())), (None, search.penalty)
        )

    @unittest.skipUnless(HAS_CBC, "needs cbc")
    def test_weeks_whose_first_rows_are_no_roster(self):
        week = week_of("n005w4")
        plan = Plan.of(week.scenario, week.history, [week.data, week.data])
        solver = LinearSolver(Processes(), self.folder, self.fail)
        found = []

        def offer(rows, _finder):
            if staffed(plan, run.crews, rows).below:
                return None
            found.append(run.search.value_of(rows))
            return found[-1]

        # Nobody works in the first rows, and one nurse after another finds no better ones.
        run = RowRun(plan, solver, Clock(600.0), offer, lambda: None, [bytes(14)] * 5)
        with mock.patch.object(Descent, "sweep", return_value=0):
            run.run()
        self.assertTrue(found)

    def test_a_week_has_more_dives_before_its_parts(self):
        week = week_of("n005w4")
        for weeks in (1, 2):
            plan = Plan.of(week.scenario, week.history, [week.data] * weeks)
            run = RowRun(plan, mock.Mock(), Clock(600.0), lambda rows, _finder: None, lambda: None)
            search = mock.Mock(is_proved=False)
            rows = [[bytes(7)], None] * 3
            search.dive.side_effect = list(rows)
            with mock.patch.object(row_run, "RowParts") as parts:
                run._improve(search, mock.Mock(), Clock(600.0))
            shares = [called.args[1] for called in search.dive.call_args_list]
            self.assertEqual(shares, list(row_run.MORE_DIVES) if weeks == 1 else [])
            # Only rows that a dive found are kept.
            self.assertEqual(
                [called.args[0] for called in search.keep.call_args_list],
                [[bytes(7)]] * 3 if weeks == 1 else [],
            )
            self.assertEqual(parts.return_value.run.call_count, 1)

    def test_a_tree_of_a_long_period_begins_at_a_small_gap(self):
        week = week_of("n005w4")
        run = RowRun(
            Plan.of(week.scenario, week.history, [week.data, week.data]),
            None,
            Clock(600.0),
            lambda rows, _finder: None,
            lambda: None,
        )
        search = mock.Mock(penalty=0, bound=10_000_000)
        for few, gap, narrow in (
            (2, 1_500_000, True),
            (2, 1_500_001, False),
            (1, 150_000, True),
            (1, 150_001, False),
        ):
            search.gap.return_value = gap
            with mock.patch.object(plans, "FEW_WEEKS", few):
                self.assertEqual(run._is_narrow(search), narrow)

    @unittest.skipUnless(HAS_CBC, "needs cbc")
    def test_held_rows_and_early_charges(self):
        week = week_of("ward")
        held = [records.Cell("Grace", 5, "Day", "Nurse")]
        search = self.run_rows(week, held=held, early=True).search
        self.assertTrue(search.is_proved)

    @unittest.skipUnless(HAS_CBC, "needs cbc")
    def test_prices_prove_that_no_roster_exists(self):
        run = self.run_rows(week_of("eight"))
        self.assertEqual((run.search.penalty, self.penalties), (None, []))
        places = run.minimums.places
        [(_, leaf)] = run.minimums.leaves()
        prices = leaf.prices
        self.assertEqual(len(places), len(prices))
        # Two head nurses cannot be at three places on two days, with a rest after the night.
        self.assertEqual(
            {place.skill for place, price in zip(places, prices) if price}, {"HeadNurse"}
        )

    def test_contradictory_held_rows(self):
        week = week_of("ward")
        held = [records.Cell("Grace", 5, shift, "Nurse") for shift in ("Day", "Late")]
        run = self.run_rows(week, held=held)
        self.assertEqual((run.without_row, run.search.penalty), ("Grace", None))

    def test_without_a_solver_there_is_a_first_roster(self):
        search = self.run_rows(week_of("thirty"), False).search
        self.assertEqual(search.penalty, min(self.penalties))
        # The first prices need no solver.
        self.assertGreater(search.lower_bound, 500)
        self.assertLessEqual(search.lower_bound, 605)
        self.assertLess(search.penalty, 2000)

    def test_the_time_is_over(self):
        for seconds in (0.0, 0.05, 0.3):
            began = time.monotonic()
            self.run_rows(week_of("thirty"), seconds=seconds)
            self.assertLess(time.monotonic() - began, ENOUGH)

    @unittest.skipUnless(HAS_CBC, "needs cbc")
    def test_fixing_that_its_time_ends(self):
        week = week_of("thirty")
        plan = Plan.of(week.scenario, week.history, [week.data])
        solver = LinearSolver(Processes(), self.folder, self.fail)
        self.addCleanup(solver.close)
        pricing = Pricing(plan, Crews(plan), lambda: None)
        search = WeekDives(
            pricing, solver, Clock(600), lambda rows, finder: search.value_of(rows), lambda: None
        )
        search.begin(all_off(plan), None)
        search.generate(search.clock)
        before = search.penalty
        with mock.patch.object(WeekDives, "_dive", side_effect=TimeIsOver):
            self.assertIsNone(search.dive(Clock(600)))
        self.assertLess(search.penalty, before)
        cells = staffed(plan, search.pricing.crews, search.rows).cells
        self.assertEqual(
            (first_broken(week, cells), sum(costs(week, cells).values())), (None, search.penalty)
        )

    @unittest.skipUnless(HAS_CBC, "needs cbc")
    def test_a_week_dives_if_no_row_is_missing(self):
        week = week_of("n005w4")
        solver = LinearSolver(Processes(), self.folder, self.fail)
        self.addCleanup(solver.close)
        for weeks, dives in ((1, 1), (2, 0)):
            plan = Plan.of(week.scenario, week.history, [week.data] * weeks)
            run = RowRun(
                plan,
                solver,
                Clock(600.0),
                lambda rows, _finder: run.search.value_of(rows),
                lambda: None,
            )
            with mock.patch.object(WeekDives, "dive", return_value=None) as dive, mock.patch.object(
                RowRun, "_close_gap"
            ):
                run.run()
            self.assertEqual(dive.call_count, dives)

    def test_a_tree_does_not_begin_at_a_wide_gap(self):
        week = week_of("n005w4")
        run = RowRun(
            Plan.of(week.scenario, week.history, [week.data]),
            None,
            Clock(600.0),
            lambda rows, _finder: None,
            lambda: None,
        )
        for answers, begins in (([False, True], 1), ([False], 0)):
            clock = Clock(600.0)

            def is_narrow(_search):
                if len(answers) == 1 and not begins:
                    clock.stop()
                return answers.pop(0)

            with (
                mock.patch.object(run, "_is_narrow", is_narrow),
                mock.patch.object(run, "_run_tree") as tree,
            ):
                with mock.patch.object(clocks, "PAUSE", 0), mock.patch.object(
                    run, "_is_proved", return_value=True
                ):
                    run._close_cases(mock.Mock(penalty=None), None, mock.Mock(), clock)
            self.assertEqual(tree.call_count, begins)

    def test_a_plan_that_comes_after_the_tree_has_ended_ends_the_search(self):
        week = week_of("n005w4")
        run = RowRun(
            Plan.of(week.scenario, week.history, [week.data]),
            None,
            Clock(600.0),
            lambda rows, _finder: None,
            lambda: None,
        )
        clock = Clock(600.0)
        solver = mock.Mock()
        with mock.patch.object(run, "_is_narrow", return_value=True), mock.patch.object(
            run, "_run_tree"
        ):
            with mock.patch.object(clocks, "PAUSE", 0), mock.patch.object(
                run, "_is_proved", side_effect=[False, False, True]
            ):
                run._close_cases(mock.Mock(), None, solver, clock)
        self.assertTrue(clock.stopped)
        solver.end_all.assert_called_once_with()

    def test_without_limits_prices_say_whether_no_roster_exists(self):
        week = week_of("n005w4")
        run = RowRun(
            Plan.of(week.scenario, week.history, [week.data]),
            None,
            Clock(600.0),
            lambda rows, _finder: None,
            lambda: None,
        )
        plan = run.plan
        asked = []
        for keeps_more, limit, begun in ((True, NEVER, 0), (True, 5, 1), (False, NEVER, 1)):
            del asked[:]
            generation = mock.Mock(
                side_effect=lambda *words: asked.append(words) or mock.Mock(bound=None)
            )
            run.plan = mock.Mock(
                keeps_more=keeps_more, keeping=mock.Mock(limit=limit), hard_only=lambda: plan
            )
            with mock.patch.object(row_run, "RowGeneration", generation):
                # Limits may be the reason then. Prices without a bound prove nothing.
                self.assertEqual(run._ends_without_roster(), not begun)
            self.assertEqual(len(asked), begun)

    def test_a_proved_plan_is_not_improved(self):
        week = week_of("n005w4")
        run = RowRun(
            Plan.of(week.scenario, week.history, [week.data] * 2),
            None,
            Clock(600.0),
            lambda rows, _finder: None,
            lambda: None,
        )
        for is_proved in (True, False):
            with mock.patch.object(row_run, "RowParts") as parts:
                run._improve(mock.Mock(is_proved=is_proved), mock.Mock(), Clock(600.0))
            self.assertEqual(parts.called, not is_proved)

    def test_first_rows_below_minimums_are_not_offered(self):
        week = week_of("n005w4")
        finders = []
        plan = Plan.of(week.scenario, week.history, [week.data])
        run = RowRun(
            plan,
            None,
            Clock(600.0),
            lambda _rows, finder: finders.append(finder),
            lambda: None,
            all_off(plan),
        )
        run.run()
        self.assertEqual(finders, ["one nurse after another"])


if __name__ == "__main__":
    unittest.main()
