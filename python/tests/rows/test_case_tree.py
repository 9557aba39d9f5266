"""Tests of the tree of cases: what it proves against all plans of tiny weeks, the rosters that it
finds, and solvers that fail or lie."""

import itertools
import random
import unittest
from array import array
from pathlib import Path
from unittest import mock

import certificate_bound as plain
from test_certificates import period_of
from test_row_search import week_of
from test_rows import random_plan
from ward import HAS_CBC, HelperTest, files, program

from inrc2pb.programs.clock import Clock, TimeIsOver
from inrc2pb.programs.processes import Processes
from inrc2pb.rows import case_tree
from inrc2pb.rows.case_pricing import CasePricing
from inrc2pb.rows.case_program import SOLUTION_STEPS, CaseProgram
from inrc2pb.rows.case_search import CaseSearch, CaseTask, Examined
from inrc2pb.rows.case_splits import Rated, best_split
from inrc2pb.rows.case_tree import CaseTree
from inrc2pb.rows.plan import Plan
from inrc2pb.rows.pricing import Crews
from inrc2pb.rows.row_run import RowRun
from inrc2pb.rows.row_search import Known
from inrc2pb.rows.skills import staffed
from inrc2pb.rows.workers import Worker, workers
from inrc2pb.solvers.answers import SolverFault
from inrc2pb.solvers.linear_solvers import LinearSolver
from inrc2pb.solvers.resident_program import OPTIMAL, STOPPED, LinearProgram, Solution
from inrc2pb.week.facts import AtPlace, Choice

FEW = 10**6
# A week of six nurses whose prices prove 130; the best roster costs 135.
HOME = Path(__file__).resolve().parents[1] / "data" / "cases"
FILES = program.WeekFiles(HOME / "ward.txt", HOME / "history.txt", HOME / "week.txt")


def optimum(pricing):
    """The penalty of the best roster of a tiny plan, by all pairs of rows; None if there is
    none."""
    rows_of_nurses = []
    for nurse in range(len(pricing.plan.nurses)):
        rows = map(
            bytes, itertools.product(range(len(pricing.shifts) + 1), repeat=pricing.plan.days)
        )
        rows_of_nurses.append(
            [priced for priced in (pricing.counted(nurse, row) for row in rows) if priced]
        )
    best = None
    for one in itertools.product(*rows_of_nurses):
        cost = sum(priced.cost for priced in one)
        if best is None or cost < best:
            found = staffed(pricing.plan, pricing.crews, [priced.row for priced in one])
            if not found.below and (best is None or cost + 30 * found.missing < best):
                best = cost + 30 * found.missing
    return best


class Lies(LinearProgram):
    """A program whose solutions have any numbers."""

    def __init__(self, chance):
        super().__init__(None)
        self.chance = chance

    def solve(self, clock, how="", iterations=0, whole=True):
        clock.check()
        any_of = lambda number: array(  # noqa: E731
            "d", [self.chance.choice([0.0, 0.5, 1.0, 30.0, -7.0, 1e6]) for _ in range(number)]
        )
        return Solution(
            OPTIMAL, self.chance.choice([0.0, 55.5, 1e5]), any_of(self.rows), any_of(self.columns)
        )


class Trees(HelperTest):
    def setUp(self):
        super().setUp()
        self.solver = LinearSolver(Processes(), self.folder, lambda fault: None)
        self.addCleanup(self.solver.close)

    def tree(self, plan, penalty, program=None):
        """A tree of a plan whose best roster has this penalty; the rosters that it finds are in
        `found`."""
        self.pricing = CasePricing(plan, Crews(plan), lambda: None)
        self.found = []
        self.penalty = penalty

        def take(rows, _finder):
            roster = staffed(plan, self.pricing.crews, rows)
            costs = [self.pricing.counted(nurse, row) for nurse, row in enumerate(rows)]
            if not roster.below and None not in costs:
                self.found.append(sum(priced.cost for priced in costs) + 30 * roster.missing)
                self.penalty = min(self.penalty, self.found[-1])

        self.search = CaseSearch(
            self.pricing, CaseProgram(self.pricing, program or self.solver.program())
        )
        return CaseTree(self.pricing, [0] * len(plan.demand), lambda: self.penalty, take)

    @unittest.skipUnless(HAS_CBC, "needs cbc")
    def test_the_best_roster_is_found_and_proved(self):
        proved = 0
        for seed in range(14):
            plan, _ = random_plan(seed, nurses=2, shifts=1)
            tree = self.tree(plan, FEW)
            best = optimum(self.pricing)
            if best is None:
                continue
            self.penalty = best + 5 * (seed % 3)
            tree.run(Clock(600.0), [self.search.close])
            self.assertLessEqual(tree.bound, best, seed)
            certificate = tree.certificate()
            self.assertEqual(plain.bound(period_of(plan), certificate.text("x")), tree.bound, seed)
            self.assertTrue(all(penalty >= best for penalty in self.found))
            proved += tree.bound == best
        self.assertGreater(proved, 5)

    @unittest.skipUnless(HAS_CBC, "needs cbc")
    def test_a_week_that_prices_alone_do_not_prove(self):
        week = files.read_files(FILES.scenario, FILES.history, FILES.week)
        tree = self.tree(Plan.of(week.scenario, week.history, [week.data]), 140)
        tree.run(Clock(600.0), [self.search.close])
        leaves = tree.certificate().leaves()
        self.assertEqual(
            (tree.bound, self.penalty, self.pricing.bound_of(tree.certificate())), (135, 135, 135)
        )
        # No case proves the bound for one that it is a part of, so each is needed.
        self.assertTrue(all(self.pricing.bound(case[:-1], leaf) < 135 for case, leaf in leaves))
        self.assertTrue(1 < len(leaves) < 10)

    def test_solvers_that_lie(self):
        for seed in range(6):
            plan, _ = random_plan(seed, nurses=2, shifts=1)
            tree = self.tree(plan, FEW, Lies(random.Random(seed)))
            best = optimum(self.pricing)
            if best is None:
                continue
            self.penalty = best
            with self.subTest(seed):
                try:
                    tree.run(Clock(1.0), [self.search.close])
                except (SolverFault, TimeIsOver):
                    pass
                self.assertLessEqual(tree.bound, best)
                certificate = tree.certificate()
                self.assertLessEqual(plain.bound(period_of(plan), certificate.text("x")), best)
                self.assertTrue(all(penalty >= best for penalty in self.found))
                # A fact comes once on a path.
                self.assertTrue(
                    all(
                        len({claim.fact for claim in case}) == len(case)
                        for case, _ in certificate.leaves()
                    )
                )

    @unittest.skipUnless(HAS_CBC, "needs cbc")
    def test_no_time_and_more_time(self):
        week = week_of("last12")
        tree = self.tree(Plan.of(week.scenario, week.history, [week.data]), 435)
        for _ in range(2):
            with self.assertRaises(TimeIsOver):
                tree.run(Clock(0.0), [self.search.close])
        self.assertLessEqual(tree.bound, 435)
        tree.run(Clock(600.0), [self.search.close])
        self.assertEqual(tree.bound, 435)

    @unittest.skipUnless(HAS_CBC, "needs cbc")
    def test_several_searches_of_which_one_fails(self):
        week = files.read_files(FILES.scenario, FILES.history, FILES.week)
        tried = []
        tree = self.tree(Plan.of(week.scenario, week.history, [week.data]), 140)

        def fails(clock, take, task):
            tried.append(task.case)
            raise SolverFault("no answer")

        def slow(clock, take, task):
            while not tried:
                clock.check()
            return self.search.close(clock, take, task)

        with mock.patch.object(case_tree, "LEAVES_EACH", 0):
            tree.run(Clock(600.0), [slow, fails])
        self.assertEqual(
            (tree.bound, self.penalty, self.pricing.bound_of(tree.certificate()), len(tried)),
            (135, 135, 135, 1),
        )
        with self.assertRaises(SolverFault):
            self.tree(Plan.of(week.scenario, week.history, [week.data]), 140).run(
                Clock(600.0), [fails, fails]
            )

    def test_a_tree_ends_with_the_bound_of_a_case_that_no_split_raises(self):
        week = files.read_files(FILES.scenario, FILES.history, FILES.week)
        tree = self.tree(Plan.of(week.scenario, week.history, [week.data]), 140)
        tried = []

        def close(_clock, _take, task):
            tried.append((task.case, task.target))
            bound = 112_000 if task.case[0].holds else 131_000
            return Examined(task.known._replace(bound=bound), 112.0)

        tree.run(Clock(600.0), [close])
        # The case of even charges costs at least 120, so the other one need not be searched for
        # more.
        first, *others = tried
        self.assertEqual((first[1], tree.bound, tree.target), (140, 120, 120))
        self.assertTrue(all(target == 120 for _, target in others))
        self.penalty = 115
        self.assertEqual(tree.target, 115)

    def test_a_tree_has_no_more_leaves_than_a_certificate(self):
        week = files.read_files(FILES.scenario, FILES.history, FILES.week)
        shifts = (None, *week.scenario.shift_types)
        for searches in (1, 4):
            tree = self.tree(Plan.of(week.scenario, week.history, [week.data]), FEW)
            product = itertools.product([1], week.scenario.nurses, range(7), shifts)
            facts = itertools.starmap(Choice, product)
            split = []

            def close(_clock, _take, task):
                split.append(task.case)
                return Examined(task.known, 0.0, Rated(next(facts), (1.0, 1.0)))

            with (
                self.subTest(searches),
                mock.patch.multiple(case_tree, MOST_LEAVES=7, LEAVES_EACH=0),
            ):
                tree.run(Clock(600.0), [close] * searches)
                # The root has two cases, and each split of a case makes one more.
                self.assertEqual((2 + len(split), tree.leaves), (7, 7))

    def test_a_split_raises_the_value_of_a_case(self):
        week = files.read_files(FILES.scenario, FILES.history, FILES.week)
        self.tree(Plan.of(week.scenario, week.history, [week.data]), 140)
        facts = [AtPlace(1, self.pricing.crews.places[number], 0) for number in (0, 1)]
        now = mock.Mock(value=100.0)
        for rises, best in (
            ((0, 0, 0, 0), None),
            ((0, 0, 0, 5), facts[1]),
            ((2, 3, 0, 5), facts[0]),
            ((0, 1e-4), None),
            ((0, 4), facts[0]),
        ):
            program = mock.Mock(
                iterations=0, rise=mock.Mock(side_effect=[100.0 + rise for rise in rises])
            )
            tried = facts[: len(rises) // 2]
            found = best_split(self.pricing, program, now, (), tried, 200, Clock(600.0))
            self.assertEqual(found and found.fact, best, rises)

    @unittest.skipUnless(HAS_CBC, "needs cbc")
    def test_a_process_that_searches_cases(self):
        week = files.read_files(FILES.scenario, FILES.history, FILES.week)
        plan = Plan.of(week.scenario, week.history, [week.data])
        tree = self.tree(plan, 140)
        rows = [[] for _ in plan.nurses]
        [worker] = workers(Known(plan, [0] * len(plan.demand), rows), [self.solver])
        self.addCleanup(worker.end)
        tree.run(Clock(600.0), [worker.close])
        self.assertEqual((tree.bound, self.penalty), (135, 135))
        expected = tree.certificate().text("x")
        tree = self.tree(plan, 140)
        tree.run(Clock(600.0), [self.search.close])
        self.assertEqual(tree.certificate().text("x"), expected)
        with mock.patch.object(Worker, "_start", side_effect=OSError), self.assertRaises(
            SolverFault
        ):
            Worker(self.solver, self.folder).close(
                Clock(600.0), lambda rows, finder: True, CaseTask((), tree.root.proved, 135)
            )


class Stopped(LinearProgram):
    """A program whose solver is stopped after its most steps, each time."""

    def __init__(self, solver):
        super().__init__(solver.program()._child)
        self.asked = []

    def solve(self, clock, how="", iterations=0, whole=True):
        self.asked.append(iterations)
        found = super().solve(clock, how, iterations, whole)
        return found._replace(status=STOPPED)


@unittest.skipUnless(HAS_CBC, "needs cbc")
class Runs(HelperTest):
    def solver(self):
        solver = LinearSolver(Processes(), self.folder, lambda fault: None)
        self.addCleanup(solver.close)
        return solver

    def run_rows(self, until=None, **options):
        """A search over the rows of a week that prices alone do not prove. It is stopped when its
        penalty and its bound are these."""
        week = files.read_files(FILES.scenario, FILES.history, FILES.week)
        plan = Plan.of(week.scenario, week.history, [week.data])
        bounds = []
        clock = Clock(600.0)

        def see(penalty):
            if (penalty, run.lower_bound) == until:
                clock.stop()

        def offer(rows, _finder):
            penalty = run.search.value_of(rows) if run.search else None
            see(penalty)
            return penalty

        def heard():
            bounds.append(run.lower_bound)
            see(run.search.penalty)

        run = RowRun(plan, self.solver(), clock, offer, heard, **options)
        run.run()
        self.assertEqual(bounds, sorted(bounds))
        return run

    def test_a_tree_proves_the_best_roster(self):
        run = self.run_rows()
        self.assertEqual(
            (run.search.penalty, run.search.lower_bound, run.lower_bound), (135, 130, 135)
        )
        certificate = run.certificate()
        self.assertGreater(len(certificate.leaves()), 1)
        self.assertEqual(CasePricing(run.plan, run.crews, lambda: None).bound_of(certificate), 135)

    def test_without_splits_the_certificate_is_one_leaf(self):
        run = self.run_rows(until=(135, 130), splits=False)
        self.assertEqual((run.search.penalty, run.lower_bound), (135, 130))
        [(case, leaf)] = run.certificate().leaves()
        self.assertEqual((case, leaf.prices), ((), run.search.prices))

    def test_a_solver_that_is_stopped_each_time_proves_nothing_wrong(self):
        week = files.read_files(FILES.scenario, FILES.history, FILES.week)
        plan = Plan.of(week.scenario, week.history, [week.data])
        pricing = CasePricing(plan, Crews(plan), lambda: None)
        program = Stopped(self.solver())
        tree = CaseTree(pricing, [0] * len(plan.demand), lambda: 135, lambda rows, finder: None)
        tree.run(Clock(600.0), [CaseSearch(pricing, CaseProgram(pricing, program)).close])
        self.assertEqual(tree.bound, 135)
        self.assertTrue(all(0 < limit <= SOLUTION_STEPS for limit in program.asked))


if __name__ == "__main__":
    unittest.main()
