"""Tests of plans of several weeks: costs, bounds and cheapest rows, beside inrc2pb.rules and random
rows."""

import random
import threading
import unittest
from unittest import mock
from ward import HAS_CBC, ROOT, THIRTY_FILES, HelperTest, files, records

from inrc2pb.judging.next_history import next_history
from inrc2pb.judging.rules import costs, first_broken, nurse_costs
from inrc2pb.programs.clock import Clock
from inrc2pb.programs.processes import Processes
from inrc2pb.rows.descent import all_off
from inrc2pb.rows.plan import POINT, Plan
from inrc2pb.rows.pricing import Crews, Pricing
from inrc2pb.rows.row_parts import RowParts
from inrc2pb.rows.row_search import RowSearch
from inrc2pb.rows.skills import staffed
from inrc2pb.solvers.answers import SolverFault
from inrc2pb.solvers.linear_solvers import LinearSolver
from inrc2pb.week.records import WEEK_DAYS

MONTH = ROOT / "examples" / "month"
SCENARIO = files.read_scenario(MONTH / "ward.txt")
HISTORY = files.read_history(MONTH / "history-0.txt", SCENARIO)
WEEKS = [files.read_week(MONTH / f"week-{number}.txt", SCENARIO) for number in range(4)]


def month(count):
    """The pricing of the month's first weeks."""
    plan = Plan.of(SCENARIO, HISTORY, WEEKS[:count])
    return Pricing(plan, Crews(plan), lambda: None)


def random_prices(pricing, seed):
    chance = random.Random(seed)
    return [chance.choice((0, 0, 7_123, 30_000)) for _ in pricing.crews.places]


def cheapest(pricing):
    """The cheapest rows at random prices."""
    gains = pricing.crews.gains(random_prices(pricing, 5))
    return [pricing.cheapest(nurse, gains) for nurse in range(len(pricing.plan.nurses))]


def random_row(pricing, nurse, chance):
    """A row that no hard rule forbids, with runs of random lengths."""
    names = list(SCENARIO.shift_types)
    forbidden = [()] + [
        [names.index(name) + 1 for name in SCENARIO.shift_types[shift].forbidden_next]
        for shift in names
    ]
    last = HISTORY.nurses[pricing.plan.nurses[nurse]].last_shift
    row = [0 if last is None else names.index(last) + 1]
    while len(row) <= pricing.plan.days:
        choice = row[-1] if chance.random() < 0.6 else chance.randrange(len(names) + 1)
        if choice not in forbidden[row[-1]]:
            row.append(choice)
    return bytes(row[1:])


def costs_by_rules(rows):
    """What the nurses pay for these rows week by week, by inrc2pb.rules."""
    names = list(SCENARIO.shift_types)
    history = HISTORY
    paid = dict.fromkeys(SCENARIO.nurses, 0)
    for number, data in enumerate(WEEKS):
        cells = [
            records.Cell(
                nurse,
                day,
                names[row[WEEK_DAYS * number + day] - 1],
                SCENARIO.nurses[nurse].skills[0],
            )
            for nurse, row in zip(SCENARIO.nurses, rows)
            for day in range(WEEK_DAYS)
            if row[WEEK_DAYS * number + day]
        ]
        for nurse, by_rule in nurse_costs(records.Week(SCENARIO, history, data), cells).items():
            paid[nurse] += sum(by_rule.values())
        history = next_history(SCENARIO, history, cells) if number < 3 else history
    return list(paid.values())


class FourWeeks(unittest.TestCase):
    @classmethod
    def setUpClass(cls):
        cls.pricing = month(4)
        cls.nurses = range(len(cls.pricing.plan.nurses))

    def test_rows_cost_the_sum_of_their_weeks(self):
        chance = random.Random(1)
        for _ in range(5):
            rows = [random_row(self.pricing, nurse, chance) for nurse in self.nurses]
            self.assertEqual(
                [self.pricing.cost(nurse, row) for nurse, row in enumerate(rows)],
                costs_by_rules(rows),
            )

    def test_no_row_costs_less_than_the_cheapest(self):
        chance = random.Random(2)
        prices = random_prices(self.pricing, 5)
        gains = self.pricing.crews.gains(prices)
        crews = self.pricing.crews.of
        for nurse, found in enumerate(cheapest(self.pricing)):
            rows = [found.row, *(random_row(self.pricing, nurse, chance) for _ in range(20))]
            earned = [
                sum(gains[crews[nurse][day][choice]] for day, choice in enumerate(row))
                for row in rows
            ]
            self.assertEqual(
                self.pricing.crews.earned(prices, [nurse] * len(rows), rows).tolist(), earned
            )
            values = [
                POINT * self.pricing.cost(nurse, row) - less for row, less in zip(rows, earned)
            ]
            self.assertEqual(found.value, values[0])
            self.assertEqual(found.value, min(values))

    def test_all_nurses_together_have_the_rows_of_each_alone(self):
        gains = self.pricing.crews.gains(random_prices(self.pricing, 5))
        self.assertEqual(self.pricing.cheapest_of(self.nurses, gains), cheapest(self.pricing))


@unittest.skipUnless(HAS_CBC, "needs cbc")
class Parts(HelperTest):
    def test_two_threads_find_the_best_roster(self):
        week = files.read_files(THIRTY_FILES.scenario, THIRTY_FILES.history, THIRTY_FILES.week)
        plan = Plan.of(week.scenario, week.history, [week.data])
        solver = LinearSolver(Processes(), self.folder, self.fail)
        self.addCleanup(solver.close)
        kept = []

        def offer(rows, finder):
            cells = staffed(plan, search.pricing.crews, rows).cells
            self.assertIsNone(first_broken(week, cells))
            kept.append(sum(costs(week, cells).values()))
            return kept[-1]

        search = RowSearch(
            Pricing(plan, Crews(plan), lambda: None), solver, Clock(600), offer, lambda: None
        )
        search.begin(all_off(plan), None)
        search.generate(search.clock)
        RowParts(search, [solver, solver.beside(1)]).run(search.clock)
        # docs/search.md has this penalty as the best.
        self.assertEqual((search.penalty, search.lower_bound), (605, 605))
        self.assertEqual(kept, sorted(set(kept), reverse=True))

    def test_a_proof_ends_the_other_threads(self):
        week = files.read_files(THIRTY_FILES.scenario, THIRTY_FILES.history, THIRTY_FILES.week)
        plan = Plan.of(week.scenario, week.history, [week.data])
        solver = LinearSolver(Processes(), self.folder, self.fail)
        search = RowSearch(
            Pricing(plan, Crews(plan), lambda: None),
            solver,
            Clock(600),
            lambda rows, finder: search.value_of(rows),
            lambda: None,
        )
        search.begin(all_off(plan), None)
        parts = RowParts(search, [solver, solver.beside(1)])

        def dive(solver, clock, task):
            if solver is parts._solvers[1]:
                words = ["sh", "-c", "echo ready; exec sleep 60"]
                ended.append(
                    solver._processes.run(
                        words, 60, self.folder, hear=lambda data: ready.set()
                    ).status
                )
            ready.wait()
            search.bound = 0
            search.penalty = 0

        ended = []
        ready = threading.Event()
        with mock.patch.object(parts, "_dive", dive):
            parts.run(search.clock)
        self.assertEqual(ended, [-9])

    def test_without_a_solver_that_fails_the_others_go_on(self):
        plan = Plan.of(SCENARIO, HISTORY, WEEKS[:1])
        warnings = []
        solver = LinearSolver(Processes(), self.folder, warnings.append)
        search = RowSearch(
            Pricing(plan, Crews(plan), lambda: None),
            solver,
            Clock(600),
            lambda rows, finder: search.value_of(rows),
            lambda: None,
        )
        search.begin(all_off(plan), None)
        parts = RowParts(search, [solver, solver.beside(1)])
        failed = threading.Event()

        def dive(used, clock, task):
            if used is solver:
                failed.set()
                raise SolverFault("cbc wrote an empty answer")
            failed.wait()
            while not warnings:
                clock.check()
            search.bound = 0
            search.penalty = 0

        with mock.patch.object(parts, "_dive", dive):
            parts.run(search.clock)
        self.assertEqual(
            warnings, ["cbc wrote an empty answer: the search goes on with 1 of 2 threads"]
        )

        def fails(used, clock, task):
            raise SolverFault("cbc wrote an empty answer")

        search.bound = None
        search.penalty = 10_000
        with mock.patch.object(parts, "_dive", fails), self.assertRaises(SolverFault):
            parts.run(search.clock)


if __name__ == "__main__":
    unittest.main()
