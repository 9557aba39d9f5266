"""Tests of prices without a linear program: they bound rosters, come near to the best ones, and the
rows on the way keep the hard rules."""

import unittest

from test_row_search import OPTIMA, week_of
from test_rows import POINT, bound_of, pricing_of, random_plan

from ward import ENOUGH

from inrc2pb.programs.clock import Clock, TimeIsOver
from inrc2pb.rows.plan import Plan
from inrc2pb.rows.price_rounds import AGAIN, FEW, approach, priced
from inrc2pb.rows.row_generation import BEGINNING, RowGeneration


class Rounds(unittest.TestCase):
    def test_they_prove_nearly_the_best_roster(self):
        for name, best in OPTIMA.items():
            week = week_of(name)
            pricing = pricing_of(Plan.of(week.scenario, week.history, [week.data]))
            found = approach(pricing, FEW, lambda: None)
            self.assertEqual(found.value, bound_of(pricing, found.prices))
            self.assertTrue(0.9 * best * POINT < found.value <= best * POINT, (name, found.value))

    def test_they_do_not_prove_less_than_the_prices_with_which_they_begin(self):
        plan, chance = random_plan(3)
        pricing = pricing_of(plan)
        prices = [chance.randrange(60 * POINT) for _ in pricing.crews.places]
        found = approach(pricing, AGAIN, lambda: None, prices)
        self.assertGreaterEqual(found.value, bound_of(pricing, prices))
        self.assertEqual(len(found.rounds), AGAIN.rounds)

    def test_what_the_prices_of_a_round_prove(self):
        for seed in range(20):
            plan, chance = random_plan(seed)
            pricing = pricing_of(plan)
            prices = [chance.randrange(60 * POINT) for _ in pricing.crews.places]
            value, there, rows = priced(pricing, prices)
            found = pricing.cheapest_of(range(4), pricing.crews.gains(prices))
            if None in found:
                continue
            self.assertEqual(value, bound_of(pricing, prices))
            self.assertEqual([row.tobytes() for row in rows], [cheapest.row for cheapest in found])
            cells = [
                (table, choice)
                for days, row in zip(pricing.crews.of, rows)
                for table, choice in zip(days, row)
            ]
            taken = [pricing.crews.best_place(table[choice], prices) for table, choice in cells]
            self.assertEqual(there.tolist(), [taken.count(place) for place in range(len(prices))])

    def test_each_round_has_a_row_of_each_nurse(self):
        plan, _ = random_plan(3)
        pricing = pricing_of(plan)
        rounds = approach(pricing, FEW, lambda: None).rounds
        self.assertEqual({len(rows) for rows in rounds}, {4})
        self.assertEqual(len(rounds), FEW.rounds)
        self.assertNotIn(
            None, [pricing.cost(nurse, row) for rows in rounds for nurse, row in enumerate(rows)]
        )

    def test_a_program_begins_with_the_last_rows(self):
        pricing = pricing_of(random_plan(3)[0])
        generation = RowGeneration(pricing, None, lambda: None)
        generation.approach(Clock(ENOUGH))
        rounds = approach(pricing, FEW, lambda: None).rounds[-BEGINNING:]
        known = {(nurse, row) for rows in rounds for nurse, row in enumerate(rows)}
        self.assertEqual({column[:2] for column in generation.program.columns}, known)

    def test_it_ends_with_its_time(self):
        def over():
            raise TimeIsOver

        with self.assertRaises(TimeIsOver):
            approach(pricing_of(random_plan(3)[0]), FEW, over)

    def test_a_program_begins_with_the_last_prices(self):
        pricing = pricing_of(random_plan(3)[0])
        generation = RowGeneration(pricing, None, lambda: None)
        generation.approach(Clock(ENOUGH))
        self.assertEqual(generation.prices, approach(pricing, FEW, lambda: None).prices)


if __name__ == "__main__":
    unittest.main()
