"""Tests of rows: their costs against the rules, their prices and bounds against all rows, and the
skills of a roster."""

import itertools
import random
import unittest
from dataclasses import replace

from ward import ROOT, files, records

from inrc2pb.judging.absences import MARK
from inrc2pb.programs.clock import Clock, TimeIsOver
from inrc2pb.judging.next_history import next_history
from inrc2pb.rows.descent import Descent, all_off
from inrc2pb.rows.plan import FREE, STRICT, Plan
from inrc2pb.rows.pricing import Crews, Pricing
from inrc2pb.judging.rules import broken, costs, first_broken, nurse_costs
from inrc2pb.rows.skills import staffed

POINT = 1000


def random_plan(seed, weeks=1, nurses=4, shifts=4):
    """A plan with hostile numbers: limits of 0 and 9999, histories that contradict themselves,
    nurses without skills."""
    chance = random.Random(seed)
    number = lambda: chance.choice(  # noqa: E731
        [0, 0, 1, 1, 2, 3, 4, 5, 6, 7, 9, 15, 9999] if seed % 2 else range(7)
    )
    limits = lambda: records.Limits(number(), number())  # noqa: E731
    names = [f"s{n}" for n in range(chance.randint(1, shifts))]
    skills = ["a", "b"][: chance.randint(1, 2)]
    types = {
        name: records.ShiftType(name, limits(), tuple(t for t in names if chance.random() < 0.25))
        for name in names
    }
    contracts = {
        name: records.Contract(name, limits(), limits(), limits(), number(), chance.random() < 0.5)
        for name in "cd"
    }
    people = {
        f"n{n}": records.Nurse(
            f"n{n}", chance.choice("cd"), tuple(s for s in skills if chance.random() < 0.8)
        )
        for n in range(nurses)
    }
    ward = records.Scenario("x", 3, tuple(skills), types, contracts, people)
    few = lambda: min(number(), 9900)  # noqa: E731
    pasts = {
        name: records.NurseHistory(
            name, few(), few(), chance.choice([None, *names]), number(), number(), number()
        )
        for name in people
    }
    history = records.History(chance.randint(0, 3 - weeks), "x", pasts)
    data = []
    for _ in range(weeks):
        places = [
            records.Place(*place)
            for place in itertools.product(range(7), names, skills)
            if chance.random() < 0.7
        ]
        asked = {
            place: records.Requirement(chance.choice([0, 0, 0, 1]), chance.choice([0, 1, 2]))
            for place in places
        }
        requests = [
            records.Request(
                chance.choice(list(people)), chance.choice([None, *names]), chance.randrange(7)
            )
            for _ in range(6)
        ]
        data.append(records.WeekData("x", asked, tuple(requests)))
    return Plan.of(ward, history, data, chance.random() < 0.5), chance


def pricing_of(plan, check=lambda: None):
    """The prices of a plan."""
    return Pricing(plan, Crews(plan), check)


def bound_of(pricing, prices):
    """What no roster costs less than by these prices, in thousandths."""
    found = pricing.cheapest_of(range(len(pricing.plan.nurses)), pricing.crews.gains(prices))
    return sum(priced.value for priced in found if priced) + pricing.places_cost(prices)


def cost_by_rules(plan, nurse, cells):
    """What a nurse's cells cost by `rules`, week by week; None if they break H3."""
    history = plan.history
    total = 0
    for number, data in enumerate(plan.weeks):
        week = records.Week(plan.scenario, history, data)
        now = [
            cell._replace(day=cell.day - 7 * number) for cell in cells if cell.day // 7 == number
        ]
        if "H3" in broken(week, now):
            return None
        total += sum(nurse_costs(week, now, plan.early)[nurse].values())
        history = (
            next_history(plan.scenario, history, now) if number + 1 < len(plan.weeks) else history
        )
    return total


def cells_of(plan, nurse, row):
    """The cells of a row, with any skill."""
    shifts = list(plan.scenario.shift_types)
    return [
        records.Cell(nurse, day, shifts[choice - 1], "a")
        for day, choice in enumerate(row)
        if choice
    ]


class Rows(unittest.TestCase):
    def test_costs_are_those_of_the_rules(self):
        for seed in range(60):
            plan, chance = random_plan(seed, 1 + seed % 2)
            pricing = pricing_of(plan)
            for index, nurse in enumerate(plan.nurses):
                for _ in range(6):
                    row = bytes(
                        chance.randrange(len(plan.scenario.shift_types) + 1)
                        for _ in range(plan.days)
                    )
                    wanted = cost_by_rules(plan, nurse, cells_of(plan, nurse, row))
                    if any(row) and not plan.scenario.nurses[nurse].skills:
                        wanted = None
                    self.assertEqual(pricing.cost(index, row), wanted, (seed, nurse, row))

    def test_the_cheapest_row(self):
        for seed in range(6):
            plan, chance = random_plan(seed, nurses=2, shifts=2)
            pricing = pricing_of(plan)
            prices = [chance.randrange(40 * POINT) for _ in pricing.crews.places]
            gains = pricing.crews.gains(prices)
            for nurse in range(2):
                table = pricing.crews.of[nurse]
                values = {}
                for choices in itertools.product(
                    range(len(plan.scenario.shift_types) + 1), repeat=7
                ):
                    cost = pricing.cost(nurse, bytes(choices))
                    if cost is not None:
                        values[bytes(choices)] = cost * POINT - sum(
                            gains[table[day][choice]] for day, choice in enumerate(choices)
                        )
                best = pricing.cheapest(nurse, gains)
                self.assertEqual((best.value, values[best.row]), (min(values.values()), best.value))

    def test_no_prices_give_a_bound_above_a_roster(self):
        for seed in range(60):
            plan, chance = random_plan(seed)
            pricing = pricing_of(plan)
            week = records.Week(plan.scenario, plan.history, plan.weeks[0])
            prices = [chance.choice([0, 15, 30, 200]) * POINT for _ in pricing.crews.places]
            found = [pricing.cheapest(nurse, pricing.crews.gains(prices)) for nurse in range(4)]
            bound = bound_of(pricing, prices)
            for _ in range(4):
                rows = [chance.choice([priced.row, bytes(7)]) for priced in found]
                roster = staffed(plan, pricing.crews, rows)
                rule = first_broken(week, roster.cells)
                self.assertIn(rule, (None, "H2"))
                self.assertEqual(rule is None, roster.below == 0)
                if rule is None:
                    total = sum(costs(week, roster.cells, plan.early).values())
                    self.assertLessEqual(bound, total * POINT)
                    self.assertEqual(
                        total,
                        sum(pricing.cost(index, row) for index, row in enumerate(rows))
                        + 30 * roster.missing,
                    )

    def test_a_bound_counts_rosters_that_break_absences(self):
        for seed in range(10):
            plan, chance = random_plan(seed)
            away = records.Request(chance.choice(plan.nurses), None, chance.randrange(7))
            data = [replace(plan.weeks[0], requests=(away,) * MARK)]
            keeping, free = (
                Plan.of(plan.scenario, plan.history, data, plan.early, keeping=keeping)
                for keeping in (STRICT, FREE)
            )
            self.assertTrue(
                keeping.is_away(away.nurse, away.day, next(iter(plan.scenario.shift_types)))
            )
            pricing = pricing_of(keeping)
            prices = [chance.choice([0, 30, 900]) * POINT for _ in pricing.crews.places]
            self.assertEqual(
                bound_of(pricing_of(keeping.kept(FREE)), prices), bound_of(pricing_of(free), prices)
            )
            self.assertLessEqual(bound_of(pricing_of(free), prices), bound_of(pricing, prices))

    def test_skills_fill_as_many_places_as_they_can(self):
        for seed in range(200):
            plan, chance = random_plan(seed, shifts=1)
            pricing = pricing_of(plan)
            rows = [
                bytes([int(bool(plan.scenario.nurses[nurse].skills)), *bytes(6)])
                for nurse in plan.nurses
            ]
            roster = staffed(plan, pricing.crews, rows)
            choices = [
                plan.scenario.nurses[nurse].skills
                for nurse, row in zip(plan.nurses, rows)
                if row[0]
            ]
            least = []
            for skills in itertools.product(*choices):
                below = missing = 0
                for place, asked in plan.demand.items():
                    number = skills.count(place.skill) if place.day == 0 else 0
                    below += max(0, asked.minimum - number)
                    missing += (
                        asked.optimal - max(number, asked.minimum) if number < asked.optimal else 0
                    )
                least.append((below, missing))
            self.assertEqual((roster.below, roster.missing), min(least), seed)

    def test_the_clock_is_looked_at_while_graphs_are_built(self):
        ward = ROOT / "examples" / "month"
        scenario = files.read_scenario(ward / "ward.txt")
        weeks = [files.read_week(ward / f"week-{number}.txt", scenario) for number in range(4)]
        with self.assertRaises(TimeIsOver):
            pricing_of(
                Plan.of(scenario, files.read_history(ward / "history-0.txt", scenario), weeks),
                Clock(0.0).check,
            )

    def test_rows_that_get_better_one_after_another(self):
        for seed in range(20):
            plan, _ = random_plan(seed, nurses=6)
            pricing = pricing_of(plan)
            descent = Descent(pricing, all_off(plan))
            while descent.sweep(lambda: None):
                # What one more nurse of a crew is worth is that of a descent which begins with
                # these rows.
                self.assertEqual(list(descent._worth), list(Descent(pricing, descent.rows)._worth))


if __name__ == "__main__":
    unittest.main()
