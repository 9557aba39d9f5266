"""Tests of runs that go on in the next period: a row costs there what the judge of weeks charges."""

import random
import unittest
from dataclasses import replace

from ward import HISTORY, SCENARIO, WEEK, files

from inrc2pb.judging.next_history import next_history
from inrc2pb.judging.rules import costs
from inrc2pb.judging.runs import ABOVE_LIMIT, NextDays, cost_then
from inrc2pb.rows.plan import Extra, Plan
from inrc2pb.rows.pricing import Crews, Pricing
from inrc2pb.week.records import Cell, Limits, Week, WeekData, in_week

WARD = files.read_scenario(SCENARIO)
PAST = files.read_history(HISTORY, WARD)
DATA = files.read_week(WEEK, WARD)
TYPES = tuple(WARD.shift_types.values())
NAMES = ("", *WARD.shift_types)
# The next period has two weeks.
THEN = replace(WARD, weeks=2)
EMPTY = WeekData(WARD.name, {}, ())


def random_row(chance, days):
    """Some days of work, then days off, and so on, without shift types that may not follow."""
    row = []
    while len(row) < days:
        choice = chance.choice((0, 0, 1, 2, 3))
        before = NAMES[row[-1]] if row and row[-1] else None
        if not WARD.forbids(before, NAMES[choice]):
            row += [choice] * chance.randint(1, 4)
    return bytes(row[:days])


def cells_of(nurse, row):
    """The shifts of a row."""
    return [
        Cell(nurse, day, NAMES[choice], WARD.nurses[nurse].skills[0])
        for day, choice in enumerate(row)
        if choice
    ]


def with_contract(ward, nurse, contract):
    """The ward in which a nurse has a contract of her own."""
    of_nurse = replace(ward.nurses[nurse], contract=contract.name)
    return replace(
        ward,
        contracts={**ward.contracts, contract.name: contract},
        nurses={**ward.nurses, nurse: of_nurse},
    )


def other_limits(chance, contract):
    """The contract, or one with other limits of days in a row."""
    if chance.random() < 0.5:
        return contract
    most = chance.randint(1, 7)
    limits = Limits(chance.randint(1, most), most)
    return replace(contract, name="Other", working_days=limits, days_off=limits)


def charged(ward, past, nurse, row):
    """What the judge of weeks charges a nurse for a row of the next period."""
    history = replace(past, nurses={nurse: past.nurses[nurse]}, week=0)
    alone = replace(ward, nurses={nurse: ward.nurses[nurse]})
    total = 0
    for week in range(2):
        cells = in_week(cells_of(nurse, row), week)
        total += sum(costs(Week(alone, history, EMPTY), cells).values())
        if week == 0:
            history = next_history(alone, history, cells)
    return total


class NextPeriod(unittest.TestCase):
    def rows(self, number=300):
        """Nurses with rows of this week and of the next period, whose first shift may follow."""
        chance = random.Random(7)
        for _ in range(number):
            nurse = chance.choice(list(WARD.nurses))
            row, then = random_row(chance, 7), random_row(chance, 14)
            if not WARD.forbids(NAMES[row[-1]] or None, NAMES[then[0]]):
                yield chance, nurse, row, then

    def test_a_row_costs_more_by_what_the_next_period_costs_after_it(self):
        # The totals of the next period are the same after each row, so only the difference counts.
        chance = random.Random(7)
        plain = Plan.of(WARD, PAST, [DATA])
        without = Pricing(plain, Crews(plain), lambda: None)
        seen = set()
        for _ in range(12):
            then = {
                nurse: NextDays(
                    other_limits(chance, WARD.contract_of(nurse)), random_row(chance, 14)
                )
                for nurse in WARD.nurses
            }
            plan = replace(plain, extra=Extra(then=then))
            with_then = Pricing(plan, Crews(plan), lambda: None)
            for number, (nurse, days) in enumerate(then.items()):
                ward = with_contract(THEN, nurse, days.contract)
                differences = set()
                for row in (random_row(chance, 7) for _ in range(9)):
                    cost = without.cost(number, row)
                    if cost is None or WARD.forbids(NAMES[row[-1]] or None, NAMES[days.choices[0]]):
                        continue
                    more = with_then.cost(number, row) - cost
                    past = next_history(WARD, PAST, cells_of(nurse, row), new_period=True)
                    self.assertEqual(more, cost_then(TYPES, days, past.nurses[nurse]))
                    differences.add(charged(ward, past, nurse, days.choices) - more)
                    seen.add(more)
                self.assertLessEqual(len(differences), 1, (nurse, days))
        self.assertGreater(len(seen), 10)

    def test_days_after_the_first_change_between_work_and_days_off_make_no_difference(self):
        for _, nurse, row, then in self.rows():
            contract = WARD.contract_of(nurse)
            past = next_history(WARD, PAST, cells_of(nurse, row), new_period=True).nurses[nurse]
            fresh = replace(past, last_shift=None, consecutive_shifts=0, working_days=0, days_off=1)
            end = next((day for day in range(14) if bool(then[day]) != bool(then[0])), 13) + 1
            whole, first = (
                cost_then(TYPES, NextDays(contract, days), past)
                - cost_then(TYPES, NextDays(contract, days), fresh)
                for days in (then, then[:end])
            )
            self.assertEqual(whole, first, (nurse, row, then))

    def test_a_maximum_that_holds(self):
        # Grace may work five days in a row.
        contract = WARD.contract_of("Grace")
        past = replace(PAST.nurses["Grace"], working_days=4, last_shift="Day", consecutive_shifts=4)
        days = bytes([1, 1, 1, 0])
        loose, firm, nights = (
            cost_then(TYPES, NextDays(contract, days, *kept), past)
            for kept in ((), (True,), (False, frozenset(["Day"])))
        )
        self.assertEqual(firm - loose, 2 * ABOVE_LIMIT)
        most = WARD.shift_types["Day"].consecutive.maximum
        self.assertEqual(nights - loose, max(0, 7 - most) * ABOVE_LIMIT)

    def test_a_shift_that_may_not_follow_charges_nothing(self):
        past = replace(PAST.nurses["Grace"], working_days=1, last_shift="Night")
        self.assertTrue(WARD.forbids("Night", NAMES[1]))
        then = NextDays(WARD.contract_of("Grace"), bytes([1, 1, 0]))
        self.assertEqual(cost_then(TYPES, then, past), 0)


if __name__ == "__main__":
    unittest.main()
