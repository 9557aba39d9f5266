"""Tests of training and leave, which concern the days beside them: what is counted, and what rows
may not have."""

import random
import unittest
from dataclasses import replace

from ward import HISTORY, SCENARIO, WEEK, files

from inrc2pb.judging.days_away import (
    DaysAway,
    LongRow,
    LongRun,
    excess,
    long_rows,
    long_runs,
    nights_before,
)
from inrc2pb.judging.runs import ANY_CHOICE
from inrc2pb.rows.plan import ABSENCES_KEPT, Extra, Plan
from inrc2pb.rows.pricing import Crews, Pricing
from inrc2pb.week.dates import times_of

WARD = files.read_scenario(SCENARIO)
PAST = files.read_history(HISTORY, WARD)
DATA = files.read_week(WEEK, WARD)
NIGHTS = frozenset(["Night"])


def shifts(nurse, row):
    """The shift types of a nurse's days, of a row with the first letters of shift types, and of
    other signs for days off."""
    types = {name[0]: name for name in WARD.shift_types}
    return {(nurse, day): types[sign] for day, sign in enumerate(row) if sign in types}


def away_of(nurse, row, **fields):
    """The days of training (T) and of leave (F) of a row."""
    days = {
        sign: frozenset((nurse, day) for day, other in enumerate(row) if other == sign)
        for sign in "TF"
    }
    return DaysAway(days["T"], days["T"] | days["F"], NIGHTS, **fields)


def with_most_nights(most):
    """The ward with this maximum of nights in a row."""
    night = WARD.shift_types["Night"]
    night = replace(night, consecutive=night.consecutive._replace(maximum=most))
    return replace(WARD, shift_types={**WARD.shift_types, "Night": night})


class Counting(unittest.TestCase):
    def test_rows_with_training(self):
        # Grace was off on Sunday, and Amara has worked two days before Monday. Both may work five
        # days in a row.
        for nurse, row, days, number in (
            ("Grace", "DDDTDD.", range(6), 6),
            ("Grace", "DDDTD.D", None, 0),
            ("Grace", "DDDDDDD", None, 0),
            ("Grace", ".DDDDDT", range(1, 7), 6),
            ("Amara", "DTDD.", range(4), 6),
            ("Amara", "DTD.", None, 0),
        ):
            with self.subTest(row):
                found = list(long_rows(WARD, PAST, away_of(nurse, row), shifts(nurse, row)))
                self.assertEqual(found, [LongRow(nurse, list(days), number, 5)] if days else [])

    def test_nights_before(self):
        for row, days in (("..NT", [3]), ("..NF", [3]), ("..N.T", []), ("..DT", []), ("NFF.", [1])):
            with self.subTest(row):
                self.assertEqual(
                    nights_before(away_of("Grace", row), shifts("Grace", row)),
                    [("Grace", day) for day in days],
                )

    def test_what_could_not_be_otherwise_is_no_excess(self):
        for row, fixed, above in (
            ("DDDTDD.", 0, 1),
            ("DDDTDD.", 5, 1),
            ("DDDTDD.", 6, 0),
            ("TTTTTT.", 0, 0),
            ("TTTTTTD", 0, 2),
            ("NT.....", 1, 0),
            ("NT.....", 0, 1),
        ):
            with self.subTest(row=row, fixed=fixed):
                self.assertEqual(
                    excess(WARD, PAST, away_of("Grace", row, fixed=fixed), shifts("Grace", row)),
                    above,
                )

    def test_runs_of_a_shift_type_with_a_maximum_that_holds(self):
        # At most three nights in a row; Dilek has had two until Sunday, and Grace was off.
        ward = with_most_nights(3)
        for nurse, row, fixed, days, number, above in (
            ("Grace", "NNNN...", 0, range(4), 4, 1),
            ("Grace", "NNN.NNN", 0, None, 0, 0),
            ("Grace", ".NNNNND", 0, range(1, 6), 5, 2),
            ("Grace", ".NNNNND", 5, range(1, 6), 5, 1),
            ("Grace", ".NNNNND", 6, range(1, 6), 5, 0),
            ("Dilek", "NN.....", 0, range(2), 4, 1),
            ("Dilek", ".NNN...", 0, None, 0, 0),
            ("Grace", "DDDDD..", 0, None, 0, 0),
        ):
            with self.subTest(nurse=nurse, row=row, fixed=fixed):
                away = DaysAway(fixed=fixed, kept=NIGHTS)
                works = shifts(nurse, row)
                found = list(long_runs(ward, PAST, away, works))
                wanted = [LongRun(nurse, "Night", list(days), number, 3)] if days else []
                self.assertEqual((found, excess(ward, PAST, away, works)), (wanted, above))

    def test_night_shifts_by_their_times(self):
        for times, is_night in (
            ("22:30-7:15", True),
            ("14:30-23:00", False),
            ("15:00-0:30", False),
            ("16:00-24:00", False),
            ("8:00-8:00", True),
        ):
            self.assertEqual(times_of(times, "").is_night, is_night, times)


class Rows(unittest.TestCase):
    def test_rows_cost_more_if_and_only_if_the_days_beside_are_not_kept(self):
        chance = random.Random(11)
        types = list(WARD.shift_types)
        seen = {False: 0, True: 0}
        plain = Plan.of(WARD, PAST, [DATA, DATA])
        without = Pricing(plain, Crews(plain), lambda: None)
        for _ in range(25):
            nurse = chance.choice(["Grace", "Amara", "Dilek", "Ewa"])
            signs = [chance.choice("......TTF") for _ in range(14)]
            away = away_of(nurse, signs, fixed=chance.choice([0, 0, 2, 5]))
            plan = replace(plain, beside=away)
            kept = [
                Pricing(one, Crews(plan), lambda: None) for one in (plan, plan.kept(ABSENCES_KEPT))
            ]
            number = list(WARD.nurses).index(nurse)
            for _ in range(40):
                row = bytes(
                    0 if sign != "." or chance.random() < 0.2 else chance.choice((1, 1, 2, 3))
                    for sign in signs
                )
                cost = without.cost(number, row)
                strict, less_strict = (pricing.cost(number, row) for pricing in kept)
                if cost is None:
                    self.assertEqual((strict, less_strict), (None, None))
                    continue
                works = {
                    (nurse, day): types[choice - 1] for day, choice in enumerate(row) if choice
                }
                breaks = excess(WARD, PAST, away, works) > 0
                seen[breaks] += 1
                self.assertEqual(
                    (strict, less_strict == cost),
                    (None, False) if breaks else (cost, True),
                    (nurse, signs, away.fixed, list(row)),
                )
        self.assertGreater(min(seen.values()), 50)

    def test_rows_cost_more_if_and_only_if_they_have_too_many_nights_in_a_row(self):
        chance = random.Random(3)
        ward = with_most_nights(3)
        plain = Plan.of(ward, PAST, [DATA, DATA])
        seen = {False: 0, True: 0}
        for fixed in (0, 4):
            away = DaysAway(fixed=fixed, kept=NIGHTS)
            plan = replace(plain, beside=away)
            prices = [
                Pricing(one, Crews(plan), lambda: None)
                for one in (plain, plan, plan.kept(ABSENCES_KEPT))
            ]
            for _ in range(150):
                nurse = chance.choice(["Grace", "Amara", "Dilek", "Ewa"])
                row = bytes(3 * (chance.random() < 0.7) for _ in range(14))
                number = list(WARD.nurses).index(nurse)
                cost, strict, less_strict = (pricing.cost(number, row) for pricing in prices)
                works = {(nurse, day): "Night" for day, choice in enumerate(row) if choice}
                above = excess(ward, PAST, away, works)
                seen[above > 0] += 1
                more = above * ABSENCES_KEPT.limit
                self.assertEqual((strict, less_strict), (None if above else cost, cost + more))
        self.assertGreater(min(seen.values()), 50)

    def test_a_row_that_differs_from_an_older_one_costs_a_call(self):
        chance = random.Random(5)
        plain = Plan.of(WARD, PAST, [DATA, DATA])
        older = {
            nurse: bytes(chance.choice((0, 0, 1, 2, 3, ANY_CHOICE)) for _ in range(14))
            for nurse in WARD.nurses
            if nurse != "Finn"
        }
        called = replace(plain, extra=Extra(older, 40))
        without, costs = (Pricing(one, Crews(one), lambda: None) for one in (plain, called))
        for number, nurse in enumerate(WARD.nurses):
            row = bytes(
                choice if choice != ANY_CHOICE else 1 for choice in older.get(nurse, bytes(14))
            )
            for day in range(14):
                tried = row[:day] + bytes([(row[day] + 1) % 4]) + row[day + 1 :]
                differs = nurse in older and any(
                    old not in (choice, ANY_CHOICE) for old, choice in zip(older[nurse], tried)
                )
                cost = without.cost(number, tried)
                self.assertEqual(
                    costs.cost(number, tried),
                    None if cost is None else cost + 40 * differs,
                    (nurse, day),
                )


if __name__ == "__main__":
    unittest.main()
