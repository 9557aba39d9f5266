"""Tests of what days away count, by numbers that a ward would count by hand."""

import unittest
from dataclasses import replace
from fractions import Fraction

from ward import HISTORY, SCENARIO, files

from inrc2pb.judging.leave import Counted, counted, credited
from inrc2pb.week.records import Limits

WARD = files.read_scenario(SCENARIO)
WORDS = ("ill", "leave", "training")


def ward_with(maximum, minimum=0, weeks=4):
    """The ward in which Amara has these shifts in so many weeks."""
    full = WARD.contracts["Full"]
    return replace(
        WARD,
        weeks=weeks,
        contracts={**WARD.contracts, "Full": replace(full, assignments=Limits(minimum, maximum))},
    )


def shifts(ward, days, lost={}):
    """As how many shifts days of Amara count."""
    found = counted(
        ward,
        {("Amara", day): word for day, word in days.items()},
        WORDS,
        {("Amara", day): one for day, one in lost.items()},
    )
    return found.shifts.get("Amara", 0)


def row(word, first, last):
    return dict.fromkeys(range(first, last + 1), word)


class Days(unittest.TestCase):
    def test_training_counts_a_shift_a_day(self):
        for maximum in (20, 10, 15):
            self.assertEqual(shifts(ward_with(maximum), row("training", 0, 4)), 5, maximum)
        # Also on a weekend, which is then one with work.
        found = counted(WARD, {("Amara", day): "training" for day in (4, 5, 6, 12, 14)}, WORDS)
        self.assertEqual((found.shifts, found.weekends), ({"Amara": 5}, {"Amara": 2}))

    def test_leave_counts_from_monday_to_friday(self):
        # Twenty shifts are a full contract in four weeks, fifteen one of 75 %, ten one of 50 %.
        for maximum, minimum, weekdays, week in (
            (20, 17, 5, 5),
            (22, 17, 5, 5),
            (15, 12, 4, 4),
            (10, 8, 3, 3),
            (18, 15, 5, 5),
        ):
            ward = ward_with(maximum, minimum)
            self.assertEqual(
                (shifts(ward, row("leave", 7, 11)), shifts(ward, row("leave", 7, 13))),
                (weekdays, week),
                maximum,
            )
        # A whole period is the maximum.
        for maximum in (20, 15, 10):
            self.assertEqual(shifts(ward_with(maximum), row("leave", 0, 27)), maximum)
        # Without a maximum the minimum says how much she works.
        self.assertEqual(shifts(ward_with(9999, 10), row("leave", 0, 3)), 2)

    def test_leave_on_a_weekend(self):
        ward = ward_with(20)
        for days, count in (
            (row("leave", 5, 6), 2),
            (row("leave", 4, 6), 1),
            (row("leave", 5, 7), 1),
            ({12: "leave"}, 1),
            # She is away on the Friday before for another reason.
            ({4: "unpaid", 5: "leave"}, 0),
        ):
            self.assertEqual(shifts(ward, days), count, days)

    def test_an_illness_counts_the_shifts_that_it_takes(self):
        ward = ward_with(20)
        self.assertEqual(shifts(ward, row("ill", 2, 6), {2: 1, 3: 1, 4: 0, 5: 1, 6: 1}), 4)
        self.assertEqual(shifts(ward, row("ill", 5, 6), {5: 0, 6: 0}), 0)
        # Nobody has seen a plan of these days: they count as leave.
        self.assertEqual(shifts(ward, row("ill", 2, 6)), 3)

    def test_days_on_which_a_contract_does_not_run_count_nothing(self):
        self.assertEqual(shifts(ward_with(20), {0: "away", 1: "unpaid", 2: "leave"}), 1)

    def test_the_history_has_them_and_each_week_its_part(self):
        found = counted(ward_with(15), {("Amara", day): "leave" for day in (3, 4, 7)}, WORDS)
        self.assertEqual(
            [found.of_week(week) for week in (0, 1, 2)],
            [{"Amara": Fraction(3, 2)}, {"Amara": Fraction(3, 4)}, {}],
        )
        past = files.read_history(HISTORY, WARD)
        now = credited(past, Counted(shifts={"Amara": 3}, weekends={"Amara": 1})).nurses["Amara"]
        before = past.nurses["Amara"]
        self.assertEqual(
            (now.assignments, now.weekends), (before.assignments + 3, before.weekends + 1)
        )


if __name__ == "__main__":
    unittest.main()
