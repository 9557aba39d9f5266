"""Tests of dates and times at their limits."""

import datetime

import pytest

from inrc2pb.week.dates import OtherPlan, PlanDays, times_of
from inrc2pb.week.faults import Misuse

DATED = PlanDays(datetime.date(2026, 11, 30), 2)
BARE = PlanDays(None, 2)


@pytest.mark.parametrize(
    "text, is_night",
    [
        ("07:00-15:30", False),
        ("14:30-00:00", False),
        ("18:00-03:00", False),
        # It ends more than three hours after midnight.
        ("18:00-03:01", True),
        ("22:30-07:15", True),
    ],
)
def test_a_shift_that_takes_a_part_of_the_night(text, is_night):
    assert times_of(text, "Shift").is_night == is_night


@pytest.mark.parametrize("text, day", [("30.11.", 0), ("13.12.", 13)])
def test_dates_without_a_year_from_the_first_day_on(text, day):
    assert DATED.number(text, 5) == day


@pytest.mark.parametrize(
    "days, near, text, number, name",
    [
        (DATED, 0, "Fri", 4, "Fri 4 Dec"),
        (DATED, 5, "fri", 11, "Fri 11 Dec"),
        (DATED, 4, "Friday", 4, "Fri 4 Dec"),
        (DATED, 0, "Fri 2", 11, "Fri 11 Dec"),
        (DATED, 9, "2026-12-01", 1, "Tue 1 Dec"),
        (DATED, 9, "1.12.", 1, "Tue 1 Dec"),
        (DATED, 0, "13.12.2026", 13, "Sun 13 Dec"),
        (DATED, 9, "1 Dec", 1, "Tue 1 Dec"),
        (DATED, 9, "Tue 1 dec", 1, "Tue 1 Dec"),
        (BARE, 0, "Sun 2", 13, "Sun of week 2"),
    ],
)
def test_days_and_their_names(days, near, text, number, name):
    assert (days.number(text, near), days.text(number)) == (number, name)


def test_heads_of_days():
    assert (DATED.head(4), BARE.head(11)) == ("2026-12-04", "Fri 2")


@pytest.mark.parametrize(
    "weeks, dated, bare",
    [
        ([1], "week 2 (calendar week 50)", "week 2"),
        ([0, 1], "weeks 1 and 2 (calendar weeks 49 and 50)", "weeks 1 and 2"),
    ],
)
def test_weeks_and_their_numbers_in_the_calendar(weeks, dated, bare):
    assert (DATED.weeks_text(weeks), BARE.weeks_text(weeks)) == (dated, bare)


@pytest.mark.parametrize("text, day", [("31.12.", 3), ("2.1.", 5)])
def test_a_date_without_its_year_after_new_year(text, day):
    assert PlanDays(datetime.date(2026, 12, 28), 1).number(text, 0) == day


@pytest.mark.parametrize(
    "text", ["29.11.", "14.12.", "2026-11-29", "2026-12-14", "Mon 3", "29.11.2026"]
)
def test_days_that_the_plan_does_not_have(text):
    with pytest.raises(OtherPlan):
        DATED.number(text, 0)


@pytest.mark.parametrize(
    "days, text",
    [
        (DATED, "2026-02-30"),
        (DATED, "soon"),
        (DATED, "Wed 1 Dec"),
        (BARE, "2026-12-01"),
        (BARE, "1 Dec"),
    ],
)
def test_texts_that_are_no_days(days, text):
    with pytest.raises(Misuse):
        days.number(text, 0)
