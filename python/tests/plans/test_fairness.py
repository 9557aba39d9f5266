"""Tests of nights and weekends that are shared evenly: who has how many, and exchanges that cost
nothing."""

import datetime
import time
import unittest
from dataclasses import replace
from unittest import mock

from test_kept_plans import KeptTest
from test_next_period import PeriodTest
from test_plans import MONDAY, TWO_WEEKS
from ward import ENOUGH, HAS_CBC

from inrc2pb.plans import exchanges, planning
from inrc2pb.plans.exchanges import more_even
from inrc2pb.plans.facts import beside_days_away, newly_exceeded, unkept
from inrc2pb.plans.fairness import (
    Evenness,
    Share,
    Spread,
    evenness,
    may_work_nights,
    may_work_weekends,
    shares,
)
from inrc2pb.plans.last_year import last_year
from inrc2pb.plans.reading import PlanReader
from inrc2pb.plans.searching import Asked
from inrc2pb.plans.searching import Found
from inrc2pb.plans.sentences import beside_lines, evenness_lines
from inrc2pb.plans.state import SetDay
from inrc2pb.plans.store import Means, PlanStore, penalties
from inrc2pb.plans.verb import Event
from inrc2pb.plans.ward_folder import WardFolder
from inrc2pb.programs.progress import Progress
from inrc2pb.week.records import Cell

# The steps with which the exchanges of these tests end.
STEPS = 100_000


class Shares(KeptTest):
    def test_nights_and_weekends_of_the_period(self):
        # In the stored roster, twice: Chen has Night from Friday to Sunday, Dilek on Monday, Ewa
        # from Tuesday to Thursday.
        found = shares(self.read())
        self.assertEqual(
            {nurse: one.nights for nurse, one in found.items() if one.nights},
            {"Chen": 6, "Dilek": 2, "Ewa": 6},
        )
        self.assertEqual(
            {nurse: one.weekends for nurse, one in found.items() if one.weekends},
            dict.fromkeys(("Amara", "Chen", "Dilek", "Finn"), 2),
        )
        # Weeks that are over count too.
        plan = self.read()
        self.assertEqual(
            shares(plan.with_state(replace(plan.state, open_week=1)))["Chen"], Share(6, 2)
        )

    def test_who_may_work_them(self):
        self.rows["nurses"][7][4] = "Sat, Sun"
        self.rows["contracts"][2][7] = "0"
        self.write()
        plan = self.read()
        self.assertEqual(
            [nurse for nurse in plan.scenario.nurses if not may_work_nights(plan, nurse)], ["Finn"]
        )
        self.assertEqual(
            [nurse for nurse in plan.scenario.nurses if not may_work_weekends(plan, nurse)],
            ["Ewa", "Finn", "Grace"],
        )

    def test_how_even_they_are(self):
        plan = self.read()
        # Finn never works Night, so nobody is beside Ewa.
        self.assertEqual(
            evenness(plan),
            Evenness((Spread("Full", 0, 6),), (Spread("Full", 0, 2), Spread("Half", 0, 2))),
        )
        self.assertEqual(evenness_lines(plan), [
            "nights of each nurse who may work them, by contract: Full 0 to 6",
            "weekends of each nurse who may work them, by contract: Full 0 to 2, Half 0 to 2",
        ])  # fmt: skip


class LastYears(PeriodTest):
    def test_periods_of_the_last_twelve_months_count(self):
        # Wednesday of the first week is a bank holiday. Hana was not there.
        self.rows["needs"].append(["2026-12-02", "Day", "Nurse", *[""] * 2, "0+1", *[""] * 4])
        self.write()
        self.plan_next()
        self.end_period()
        self.rows["nurses"].append(["Hana", "Full", "Nurse"])
        self.write_next(MONDAY + datetime.timedelta(days=14))
        store = PlanReader(WardFolder(self.ward))
        plan = store.current()
        found = last_year(store.periods(), plan)
        self.assertEqual((found.since, found.shares["Chen"]), (MONDAY, Share(6, 2, 1)))
        # Five nurses of her contract had eight nights, eight weekends, and four worked that day.
        self.assertEqual(found.shares["Hana"], Share(2, 1, 1))
        lines = evenness_lines(plan.with_cells(TWO_WEEKS), found)
        self.assertEqual(
            lines[-1],
            "these numbers count from 30 Nov 2026 on, with what was worked before this plan",
        )

    def test_older_days_do_not_count(self):
        store = PlanReader(WardFolder(self.ward))
        plan = store.current()
        (period,) = store.periods()
        for weeks, first, nights in ((52, None, 6), (53, 6, 4), (54, 13, 1), (55, None, None)):
            days = plan.days._replace(monday=MONDAY + datetime.timedelta(weeks=weeks))
            later = replace(
                plan, ward=replace(plan.ward, days=days), state=replace(plan.state, period=1)
            )
            found = last_year([period], later)
            with self.subTest(weeks):
                since = None if nights is None else MONDAY + datetime.timedelta(days=first or 0)
                self.assertEqual(found.since, since)
                self.assertEqual(found.shares["Chen"].nights if nights else None, nights)


class NightsInARow(KeptTest):
    """Chen has Night from Friday to Sunday in each week of the stored roster."""

    def test_a_maximum_that_holds_is_said_and_asked_for(self):
        self.rows["shifts"][3][2] = "3!"
        self.write()
        before = self.read()
        self.assertEqual(beside_lines(before), [])
        longer = before.with_cells((*before.cells, Cell("Chen", 7, "Night", "Nurse")))
        self.assertEqual(
            beside_lines(longer),
            ["Chen has 4 days in a row on Night, Fri 4 Dec to Mon 7 Dec, of at most 3"],
        )
        self.assertEqual(
            (newly_exceeded(before, longer), newly_exceeded(longer, before)), (True, False)
        )
        self.assertIn("Night: never more than 3 days in a row.", self.does("check"))

    def test_a_swap_that_exceeds_it_is_not_possible(self):
        self.rows["shifts"][3][2] = "3!"
        self.write()
        said = self.runs("set", "Chen", "Mon", "2", "Night", "--time", "0")[1]
        self.assertIn(
            "Chen has 4 days in a row on Night, Fri 4 Dec to Mon 7 Dec, of at most 3", said
        )


class Exchanges(KeptTest):
    """Chen and Dilek have the same contract, and nothing is charged for rows, but for wishes."""

    def setUp(self):
        super().setUp()
        for row in self.rows["contracts"][1:]:
            row[1:9] = ["", "", "", "", "", "", "", "no"]
        for row in self.rows["shifts"][1:]:
            row[1:3] = ["", ""]
        for row in self.rows["plan"][1:]:
            row[1:] = [""] * (len(row) - 1)
        self.write()

    def evened(self, first=0):
        plan = self.read()
        return plan, more_even(plan, first, STEPS)

    def test_an_exchange_costs_nothing_and_is_more_even(self):
        plan, even = self.evened()
        (spread,) = [one for one in evenness(even).nights if one.contract == "Full"]
        # Eight nights of five nurses with full contracts, of which one had six and three had none.
        self.assertLessEqual(spread.most, 3)
        (weekends,) = [one for one in evenness(even).weekends if one.contract == "Full"]
        self.assertLessEqual(weekends.most - weekends.fewest, 2)
        # Each place has as many nurses as before, and the program charges the same.
        self.assertEqual(
            sorted(cell[1:] for cell in even.cells), sorted(cell[1:] for cell in plan.cells)
        )
        self.assertEqual(sum(penalties(even).values()), sum(penalties(plan).values()))

    def test_nothing_that_holds_is_broken(self):
        self.rows["contracts"][1][4] = "5!"
        self.rows["plan"][7][6] = "training"
        self.rows["plan"][2][12:14] = ["leave", "off"]
        self.write()
        plan, even = self.evened()
        self.assertEqual([len(unkept(one)) for one in (plan, even)][1:], [len(unkept(plan))])
        self.assertLessEqual(len(beside_days_away(even)), len(beside_days_away(plan)))
        self.assertNotEqual(even.works, plan.works)

    def test_days_that_do_not_change(self):
        # Days before the first one, fixed shifts, and days that were set.
        self.rows["plan"][3][7] = "Night"
        self.write()
        plan = self.read()
        plan = plan.with_state(replace(plan.state, set_days=(SetDay("Chen", 5),)))
        even = more_even(plan, 3, STEPS)
        self.assertEqual(
            {one: cell for one, cell in even.works.items() if one.day < 3},
            {one: cell for one, cell in plan.works.items() if one.day < 3},
        )
        self.assertEqual(
            [even.works.get(("Chen", day)) for day in (5, 6)],
            [Cell("Chen", 5, "Night", "Nurse"), Cell("Chen", 6, "Night", "Nurse")],
        )

    def test_an_exchange_that_would_cost_a_wish_is_not_made(self):
        for row in self.rows["plan"][1:]:
            row[1:] = ["" if row[0] == "Chen" else "no Night"] * 14
        self.write()
        plan, even = self.evened()
        # Each night of another nurse costs a wish already, and Chen's nights would.
        self.assertEqual(shares(even)["Chen"].nights, 6)
        self.assertEqual(sum(penalties(even).values()), sum(penalties(plan).values()))

    def test_three_nurses_in_a_circle(self):
        # Chen has four nights. Dilek may not have them, since she has not the skill, and Grace may,
        # but Chen has not the skill for what Grace has then: Dilek has it, and Chen that for what
        # Dilek has.
        skills = {"Chen": "Nurse, Charge", "Dilek": "Charge, Tutor", "Grace": "Nurse, Tutor"}
        for row in self.rows["nurses"][1:]:
            row[1], row[2] = ("Full", skills[row[0]]) if row[0] in skills else ("Half", row[2])
        self.rows["needs"].append(["", "Day", "Tutor", *["0+1"] * 7])
        self.write()
        given = {"Chen": ("Night", "Nurse"), "Dilek": ("Day", "Charge"), "Grace": ("Day", "Tutor")}
        plan = self.read(
            [Cell(nurse, day, *shift) for nurse, shift in given.items() for day in range(4)]
        )
        even = more_even(plan, 0, STEPS)
        self.assertEqual(
            {nurse: shares(even)[nurse].nights for nurse in skills},
            {"Chen": 2, "Dilek": 0, "Grace": 2},
        )
        self.assertEqual(
            sorted(cell[1:] for cell in even.cells), sorted(cell[1:] for cell in plan.cells)
        )
        self.assertEqual(even.view().penalty, plan.view().penalty)
        self.assertTrue(
            all(cell.skill in plan.scenario.nurses[cell.nurse].skills for cell in even.cells)
        )

    def test_who_had_more_nights_last_year_has_fewer_now(self):
        plan = self.read()
        # Amara has had ten nights more than each other nurse of her contract.
        even = more_even(plan, 0, STEPS, before={"Amara": Share(nights=10)})
        nights = {nurse: share.nights for nurse, share in shares(even).items()}
        self.assertEqual(nights["Amara"], 0)
        self.assertGreater(sum(nights.values()), 0)

    def test_who_worked_last_christmas_is_off_on_this_one(self):
        # Friday of the second week is a bank holiday, on which Grace works the Day.
        self.rows["needs"].append(["2026-12-11", "Day", "Nurse", *[""] * 4, "0+1", "", ""])
        self.write()
        plan = self.read()
        self.assertEqual(plan.ward.holidays, {11})
        (grace,) = [cell for cell in plan.cells if (cell.nurse, cell.day) == ("Grace", 11)]
        even = more_even(plan, 0, STEPS, before={"Grace": Share(holidays=1)})
        self.assertEqual(shares(even)["Grace"].holidays, 0)
        self.assertEqual(
            [cell[1:] for cell in even.cells if cell.day == 11].count(grace[1:]),
            [cell[1:] for cell in plan.cells if cell.day == 11].count(grace[1:]),
        )
        self.assertEqual(sum(penalties(even).values()), sum(penalties(plan).values()))

    def test_its_work_is_limited(self):
        plan = self.read()
        for steps in (1, 20, 1000):
            with mock.patch.object(
                exchanges._Exchanges,
                "_squares",
                autospec=True,
                side_effect=exchanges._Exchanges._squares,
            ) as tried:
                self.assertEqual(len(more_even(plan, 0, steps).cells), len(plan.cells))
            self.assertLessEqual(tried.call_count, steps)
        self.assertEqual(more_even(plan, 0, 0).works, plan.works)

    def test_more_work_is_never_less_even(self):
        plan = self.read()
        before = plan
        for steps in (100, 1000, 10_000):
            even = more_even(plan, 0, steps)
            older, now = (
                sum(share.nights**2 + share.weekends**2 for share in shares(one).values())
                for one in (before, even)
            )
            self.assertLessEqual(now, older)
            before = even
        self.assertNotEqual(before.works, plan.works)

    def test_a_busy_machine_makes_the_same_plan(self):
        # Each look at a clock says that an hour has passed.
        plan = self.read()
        asked = Asked(0, False, 1.0)
        hours = iter(range(0, 10**9, 3600))
        quiet = planning._evened(Found(plan), asked)
        clocks = {
            name: lambda: float(next(hours))
            for name in ("monotonic", "perf_counter", "process_time", "thread_time", "time")
        }
        with mock.patch.multiple(time, **clocks):
            busy = more_even(plan, 0, round(exchanges.STEPS_A_SECOND * planning.EVENING_SHARE))
        self.assertEqual(busy.cells, quiet.cells)
        self.assertNotEqual(busy.works, plan.works)

    def test_who_stops_a_search_does_not_wait_for_a_slow_machine(self):
        plan = self.read()
        store = PlanStore(WardFolder(self.ward), Means(Progress(None), lambda line: None))

        def slow(old, new, *words):
            (ends,) = filter(callable, words)
            limit = time.monotonic() + ENOUGH
            while not ends() and time.monotonic() < limit:
                time.sleep(0.01)
            return plan

        began = time.monotonic()
        with mock.patch.multiple(
            planning,
            _filling=lambda *words: Found(plan, stopped=True),
            more_even=slow,
            without_needless_changes=slow,
        ):
            for few_changes in (False, True):
                asked = Asked(0, few_changes, 60.0)
                self.assertTrue(
                    planning.searched(store, Event("plan"), "plan", plan, asked).is_stopped
                )
        self.assertLess(time.monotonic() - began, ENOUGH)

    @unittest.skipUnless(HAS_CBC, "cbc is not installed")
    def test_the_verb_says_how_even_it_is(self):
        printed = self.does("plan")
        self.assertRegex(
            printed,
            "(?m)^nights of each nurse who may work them, by contract: Full [0-9]+( to [0-9]+)?$",
        )


if __name__ == "__main__":
    unittest.main()
