"""Tests of what verbs do if a search ends without a plan: who has stopped it is not asked to wait
for another one."""

import datetime
import io
import unittest
from dataclasses import replace
from test_kept_plans import KeptTest
from test_plans import TWO_WEEKS
from types import SimpleNamespace
from unittest import mock
from ward import ENOUGH, HAS_CBC, run

from inrc2pb.plans import planning
from inrc2pb.plans.searching import Asked, Found, Keep, search_plan
from inrc2pb.plans.store import Means, plan_texts
from inrc2pb.plans.table import Verbs
from inrc2pb.plans.verb import Event
from inrc2pb.plans.ward import first_plan
from inrc2pb.plans.ward_folder import WardFolder
from inrc2pb.programs import clock
from inrc2pb.programs.program import BROKEN_RULE, NO_ROSTER
from inrc2pb.programs.progress import Progress, WardProgress
from inrc2pb.search.why_none import Owner, ShortPlace, Shortage
from inrc2pb.sheets.ward import read_sheet
from inrc2pb.week.faults import ProgramFault, Stopped
from inrc2pb.week.records import NurseDay, Place

REASON = "no plan was found: a search for the reason, at most 30 s for each week\n"
AGAIN = "no plan was found that keeps all agreed swaps: a search for one that may break them\n"
LATE = "no rosters were found in this time: give more"


class WithoutPlan(KeptTest):
    def ended(self, *results, why=None):
        """The status, output and messages of the verb plan, if its searches end so, one after
        another."""
        searches = mock.patch.object(planning, "search_plan", side_effect=results)
        found = iter([why] if why else [])
        with searches, mock.patch.object(planning, "shortages", return_value=found):
            return run("plan", self.ward, "plan")

    def agree(self):
        """Grace and Chen have agreed on Monday."""
        state = replace(self.plan.state, agreed=(NurseDay("Grace", 0), NurseDay("Chen", 0)))
        now = datetime.datetime(2026, 11, 28, 12, 30)
        WardFolder(self.ward).add(
            "swap",
            plan_texts(
                self.plan.with_state(state), state.record("swap Grace Chen 2026-11-30", now)
            ),
            now,
        )

    def test_who_stops_a_search_waits_for_no_other_one(self):
        for agree in (lambda: None, self.agree):
            agree()
            status, printed, said = self.ended(Stopped(NO_ROSTER, "stopped before the first plan"))
            self.assertEqual((status, printed), (5, ""))
            self.assertTrue(said.endswith("inrc2pb-plan: stopped before the first plan\n"), said)
            self.assertFalse(REASON in said or AGAIN in said, said)

    def test_weeks_with_odd_numbers_are_named_before_a_search_as_everywhere(self):
        # Amara, Bruno and Ewa have the skill Charge.
        of_week = ["2", "Day", "Charge", "", "", "4", "", "", "", ""]
        of_all = next(row for row in self.rows["needs"] if row[1:3] == ["Day", "Charge"])
        self.rows["needs"].append(of_week)
        for weeks in ("week 2 (calendar week 50)", "weeks 1 and 2 (calendar weeks 49 and 50)"):
            self.write()
            said = self.ended(Stopped(NO_ROSTER, "stopped before the first plan"))[2]
            self.assertIn(
                (
                    f"warning: sheet needs, {weeks}: Day Charge on Wed: at least 4 are needed, and"
                    " 3 nurses have the skill: "
                ),
                said,
            )
            of_all[5] = "4"

    def test_the_words_of_a_fault_stop_nothing(self):
        # Only the user stops a search: a solver that was stopped has found no plan.
        for message in (LATE, "clasp was stopped by the signal 9"):
            status, printed, said = self.ended(ProgramFault(NO_ROSTER, message))
            self.assertEqual((status, printed), (5, ""))
            self.assertIn(REASON, said)
            self.assertTrue(said.splitlines()[-1].startswith(f"inrc2pb-plan: {message}"), said)
        self.agree()
        status, _, said = self.ended(ProgramFault(NO_ROSTER, LATE), Found(self.read(TWO_WEEKS)))
        self.assertEqual(status, 0, said)
        self.assertTrue(AGAIN in said and REASON not in said, said)

    def test_another_fault_is_told_at_once(self):
        self.agree()
        _, printed, said = self.ended(ProgramFault(BROKEN_RULE, "week-0.txt line 3"))
        self.assertEqual(printed, "")
        self.assertFalse(REASON in said or AGAIN in said, said)

    def test_agreed_days_are_kept_by_the_first_search_and_mostly_by_the_second(self):
        self.agree()
        asked = []

        def search(old, wanted, _):
            asked.append(wanted.agreed)
            if wanted.agreed is Keep.ALL:
                raise ProgramFault(NO_ROSTER, LATE)
            return Found(old)

        with mock.patch.object(planning, "search_plan", search):
            means = Means(Progress(None), lambda line: None)
            Verbs(WardFolder(self.ward), means).done(Event("plan"))
        self.assertEqual(asked, [Keep.ALL, Keep.MOST])

    def test_two_searches_have_the_seconds_of_one(self):
        self.agree()
        passed = [0.0]

        def search(old, wanted, _):
            passed[0] += wanted.seconds
            if wanted.agreed is Keep.ALL:
                raise ProgramFault(NO_ROSTER, LATE)
            return Found(old)

        fake = SimpleNamespace(monotonic=lambda: passed[0])
        # The rest of a whole plan's time makes nights and weekends more even.
        for most, verb, *words in ((9.0, "plan"), (10.0, "ill", "Amara", "Tue")):
            passed[0] = 0.0
            means = Means(Progress(None), lambda line: None)
            with (
                self.subTest(verb),
                mock.patch.object(planning, "search_plan", search),
                mock.patch.object(planning, "MOST_EVENING", 8.0),
                mock.patch.object(clock, "time", fake),
            ):
                event = Event(verb, tuple(words), 10.0, look=True)
                Verbs(WardFolder(self.ward), means).done(event)
                self.assertAlmostEqual(passed[0], most)

    def test_why_there_is_no_plan_in_dates(self):
        owners = (Owner("Amara", True, "is away"), Owner("Bruno", False, "works Late on this day"), Owner("Ewa", True, "is away"),
                  Owner("Chen", False, ""))  # fmt: skip
        place = ShortPlace(Place(2, "Day", "Charge"), 1, 0, owners, True)
        status, printed, _ = self.ended(
            ProgramFault(NO_ROSTER, LATE), why=(1, Shortage((place,), (), True, True))
        )
        self.assertEqual(status, 5)
        self.assertEqual(printed.splitlines(), [
            "week 2 (calendar week 50): No roster meets all minimum numbers, and keeps every absence. Lower these by 1 in all; no roster can do with less:",
            "Wed 9 Dec Day Charge: lower 1 to 0",
            "    Bruno works Late on this day",
            "    Chen could, if nothing else needs her",
            "    away: Amara, Ewa",
            "with --open these shifts stay open",
        ])  # fmt: skip


class Heard(Progress):
    """Keeps the bounds that a search tells."""

    def __init__(self):
        super().__init__(None)
        self.bounds = []

    def bound_rose(self, bound):
        self.bounds.append(bound)


class ToldBounds(KeptTest):
    @unittest.skipUnless(HAS_CBC, "cbc is not installed")
    def test_no_bound_is_told_that_speaks_of_other_plans_than_the_last_line(self):
        asked = Asked(0, False, float(ENOUGH))
        for word in ("", "leave"):
            # Grace works from Monday to Friday, and is to be away on Saturday.
            self.rows["plan"][7][6] = word
            self.write()
            heard = Heard()
            found = search_plan(first_plan(read_sheet(self.ward, None, ())), asked, heard)
            self.assertEqual(bool(heard.bounds), not word)
            self.assertEqual(found.bound.beside is None, not word)

    def test_points_for_changed_shifts_are_in_no_bound_that_is_told(self):
        told = io.StringIO()
        progress = WardProgress(told)
        progress.counts = "changed shifts"
        progress.bound_rose(435)
        progress.improved(530, "")
        progress.counts = ""
        progress.improved(440, "")
        self.assertEqual(
            [line.split("s  ")[1] for line in told.getvalue().splitlines()],
            [
                "530 points, those for changed shifts among them",
                "440 points; at least 435 cannot be avoided",
            ],
        )


if __name__ == "__main__":
    unittest.main()
