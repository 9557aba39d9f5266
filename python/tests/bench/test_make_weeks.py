"""Tests of the wards that `bench/make_weeks.py` makes."""

import subprocess
import sys
import unittest
from dataclasses import replace

from ward import ROOT, HelperTest, files

from inrc2pb.rows.descent import Descent, all_off
from inrc2pb.rows.plan import Plan
from inrc2pb.rows.pricing import Crews, Pricing
from inrc2pb.judging.rules import first_broken
from inrc2pb.rows.skills import staffed

EXAMPLES = ROOT / "examples"
SIZES = (12, 13, 29, 31, 45, 100)
# The sum of all minimum numbers of a week, for 30 nurses.
MINIMUM = 61


def first_roster(plan):
    """The roster of a plan that is found without a solver."""
    pricing = Pricing(plan, Crews(plan), lambda: None)
    descent = Descent(pricing, all_off(plan))
    descent.sweep(lambda: None)
    return staffed(plan, pricing.crews, descent.rows)


class MadeWards(HelperTest):
    def made(self, nurses, *options):
        """Makes a ward; its folder, or the fault."""
        words = [
            sys.executable,
            str(ROOT / "bench/make_weeks.py"),
            str(self.folder),
            str(nurses),
            *options,
        ]
        ran = subprocess.run(words, stdout=subprocess.PIPE, stderr=subprocess.PIPE)
        return ran.stderr.decode() if ran.returncode else self.folder / f"ward{nurses}"

    def test_the_last_week_of_thirty_nurses_is_the_example(self):
        ward = self.made(30)
        for name in ("ward.txt", "history-3.txt", "week-3.txt"):
            text = (ward / name).read_text()
            self.assertEqual(
                text.replace("ward30", "thirty"), (EXAMPLES / "thirty" / name).read_text()
            )

    def test_numbers_of_nurses_out_of_limits(self):
        for nurses in ("11", "1001", "many"):
            self.assertIn("no number from 12 to 1000\n", self.made(nurses))

    def test_wide_weeks_can_be_planned(self):
        words = [
            sys.executable,
            str(ROOT / "bench/wide_weeks.py"),
            str(self.folder),
            "60",
            "8",
            "3",
        ]
        texts = []
        for _ in range(2):
            subprocess.run(words, check=True)
            texts.append([path.read_text() for path in sorted((self.folder / "wide8x3").iterdir())])
        self.assertEqual(texts[0], texts[1])
        week = files.read_files(
            *(
                self.folder / "wide8x3" / name
                for name in ("ward.txt", "history-3.txt", "week-3.txt")
            )
        )
        plan = Plan.of(week.scenario, week.history, [week.data])
        found = first_roster(plan)
        self.assertEqual((found.below, first_broken(week, found.cells)), (0, None))
        self.assertNotEqual(
            subprocess.run([*words[:-1], "many"], stderr=subprocess.DEVNULL).returncode, 0
        )

    def weeks(self, nurses, *options):
        """The weeks of a ward. Those in the middle get the first one's history: planning makes
        their own."""
        ward = self.made(nurses, *options)
        for number in range(4):
            past = 3 if number == 3 else 0
            week = files.read_files(
                ward / "ward.txt", ward / f"history-{past}.txt", ward / f"week-{number}.txt"
            )
            yield replace(week, history=replace(week.history, week=number))

    def test_the_minimum_is_in_proportion(self):
        for nurses in SIZES:
            for week in self.weeks(nurses):
                self.assertEqual(
                    (len(week.scenario.nurses), len(week.data.requests)),
                    (nurses, 25 * nurses // 30),
                )
                minimum = sum(required.minimum for required in week.data.requirements.values())
                self.assertLess(abs(minimum - MINIMUM * nurses / 30), 3)

    def test_the_demand_is_a_part(self):
        for percent in (50, 75, 120):
            for week in self.weeks(60, "--demand", str(percent)):
                minimum = sum(required.minimum for required in week.data.requirements.values())
                self.assertLess(abs(minimum - MINIMUM * 2 * percent / 100), 3)

    def test_demand_out_of_limits(self):
        for percent in ("0", "201", "half"):
            self.assertIn("no number from 1 to 200\n", self.made(60, "--demand", percent))

    def test_each_week_has_a_roster(self):
        for nurses in SIZES:
            for week in self.weeks(nurses):
                with self.subTest(nurses=nurses, week=week.history.week):
                    plan = Plan.of(week.scenario, week.history, [week.data])
                    self.assertIsNone(first_broken(week, first_roster(plan).cells))


if __name__ == "__main__":
    unittest.main()
