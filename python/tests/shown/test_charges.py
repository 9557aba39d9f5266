"""Tests of charges in words: `inrc2pb-roster why`, also with `--old`, and `swap`."""

import re
import sys
import unittest
from collections import Counter
from dataclasses import replace
from ward import (
    EARLY_ANSWER,
    HISTORY,
    ROOT,
    ROSTER,
    SCENARIO,
    THIRTY_FILES,
    WARD,
    WEEK,
    WEEK_FILES,
    WEEK_OPTIONS,
    HelperTest,
    program,
    records,
    run,
)

from inrc2pb.judging import rules
from inrc2pb.judging.breaches import breaches
from inrc2pb.shown.why import charge_text
from inrc2pb.week.soft_rules import SOFT_RULES

sys.path.insert(0, str(ROOT / "tests" / "random"))
import drafts  # noqa: E402
import random_weeks  # noqa: E402

FIVE = ROOT / "examples" / "n005w4"
FIVE_FILES = program.WeekFiles(FIVE / "ward.txt", FIVE / "history-0.txt", FIVE / "week-0.txt")
LINE = re.compile(r" *([0-9]+)  (S\d+)  (.+)")


def sums(printed):
    """The costs of the lines by rule."""
    found = dict.fromkeys(SOFT_RULES, 0)
    for line in printed.splitlines():
        match = LINE.fullmatch(line)
        if match:
            found[match[2]] += int(match[1])
    return found


def options(week):
    return [
        "--sce",
        week.scenario,
        "--his",
        week.history,
        "--week",
        week.week,
        *["--early"] * week.early,
    ]


class Words(unittest.TestCase):
    def charged(self, has, before, least, greatest):
        base = rules.Charge("S3", "off", "Chen", 30)
        days = [letter == "#" for letter in has]
        return [
            (charge.times, charge_text(charge))
            for charge in rules.run_charges(base, days, before, records.Limits(least, greatest))
        ]

    def test_runs(self):
        # The first is the example of docs/rules.md.
        for has, before, limits, wanted in (
            (
                "###.#.#",
                1,
                (2, 3),
                [
                    (1, "Chen, Mon to Wed: 4 days off in a row (1 before Monday), at most 3"),
                    (1, "Chen, Fri: only 1 day off, at least 2"),
                ],
            ),
            ("####...", 0, (2, 3), [(1, "Chen, Mon to Thu: 4 days off in a row, at most 3")]),
            (".......", 1, (3, 9), [(2, "Chen, before Monday: only 1 day off, at least 3")]),
            (
                "#......",
                9,
                (0, 3),
                [(1, "Chen, Mon: 10 days off in a row (9 before Monday), at most 3")],
            ),
            (".......", 9, (0, 3), []),
            ("......#", 0, (9, 9), []),
            ("#######", 0, (0, 0), [(7, "Chen, Mon to Sun: 7 days off in a row, at most 0")]),
            (
                ".##....",
                0,
                (4, 1),
                [
                    (1, "Chen, Tue to Wed: 2 days off in a row, at most 1"),
                    (2, "Chen, Tue to Wed: only 2 days off in a row, at least 4"),
                ],
            ),
        ):
            with self.subTest(has, before=before, limits=limits):
                self.assertEqual(self.charged(has, before, *limits), wanted)


class Why(HelperTest):
    def test_each_rule_has_its_words(self):
        ward = self.changed(
            SCENARIO, "Full (17,21) (3,5) (2,3) 2 1", "Full (3,4) (2,2) (1,1) 0 1", "ward.txt"
        )
        ward.write_text(ward.read_text().replace("WEEKS = 4", "WEEKS = 1"))
        ward.write_text(
            "\n".join(
                line
                for line in ward.read_text().replace("NURSES = 7", "NURSES = 2").splitlines()
                if not re.match("Bruno|Dilek|Ewa|Finn|Grace", line)
            )
            + "\n"
        )
        history = self.folder / "history.txt"
        history.write_text(
            "HISTORY\n0 ward\n\nNURSE_HISTORY\nAmara 2 0 None 0 0 1\nChen 0 0 Late 1 1 0\n"
        )
        week = self.folder / "week.txt"
        asked = ["Amara Any Wed"] * 2 + ["Amara Day Wed"] + ["Chen Any Fri"] * 30
        week.write_text(
            "\n".join(
                [
                    "WEEK_DATA\nward\n\nREQUIREMENTS",
                    "Day Nurse" + " (0,0)" * 6 + " (0,2)",
                    f"SHIFT_OFF_REQUESTS = {len(asked)}",
                    *asked,
                ]
            )
            + "\n"
        )
        roster = self.solution(
            "Amara Tue Day Nurse",
            "Amara Wed Day Nurse",
            "Amara Thu Day Nurse",
            "Amara Sun Day Nurse",
            "Chen Fri Late Nurse",
        )
        status, printed, _ = run(
            "roster", "why", "--sce", ward, "--his", history, "--week", week, "--roster", roster
        )
        self.assertEqual(status, 0)
        self.assertEqual(printed.splitlines(), [
            "   30  S1  Day Nurse, Sun: 1 of 2 nurses",
            "   30  S2  Amara, Tue to Thu: 3 days with work in a row, at most 2",
            "   30  S3  Amara, Mon: 2 days off in a row (1 before Monday), at most 1",
            "   30  S3  Amara, Fri to Sat: 2 days off in a row, at most 1",
            "   20  S4  Amara, Wed: on Day, and asked to be off (2 requests)",
            "   10  S4  Amara, Wed: on Day, and asked for no Day",
            "   30  S5  Amara, Sun: half a weekend",
            "   40  S6  Amara: 6 shifts in the period (2 before Monday), at most 4",
            "   30  S7  Amara: 1 weekend in the period (0 before Monday), at most 0",
            "   15  S2  Chen, before Monday: only 1 day on Late, at least 2",
            "   15  S2  Chen, Fri: only 1 day on Late, at least 2",
            "   30  S2  Chen, before Monday: only 1 day with work, at least 2",
            "   30  S2  Chen, Fri: only 1 day with work, at least 2",
            "   90  S3  Chen, Mon to Thu: 4 days off in a row, at most 1",
            "   30  S3  Chen, Sat to Sun: 2 days off in a row, at most 1",
            "  300  S4  Chen, Fri: on Late, while away (30 requests)",
            "   40  S6  Chen: 1 shift in the period (0 before Monday), at least 3",
            "  800  in all: S1 30 + S2 120 + S3 180 + S4 330 + S5 30 + S6 80 + S7 30",
        ])  # fmt: skip
        self.assertEqual(
            sums(printed), program.extend(program.WeekFiles(ward, history, week), roster)[1].by_rule
        )

    def test_the_lines_add_up_to_the_report(self):
        for week, answer in (
            (FIVE_FILES, FIVE / "answers" / "clasp-optimum.txt"),
            (replace(THIRTY_FILES, early=True), EARLY_ANSWER),
        ):
            roster = self.folder / "roster.txt"
            report = program.decode(week, answer.read_text(), roster)
            printed = run("roster", "why", *options(week), "--roster", roster)[1]
            self.assertEqual(sums(printed), report.by_rule)
            self.assertIn(f"{report.penalty:5}  in all", printed)

    def test_random_weeks(self):
        kept = 0
        for number in range(2, 22):
            for case in list(random_weeks.random_cases(5, number))[:3]:
                draft = drafts.read_week(case["sce"], case["his"], case["week"])
                week = drafts.week_of(draft)
                rows = drafts.rows(drafts.read_roster(case["roster"]))
                held = drafts.rows(drafts.read_roster(case["fix"])) if "fix" in case else []
                found = breaches(week, rows, held)
                self.assertEqual(
                    [breach.rule for breach in found][:1], list(rules.broken(week, rows, held))[:1]
                )
                if found:
                    continue
                paths = {name: self.folder / name for name in ("sce", "his", "week", "roster")}
                for name, path in paths.items():
                    path.write_text(case[name])
                of_week = program.WeekFiles(
                    paths["sce"], paths["his"], paths["week"], early="early" in case
                )
                report = program.extend(of_week, paths["roster"])[1]
                self.assertEqual(
                    sums(run("roster", "why", *options(of_week), "--roster", paths["roster"])[1]),
                    report.by_rule,
                )
                kept += 1
        self.assertGreater(kept, 30)

    def test_a_roster_that_breaks_hard_rules(self):
        roster = self.changed(ROSTER, "Chen Fri Night Nurse", "Chen Fri Day Charge")
        self.assertEqual(run("roster", "why", *WEEK_OPTIONS, "--roster", roster), (6, "\n".join([
            "the roster breaks H2: Fri Night Nurse has 0 nurses and needs at least 1",
            "the roster breaks H3: Chen may not work Day on Fri after Late on Thu",
            "the roster breaks H4: Chen does not have the skill Charge\n"]), ""))  # fmt: skip


class Swaps(HelperTest):
    def test_a_swap_and_the_same_change_by_hand(self):
        status, printed, said = run(
            "roster", "swap", "Chen Mon", "Grace Mon", *WEEK_OPTIONS, "--roster", ROSTER
        )
        self.assertEqual((status, said), (0, ""))
        self.assertEqual(
            printed.splitlines()[:2],
            ["Chen Mon: Day Nurse instead of off", "Grace Mon: off instead of Day Nurse"],
        )
        # Chen is off on the day before the week, and on Tuesday: 15 and 2 * 30 points for one day of
        # Day and of work, and 30 for each of two days off that are alone.
        self.assertEqual(
            printed.splitlines()[-1], " +135  in all: S2 +75 S3 +60; penalty 155 instead of 20"
        )
        self.assertIn("  +60  S2  Chen, Mon: only 1 day with work, at least 3\n", printed)
        other = self.changed(ROSTER, "Grace Mon Day Nurse", "Chen Mon Day Nurse")
        self.assertEqual(
            run("roster", "why", *WEEK_OPTIONS, "--old", ROSTER, "--roster", other)[1], printed
        )
        back = run("roster", "why", *WEEK_OPTIONS, "--old", other, "--roster", ROSTER)[1]
        self.assertEqual(
            back.splitlines()[-1], " -135  in all: S2 -75 S3 -60; penalty 20 instead of 155"
        )
        before, now = (program.penalty_of(WEEK_FILES, roster) for roster in (ROSTER, other))
        self.assertTrue(
            printed.splitlines()[-1].endswith(f"; penalty {now} instead of {before}"), printed
        )
        changed = sum(int(line.split()[0]) for line in printed.splitlines()[2:-1])
        self.assertEqual(changed, now - before)

    def test_a_swap_back_changes_nothing(self):
        words = ("Chen Mon", "Grace Tue")
        self.assertEqual(
            run("roster", "swap", *words, *words, *WEEK_OPTIONS, "--roster", ROSTER),
            (0, "   +0  in all; penalty 20 instead of 20\n", ""),
        )

    def test_a_swap_that_breaks_a_hard_rule(self):
        for pair, rule in (
            (
                ("Chen Fri", "Grace Fri"),
                "the new roster breaks H3: Chen may not work Day on Fri after Late on Thu",
            ),
            (
                ("Amara Mon", "Grace Mon"),
                "the new roster breaks H4: Grace does not have the skill Charge",
            ),
            (
                ("Ewa Tue", "Ewa Fri"),
                "the new roster breaks H2: Tue Night Nurse has 0 nurses and needs at least 1",
            ),
        ):
            status, printed, _ = run("roster", "swap", *pair, *WEEK_OPTIONS, "--roster", ROSTER)
            self.assertEqual((status, printed.splitlines()[2]), (6, rule))

    def test_faults(self):
        for words, line in (
            (
                ("Chan Fri", "Grace Fri"),
                "swap \"Chan Fri\": 'Chan' is no nurse: did you mean Chen?",
            ),
            (
                ("Chen Fri", "Grace Friday"),
                "swap \"Grace Friday\": 'Friday' is no day: did you mean Fri?",
            ),
            (
                ("Chen Fri", "X Fri"),
                (
                    "swap \"X Fri\": 'X' is no nurse: give one of Amara, Bruno, Chen, Dilek, Ewa,"
                    " Finn, Grace"
                ),
            ),
            (("Chen", "Grace Fri"), 'swap "Chen": give a nurse and a day, as in "Chen Fri"'),
            (("Chen Fri", "Chen Fri"), 'swap "Chen Fri" "Chen Fri": these are one cell: give two'),
            (
                ("Chen Fri",),
                '"Chen Fri" has no second day: give pairs, as in "Chen Fri" "Grace Fri"',
            ),
            (
                ("Chen Fri", "Ewa Fri", "--week", WARD / "week-1.txt", "--roster", ROSTER),
                (
                    "swap is for one roster: change a copy of one of these, and give the others to"
                    " why, with --old"
                ),
            ),
        ):
            with self.subTest(words[-3:]):
                status, printed, said = run(
                    "roster", "swap", *words, *WEEK_OPTIONS, "--roster", ROSTER
                )
                self.assertEqual(
                    (status, printed, said.splitlines()[-1]), (1, "", f"inrc2pb-roster: {line}")
                )


class Older(HelperTest):
    def test_rosters_of_other_wards_weeks_and_numbers(self):
        other = self.solution("Ada Mon Day Nurse", ward="icu", name="other.txt")
        later = self.changed(ROSTER, "0 ward", "1 ward", "later.txt")
        for words, line in (
            (
                ("--old", other, "--roster", ROSTER),
                (
                    f"{other} is a roster of 'icu', and {ROSTER} of 'ward': give two rosters of one"
                    " ward"
                ),
            ),
            (
                ("--old", later, "--roster", ROSTER),
                (
                    f"{later} is a roster of week 1, and {ROSTER} of week 0: give two rosters of"
                    " one week"
                ),
            ),
            (
                ("--csv", "--old", ROSTER, "--roster", ROSTER),
                "--old is for the table and --html: leave it out",
            ),
            (
                ("--old", ROSTER, ROSTER, "--roster", ROSTER),
                "--old has 2 files for 1 roster: give one for each, in their order",
            ),
        ):
            self.assert_fault(run("roster", "show", *words), f"inrc2pb-roster: {line}")

    def test_the_changes_below_a_table(self):
        other = self.changed(ROSTER, "Grace Mon Day Nurse", "Chen Mon Late Nurse")
        lines = run("roster", "show", "--old", ROSTER, "--roster", other)[1].splitlines()
        self.assertEqual(
            lines[-2:],
            [
                "changed: Chen Mon: Late Nurse instead of off",
                "changed: Grace Mon: off instead of Day Nurse",
            ],
        )
        self.assertEqual(
            Counter(
                line.startswith("changed")
                for line in run("roster", "show", "--old", ROSTER, "--roster", ROSTER)[
                    1
                ].splitlines()
            )[True],
            0,
        )

    def test_two_weeks(self):
        two = ("--sce", SCENARIO, "--his", HISTORY, "--week", WEEK, "--week", WARD / "week-1.txt")
        later = self.changed(ROSTER, "0 ward", "1 ward", "later.txt")
        other = self.changed(ROSTER, "Grace Mon Day Nurse", "Chen Mon Day Nurse", "other.txt")
        status, printed, said = run(
            "roster", "why", *two, "--roster", other, later, "--old", ROSTER, "--old", later
        )
        self.assertEqual((status, said), (0, ""))
        self.assertIn("week 1: Chen Mon: Day Nurse instead of off\n", printed)
        self.assertIn("  +60  S2  week 1: Chen, Mon: only 1 day with work, at least 3\n", printed)
        printed = run("roster", "why", *two, "--roster", ROSTER, later)[1]
        self.assertIn("   10  S4  week 1: Chen, Sat: on Night, and asked to be off\n", printed)


if __name__ == "__main__":
    unittest.main()
