"""Tests of the warnings of `inrc2pb-roster check`."""

import unittest

from ward import HISTORY, ROOT, SCENARIO, WARD, WEEK, HelperTest, run

EXAMPLES = ROOT / "examples"
# A file of the ward, a change, the file's option, and the only warning, if there is one.
WARNINGS = [
    (SCENARIO, "Day (2,5)", "Day (5,2)", "--sce", "shift type Day: the minimum of (5,2) is above its maximum"),
    (SCENARIO, "(17,21)", "(29,30)", "--sce", "contract Full: at least 29 assignments are asked for, and the period has 28 days: count shifts, not hours"),
    (SCENARIO, "(17,21)", "(21,21)", "--sce", "contract Full: at least 21 assignments are asked for, "
     "and 28 days have 20 with at most 5 working days and at least 2 off in a row"),
    (SCENARIO, "WEEKS = 4", "WEEKS = 2", "--sce", "contract Full: at least 17 assignments are asked for, and the period has 14 days: count shifts, not hours"),
    (SCENARIO, "(17,21)", "(20,21)", "--sce", None),
    (HISTORY, "Bruno 0 0 None 0 0 2", "Bruno 0 0 None 0 1 2", "--his", "Bruno was off on Sunday, but has consecutive shifts or working days: correct one of the two"),
    (HISTORY, "Amara 0 0 Day 2 2 0", "Amara 0 0 Day 2 2 1", "--his", "Amara worked on Sunday (Day), but has 1 day off in a row: correct one of the two"),
    (HISTORY, "Amara 0 0 Day 2 2 0", "Amara 0 0 Day 0 2 0", "--his", "Amara worked on Sunday (Day), but has 0 days in a row on this shift type: correct one of the two"),
    (HISTORY, "Amara 0 0 Day 2 2 0", "Amara 0 0 Day 3 2 0", "--his", "Amara has 3 days in a row on Day, and only 2 with work: correct one of the two"),
    (HISTORY, "Bruno 0 0", "Bruno 18 0", "--his", "Bruno has 18 assignments, and 0 weeks of the period are over (leave with credit?)"),
    (HISTORY, "Bruno 0 0", "Bruno 17 0", "--his", None),
    (HISTORY, "Bruno 0 0", "Bruno 0 1", "--his", "Bruno has 1 weekend, and 0 weeks of the period are over"),
    (HISTORY, "Bruno 0 0 None 0 0 2", "Bruno 0 0 None 0 0 0", "--his", None),
    (WARD / "history-1.txt", "Amara 5 1 Day 2 2 0", "Amara 5 1 Day 2 6 0", "--his", "Amara has 6 working days in a row, and 5 assignments"),
    (WARD / "history-1.txt", "Amara 5", "Amara 25", "--his", "Amara has 25 assignments, and 1 week of the period is over (leave with credit?)"),
    (WEEK, "Day Charge (1,1) (1,1)", "Day Charge (5,5) (5,5)", "--week",
     "Day Charge on Mon, Tue: at least 5 are needed, and 3 nurses have the skill: no roster can meet it: lower 5 to 3, or give more nurses the skill\n"
     "Mon and Tue: 5 with Charge needed at once (Day 5), and 3 have it: no roster can meet it: "
     "lower minimum numbers by 2, or give more nurses the skill\n"
     "it asks for at least 34 shifts, and the contracts supply at most 32 a week: if all weeks ask for so many, each shift above costs points"),
    (WEEK, "Day Charge (1,1) (1,1)", "Day Charge (1,1) (1,4)", "--week", "Day Charge on Tue: 4 are best, and 3 nurses have the skill"),
    (WEEK, "Day Charge (1,1)", "Day Charge (2,1)", "--week", "Day Charge on Mon: (2,1) has a minimum above the optimal number"),
    (WEEK, "Late Nurse", "Night Charge", "--week",
     "nobody is asked for Late on any day: write a row for each skill, with 0 if nobody is needed"),
]  # fmt: skip


class Warnings(HelperTest):
    def test_a_name_with_a_control_character(self):
        ward = self.changed(SCENARIO, "Chen Full", "Chen\x1b[31m Full")
        status, printed, said = run("roster", "check", "--sce", ward)
        line = (
            f"{ward}: warning: the name Chen\\x1b[31m has a sign that no table shows: remove it in"
            " each file of the ward\n"
        )
        self.assertEqual((status, printed, said), (0, f"{line}No mistake found.\n", ""))

    def test_a_ward_that_is_not_utf_8(self):
        ward = self.folder / "latin.txt"
        for letter, warnings in ((b"\xe4", 1), ("\u00e4".encode(), 0)):
            ward.write_bytes(SCENARIO.read_bytes().replace(b"Amara", b"Am" + letter + b"ra"))
            status, printed, said = run("roster", "check", "--sce", ward)
            self.assertEqual(
                (status, said, printed.count("warning: it is not saved as UTF-8")),
                (0, "", warnings),
            )

    def test_each_odd_value_has_its_warnings(self):
        for path, old, new, option, warning in WARNINGS:
            with self.subTest(new=new):
                changed = self.changed(path, old, new)
                words = {"--sce": SCENARIO, option: changed}
                said = "".join(
                    f"{changed}: warning: {line}\n" for line in (warning or "").splitlines()
                )
                end = (
                    "No mistake found, but see the warnings."
                    if "no roster can meet it" in said
                    else "No mistake found."
                )
                self.assertEqual(
                    run("roster", "check", *(word for pair in words.items() for word in pair)),
                    (0, f"{said}{end}\n", ""),
                )

    def test_a_shift_type_that_is_closed(self):
        text = WEEK.read_text()
        zeros = " ".join(["(0,0)"] * 7)
        closed = "".join(line for line in text.splitlines(True) if not line.startswith("Late "))
        week = self.folder / "week.txt"
        for rows, warned in (
            ([], True),
            ([f"Late Nurse {zeros}"], True),
            ([f"Late Nurse {zeros}", f"Late Charge {zeros}"], False),
        ):
            week.write_text(
                closed.replace("REQUIREMENTS\n", "\n".join(["REQUIREMENTS", *rows, ""]), 1)
            )
            _, printed, _ = run("roster", "check", "--sce", SCENARIO, "--week", week)
            self.assertEqual("nobody is asked for Late on any day" in printed, warned, printed)

    def test_the_examples_have_none(self):
        weeks = [
            (
                EXAMPLES / name / "ward.txt",
                *EXAMPLES.glob(f"{name}/history-*"),
                *EXAMPLES.glob(f"{name}/week-*"),
            )
            for name in ("eight", "n005w4", "thirty")
        ]
        weeks += [
            (SCENARIO, WARD / f"history-{number}.txt", WARD / f"week-{number}.txt")
            for number in (0, 1)
        ]
        month = EXAMPLES / "month"
        weeks += [
            (month / "ward.txt", month / "history-0.txt", month / f"week-{number}.txt")
            for number in range(4)
        ]
        for scenario, history, week in weeks:
            with self.subTest(week):
                self.assertEqual(
                    run("roster", "check", "--sce", scenario, "--his", history, "--week", week),
                    (0, "No mistake found.\n", ""),
                )


if __name__ == "__main__":
    unittest.main()
