"""Tests of `inrc2pb-roster show`: tables of one and of several weeks."""

import csv
import io
import re
import subprocess
import unittest
import xml.dom.minidom

from ward import HELPERS, HISTORY, ROSTER, SCENARIO, WARD, WEEK, WEEK_OPTIONS, HelperTest, run

TWO_WEEKS = (
    "--sce",
    SCENARIO,
    "--his",
    HISTORY,
    "--week",
    WEEK,
    "--week",
    WARD / "week-1.txt",
    "--roster",
    ROSTER,
    ROSTER,
)


class Tables(HelperTest):
    other_week = "line 2 has week 0, and the history has week 1: is the file of another week?"

    def test_two_weeks(self):
        status, printed, said = run("roster", "show", *TWO_WEEKS)
        self.assertEqual((status, said), (0, f"inrc2pb-roster: {ROSTER}: {self.other_week}\n"))
        self.assertIn("ward, weeks 1 to 2: 66 assignments\n", printed)
        self.assertIn("D = Day  L = Late  N = Night\n", printed)
        self.assertIn("week 2: cost: of the nurses 100", printed)
        penalties = [
            int(number) for number in re.findall(r"; penalty ([0-9]+)$", printed, re.MULTILINE)
        ]
        self.assertEqual(len(penalties), 2)
        self.assertIn(f"all 2 weeks: penalty {sum(penalties)}\n", printed)
        self.assertNotIn("all 1", run("roster", "show", *WEEK_OPTIONS, "--roster", ROSTER)[1])

    def test_a_roster_without_its_option(self):
        for words in ((ROSTER, "--roster", ROSTER), ("--roster", ROSTER, "--csv", ROSTER)):
            status, _, said = run("roster", "show", *words)
            line = (
                f"unrecognized arguments: {ROSTER}: give rosters after --roster, and each other"
                " file after its option"
            )
            self.assertEqual(
                (status, said.splitlines()[-1]), (2, f"inrc2pb-roster show: error: {line}")
            )

    def test_a_week_after_the_last_one_needs_its_history(self):
        ward = self.changed(SCENARIO, "WEEKS = 4", "WEEKS = 1", "short.txt")
        line = f"inrc2pb-roster: {ROSTER}: week 1 is the last of 1: give --his for each roster"
        words = ("--sce", ward, "--his", HISTORY, "--week", WEEK, "--week", WEEK)
        self.assert_fault(run("roster", "show", *words, "--roster", ROSTER, ROSTER), line)

    def test_a_file_of_another_week_or_ward(self):
        later = self.changed(HISTORY, "0 ward", "1 ward", "history-1.txt")
        week = ("--sce", SCENARIO, "--his", later, "--week", WEEK)
        fix = self.solution("Grace Sat Day Nurse", ward="icu", name="fix.txt")
        other_ward = "line 2 has 'icu', and the scenario is 'ward': is the file of another ward?"
        fitting = self.changed(ROSTER, "0 ward", "1 ward", "roster-1.txt")
        for form in ("--html", "--csv"):
            status, _, said = run("roster", "show", *week, form, "--roster", ROSTER, "--fix", fix)
            lines = [
                f"inrc2pb-roster: {ROSTER}: {self.other_week}",
                f"inrc2pb-roster: {fix}: {other_ward}",
            ]
            self.assertEqual((status, said.splitlines()), (0, lines))
            self.assertEqual(run("roster", "show", *week, form, "--roster", fitting)[::2], (0, ""))

    def test_a_spreadsheet_has_no_lines_of_prose(self):
        for words, columns in (((*WEEK_OPTIONS, "--roster", ROSTER), 20), (TWO_WEEKS, 27)):
            status, printed, _ = run("roster", "show", "--csv", *words)
            rows = list(csv.reader(io.StringIO(printed)))
            self.assertEqual((status, len(rows), {len(row) for row in rows}), (0, 8, {columns}))

    def test_places_with_too_many_nurses_are_named(self):
        row = next(line for line in WEEK.read_text().splitlines() if line.startswith("Day Nurse"))
        less = self.changed(WEEK, row, "Day Nurse (1,1) (0,0) (9,9)" + " (1,9)" * 4)
        _, printed, _ = run(
            "roster",
            "show",
            "--sce",
            SCENARIO,
            "--his",
            HISTORY,
            "--week",
            less,
            "--roster",
            ROSTER,
        )
        lines = printed.splitlines()
        self.assertTrue(lines[-3].startswith("missing on Sun: Day Nurse ("), printed)
        self.assertEqual(
            lines[-2:],
            ["too many on Mon: Day Nurse (2 of 1)", "too many on Tue: Day Nurse (2 of 0)"],
        )
        less.write_text(WEEK.read_text().replace(row + "\n", ""))
        _, printed, _ = run(
            "roster",
            "show",
            "--sce",
            SCENARIO,
            "--his",
            HISTORY,
            "--week",
            less,
            "--roster",
            ROSTER,
        )
        self.assertIn("too many on Sun: Day Nurse (1 of 0)", printed)
        self.assertNotIn("too many", run("roster", "show", *WEEK_OPTIONS, "--roster", ROSTER)[1])

    def test_a_name_that_is_not_utf_8(self):
        roster = self.folder / "latin.txt"
        roster.write_bytes(ROSTER.read_bytes().replace(b"Amara", b"Am\xe4ra"))
        status, page, said = run("roster", "show", "--html", "--roster", roster)
        self.assertEqual(status, 0, said)
        self.assertIn("Am\ufffdra", page)
        xml.dom.minidom.parseString(page)

    def test_letters_that_do_not_take_one_column(self):
        for name, more in (("\u5c71\u7530\u592a\u90ce", 4), ("Jose\u0301", -1)):
            roster = self.changed(ROSTER, "Amara", name)
            roster.write_text(roster.read_text().replace("Amara", name))
            lines = run("roster", "show", "--roster", roster)[1].splitlines()
            row, other = (
                next(line for line in lines if line.startswith(begin)) for begin in (name, "Bruno")
            )
            self.assertEqual(row.index("|") + more, other.index("|"))

    def test_a_name_that_was_cut_is_spelled_out(self):
        roster = self.changed(ROSTER, "Amara Mon", "Annemarie_Schmidt Mon")
        self.assertIn(
            "\nAnnemarie_Sc = Annemarie_Schmidt  ", run("roster", "show", "--roster", roster)[1]
        )

    def test_a_full_disk(self):
        with open("/dev/full", "w") as full:
            ran = subprocess.run(
                [str(HELPERS / "inrc2pb-roster"), "show", "--roster", str(ROSTER)],
                stdout=full,
                stderr=subprocess.PIPE,
            )
        line = b"inrc2pb-roster: No space left on device: the disk is full: "
        self.assertEqual(
            (ran.returncode, ran.stderr[: len(line)], ran.stderr.count(b"\n")), (3, line, 1)
        )

    def test_numbers_of_files(self):
        _, _, said = run(
            "roster", "show", "--sce", SCENARIO, "--week", WEEK, "--roster", ROSTER, ROSTER
        )
        self.assertEqual(
            said,
            "inrc2pb-roster: --week has 1 file for 2 rosters: give one for each, in their order\n",
        )
        _, _, said = run(
            "roster", "show", "--sce", SCENARIO, "--week", WEEK, "--week", WEEK, "--roster", ROSTER
        )
        self.assertIn("--week has 2 files for 1 roster: ", said)
        _, _, said = run("roster", "show", "--fix", ROSTER, "--fix", ROSTER, "--roster", ROSTER)
        self.assertEqual(
            said,
            (
                f"inrc2pb-roster: --fix {ROSTER}: week 1 has the file {ROSTER}: put all rows into"
                " one file\n"
            ),
        )

    def test_held_shifts_of_one_of_two_weeks(self):
        later = self.changed(ROSTER, "0 ward", "1 ward", "roster-1.txt")
        fix = self.solution("Amara Mon Day Charge", week=1, name="fix.txt")
        two_weeks = (*TWO_WEEKS[:-1], later)
        status, printed, said = run("roster", "show", "--csv", *two_weeks, "--fix", f"2={fix}")
        amara = next(row for row in csv.reader(io.StringIO(printed)) if row[0] == "Amara")
        self.assertEqual((status, said, amara[1], amara[8]), (0, "", "Day Charge", "Day Charge *"))
        _, _, said = run("roster", "show", *two_weeks, "--fix", f"3={fix}")
        self.assertEqual(
            said,
            (
                f"inrc2pb-roster: --fix 3={fix}: there is no week 3: give 1 for the first week, and"
                " 2 for the last\n"
            ),
        )
        self.assertIn(
            "give the week's number, 1 for the first week, and its file",
            run("roster", "show", *two_weeks, "--fix", fix)[2],
        )


if __name__ == "__main__":
    unittest.main()
