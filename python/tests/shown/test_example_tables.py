"""Tests of `inrc2pb-roster show` on the roster of examples/n005w4: held cells, requests that were
not granted, the costs of the nurses and the report of `decode`, the spreadsheet, and colors in a
terminal only."""

import csv
import io
import os
import re
import shutil
import subprocess
import unittest

from ward import HELPERS, ROOT, HelperTest, program, run

from inrc2pb.week.soft_rules import SOFT_RULES

EXAMPLE = ROOT / "examples" / "n005w4"
WARD, HISTORY, WEEK, PROMISED = (
    EXAMPLE / name for name in ("ward.txt", "history-0.txt", "week-0.txt", "promised.txt")
)
WEEK_OPTIONS = ("--sce", WARD, "--his", HISTORY, "--week", WEEK)


class Tables(HelperTest):
    def decoded(self, answer, *options):
        """The roster of an answer, and the numbers of its report."""
        roster = self.folder / "plain.txt"
        words = [
            program.find_program(),
            "decode",
            *WEEK_OPTIONS,
            *options,
            "--answer",
            EXAMPLE / "answers" / answer,
            "--sol",
            roster,
        ]
        ran = subprocess.run(
            [str(word) for word in words], stdout=subprocess.PIPE, text=True, check=True
        )
        return roster, dict(line.split(" ", 1) for line in ran.stdout.splitlines())

    def shows(self, *words):
        status, printed, said = run("roster", "show", *words)
        self.assertEqual((status, said), (0, ""))
        return printed

    def assert_adds_up(self, table, report):
        """The costs of the nurses in a spreadsheet add up to the report's, rule by rule."""
        rows = list(csv.reader(io.StringIO(table)))
        found = dict.fromkeys(SOFT_RULES[1:], 0)
        self.assertEqual((rows[0][8:10], len(rows)), (["cost", "rules"], 6))
        for row in rows[1:]:
            paid = [part.split() for part in row[9].split(" + ") if part]
            self.assertEqual(sum(int(cost) for _, cost in paid), int(row[8]))
            for rule, cost in paid:
                found[rule] += int(cost)
        self.assertEqual(found, {rule: int(report[rule]) for rule in found})

    def test_a_pipe_gets_no_colors_and_no_marks(self):
        printed = self.shows("--roster", self.decoded("clasp-optimum.txt")[0])
        self.assertNotIn("\33", printed)
        self.assertNotIn("*", printed)

    def test_requests_that_were_not_granted(self):
        roster, report = self.decoded("clasp-optimum.txt")
        printed = self.shows("--sce", WARD, "--week", WEEK, "--roster", roster)
        self.assertIn("Early Nu!", printed)
        self.assertIn("! = a request to be off was not granted", printed)
        self.assertGreaterEqual(10 * printed.count("Nu!"), int(report["S4"]))

    def test_what_each_nurse_costs(self):
        roster, report = self.decoded("clasp-optimum.txt")
        self.assert_adds_up(self.shows(*WEEK_OPTIONS, "--csv", "--roster", roster), report)
        self.assertIn(f"penalty {report['penalty']}", self.shows(*WEEK_OPTIONS, "--roster", roster))

    def test_a_held_cell_that_is_not_in_the_roster(self):
        printed = self.shows(
            *WEEK_OPTIONS, "--fix", PROMISED, "--roster", self.decoded("clasp-optimum.txt")[0]
        )
        self.assertIn("held, and not in the roster: Stefaan Tue Late Nurse", printed)
        self.assertIn("roster breaks H5", printed)

    def test_a_held_cell(self):
        roster, report = self.decoded("clasp-held.txt", "--fix", PROMISED)
        held = (*WEEK_OPTIONS, "--fix", PROMISED)
        printed = self.shows(*held, "--roster", roster)
        table = self.shows(*held, "--csv", "--roster", roster)
        self.assertIn("Late Nu*", printed)
        self.assertIn("* = held", printed)
        self.assertIn("Late Nurse *", table)
        self.assert_adds_up(table, report)
        missing = "".join(line for line in printed.splitlines() if line.startswith("missing on "))
        self.assertEqual(30 * missing.count("("), int(report["S1"]))

    def test_files_that_do_not_fit(self):
        roster = self.decoded("clasp-optimum.txt")[0]
        other = self.folder / "other.txt"
        ward = self.folder / "ward.txt"
        other.write_text(roster.read_text().replace("Patrick", "Paul"))
        ward.write_text(WARD.read_text().replace("Patrick", "Paul"))
        for words, told in (
            ((*WEEK_OPTIONS, "--roster", other), "'Paul' is no nurse of NURSES: it has Patrick"),
            (("--sce", ward, "--roster", roster), "'Patrick' is no nurse of NURSES"),
            (
                ("--roster", "unwritten.txt"),
                (
                    "inrc2pb-roster: unwritten.txt: No such file or directory: look at its name and"
                    " folder"
                ),
            ),
            (("--his", HISTORY, "--roster", roster), "--his"),
        ):
            status, printed, said = run("roster", "show", *words)
            self.assertNotEqual(status, 0)
            self.assertEqual(printed, "")
            self.assertIn(told, said)

    def test_a_place_below_its_minimum(self):
        rows = self.decoded("clasp-optimum.txt")[0].read_text().splitlines()
        kept = [line for line in rows if not line.startswith("Sara Mon")]
        text = re.sub(
            "(?m)^(ASSIGNMENTS = )([0-9]+)",
            lambda found: f"{found[1]}{int(found[2]) - 1}",
            "\n".join(kept),
        )
        self.assertEqual(len(kept), len(rows) - 1)
        (self.folder / "other.txt").write_text(f"{text}\n")
        printed = self.shows(*WEEK_OPTIONS, "--roster", self.folder / "other.txt")
        self.assertIn("roster breaks H2", printed)
        self.assertIn(", at least 1)", printed)

    def test_shift_types_with_long_names(self):
        (self.folder / "other.txt").write_text(
            self.decoded("clasp-optimum.txt")[0].read_text().replace("Early", "Earliest")
        )
        self.assertIn("Earli = Earliest", self.shows("--roster", self.folder / "other.txt"))

    @unittest.skipUnless(shutil.which("script"), "needs script")
    def test_colors_in_a_terminal_unless_no_color_is_set(self):
        roster = self.decoded("clasp-optimum.txt")[0]
        command = [
            "script",
            "-qec",
            f"{HELPERS / 'inrc2pb-roster'} show --roster {roster}",
            "/dev/null",
        ]
        texts = [
            subprocess.run(
                command,
                env={**os.environ, "TERM": "xterm", "NO_COLOR": no_color},
                stdin=subprocess.DEVNULL,
                stdout=subprocess.PIPE,
                text=True,
            ).stdout
            for no_color in ("", "1")
        ]
        self.assertIn("\33[38;5;", texts[0])
        self.assertEqual(texts[1].replace("\r", ""), self.shows("--roster", roster))
