"""Tests of `inrc2pb-solve --solver`: a user's own solver, also one that fails or claims what is
wrong."""

import os
import re
import shutil
import sys
import time
import unittest
from dataclasses import replace
from pathlib import Path
from unittest import mock

from ward import ENOUGH, HAS_CBC, ROOT, ROSTER, WEEK_FILES, WEEK_OPTIONS
from ward import HelperTest, nurse_rows, program, run

from inrc2pb.week.faults import Misuse
from inrc2pb.programs.processes import Ended, Processes
from inrc2pb.solvers.solvers import Outcome, find_solver

FAKE = Path(__file__).resolve().parents[1] / "fake_solver.py"


def fake(how):
    """The command of a fake solver."""
    return f"{sys.executable} {FAKE} {how}"


class OwnSolvers(HelperTest):
    def improve(self, *words):
        usual = () if "--time" in words else ("--time", ENOUGH)
        return run("solve", *WEEK_OPTIONS, "--out", self.folder / "best.txt", *usual, *words)

    def test_a_solver_that_fails_leaves_the_roster(self):
        rows = {
            "crash": "printed no answer and was ended by SIGSEGV",
            "silent": "printed no answer and ended with status 0",
            "nonsense": "printed no answer and ended with status 1",
            "rejected": "answer was rejected",
        }
        for how, says in rows.items():
            with self.subTest(how=how):
                status, report, faults = self.improve("--solver", fake(how), "--roster", ROSTER)
                self.assertEqual(status, 1)
                self.assertIn("penalty 20\n", report)
                self.assertTrue(report.endswith("no lower bound\n"), report)
                self.assertIn(says, faults)
                self.assertEqual(program.penalty_of(WEEK_FILES, self.folder / "best.txt"), 20)

    def test_a_solver_without_a_roster(self):
        for how in ("unsupported", "lazy", "liar"):
            status, report, _ = self.improve("--solver", fake(how), "--roster", ROSTER)
            self.assertEqual((status, report.count("penalty 20\n")), (0, 1))

    def test_a_wrong_proof_does_not_count(self):
        answer, _ = program.extend(WEEK_FILES, self.swapped("Amara", "Bruno"))
        proud = self.folder / "answer.txt"
        proud.write_text(answer.replace("s SATISFIABLE", "s OPTIMUM FOUND"))
        status, report, _ = self.improve("--solver", f"sh -c 'cat {proud}'", "--roster", ROSTER)
        self.assertEqual(status, 0)
        self.assertIn("penalty 20\n", report)
        wrong = (
            "the solver sh is wrong: it claims that no roster costs less than 110, and"
            f" {self.folder / 'best.txt'} costs 20"
        )
        self.assertTrue(report.endswith(f"no lower bound\n{wrong}\n"), report)

    def test_a_claim_that_no_roster_exists_and_no_proof(self):
        # Without inrc2pb-bound in its folder nothing is proved.
        alone = self.folder / "inrc2pb"
        eight = ROOT / "examples" / "eight"
        alone.symlink_to(program.find_program())
        words = (
            "--sce",
            eight / "ward.txt",
            "--his",
            eight / "history-1.txt",
            "--week",
            eight / "week-1.txt",
            "--solver",
            fake("liar"),
        )
        status, report, faults = run(
            "solve", *words, "--out", self.folder / "best.txt", environment={"INRC2PB": str(alone)}
        )
        self.assertEqual((status, report), (5, ""))
        self.assertRegex(
            faults, "no roster keeps the hard rules, says [^ ]*python[^ ]*, which is not proved: "
        )

    @unittest.skipUnless(HAS_CBC, "needs cbc")
    def test_places_for_an_lp_a_result_file_and_the_seconds(self):
        # With the shifts of one nurse cbc has an answer soon.
        held = self.solution(*nurse_rows("Amara"))
        solver = "cbc {lp} sec {seconds} solve solution {sol}"
        status, report, _ = self.improve("--solver", solver, "--fix", held)
        self.assertEqual(status, 0)
        self.assertRegex(report, "\nlower bound 20 \\(.*\\)\nno roster costs less")

    def test_after_a_fault_the_roster_is_reported(self):
        # The solver removes the folder of the search, so that its answer cannot be kept.
        status, report, faults = self.improve(
            "--roster", ROSTER, "--solver", f"sh -c 'rm -r \"${{0%/*}}\"; cat {self.answer()}' {{}}"
        )
        self.assertEqual(status, 3)
        self.assertIn("penalty 20\n", report)
        self.assertEqual(faults.splitlines()[-1].count("write failed"), 1, faults)

    def answer(self):
        """A file with an answer of penalty 20."""
        path = self.folder / "answer.txt"
        path.write_text(program.answer_with(WEEK_FILES, ROSTER))
        return path

    def test_after_a_fault_that_allows_no_report_there_is_the_fault_alone(self):
        mine = shutil.copy(program.find_program(), self.folder / "inrc2pb")
        words = (
            "--out",
            self.folder / "best.txt",
            "--solver",
            f"sh -c 'rm {mine}; echo s UNKNOWN'",
        )
        status, report, faults = run(
            "solve", *WEEK_OPTIONS, *words, environment={"INRC2PB": str(mine)}
        )
        self.assertEqual((status, report), (127, ""))
        self.assertIn(f"there is no program {mine}", faults.splitlines()[-1])

    def test_a_solver_that_does_not_end_is_ended(self):
        for how, says in (
            ("deaf", "no roster was found in 1 s: "),
            ("flood", "no roster was found in 1 s: |it printed more than 256 MiB"),
        ):
            with self.subTest(how=how):
                began = time.monotonic()
                status, _, faults = self.improve("--time", 1, "--solver", fake(how))
                self.assertIn(status, (1, 5))
                self.assertRegex(faults.splitlines()[-1], says)
                self.assertLess(time.monotonic() - began, ENOUGH)
                self.assertFalse((self.folder / "best.txt").exists())

    def test_a_flood_is_judged_at_once(self):
        flood = b"no answer \xff\n" * (1 << 24)
        began = time.process_time()
        outcome = find_solver("true")._outcome(Ended(-15, flood, True), None)
        self.assertEqual(outcome, Outcome("s UNKNOWN\n"))
        self.assertLess(time.process_time() - began, 2)
        for text, has in (
            (b"s UNKNOWN", True),
            (b"c x\ns UNKNOWN\n", True),
            (b"solved\n", False),
            (b"o 3\ns", True),
            (b"c s \n", False),
        ):
            self.assertEqual(
                bool(
                    find_solver("true")._outcome(Ended(0, text, True), None).answer == text.decode()
                ),
                has,
                text,
            )

    def test_a_flood_is_a_fault(self):
        with mock.patch("inrc2pb.programs.processes.MAX_OUTPUT", 100_000):
            outcome = find_solver(fake("flood")).solve(WEEK_FILES, 60, self.folder, Processes())
        self.assertEqual(
            outcome, Outcome("", "it printed more than 256 MiB, too much for an answer")
        )

    def test_a_solver_that_cannot_be_run(self):
        rows = {
            "no_such_solver": "there is no solver no_such_solver",
            "clasp 'x": "No closing quotation: correct its quotes",
        }
        for solver, says in rows.items():
            status, _, faults = self.improve("--solver", solver)
            self.assertEqual(status, 1)
            self.assertIn(says, faults)
            self.assertEqual(faults.count("\n"), 1)

    def test_a_file_that_is_no_command(self):
        script = self.folder / "my solver.sh"
        script.write_text("#!/bin/sh\n")
        _, _, faults = self.improve("--solver", f"'{script}' {{}}")
        self.assertIn(
            (
                f"the solver {script} is not executable: type chmod +x '{script}', or choose"
                " another with --solver\n"
            ),
            faults,
        )
        script.chmod(0o755)
        with mock.patch("pathlib.Path.is_file", return_value=True), mock.patch(
            "os.access", return_value=True
        ):
            with self.assertRaisesRegex(
                Misuse,
                "^there is no solver mine.sh in PATH: name the one in this folder ./mine.sh, or",
            ):
                find_solver("mine.sh")

    def test_the_last_line_of_standard_error(self):
        script = (
            "echo first >&2; yes '' | head -c 300000 >&2; echo the license has ended >&2; exit 7"
        )
        status, _, faults = self.improve("--solver", f"sh -c '{script}'", "--roster", ROSTER)
        self.assertEqual(status, 1)
        self.assertIn(
            (
                "sh has no answer: it printed no answer and ended with status 7: the license has"
                " ended; try"
            ),
            faults,
        )

    def test_a_solver_in_the_users_folder(self):
        self.script("mine.sh", f"cat {self.answer().name}\n")
        before = os.getcwd()
        os.chdir(self.folder)
        try:
            solver = find_solver("./mine.sh")
        finally:
            os.chdir(before)
        self.assertTrue(
            solver.solve(WEEK_FILES, 10, self.folder, Processes()).answer.startswith("o 20\n")
        )

    @unittest.skipUnless(shutil.which("glpsol"), "needs glpsol")
    def test_the_solver_of_the_page_on_solvers(self):
        command = re.search(
            '--solver "(glpsol .*)"$', (ROOT / "docs" / "solvers.md").read_text(), re.MULTILINE
        )[1]
        held = replace(WEEK_FILES, fix=ROSTER)
        outcome = find_solver(command).solve(held, 60, self.folder, Processes())
        self.assertEqual(program.decode(held, outcome.answer).penalty, 20)


if __name__ == "__main__":
    unittest.main()
