"""Tests of `inrc2pb-solve --inrc2`."""

import os
import shutil
import threading
import time
import unittest
from unittest import mock

from ward import ENOUGH, HISTORY, SCENARIO, WEEK, WEEK_OPTIONS, HelperTest, program, run

from inrc2pb.commands import competition
from inrc2pb.commands.competition import search_seconds, seconds_since_start


class Simulation(HelperTest):
    def test_one_file_for_two_results(self):
        target = self.folder / "solution.txt"
        line = (
            f"inrc2pb-solve: {target} gets the roster, so the number of the next week cannot be"
            " written to it: choose another file"
        )
        self.assert_fault(
            run(
                "solve",
                "--inrc2",
                *WEEK_OPTIONS,
                "--sol",
                target,
                "--cusOut",
                target,
                "--solver",
                "false",
            ),
            line,
        )

    def test_a_pipe_is_no_input(self):
        pipe = self.folder / "pipe"
        os.mkfifo(pipe)
        words = (
            "--sce",
            SCENARIO,
            "--his",
            pipe,
            "--week",
            WEEK,
            "--sol",
            self.folder / "solution.txt",
            "--timeout",
            ENOUGH,
        )
        self.assert_fault(
            run("solve", "--inrc2", *words),
            f"inrc2pb-solve: {pipe} is a pipe, which can be read only once: give a file",
        )

    def test_the_number_of_the_next_week_may_go_to_a_pipe(self):
        pipe = self.folder / "pipe"
        os.mkfifo(pipe)
        numbers = []
        reader = threading.Thread(target=lambda: numbers.append(pipe.read_text()), daemon=True)
        reader.start()
        words = ("--sol", self.folder / "solution.txt", "--cusOut", pipe, "--timeout", ENOUGH)
        run("solve", "--inrc2", *WEEK_OPTIONS, *words, "--solver", self.answers_once(early=True))
        reader.join(timeout=ENOUGH)
        self.assertEqual(numbers, ["1\n"])

    def test_seconds_to_search(self):
        self.assertAlmostEqual(search_seconds(3, 0.25), 2.25)
        self.assertAlmostEqual(search_seconds(100, 1), 94)
        self.assertGreater(search_seconds(0.1, 1), 0)
        self.assertTrue(0 < seconds_since_start() < 3600)

    def test_without_a_roster_the_fault_names_the_time_that_was_given(self):
        words = (
            "--sol",
            self.folder / "solution.txt",
            "--timeout",
            0.5,
            "--solver",
            "sh -c 'sleep 60'",
        )
        status, printed, said = run("solve", "--inrc2", *WEEK_OPTIONS, *words)
        self.assertEqual((status, printed), (5, ""))
        self.assertRegex(said, "^inrc2pb-solve: --timeout 0.5: no roster was found in 0.2 s: ")

    def test_a_search_has_what_is_left_of_the_time_and_its_solver_is_ended(self):
        given = self.folder / "seconds"
        searches = competition.search

        def searched(*words, seconds, **named):
            given.write_text(str(seconds))
            return searches(*words, seconds=seconds, **named)

        # After its first answer the solver does not end. Of a minute three seconds are for the end
        # of the process.
        words = (
            "--timeout",
            60,
            "--solver",
            f"{self.answers_once(early=True)[:-1]} || exec sleep 600'",
        )
        began = time.monotonic()
        with mock.patch.multiple(competition, seconds_since_start=lambda: 56.0, search=searched):
            status, printed, said = run(
                "solve", "--inrc2", *WEEK_OPTIONS, "--sol", self.folder / "solution.txt", *words
            )
        self.assertEqual(given.read_text(), "1.0")
        self.assertIn((status, "penalty 20\n" in printed), ((0, True), (5, False)), said)
        self.assertLess(time.monotonic() - began, ENOUGH)

    @unittest.skipUnless(shutil.which("clasp"), "needs clasp")
    def test_the_command_line_of_the_competition(self):
        solution = self.folder / "solution.txt"
        custom = self.folder / "custom.txt"
        words = ("--sol", solution, "--cusOut", custom, "--rand", 7, "--timeout", ENOUGH)
        status, printed, said = run("solve", "--inrc2", *WEEK_OPTIONS, *words, "--solver", "clasp")
        self.assertEqual(status, 0, said)
        self.assertIn("penalty 20\n", printed)
        self.assertEqual(custom.read_text(), "1\n")
        files_of_week = program.WeekFiles(SCENARIO, HISTORY, WEEK, early=True)
        self.assertEqual(program.penalty_of(files_of_week, solution), 20)


if __name__ == "__main__":
    unittest.main()
