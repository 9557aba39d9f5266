"""Tests of `inrc2pb-solve` for one week: searches, bad input, and a stop."""

import os
import re
import shutil
import signal
import subprocess
import threading
import time
import unittest
from types import SimpleNamespace
from unittest import mock

from ward import (
    EARLY_ANSWER,
    ENOUGH,
    HAS_CBC,
    ROOT,
    ROSTER,
    SCENARIO,
    THIRTY_FILES,
    WEEK,
    WEEK_FILES,
    WEEK_OPTIONS,
)
from ward import HelperTest, begin_command, program, run, start_command

from inrc2pb.search import bounds
from inrc2pb.search.best_plan import Rank
from inrc2pb.search.bounds import PLAIN, PROVER, Bound
from inrc2pb.search.improving import SearchResult, improve, search
from inrc2pb.rows.pricing import Pricing
from inrc2pb.rows.row_search import WrongBound
from inrc2pb.programs.progress import Progress


class UntilBetter(Progress):
    """Ends a search, as Ctrl-C does, when it has a better roster than the given one."""

    def __init__(self):
        super().__init__(None)
        self.penalties = []

    def improved(self, penalty, finder):
        self.penalties.append(penalty)
        if len(self.penalties) == 2:
            os.kill(os.getpid(), signal.SIGINT)


class Searches(HelperTest):
    def setUp(self):
        super().setUp()
        self.target = self.folder / "best.txt"

    @unittest.skipUnless(HAS_CBC, "needs cbc")
    def test_a_small_week_is_proved(self):
        proof = self.folder / "certificate.txt"
        status, report, progress = run(
            "solve", *WEEK_OPTIONS, "--out", self.target, "--proof", proof
        )
        self.assertEqual(status, 0)
        self.assertIn("status OPTIMUM FOUND\nobjective 20\npenalty 20\n", report)
        self.assertRegex(
            report, f"\nlower bound 20 \\(({PROVER}|{PLAIN})\\)\nno roster costs less(, proved)?\n$"
        )
        self.assertIn("penalty 20", progress)
        self.assertEqual(program.penalty_of(WEEK_FILES, self.target), 20)
        self.assertTrue(
            proof.read_text().startswith("CERTIFICATE ward\nWEEKS = 1\nPRICES = 1\nROWS = ")
        )

    @unittest.skipUnless(HAS_CBC, "needs cbc")
    def test_it_finds_the_best_roster_from_a_worse_one(self):
        start = self.swapped("Amara", "Bruno")
        self.assertEqual(program.penalty_of(WEEK_FILES, start), 110)
        outcome = improve(WEEK_FILES, self.target, start=start, seconds=ENOUGH)
        self.assertEqual(
            (outcome.report.penalty, outcome.bound.points, outcome.proved), (20, 20, True)
        )
        self.assertEqual(program.penalty_of(WEEK_FILES, self.target), 20)

    def test_a_search_that_is_stopped_has_the_best_roster(self):
        start = self.folder / "start.txt"
        progress = UntilBetter()
        program.decode(THIRTY_FILES, EARLY_ANSWER.read_text(), start)
        outcome = search(THIRTY_FILES, self.target, start, 600, None, None, progress)
        self.assertTrue(outcome.stopped)
        self.assertEqual(program.penalty_of(THIRTY_FILES, self.target), progress.penalties[-1])
        self.assertLess(progress.penalties[1], progress.penalties[0])

    def test_without_a_solver_a_line_says_what_to_install(self):
        tools = self.folder / "tools"
        tools.mkdir()
        status, report, said = run(
            "solve", *WEEK_OPTIONS, "--out", self.target, environment={"PATH": str(tools)}
        )
        self.assertEqual(status, 0)
        # The first prices need no solver.
        self.assertRegex(report, r"\nlower bound (5|10|15|20) \(")
        self.assertEqual(
            said.count(
                "there is no cbc, so this is only a first roster: install it (Debian: apt-get"
                " install coinor-cbc)\n"
            ),
            1,
        )
        self.assertIn(f"penalty {program.penalty_of(WEEK_FILES, self.target)}\n", report)

    def test_a_second_run_keeps_a_better_roster_of_this_week(self):
        rows = ROSTER.read_text().splitlines()[4:]
        tools = self.folder / "tools"
        tools.mkdir()
        for week, ward, costs in ((0, "ward", True), (1, "ward", False), (0, "other", False)):
            target = self.solution(*rows, week=week, ward=ward)
            status, report, _ = run(
                "solve", *WEEK_OPTIONS, "--out", target, environment={"PATH": str(tools)}
            )
            self.assertEqual((status, "penalty 20\n" in report), (0, costs))
            self.assertTrue(target.read_text().startswith("SOLUTION\n0 ward\n"))

    @unittest.skipUnless(HAS_CBC, "needs cbc")
    def test_a_roster_written_to_standard_output(self):
        # In a copy of this process it is a pipe.
        words = ("--out", "/dev/stdout", "--time", ENOUGH)
        status, printed, _ = run("solve", *WEEK_OPTIONS, *words, environment={})
        self.assertEqual(status, 0)
        self.assertIn("SOLUTION\n0 ward\n", printed)
        self.assertIn("penalty 20\n", printed)

    def test_a_roster_does_not_go_where_the_report_goes(self):
        # In this process standard output is a file.
        line = (
            "inrc2pb-solve: /dev/stdout is standard output, where the report goes: name another"
            " file"
        )
        self.assert_fault(run("solve", *WEEK_OPTIONS, "--out", "/dev/stdout"), line)

    @unittest.skipUnless(HAS_CBC, "needs cbc")
    def test_held_rows_and_early_stay(self):
        promised = self.solution("Grace Sat Day Nurse", name="promised.txt")
        status, report, _ = run(
            "solve", *WEEK_OPTIONS, "--fix", promised, "--early", "--out", self.target
        )
        self.assertEqual(status, 0)
        self.assertIn("Grace Sat Day Nurse\n", self.target.read_text())
        held = program.WeekFiles(*WEEK_FILES.options()[1::2], promised, True)
        self.assertIn(f"penalty {program.penalty_of(held, self.target)}\n", report)
        self.assertIn("no roster costs less", report)


class WrongNumbers(HelperTest):
    @unittest.skipUnless(HAS_CBC, "needs cbc")
    def test_a_wrong_bound_of_plain_python_is_no_bound(self):
        target = self.folder / "roster.txt"
        cost = Pricing.places_cost
        too_much = mock.patch.object(
            Pricing, "places_cost", lambda pricing, prices: cost(pricing, prices) + 200_000
        )
        with too_much, mock.patch.object(bounds, "find_prover", lambda: None):
            found = search(WEEK_FILES, target, None, 120.0, None, None, Progress(None))
        self.assertIsInstance(found.fault, WrongBound)
        self.assertEqual((found.lines(), found.proved), (["no lower bound"], False))
        self.assertEqual(program.penalty_of(WEEK_FILES, target), found.report.penalty)


class Lines(unittest.TestCase):
    def result(self, rank, bound):
        """The result of a search for a roster of 15 points."""
        return SearchResult(SimpleNamespace(penalty=15), Rank(*rank, 15), bound)

    def test_a_proof_and_a_broken_absence(self):
        for bound, rank, lines in (
            (Bound(15, PROVER), (0, 0), ["", "no roster costs less, proved"]),
            (Bound(15, PLAIN), (0, 0), ["", "no roster costs less"]),
            (
                Bound(15, PROVER),
                (1, 0),
                ["", "no roster costs less, but this one breaks an absence"],
            ),
            (Bound(15, PROVER), (0, 1), ["", "no roster costs less, but this one exceeds a limit"]),
            (
                Bound(15, PROVER, "limits"),
                (0, 0),
                [" with all limits", "no roster that keeps all limits costs less, proved"],
            ),
        ):
            said = self.result(rank, bound).lines()
            self.assertEqual(said, [f"lower bound 15{lines[0]} ({bound.by})", lines[1]])

    def test_a_bound_below_the_penalty_is_no_proof(self):
        for bound, proved in ((None, False), (Bound(10, PLAIN), False), (Bound(15, PLAIN), True)):
            self.assertEqual(self.result((0, 0), bound).proved, proved)


class BadInput(HelperTest):
    def assert_refused(self, status, says, *words):
        ran = run("solve", *words, *(() if "--time" in words else ("--time", ENOUGH)))
        self.assertEqual((ran[0], ran[1]), (status, ""), ran[2])
        self.assertIn(says, ran[2])
        self.assertEqual(ran[2].count("\n"), 1, ran[2])

    def test_one_line(self):
        target = ("--out", self.folder / "best.txt")
        two = self.changed(ROSTER, "Amara Mon Day Charge", "Amara Tue Late Charge")
        says = (
            f"inrc2pb-solve: {two} line 6: roster breaks H1: Amara has two places on Tue: correct"
            " its file, or leave it out\n"
        )
        self.assert_refused(6, says, *WEEK_OPTIONS, *target, "--roster", two)
        self.assert_refused(
            3, "missing.txt", *WEEK_OPTIONS, *target, "--roster", self.folder / "missing.txt"
        )
        self.assert_refused(
            3, "no_folder", *WEEK_OPTIONS, "--out", self.folder / "no_folder" / "best.txt"
        )
        kept = shutil.copy(ROSTER, self.folder / "kept.txt")
        self.assert_refused(
            1,
            f"{kept} is read, so the roster cannot be written to it",
            *WEEK_OPTIONS,
            "--out",
            kept,
            "--fix",
            kept,
        )
        self.assert_refused(
            1,
            "gets the roster, so the certificate cannot be written to it",
            *WEEK_OPTIONS,
            *target,
            "--proof",
            self.folder / "best.txt",
        )
        says = "no roster was found, and no proof that none exists: try --solver clasp"
        self.assert_refused(5, says, *WEEK_OPTIONS, *target, "--solver", "sh -c 'echo s UNKNOWN'")
        for seconds in ("nan", "inf", 0, "1e12"):
            line = (
                "inrc2pb-solve: --time has to be a number of seconds above 0, and at most"
                " 10000000\n"
            )
            self.assert_refused(1, line, *WEEK_OPTIONS, *target, "--time", seconds)
        broken = self.changed(SCENARIO, "Chen Full", "Chen Ful", "broken.txt")
        self.assert_refused(1, "line 26", "--sce", broken, *WEEK_OPTIONS[2:], *target)
        self.assertFalse((self.folder / "best.txt").exists())

    def test_a_pipe_in_place_of_a_file(self):
        pipe = self.folder / "pipe"
        os.mkfifo(pipe)
        writer = threading.Thread(target=lambda: pipe.write_bytes(WEEK.read_bytes()), daemon=True)
        writer.start()
        says = f"{pipe} is a pipe, which can be read only once: give a file\n"
        self.assert_refused(
            1, says, *WEEK_OPTIONS[:4], "--week", pipe, "--out", self.folder / "best.txt"
        )
        self.assert_refused(
            1, says, *WEEK_OPTIONS, "--roster", pipe, "--out", self.folder / "best.txt"
        )
        self.assert_refused(
            1,
            f"{pipe} is a pipe, which can be written only once: name a file\n",
            *WEEK_OPTIONS,
            "--out",
            pipe,
        )
        # Nobody has read from the pipe, so the writer still waits.
        self.assertEqual(pipe.read_bytes(), WEEK.read_bytes())
        writer.join()

    @unittest.skipUnless(HAS_CBC, "needs cbc")
    def test_held_rows_that_do_not_fit(self):
        fix = self.folder / "rows.txt"
        words = (
            *WEEK_OPTIONS,
            "--out",
            self.folder / "best.txt",
            "--fix",
            self.folder / "rows.txt",
        )
        self.solution("Amara Tue Day Charge", "Chen Mon Day Charge")
        self.assert_refused(
            1,
            f"{fix} line 6: Chen does not have the skill Charge: no roster can have this row\n",
            *words,
        )
        self.solution("Zoe Mon Day Nurse", week=2, ward="icu")
        other = "line 2 has 'icu', and the scenario is 'ward': is the file of another ward?\n"
        self.assert_refused(1, other, *words)
        # Every nurse is held on the late shift of Monday, so nobody is left for the others.
        late = [
            f"{nurse} Mon Late Nurse"
            for nurse in ("Amara", "Bruno", "Chen", "Ewa", "Finn", "Grace")
        ]
        self.solution(*late)
        ran = run("solve", *words)
        self.assertEqual((ran[0], ran[1]), (5, ""))
        self.assertRegex(
            ran[2],
            rf"no roster keeps the hard rules and has the rows of {fix} \(({PROVER}|{PLAIN})\): ",
        )

    @unittest.skipUnless(HAS_CBC, "needs cbc")
    def test_files_of_another_week(self):
        other = self.solution(*ROSTER.read_text().splitlines()[4:], week=3)
        target = self.folder / "best.txt"
        words = (*WEEK_OPTIONS, "--out", target, "--time", ENOUGH)
        status, report, said = run("solve", *words, "--fix", other)
        self.assertEqual(status, 0, said)
        hint = "line 2 has week 3, and the history has week 0: is the file of another week?"
        self.assertEqual(said.splitlines()[0], f"inrc2pb-solve: {other}: {hint}")
        self.assertIn("penalty 20\n", report)
        self.assertEqual(run("solve", *words, "--roster", other)[0], 0)
        self.assertTrue(target.read_text().startswith("SOLUTION\n0 ward\n"))
        broken = self.changed(other, "Amara Tue Day Charge", "Amara Mon Late Nurse")
        self.assert_refused(
            6, f"inrc2pb-solve: {broken} breaks a hard rule; {hint}\n", *words, "--roster", broken
        )

    @unittest.skipUnless(HAS_CBC, "needs cbc")
    def test_a_week_that_no_roster_meets(self):
        eight = ROOT / "examples" / "eight"
        words = (
            "--sce",
            eight / "ward.txt",
            "--his",
            eight / "history-1.txt",
            "--week",
            eight / "week-1.txt",
        )
        status, report, said = run(
            "solve", *words, "--out", self.folder / "best.txt", "--time", ENOUGH
        )
        self.assertEqual((status, report), (5, ""))
        self.assertRegex(
            said.splitlines()[-1], rf"no roster keeps the hard rules \(({PROVER}|{PLAIN})\): "
        )


class Stops(HelperTest):
    def stopped(self, running, *words, environment=None):
        """A search of ten minutes that gets Ctrl-C when the file `running` exists: its status and
        its report."""
        words = [*WEEK_FILES.options(), "--time", "600", *words]
        search = begin_command("solve", *words, environment=environment, stderr=subprocess.DEVNULL)
        self.addCleanup(search.kill)
        while not running.exists() and search.poll() is None:
            time.sleep(0.05)
        search.send_signal(signal.SIGINT)
        report, _ = search.communicate(timeout=300)
        return search.returncode, report.decode()

    def test_before_the_first_roster_a_solver_prints_what_it_has(self):
        answer = self.folder / "answer.txt"
        target = self.folder / "best.txt"
        running = self.folder / "running"
        answer.write_text(program.answer_with(WEEK_FILES, ROSTER))
        slow = self.script(
            "slow.sh",
            f"trap 'cat {answer}; exit' TERM\ntouch {running}\nwhile :; do sleep 0.1; done\n",
        )
        status, report = self.stopped(running, "--out", target, "--solver", slow)
        self.assertEqual(status, 0)
        self.assertIn("penalty 20\n", report)
        self.assertEqual(program.penalty_of(WEEK_FILES, target), 20)

    def test_a_stop_does_not_wait_for_a_model(self):
        running = self.folder / "running"
        slow = self.slow_to_encode(running)
        for start, status, says in ((("--roster", ROSTER), 0, "penalty 20\n"), ((), 5, "")):
            with self.subTest(start):
                ran = self.stopped(
                    running,
                    "--out",
                    self.folder / f"best-{status}.txt",
                    "--solver",
                    "true",
                    *start,
                    environment=slow,
                )
                self.assertEqual(ran[0], status)
                self.assertIn(says, ran[1])
            running.unlink(missing_ok=True)

    @unittest.skipUnless(HAS_CBC, "needs cbc")
    def test_the_best_roster_is_reported(self):
        for number in (signal.SIGINT, signal.SIGTERM):
            target = self.folder / f"{number}.txt"
            words = [*THIRTY_FILES.options(), "--out", target, "--time", "600"]
            search = start_command("solve", *words)
            line = search.stderr.readline()
            self.assertIn(b"penalty", line)
            search.send_signal(number)
            report, _ = search.communicate(timeout=300)
            self.assertEqual(search.returncode, 0)
            penalty = int(re.search(r"^penalty (\d+)$", report.decode(), re.MULTILINE).group(1))
            self.assertEqual(program.penalty_of(THIRTY_FILES, target), penalty)


if __name__ == "__main__":
    unittest.main()
