"""Tests of lower bounds: `inrc2pb-bound` may prove them, lie, fail, be missing, or not end."""

import json
import signal
import sys
import time
import unittest
from dataclasses import replace
from pathlib import Path
from types import SimpleNamespace
from unittest import mock

from ward import ENOUGH, HAS_CBC, HISTORY, SCENARIO, WARD, WEEK, WEEK_FILES
from ward import HelperTest, begin_command, files, program, run, time_ends_at

from inrc2pb.programs.program import WeekFiles
from inrc2pb.rows.certificate import Certificate, Leaf, Split
from inrc2pb.rows.plan import FREE, ONLY_ABSENCES, STRICT, Plan
from inrc2pb.rows.pricing import Crews, Pricing, in_steps
from inrc2pb.search import bounds
from inrc2pb.search.bounds import PLAIN, PROVER, Bound, Bounds
from inrc2pb.search.plan_search import BEYOND
from inrc2pb.search.planned_weeks import PeriodFiles, PlannedWeeks
from inrc2pb.week.facts import Charged, Choice, Claim, Even, facts_text
from inrc2pb.week.records import Absence, KeptLimit

FAKE = Path(__file__).resolve().parents[1] / "fake_prover.py"
SECOND = WARD / "week-1.txt"
OPTIONS = ("--sce", SCENARIO, "--his", HISTORY, "--week", WEEK, "--week", SECOND)
# The seconds in which a stopped search ends, also on a busy machine: a proof may take sixty.
SOON = 40
FAILED = f"{PROVER} failed, so bounds are computed in {PLAIN}: "
CASES = Path(__file__).resolve().parents[1] / "data" / "cases"
CASES_FILES = WeekFiles(CASES / "ward.txt", CASES / "history.txt", CASES / "week.txt")


def plain_bound(plan, prices):
    """What no roster of the plan costs less than by these prices."""
    pricing = Pricing(plan, Crews(plan), lambda: None)
    found = pricing.cheapest_of(range(len(plan.nurses)), pricing.crews.gains(prices))
    return in_steps(pricing.places_cost(prices) + sum(priced.value for priced in found if priced))


class FakeProver(HelperTest):
    """A test with a fake `inrc2pb-bound` in its folder."""

    def setUp(self):
        super().setUp()
        self.log = self.folder / "log.txt"
        self.warnings = []

    def prover(self, how):
        """The program that behaves so."""
        return self.script(PROVER, f'exec {sys.executable} -E {FAKE} {how} {self.log} "$@"\n')

    def given(self):
        """What the program was given, when it has begun."""
        limit = time.monotonic() + ENOUGH
        while not (self.log.exists() and self.log.read_text().endswith("}")):
            self.assertLess(time.monotonic(), limit)
            time.sleep(0.05)
        return json.loads(self.log.read_text())


class Options(HelperTest):
    def test_weeks_and_their_fix_files_are_counted_from_one(self):
        fix = self.folder / "fix.txt"
        fix.write_text("SOLUTION\n1 ward\n\nASSIGNMENTS = 0\n")
        held = replace(WEEK_FILES, fix=fix, early=True)
        week = PlannedWeeks(PeriodFiles.of_week(held)).options()
        self.assertEqual(week, [*map(str, OPTIONS[:6]), "--fix", f"1={fix}", "--early"])
        weeks = PlannedWeeks(PeriodFiles(SCENARIO, HISTORY, [WEEK, SECOND], {1: fix}, early=True))
        self.assertEqual(weeks.options(), [*map(str, OPTIONS), "--fix", f"2={fix}", "--early"])

    def test_the_facts_of_a_plan(self):
        ward = files.read_scenario(SCENARIO)
        past = files.read_history(HISTORY, files.read_scenario(SCENARIO))
        full = ward.contracts["Full"].assignments.maximum
        worked = replace(past.nurses["Amara"], assignments=full + 2)
        past = replace(past, nurses={**past.nurses, "Amara": worked})
        data = files.read_week(WEEK, ward)
        second = replace(
            data, absences=frozenset({Absence("Chen", 1, None), Absence("Ewa", 0, "Night")}),
            limits=frozenset({KeptLimit("Amara", "SHIFTS", 0), KeptLimit("Ewa", "WORK_DAYS", 0)}),
        )  # fmt: skip
        plan = Plan.of(ward, past, [data, second])
        away = (Claim(Choice(2, "Ewa", 0, "Night"), False), Claim(Choice(2, "Chen", 1, None)))
        # What Amara has above her shifts before these weeks cannot be taken back.
        limits = (Claim(Charged("SHIFTS", "Amara", 2)), Claim(Charged("WORK_DAYS", "Ewa", 0)))
        self.assertEqual(
            [plan.kept(keeping).facts() for keeping in (STRICT, ONLY_ABSENCES, FREE)],
            [away + limits, away, ()],
        )


class Proofs(FakeProver):
    def setUp(self):
        super().setUp()
        week = files.read_files(SCENARIO, HISTORY, WEEK)
        self.data = replace(week.data, absences=frozenset({Absence("Chen", 1, None)}))
        self.free, self.away = (
            Plan.of(week.scenario, week.history, [data]) for data in (week.data, self.data)
        )
        self.target = self.folder / "certificate.txt"

    def certified(self, plan, price=5000):
        """A search of a plan that has found a leaf with this price at each place."""
        prices = [price for _ in plan.demand]
        certificate = Certificate(1, Crews(plan).places, Leaf(prices))
        return SimpleNamespace(
            plan=plan, crews=Crews(plan), lower_bound=plain_bound(plan, prices),
            certificate=lambda: certificate, search=SimpleNamespace(prices=prices),
        )  # fmt: skip

    def bounds(self, how):
        """Bounds by this program, by none if it is None."""
        with mock.patch.object(
            bounds, "find_prover", lambda: None if how is None else self.prover(how)
        ):
            return Bounds(list(map(str, OPTIONS[:6])), "ward", self.target, self.warnings.append)

    def test_a_bound_is_that_of_the_program(self):
        run = self.certified(self.free)
        for how, found in (
            ("50", Bound(50, PROVER)),
            ("0", Bound(0, PROVER)),
            (None, Bound(run.lower_bound, PLAIN)),
        ):
            self.assertEqual(self.bounds(how).of(run, STRICT, 60.0), found)
        self.assertEqual(self.warnings, [])
        given = self.bounds("50").of(run, STRICT, 60.0) and self.given()
        self.assertEqual(given["words"][:6], list(map(str, OPTIONS[:6])))
        self.assertEqual(given["texts"], {"--proof": run.certificate().text("ward")})
        self.assertEqual(self.target.read_text(), run.certificate().text("ward"))

    def test_leaves_are_priced_in_the_time_that_is_left(self):
        # The search kept an absence, and the bound holds for all rosters, so leaves are priced.
        run = self.certified(self.away)
        self.assertIsNone(self.bounds(None).of(run, FREE, 0.0))
        said = "the certificate was not priced in 0 s in plain Python, so there is no bound"
        self.assertEqual(self.warnings, [said])

    def test_a_proof_takes_its_time_from_the_pricing_of_leaves(self):
        # After a stop both together have less than a second.
        run = self.certified(self.away)
        self.assertIsNone(self.bounds("hang").of(run, FREE, 0.5))
        said = "the certificate was not priced in 0 s in plain Python, so there is no bound"
        self.assertEqual(self.warnings[1:], [said])

    def test_a_temporary_folder_that_is_gone_costs_no_bound(self):
        run = self.certified(self.free)
        found = self.bounds("50")
        gone = FileNotFoundError(2, "No usable temporary directory found")
        with mock.patch.object(bounds.tempfile, "TemporaryDirectory", side_effect=gone):
            self.assertEqual(found.of(run, STRICT, 60.0), Bound(run.lower_bound, PLAIN))
        self.assertEqual(self.warnings, [FAILED + str(gone)])

    def test_the_program_gets_the_facts_that_the_best_roster_keeps(self):
        run = self.certified(self.away)
        facts = facts_text("ward", [Claim(Choice(1, "Chen", 1, None))])
        for keeping, only, text in (
            (STRICT, "absences", facts),
            (ONLY_ABSENCES, "absences", facts),
            (FREE, "", None),
        ):
            self.assertEqual(self.bounds("45").of(run, keeping, 60.0), Bound(45, PROVER, only))
            self.assertEqual(self.given()["texts"].get("--given"), text)

    def test_without_a_program_a_bound_of_other_rosters_is_computed_anew(self):
        for price in (5000, 30_000):
            run = self.certified(self.away, price)
            free = plain_bound(self.away.kept(FREE), run.search.prices)
            self.assertLessEqual(free, run.lower_bound)
            self.assertEqual(self.bounds(None).of(run, FREE, 60.0), Bound(free, PLAIN))
            self.assertEqual(
                self.bounds(None).of(run, STRICT, 60.0), Bound(run.lower_bound, PLAIN, "absences")
            )

    def test_cases_without_a_program(self):
        run = self.certified(self.away)
        leaf = Leaf(run.search.prices)
        run.certificate = lambda: Certificate(1, run.crews.places, Split(Even(), leaf, leaf))
        free = self.bounds(None).of(run, FREE, 60.0)
        self.assertIn(free.points - plain_bound(self.away.kept(FREE), leaf.prices), (0, 5))

    def test_a_program_that_lies_or_fails(self):
        run = self.certified(self.free)
        for how, says in (
            ("lies", "its answer is no bound"), ("flood", "its answer is no bound"), ("fails", f"{PROVER}: out of memory"),
            ("crash", "inrc2pb: ended by SIGSEGV"),
        ):  # fmt: skip
            with self.subTest(how):
                self.warnings.clear()
                found = self.bounds(how)
                for _ in range(2):
                    self.assertEqual(found.of(run, STRICT, 60.0), Bound(run.lower_bound, PLAIN))
                self.assertEqual(self.warnings, [FAILED + says])

    def test_a_program_that_does_not_end(self):
        run = self.certified(self.free)
        self.assertEqual(self.bounds("hang").of(run, STRICT, 2.0), Bound(run.lower_bound, PLAIN))
        late = f"{PROVER} did not end in 2 s, so bounds are computed in {PLAIN}"
        self.assertEqual(self.warnings, [late])

    def test_no_roster_exists(self):
        certificate = self.certified(self.free).certificate()
        for answer, by in (("no roster exists", PROVER), ("a roster may exist", None)):
            self.script(PROVER, f"echo {answer}\n")
            with mock.patch.object(bounds, "find_prover", lambda: self.folder / PROVER):
                found = Bounds(list(map(str, OPTIONS[:6])), "ward", None, self.warnings.append)
            self.assertEqual(found.no_roster(self.free, certificate, 60.0), by)
        self.assertEqual(self.bounds(None).no_roster(self.free, certificate, 60.0), PLAIN)


@unittest.skipUnless(HAS_CBC, "needs cbc")
class Commands(FakeProver):
    def setUp(self):
        super().setUp()
        self.script("inrc2pb", f'exec {program.find_program()} "$@"\n')
        self.environment = {"INRC2PB": str(self.folder / "inrc2pb")}
        self.words = (*OPTIONS, "--out", self.folder / "out", "--time", ENOUGH)
        self.proof = self.folder / "certificate.txt"

    def improve(self, how):
        """The report of a week that prices alone do not prove, and what was said."""
        self.prover(how)
        words = (
            *CASES_FILES.options(),
            "--out",
            self.folder / "best.txt",
            "--proof",
            self.proof,
            "--time",
            ENOUGH,
        )
        status, report, said = run("solve", *words, environment=self.environment)
        self.assertEqual(status, 0, said)
        return report, said

    def test_a_week_is_proved_by_cases(self):
        report, said = self.improve("130/135")
        self.assertTrue(
            report.endswith(f"lower bound 135 ({PROVER})\nno roster costs less, proved\n"),
            (report, said),
        )
        text = self.given()["texts"]["--proof"]
        self.assertTrue(text.startswith("CERTIFICATE cases\nWEEKS = 1\nPRICES = "), text)
        self.assertIn("\nSPLIT ", text)
        self.assertEqual(self.proof.read_text(), text)

    def test_a_bound_that_is_lower_or_too_high(self):
        report, _ = self.improve("130")
        self.assertRegex(report, f"\nlower bound 130 \\({PROVER}\\): the gap is 5, 3.7 %\n$")
        report, said = self.improve("140")
        self.assertTrue(report.endswith("\nno lower bound\n"), report)
        self.assertEqual(
            said.count(
                f"the lower bound 140 ({PROVER}) is above the penalty of a roster: it is wrong\n"
            ),
            1,
        )

    def test_the_bound_of_a_period_is_that_of_the_program(self):
        self.prover(5)
        status, printed, said = run(
            "solve", *self.words, "--proof", self.proof, environment=self.environment
        )
        self.assertEqual(status, 0, said)
        self.assertRegex(
            printed.splitlines()[-1], f"^lower bound 5 of the sum \\({PROVER}\\): the gap is "
        )
        self.assertEqual(self.given()["texts"]["--proof"], self.proof.read_text())
        self.assertTrue(self.proof.read_text().startswith("CERTIFICATE ward\nWEEKS = 2\n"))

    def test_the_end_of_the_time_ends_the_program_some_seconds_later(self):
        self.prover("hang")
        told = self.folder / "seconds"
        prove = Bounds.of

        def proves(own, run, keeping, seconds):
            told.write_text(str(seconds))
            return prove(own, run, keeping, 0.5)

        with time_ends_at("bound_rose"), mock.patch.object(Bounds, "of", proves):
            status, printed, said = run("solve", *self.words, environment=self.environment)
        self.assertEqual(status, 0, said)
        self.assertEqual(told.read_text(), str(BEYOND))
        self.assertRegex(
            printed.splitlines()[-1], f"^lower bound [0-9]+ of the sum \\({PLAIN}\\): "
        )

    def stopped(self, number, *words):
        """The status and the report of a search that gets this signal while its bound is proved,
        which takes longer than the search waits."""
        self.prover("hang")
        self.log.unlink(missing_ok=True)
        with begin_command("solve", *words, environment=self.environment) as search:
            self.given()
            search.send_signal(number)
            printed, said = search.communicate(timeout=SOON)
        self.assertNotIn(b"failed", said)
        process = Path("/proc", str(self.given()["process"]), "cmdline")
        self.assertFalse(process.exists() and b"fake_prover" in process.read_bytes())
        return search.returncode, printed.decode().splitlines()

    def test_a_stop_ends_the_proof_of_a_period(self):
        for number in (signal.SIGINT, signal.SIGTERM):
            status, (*_, line, stopped) = self.stopped(number, *self.words)
            self.assertEqual(status, 128 + number)
            self.assertTrue((self.folder / "out" / "roster-1.txt").exists())
            self.assertRegex(line, f"^lower bound [0-9]+ of the sum \\({PLAIN}\\): ")
            self.assertEqual(stopped, "stopped: weeks 1 to 2 are planned")

    def test_a_stop_ends_the_proof_of_a_week(self):
        words = (*WEEK_FILES.options(), "--out", self.folder / "best.txt", "--time", ENOUGH)
        status, printed = self.stopped(signal.SIGTERM, *words)
        self.assertEqual(status, 0)
        self.assertIn(f"lower bound 20 ({PLAIN})", printed)

    def test_files_of_certificates_that_do_not_fit(self):
        for words, says in (
            (("--ahead",), "with --ahead there is no certificate: leave out --proof"),
            (
                ("--solver", "sh -c 'echo s UNKNOWN'"),
                "with --solver there is no certificate: leave out --proof",
            ),
        ):
            self.assert_fault(
                run("solve", *OPTIONS, "--out", self.folder, "--proof", self.proof, *words),
                f"inrc2pb-solve: {says}",
            )
        self.proof.write_bytes(SECOND.read_bytes())
        words = (
            *OPTIONS[:6],
            "--week",
            self.proof,
            "--out",
            self.folder / "out",
            "--proof",
            self.proof,
        )
        says = (
            f"inrc2pb-solve: {self.proof} is read, so the certificate cannot be written to it:"
            " choose another file"
        )
        self.assert_fault(run("solve", *words), says)


if __name__ == "__main__":
    unittest.main()
