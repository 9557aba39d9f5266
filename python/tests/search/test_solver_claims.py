"""Tests of the referee: verdicts on claims, answers of solvers that lie, and
`inrc2pb-solve --solver` with them."""

import re
import shutil
import subprocess
import unittest
from dataclasses import replace
from unittest import mock

from ward import ENOUGH, HAS_CBC, ROOT, ROSTER, WEEK_FILES, WEEK_OPTIONS
from ward import HelperTest, nurse_rows, program, run

from inrc2pb.search import solver_run
from inrc2pb.search.bounds import PROVER, find_prover
from inrc2pb.search.claims import Answered, Kind, Known, judged

FIVE = ROOT / "examples" / "n005w4"
FIVE_OPTIONS = (
    "--sce",
    FIVE / "ward.txt",
    "--his",
    FIVE / "history-0.txt",
    "--week",
    FIVE / "week-0.txt",
)
EIGHT = ROOT / "examples" / "eight"
EIGHT_OPTIONS = (
    "--sce",
    EIGHT / "ward.txt",
    "--his",
    EIGHT / "history-1.txt",
    "--week",
    EIGHT / "week-1.txt",
)


class Verdicts(unittest.TestCase):
    def test_claims_of_the_best_roster(self):
        best = Answered("OPTIMUM FOUND", 320, 320)
        for known, kind, why in (
            (Known(320, "a.txt", 320), Kind.CONFIRMED, "no roster costs less than 320"),
            (
                Known(320, "a.txt", 300),
                Kind.OPEN,
                "gap 20: it claims that no roster costs less than 320, and the lower bound is 300",
            ),
            (
                Known(320, "a.txt"),
                Kind.OPEN,
                "it claims that no roster costs less than 320, and no lower bound is known",
            ),
            (
                Known(300, "a.txt", 300),
                Kind.REFUTED,
                "it claims that no roster costs less than 320, and a.txt costs 300",
            ),
            (
                Known(),
                Kind.OPEN,
                "it claims that no roster costs less than 320, and no lower bound is known",
            ),
        ):
            self.assertEqual(judged(best, known), (kind, why))

    def test_an_answer_that_refutes_itself(self):
        answer = Answered("OPTIMUM FOUND", 3035, 800)
        claim = "it claims that no roster costs less than 3035"
        self.assertEqual(
            judged(answer, Known(None, "", 800)), (Kind.REFUTED, f"{claim}, and its own costs 800")
        )
        self.assertEqual(
            judged(answer, Known(800, "roster.txt", 800)),
            (Kind.REFUTED, f"{claim}, and roster.txt costs 800"),
        )

    def test_claims_that_no_roster_exists(self):
        none = Answered("UNSATISFIABLE")
        for known, kind in (
            (Known(20, "a.txt", 20), Kind.REFUTED),
            (Known(none_exists=True), Kind.CONFIRMED),
            (Known(), Kind.OPEN),
        ):
            self.assertEqual(judged(none, known).kind, kind)

    def test_lies_and_answers_without_a_claim(self):
        for answer, kind, why in (
            (
                Answered(fault="constraint 5 is not satisfied"),
                Kind.LIE,
                "constraint 5 is not satisfied",
            ),
            (
                Answered(fault="answer: bad literal", is_readable=False),
                Kind.UNREADABLE,
                "answer: bad literal",
            ),
            (
                Answered("OPTIMUM FOUND", 20, 20, 10),
                Kind.LIE,
                "it says that its answer costs 10, but it costs 20",
            ),
            (Answered("UNKNOWN"), Kind.SILENT, "UNKNOWN"),
            (
                Answered("SATISFIABLE", 20, 20, 20),
                Kind.OPEN,
                "gap 0: its roster costs 20, and the lower bound is 20",
            ),
            (
                Answered("SATISFIABLE", 90, 30),
                Kind.OPEN,
                "gap 10: its roster costs 30, its assignment 90, and the lower bound is 20",
            ),
        ):
            self.assertEqual(judged(answer, Known(20, "a.txt", 20)), (kind, why))


@unittest.skipUnless(HAS_CBC and find_prover(), "needs cbc and inrc2pb-bound")
class Referees(HelperTest):
    def file(self, name, text):
        """A file of the test's folder."""
        path = self.folder / name
        path.write_text(text)
        return path

    def test_answers_of_solvers(self):
        best, _ = program.extend(WEEK_FILES, ROSTER)
        worse, _ = program.extend(WEEK_FILES, self.swapped("Amara", "Bruno"))
        given = [
            self.file("best.txt", best.replace("s SATISFIABLE", "s OPTIMUM FOUND")),
            self.file("stopped.txt", worse),
            self.file("proud.txt", worse.replace("s SATISFIABLE", "s OPTIMUM FOUND")),
            self.file("boaster.txt", re.sub(r"(?m)^o [0-9]+$", "o 1", worse)),
            self.file("cut.txt", "s OPTIMUM FOUND\nv x1 x2\n"),
            self.file("garbage.txt", "s OPTIMUM FOUND\nv x1 y2\n"),
            self.file("none.txt", "s UNSATISFIABLE\n"),
            self.file("silent.txt", "s UNKNOWN\n"),
        ]
        target = self.folder / "roster.txt"
        status, printed, said = run(
            "roster", "referee", *WEEK_OPTIONS, "--answer", *given, "--out", target
        )
        self.assertEqual(status, 1, said)
        verdicts = (
            "confirmed: no roster costs less than 20",
            "open: gap 90: its roster costs 110, and the lower bound is 20",
            f"refuted: it claims that no roster costs less than 110, and {target} costs 20",
            "lie: it says that its answer costs 1, but it costs 110",
            # The unit variable, which is not true in this answer, is the first constraint.
            "lie: constraint 1 is not satisfied",
            "unreadable: answer: bad literal",
            f"refuted: it claims that no roster exists, and {target} costs 20",
            "no claim: UNKNOWN",
        )
        first = f"lower bound 20 ({PROVER}), best roster 20 ({target})"
        self.assertEqual(
            printed.splitlines(),
            [first, *(f"{path}: {verdict}" for path, verdict in zip(given, verdicts))],
        )
        self.assertEqual(program.penalty_of(WEEK_FILES, target), 20)

    def test_stored_answers_of_four_runs(self):
        for name, verdict in (
            ("clasp-optimum", "confirmed: no roster costs less than 320"),
            ("minisatp", "confirmed: no roster costs less than 320"),
            ("clasp", "open: gap 0: its roster costs 320, and the lower bound is 320"),
            ("sat4j", "open: gap 0: its roster costs 320, and the lower bound is 320"),
        ):
            answer = FIVE / "answers" / f"{name}.txt"
            words = (*FIVE_OPTIONS, "--answer", answer, "--proof", FIVE / "certificate.txt")
            status, printed, said = run("roster", "referee", *words)
            self.assertEqual((status, printed.splitlines()[1]), (0, f"{answer}: {verdict}"), said)

    def test_a_certificate_takes_the_place_of_the_search(self):
        proof = FIVE / "certificate.txt"
        answer = FIVE / "answers" / "clasp-optimum.txt"
        status, printed, said = run(
            "roster", "referee", *FIVE_OPTIONS, "--answer", answer, "--proof", proof
        )
        self.assertEqual((status, said.count("bound")), (0, 0), said)
        lines = (
            f"lower bound 320 ({PROVER}), best roster 320 (the roster of {answer})\n{answer}:"
            " confirmed: no roster costs less than 320\n"
        )
        self.assertEqual(printed, lines)

    def test_a_known_roster_refutes_a_claim(self):
        answer, _ = program.extend(WEEK_FILES, self.swapped("Amara", "Bruno"))
        proud = self.file("proud.txt", answer.replace("s SATISFIABLE", "s OPTIMUM FOUND"))
        status, printed, _ = run(
            "roster", "referee", *WEEK_OPTIONS, "--answer", proud, "--roster", ROSTER
        )
        refuted = (
            f"{proud}: refuted: it claims that no roster costs less than 110, and {ROSTER} costs 20"
        )
        self.assertEqual((status, printed.splitlines()[1]), (1, refuted))

    def test_a_week_without_a_roster(self):
        none = self.file("none.txt", "s UNSATISFIABLE\n")
        for proof in ((), ("--proof", EIGHT / "certificate.txt")):
            status, printed, said = run(
                "roster", "referee", *EIGHT_OPTIONS, "--answer", none, *proof
            )
            self.assertEqual(
                (status, printed),
                (0, f"no roster exists ({PROVER})\n{none}: confirmed: no roster exists\n"),
                said,
            )

    def test_a_roster_that_is_none_of_the_week(self):
        broken = self.changed(ROSTER, "Amara Mon Day Charge", "Amara Tue Late Charge")
        none = self.file("none.txt", "s UNSATISFIABLE\n")
        status, printed, said = run(
            "roster", "referee", *WEEK_OPTIONS, "--answer", none, "--roster", broken
        )
        self.assertEqual((status, printed), (6, ""))
        self.assertIn(f"{broken} line 6: roster breaks H1: Amara has two places on Tue", said)

    def test_an_answer_that_is_a_device(self):
        zero = ("--answer", ROSTER, "/dev/zero", "--proof", FIVE / "certificate.txt")
        says = "/dev/zero is a device, which may have no end: give a file"
        self.assert_fault(run("roster", "referee", *FIVE_OPTIONS, *zero), f"inrc2pb-roster: {says}")


class OwnSolvers(HelperTest):
    """Claims of a user's own solver about the ward's week, whose best roster costs 20."""

    def setUp(self):
        super().setUp()
        self.target = self.folder / "best.txt"

    def solve(self, answer, *words):
        """A search with a solver that prints this answer."""
        path = self.folder / "printed.txt"
        path.write_text(answer)
        solver = self.script("mine", f"cat {path}\n")
        return run(
            "solve",
            *WEEK_OPTIONS,
            "--out",
            self.target,
            "--time",
            ENOUGH,
            "--solver",
            solver,
            *words,
        )

    def answer(self, roster, status="OPTIMUM FOUND"):
        return program.answer_with(WEEK_FILES, roster).replace("s SATISFIABLE", f"s {status}")

    def with_a_slack(self, roster):
        """The answer of a roster with all slacks that are not needed, of which each costs
        points."""
        model = self.folder / "week.opb"
        program.encode(WEEK_FILES, model)
        variables = int(model.read_text().split()[2])
        # Seven nurses, three shift types and two skills have 294 cells.
        text = re.sub(r"^o .*\n", "", self.answer(roster))
        cells = " ".join(
            word for word in text.split() if re.fullmatch("x[0-9]+", word) and int(word[1:]) <= 295
        )
        return (
            "s OPTIMUM FOUND\nv"
            f" {cells} {' '.join(f'x{number}' for number in range(296, variables + 1))}\n"
        )

    @unittest.skipUnless(HAS_CBC and find_prover(), "needs cbc and inrc2pb-bound")
    def test_a_confirmed_claim_is_a_proof(self):
        proof = self.folder / "certificate.txt"
        status, report, said = self.solve(self.answer(ROSTER), "--proof", proof)
        self.assertEqual(status, 0, said)
        self.assertTrue(report.startswith("status OPTIMUM FOUND\n"), report)
        self.assertTrue(
            report.endswith(f"lower bound 20 ({PROVER})\nno roster costs less, proved\n"), report
        )
        self.assertTrue(proof.read_text().startswith("CERTIFICATE ward\n"))

    def test_a_claim_that_is_open(self):
        # As if the solver had used up the time, so that none is left for a search.
        with mock.patch.object(solver_run, "SECONDS", 0.0):
            status, report, said = self.solve(self.answer(ROSTER))
        self.assertEqual(status, 0, said)
        self.assertTrue(report.endswith("\nmine claims 20; not proved\n"), report)
        self.assertTrue(report.startswith("status SATISFIABLE\n"), report)

    def test_a_claim_that_the_answer_refutes(self):
        status, report, said = self.solve(self.with_a_slack(self.swapped("Amara", "Bruno")))
        self.assertEqual(status, 0, said)
        self.assertRegex(
            report.splitlines()[-1],
            (
                r"^the solver mine is wrong: it claims that no roster costs less than [0-9]+, and"
                rf" {self.target} costs 110$"
            ),
        )
        self.assertTrue(report.startswith("status SATISFIABLE\n"), report)

    def test_a_claim_that_the_earlier_roster_refutes(self):
        shutil.copy(ROSTER, self.target)
        for answer, claim in (
            (self.answer(self.swapped("Amara", "Bruno")), "costs less than 110"),
            ("s UNSATISFIABLE\n", "exists"),
        ):
            status, report, said = self.solve(answer)
            self.assertEqual(status, 0, said)
            line = (
                f"the solver mine is wrong: it claims that no roster {claim}, and"
                f" {self.target} costs 20"
            )
            self.assertEqual(report.splitlines()[-1], line)

    @unittest.skipUnless(HAS_CBC, "needs cbc")
    def test_a_claim_that_a_search_refutes(self):
        for answer, claim in (
            (self.answer(self.swapped("Amara", "Bruno")), "costs less than 110"),
            ("s UNSATISFIABLE\n", "exists"),
        ):
            self.target.unlink(missing_ok=True)
            status, report, said = self.solve(answer)
            self.assertEqual((status, program.penalty_of(WEEK_FILES, self.target)), (0, 20), said)
            line = (
                f"the solver mine is wrong: it claims that no roster {claim}, and"
                f" {self.target} costs 20"
            )
            self.assertEqual(report.splitlines()[-1], line)

    def test_a_number_that_the_answer_does_not_cost(self):
        status, report, said = self.solve(
            re.sub("^o 20$", "o 10", self.answer(ROSTER, "SATISFIABLE"), flags=re.MULTILINE)
        )
        self.assertEqual(status, 0, said)
        self.assertEqual(
            report.splitlines()[-1],
            "the solver mine is wrong: it says that its answer costs 10, but it costs 20",
        )

    @unittest.skipUnless(HAS_CBC and find_prover(), "needs cbc and inrc2pb-bound")
    def test_a_proof_that_no_roster_exists(self):
        path = self.folder / "printed.txt"
        path.write_text("s UNSATISFIABLE\n")
        words = ("--out", self.target, "--solver", self.script("mine", f"cat {path}\n"))
        status, report, said = run("solve", *EIGHT_OPTIONS, *words)
        self.assertEqual((status, report), (5, ""))
        self.assertIn(f"no roster keeps the hard rules ({PROVER}): ", said)


@unittest.skipUnless(find_prover(), "needs inrc2pb-bound")
class RealSolvers(HelperTest):
    def test_the_claims_of_installed_solvers(self):
        model = self.folder / "week.opb"
        linear = self.folder / "week.lp"
        # With the shifts of one nurse cbc has an answer soon.
        held = self.solution(*nurse_rows("Amara"))
        program.encode(replace(WEEK_FILES, fix=held), model)
        self.assertEqual(run("solve", "--model", model, "--out", linear)[0], 0)
        commands = {
            "clasp": ["clasp", str(model)],
            "minisat+": ["minisat+", str(model)],
            "cbc": ["cbc", str(linear), "solve", "solution", str(self.folder / "cbc.sol")],
        }
        answers = []
        for name, words in commands.items():
            if not shutil.which(name):
                continue
            ran = subprocess.run(
                words, stdout=subprocess.PIPE, stderr=subprocess.DEVNULL, text=True, timeout=600
            )
            printed = (
                run("solve", "--answer", self.folder / "cbc.sol")[1]
                if name == "cbc"
                else ran.stdout
            )
            answers.append(self.folder / f"{name}.txt")
            answers[-1].write_text(printed)
        if not answers:
            self.skipTest("needs clasp, minisat+ or cbc")
        words = (*WEEK_OPTIONS, "--fix", held, "--answer", *answers)
        status, printed, said = run("roster", "referee", *words)
        self.assertEqual(status, 0, said)
        self.assertEqual(
            printed.count(": confirmed: no roster costs less than 20\n"), len(answers), printed
        )


if __name__ == "__main__":
    unittest.main()
