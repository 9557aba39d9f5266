"""Tests of `inrc2pb-solve` for the weeks of a period."""

import os
import re
import shlex
import signal
import sys
import time
import unittest
from dataclasses import replace
from pathlib import Path

from ward import (
    ENOUGH,
    HAS_CBC,
    HAS_CLASP,
    HISTORY,
    ROOT,
    ROSTER,
    SCENARIO,
    WARD,
    WEEK,
    WEEK_FILES,
    WEEK_OPTIONS,
    HelperTest,
    begin_command,
    program,
    run,
    time_ends_at,
)

from inrc2pb.search.bounds import PLAIN, PROVER
from inrc2pb.commands.period import PeriodRun
from inrc2pb.search.planned_weeks import PeriodFiles
from inrc2pb.week.soft_rules import SOFT_RULES

MONTH = ROOT / "examples" / "month"
WARD_OPTIONS = ("--sce", SCENARIO, "--his", HISTORY, "--week", WEEK, "--week", WARD / "week-1.txt")
# The line with which the first week begins.
BEGIN = f"week 1, {WEEK}\n"
BEGIN_OF_TWO = f"weeks 1 to 2 one after another, at most {ENOUGH} seconds in all\n{BEGIN}"
MONTH_OPTIONS = ("--sce", MONTH / "ward.txt", "--his", MONTH / "history-0.txt")
MONTH_WEEKS = [word for number in range(4) for word in ("--week", MONTH / f"week-{number}.txt")]
# A solver that prints what is not an answer, one that crashes, and one whose answer `decode`
# rejects.
BAD_SOLVERS = ["echo nonsense", "false", "sh -c 'echo s SATISFIABLE'", "sh -c 'kill -9 $$'"]


def without_progress(said):
    """The lines of standard error that are not the progress of a search."""
    return "".join(
        line for line in said.splitlines(keepends=True) if not re.match(" +[0-9.]+ s  ", line)
    )


class PeriodTest(HelperTest):
    def assert_period(self, printed, options, count, early=False):
        """The report has what `extend` reports for each week, and the sums."""
        table = [line.split() for line in printed.split("\n\n")[-1].splitlines()]
        self.assertEqual(table[0], ["penalty", *SOFT_RULES])
        given = dict(zip(("--sce", "--his"), (options[1], options[3])))
        weeks = [path for word, path in zip(options, options[1:]) if word == "--week"]
        rows = []
        for number in range(count):
            history = self.folder / f"history-{number}.txt" if number else given["--his"]
            week = program.WeekFiles(given["--sce"], history, weeks[number], early=early)
            _, report = program.extend(week, self.folder / f"roster-{number}.txt")
            rows.append([report.penalty, *report.by_rule.values()])
            self.assertEqual(table[1 + number], ["week", str(number + 1), *map(str, rows[-1])])
        self.assertEqual(table[1 + count], ["period", *(str(sum(column)) for column in zip(*rows))])


@unittest.skipUnless(HAS_CBC, "needs cbc")
class Together(PeriodTest):
    def test_the_ward(self):
        for totals, says in (
            ([], f"^lower bound [0-9]+ of the sum \\(({PLAIN}|{PROVER})\\): "),
            (["--early"], "^lower bound "),
        ):
            with self.subTest(totals):
                self.assertRegex(self.planned(*totals), says)
        # Without a bound a search uses up its time.
        with time_ends_at("improved"):
            self.assertEqual(
                self.planned("--ahead"),
                "planned ahead of 2 weeks that are not known: no lower bound",
            )

    def planned(self, *totals):
        """The last line about a plan of both weeks."""
        status, printed, said = run(
            "solve", *WARD_OPTIONS, *totals, "--out", self.folder, "--time", ENOUGH
        )
        self.assertEqual(status, 0, said)
        self.assert_period(printed, WARD_OPTIONS, 2, "--early" in totals)
        self.assertIn(f"weeks 1 to 2 together, at most {ENOUGH} seconds in all\n", said)
        return printed.splitlines()[-1]

    def test_thirty_nurses_in_four_weeks(self):
        with time_ends_at("improved"):
            status, printed, said = run(
                "solve", *MONTH_OPTIONS, *MONTH_WEEKS, "--out", self.folder, "--time", 15
            )
        self.assertEqual(status, 0, said)
        self.assert_period(printed, (*MONTH_OPTIONS, *MONTH_WEEKS), 4)
        table = ("--sce", MONTH / "ward.txt", "--his", MONTH / "history-0.txt", *MONTH_WEEKS)
        shown = run(
            "roster",
            "show",
            *table,
            "--roster",
            *(self.folder / f"roster-{number}.txt" for number in range(4)),
        )
        self.assertEqual((shown[0], shown[2]), (0, ""))
        self.assertIn("weeks 1 to 4", shown[1])

    def test_held_shifts_of_a_week(self):
        held = self.solution("Grace Sat Day Nurse", week=1, name="held.txt")
        status, _, said = run(
            "solve", *WARD_OPTIONS, "--fix", f"2={held}", "--out", self.folder, "--time", ENOUGH
        )
        self.assertEqual(status, 0, said)
        self.assertIn("Grace Sat Day Nurse\n", (self.folder / "roster-1.txt").read_text())

    def test_held_shifts_that_no_rosters_have(self):
        rows = [
            f"{nurse} Mon Day Nurse"
            for nurse in ("Amara", "Bruno", "Chen", "Dilek", "Ewa", "Finn", "Grace")
        ]
        held = self.solution(*rows, week=1, name="held.txt")
        status, printed, said = run(
            "solve",
            *WARD_OPTIONS,
            "--fix",
            f"2={held}",
            "--out",
            self.folder / "out",
            "--time",
            ENOUGH,
        )
        self.assertEqual((status, printed), (5, ""))
        self.assertRegex(
            said.splitlines()[-1],
            "^inrc2pb-solve: no plan of these weeks together keeps the hard rules and has the rows"
            rf" of {held} \(({PROVER}|{PLAIN})\): plan the weeks one by one$",
        )

    def test_absences(self):
        for away, says in (
            (("Chen=Fri",), "^$"),
            (
                ("Amara=Fri", "Bruno=Fri", "Ewa=Fri"),
                (
                    "^inrc2pb-solve: week 2: no roster was found that keeps every absence:"
                    " (Amara|Bruno|Ewa) works Day on Fri$"
                ),
            ),
        ):
            options = (*WEEK_OPTIONS, "--week", self.away(*away, week=WARD / "week-1.txt"))
            status, printed, said = run(
                "solve", *options, "--out", self.folder / "out", "--time", ENOUGH
            )
            self.assertEqual(status, 0, said)
            self.assertRegex("".join(line for line in said.splitlines() if "absence" in line), says)
            self.assertRegex(printed.splitlines()[-1], "^lower bound [0-9]+ of the sum ")

    def test_a_stop_keeps_the_best_plan(self):
        words = (*MONTH_OPTIONS, *MONTH_WEEKS, "--out", self.folder, "--time", 600)
        with begin_command("solve", *words) as period:
            while not (self.folder / "roster-3.txt").exists() and period.poll() is None:
                time.sleep(0.05)
            period.send_signal(signal.SIGINT)
            printed, said = period.communicate(timeout=300)
        self.assertEqual(period.returncode, 130, said)
        self.assert_period(printed.decode(), (*MONTH_OPTIONS, *MONTH_WEEKS), 4)
        self.assertEqual(printed.decode().splitlines()[-1], "stopped: weeks 1 to 4 are planned")

    def test_one_week_has_the_bound_of_the_week(self):
        status, printed, said = run("solve", *WEEK_OPTIONS, "--out", self.folder, "--time", ENOUGH)
        self.assertEqual(status, 0, said)
        self.assert_period(printed, WEEK_OPTIONS, 1)
        self.assertRegex(printed, "\nlower bound 20 \\(.*\\)\nno roster costs less")


@unittest.skipUnless(HAS_CLASP, "needs clasp")
class Periods(PeriodTest):
    def test_held_shifts_of_a_week(self):
        held = self.folder / "held.txt"
        words = (
            *WARD_OPTIONS,
            "--fix",
            f"2={held}",
            "--out",
            self.folder,
            "--time",
            ENOUGH,
            "--solver",
            "clasp",
        )
        files_of = ", ".join(
            str(self.folder / name)
            for name in ("roster-0.txt", "roster-1.txt", "history-1.txt", "history-2.txt")
        )
        for week, hint in (
            (1, ""),
            (
                3,
                (
                    f"inrc2pb-solve: {held}: line 1 has week 3, and the history has week 1: is the"
                    " file of another week?\n"
                ),
            ),
        ):
            held.write_text(f"SOLUTION {week} ward ASSIGNMENTS = 1 Grace Sat Day Nurse\n")
            status, _, said = run("solve", *words)
            replaced = f"files that are replaced: {files_of}\n" if week == 3 else ""
            self.assertEqual(
                (status, without_progress(said)),
                (0, f"{replaced}{BEGIN_OF_TWO}week 2, {WARD / 'week-1.txt'}\n{hint}"),
            )
            self.assertIn("Grace Sat Day Nurse\n", (self.folder / "roster-1.txt").read_text())


class PeriodFaults(PeriodTest):
    def period(self, *words):
        return run("solve", *words, "--out", self.folder, "--time", ENOUGH)

    def test_after_a_fault_the_week_that_has_a_roster_is_reported(self):
        words = ("--out", self.folder, "--time", ENOUGH, "--solver", self.answers_once())
        status, printed, said = run("solve", *WARD_OPTIONS, *words)
        self.assertEqual(
            (status, printed.splitlines()[0]),
            (1, f"week 1: penalty 20, {self.folder / 'roster-0.txt'}"),
        )
        self.assert_period(printed, WARD_OPTIONS, 1)
        self.assertTrue((self.folder / "history-1.txt").exists())
        self.assertNotIn("stopped", printed)
        self.assertRegex(
            said.splitlines()[-1],
            (
                "^inrc2pb-solve: week 2: the solver sh has no answer: it printed no answer and"
                " ended with status 1; try its command by hand$"
            ),
        )

    def test_each_week_has_an_equal_part_of_the_time_that_is_left(self):
        # The solver of the first week ends at once, so the second week has its time, too.
        log = self.folder / "log"
        answer = self.folder / "answer.txt"
        answer.write_text(program.answer_with(WEEK_FILES, ROSTER))
        solver = f"sh -c 'echo {{seconds}} >> {log}; cat {answer}'"
        words = ("--out", self.folder / "out", "--time", 100, "--solver", solver)
        run("solve", *WARD_OPTIONS, *words)
        first, second = map(float, log.read_text().split())
        self.assertTrue(40 < first <= 50 and 80 < second < 100, (first, second))

    def test_after_the_last_week_the_command_for_the_next_period_is_printed(self):
        ward = self.changed(SCENARIO, "WEEKS = 4", "WEEKS = 1")
        answer = self.folder / "answer.txt"
        out = self.folder / "my out"
        out.mkdir()
        answer.write_text(program.answer_with(replace(WEEK_FILES, scenario=ward), ROSTER))
        words = (
            "--sce",
            ward,
            "--his",
            HISTORY,
            "--week",
            WEEK,
            "--out",
            out,
            "--solver",
            f"sh -c 'cat {answer}'",
        )
        for replaced in ("", f"files that are replaced: {out}/roster-0.txt\n"):
            status, printed, said = run("solve", *words)
            command = (
                f"inrc2pb-roster next --sce {ward} --his {HISTORY} --roster '{out}/roster-0.txt'"
                f" --new-period --out '{out}/history-new.txt'"
            )
            line = f"to make the first history of the next period, type: {command}\n"
            self.assertEqual((status, without_progress(said)), (0, f"{replaced}{BEGIN}{line}"))
        self.assertEqual(run(*shlex.split(command.replace("inrc2pb-", "", 1))), (0, "", ""))
        self.assertEqual((out / "history-new.txt").read_text()[:14], "HISTORY\n0 ward")

    def test_a_solver_without_an_answer(self):
        for solver in BAD_SOLVERS:
            status, printed, said = self.period(*WARD_OPTIONS, "--solver", solver)
            self.assertNotEqual(status, 0)
            self.assertEqual(
                (
                    said.count("\n"),
                    said.startswith(f"{BEGIN_OF_TWO}inrc2pb-solve: week 1: "),
                    printed,
                ),
                (3, True, ""),
                said,
            )
        self.assertEqual(list(self.folder.iterdir()), [])

    def stopped(self, at_end, environment=None):
        """A period that gets TERM when the file `started` exists, while its solver runs. The solver
        then does this."""
        started = self.folder / "started"
        started.unlink(missing_ok=True)
        solver = f"sh -c 'trap \"{at_end}; exit 1\" TERM; touch {started}; sleep 60 & wait'"
        words = (*WARD_OPTIONS, "--out", self.folder, "--time", ENOUGH, "--solver", solver)
        with begin_command("solve", *words, environment=environment) as period:
            while not started.exists() and period.poll() is None:
                time.sleep(0.05)
            period.send_signal(signal.SIGTERM)
            printed, said = period.communicate(timeout=300)
        return period.returncode, printed.decode(), said.decode()

    def test_after_a_stop_the_roster_that_the_solver_has_is_reported(self):
        answer = self.folder / "answer.txt"
        answer.write_text(program.answer_with(WEEK_FILES, ROSTER))
        status, printed, said = self.stopped(f"cat {answer}")
        self.assertEqual((status, without_progress(said)), (143, BEGIN_OF_TWO))
        self.assert_period(printed, WARD_OPTIONS, 1)
        self.assertEqual(printed.splitlines()[-1], "stopped: week 1 is planned, week 2 is not")
        self.assertTrue((self.folder / "history-1.txt").exists())

    def test_the_weeks_that_a_stopped_period_has(self):
        period = PeriodRun(PeriodFiles(*MONTH_OPTIONS[1::2], MONTH_WEEKS[1::2]), self.folder)
        for planned, says in (
            (1, "week 1 is planned, weeks 2 to 4 are not"),
            (2, "weeks 1 to 2 are planned, weeks 3 to 4 are not"),
            (3, "weeks 1 to 3 are planned, week 4 is not"),
            (4, "weeks 1 to 4 are planned"),
        ):
            period.reports = dict.fromkeys(range(planned))
            self.assertEqual(period.stop_line(), f"stopped: {says}")

    def test_after_a_stop_before_the_first_roster_there_is_none(self):
        for at_end in (":", "echo s UNKNOWN"):
            ended = self.stopped(at_end)
            self.assertEqual(
                ended,
                (
                    143,
                    "",
                    f"{BEGIN_OF_TWO}inrc2pb-solve: week 1: stopped before the first roster\n",
                ),
            )

    def test_a_stop_does_not_wait_for_a_model(self):
        ended = self.stopped(":", self.slow_to_encode(self.folder / "started"))
        self.assertEqual(
            ended,
            (143, "", f"{BEGIN_OF_TWO}inrc2pb-solve: week 1: stopped before the first roster\n"),
        )

    def test_without_a_solver_or_the_program_no_folder_is_made(self):
        out = self.folder / "planned" / "here"
        for words, environment, status, says in (
            (("--solver", "nosolver"), {}, 1, "there is no solver nosolver"),
            (
                ("--solver", sys.executable),
                {"INRC2PB": "/nowhere/inrc2pb"},
                127,
                "there is no program /nowhere/inrc2pb",
            ),
        ):
            with self.subTest(words, **environment):
                ran = run(
                    "solve",
                    *WARD_OPTIONS,
                    *words,
                    "--out",
                    out,
                    "--time",
                    ENOUGH,
                    environment=environment,
                )
                self.assertEqual((ran[0], ran[1], ran[2].count("\n")), (status, "", 1), ran[2])
                self.assertIn(says, ran[2])
                self.assertEqual(list(self.folder.iterdir()), [])

    @unittest.skipIf(os.geteuid() == 0, "needs a user who is not root")
    def test_a_folder_without_write_permission(self):
        self.folder.chmod(0o555)
        self.assert_fault(
            self.period(*WARD_OPTIONS, "--solver", "false"),
            (
                f"inrc2pb-solve: {self.folder}: Permission denied: you may not read or write it: "
                "look at its permissions and those of its folder, or choose another folder"
            ),
            3,
        )

    @unittest.skipUnless(Path("/sys").is_dir(), "needs /sys")
    def test_a_folder_in_which_nobody_may_write(self):
        status, printed, said = run(
            "solve", *WARD_OPTIONS, "--solver", "false", "--out", "/sys/planned"
        )
        self.assertEqual((status, printed, said.count("\n")), (3, "", 1), said)
        self.assertRegex(said, "^inrc2pb-solve: /sys/planned: .* choose another folder\n$")

    def test_a_week_without_a_roster(self):
        eight = ROOT / "examples" / "eight"
        words = (
            "--sce",
            eight / "ward.txt",
            "--his",
            eight / "history-1.txt",
            "--week",
            eight / "week-1.txt",
        )
        status, printed, said = self.period(*words, "--solver", "sh -c 'echo s UNSATISFIABLE'")
        self.assertEqual((status, printed), (1, ""))
        self.assertRegex(
            said,
            (
                r"week 2: no roster keeps the hard rules( \(inrc2pb-bound\)|, says sh, which is not"
                r" proved): "
            ),
        )

    def test_files_that_do_not_fit(self):
        _, _, said = self.period("--sce", SCENARIO, "--his", HISTORY, *(["--week", WEEK] * 5))
        self.assertIn("5 weeks are given, and 4 are left from week 1 of 4", said)
        _, _, said = self.period(
            "--sce", SCENARIO, "--his", HISTORY, "--week", WEEK, "--fix", "3=held.txt"
        )
        self.assertEqual(
            said, "inrc2pb-solve: --fix 3=held.txt: there is no week 3: give 1 for the only week\n"
        )
        for fix in ("held.txt", "²=held.txt"):
            _, _, said = self.period(*WARD_OPTIONS, "--fix", fix)
            wants = (
                "give the week's number, 1 for the first week, and its file, such as 1=promised.txt"
            )
            self.assertEqual(said, f"inrc2pb-solve: --fix {fix}: {wants}\n")
        for number in (0, 3):
            _, _, said = self.period(*WARD_OPTIONS, "--fix", f"{number}=held.txt")
            wants = f"there is no week {number}: give 1 for the first week, and 2 for the last"
            self.assertEqual(said, f"inrc2pb-solve: --fix {number}=held.txt: {wants}\n")
        _, _, said = self.period(
            "--sce",
            SCENARIO,
            "--his",
            HISTORY,
            "--week",
            WEEK,
            "--fix",
            "a.txt",
            "--fix",
            "01=b.txt",
        )
        self.assertEqual(
            said,
            (
                "inrc2pb-solve: --fix 01=b.txt: week 1 has the file a.txt: put all rows into one"
                " file\n"
            ),
        )
        _, _, said = self.period(*WARD_OPTIONS, "--roster", ROSTER)
        self.assertEqual(
            said,
            "inrc2pb-solve: --roster has 1 file for 2 weeks: give one for each, in their order\n",
        )
        _, _, said = self.period(*WARD_OPTIONS, "--roster", ROSTER, ROSTER)
        wants = "not of week 1 of ward: give one roster for each week, in order"
        self.assertEqual(said, f"inrc2pb-solve: {ROSTER} is of week 0 of ward, {wants}\n")
        _, _, said = self.period(*WARD_OPTIONS, "--early", "--ahead")
        self.assertIn("--early and --ahead are two ways to count totals", said)
        pipe = self.folder / "pipe"
        os.mkfifo(pipe)
        _, _, said = self.period("--sce", SCENARIO, "--his", HISTORY, "--week", pipe)
        self.assertEqual(
            said, f"inrc2pb-solve: {pipe} is a pipe, which can be read only once: give a file\n"
        )
        fix = self.solution("Chen Mon Day Charge", week=3, name="held.txt")
        _, _, said = self.period(
            "--sce", SCENARIO, "--his", HISTORY, "--week", WEEK, "--week", WEEK, "--fix", f"2={fix}"
        )
        hint = "line 2 has week 3, and the history has week 1: is the file of another week?"
        self.assertEqual(
            said,
            (
                f"inrc2pb-solve: {fix} line 5: Chen does not have the skill Charge: no roster can"
                f" have this row; {hint}\n"
            ),
        )
        wrong = self.changed(WEEK, "Chen Any", "Chan Any")
        _, _, said = self.period("--sce", SCENARIO, "--his", HISTORY, "--week", wrong)
        self.assertIn("'Chan' is no nurse of NURSES: did you mean 'Chen'?", said)


if __name__ == "__main__":
    unittest.main()
