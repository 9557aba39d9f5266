"""Tests of `inrc2pb-solve` while others change its files: inputs that are edited, rosters that
others write, and files that may not be written."""

import os
import shutil
import signal
import time
import unittest
from pathlib import Path

from ward import (
    ENOUGH,
    HAS_CBC,
    HISTORY,
    ROSTER,
    SCENARIO,
    WARD,
    WEEK,
    WEEK_FILES,
    WEEK_OPTIONS,
    ROOT,
    HelperTest,
    begin_command,
    program,
    run,
)

from inrc2pb.search.bounds import find_prover
from inrc2pb.search.plan_folder import PlanFolder
from inrc2pb.search.planned_weeks import PeriodFiles, PlannedWeeks

NOBODY = 65534
CHANGED = "{} was changed during the search: this is about the old one"


class ChangingFiles(HelperTest):
    """A search for the ward's week, whose files are in the test's folder. The roster of the example
    costs 20, `worse` costs 110."""

    def setUp(self):
        super().setUp()
        self.week = self.folder / "week-0.txt"
        self.target = self.folder / "best.txt"
        self.worse = self.swapped("Amara", "Bruno")
        shutil.copy(WEEK, self.week)
        self.options = (*WEEK_OPTIONS[:4], "--week", self.week)
        # Many more wishes, so that each roster costs more.
        rows = "".join(
            f"Chen Any {day}\nGrace Any {day}\n"
            for day in ("Mon", "Tue", "Wed", "Thu", "Fri", "Sat", "Sun")
        )
        head, _, requests = WEEK.read_text().partition("SHIFT_OFF_REQUESTS = ")
        number, _, old = requests.partition("\n")
        self.edited = self.folder / "edited.txt"
        self.edited.write_text(f"{head}SHIFT_OFF_REQUESTS = {int(number) + 14}\n{rows}{old}")
        self.edited_files = program.WeekFiles(SCENARIO, HISTORY, self.edited)
        assert program.penalty_of(self.edited_files, ROSTER) > 20

    def answer(self, roster, status="SATISFIABLE"):
        """A file with the answer whose roster this is."""
        path = self.folder / f"answer-{Path(roster).stem}-{status[:3]}.txt"
        path.write_text(
            program.answer_with(WEEK_FILES, roster).replace("s SATISFIABLE", f"s {status}")
        )
        return path

    def solve(self, *words, **named):
        return run("solve", *self.options, "--out", self.target, "--time", ENOUGH, *words, **named)

    def solver(self, *commands):
        """A solver that runs these commands of a shell, the last of which prints its answer."""
        return self.script("solver.sh", "\n".join(map(str, commands)) + "\n")

    def program_that_first(self, command):
        """The environment of an `inrc2pb` that runs this command of a shell before its first
        `extend`."""
        tools = self.folder / "tools"
        tools.mkdir(exist_ok=True)
        if find_prover():
            (tools / "inrc2pb-bound").symlink_to(find_prover())
        first = f'if [ "$1" = extend ] && /bin/mkdir {tools}/began 2> /dev/null; then {command}; fi'
        path = self.script("tools/inrc2pb", f'{first}\nexec {program.find_program()} "$@"\n')
        return {"INRC2PB": str(path)}


class Inputs(ChangingFiles):
    def test_a_week_that_is_edited_while_a_solver_runs(self):
        solver = self.solver(
            f"cp {self.edited} {self.week}", f"cat {self.answer(ROSTER, 'OPTIMUM FOUND')}"
        )
        status, report, said = self.solve("--solver", solver)
        self.assertEqual(status, 0, said)
        self.assertIn("penalty 20\n", report)
        self.assertEqual(report.splitlines()[-1], CHANGED.format(self.week))

    @unittest.skipUnless(HAS_CBC, "needs cbc")
    def test_a_week_that_is_edited_during_a_search(self):
        status, report, said = self.solve(
            environment=self.program_that_first(f"cp {self.edited} {self.week}")
        )
        self.assertEqual(status, 0, said)
        self.assertIn("penalty 20\n", report)
        self.assertRegex(
            report,
            rf"\nlower bound 20 \(.*\)\nno roster costs less.*\n{CHANGED.format(self.week)}\n$",
        )

    def test_a_file_that_is_saved_again_is_not_changed(self):
        solver = self.solver(f"cp {WEEK} {self.week}", f"cat {self.answer(ROSTER)}")
        status, report, _ = self.solve("--solver", solver)
        self.assertEqual((status, "changed" in report), (0, False))

    def test_a_held_shift_whose_file_is_removed(self):
        fix = self.solution("Amara Tue Day Charge", name="fix.txt")
        solver = self.solver(f"rm {fix}", f"cat {self.answer(ROSTER)}")
        status, report, said = self.solve("--fix", fix, "--solver", solver)
        self.assertEqual(status, 5 if "no roster" in said else 0, said)
        self.assertIn(
            f"{fix} was removed during the search: this is about the old one\n", report + said
        )
        self.assertNotIn("inrc2pb-inputs", report + said)

    def test_a_pipe_or_a_folder_in_place_of_a_week(self):
        for command in ("mkfifo", "mkdir"):
            with self.subTest(command):
                solver = self.solver(
                    f"rm {self.week}; {command} {self.week}", f"cat {self.answer(ROSTER)}"
                )
                status, report, _ = self.solve("--solver", solver)
                self.assertEqual((status, report.splitlines()[-1]), (0, CHANGED.format(self.week)))
                self.assertIn("penalty 20\n", report)
                os.rmdir(self.week) if command == "mkdir" else self.week.unlink()
                shutil.copy(WEEK, self.week)

    def test_a_link_that_leads_elsewhere(self):
        old = self.week.rename(self.folder / "first.txt")
        self.week.symlink_to(old)
        solver = self.solver(f"ln -sf {self.edited} {self.week}", f"cat {self.answer(ROSTER)}")
        status, report, _ = self.solve("--solver", solver)
        self.assertEqual((status, report.splitlines()[-1]), (0, CHANGED.format(self.week)))
        self.assertIn("penalty 20\n", report)

    def test_a_search_without_a_roster_says_it_too(self):
        status, report, said = self.solve(
            "--solver", self.solver(f"cp {self.edited} {self.week}", "echo s UNKNOWN")
        )
        self.assertEqual((status, report), (5, ""))
        self.assertIn(f"inrc2pb-solve: {CHANGED.format(self.week)}\n", said)

    def test_faults_name_the_files_and_not_the_copies(self):
        self.week.write_text(WEEK.read_text().replace("WEEK_DATA", "WEEK_DATE", 1))
        status, _, said = self.solve()
        self.assertEqual(status, 1)
        self.assertTrue(said.startswith(f"inrc2pb-solve: {self.week} line 1: "), said)
        self.options = (*WEEK_OPTIONS[:4], "--week", "/dev/zero")
        self.assert_fault(
            self.solve(), "inrc2pb-solve: /dev/zero: the file has more than 4194304 bytes"
        )
        self.options = (*WEEK_OPTIONS[:4], "--week", WEEK, "--week", self.week)
        status, _, said = run(
            "solve", *self.options, "--out", self.folder / "out", "--time", ENOUGH
        )
        self.assertTrue(said.startswith(f"inrc2pb-solve: {self.week} line 1: "), said)

    @unittest.skipUnless(HAS_CBC, "needs cbc")
    def test_a_week_of_a_period_that_is_edited(self):
        second = self.folder / "week-1.txt"
        out = self.folder / "out"
        shutil.copy(WARD / "week-1.txt", second)
        environment = self.program_that_first(f"cp {self.edited} {second}")
        words = (*self.options, "--week", second, "--out", out, "--time", ENOUGH)
        status, printed, said = run("solve", *words, environment=environment)
        self.assertEqual(status, 0, said)
        self.assertEqual(printed.splitlines()[-1], CHANGED.format(second))
        second_week = program.WeekFiles(SCENARIO, out / "history-1.txt", WARD / "week-1.txt")
        penalties = program.penalty_of(WEEK_FILES, out / "roster-0.txt"), program.penalty_of(
            second_week, out / "roster-1.txt"
        )
        sums = next(line.split() for line in printed.splitlines() if line.startswith("period"))
        self.assertEqual(int(sums[1]), sum(penalties))

    def test_a_week_of_a_period_that_is_edited_while_a_solver_runs(self):
        second = self.folder / "week-1.txt"
        out = self.folder / "out"
        shutil.copy(WARD / "week-1.txt", second)
        solver = self.solver(f"cp {self.edited} {second}", f"cat {self.answer(ROSTER)}")
        status, printed, said = run(
            "solve",
            *self.options,
            "--week",
            second,
            "--out",
            out,
            "--time",
            ENOUGH,
            "--solver",
            solver,
        )
        self.assertIn(CHANGED.format(second), printed + said)
        self.assertIn(f"week 2, {second}\n", said)
        self.assertIn("week 1: penalty 20, ", printed)

    def test_a_week_that_is_edited_during_a_run_of_the_competition(self):
        solver = self.solver(f"cp {self.edited} {self.week}", f"cat {self.answer(ROSTER)}")
        words = (
            "--inrc2",
            *self.options,
            "--sol",
            self.target,
            "--timeout",
            ENOUGH,
            "--solver",
            solver,
        )
        _, printed, said = run("solve", *words)
        self.assertIn("penalty 20\n", printed)
        self.assertIn(f"inrc2pb-solve: {CHANGED.format(self.week)}\n", said)


class Rosters(ChangingFiles):
    def test_a_better_roster_of_another_program_is_kept(self):
        solver = self.solver(f"cp {ROSTER} {self.target}", f"cat {self.answer(self.worse)}")
        status, report, said = self.solve("--solver", solver)
        self.assertEqual((status, self.target.read_text()), (0, ROSTER.read_text()), said)
        self.assertIn("penalty 20\n", report)
        self.assertIn(
            (
                f"{self.target} has a better roster than this search, which is kept: its penalty is"
                " 20\n"
            ),
            said,
        )

    def test_a_better_roster_that_was_there_before_is_kept_beside_a_given_one(self):
        shutil.copy(ROSTER, self.target)
        status, report, said = self.solve(
            "--roster", self.worse, "--solver", self.solver("echo s UNKNOWN")
        )
        self.assertEqual((status, self.target.read_text()), (0, ROSTER.read_text()), said)
        self.assertIn("penalty 20\n", report)

    def test_garbage_is_replaced_by_the_roster(self):
        for command in (
            f"echo garbage > {self.target}",
            f"rm {self.target}",
            f"cp {self.worse} {self.target}",
            f"head -c 5000000 /dev/zero > {self.target}",
        ):
            with self.subTest(command):
                solver = self.solver(command, f"cat {self.answer(self.worse)}")
                status, report, said = self.solve("--roster", ROSTER, "--solver", solver)
                self.assertEqual(status, 0, said)
                self.assertIn("penalty 20\n", report)
                self.assertEqual(program.penalty_of(WEEK_FILES, self.target), 20)
                self.assertIn(
                    (
                        f"{self.target} was changed during the search: it has the roster of the"
                        " search again\n"
                    ),
                    said,
                )

    def test_a_pipe_or_a_folder_in_place_of_the_roster_is_a_fault_after_the_report(self):
        for command, says, ends in (
            (
                f"mkfifo {self.target}",
                f"{self.target} is a pipe, which can be written only once: name a file\n",
                1,
            ),
            (f"mkdir {self.target}", f"{self.target}: Is a directory", 3),
        ):
            with self.subTest(command):
                self.target.unlink(missing_ok=True)
                solver = self.solver(f"rm {self.target}", command, "echo s UNKNOWN")
                status, report, said = self.solve("--roster", ROSTER, "--solver", solver)
                self.assertEqual(status, ends, said)
                self.assertIn("penalty 20\n", report)
                self.assertIn(says, said)

    def test_a_link_to_an_input_in_place_of_the_roster_is_not_followed(self):
        solver = self.solver(f"ln -sf {self.week} {self.target}", f"cat {self.answer(ROSTER)}")
        status, _, said = self.solve("--solver", solver)
        self.assertEqual((status, self.week.read_bytes()), (1, WEEK.read_bytes()), said)
        self.assertIn(
            f"{self.week} is read, so the roster cannot be written to it: choose another file", said
        )

    def test_a_link_to_an_input_in_place_of_a_roster_of_a_period(self):
        out = self.folder / "out"
        words = (*self.options, "--week", WARD / "week-1.txt", "--time", ENOUGH, "--out", out)
        linked = self.program_that_first(f"/bin/ln -s {self.week} {out}/roster-1.txt")
        status, _, said = run("solve", *words, environment=linked)
        self.assertEqual((status, self.week.read_bytes()), (1, WEEK.read_bytes()), said)
        self.assertIn(f"{self.week} is read, so the roster cannot be written to it", said)

    def test_a_solver_that_writes_the_roster_itself(self):
        solver = self.solver(f"echo garbage > {self.target}", f"cat {self.answer(ROSTER)}")
        status, report, said = self.solve("--solver", solver)
        self.assertEqual((status, program.penalty_of(WEEK_FILES, self.target)), (0, 20), said)
        self.assertIn("penalty 20\n", report)

    @unittest.skipUnless(HAS_CBC, "needs cbc")
    def test_a_better_plan_of_another_program_is_kept(self):
        words = (*WEEK_OPTIONS, "--week", WARD / "week-1.txt", "--time", ENOUGH, "--out")
        good = self.folder / "good"
        out = self.folder / "out"
        self.assertEqual(run("solve", *words, good)[0], 0)
        # Without a solver there is a first plan only.
        first = {
            **self.program_that_first(f"/bin/cp {good}/roster-*.txt {out}"),
            "PATH": str(self.folder / "none"),
        }
        status, printed, said = run("solve", *words, out, environment=first)
        self.assertEqual(status, 0, said)
        for name in ("roster-0.txt", "roster-1.txt", "history-1.txt"):
            self.assertEqual((out / name).read_text(), (good / name).read_text())
        self.assertIn(
            (
                "there is a better plan than that of this search in its folder, which is kept: its"
                " penalty is "
            ),
            said,
        )

    @unittest.skipUnless(HAS_CBC, "needs cbc")
    def test_garbage_in_the_folder_is_replaced_by_the_plan(self):
        out = self.folder / "out"
        words = [
            *WEEK_OPTIONS,
            "--week",
            WARD / "week-1.txt",
            "--out",
            out,
            "--time",
            600,
        ]
        with begin_command("solve", *words) as searching:
            while not (out / "history-2.txt").exists() and searching.poll() is None:
                time.sleep(0.05)
            # The garbage is written before the search can end.
            searching.send_signal(signal.SIGSTOP)
            for name in ("roster-1.txt", "history-1.txt"):
                (out / name).write_text("garbage\n")
            searching.terminate()
            searching.send_signal(signal.SIGCONT)
            printed, said = searching.communicate(timeout=ENOUGH)
        self.assertIn(b"period ", printed, said)
        second_week = program.WeekFiles(SCENARIO, out / "history-1.txt", WARD / "week-1.txt")
        self.assertIn(
            f"week 2: penalty {program.penalty_of(second_week, out / 'roster-1.txt')}, ".encode(),
            printed,
        )


class Locks(ChangingFiles):
    def running(self, *words):
        """A search that waits for the file `go`, and then finds the roster of the example."""
        running = self.folder / "running"
        go = self.folder / "go"
        slow = self.script(
            "slow.sh",
            (
                f"touch {running}\nwhile ! [ -e {go} ]; do sleep 0.1; done\ncat"
                f" {self.answer(ROSTER)}\n"
            ),
        )
        search = begin_command("solve", *self.options, "--time", ENOUGH, "--solver", slow, *words)
        self.addCleanup(search.communicate)
        self.addCleanup(search.kill)
        while not running.exists() and search.poll() is None:
            time.sleep(0.05)
        return search

    def test_a_second_run_on_one_file_says_so(self):
        first = self.running("--out", self.target)
        line = (
            f"inrc2pb-solve: another search writes {self.target}: wait until it has ended (--wait),"
            " or choose another file"
        )
        self.assert_fault(
            self.solve("--solver", self.solver(f"cat {self.answer(self.worse)}")), line, 2
        )
        link = self.folder / "link.txt"
        link.symlink_to(self.target)
        second = run("solve", *self.options, "--out", link, "--time", ENOUGH)
        self.assert_fault(second, line.replace("best.txt", "link.txt"), 2)
        period = run(
            "solve", *self.options, "--out", self.folder, "--time", ENOUGH, "--solver", "false"
        )
        self.assertNotEqual(period[0], 2, "the folder has other files")
        (self.folder / "go").touch()
        report, said = first.communicate(timeout=ENOUGH)
        self.assertEqual((first.returncode, b"penalty 20\n" in report), (0, True), said)
        self.assertEqual(list(self.folder.glob(".*")), [])

    def test_a_second_run_waits_if_it_may(self):
        self.running("--out", self.target)
        words = [
            *self.options,
            "--out",
            self.target,
            "--wait",
            "--solver",
            self.solver("echo s UNKNOWN"),
        ]
        second = begin_command("solve", *words)
        said = second.stderr.readline()
        self.assertEqual(
            said.decode(),
            (
                f"inrc2pb-solve: another search writes {self.target}: this one waits until it has"
                " ended\n"
            ),
        )
        (self.folder / "go").touch()
        report, _ = second.communicate(timeout=ENOUGH)
        self.assertEqual((second.returncode, b"penalty 20\n" in report), (0, True))

    def test_a_wait_can_be_stopped(self):
        self.running("--out", self.target)
        second = begin_command("solve", *self.options, "--out", self.target, "--wait")
        second.stderr.readline()
        second.terminate()
        _, said = second.communicate(timeout=ENOUGH)
        self.assertEqual(
            (second.returncode, said.decode()),
            (5, f"inrc2pb-solve: stopped while another search writes {self.target}\n"),
        )

    def test_the_lock_of_a_killed_run_does_not_stay(self):
        first = self.running("--out", self.target)
        first.kill()
        first.wait()
        self.assertEqual([path.name for path in self.folder.glob(".*")], [".best.txt.lock"])
        status, report, said = self.solve("--solver", self.solver(f"cat {self.answer(ROSTER)}"))
        self.assertEqual((status, "penalty 20\n" in report), (0, True), said)
        self.assertEqual(list(self.folder.glob(".*")), [])

    def test_a_second_run_on_one_folder(self):
        out = self.folder / "out"
        second = ("--week", WARD / "week-1.txt")
        self.options = (*self.options, *second)
        self.running("--out", out)
        line = (
            f"another search writes {out / 'roster-0.txt'}: wait until it has ended (--wait), or"
            " choose another file"
        )
        self.assert_fault(
            run("solve", *self.options, "--out", out, "--time", ENOUGH), f"inrc2pb-solve: {line}", 2
        )


class Protected(ChangingFiles):
    """A file that may not be written stays as it is, though its folder would let it be replaced."""

    def as_user(self, command, *words):
        """Runs a command as an ordinary user: its status and standard error."""
        if os.geteuid() == 0:
            for path in (self.folder, *self.folder.iterdir()):
                os.chown(path, NOBODY, NOBODY)
        self.folder.chmod(0o755)
        ran = begin_command(
            command,
            *words,
            environment={"INRC2PB": str(program.find_program())},
            user=NOBODY if os.geteuid() == 0 else None,
            cwd="/",
        )
        _, said = ran.communicate(timeout=ENOUGH)
        return ran.returncode, said.decode()

    def test_each_command_refuses_a_target_without_permission(self):
        text = self.worse.read_text()
        self.target.write_text(text)
        self.target.chmod(0o444)
        history = self.folder / "history.txt"
        shutil.copy(HISTORY, history)
        history.chmod(0o444)
        says = (
            f"{self.target}: Permission denied: you may not read or write it: look at its"
            " permissions"
        )
        for command, words in (
            (
                "solve",
                (
                    *self.options,
                    "--out",
                    self.target,
                    "--solver",
                    f"sh {self.solver(f'cat {self.answer(ROSTER)}')}",
                ),
            ),
            ("solve", ("--inrc2", *self.options, "--sol", self.target, "--timeout", ENOUGH)),
            ("roster", ("why", *self.options, "--roster", self.worse, "--out", self.target)),
            ("roster", ("show", "--roster", self.worse, "--out", self.target)),
            ("roster", ("next", *self.options[:4], "--roster", self.worse, "--out", self.target)),
        ):
            with self.subTest(command, words=words[:1]):
                status, said = self.as_user(command, *words)
                self.assertEqual((status, self.target.read_text()), (3, text), said)
                self.assertIn(says, said)


class Folders(HelperTest):
    def test_a_folder_that_is_removed_is_made_again(self):
        month = ROOT / "examples" / "month"
        period = PeriodFiles(month / "ward.txt", month / "history-0.txt", [month / "week-0.txt"])
        home = self.folder / "plan"
        folder = PlanFolder(PlannedWeeks(period), home, period.all())
        for again in (lambda: folder.keep([]), lambda: folder.keep([]), folder.restored):
            shutil.rmtree(home, ignore_errors=True)
            said = again()
            self.assertTrue((home / "roster-0.txt").is_file())
        self.assertIn("the folder has the plan of the search again", said)

    def test_days_of_a_plan_that_others_write_count_from_its_first_week(self):
        ward = ROOT / "examples" / "ward"
        period = PeriodFiles(ward / "ward.txt", ward / "history-1.txt", [ward / "week-1.txt"])
        folder = PlanFolder(PlannedWeeks(period), self.folder, period.all())
        self.solution("Chen Mon Day Nurse", "Grace Sun Late Nurse", week=1, name="roster-1.txt")
        self.assertEqual([cell.day for cell in folder.others()], [0, 6])


if __name__ == "__main__":
    unittest.main()
