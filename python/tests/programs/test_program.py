"""Tests of the program as functions."""

import errno
import os
import shutil
import signal
import subprocess
import unittest
from dataclasses import replace
from pathlib import Path
from unittest import mock

from ward import HELPERS, HISTORY, ROSTER, SCENARIO, WEEK, WEEK_FILES, HelperTest, files, program

from inrc2pb.judging import rules
from inrc2pb.programs import processes
from inrc2pb.week import faults
from inrc2pb.programs.processes import Processes


class Program(HelperTest):
    def test_a_roster_and_its_report(self):
        answer, report = program.extend(WEEK_FILES, ROSTER)
        self.assertTrue(answer.startswith("o 20\ns SATISFIABLE\n"))
        self.assertEqual(
            (report.penalty, report.objective, report.by_rule["S4"], report.optimal),
            (20, 20, 20, False),
        )
        self.assertEqual(program.penalty_of(WEEK_FILES, ROSTER), 20)
        copy = self.folder / "roster.txt"
        program.decode(WEEK_FILES, answer, copy)
        self.assertEqual(copy.read_text(), ROSTER.read_text())

    def test_the_rules_find_the_same_costs(self):
        _, report = program.extend(WEEK_FILES, ROSTER)
        week = files.read_files(SCENARIO, HISTORY, WEEK)
        self.assertEqual(rules.costs(week, files.read_solution(ROSTER).cells), report.by_rule)

    def test_faults_have_the_status_and_the_line(self):
        target = self.folder / "roster.txt"
        target.write_text("old")
        for answer, status, line in (
            ("s UNSATISFIABLE\n", 5, "inrc2pb: solver found no roster: UNSATISFIABLE"),
            ("nonsense\n", 1, "inrc2pb: answer: no status line or a second one"),
            ("s SATISFIABLE\nv x1\n", 6, "inrc2pb: constraint 1 is not satisfied"),
        ):
            with self.assertRaises(faults.ProgramFault) as caught:
                program.decode(WEEK_FILES, answer, target)
            self.assertEqual((caught.exception.status, str(caught.exception)), (status, line))
        self.assertEqual(target.read_text(), "old")

    def test_a_roster_that_breaks_a_rule(self):
        roster = self.changed(ROSTER, "Amara Mon Day Charge", "Chen Mon Day Charge")
        with self.assertRaises(faults.ProgramFault) as caught:
            program.extend(WEEK_FILES, roster)
        self.assertEqual(
            (caught.exception.status, str(caught.exception)), (6, "inrc2pb: roster breaks H4")
        )


class Unreadable(HelperTest):
    def test_the_file_that_cannot_be_read_is_named(self):
        missing = self.folder / "week.txt"
        for path, reason in (
            (missing, "No such file or directory: look at its name and folder"),
            (self.folder, "Is a directory: this is a folder"),
        ):
            for run_it in (
                lambda week: program.encode(week, Path(os.devnull)),
                lambda week: program.decode(week, ""),
            ):
                with self.assertRaises(faults.ProgramFault) as caught:
                    run_it(program.WeekFiles(SCENARIO, HISTORY, path))
                self.assertEqual(caught.exception.status, 3)
                self.assertIn(
                    f"inrc2pb: read failed: {path}: {reason}", faults.fault_line(caught.exception)
                )


class Finding(HelperTest):
    def test_a_program_that_is_missing(self):
        with mock.patch.dict(os.environ, {"INRC2PB": "/nowhere/inrc2pb"}):
            with self.assertRaisesRegex(
                faults.ProgramFault, "there is no program /nowhere/inrc2pb: correct or unset"
            ):
                program.find_program()

    def test_a_program_that_is_not_inrc2pb(self):
        for name in ("true", "false"):
            with mock.patch.dict(os.environ, {"INRC2PB": f"/bin/{name}"}):
                with self.assertRaises(faults.ProgramFault) as caught:
                    program.find_program()
            says = f"INRC2PB names /bin/{name}, which is not inrc2pb: correct or unset the variable"
            self.assertEqual(
                (caught.exception.status, str(caught.exception)), (program.NO_PROGRAM, says)
            )

    def test_a_program_that_does_not_end(self):
        with mock.patch.object(program, "LONGEST_RUN", 0.2):
            fault = self.fault_of("#!/bin/sh\nexec sleep 60\n")
        why = "the machine is slow, or a file has no end"
        self.assertEqual(
            (fault.status, str(fault)), (3, f"inrc2pb --version did not end in 0 s: {why}")
        )

    def test_an_encode_of_a_search_that_does_not_end(self):
        with mock.patch.object(program, "LONGEST_RUN", 0.2), mock.patch.dict(
            os.environ, self.slow_to_encode(self.folder / "running")
        ):
            pipe = self.folder / "week.txt"
            os.mkfifo(pipe)
            for week, why in (
                (WEEK, "the machine is slow"),
                (pipe, "a pipe can be read only once"),
            ):
                with self.assertRaisesRegex(
                    faults.ProgramFault, f"^inrc2pb encode did not end in 0 s: {why}"
                ):
                    program.encode_unless_stopped(
                        replace(WEEK_FILES, week=week), self.folder / "week.opb", Processes()
                    )

    def fault_of(self, text):
        """The fault of a program with this text."""
        broken = self.folder / "inrc2pb"
        broken.write_text(text)
        broken.chmod(0o755)
        with mock.patch.dict(os.environ, {"INRC2PB": str(broken)}):
            with self.assertRaises(faults.ProgramFault) as caught:
                program.find_program() and program.run_program("--version")
        return caught.exception

    def test_a_program_that_does_not_run(self):
        line = faults.fault_line(self.fault_of("no program"))
        self.assertIn(
            (
                "/inrc2pb does not run: Exec format error: it is no program of this machine; a"
                " script needs"
            ),
            line,
        )

    def test_a_program_that_a_signal_ends(self):
        for number, name in ((9, "SIGKILL"), (34, "SIGRTMIN"), (40, "signal 40")):
            self.assertEqual(
                str(self.fault_of(f"#!/bin/sh\nkill -{number} $$\n")), f"inrc2pb: ended by {name}"
            )

    def test_a_signal_while_a_program_starts_leaves_none(self):
        begun = []

        class Begun(subprocess.Popen):
            """A process that runs when Ctrl-C comes, and that nobody else knows yet."""

            def __init__(self, *words, **options):
                super().__init__(*words, **options)
                begun.append(self)
                signal.raise_signal(signal.SIGINT)

        sleeps = self.script("sleeps", "exec sleep 600\n")
        with mock.patch.object(subprocess, "Popen", Begun):
            with self.assertRaises(KeyboardInterrupt):
                program.run_program(program=sleeps)
        self.addCleanup(begun[0].kill)
        self.assertEqual(begun[0].poll(), -signal.SIGKILL)

    def test_a_command_runs_through_a_link(self):
        link = self.folder / "roster"
        link.symlink_to(HELPERS / "inrc2pb-roster")
        ran = subprocess.run(
            [str(link), "show", "--roster", str(ROSTER)],
            cwd="/",
            stdout=subprocess.PIPE,
            stderr=subprocess.PIPE,
        )
        self.assertEqual((ran.stdout[:28], ran.stderr), (b"ward, week 1: 33 assignments", b""))

    def test_a_command_of_another_name(self):
        ran = subprocess.run(
            [str(HELPERS / "launcher.py")], stdout=subprocess.PIPE, stderr=subprocess.PIPE
        )
        self.assertEqual(
            (ran.returncode, ran.stderr[:47]),
            (1, b"launcher.py: no command has this name: give it "),
        )

    def test_without_numpy_one_line_says_how_to_install_it(self):
        (self.folder / "numpy.py").write_text(
            "raise ImportError('No module named numpy', name='numpy')\n"
        )
        environment = {**os.environ, "PYTHONPATH": str(self.folder)}
        ran = subprocess.run(
            [str(HELPERS / "inrc2pb-solve"), "--help"],
            env=environment,
            stdout=subprocess.PIPE,
            stderr=subprocess.PIPE,
        )
        line = (
            b"inrc2pb-solve: this command needs NumPy: install it (Debian: apt-get install"
            b" python3-numpy)\n"
        )
        self.assertEqual((ran.returncode, ran.stdout, ran.stderr), (1, b"", line))

    def test_a_clone_uses_its_own_program(self):
        clone = self.folder / "clone"
        other = self.folder / "other"
        shutil.copytree(
            HELPERS,
            clone / "python",
            symlinks=True,
            ignore=shutil.ignore_patterns("tests", "__pycache__"),
        )
        for folder, version in ((clone / "out", "inrc2pb 2"), (other, "inrc2pb 1")):
            folder.mkdir()
            self.script("inrc2pb", f"echo {version}").rename(folder / "inrc2pb")
        environment = {**os.environ, "PATH": f"{other}:{os.environ['PATH']}", "INRC2PB": ""}
        words = [str(clone / "python" / "inrc2pb-roster"), "--version"]
        self.assertEqual(
            subprocess.run(words, env=environment, stdout=subprocess.PIPE).stdout, b"inrc2pb 2\n"
        )

    def test_a_full_disk_behind_standard_error(self):
        with open("/dev/full", "w") as full:
            for words, status in (
                ([], 2),
                (["--roster", str(self.folder / "missing")], 3),
                (["--fix", "2=a", "--roster", str(ROSTER)], 1),
            ):
                self.assertEqual(
                    subprocess.run(
                        [str(HELPERS / "inrc2pb-roster"), "show", *words], stderr=full
                    ).returncode,
                    status,
                )


class CommandLines(unittest.TestCase):
    def test_each_fault_of_the_system_has_its_advice(self):
        for number in (
            errno.ENOENT, errno.EACCES, errno.ENOSPC, errno.ENOEXEC, errno.EEXIST, errno.ENAMETOOLONG, errno.ELOOP, errno.EFBIG, errno.EMFILE,
            errno.EIO,
        ):  # fmt: skip
            with self.subTest(errno.errorcode[number]):
                line = faults.fault_line(OSError(number, os.strerror(number), "some\nfile"))
                self.assertRegex(line, f"^some file: {os.strerror(number)}: [a-z].{{10,}}$")

    def test_processors_that_the_process_may_use(self):
        with mock.patch("os.sched_getaffinity", return_value={1, 5}, create=True):
            self.assertEqual(processes.processors(), 2)


if __name__ == "__main__":
    unittest.main()
