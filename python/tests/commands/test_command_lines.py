"""Tests of the command lines: hints after a wrong word, options that are given twice, and Ctrl-C at
the start."""

import contextlib
import os
import pty
import re
import shutil
import signal
import subprocess
import sys
import time
import unittest

from ward import (
    ENOUGH,
    HELPERS,
    HISTORY,
    ROSTER,
    SCENARIO,
    WEEK,
    WEEK_OPTIONS,
    HelperTest,
    begin_command,
    program,
    run,
)

NAMES = sorted(path.name[len("inrc2pb-") :] for path in HELPERS.glob("inrc2pb-*"))
FILES = ("--sce", SCENARIO, "--his", HISTORY)


class Words(HelperTest):
    def test_words_that_do_not_fit_have_their_advice(self):
        solve = ("solve", "--out", "best.txt")
        check = ("roster", "check")
        for words, command, line in (
            (
                (*solve, *FILES, "--week", WEEK, "--tine", "5"),
                "solve",
                "unrecognized arguments: --tine 5: --tine: did you mean --time?",
            ),
            (
                ("roster", "fits", "Mon,", "Tue", *FILES, "--week", WEEK),
                "roster fits",
                (
                    "unrecognized arguments: Mon, Tue: write no blank between the days or names, as"
                    " in Mon,Tue"
                ),
            ),
            (
                ("roster", "next", *FILES, ROSTER),
                "roster next",
                "the following arguments are required: --roster",
            ),
            (
                (*check, "--scenario", SCENARIO),
                "roster check",
                f"unrecognized arguments: --scenario {SCENARIO}: --scenario: did you mean --sce?",
            ),
            (
                (*solve, *FILES[:2], "--history", HISTORY, "--week", WEEK),
                "solve",
                "the following arguments are required: --his: --history: did you mean --his?",
            ),
            (
                (*check, "--sce a --his b --week c"),
                "roster check",
                "'--sce a --his b --week c' is one word: write $WEEK without quotes, in bash",
            ),
            (
                ("roster", "show", "--sce a --his b", "--roster", ROSTER),
                "roster show",
                "'--sce a --his b' is one word: write $WEEK without quotes, in bash",
            ),
            (
                solve,
                "solve",
                (
                    "the following arguments are required: --sce, --his, --week: is WEEK set in"
                    " this terminal?"
                ),
            ),
            (
                (*solve, *FILES, "--week", WEEK, "--time", "2,5"),
                "solve",
                "argument --time: '2,5' is no number: give seconds, such as 60 or 2.5",
            ),
            (
                ("solve", "--inrc2", *FILES, "--week", WEEK, "--timeout", "1m"),
                "solve",
                "argument --timeout: '1m' is no number: give seconds, such as 60 or 2.5",
            ),
            (
                (*solve, *FILES, "--week", WEEK, "--time", ""),
                "solve",
                "argument --time: '' is no number: give seconds, such as 60 or 2.5",
            ),
        ):
            with self.subTest(words):
                status, printed, said = run(*words)
                self.assertEqual(
                    (status, printed, said.splitlines()[-1]),
                    (2, "", f"inrc2pb-{command}: error: {line}"),
                )

    def test_a_path_with_a_blank(self):
        status, _, said = run("solve", "--out", "my", "best.txt", *FILES, "--week", WEEK)
        advice = (
            "rename a file or folder whose path has a blank, and write an option before each file"
        )
        self.assertEqual(
            (status, said.splitlines()[-1]),
            (2, f"inrc2pb-solve: error: unrecognized arguments: best.txt: {advice}"),
        )

    def test_the_verb_comes_first(self):
        names = "show, why, swap, check, next, fits, referee, results, names"
        for words, line in (
            (("chek", *FILES), "'chek' is no verb: did you mean check?"),
            (("tables", *FILES), f"'tables' is no verb: write one of {names}"),
            ((*FILES[:1], "show"), f"the verb comes first: write one of {names}, then the options"),
            ((), f"the verb comes first: write one of {names}, then the options"),
        ):
            with self.subTest(words):
                self.assert_fault(run("roster", *words), f"inrc2pb-roster: {line}")

    def test_options_are_written_out(self):
        for words in (("--inrc2", "--time", 3), ("--model", "--ou", "week.lp")):
            status, printed, said = run("solve", *words)
            self.assertEqual((status, printed), (2, ""))
            self.assertIn("error:", said)
        self.assertIn("--ou week.lp: --ou: did you mean --out?", said.splitlines()[-1])

    def test_a_solver_in_capitals(self):
        for name in ("CBC", "Clasp"):
            status, _, said = run("solve", *WEEK_OPTIONS, "--out", "best.txt", "--solver", name)
            self.assertEqual(
                (status, said),
                (1, f"inrc2pb-solve: there is no solver {name}: did you mean {name.lower()}?\n"),
            )


class Twice(HelperTest):
    def test_an_option_is_given_once(self):
        for words, option in (
            (("roster", "check", *WEEK_OPTIONS, f"--sce={SCENARIO}"), "--sce"),
            (("roster", "check", *WEEK_OPTIONS, "--early", "--early"), "--early"),
            (("solve", *WEEK_OPTIONS, "--out", "a", "--time", 1, "--time", 1), "--time"),
            (("solve", *WEEK_OPTIONS, "--out", "a", "--his", HISTORY), "--his"),
            (("solve", "--model", "--out", "a", "--out", "b"), "--out"),
            (("solve", "--inrc2", *WEEK_OPTIONS, "--sol", "a", "--sol", "b"), "--sol"),
            (("solve", "--inrc2", *WEEK_OPTIONS, "--week", WEEK, "--sol", "a"), "--week"),
            (("roster", "next", *FILES, "--roster", ROSTER, "--roster", ROSTER), "--roster"),
            (("roster", "show", "--csv", "--csv", "--roster", ROSTER), "--csv"),
        ):
            with self.subTest(words):
                status, printed, said = run(*words)
                self.assertEqual((status, printed), (2, ""))
                self.assertRegex(
                    said.splitlines()[-1],
                    f"^inrc2pb-.*: error: argument {option}: it is given twice: give it once$",
                )

    def test_files_of_several_weeks_may_follow_one_option_or_several(self):
        self.assertEqual(
            run("roster", "check", *WEEK_OPTIONS, "--roster", ROSTER, "--roster", ROSTER)[0], 0
        )
        self.assertEqual(run("roster", "check", *WEEK_OPTIONS, "--roster", ROSTER, ROSTER)[0], 0)
        fixes = ("--fix", f"1={ROSTER}", "--fix", f"2={ROSTER}")
        rosters = (
            "--roster",
            ROSTER,
            ROSTER,
        )
        shown = [
            run("roster", "show", *FILES, *weeks, *fixes, *rosters)
            for weeks in (("--week", WEEK, "--week", WEEK), ("--week", WEEK, WEEK))
        ]
        self.assertEqual((shown[0][0], shown[0][1]), (0, shown[1][1]))


class Starting(HelperTest):
    def test_the_version_is_that_of_the_program(self):
        version = program.run_program("--version")
        for name in NAMES:
            self.assertEqual(run(name, "--version"), (0, version, ""))
        for words in (
            ("roster", "show"),
            ("solve", "--inrc2"),
            ("solve", "--model"),
            ("solve", "--answer", "a"),
        ):
            self.assertEqual(run(*words, "--version"), (0, version, ""))
        line = "inrc2pb-roster: there is no program /nowhere: correct or unset the variable INRC2PB"
        self.assert_fault(
            run("roster", "check", "--version", environment={"INRC2PB": "/nowhere"}), line, 127
        )

    def interrupted(self, name):
        """The end of a command that gets INT while it reads its library."""
        ran = subprocess.run(
            [sys.executable, str(self.folder / f"inrc2pb-{name}")],
            stdout=subprocess.PIPE,
            stderr=subprocess.PIPE,
        )
        return ran.returncode, ran.stdout, ran.stderr

    def test_ctrl_c_at_the_start_is_quiet(self):
        library = self.folder / "inrc2pb"
        library.mkdir()
        (library / "__init__.py").write_text(
            "import os, signal\nos.kill(os.getpid(), signal.SIGINT)\n"
        )
        for name in NAMES:
            shutil.copy(HELPERS / "launcher.py", self.folder / f"inrc2pb-{name}")
            self.assertEqual(self.interrupted(name), (-signal.SIGINT, b"", b""), name)

    def test_ctrl_c_later_is_caught(self):
        running = self.folder / "running"
        environment = self.slow_to_encode(running)
        with begin_command("roster", "check", *WEEK_OPTIONS, environment=environment) as check:
            while not running.exists() and check.poll() is None:
                time.sleep(0.05)
            check.send_signal(signal.SIGINT)
            self.assertEqual(
                (*check.communicate(timeout=ENOUGH), check.returncode), (b"", b"", 130)
            )

    def test_a_conversion_that_is_ended_leaves_no_file(self):
        for number in (signal.SIGTERM, signal.SIGHUP):
            words = ("--model", "--out", self.folder / "week.lp")
            with begin_command("solve", *words, stdin=subprocess.PIPE) as conversion:
                while not list(self.folder.iterdir()) and conversion.poll() is None:
                    time.sleep(0.05)
                conversion.send_signal(number)
                self.assertEqual(
                    (conversion.wait(timeout=ENOUGH), conversion.stderr.read()), (128 + number, b"")
                )
            self.assertEqual(list(self.folder.iterdir()), [])

    def test_a_fault_counts_also_if_the_caller_ignores_children(self):
        roster = self.changed(ROSTER, "Amara Mon Day Charge", "Amara Tue Late Charge")
        command = [
            sys.executable,
            str(HELPERS / "inrc2pb-roster"),
            "check",
            *map(str, WEEK_OPTIONS),
            "--roster",
            str(roster),
        ]
        ran = subprocess.run(
            command,
            stdout=subprocess.PIPE,
            preexec_fn=lambda: signal.signal(signal.SIGCHLD, signal.SIG_IGN),
        )
        self.assertEqual(ran.returncode, 1, ran)


class Output(HelperTest):
    SHOW = (sys.executable, str(HELPERS / "inrc2pb-roster"), "show", "--roster", str(ROSTER))

    def test_a_closed_standard_output_is_a_fault(self):
        for words in (self.SHOW, (*self.SHOW[:2], "--help"), (*self.SHOW[:3], "--help")):
            with self.subTest(words):
                closing = ["sh", "-c", 'exec "$@" >&-', "sh", *words]
                ran = subprocess.run(closing, stderr=subprocess.PIPE, stdin=subprocess.DEVNULL)
                self.assertEqual(
                    (ran.returncode, ran.stderr),
                    (3, b"inrc2pb-roster: standard output: it is closed\n"),
                )
        target = self.folder / "history.txt"
        words = (
            *self.SHOW[:2],
            "next",
            *map(str, FILES),
            "--roster",
            str(ROSTER),
            "--out",
            str(target),
        )
        ran = subprocess.run(["sh", "-c", 'exec "$@" >&-', "sh", *words], stderr=subprocess.PIPE)
        self.assertEqual((ran.returncode, ran.stderr, target.exists()), (0, b"", True))

    def on_terminal(self, *words):
        """What a command shows on a terminal."""
        terminal, end = pty.openpty()
        with begin_command("roster", *words, stdin=subprocess.DEVNULL, stdout=end, stderr=end):
            os.close(end)
            shown = b""
            # The system reports the end of the output as a fault.
            with contextlib.suppress(OSError):
                while piece := os.read(terminal, 4096):
                    shown += piece
        os.close(terminal)
        return shown

    def test_control_characters_of_names_reach_no_terminal(self):
        name = "\x1b[31mChen\x07\u202e"
        files_of_week = {}
        for path in (SCENARIO, HISTORY, WEEK, ROSTER):
            files_of_week[path] = self.folder / path.name
            files_of_week[path].write_text(path.read_text().replace("Chen", name))
        options = [
            word
            for option, path in zip(("--sce", "--his", "--week"), files_of_week.values())
            for word in (option, path)
        ]
        for words in (
            ("show", "--roster", files_of_week[ROSTER]),
            ("fits", *options),
            ("check", *options, "--tell"),
            ("why", *options, "--roster", files_of_week[ROSTER]),
            ("next", *options[:4], "--roster", files_of_week[ROSTER]),
        ):
            with self.subTest(words[0]):
                # The table has colors of its own.
                shown = re.sub(rb"\x1b\[(38;5;\d+;48;5;\d+|0)m", b"", self.on_terminal(*words))
                self.assertIn(b"\\x1b[31mChen\\x07\\u202e", shown)
                self.assertFalse(set(shown) & {0x1B, 0x07}, shown)
                self.assertNotIn("\u202e".encode(), shown)
        # A file has the name as it is.
        self.assertIn(
            f"{name} ", run("roster", "next", *options[:4], "--roster", files_of_week[ROSTER])[1]
        )


if __name__ == "__main__":
    unittest.main()
