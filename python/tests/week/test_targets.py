"""Tests of files that cannot or may not be written: a full disk, folders without permission, paths
that are no files, and inputs."""

import contextlib
import io
import os
import shutil
import unittest
from pathlib import Path
from unittest import mock

from ward import (
    ENOUGH,
    HISTORY,
    ROSTER,
    SCENARIO,
    WEEK,
    WEEK_FILES,
    WEEK_OPTIONS,
    HelperTest,
    program,
    run,
)

from inrc2pb.commands import command
from inrc2pb.commands.solve import main

# The advice of a fault of the operating system.
FULL = (
    "No space left on device: the disk is full: free some space, or choose another folder (TMPDIR"
    " has the temporary files)"
)
RIGHTS = (
    "you may not read or write it: look at its permissions and those of its folder, or choose"
    " another folder"
)


@unittest.skipUnless(shutil.which("cbc"), "needs cbc")
class Targets(HelperTest):
    """Rosters that cannot be written, also by root. The fault is one line with advice, the status
    is 3, and an older roster stays."""

    def improve(self, target):
        return run("solve", *WEEK_OPTIONS, "--out", target, "--time", ENOUGH)

    def assert_not_written(self, target, says):
        self.assert_fault(self.improve(target), f"inrc2pb-solve: {target}: {says}", 3)

    @unittest.skipUnless(Path("/dev/full").exists(), "needs /dev/full")
    def test_a_full_disk(self):
        self.assert_not_written("/dev/full", FULL)

    def test_a_missing_folder(self):
        self.assert_not_written(
            self.folder / "none" / "best.txt",
            "No such file or directory: look at its name and folder",
        )

    def test_a_file_in_place_of_a_folder(self):
        self.assert_not_written(
            ROSTER / "best.txt", "Not a directory: a part of its path is no folder"
        )

    @unittest.skipUnless(Path("/sys").is_dir(), "needs /sys")
    def test_a_folder_in_which_nobody_may_write(self):
        status, printed, said = self.improve("/sys/best.txt")
        self.assertEqual((status, printed), (3, ""), said)
        self.assertRegex(
            said,
            f"^inrc2pb-solve: /sys/best.txt: [A-Z][a-z -]+: ({RIGHTS}|choose another folder)\n$",
        )

    @unittest.skipIf(os.geteuid() == 0, "needs a user who is not root")
    def test_a_folder_without_write_permission(self):
        target = self.folder / "best.txt"
        shutil.copy(ROSTER, target)
        self.folder.chmod(0o555)
        self.addCleanup(self.folder.chmod, 0o755)
        self.assert_not_written(target, f"Permission denied: {RIGHTS}")
        self.assertEqual(target.read_text(), ROSTER.read_text())

    def test_a_device_gets_the_roster_and_the_report_is_printed(self):
        status, printed, said = self.improve("/dev/null")
        self.assertEqual(status, 0, said)
        self.assertIn("penalty 20\n", printed)

    @unittest.skipUnless(Path("/dev/full").exists(), "needs /dev/full")
    def test_a_disk_that_is_full_in_mid_search(self):
        """The first roster is written, after a test file; the disk is full when a better one
        comes."""
        roster = self.folder / "roster.txt"
        link = self.folder / "link.txt"
        start = self.swapped("Amara", "Bruno")
        link.symlink_to(roster)
        for target in (roster, link):
            with (
                self.subTest(target.name),
                contextlib.redirect_stderr(io.TextIOWrapper(io.BytesIO())) as said,
            ):
                shutil.copy(start, roster)
                words = [*WEEK_OPTIONS, "--roster", start, "--out", target, "--time", ENOUGH]
                unchanged = mock.patch("inrc2pb.commands.command._catch_signals")
                with (
                    mock.patch("sys.argv", ["inrc2pb-solve"]),
                    mock.patch("os.open", self.full_after(2)),
                    unchanged,
                ):
                    with self.assertRaises(SystemExit) as ended, contextlib.redirect_stdout(
                        io.TextIOWrapper(io.BytesIO())
                    ):
                        command.run(lambda: main([str(word) for word in words]))
                said.seek(0)
                self.assertEqual(
                    (ended.exception.code, said.readlines()[-1]),
                    (3, f"inrc2pb-solve: {target}: {FULL}\n"),
                )
                self.assertEqual(program.penalty_of(WEEK_FILES, roster), 110)
                self.assertTrue(link.is_symlink())
                self.assertEqual(
                    sorted(path.name for path in self.folder.iterdir()),
                    ["link.txt", "roster.txt", "start.txt"],
                )

    def full_after(self, count):
        """As `os.open`, but after so many files next to the roster, what is written to one goes to
        a full disk."""
        real = os.open

        def opened(path, flags, *more, **named):
            nonlocal count
            handle = real(path, flags, *more, **named)
            if flags & os.O_CREAT and Path(os.fsdecode(path)).name.startswith(".roster.txt."):
                count -= 1
                if count < 0:
                    os.close(handle)
                    handle = real("/dev/full", os.O_WRONLY)
            return handle

        return opened


class InputsStay(HelperTest):
    """An output that is an input, by its path or by a link, is refused, and the input stays."""

    def test_each_command_refuses_it(self):
        roster = self.folder / "roster-0.txt"
        model = self.folder / "week.opb"
        program.encode(WEEK_FILES, model)
        shutil.copy(ROSTER, roster)
        week = {
            name: shutil.copy(path, self.folder / name)
            for name, path in (("history-1.txt", HISTORY), ("week.txt", WEEK))
        }
        of_week = ("--sce", SCENARIO, "--his", HISTORY, "--week", week["week.txt"])
        period = (
            "solve",
            "--time",
            ENOUGH,
            "--out",
            self.folder,
            "--solver",
            "false",
            "--sce",
            SCENARIO,
            "--his",
        )
        goes_on = ("roster", "next", "--sce", SCENARIO, "--his")
        competes = (
            "solve",
            "--inrc2",
            *of_week,
        )
        for input_file, target, what, words in (
            (roster, "file", "the next history", (*goes_on, HISTORY, "--roster", roster, "--out")),
            (
                week["history-1.txt"],
                "file",
                "the next history",
                (*goes_on, week["history-1.txt"], "--roster", roster, "--out"),
            ),
            (roster, "file", "the table", ("roster", "show", "--roster", roster, "--out")),
            (
                roster,
                "file",
                "the charges",
                ("roster", "why", *WEEK_OPTIONS, "--roster", roster, "--out"),
            ),
            (model, "file", "the LP file", ("solve", "--model", model, "--out")),
            (week["week.txt"], "file", "the roster", (*competes, "--solver", "false", "--sol")),
            (
                week["week.txt"],
                "file",
                "the number of the next week",
                (*competes, "--sol", "/dev/null", "--cusOut"),
            ),
            (
                roster,
                "folder",
                "the roster of week 1",
                (*period, HISTORY, "--week", WEEK, "--fix", f"1={roster}"),
            ),
            (
                week["history-1.txt"],
                "folder",
                "the history of week 2",
                (*period, week["history-1.txt"], "--week", WEEK),
            ),
        ):
            before = Path(input_file).read_bytes()
            link = self.folder / "link.txt"
            link.symlink_to(input_file)
            for path in [[input_file], [link]] if target == "file" else [[]]:
                with self.subTest(what, path=path):
                    line = (
                        f"{input_file} is read, so {what} cannot be written to it: choose another"
                        f" {target}"
                    )
                    self.assert_fault(run(*words, *path), f"inrc2pb-{words[0]}: {line}")
                    self.assertEqual(Path(input_file).read_bytes(), before)
            link.unlink()


if __name__ == "__main__":
    unittest.main()
