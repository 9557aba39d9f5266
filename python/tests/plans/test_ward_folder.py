"""Tests of a ward's folder: its spreadsheet, the names of its plans, runs that wait for one
another, and disks that cannot be written."""

import contextlib
import errno
import fcntl
import os
import re
import signal
import tempfile
import time
import unittest
from test_plans import FolderTest
from unittest import mock
from ward import ENOUGH, HAS_CBC, begin_command, run

from inrc2pb.plans import pages, ward_folder
from inrc2pb.plans.ward_folder import WardFolder


class Folders(FolderTest):
    def test_folders_that_are_no_ward(self):
        empty = self.folder / "empty"
        missing = self.folder / "missing"
        empty.mkdir()
        self.assert_refused(
            f"{empty} has no spreadsheet: put the ward's .ods or .xlsx file into it", empty, "plan"
        )
        self.assert_refused(
            f"{missing} is no folder: give the folder that has the ward's spreadsheet",
            missing,
            "plan",
        )
        for name in ("ward.xlsm", "old.xls"):
            (empty / name).touch()
            self.assert_refused(
                f"{name} cannot be read: open it in its program, and save it as .xlsx or .ods",
                empty,
                "plan",
            )
            (empty / name).unlink()
        for name in ("one.ods", "two.xlsx"):
            (self.ward / name).touch()
        self.assert_refused(
            "has several spreadsheets, one.ods, two.xlsx: leave one of them in it",
            self.ward,
            "plan",
        )
        self.assertEqual(list(empty.iterdir()), [])

    def test_a_folder_that_cannot_be_written(self):
        (self.ward / "plans").write_text("")
        self.assert_refused("plans", self.ward, "plan", status=3)

    def test_the_plan_after_number_9999(self):
        self.write_plan()
        self.last().rename(self.ward / "plans" / "9999-2026-11-28-1200-plan")
        for name in ("10000", "10001"):
            self.write_plan()
            self.assertEqual(
                [path.name.split("-")[0] for path in WardFolder(self.ward).all_plans()][-1], name
            )
            self.assertEqual(
                WardFolder(self.ward).last(),
                WardFolder(self.ward).plans / f"{name}-2026-11-28-1200-plan",
            )
        WardFolder(self.ward).undo()
        self.assertEqual(WardFolder(self.ward).stamp, "10000-2026-11-28-1200-plan")


class Waits(FolderTest):
    def test_a_second_run_waits(self):
        (self.ward / "plans").mkdir()
        with open(self.ward / "plans" / "lock", "w") as lock, tempfile.TemporaryFile("w+") as said:
            fcntl.flock(lock, fcntl.LOCK_EX)
            second = self.begun("undo", said)
            self.assertIsNone(second.poll())
            fcntl.flock(lock, fcntl.LOCK_UN)
            self.assertEqual(second.wait(timeout=ENOUGH), 1)
            said.seek(0)
            self.assertEqual(
                said.read().splitlines()[1:],
                ["the other run has ended", f"inrc2pb-plan: {self.ward}: there is nothing to undo"],
            )

    def begun(self, verb, said):
        """A run of this verb, as soon as it waits for another one."""
        begun = begin_command("plan", self.ward, verb, stderr=said)
        self.addCleanup(begun.kill)
        line = (
            f"another run works in {self.ward}: this one waits for its end, and its time begins"
            " then; Ctrl-C ends it\n"
        )
        limit = time.monotonic() + ENOUGH
        while time.monotonic() < limit and os.fstat(said.fileno()).st_size < len(line.encode()):
            time.sleep(0.05)
        said.seek(0)
        self.assertEqual(said.read(), line)
        return begun

    def test_a_run_that_waits_can_be_ended(self):
        (self.ward / "plans").mkdir()
        with open(self.ward / "plans" / "lock", "w") as lock, tempfile.TemporaryFile("w+") as said:
            fcntl.flock(lock, fcntl.LOCK_EX)
            second = self.begun("plan", said)
            second.send_signal(signal.SIGINT)
            self.assertEqual(second.wait(timeout=ENOUGH), 130)
            said.seek(0)
            self.assertEqual(said.read().splitlines()[1], "nothing was written")

    @unittest.skipUnless(HAS_CBC, "cbc is not installed")
    def test_the_time_of_a_search_begins_after_the_wait(self):
        real = time.monotonic
        locked = WardFolder.locked
        waited = [0.0]

        @contextlib.contextmanager
        def locked_after_a_day(folder, *words):
            with locked(folder, *words):
                waited[0] = 86_400.0
                yield

        with mock.patch.object(time, "monotonic", lambda: real() + waited[0]), mock.patch.object(
            WardFolder, "locked", locked_after_a_day
        ):
            status, printed, said = self.runs("plan")
        self.assertEqual(status, 0, printed + said)
        # The first line of the search has the seconds since its begin.
        self.assertLess(float(re.search(r"([0-9.]+) s  [0-9]+ points", said)[1]), 86_400)


class Disks(FolderTest):
    """A folder that cannot be written, and a disk that becomes full."""

    def setUp(self):
        super().setUp()
        self.write_plan()

    def assert_unchanged(self, before):
        self.assertEqual(self.texts(), before)
        self.assertEqual(
            [path.name for path in (self.ward / "plans").iterdir() if path.name[0] == "."], []
        )

    def test_a_full_disk(self):
        before = self.texts()
        with mock.patch.object(
            ward_folder, "write_text", side_effect=OSError(errno.ENOSPC, "No space left on device")
        ):
            status, printed, said = run("plan", self.ward, "over")
        self.assertEqual((status, printed, said.count("\n")), (3, "", 1), said)
        self.assertRegex(
            said, "plans/0002-.*-over: No space left on device: the disk is full: free some space"
        )
        self.assert_unchanged(before)

    def test_a_plan_that_no_verb_could_read_is_not_written(self):
        # Commas after a word count for nothing, and plan.json keeps what was typed.
        before = self.texts()
        self.assert_refused(
            "nothing is written, since no verb could read it again: plan.json: the file has more"
            " than 1000000 bytes: give fewer words, or take days back that are set",
            self.ward,
            "over",
            "Grace",
            "Mon",
            "off" + "," * 1_000_000,
        )
        self.assert_unchanged(before)

    def test_a_disk_that_is_full_after_the_plan(self):
        with mock.patch.object(
            pages, "write_own_text", side_effect=OSError(errno.ENOSPC, "No space left on device")
        ):
            status, printed, _ = run("plan", self.ward, "over")
        self.assertEqual(status, 3)
        self.assertIn("the plan holds, but its pages are not written: ", printed)
        self.assertTrue((self.last() / "plan.json").exists())

    def test_ctrl_c_after_the_plan(self):
        with mock.patch.object(pages, "write_own_text", side_effect=KeyboardInterrupt):
            status, printed, said = run("plan", self.ward, "over")
        self.assertEqual((status, printed), (130, ""))
        self.assertEqual(
            said,
            "the verb over has done its work, but pages may still show the plan before it: check"
            " names them\n",
        )
        self.assertTrue(self.last().name.endswith("-over"))

    def test_a_folder_that_may_not_be_written(self):
        before = self.texts()
        with mock.patch.object(
            ward_folder.tempfile,
            "mkdtemp",
            side_effect=OSError(errno.EACCES, "Permission denied", str(self.ward)),
        ):
            status, printed, said = run("plan", self.ward, "over")
        self.assertEqual((status, printed, said.count("\n")), (3, "", 1), said)
        self.assertIn("Permission denied: you may not read or write it", said)
        self.assert_unchanged(before)


if __name__ == "__main__":
    unittest.main()
