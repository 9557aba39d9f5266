"""Tests of the order in which plans reach the disk: after a power cut a plan is there as a whole, or
not at all."""

import datetime
import os
import re
import shutil
import subprocess
import sys
import unittest
from pathlib import Path
from unittest import mock

from test_plans import FolderTest
from ward import HELPERS

from inrc2pb.plans import ward_folder
from inrc2pb.plans.ward_folder import WardFolder


def adds(ward):
    """Writes a copy of the plan that holds."""
    folder = WardFolder(ward)
    texts = {path.name: path.read_text() for path in folder.last().iterdir()}
    return folder.add("plan", texts, datetime.datetime(2026, 11, 28, 12, 0))


def adds_two(ward):
    """The same, with a copy as the plan of the next period."""
    folder = WardFolder(ward)
    texts = {path.name: path.read_text() for path in folder.last().iterdir()}
    return folder.add("ill", texts, datetime.datetime(2026, 11, 28, 12, 0), [texts])


def undoes(ward):
    """Takes the last plan back."""
    return WardFolder(ward).undo()


def recorded(work, ward):
    """The files and folders that this work flushes and moves, in their order."""
    calls = []
    move = os.rename

    def flushed(handle):
        calls.append(("fsync", os.readlink(f"/proc/self/fd/{handle}")))

    def moved(old, new):
        calls.append(("rename", str(old), str(new)))
        move(old, new)

    with mock.patch.object(os, "fsync", flushed), mock.patch.object(os, "rename", moved):
        work(ward)
    return calls


def traced(work, ward):
    """The same by strace."""
    code = f"import {__name__} as these; these.{work.__name__}(these.Path({str(ward)!r}))"
    paths = [str(HELPERS), str(Path(__file__).parent), str(Path(__file__).parents[1])]
    ran = subprocess.run(
        [
            "strace",
            "-f",
            "-y",
            "-s",
            "4096",
            "-e",
            "trace=fsync,rename",
            sys.executable,
            "-c",
            code,
        ],
        stderr=subprocess.PIPE,
        env={**os.environ, "PYTHONPATH": os.pathsep.join(paths), "PYTHONDONTWRITEBYTECODE": "1"},
        check=True,
    )
    # Signs that are not ASCII stand there as numbers.
    text = ran.stderr.decode("unicode_escape").encode("latin-1").decode()
    found = re.findall(r'(fsync|rename)\((?:\d+<(.*)>|"(.*)", "(.*)")\) += 0', text)
    calls = [tuple(part for part in call if part) for call in found]
    # Each file had another name while it was written.
    return [call for call in calls if call[0] == "fsync" or os.path.isdir(call[-1])]


RECORDERS = (recorded, *([traced] if shutil.which("strace") else []))


class PowerCuts(FolderTest):
    def setUp(self):
        super().setUp()
        self.write_plan()
        self.plans = str(self.ward / "plans")

    def added(self, recorder):
        """The calls of a writer of a plan, and those that it should have."""
        calls = recorder(adds, self.ward)
        new = next(call[1] for call in calls if call[0] == "rename")
        files = [("fsync", f"{new}/{path.name}") for path in sorted(self.last().iterdir())]
        moved = ("rename", new, str(self.last()))
        return calls, [*files, ("fsync", new), moved, ("fsync", self.plans)]

    def test_a_plan_is_on_the_disk_before_its_name_and_then_the_name(self):
        for recorder in RECORDERS:
            calls, wanted = self.added(recorder)
            self.assertEqual(calls, wanted, recorder.__name__)

    def test_plans_of_two_periods_get_their_name_together(self):
        calls = recorded(adds_two, self.ward)
        new = next(call[1] for call in calls if call[0] == "rename")
        names = sorted(path.name for path in (self.last() / "next").iterdir())
        inner = [("fsync", f"{new}/next/{name}") for name in names]
        files = [("fsync", f"{new}/{name}") for name in sorted([*names, "next"])]
        moved = ("rename", new, str(self.last()))
        wanted = [*inner, ("fsync", f"{new}/next"), *files, ("fsync", new), moved]
        self.assertEqual(calls, [*wanted, ("fsync", self.plans)])

    def test_an_undone_plan_has_its_new_name_on_the_disk_before_it_loses_the_old_one(self):
        for recorder in RECORDERS:
            last = adds(self.ward)
            undone = f"{self.plans}/undone"
            self.assertEqual(
                recorder(undoes, self.ward),
                [
                    ("rename", str(last), f"{undone}/{last.name}"),
                    ("fsync", undone),
                    ("fsync", self.plans),
                ],
            )

    def test_a_writer_that_leaves_one_out_is_noticed(self):
        _, whole = self.added(recorded)
        flush = ward_folder.flush
        flushed = [call for call in whole if call[0] == "fsync"]
        for number in range(len(flushed)):
            seen = []

            def all_but_one(path):
                seen.append(path)
                if len(seen) != number + 1:
                    flush(path)

            with mock.patch.object(ward_folder, "flush", all_but_one):
                calls, wanted = self.added(recorded)
            self.assertEqual(len(seen), len(flushed))
            self.assertNotEqual(calls, wanted)


if __name__ == "__main__":
    unittest.main()
