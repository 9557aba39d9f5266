"""Tests of verbs that are killed (`kill -9`) while they write: nothing is lost or half written, and
the next verb, the page of a browser, and a copy of the folder go on."""

import contextlib
import os
import shutil
import signal
import unittest
from unittest import mock

from served_page import ServedPage
from test_page_stamps import SAYS, fields_of
from ward import begin_command, run

from inrc2pb.plans.plan_files import read_state
from inrc2pb.plans.ward_folder import WardFolder

# What a verb does to the disk.
CALLS = ("open", "rename", "replace", "unlink", "mkdir", "rmdir", "chmod", "fsync")
MOMENTS = 30


class Counted:
    """The calls of a copy of this process. It is killed before the one with this number."""

    def __init__(self, moment):
        self.left = moment
        self.parent = os.getpid()

    def before(self, call):
        """The same call, or the end."""

        def counted(*words, **options):
            if os.getpid() != self.parent:
                self.left -= 1
                if not self.left:
                    os.kill(os.getpid(), signal.SIGKILL)
            return call(*words, **options)

        return counted


class Kills(ServedPage):
    def setUp(self):
        super().setUp()
        self.write_plan()
        self.assertEqual(run("plan", self.ward, "page")[0], 0)

    def killed(self, moment, *words):
        """Runs a verb that is killed at this moment. Returns its status."""
        counted = Counted(moment)
        with contextlib.ExitStack() as stack:
            for name in CALLS:
                call = counted.before(getattr(os, name))
                stack.enter_context(mock.patch.object(os, name, call))
            verb = begin_command("plan", self.ward, *words)
            verb.communicate()
        return verb.returncode

    def kept(self):
        """The files of all plans."""
        return {path: path.read_bytes() for path in (self.ward / "plans").glob("0*/*")}

    def test_thirty_moments(self):
        verbs = (("over",), ("swap", "Grace", "Mon", "Ewa", "--do"), ("undo",))
        hits = 0
        for number in range(MOMENTS):
            words = verbs[number % len(verbs)]
            # Every second time a browser has shown the plan before.
            page = self.asks(path=self.site.path)[1] if number % 2 else ""
            before, plans = self.kept(), len(WardFolder(self.ward).all_plans())
            hits += self.killed(1 + 2 * number, *words) == -signal.SIGKILL
            now = self.kept()
            moved = {
                path: (self.ward / "plans" / "undone" / path.parent.name / path.name)
                for path in before
                if path not in now
            }
            self.assertEqual(
                {path: now.get(path) or moved[path].read_bytes() for path in before}, before
            )
            self.assertLessEqual(abs(len(WardFolder(self.ward).all_plans()) - plans), 1)
            read_state(WardFolder(self.ward).last())
            self.assertEqual(run("plan", self.ward, "check")[0], 0)
            if page:
                form = fields_of(page, "Publish")
                is_other = form["stamp"] != self.stamp
                shown = self.asks(
                    "POST",
                    self.site.path,
                    "&".join(f"{name}={value}" for name, value in form.items()),
                )[1]
                self.assertEqual(SAYS in self.asks()[1], is_other, shown)
            # A copy goes on, and so does the folder.
            if number % 10 == 9:
                copy = self.folder / f"copy-{number}"
                shutil.copytree(self.ward, copy)
                self.assertEqual(run("plan", copy, "page")[0], 0)
            self.assertEqual(run("plan", self.ward, "page")[0], 0)
            wall = (self.ward / "wall.html").read_text()
            self.assertIn(f'content="{self.stamp}"', wall)
            if read_state(WardFolder(self.ward).last()).open_week:
                while read_state(WardFolder(self.ward).last()).open_week:
                    self.assertEqual(run("plan", self.ward, "undo")[0], 0)
        self.assertGreater(hits, MOMENTS // 2)


if __name__ == "__main__":
    unittest.main()
