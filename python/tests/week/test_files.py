"""Tests of the readers and writers of files."""

import os
import resource
import unittest
from unittest import mock

from ward import HISTORY, ROSTER, SCENARIO, WEEK, HelperTest, files, writing


class RoundTrips(HelperTest):
    def test_each_file_is_written_as_it_was_read(self):
        ward = files.read_scenario(SCENARIO)
        self.assertEqual(files.read_scenario("sce", files.scenario_text(ward)), ward)
        history = files.read_history(HISTORY, ward)
        self.assertEqual(files.history_text(history), HISTORY.read_text())
        week = files.read_week(WEEK, ward)
        self.assertEqual(files.read_week("week", ward, files.week_text(week)), week)
        self.assertEqual(files.solution_text(files.read_solution(ROSTER, ward)), ROSTER.read_text())

    def test_bytes_that_are_no_text_are_kept(self):
        raw = ROSTER.read_bytes().replace(b"Amara", b"Am\xffra")
        path = self.folder / "roster.txt"
        copy = self.folder / "copy.txt"
        path.write_bytes(raw)
        files.write_solution(copy, files.read_solution(path))
        self.assertEqual(copy.read_bytes(), raw)

    def test_a_file_is_replaced_as_a_whole(self):
        target = self.folder / "roster.txt"
        target.write_text("old")
        with self.assertRaises(OSError):
            writing.write_text(self.folder / "missing" / "roster.txt", "new")
        writing.write_text(target, "new")
        self.assertEqual(
            (target.read_text(), [path.name for path in self.folder.iterdir()]),
            ("new", ["roster.txt"]),
        )

    def test_a_new_file_has_the_permissions_of_the_umask(self):
        new = self.folder / "new.txt"
        private = self.folder / "private.txt"
        private.write_text("old")
        private.chmod(0o600)
        self.addCleanup(os.umask, os.umask(0o027))
        # All threads share the umask, so a thread must not change it, not even to ask for it.
        with mock.patch("os.umask", side_effect=AssertionError):
            writing.write_text(new, "new")
            writing.write_text(private, "new")
        self.assertEqual([path.stat().st_mode & 0o777 for path in (new, private)], [0o640, 0o600])

    def test_a_file_that_cannot_be_replaced_gets_its_old_bytes_back(self):
        target = self.folder / "roster.txt"
        target.write_text("old text")
        soft, hard = resource.getrlimit(resource.RLIMIT_FSIZE)
        with mock.patch("os.access", return_value=False):
            self.addCleanup(resource.setrlimit, resource.RLIMIT_FSIZE, (soft, hard))
            resource.setrlimit(resource.RLIMIT_FSIZE, (20, hard))
            with self.assertRaises(OSError) as caught:
                writing.write_text(target, "new" * 100)
            self.assertEqual(
                (caught.exception.filename, target.read_text()), (str(target), "old text")
            )
            writing.write_text(target, "new")
        self.assertEqual((target.read_text(), len(list(self.folder.iterdir()))), ("new", 1))

    def test_a_file_with_the_longest_name(self):
        target = self.folder / ("\u00e9" * 127 + "s")
        writing.write_text(target, "new")
        self.assertEqual(target.read_text(), "new")

    def test_a_full_disk_is_a_fault(self):
        with self.assertRaises(OSError) as caught:
            writing.write_text("/dev/full", "new")
        self.assertEqual(caught.exception.filename, "/dev/full")


if __name__ == "__main__":
    unittest.main()
