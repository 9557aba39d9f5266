"""Tests of the folder for the temporary files of a helper."""

import os
import signal
import subprocess
import sys
import tempfile
from pathlib import Path
from unittest import mock

from ward import HELPERS, HelperTest

from inrc2pb.programs.own_folder import own_folder

# A helper that is killed while it has temporary files.
KILLED = """
import os, signal, sys, tempfile
sys.path.insert(0, sys.argv[1])
from inrc2pb.programs.own_folder import own_folder
with own_folder():
    print(tempfile.mkdtemp(), flush=True)
    os.kill(os.getpid(), signal.SIGKILL)
"""

# A helper that gets a signal as soon as its folder is made. It is a process of its own, since pytest
# has threads, and a signal that one thread holds back comes to another.
SIGNALED = """
import os, signal, sys, tempfile
sys.path.insert(0, sys.argv[1])
from inrc2pb.programs.interrupts import Interrupted
from inrc2pb.programs.own_folder import own_folder
make = tempfile.mkdtemp
def made(*words, **options):
    folder = make(*words, **options)
    os.kill(os.getpid(), signal.SIGTERM)
    return folder
def ends(number, _frame):
    raise Interrupted(number)
signal.signal(signal.SIGTERM, ends)
tempfile.mkdtemp = made
try:
    with own_folder():
        pass
except Interrupted:
    print("interrupted")
"""


class OwnFolder(HelperTest):
    def setUp(self):
        super().setUp()
        patched = mock.patch.object(tempfile, "tempdir", str(self.folder))
        patched.start()
        self.addCleanup(patched.stop)

    def names(self):
        """The names in the folder of temporary files."""
        return sorted(path.name for path in self.folder.iterdir())

    def test_temporary_files_are_in_it_and_it_is_removed(self):
        with own_folder():
            inner = Path(tempfile.mkdtemp())
            self.assertEqual(inner.parents[1], self.folder)
        self.assertEqual((self.names(), tempfile.gettempdir()), ([], str(self.folder)))

    def test_a_signal_while_it_is_made_leaves_nothing(self):
        environment = {**os.environ, "TMPDIR": str(self.folder)}
        words = [sys.executable, "-c", SIGNALED, str(HELPERS)]
        ran = subprocess.run(words, env=environment, stdout=subprocess.PIPE)
        self.assertEqual((ran.returncode, ran.stdout), (0, b"interrupted\n"))
        self.assertEqual(self.names(), [])

    def test_the_next_one_removes_the_folder_of_a_killed_one(self):
        environment = {**os.environ, "TMPDIR": str(self.folder)}
        ran = subprocess.run(
            [sys.executable, "-c", KILLED, str(HELPERS)], env=environment, stdout=subprocess.PIPE
        )
        left = Path(ran.stdout.decode().strip()).parent
        self.assertEqual((ran.returncode, left.parent), (-signal.SIGKILL, self.folder))
        with own_folder():
            self.assertTrue(
                left.exists(), "it is so young that its owner may not have locked it yet"
            )
        os.utime(left, (0, 0))
        with own_folder():
            self.assertFalse(left.exists())

    def test_folders_that_are_used_or_of_others_stay(self):
        others = [
            "inrc2pb-helper-",
            "inrc2pb-helper-x",
            "inrc2pb-helper-12345678.old",
            "inrc2pb-0.2.0-x86_64-linux",
        ]
        for name in others:
            (self.folder / name).mkdir()
            os.utime(self.folder / name, (0, 0))
        (self.folder / "inrc2pb-helper-abcdefgh").symlink_to(self.folder / others[0])
        with own_folder():
            used = Path(tempfile.gettempdir())
            os.utime(used, (0, 0))
            tempfile.tempdir = str(self.folder)
            with own_folder():
                self.assertTrue(used.exists())
        self.assertEqual(self.names(), sorted([*others, "inrc2pb-helper-abcdefgh"]))

    def test_without_a_folder_for_temporary_files(self):
        tempfile.tempdir = str(self.folder / "missing")
        with own_folder():
            self.assertRaises(FileNotFoundError, tempfile.mkdtemp)
