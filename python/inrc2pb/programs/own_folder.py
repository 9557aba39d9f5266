"""A folder for all temporary files of a command. The folders of commands that were killed are
removed by a later one."""

import contextlib
import fcntl
import os
import re
import shutil
import signal
import tempfile
import time
from pathlib import Path
from typing import Iterator

from .interrupts import SIGNALS

PREFIX = "inrc2pb-command-"
_NAME = re.compile(PREFIX + "[a-z0-9_]{8}")
# A folder that is younger may not be locked yet.
MIN_AGE = 60.0


@contextlib.contextmanager
def own_folder() -> Iterator[None]:
    """Within the block temporary files are in a folder of their own, which is locked, and removed
    at the end."""
    home = Path(tempfile.gettempdir())
    _remove_left(home)
    with contextlib.ExitStack() as at_end:
        # A signal that comes now waits until the folder is sure to be removed.
        before = signal.pthread_sigmask(signal.SIG_BLOCK, SIGNALS)
        try:
            # If there is no folder, whoever needs a temporary file gets the fault.
            with contextlib.suppress(OSError):
                _make(home, at_end)
        finally:
            signal.pthread_sigmask(signal.SIG_SETMASK, before)
        yield


def _make(home: Path, at_end: contextlib.ExitStack) -> None:
    """Makes the folder of temporary files, which is removed at the end."""
    folder = tempfile.mkdtemp(prefix=PREFIX, dir=str(home))
    at_end.callback(shutil.rmtree, folder, ignore_errors=True)
    lock = os.open(folder, os.O_RDONLY)
    at_end.callback(os.close, lock)
    with contextlib.suppress(OSError):
        fcntl.flock(lock, fcntl.LOCK_EX)
    at_end.callback(setattr, tempfile, "tempdir", tempfile.tempdir)
    tempfile.tempdir = folder


def _remove_left(home: Path) -> None:
    """Removes the old folders of this user that nobody locks. The lock of a process ends with it,
    however it ends."""
    with contextlib.suppress(OSError):
        for path in [path for path in home.iterdir() if _NAME.fullmatch(path.name)]:
            with contextlib.suppress(OSError):
                _remove_unlocked(path)


def _remove_unlocked(path: Path) -> None:
    """Removes the folder, if it is old and nobody locks it."""
    lock = os.open(str(path), os.O_RDONLY | os.O_DIRECTORY | os.O_NOFOLLOW)
    try:
        status = os.fstat(lock)
        if status.st_uid == os.geteuid() and time.time() - status.st_mtime > MIN_AGE:
            fcntl.flock(lock, fcntl.LOCK_EX | fcntl.LOCK_NB)
            shutil.rmtree(str(path), ignore_errors=True)
    finally:
        os.close(lock)
