"""Locks of files that a search writes: a second search that would write the same file says so, or
waits."""

import contextlib
import fcntl
import os
import time
from pathlib import Path
from typing import Callable, Iterable, Iterator

from ..week.faults import ProgramFault, Stopped
from ..week.writing import file_at, is_open_file
from .interrupts import interrupts
from .program import NO_ROSTER

# The exit status if another search writes the file, and the seconds between two looks whether it
# has ended.
IN_USE = 2
PAUSE = 0.2
# The most bytes of a file's name in that of its lock: a name may have 255.
NAME_BYTES = 200

# The files that this process has locked: a search may be a part of another.
_locked: set[Path] = set()


@contextlib.contextmanager
def locked(targets: Iterable[Path], wait: bool, say: Callable[[str], None]) -> Iterator[None]:
    """Within the block no other search writes these files. Raises ProgramFault if one does, or
    waits until it has ended; `say` gets a line about that."""
    with contextlib.ExitStack() as locks:
        for target in targets:
            locks.enter_context(_lock(target, wait, say))
        yield


@contextlib.contextmanager
def _lock(target: Path, wait: bool, say: Callable[[str], None]) -> Iterator[None]:
    file = Path(os.path.realpath(file_at(target)))
    if file in _locked or is_open_file(file) or (file.exists() and not file.is_file()):
        yield
        return
    is_beside = os.access(file.parent, os.W_OK)
    # A file in a folder that takes no new one is never replaced, so it can be its own lock.
    lock = (
        file.with_name(os.fsdecode(b"." + os.fsencode(file.name)[:NAME_BYTES] + b".lock"))
        if is_beside
        else file
    )
    handle = _taken(lock, target, wait, say)
    _locked.add(file)
    try:
        yield
    finally:
        _locked.remove(file)
        if is_beside:
            with contextlib.suppress(OSError):
                lock.unlink()
        os.close(handle)


def _taken(lock: Path, target: Path, wait: bool, say: Callable[[str], None]) -> int:
    """The handle of the lock, as soon as no other process has it."""
    has_said = False
    with interrupts() as signals:
        while True:
            handle = _try_to_take(lock)
            if handle is not None:
                return handle
            if not wait:
                raise ProgramFault(
                    IN_USE,
                    (
                        f"another search writes {target}: wait until it has ended (--wait), or"
                        " choose another file"
                    ),
                )
            if signals.caught:
                raise Stopped(NO_ROSTER, f"stopped while another search writes {target}")
            if not has_said:
                say(f"another search writes {target}: this one waits until it has ended")
                has_said = True
            time.sleep(PAUSE)


def _try_to_take(lock: Path) -> int | None:
    """The handle of the lock; None if another process has it. The lock of a process ends with it,
    however it ends."""
    while True:
        handle = os.open(lock, os.O_RDONLY | os.O_CREAT | os.O_NOFOLLOW, 0o666)
        try:
            fcntl.flock(handle, fcntl.LOCK_EX | fcntl.LOCK_NB)
        except BlockingIOError:
            os.close(handle)
            return None
        except OSError:
            # A file system without locks.
            return handle
        # The process that had the lock before may have removed its file in the meantime.
        with contextlib.suppress(FileNotFoundError):
            if os.path.samestat(os.fstat(handle), lock.stat()):
                return handle
        os.close(handle)
