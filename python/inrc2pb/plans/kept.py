"""A value that is made from files, and made anew only if one of them has changed since."""

import threading
import time
from pathlib import Path
from typing import Callable, Generic, Hashable, Iterable, TypeVar

_Value = TypeVar("_Value")
# What tells whether files were changed: their names, times, sizes and numbers on the disk.
Looks = tuple[tuple[str, int, int, int], ...]
# A file that was changed within so many nanoseconds may be changed again without another time:
# shares count in steps of two seconds.
STEP = 3_000_000_000


class Kept(Generic[_Value]):
    """The last value of these files. Threads that ask at once wait for one of them to make it."""

    def __init__(self) -> None:
        self._lock = threading.Lock()
        self._key: Hashable | None = None
        self._value: _Value | None = None

    def of(self, files: Iterable[Path], others: Hashable, make: Callable[[], _Value]) -> _Value:
        """The value of these files and other things, which is made if it is not the kept one. What
        `make` raises is not kept."""
        with self._lock:
            known = looks_of(files)
            now = time.time_ns()
            key = (known, others)
            if self._value is not None and self._key == key:
                return self._value
            self._value = None
            made = make()
            if is_settled(known, now):
                self._key = key
                self._value = made
            return made


def looks_of(files: Iterable[Path]) -> Looks:
    """The looks of these files."""
    looks = []
    for path in files:
        look = path.stat()
        looks.append(
            (str(path), max(look.st_mtime_ns, look.st_ctime_ns), look.st_size, look.st_ino)
        )
    return tuple(looks)


def is_settled(looks: Looks, now: int) -> bool:
    """Whether files that had these looks at a time, in nanoseconds, have others if they are changed
    after it."""
    return all(changed < now - STEP for _, changed, _, _ in looks)
