"""The time of a search: it is looked at everywhere, and it ends when the user stops the search; and
the date of today."""

import datetime
import threading
import time
from typing import Callable

# Seconds between two looks at what someone waits for.
PAUSE = 0.2


def today() -> datetime.date:
    """The date of this machine."""
    return datetime.date.today()


class TimeIsOver(Exception):
    """The time of a search, or of a part of it, is over, or the user stopped it."""


class Clock:
    """Some seconds from now on. `part` gives a part of them, which ends at the latest with the
    whole."""

    def __init__(self, seconds: float, whole: "Clock | None" = None) -> None:
        self.began = time.monotonic()
        self.limit = self.began + seconds
        self._stopped = threading.Event()
        self._whole = whole

    def part(self, seconds: float) -> "Clock":
        """A clock for at most these seconds."""
        return Clock(max(0.0, min(seconds, self.left())), self)

    def stop(self) -> None:
        """The time is over now, also that of the parts."""
        self._stopped.set()

    @property
    def stopped(self) -> bool:
        """Whether it was stopped, or the whole was."""
        return self._stopped.is_set() or (self._whole is not None and self._whole.stopped)

    def left(self) -> float:
        """The seconds that are left, 0 if it was stopped."""
        return 0.0 if self.stopped else max(0.0, self.limit - time.monotonic())

    def extend(self, seconds: float) -> None:
        """It ends so many seconds later, and so does the whole."""
        self.limit += seconds
        if self._whole:
            self._whole.extend(seconds)

    def wait_until(self, event: Callable[[], bool]) -> None:
        """Waits until it is so. Raises TimeIsOver if no time is left before."""
        while not event():
            self.check()
            time.sleep(PAUSE)

    def check(self) -> None:
        """Raises TimeIsOver if no time is left."""
        if self.stopped or time.monotonic() >= self.limit:
            raise TimeIsOver


class PatientClock(Clock):
    """A part of a clock that goes on at its end, once, if `goes_on` says so then: for so many
    seconds more."""

    def __init__(
        self, seconds: float, whole: Clock, more: float, goes_on: Callable[[], bool]
    ) -> None:
        super().__init__(seconds, whole)
        self._more = more
        self._goes_on = goes_on
        self._asking = threading.Lock()

    def left(self) -> float:
        """The seconds that are left, 0 if it was stopped."""
        self._ask()
        return super().left()

    def check(self) -> None:
        """Raises TimeIsOver if no time is left."""
        self._ask()
        super().check()

    def _ask(self) -> None:
        with self._asking:
            if self._more and not self.stopped and time.monotonic() >= self.limit:
                more = self._more
                self._more = 0.0
                if self._goes_on():
                    self.extend(more)
