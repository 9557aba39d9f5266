"""The progress of a search: each better roster, with the lower bound and the gap."""

import contextlib
import os
import sys
import time
from typing import Callable, TextIO

# The part of a penalty, and the points, above which a gap is wide.
WIDE_SHARE = 0.2
WIDE_POINTS = 50
# The seconds between two lines that only have a higher bound.
BOUND_SECONDS = 5.0


class Progress:
    """Prints each improvement: on one line that changes on a terminal, else on a line of its own.
    `named` changes the text of a warning, so that it names the user's files."""

    def __init__(self, target: TextIO | None, named: Callable[[str], str] = str) -> None:
        self._target = target
        self._named = named
        self._began = self._printed = time.monotonic()
        self._updates = target is not None and target.isatty()
        self._width = 0
        self._penalty: int | None = None
        self._bound: int | None = None
        self._finder = ""
        # For what the penalties of the search that runs have more points than its plans.
        self.counts = ""

    def improved(self, penalty: int, finder: str) -> None:
        """A roster of this penalty was found."""
        self._penalty = penalty
        self._finder = finder
        self._show()

    def bound_rose(self, bound: int) -> None:
        """No roster costs less than this."""
        self._bound = bound
        if self.is_due() or self._updates:
            self._show()

    def is_due(self) -> bool:
        """Whether a higher bound alone is worth a line."""
        return self._target is not None and time.monotonic() - self._printed > (
            BOUND_SECONDS if not self._updates else 1.0
        )

    def _words(self) -> str:
        """The best penalty and the bound."""
        parts = ["no roster yet" if self._penalty is None else f"penalty {self._penalty}"]
        if self._bound is not None:
            parts.append(
                f"bound {self._bound}"
                + (
                    ""
                    if self._penalty is None
                    else f", gap {gap_share(self._penalty, self._bound)}"
                )
            )
        return "  ".join([*parts, *([f"({self._finder})"] if self._finder else [])])

    def _show(self) -> None:
        self._printed = time.monotonic()
        text = f"{self._printed - self._began:7.1f} s  {self._words()}"
        if self._updates:
            self._put("\r" + text.ljust(self._width))
            self._width = len(text)
        else:
            self._put(f"{text}\n")

    def goes_on(self, seconds: float) -> None:
        """The search goes on beyond its usual end."""
        self.finish()
        self._put(
            f"{self._words()}: this gap is wide, so the search goes on, at most"
            f" {seconds:.0f} seconds more\n"
        )

    def warn(self, text: str) -> None:
        """Something that the user should know."""
        self.finish()
        self._put(f"{os.path.basename(sys.argv[0])}: {self._named(text)}\n")

    def finish(self) -> None:
        """Ends the line that changes."""
        if self._width:
            self._put("\n")
            self._width = 0

    def _put(self, text: str) -> None:
        if self._target is not None:
            with contextlib.suppress(OSError, ValueError):
                self._target.write(text)
                self._target.flush()


class WardProgress(Progress):
    """The same for people who plan a ward: in points, and with what cannot be avoided, unless that
    has points that the plan at the end has not."""

    def _words(self) -> str:
        if self._penalty is None:
            return "no plan yet"
        if self.counts:
            return f"{self._penalty} points, those for {self.counts} among them"
        least = "" if self._bound is None else f"; at least {self._bound} cannot be avoided"
        return f"{self._penalty} points{least}"


def is_wide(penalty: int, bound: int) -> bool:
    """Whether a gap is so wide that another plan is probably much better: more than a fifth of the
    penalty, and more than a nurse and two wishes cost."""
    return penalty - bound > max(WIDE_SHARE * penalty, WIDE_POINTS)


def gap_share(penalty: int, bound: int) -> str:
    """The gap between a penalty and a bound, as a part of the penalty."""
    return f"{100 * max(0, penalty - bound) / penalty:.1f} %" if penalty else "0.0 %"
