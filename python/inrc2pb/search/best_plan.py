"""The best plan of a search: only plans get in whose rosters `inrc2pb extend` accepts."""

import tempfile
from pathlib import Path
from typing import Callable, NamedTuple, Protocol, Sequence

from ..judging.breaches import explained, other_week, read_roster
from ..programs.program import BROKEN_RULE, Report, answer_with, decode, objective_of
from ..rows.plan import FREE, ONLY_ABSENCES, STRICT, Keeping
from ..week.faults import ProgramFault
from ..week.records import Cell, Week
from .long_plans import cost
from .planned_weeks import PlannedWeeks

# Gets what a better plan costs, and the name of what found it.
Announce = Callable[[int, str], None]


class Place(Protocol):
    """A file or folder for the best plan, into which others may put a plan, too."""

    def others(self) -> Sequence[Cell] | None:
        """The plan of someone else, if there is one since this was asked before."""

    def keep(self, cells: Sequence[Cell]) -> None:
        """Puts this plan there."""

    def better(self, penalty: int) -> str:
        """A line that says that a plan of someone else, which costs this, is kept."""

    def restored(self) -> str:
        """Puts the plan there again that was put there last, if something else is there now, and
        returns a line that says so."""


class Rank(NamedTuple):
    """How good a plan is: the smaller, the better."""

    # Its broken absences.
    broken: int
    # What it has above the limits that are kept.
    above: int
    # Its penalty, with what it costs beyond, and with those of weeks that are not known.
    cost: int

    @property
    def keeping(self) -> Keeping:
        """What plans keep that keep as much as this one."""
        return FREE if self.broken else ONLY_ABSENCES if self.above else STRICT


class Accepted(NamedTuple):
    """A plan that keeps the hard rules, its rank, and the answers of the known weeks."""

    cells: Sequence[Cell]
    rank: Rank
    answers: Sequence[str]

    @property
    def penalty(self) -> int:
        """The penalty of the known weeks."""
        return sum(map(objective_of, self.answers))


class BestPlan:
    """The best plan of these weeks that was offered, in its place, if it has one. `announce` gets
    each better one.

    Others may use the place, too: a better plan of theirs is kept, and anything else is replaced.
    `warn` gets a line about it.
    """

    def __init__(
        self,
        weeks: PlannedWeeks,
        place: Place | None = None,
        announce: Announce = lambda cost, finder: None,
        warn: Callable[[str], None] = lambda line: None,
    ) -> None:
        self._weeks = weeks
        self._plan = weeks.plan()
        self._place = place
        self._announce = announce
        self._warn = warn
        self._best: Accepted | None = None

    @property
    def cells(self) -> Sequence[Cell]:
        """The assignments of the best plan; none without one."""
        return self._best.cells if self._best else ()

    @property
    def rank(self) -> Rank | None:
        """The rank of the best plan, if there is one."""
        return self._best.rank if self._best else None

    @property
    def cost(self) -> int | None:
        """What the best plan costs, with what it costs beyond its charges, and with weeks that are
        not known, if there is one."""
        return self._best.rank.cost if self._best else None

    @property
    def penalty(self) -> int | None:
        """The penalty of its known weeks, if there is one."""
        return self._best.penalty if self._best else None

    @property
    def keeps_all(self) -> bool:
        """Whether there is a plan, and it keeps all absences and limits."""
        return self.rank is not None and self.rank.keeping == STRICT

    def offer(self, cells: Sequence[Cell], finder: str) -> int | None:
        """Keeps the plan if it is better than the best one. Returns what it costs; None if it
        breaks a hard rule."""
        found = self._accepted(cells)
        if found is None:
            return None
        if (self._best is None or found.rank < self._best.rank) and not self._takes_others(
            found.rank
        ):
            self._take(found, finder)
        return found.rank.cost

    def _accepted(self, cells: Sequence[Cell]) -> Accepted | None:
        """The plan with its rank; None if it breaks a hard rule."""
        with tempfile.TemporaryDirectory() as folder:
            weeks = self._weeks.write(cells, Path(folder))
            try:
                answers = [answer_with(week.files, week.roster) for week in weeks]
            except ProgramFault as fault:
                if fault.status != BROKEN_RULE:
                    raise
                return None
        costs_more = self._weeks.later() or any(self._plan.extra)
        points = cost(self._plan, cells) if costs_more else sum(map(objective_of, answers))
        return Accepted(cells, Rank(*self._weeks.not_kept(cells), points), answers)

    def _take(self, found: Accepted, finder: str) -> None:
        if self._place:
            self._place.keep(found.cells)
        self._best = found
        # A bound has these costs, too, but not the weeks that are not known.
        self._announce(found.rank.cost if any(self._plan.extra) else found.penalty, finder)

    def _others(self) -> Accepted | None:
        """The plan that someone else has put into the place, if it keeps the hard rules."""
        cells = self._place.others() if self._place and not self._weeks.later() else None
        return self._accepted(cells) if cells else None

    def _takes_others(self, mine: Rank) -> bool:
        """Whether someone else has put a plan into the place that is better than this. It is then
        the best one."""
        others = self._others()
        if others is None or others.rank >= mine or self._place is None:
            return False
        self._warn(self._place.better(others.penalty))
        self._take(others, "someone else")
        return True

    def start(self, path: Path, finder: str = "the given roster") -> Sequence[Cell]:
        """Begins with the roster of a file, of the first of the weeks. Raises ProgramFault, which
        says why, if it breaks a hard rule."""
        weeks = self._weeks
        cells = read_roster(path, weeks.scenario, weeks.history).cells
        try:
            answer_with(weeks.week_files(weeks.history.week), path)
        except ProgramFault as fault:
            found = (
                other_week(path, weeks.scenario, weeks.history)
                if "roster breaks" in fault.message
                else ""
            )
            week = Week(weeks.scenario, weeks.history, weeks.data[0])
            said = (
                ProgramFault(fault.status, f"{path} breaks a hard rule; {found}")
                if found
                else explained(fault, path, week, weeks.held)
            )
            raise said from fault
        self.offer(cells, finder)
        return cells

    def resume(self) -> Sequence[Cell] | None:
        """Begins with the plan that the place has, if it keeps the hard rules."""
        found = self._others()
        if found is None:
            return None
        self._take(found, "the earlier roster")
        return found.cells

    def take_others(self) -> None:
        """Keeps a better plan that someone else has put into the place."""
        if self._best:
            self._takes_others(self._best.rank)

    def look_again(self) -> None:
        """Before the report: if someone else has changed the place, a better plan of theirs is
        kept, and anything else is replaced."""
        self.take_others()
        line = self._place.restored() if self._best and self._place else ""
        if line:
            self._warn(line)

    def report(self, proved: bool = False) -> Report | None:
        """The report of the first week's roster, if there is one; its status is OPTIMUM FOUND if it
        is proved that no plan costs less."""
        if self._best is None:
            return None
        answer = self._best.answers[0]
        return decode(
            self._weeks.week_files(self._weeks.history.week),
            answer.replace("s SATISFIABLE", "s OPTIMUM FOUND", 1) if proved else answer,
        )
