"""A search for the best roster of a week, or the best rosters of several weeks together: each
nurse's days of all weeks are one row."""

import math
import tempfile
import time
from pathlib import Path
from typing import Sequence

from ..judging.runs import NEVER
from ..programs.clock import Clock, PatientClock
from ..programs.processes import Processes
from ..programs.program import NO_ROSTER
from ..programs.progress import Progress, is_wide
from ..rows.plan import ABSENCES_KEPT, FEW_BROKEN, STRICT, Plan, Points
from ..rows.pricing import Crews, NurseWeek
from ..rows.row_run import RowRun
from ..rows.row_search import GIVEN
from ..rows.skills import rows_of, staffed
from ..solvers.linear_solvers import INSTALL, LinearSolver, is_installed
from ..week.faults import NoneExists, ProgramFault, Stopped, page
from ..week.records import WEEK_DAYS, Cell
from .best_plan import BestPlan
from .bounds import PROOF_SECONDS, STOPPED_SECONDS, Bound, Bounds
from .first_plan import week_after_week
from .long_plans import MOST_WEEKS, better_plans
from .planned_weeks import PlannedWeeks

# The most of the time that goes to a first plan, week after week.
FIRST_SHARE = 0.5
# The part of a period's time that is kept for the proof, at most so many seconds, but for each
# nurse and week at least so many, if they are at most that part of the time; and the seconds of the
# proof beyond the end of the time.
PROOF_SHARE = 0.05
MOST_KEPT = 20.0
LEAST_KEPT = 0.01
MOST_SHARE = 0.2
BEYOND = 10.0


class PlanSearch:
    """A search within the time of its clock, which offers each plan to `best`; `proof` is the file
    for the certificate of the bound. The `seed` begins the random choices of the search. Without
    `is_bounded` no bound is proved at its end. While there is no plan, or its gap is wide, the
    search takes up to `patience` times its time.

    `bound` is what no plan costs less than that keeps as much as the best one.
    """

    def __init__(
        self,
        weeks: PlannedWeeks,
        best: BestPlan,
        clock: Clock,
        progress: Progress,
        proof: Path | None = None,
        seed: int = 1,
        is_bounded: bool = True,
        patience: float = 1.0,
    ) -> None:
        self._weeks = weeks
        self._is_week = weeks.files.is_alone
        self._best = best
        self._whole = clock
        self._progress = progress
        self._is_bounded = is_bounded
        kept = _kept(clock.left(), weeks) if is_bounded else 0.0
        self._more = (patience - 1) * clock.left()
        self._clock = PatientClock(clock.left() - kept, clock, self._more, self._goes_on)
        self._processes = Processes()
        self._bounds = Bounds(weeks.options(), weeks.scenario.name, proof, progress.warn)
        self._seed = seed
        self._start: Sequence[Cell] | None = None
        self._runs: list[RowRun] = []
        self.bound: Bound | None = None
        # What no plan costs less than that keeps the days beside days away, too. No program has
        # proved it.
        self.bound_beside: int | None = None
        # What has proved that no roster exists, and a line about the claim of a user's own solver:
        # none judges one here.
        self.none_by = ""
        self.verdict = ""
        self._proves = False
        # The seconds that a first plan would have needed, in words.
        self._needed = ""

    @property
    def _beside_days_away(self) -> bool:
        """Whether plans also keep days beside days away, of which `inrc2pb` knows nothing."""
        return self._weeks.beside.asks

    @property
    def _what(self) -> str:
        return "roster" if self._is_week else "plan"

    def _goes_on(self) -> bool:
        """Whether the search goes on at its usual end, which is said then."""
        bound = self._runs[-1].lower_bound if self._runs else None
        if self._best.cost is not None and not is_wide(self._best.cost, bound or 0):
            return False
        self._progress.goes_on(self._more)
        return True

    def interrupt(self) -> None:
        """Ends the search now: the best plan was kept. If a proof of its bound runs already, it is
        ended, too."""
        self._whole.stop()
        self._processes.stop()
        if self._proves:
            self._bounds.stop()

    def run(self, start: Sequence[Cell] | None = None) -> None:
        """Searches until the time is over or the best plan is found, beginning with this one, if it
        is given. It may break rules: then its weeks of nurses are of use. Raises ProgramFault,
        which says why, without a plan, and NoneExists if it is proved that there is none.

        Plans keep all absences and limits, unless none can.
        """
        self._start = start
        with tempfile.TemporaryDirectory(
            prefix="inrc2pb-solve-", ignore_cleanup_errors=True
        ) as folder:
            try:
                self._run(Path(folder))
            finally:
                self._progress.finish()
                self._best.take_others()
                self._take_bound()
        if self._best.rank is None:
            raise self._without_plan()

    def _run(self, folder: Path) -> None:
        plan = self._weeks.plan()
        has_solver = is_installed()
        if not has_solver:
            self._progress.warn(f"there is no cbc, so this is only a first {self._what}: {INSTALL}")
        solver = LinearSolver(self._processes, folder, self._progress.warn) if has_solver else None
        try:
            if len(plan.weeks) > MOST_WEEKS:
                self._over_windows(plan, solver)
            else:
                self._over_all_rows(plan, solver)
        finally:
            if solver:
                solver.close()

    def _over_all_rows(self, plan: Plan, solver: LinearSolver | None) -> None:
        """Searches over the rows of the plan, which keep less only if none can keep all."""
        self._over_rows(plan, solver)
        for less_strict in plan.less_strict():
            broken, above, _ = self._best.rank or (1, 1, 0)
            if broken or (above and less_strict.keeping.absence == NEVER):
                self._over_rows(less_strict, solver)

    def _over_windows(self, plan: Plan, solver: LinearSolver | None) -> None:
        """Makes a first plan of many weeks better, window by window, without a bound."""
        kept = plan.kept(ABSENCES_KEPT)
        cells = self._start
        if cells is None:
            rows = self._week_after_week(kept, solver)
            if rows is None and plan.away:
                kept = plan.kept(FEW_BROKEN)
                rows = self._week_after_week(kept, solver)
            if rows is None:
                return
            cells = staffed(kept, Crews(kept), rows).cells
        self._best.offer(cells, self._given)
        if solver:
            for better in better_plans(kept, cells, solver, self._clock, self._seed):
                self._best.offer(better, "some weeks anew")

    @property
    def _given(self) -> str:
        """The name of the plan with which the search begins."""
        if self._is_week:
            return GIVEN
        return "week after week" if self._start is None else "the earlier plan"

    def _over_rows(self, plan: Plan, solver: LinearSolver | None) -> None:
        """One search over the rows of the plan, which becomes the last of the runs."""

        def offer(rows: list[NurseWeek], finder: str) -> Points | None:
            cells = staffed(plan, run.crews, rows).cells
            points = self._best.offer(cells, self._given if finder == GIVEN else finder)
            return None if points is None else Points(points)

        def heard() -> None:
            # What is said last speaks of all plans, not only of those that keep the days beside
            # days away, and of their charges alone.
            speaks_of_all = not (
                self._weeks.later() or self._beside_days_away or any(self._weeks.extra)
            )
            keeps_all = plan.keeping == STRICT and self._best.keeps_all
            if run.lower_bound is not None and speaks_of_all and (keeps_all or not plan.asks):
                self._progress.bound_rose(run.lower_bound)

        run = RowRun(
            plan,
            solver,
            self._clock,
            offer=offer,
            heard=heard,
            start=self._first(plan, solver),
            seed=self._seed,
            splits=not self._weeks.later(),
        )
        self._runs.append(run)
        run.run()

    def _first(self, plan: Plan, solver: LinearSolver | None) -> list[NurseWeek] | None:
        """The rows to begin with: those of the given plan, as far as they keep the absences, or of
        one week after another, if there are several."""
        if self._start is not None:
            kept = (c for c in self._start if not plan.is_away(c.nurse, c.day, c.shift))
            return rows_of(plan, kept)
        return None if self._is_week else self._week_after_week(plan, solver)

    def _week_after_week(self, plan: Plan, solver: LinearSolver | None) -> list[NurseWeek] | None:
        """The rows of a first plan; None if a week has no roster in this time."""
        clock = self._clock.part(self._clock.left() * FIRST_SHARE)
        rows = week_after_week(plan, solver, clock)
        weeks = len(rows[0]) // WEEK_DAYS
        if weeks == len(plan.weeks):
            return rows
        if weeks and clock.left() <= 0:
            seconds = (time.monotonic() - clock.began) * len(plan.weeks) / weeks / FIRST_SHARE
            self._needed = f"a first plan of all weeks needs some {math.ceil(seconds)} s"
        return None

    def _take_bound(self) -> None:
        """Takes the bound of the plans that keep as much as the best one."""
        rank = self._best.rank
        if rank is None or not self._runs or self._weeks.later() or not self._is_bounded:
            return
        if rank.keeping == STRICT and self._beside_days_away and not any(self._weeks.extra):
            self.bound_beside = self._runs[0].lower_bound
        self._proves = True
        run = self._runs[0 if rank.keeping == STRICT else -1]
        self.bound = self._bounds.of(run, rank.keeping, self._proof_seconds())
        if self.bound and not self.bound.is_believed(rank.cost):
            self._progress.warn(
                f"the lower bound {self.bound.points} ({self.bound.by}) is above the penalty of a"
                f" {self._what}: it is wrong"
            )
            self.bound = None

    def _proof_seconds(self) -> float:
        """The seconds of a proof. That of a week takes few, so it always has time."""
        if self._whole.stopped:
            return STOPPED_SECONDS
        late = self._whole.left() + BEYOND
        return PROOF_SECONDS if self._is_week else min(PROOF_SECONDS, late)

    def _without_plan(self) -> ProgramFault:
        """Why no plan was found."""
        run = self._runs[-1] if self._runs else None
        if run and (run.without_row or run.minimums):
            proved = self._none_exists(run)
            if proved:
                return proved
        if self._clock.stopped:
            return Stopped(NO_ROSTER, f"stopped before the first {self._what}")
        return ProgramFault(NO_ROSTER, self._not_found())

    def _not_found(self) -> str:
        """That the search ended without a plan, and what to do."""
        if not self._is_week:
            return f"no rosters were found in this time: {self._needed or 'give more'}"
        if self._clock.left() > 0:
            return "no roster was found, and no proof that none exists: try --solver clasp"
        seconds = round(self._whole.limit - self._whole.began, 1)
        return f"no roster was found in {seconds:g} s: give it more time"

    def _none_exists(self, run: RowRun) -> NoneExists | None:
        """That no roster exists, if this run has a proof of it."""
        fixes = [str(path) for path in self._weeks.files.fixes.values()]
        held = f" and has the rows of {', '.join(fixes)}" if fixes else ""
        which = "no roster" if self._is_week else "no plan of these weeks together"
        none = f"{which} keeps the hard rules{held}"
        if run.without_row:
            why = f"those of {run.without_row} contradict one another"
            return NoneExists(NO_ROSTER, f"{none}: {why}")
        if run.minimums:
            self._proves = True
            plan = run.plan.hard_only()
            by = self._bounds.no_roster(plan, run.minimums, self._proof_seconds())
            if by:
                self.none_by = by
                todo = (
                    f"{page('commands.md')} shows how to find out why"
                    if self._is_week
                    else "plan the weeks one by one"
                )
                return NoneExists(NO_ROSTER, f"{none} ({by}): {todo}")
        return None


def _kept(seconds: float, weeks: PlannedWeeks) -> float:
    """The seconds of a search that are kept for the proof: a large plan needs more. A week alone is
    proved after its time."""
    if weeks.files.is_alone:
        return 0.0
    least = LEAST_KEPT * len(weeks.scenario.nurses) * len(weeks.numbers)
    return max(min(MOST_KEPT, PROOF_SHARE * seconds), min(least, MOST_SHARE * seconds))
