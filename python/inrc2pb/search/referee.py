"""A referee of claims about a week: it looks for a roster that refutes them, and for a bound that
`inrc2pb-bound` proves."""

from dataclasses import replace
from pathlib import Path
from typing import Sequence

from ..programs.clock import Clock
from ..programs.program import NO_ROSTER, WeekFiles, run_program
from ..programs.progress import Progress
from ..week.faults import ProgramFault
from .best_plan import BestPlan
from .bounds import EXISTS_NONE, PROOF, PROVER, Bound, find_prover
from .claims import Known
from .plan_search import PlanSearch
from .planned_weeks import PeriodFiles, PlannedWeeks
from .roster_file import RosterFile

# The most seconds of a referee's search, and the name of a roster that it finds.
SECONDS = 60.0
FOUND = "a roster that the referee has found"


class Referee:
    """What is known of all rosters of a week: the best one of those that it was told and that its
    search finds, in the file `target`, which takes the place of no input, and a bound. Facts that
    are given are no part of a model, so they do not count here."""

    def __init__(
        self, files: WeekFiles, target: Path, progress: Progress, inputs: Sequence[Path] = ()
    ) -> None:
        self._weeks = PlannedWeeks(PeriodFiles.of_week(replace(files, given=None)))
        self._progress = progress
        self._search: PlanSearch | None = None
        self._finder = ""
        self._none_exists = False
        place = RosterFile(self._weeks, target, inputs)
        self.best = BestPlan(self._weeks, place, self._found, progress.warn)
        self.bound: Bound | None = None
        # A line for a fix file that seems to be of another week.
        self.hints = self._weeks.hints

    def _found(self, penalty: int, finder: str) -> None:
        self._finder = FOUND if self._search else finder
        self._progress.improved(penalty, finder)

    def tell(self, roster: Path, name: str) -> None:
        """Tells of a roster of the week, and how to name it. Raises ProgramFault if it breaks a
        hard rule."""
        self.best.start(roster, name)

    def search(self, clock: Clock, seed: int = 1, proof: Path | None = None) -> None:
        """Looks for the best roster and for a bound until the clock ends. `proof` is the file for
        the certificate."""
        search = PlanSearch(self._weeks, self.best, clock, self._progress, proof, seed)
        self._search = search
        try:
            search.run(self.best.cells or None)
        except ProgramFault as fault:
            if fault.status != NO_ROSTER:
                raise
            self._none_exists = search.none_by == PROVER
        self.bound = search.bound

    def read(self, proof: Path) -> None:
        """Takes the bound of a certificate."""
        prover = find_prover()
        if prover is None:
            raise ProgramFault(
                NO_ROSTER,
                f"there is no {PROVER} beside inrc2pb: a certificate proves nothing without it",
            )
        words = [*self._weeks.options(), PROOF, str(proof)]
        self.bound = Bound(int(run_program(*words, program=prover).split()[2]), PROVER)
        self._none_exists = run_program(*words, "--minimums", program=prover).startswith(
            EXISTS_NONE
        )

    def interrupt(self) -> None:
        """Ends the search."""
        if self._search:
            self._search.interrupt()

    @property
    def known(self) -> Known:
        """What is known now. Only a bound that was proved counts."""
        proved = self.bound.points if self.bound and self.bound.by == PROVER else None
        return Known(self.best.cost, self._finder, proved, self._none_exists)
