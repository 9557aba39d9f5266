"""A run of a user's own solver for a whole week. A referee judges what it claims."""

import tempfile
from pathlib import Path
from typing import Sequence

from ..programs.clock import Clock
from ..programs.processes import Processes
from ..programs.program import NO_ROSTER
from ..programs.progress import Progress
from ..solvers.solvers import Solver
from ..week.faults import Misuse, NoneExists, ProgramFault, Stopped, page
from ..week.files import read_solution
from ..week.records import Cell
from .best_plan import BestPlan
from .bounds import PROVER, Bound
from .claims import NONE, OPTIMUM, Answered, Kind, Known, judged, read_answer
from .planned_weeks import PlannedWeeks
from .referee import SECONDS, Referee


class SolverRun:
    """A run of the solver within the time of a clock. Time that it leaves goes to the proof of its
    claim: `proof` is the file for a certificate, and the `seed` begins the random choices of that
    search. `target` names the file of the best roster."""

    def __init__(
        self,
        solver: Solver,
        weeks: PlannedWeeks,
        best: BestPlan,
        clock: Clock,
        progress: Progress,
        proof: Path | None,
        seed: int,
        target: Path,
    ) -> None:
        self._solver = solver
        self._weeks = weeks
        self._files = weeks.week_files(weeks.history.week)
        self._best = best
        self._clock = clock
        self._progress = progress
        self._proof = proof
        self._seed = seed
        self._target = target
        self._processes = Processes()
        self._referee: Referee | None = None
        self.bound: Bound | None = None
        # A line about a claim that was not confirmed.
        self.verdict = ""

    def interrupt(self) -> None:
        """Ends the run as the user asks: as soon as the solver has printed what it has, if there is
        no roster yet, else now."""
        self._clock.stop()
        if self._referee:
            self._referee.interrupt()
        elif self._best.rank is None:
            self._processes.ask_to_end()
        else:
            self._processes.stop()

    def run(self, start: Sequence[Cell] | None = None) -> None:
        """Lets the solver solve the week once, and judges what it claims. Raises Misuse if the
        solver has no answer, and ProgramFault, which says why, without a roster."""
        with tempfile.TemporaryDirectory(prefix="inrc2pb-solve-") as folder:
            self._run(Path(folder))
        if self._best.rank is None:
            if self._clock.stopped:
                raise Stopped(NO_ROSTER, "stopped before the first roster")
            raise ProgramFault(NO_ROSTER, self._not_found())

    def _not_found(self) -> str:
        """That the solver has left no roster, and what to do."""
        if self._clock.left() > 0:
            return "no roster was found, and no proof that none exists: try --solver clasp"
        seconds = round(self._clock.limit - self._clock.began, 1)
        return f"no roster was found in {seconds:g} s: give it more time"

    def _run(self, folder: Path) -> None:
        solver = self._solver
        outcome = solver.solve(self._files, self._clock.left(), folder, self._processes)
        if not outcome.answer:
            if self._clock.stopped:
                return
            raise Misuse(
                f"the solver {solver.name} has no answer: {outcome.fault}; try its command by hand"
            )
        roster = folder / "answer.txt"
        answer = read_answer(self._files, outcome.answer, roster)
        if answer.fault:
            raise Misuse(f"the solver {solver.name}: its answer was rejected: {answer.fault}")
        if answer.penalty is not None:
            self._best.offer(read_solution(roster).cells, solver.name)
        self._judge(answer, solver.name, roster)

    def _judge(self, answer: Answered, name: str, roster: Path) -> None:
        """Judges the claim of an answer: by the best roster, or by a search for a better one and
        for a bound."""
        known = Known(self._best.cost, str(self._target))
        if answer.status in (OPTIMUM, NONE) and judged(answer, known).kind is Kind.OPEN:
            known = self._searched(answer, name, roster)
        verdict = judged(answer, known)
        if verdict.kind in (Kind.LIE, Kind.REFUTED):
            self.verdict = f"the solver {name} is wrong: {verdict.why}"
        elif answer.status == NONE:
            by = (
                f" ({PROVER})"
                if verdict.kind is Kind.CONFIRMED
                else f", says {name}, which is not proved"
            )
            advice = f"{page('commands.md')} shows how to find out why"
            raise NoneExists(NO_ROSTER, f"no roster keeps the hard rules{by}: {advice}")
        elif (
            answer.status == OPTIMUM and verdict.kind is Kind.OPEN and answer.objective is not None
        ):
            gap = "" if known.bound is None else f" (gap {answer.objective - known.bound})"
            self.verdict = f"{name} claims {answer.objective}; not proved{gap}"

    def _searched(self, answer: Answered, name: str, roster: Path) -> Known:
        """What the search of a referee finds."""
        referee = self._referee = Referee(self._files, roster.with_name("best.txt"), self._progress)
        if answer.penalty is not None:
            referee.tell(roster, name)
        referee.search(self._clock.part(SECONDS), self._seed, self._proof)
        self.bound = referee.bound
        if referee.best.cells:
            self._best.offer(referee.best.cells, "the referee")
        is_kept = referee.best.cost == self._best.cost
        return referee.known._replace(roster=str(self._target) if is_kept else "another roster")
