"""Finds the best roster for a week, or improves one, and says how much better one could be."""

import os
from dataclasses import dataclass, replace
from pathlib import Path
from typing import Callable, Sequence

from ..judging.limits import read_given, with_given
from ..programs.clock import Clock
from ..programs.inputs import Inputs
from ..programs.interrupts import interrupts
from ..programs.locks import locked
from ..programs.program import NO_ROSTER, Report, WeekFiles
from ..programs.progress import Progress
from ..solvers.solvers import find_solver
from ..week.faults import Misuse, ProgramFault
from ..week.files import read_files
from ..week.records import Cell, Week
from ..week.writing import check_inputs_stay, check_no_pipe_is_written, check_no_pipes, check_target
from .best_plan import BestPlan, Rank
from .bounds import PROVER, Bound
from .plan_search import PlanSearch
from .planned_weeks import PeriodFiles, PlannedWeeks
from .roster_file import RosterFile
from .solver_run import SolverRun

SECONDS = 120.0


@dataclass(frozen=True)
class SearchResult:
    """The result of a search."""

    # The report of the best roster, and the rank of this roster.
    report: Report
    rank: Rank
    # The lower bound, if there is one.
    bound: Bound | None
    # A line about a claim of a user's own solver that was not confirmed, if there is one.
    verdict: str = ""
    # Whether the user stopped the search, and the fault that ended it.
    stopped: bool = False
    fault: BaseException | None = None
    # A line for each file that was read and has something else now.
    changes: Sequence[str] = ()

    @property
    def proved(self) -> bool:
        """Whether no roster that keeps what the bound names costs less."""
        return self.bound is not None and self.report.penalty <= self.bound.points

    def lines(self) -> list[str]:
        """The lines that follow the report."""
        return [*self._bound_lines(), *([self.verdict] if self.verdict else []), *self.changes]

    def _bound_lines(self) -> list[str]:
        """The lines about the lower bound."""
        if self.bound is None:
            return ["no lower bound"]
        lines = self.bound.lines(self.report.penalty, "roster")
        if not self.proved:
            return lines
        if not self.bound.only and self.rank.broken:
            return [*lines[:-1], f"{lines[-1]}, but this one breaks an absence"]
        if not self.bound.only and self.rank.above:
            return [*lines[:-1], f"{lines[-1]}, but this one exceeds a limit"]
        return [*lines[:-1], lines[-1] + (", proved" if self.bound.by == PROVER else "")]


def improve(
    files: WeekFiles,
    solution: Path,
    *,
    start: Path | None = None,
    seconds: float = SECONDS,
    solver: str | None = None,
    proof: Path | None = None,
    seed: int = 1,
) -> SearchResult:
    """Searches for these seconds, writes the best roster to `solution`, and returns its report and
    lower bound.

    `start` is the roster to begin with, if it is not the one that `solution` has of this week,
    `solver` a command that solves the whole week in place of the search over rows, and `proof` the
    file for the certificate of the bound. The `seed` begins the random choices. Ctrl-C, TERM or a
    fault end the search: the roster is written, then KeyboardInterrupt or the fault is raised.
    """
    with interrupts() as signals, signals.ending():
        outcome = search(
            files,
            solution,
            start,
            seconds=seconds,
            solver=solver,
            proof=proof,
            progress=Progress(None),
            seed=seed,
        )
        if outcome.fault:
            raise outcome.fault
        signals.check()
    return outcome


def search(
    files: WeekFiles,
    solution: Path,
    start: Path | None,
    seconds: float,
    solver: str | None,
    proof: Path | None,
    progress: Progress,
    seed: int = 1,
    wait: bool = False,
    originals: Sequence[Path] = (),
) -> SearchResult:
    """As `improve`, with its progress printed. A fault is raised only if there is no roster; a
    signal is no fault.

    With `wait` it begins when no other search writes `solution`. The files are read once, at the
    beginning; neither they nor the `originals` of which they are copies are replaced.
    """
    check_no_pipes((*files.all(), start))
    target = Path(solution).absolute()
    own = find_solver(solver) if solver else None
    _check_targets(files, target, proof)
    with interrupts() as signals, locked([target], wait, progress.warn):
        inputs = Inputs()
        try:
            with inputs.naming():
                clock = Clock(seconds)
                weeks = PlannedWeeks(PeriodFiles.of_week(files.copied(inputs.copy)))
                for hint in weeks.hints:
                    progress.warn(inputs.named(hint))
                place = RosterFile(weeks, target, (*files.all(), *originals))
                best = BestPlan(weeks, place, progress.improved, progress.warn)
                running: SolverRun | PlanSearch = (
                    SolverRun(own, weeks, best, clock, progress, proof, seed, solution)
                    if own
                    else PlanSearch(weeks, best, clock, progress, proof, seed)
                )
                with signals.calling(running.interrupt):
                    fault = _fault_of(lambda: running.run(_start(best, inputs.copy(start))))
                progress.finish()
                fault = fault or _fault_of(best.look_again)
                if fault:
                    inputs.name(fault)
                found = _found(best, running, fault)
        except Exception:
            for line in inputs.changes():
                progress.warn(line)
            raise
        for line in weeks.warnings(best.cells):
            progress.warn(line)
        return replace(found, stopped=bool(signals.caught), changes=inputs.changes())


def _start(best: BestPlan, given: Path | None) -> Sequence[Cell] | None:
    """The roster to begin with: the given one, or that of an earlier search."""
    return best.start(given) if given else best.resume()


def _fault_of(work: Callable[[], None]) -> Exception | None:
    """Does the work. Returns the fault that ended it."""
    try:
        work()
    except Exception as fault:
        return fault
    return None


def _check_targets(files: WeekFiles, solution: Path, proof: Path | None) -> None:
    """The files that are written are other files than those that are read."""
    for target, what in ((solution, "the roster"), (proof, "the certificate")):
        if target:
            check_no_pipe_is_written(target)
            check_target(target)
            check_inputs_stay(files.all(), target, what)
    if proof and os.path.realpath(solution) == os.path.realpath(proof) != os.devnull:
        raise Misuse(
            f"{proof} gets the roster, so the certificate cannot be written to it: choose another"
            " file"
        )


def _found(
    best: BestPlan, running: SolverRun | PlanSearch, fault: Exception | None
) -> SearchResult:
    """The result of a search that has ended. Raises its fault, which says why, if there is no
    roster."""
    bound = running.bound
    proved = best.cost is not None and bound is not None and best.cost <= bound.points
    try:
        report = best.report(proved)
    except (ProgramFault, OSError) as unreported:
        raise fault or unreported
    if report is None or best.rank is None:
        raise fault or ProgramFault(NO_ROSTER, "no roster was found")
    return SearchResult(report, best.rank, bound, running.verdict, fault=fault)


def read_week_given(files: WeekFiles) -> Week:
    """Reads the files of a week, with the facts that are given."""
    week = read_files(files.scenario, files.history, files.week)
    if files.given is None:
        return week
    claims = read_given(files.given, week.scenario)
    return replace(week, data=with_given(week.scenario, week.data, claims, week.history.week))
