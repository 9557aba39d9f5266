"""The weeks of a period that `inrc2pb-solve` plans together, and the report on what they cost."""

import errno
import os
import sys
from pathlib import Path
from typing import ContextManager, Iterable, Sequence

from ..judging.next_history import next_history
from ..programs.clock import Clock
from ..programs.inputs import Inputs
from ..programs.interrupts import Interrupts, interrupts
from ..programs.locks import locked
from ..programs.program import Report, extend, find_program
from ..programs.progress import Progress
from ..search.best_plan import BestPlan
from ..search.bounds import PLAIN
from ..search.improving import SearchResult, search
from ..search.plan_folder import PlanFolder
from ..search.plan_search import PlanSearch
from ..search.planned_weeks import PeriodFiles, PlannedWeeks, WrittenWeek, history_name, roster_name
from ..week.faults import FileFault, Misuse, ProgramFault, Stopped, fault_line
from ..week.files import read_solution, write_history
from ..week.records import Cell, Scenario, Solution, in_plan, week_name
from ..week.soft_rules import SOFT_RULES
from ..week.words import plural
from ..week.writing import check_inputs_stay, check_no_pipe_is_written, check_no_pipes, check_target
from .arguments import as_typed


class PeriodRun:
    """A period that is planned: its reports by the histories' numbers of weeks, in order, and the
    lines about its lower bound.

    `proof` is the file for the certificate of the bound, if any; the `seed` begins the random
    choices of the search. `starts` has a roster of each week to begin with; without it the search
    begins with those of the folder.
    """

    def __init__(
        self,
        files: PeriodFiles,
        folder: Path,
        proof: Path | None = None,
        seed: int = 1,
        starts: Sequence[Path] = (),
    ) -> None:
        check_no_pipes((*files.all(), *starts))
        self.folder = folder
        self._proof = proof
        self._seed = seed
        self._files = files
        self._inputs = Inputs()
        self.progress = Progress(sys.stderr, self._inputs.named)
        with self._inputs.naming():
            self.weeks = PlannedWeeks(files.copied(self._inputs.copy))
            self.numbers = self.weeks.numbers
            self._starts = [
                _read_start(self._inputs.copy(path), number, self.weeks.scenario)
                for number, path in zip(self.numbers, starts)
            ]
        self._plan_folder = PlanFolder(self.weeks, folder, files.all())
        if starts and len(starts) != len(self.numbers):
            weeks = plural(len(self.numbers), "week")
            raise Misuse(
                f"--roster has {plural(len(starts), 'file')} for {weeks}: give one for each, in"
                " their order"
            )
        self.reports: dict[int, Report] = {}
        self.bound_lines: list[str] = []
        for number in self.numbers:
            # Files of an earlier run may be replaced.
            check_inputs_stay(
                files.all(),
                folder / roster_name(number),
                f"the roster of {week_name(number)}",
                "folder",
            )
            check_inputs_stay(
                files.all(),
                folder / history_name(number + 1),
                f"the history of week {number + 2}",
                "folder",
            )
        find_program()
        if proof:
            check_no_pipe_is_written(proof)
            check_target(proof)
            check_inputs_stay(files.all(), proof, "the certificate")
        _make_folder(folder)

    def locked(self, wait: bool) -> ContextManager[None]:
        """Within the block no other search writes the rosters. Raises ProgramFault if one does, or
        waits until it has ended."""
        return locked(self._plan_folder.rosters, wait, self.progress.warn)

    def name_replaced(self) -> None:
        """Says which files of an earlier run get new contents."""
        later = [number + 1 for number in self.numbers if number + 1 < self.weeks.scenario.weeks]
        written = [
            self.folder / name
            for name in (*map(roster_name, self.numbers), *map(history_name, later))
        ]
        old = [str(path) for path in written if path.exists()]
        if old:
            _say(f"files that are replaced: {', '.join(old)}")

    def plan_together(self, seconds: float) -> None:
        """Plans all weeks together. If the user stops it, the best plan until then is reported."""
        _say(_begin_text(self.numbers, "together", seconds))
        for hint in self.weeks.hints:
            self.progress.warn(hint)
        folder = self._plan_folder
        best = BestPlan(self.weeks, folder, self.progress.improved, self.progress.warn)
        running = PlanSearch(
            self.weeks, best, Clock(seconds), self.progress, self._proof, self._seed
        )
        earlier = self._earlier()
        with interrupts() as signals, self._inputs.naming():
            try:
                with signals.calling(running.interrupt):
                    running.run(earlier)
                for warning in self.weeks.warnings(best.cells):
                    self.progress.warn(warning)
            finally:
                best.look_again()
                for number, week in zip(self.numbers, folder.written()):
                    self._report(number, week.roster, extend(*week)[1])
                self.bound_lines = [self._bound_line(running, best)]
            self._end(signals)

    def _bound_line(self, running: PlanSearch, best: BestPlan) -> str:
        """The line about the bound of all weeks together."""
        if self.weeks.later():
            later = len(self.weeks.later())
            return f"planned ahead of {later} weeks that are not known: no lower bound"
        if running.bound is None or best.cost is None:
            return "no lower bound"
        lines = running.bound.lines(best.cost, "plan", " of the sum")
        is_proved = len(lines) > 1 and running.bound.by != PLAIN
        return ": ".join(lines) + (", proved" if is_proved else "")

    def _earlier(self) -> Sequence[Cell] | None:
        """The plan to begin with, with days from the first week on: the one that was given, or that
        the folder has; None if it has none of these weeks, or others come after them."""
        if not self._starts:
            return None if self.weeks.later() else self._plan_folder.others()
        return in_plan(roster.cells for roster in self._starts) or None

    def plan_one_by_one(self, seconds: float, solver: str | None) -> None:
        """Plans each week before the next one, by the search over one week or a user's own solver,
        in an equal part of the time that is left. After a fault, or if the user stops it, the weeks
        that have a roster have their files and reports."""
        if len(self.numbers) > 1:
            _say(_begin_text(self.numbers, "one after another", seconds))
        clock = Clock(seconds)
        with interrupts() as signals, self._inputs.naming():
            history = self.weeks.history
            path = self.weeks.files.history
            for number in self.numbers:
                week = WrittenWeek(
                    self.weeks.week_files(number, path), self.folder / roster_name(number)
                )
                _say(f"{week_name(number)}, {self._inputs.named(str(week.files.week))}")
                part = clock.left() / (self.numbers[-1] + 1 - number)
                outcome = self._plan_one(number, week, part, solver)
                if number + 1 < self.weeks.scenario.weeks:
                    history = next_history(
                        self.weeks.scenario,
                        history,
                        read_solution(week.roster, self.weeks.scenario).cells,
                    )
                    path = self.folder / history_name(number + 1)
                    write_history(path, history)
                if isinstance(outcome.fault, (FileFault, Misuse, ProgramFault)):
                    raise Misuse(f"{week_name(number)}: {fault_line(outcome.fault)}")
                if outcome.fault:
                    raise outcome.fault
                if number != self.numbers[-1]:
                    signals.check()
            self._end(signals)

    def _plan_one(
        self, number: int, week: WrittenWeek, seconds: float, solver: str | None
    ) -> SearchResult:
        """Plans one week, and reports it."""
        progress = Progress(sys.stderr, self._inputs.named)
        try:
            outcome = search(
                week.files,
                week.roster,
                None,
                seconds=seconds,
                solver=solver,
                proof=self._proof,
                progress=progress,
                seed=self._seed,
                originals=self._files.all(),
            )
        except Stopped as fault:
            raise Stopped(fault.status, f"{week_name(number)}: {fault.message}") from fault
        except (FileFault, Misuse, ProgramFault) as fault:
            raise Misuse(f"{week_name(number)}: {fault_line(fault)}") from fault
        self._report(number, week.roster, outcome.report)
        self.bound_lines += outcome.lines() if len(self.numbers) == 1 else outcome.changes
        return outcome

    def _report(self, number: int, roster: Path, report: Report) -> None:
        self.reports[number] = report
        print(f"{week_name(number)}: penalty {report.penalty}, {roster}", flush=True)

    def changes(self) -> list[str]:
        """A line for each file that was read and has something else now."""
        return self._inputs.changes()

    def _end(self, signals: Interrupts) -> None:
        """After the last week of the period, names the command for the first history of the next
        one."""
        last = self.numbers[-1]
        if last + 1 == self.weeks.scenario.weeks:
            history = (
                self.folder / history_name(last) if last != self.numbers[0] else self._files.history
            )
            files = (
                "--sce",
                self._files.scenario,
                "--his",
                history,
                "--roster",
                self.folder / roster_name(last),
            )
            command = as_typed((*files, "--new-period", "--out", self.folder / "history-new.txt"))
            _say(
                f"to make the first history of the next period, type: inrc2pb-roster next {command}"
            )
        signals.check()

    def table(self) -> list[str]:
        """The penalty and the costs of each week, and their sums."""
        weeks = {
            week_name(number): [report.penalty, *report.by_rule.values()]
            for number, report in self.reports.items()
        }
        sums = [
            sum(costs[column] for costs in weeks.values()) for column in range(1 + len(SOFT_RULES))
        ]
        lines = [_table_line("", ("penalty", *SOFT_RULES))]
        lines += [_table_line(name, map(str, costs)) for name, costs in weeks.items()]
        return [*lines, _table_line("period", map(str, sums))]

    def stop_line(self) -> str:
        """The line that says that the period was stopped, and which weeks have a roster."""
        left = [number for number in self.numbers if number not in self.reports]
        return f"stopped: {_weeks(list(self.reports))} planned" + (
            f", {_weeks(left)} not" if left else ""
        )


def _read_start(path: Path, number: int, scenario: Scenario) -> Solution:
    """Reads a roster to begin with. Raises Misuse if it is of another week or ward."""
    start = read_solution(path, scenario)
    if (start.week, start.scenario) != (number, scenario.name):
        what = f"{path} is of week {start.week} of {start.scenario}"
        raise Misuse(
            f"{what}, not of week {number} of {scenario.name}: give one roster for each week, in"
            " order"
        )
    return start


def _make_folder(path: Path) -> None:
    """Makes the folder, if it is not there. It must be possible to write to it."""
    path.mkdir(parents=True, exist_ok=True)
    if not os.access(path, os.W_OK):
        raise PermissionError(errno.EACCES, os.strerror(errno.EACCES), str(path))


def _say(text: str) -> None:
    print(text, file=sys.stderr, flush=True)


def _table_line(name: str, cells: Iterable[str]) -> str:
    """A line of the table: the name of a week, its penalty and its costs."""
    penalty, *costs = cells
    return (f"{name:<8}{penalty:>8}" + "".join(f"{cost:>6}" for cost in costs)).rstrip()


def _begin_text(numbers: Sequence[int], how: str, seconds: float) -> str:
    """The first line of a search: its weeks, how several of them are planned, and its time."""
    first = numbers[0] + 1
    last = numbers[-1] + 1
    weeks = f"week {first}" if first == last else f"weeks {first} to {last} {how}"
    return f"{weeks}, at most {seconds:g} seconds in all"


def _weeks(numbers: Sequence[int]) -> str:
    """The weeks, of these numbers of histories, and their verb."""
    return (
        f"week {numbers[0] + 1} is"
        if len(numbers) == 1
        else f"weeks {numbers[0] + 1} to {numbers[-1] + 1} are"
    )
