"""The weeks of a period that are planned: their files as values, and their rosters and histories as
files."""

from dataclasses import dataclass, field, replace
from pathlib import Path
from typing import Callable, Dict, Iterator, List, NamedTuple, Optional, Sequence, Tuple

from ..judging import days_away
from ..judging.absences import absences_of, in_words, way_out, working_while_away
from ..judging.breaches import read_held
from ..judging.days_away import DaysAway
from ..judging.limits import (
    exceeded,
    excess,
    limits_in_words,
    limits_way_out,
    read_given,
    with_given,
)
from ..judging.next_history import next_history
from ..programs.program import WeekFiles
from ..rows.plan import Extra, Plan
from ..week.files import (
    check_week_number,
    check_weeks_left,
    history_text,
    read_history,
    read_scenario,
    read_week,
    solution_text,
)
from ..week.records import (
    WEEK_DAYS,
    Cell,
    History,
    NurseDay,
    Scenario,
    Solution,
    Week,
    WeekData,
    in_week,
    week_name,
)
from ..week.writing import write_text


@dataclass(frozen=True)
class PeriodFiles:
    """The files of a period: the weeks' files in their order, and the fix file of some weeks, by
    their index, from 0.

    With `ahead` the weeks after them are not known yet, and count with the numbers of these.
    `given` has the facts that plans keep. A week that `is_alone` is planned for itself, and no part
    of a plan of several weeks.
    """

    scenario: Path
    history: Path
    weeks: Sequence[Path]
    fixes: Dict[int, Path] = field(default_factory=dict)
    early: bool = False
    ahead: bool = False
    given: Optional[Path] = None
    is_alone: bool = False

    @classmethod
    def of_week(cls, files: WeekFiles) -> "PeriodFiles":
        """The files of a week that is planned for itself."""
        return cls(
            files.scenario,
            files.history,
            [files.week],
            {0: files.fix} if files.fix else {},
            files.early,
            given=files.given,
            is_alone=True,
        )

    def all(self) -> Tuple[Path, ...]:
        """All files that are read."""
        return (
            self.scenario,
            self.history,
            *self.weeks,
            *self.fixes.values(),
            *([self.given] if self.given else []),
        )

    def copied(self, copy: Callable[[Path], Path]) -> "PeriodFiles":
        """The same period with copies of its files."""
        scenario = copy(self.scenario)
        history = copy(self.history)
        given = copy(self.given) if self.given else None
        fixes = {index: copy(path) for index, path in self.fixes.items()}
        return replace(
            self,
            scenario=scenario,
            history=history,
            weeks=[copy(path) for path in self.weeks],
            fixes=fixes,
            given=given,
        )


class WrittenWeek(NamedTuple):
    """A week's files and its roster."""

    files: WeekFiles
    roster: Path


class PlannedWeeks:
    """The weeks that are planned, as values. `hints` names the fix files that seem to be of another
    week, and `beside` has the days away that concern the days beside them; `extra` has what plans
    cost beyond the charges of these weeks."""

    def __init__(
        self, files: PeriodFiles, beside: DaysAway = DaysAway(), extra: Extra = Extra()
    ) -> None:
        self.files = files
        self.beside = beside
        self.extra = extra
        self.hints: List[str] = []
        self.scenario: Scenario = read_scenario(files.scenario)
        self.history: History = read_history(files.history, self.scenario)
        check_week_number(files.history, self.history, self.scenario)
        check_weeks_left(len(files.weeks), self.history, self.scenario)
        self.numbers = range(self.history.week, self.history.week + len(files.weeks))
        self.held: List[Cell] = []
        for index, path in files.fixes.items():
            self._hold(index, path)
        claims = read_given(files.given, self.scenario) if files.given else ()
        self.data: List[WeekData] = [
            with_given(self.scenario, read_week(path, self.scenario), claims, number)
            for number, path in zip(self.numbers, files.weeks)
        ]

    def _hold(self, index: int, path: Path) -> None:
        """Keeps the rows of a fix file. The days of the plan count from its first week."""
        known = (
            self.history if index == 0 else History(self.numbers[index], self.history.scenario, {})
        )
        rows = read_held(
            path, self.scenario, known, lambda hint: self.hints.append(f"{path}: {hint}")
        ).cells
        self.held += [row._replace(day=row.day + WEEK_DAYS * index) for row in rows]

    def later(self) -> List[WeekData]:
        """A forecast of the weeks that are not known: the numbers of the known ones in turn,
        without requests and absences."""
        missing = self.scenario.weeks - self.numbers.stop if self.files.ahead else 0
        return [
            replace(self.data[number % len(self.data)], requests=(), absences=frozenset())
            for number in range(missing)
        ]

    def plan(self) -> Plan:
        """All weeks as one plan, those of the forecast included."""
        plan = Plan.of(
            self.scenario, self.history, [*self.data, *self.later()], self.files.early, self.held
        )
        return replace(plan, beside=self.beside, extra=self.extra)

    def week_files(self, number: int, history: Optional[Path] = None) -> WeekFiles:
        """The files of a week. Its history is the given one of the first week, or another."""
        files = self.files
        index = number - self.numbers[0]
        return WeekFiles(
            files.scenario,
            history or files.history,
            files.weeks[index],
            fix=files.fixes.get(index),
            early=files.early,
            given=files.given,
        )

    def options(self) -> List[str]:
        """The files of all weeks as options of `inrc2pb-bound`, which counts them from 1."""
        files = self.files
        weeks = [word for path in files.weeks for word in ("--week", str(path))]
        fixes = [
            word for index, path in files.fixes.items() for word in ("--fix", f"{index + 1}={path}")
        ]
        return [
            "--sce",
            str(files.scenario),
            "--his",
            str(files.history),
            *weeks,
            *fixes,
            *(["--early"] if files.early else []),
        ]

    def each(self, cells: Sequence[Cell]) -> Iterator[Tuple[Week, Tuple[Cell, ...]]]:
        """Each week with its history after the weeks before, and its assignments."""
        history = self.history
        for index, data in enumerate(self.data):
            of_week = in_week(cells, index)
            yield Week(self.scenario, history, data), of_week
            if history.week + 1 < self.scenario.weeks:
                history = next_history(self.scenario, history, of_week)

    def not_kept(self, cells: Sequence[Cell]) -> Tuple[int, int]:
        """How many absences these assignments break, and how much they have above limits, with the
        days beside days away."""
        weeks = (
            list(self.each(cells))
            if any(data.limits or absences_of(data) for data in self.data)
            else []
        )
        broken = sum(
            len(working_while_away(absences_of(week.data), of_week)) for week, of_week in weeks
        )
        above = sum(excess(exceeded(week, week.data.limits, of_week)) for week, of_week in weeks)
        shifts = {NurseDay(cell.nurse, cell.day): cell.shift for cell in cells}
        return broken, above + days_away.excess(self.scenario, self.history, self.beside, shifts)

    def warnings(self, cells: Sequence[Cell]) -> Iterator[str]:
        """The weeks in which these assignments break an absence or exceed a limit, who works then,
        and what to do. One week alone is not named."""
        for index, (week, of_week) in enumerate(self.each(cells)):
            broken = working_while_away(absences_of(week.data), of_week)
            over = exceeded(week, week.data.limits, of_week)
            lines: List[str] = []
            if broken:
                lines.append(f"no roster was found that keeps every absence: {in_words(broken)}")
                lines.append(way_out(self.scenario, in_week(self.held, index), broken))
            if over:
                above = limits_in_words(over, of_week)
                lines.append(f"no roster was found that keeps every limit: {above}")
                lines.append(limits_way_out(week, over, of_week))
            name = "" if self.files.is_alone else f"{week_name(week.history.week)}: "
            yield from (f"{name}{line}" for line in lines)

    def roster(self, cells: Sequence[Cell], index: int) -> Solution:
        """The roster of a week of these assignments, by its index from the first week."""
        return Solution(self.numbers[index], self.scenario.name, in_week(cells, index))

    def has(self, roster: Solution, index: int) -> bool:
        """Whether a roster is of this ward and of the week with this index."""
        return (roster.week, roster.scenario) == (self.numbers[index], self.scenario.name)

    def texts(self, cells: Sequence[Cell]) -> Dict[str, str]:
        """The weeks' rosters, of assignments whose days count from the first week, and the history
        after each week, by file names."""
        history = self.history
        found = {}
        for index, number in enumerate(self.numbers):
            roster = self.roster(cells, index)
            found[roster_name(number)] = solution_text(roster)
            if number + 1 < self.scenario.weeks:
                history = next_history(self.scenario, history, roster.cells)
                found[history_name(number + 1)] = history_text(history)
        return found

    def written(self, folder: Path) -> List[WrittenWeek]:
        """The weeks with their rosters and histories in this folder."""
        first = self.numbers[0]
        histories = [
            self.files.history,
            *(folder / history_name(number) for number in self.numbers if number != first),
        ]
        return [
            WrittenWeek(self.week_files(number, history), folder / roster_name(number))
            for number, history in zip(self.numbers, histories)
        ]

    def write(self, cells: Sequence[Cell], folder: Path) -> List[WrittenWeek]:
        """Writes the files of `texts`."""
        for name, text in self.texts(cells).items():
            write_text(folder / name, text)
        return self.written(folder)


def roster_name(number: int) -> str:
    """The name of the file of a week's roster."""
    return f"roster-{number}.txt"


def history_name(number: int) -> str:
    """The name of the file of a week's history."""
    return f"history-{number}.txt"
