"""Reads the files of a table: rosters of one or more weeks, and what else is known of these
weeks."""

from dataclasses import dataclass, field, replace
from pathlib import Path
from typing import Iterator, Mapping, Sequence

from ..judging.breaches import other_week
from ..judging.limits import read_given, with_given
from ..judging.next_history import next_history
from ..week.facts import read_reasons
from ..week.faults import Misuse
from ..week.files import check_week_number, read_history, read_scenario, read_solution, read_week
from ..week.records import History, Scenario, Solution, Week, week_name
from ..week.slots import text_of
from ..week.words import plural
from .roster_view import RosterView, WeekView


@dataclass(frozen=True)
class RosterFiles:
    """The files of a table: one roster for each week, and what else is known of these weeks.

    `fixes` has the fix files of some weeks by their index, from 0; `given` has the facts that plans
    keep.
    """

    rosters: Sequence[Path]
    scenario: Path | None = None
    histories: Sequence[Path] = ()
    weeks: Sequence[Path] = ()
    fixes: Mapping[int, Path] = field(default_factory=dict)
    early: bool = False
    given: Path | None = None
    reasons: Path | None = None


def read_view(files: RosterFiles) -> RosterView:
    """Reads the files of a table."""
    _check_numbers(files)
    scenario = read_scenario(files.scenario) if files.scenario else None
    texts = {path: text_of(path) for path in (*files.rosters, *files.fixes.values())}
    solutions = [read_solution(path, scenario, texts[path]) for path in files.rosters]
    datas = [read_week(path, scenario) for path in files.weeks] if scenario else []
    histories = _histories(files, scenario, solutions) if scenario else []
    numbers = [of_week.week for of_week in histories or solutions]
    fixes = [files.fixes.get(index) for index in range(len(solutions))]
    claims = read_given(files.given, scenario) if files.given and scenario else ()
    reasons = read_reasons(files.reasons, scenario) if files.reasons and scenario else {}
    views = []
    for index, (solution, fix) in enumerate(zip(solutions, fixes)):
        held = read_solution(fix, scenario, texts[fix]).cells if fix else ()
        view = WeekView(solution.week, solution.cells, held=held, early=files.early)
        if scenario and datas:
            view.data = with_given(scenario, datas[index], claims, numbers[index])
            if histories:
                view.week = Week(scenario, histories[index], view.data)
                view.number = numbers[index]
        view.reasons = {
            (away.nurse, away.day): word
            for away, word in reasons.items()
            if away.week == view.number + 1
        }
        views.append(view)
    if not scenario:
        return _view_of_rosters(solutions[0].scenario, views)
    warnings = [
        *_other_weeks(files.rosters, texts, scenario, histories),
        *_other_weeks(fixes, texts, scenario, histories),
    ]
    names = (list(scenario.nurses), list(scenario.shift_types), list(scenario.skills))
    return RosterView(scenario.name, *names, views, warnings)


def _view_of_rosters(name: str, views: Sequence[WeekView]) -> RosterView:
    """Rosters without their scenario: names come in the order in which they first occur."""
    rows = [cell for view in views for cell in view.cells]
    nurses, shifts, skills = (
        list(dict.fromkeys(getattr(row, what) for row in rows))
        for what in ("nurse", "shift", "skill")
    )
    return RosterView(name, nurses, shifts, skills, views)


def read_old(files: RosterFiles, rosters: Sequence[Path]) -> RosterView:
    """Reads the older rosters of the same weeks and ward. Raises Misuse if they are of others."""
    if len(rosters) != len(files.rosters):
        raise Misuse(
            f"--old has {plural(len(rosters), 'file')} for {plural(len(files.rosters), 'roster')}: "
            "give one for each, in their order"
        )
    for old, new in zip(rosters, files.rosters):
        before, now = (read_solution(path, None) for path in (old, new))
        if before.scenario != now.scenario:
            raise Misuse(
                f"{old} is a roster of '{before.scenario}', and {new} of '{now.scenario}': give two"
                " rosters of one ward"
            )
        if before.week != now.week:
            raise Misuse(
                f"{old} is a roster of week {before.week}, and {new} of week {now.week}: give two"
                " rosters of one week"
            )
    return replace(read_view(replace(files, rosters=rosters)), warnings=())


def _check_numbers(files: RosterFiles) -> None:
    """Each roster has its files, or none does."""
    count = len(files.rosters)
    if len(files.weeks) not in (0, count):
        raise Misuse(
            f"--week has {plural(len(files.weeks), 'file')} for {plural(count, 'roster')}: give one"
            " for each, in their order"
        )
    if len(files.histories) not in (0, 1, count):
        raise Misuse(
            f"--his has {plural(len(files.histories), 'file')} for {plural(count, 'roster')}: "
            "give the first week's, or each week's in order"
        )
    if (files.given or files.reasons) and not files.weeks:
        raise Misuse(
            f"{'--given' if files.given else '--reasons'} needs --sce and --week: give them too"
        )
    if files.weeks and not files.scenario:
        raise Misuse("--week needs --sce: give the scenario too")
    if files.histories and not (files.scenario and files.weeks):
        raise Misuse("--his needs --sce and --week: give all three for the costs")


def _histories(
    files: RosterFiles, scenario: Scenario, solutions: Sequence[Solution]
) -> list[History]:
    """The history of each week: as given, or computed from the first one and the rosters."""
    histories = [read_history(path, scenario) for path in files.histories]
    for path, history in zip(files.histories, histories):
        check_week_number(path, history, scenario)
    while histories and len(histories) < len(solutions):
        last = len(histories) - 1
        if histories[last].week + 1 >= scenario.weeks:
            raise Misuse(
                f"{files.rosters[last]}: {week_name(histories[last].week)} is the last of"
                f" {scenario.weeks}: give --his for each roster"
            )
        try:
            histories.append(next_history(scenario, histories[last], solutions[last].cells))
        except Misuse as fault:
            raise Misuse(f"{files.rosters[last]}: {fault}") from fault
    return histories


def _other_weeks(
    paths: Sequence[Path | None],
    texts: dict[Path, str],
    scenario: Scenario,
    histories: Sequence[History],
) -> Iterator[str]:
    """A warning for each file, one of each week, that is of another ward or week than it is shown
    with."""
    for index, path in enumerate(paths):
        other = (
            other_week(path, scenario, histories[index] if histories else None, texts[path])
            if path
            else ""
        )
        if other:
            yield f"{path}: {other}"
