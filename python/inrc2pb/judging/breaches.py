"""Why a roster breaks hard rules, and why a roster or a fix file does not fit its week: in words,
with the line of its file."""

import re
from pathlib import Path
from typing import Callable, Iterable, Iterator, NamedTuple, Sequence

from ..week.faults import FileFault, ProgramFault
from ..week.files import read_solution
from ..week.records import DAYS, Cell, History, Scenario, Solution, Week
from ..week.slots import text_of, tokens_of
from ..week.words import plural
from .rules import numbers

Shifts = dict[tuple[str, int], list[str]]
# The indices of the week's number, of the scenario's name and of the first row among the tokens of
# a solution file, and the number of tokens of a row.
_NUMBER = 1
_NAME = 2
_ROWS = 6
_ROW = 4
# The breach of each rule in words that need no names of rules.
_PLAIN = {
    "H1": "two places on a day",
    "H2": "below the minimum number",
    "H3": "not allowed on the day after",
    "H4": "without the skill",
    "H5": "without a held shift",
}


class Breach(NamedTuple):
    """A hard rule that a roster breaks, and the reason."""

    rule: str
    reason: str

    @property
    def plain(self) -> str:
        """What is wrong, and the reason, without the name of the rule."""
        return f"{_PLAIN[self.rule]}: {self.reason}"


def breaches_by(cell: Cell, shifts: Shifts, scenario: Scenario) -> Iterator[Breach]:
    """How a row breaks H1, H3 or H4, alone or with these shifts of nurses on days; the Sunday
    before is day -1."""
    nurse = cell.nurse
    day = cell.day
    if shifts.get((nurse, day)):
        yield Breach("H1", f"{nurse} has two places on {DAYS[day]}")
    for earlier in shifts.get((nurse, day - 1), ()):
        if scenario.forbids(earlier, cell.shift):
            before = DAYS[day - 1] if day else "the Sunday before"
            yield Breach(
                "H3",
                f"{nurse} may not work {cell.shift} on {DAYS[day]} after {earlier} on {before}",
            )
    for later in shifts.get((nurse, day + 1), ()):
        if scenario.forbids(cell.shift, later):
            yield Breach(
                "H3",
                (
                    f"{nurse} may not work {later} on {DAYS[day + 1]} after {cell.shift} on"
                    f" {DAYS[day]}"
                ),
            )
    if cell.skill not in scenario.nurses[nurse].skills:
        yield Breach("H4", f"{nurse} does not have the skill {cell.skill}")


def minimum_breaches(week: Week, cells: Iterable[Cell]) -> Iterator[Breach]:
    """The places with fewer nurses than their minimum."""
    number = numbers(cells)
    for place, required in week.data.requirements.items():
        if number[place] < required.minimum:
            named = f"{DAYS[place.day]} {place.shift} {place.skill}"
            yield Breach(
                "H2",
                (
                    f"{named} has {plural(number[place], 'nurse')} and needs at least"
                    f" {required.minimum}"
                ),
            )


def held_breaches(cells: Iterable[Cell], held: Iterable[Cell]) -> Iterator[Breach]:
    """The held rows that are missing."""
    known = set(cells)
    yield from (
        Breach("H5", f"the held row '{cell.row()}' is missing")
        for cell in held
        if cell not in known
    )


def breaches(week: Week, cells: Sequence[Cell], held: Iterable[Cell] = ()) -> list[Breach]:
    """Everything by which the roster breaks hard rules, in the order of the rules."""
    shifts: Shifts = {
        (past.nurse, -1): [past.last_shift]
        for past in week.history.nurses.values()
        if past.last_shift is not None
    }
    broken = [*minimum_breaches(week, cells), *held_breaches(cells, held)]
    for cell in cells:
        broken += breaches_by(cell, shifts, week.scenario)
        shifts.setdefault((cell.nurse, cell.day), []).append(cell.shift)
    return sorted(broken, key=lambda breach: breach.rule)


class Misfit(NamedTuple):
    """A hard rule that a roster breaks, the line of the row that breaks it (0: no row does), and
    the reason."""

    rule: str
    line: int
    reason: str


def _lines(text: str) -> list[int]:
    """The line of each token."""
    return [token.line for token in tokens_of(text)]


def other_week(
    path: Path, scenario: Scenario, history: History | None, text: str | None = None
) -> str:
    """The line in which the file names another ward or week than these, and the probable mistake;
    else nothing."""
    try:
        text = text_of(path) if text is None else text
        solution = read_solution(path, None, text)
    except FileFault:
        return ""
    lines = _lines(text)
    if solution.scenario != scenario.name:
        return (
            f"line {lines[_NAME]} has '{solution.scenario}', and the scenario is '{scenario.name}':"
            " is the file of another ward?"
        )
    if history and solution.week != history.week:
        return (
            f"line {lines[_NUMBER]} has week {solution.week}, and the history has week"
            f" {history.week}: is the file of another week?"
        )
    return ""


def _hint(path: Path, scenario: Scenario, history: History | None) -> str:
    """The same as the end of a fault."""
    other = other_week(path, scenario, history)
    return f"; {other}" if other else ""


def read_roster(path: Path, scenario: Scenario, history: History | None) -> Solution:
    """Reads a roster or a fix file. Raises FileFault if it has a mistake; if it is of another ward
    or week, the fault says that too."""
    try:
        return read_solution(path, scenario)
    except FileFault as fault:
        raise FileFault(
            fault.path, fault.line, fault.message + _hint(path, scenario, history), fault.fault
        ) from fault


def misfits(
    path: Path, solution: Solution, scenario: Scenario, history: History | None
) -> Iterator[Misfit]:
    """The rows that break H1, H3 or H4, alone or with rows above them, in the order of the file."""
    pasts = history.nurses.values() if history else ()
    shifts: Shifts = {
        (past.nurse, -1): [past.last_shift] for past in pasts if past.last_shift is not None
    }
    for line, row in zip(_lines(text_of(path))[_ROWS::_ROW], solution.cells):
        for breach in breaches_by(row, shifts, scenario):
            yield Misfit(breach.rule, line, breach.reason)
        shifts.setdefault((row.nurse, row.day), []).append(row.shift)


def read_held(
    path: Path, scenario: Scenario, history: History | None, warn: Callable[[str], None]
) -> Solution:
    """Reads a fix file. `warn` gets the hint if the file is of another ward or week. Raises
    FileFault if no roster can have one of its rows."""
    solution = read_roster(path, scenario, history)
    misfit = next(misfits(path, solution, scenario, history), None)
    if misfit:
        raise FileFault(
            path,
            misfit.line,
            f"{misfit.reason}: no roster can have this row{_hint(path, scenario, history)}",
        )
    hint = other_week(path, scenario, history)
    if hint:
        warn(hint)
    return solution


def explained(fault: ProgramFault, path: Path, week: Week, held: Iterable[Cell]) -> ProgramFault:
    """The fault that `inrc2pb extend` found in the roster of this file; if it breaks a hard rule,
    with the line and the reason."""
    rule = re.search(r"roster breaks (H[1-5])", fault.message)
    if not rule:
        return fault
    solution = read_roster(path, week.scenario, week.history)
    misfit = next(_misfits_of(rule.group(1), path, solution, week, held), None)
    reason = f"{rule.group()}{f': {misfit.reason}' if misfit else ''}"
    return ProgramFault(fault.status, str(FileFault(path, misfit.line if misfit else 0, reason)))


def _misfits_of(
    rule: str, path: Path, solution: Solution, week: Week, held: Iterable[Cell]
) -> Iterator[Misfit]:
    yield from (
        misfit
        for misfit in misfits(path, solution, week.scenario, week.history)
        if misfit.rule == rule
    )
    if rule == "H2":
        yield from (
            Misfit(rule, 0, breach.reason) for breach in minimum_breaches(week, solution.cells)
        )
    if rule == "H5":
        yield from (
            Misfit(rule, 0, breach.reason) for breach in held_breaches(solution.cells, held)
        )
