"""The constraints of a week's model in their order, as docs/model.md has it, and the names of its
variables and constraints in words."""

import re
from array import array
from itertools import product
from typing import Iterable, Iterator, NamedTuple, Sequence

from ..week.records import DAYS, Cell, Limits, Place, Week

# A variable of a row, and a term of the objective.
_VARIABLE = re.compile(r"x([0-9]+)")
_TERM = re.compile(r"([+-][0-9]+) x([0-9]+)")


class Block(NamedTuple):
    """Constraints that follow one another and have one origin."""

    rule: str
    origin: str
    size: int


def windows_of(history: int, limits: Limits) -> int:
    """The number of windows of a run with this history."""
    return max(0, min(7, history + 7 - limits.maximum))


def patterns_of(history: int, limits: Limits) -> int:
    """The number of closed and edge patterns of a run with this history."""
    closed = max(0, min(limits.minimum - 1, 5))
    edge = min(7, limits.minimum - history) if history >= 1 else min(6, limits.minimum - 1)
    return closed * (11 - closed) // 2 + max(0, edge)


def _places(week: Week) -> list[Place]:
    """All places in the order of the model."""
    return [
        Place(*place)
        for place in product(range(7), week.scenario.shift_types, week.scenario.skills)
    ]


def _hard_blocks(week: Week, held: Sequence[Cell]) -> Iterator[Block]:
    yield Block(
        "unit",
        "the unit variable is true; an answer that violates it is cut off, or is of another week",
        1,
    )
    for nurse in week.scenario.nurses:
        for day in DAYS:
            yield Block("H1", f"{nurse} has at most one place on {day}", 1)
    for place in _places(week):
        required = week.data.requirements.get(place)
        if required and required.minimum:
            yield Block(
                "H2",
                f"{DAYS[place.day]} {place.shift} {place.skill} needs at least {required.minimum}",
                1,
            )
    for nurse in week.scenario.nurses:
        yield from _successions(week, nurse)
    for name, nurse_data in week.scenario.nurses.items():
        for skill in week.scenario.skills:
            if skill not in nurse_data.skills:
                yield Block("H4", f"{name} has not the skill {skill}", 1)
    for row in sorted(held, key=lambda row: _cell_key(week, row)):
        yield Block("H5", f"{row.row()} is held", 1)


def _cell_key(week: Week, cell: Cell) -> tuple[int, int, int, int]:
    scenario = week.scenario
    shifts = list(scenario.shift_types)
    nurses = list(scenario.nurses)
    return (
        nurses.index(cell.nurse),
        cell.day,
        shifts.index(cell.shift),
        scenario.skills.index(cell.skill),
    )


def _successions(week: Week, nurse: str) -> Iterator[Block]:
    types = week.scenario.shift_types
    last = week.history.nurses[nurse].last_shift
    after = {
        name: [later for later in types if week.scenario.forbids(name, later)] for name in types
    }
    for later in after[last] if last else ():
        yield Block("H3", f"{nurse} has {last} on the Sunday before, so not {later} on Mon", 1)
    for day in range(1, 7):
        for earlier in types:
            for later in after[earlier]:
                yield Block(
                    "H3",
                    f"{nurse} has not {earlier} on {DAYS[day - 1]} and {later} on {DAYS[day]}",
                    1,
                )


def _run(rule: str, origin: str, history: int, limits: Limits) -> Iterator[Block]:
    """The constraints of a run: first those of its maximum, then those of its minimum."""
    yield Block(rule, f"{origin} should be at most {limits.maximum}", windows_of(history, limits))
    yield Block(rule, f"{origin} should be at least {limits.minimum}", patterns_of(history, limits))


def _soft_blocks(week: Week, early: bool) -> Iterator[Block]:
    scenario = week.scenario
    histories = week.history.nurses
    for place in _places(week):
        required = week.data.requirements.get(place)
        if required and required.optimal > required.minimum:
            yield Block(
                "S1",
                f"{required.optimal} are best for {DAYS[place.day]} {place.shift} {place.skill}",
                1,
            )
    for nurse in scenario.nurses:
        past = histories[nurse]
        for name, shift in scenario.shift_types.items():
            before = past.consecutive_shifts if past.last_shift == name else 0
            yield from _run("S2", f"runs of {name} of {nurse}", before, shift.consecutive)
        yield from _run(
            "S2",
            f"working days in a row of {nurse}",
            past.working_days,
            scenario.contract_of(nurse).working_days,
        )
    for nurse in scenario.nurses:
        yield from _run(
            "S3",
            f"days off in a row of {nurse}",
            histories[nurse].days_off,
            scenario.contract_of(nurse).days_off,
        )
    for nurse in scenario.nurses:
        yield Block(
            "S5", f"half a weekend of {nurse}", 2 * scenario.contract_of(nurse).complete_weekends
        )
    for nurse in scenario.nurses:
        yield from _totals(week, nurse, early)
    for nurse in scenario.nurses:
        counted = (week.is_last or early) and histories[nurse].weekends >= scenario.contract_of(
            nurse
        ).max_weekends
        yield Block("S7", f"weekends of {nurse}", 2 * counted)


def _totals(week: Week, nurse: str, early: bool) -> Iterator[Block]:
    limits = week.scenario.contract_of(nurse).assignments
    before = week.history.nurses[nurse].assignments
    if week.is_last:
        yield Block("S6", f"too few assignments of {nurse}", int(limits.minimum > before))
    if week.is_last or early:
        yield Block("S6", f"too many assignments of {nurse}", int(limits.maximum - before < 7))


def blocks(week: Week, held: Sequence[Cell] = (), early: bool = False) -> Iterator[Block]:
    """The constraints of the model in their order, as blocks."""
    yield from _hard_blocks(week, held)
    yield from _soft_blocks(week, early)


def names_of(
    lines: Iterable[str], week: Week, held: Sequence[Cell] = (), early: bool = False
) -> Iterator[str]:
    """Each variable and each constraint in words, for the lines of the model that `inrc2pb encode`
    writes for this week.

    The cells and the unit variable come first. The slacks of a constraint follow it with their
    weights: `x385 slack c299 S2 15 runs of`.
    """
    rows = iter(lines)
    scenario = week.scenario
    cells = [
        " ".join(names)
        for names in product(scenario.nurses, DAYS, scenario.shift_types, scenario.skills)
    ]
    unit = len(cells) + 1
    yield from (f"x{number} cell {cell}" for number, cell in enumerate(cells, 1))
    yield f"x{unit} unit"
    variables = int(next(rows).split()[2])
    weights = array("q", bytes(8 * (variables + 1 - unit)))
    row = next(rows)
    if row.startswith("min:"):
        for weight, variable in _TERM.findall(row):
            weights[max(0, int(variable) - unit)] = int(weight)
        row = next(rows)
    for number, block in enumerate(
        (block for block in blocks(week, held, early) for _ in range(block.size)), 1
    ):
        yield f"c{number} {block.rule} {block.origin}"
        for slack in filter(lambda variable: variable > unit, map(int, _VARIABLE.findall(row))):
            yield f"x{slack} slack c{number} {block.rule} {weights[slack - unit]} {block.origin}"
        row = next(rows, "")
