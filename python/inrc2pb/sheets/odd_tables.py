"""What is odd in the sheets of a ward, and counts all the same."""

from typing import Collection, Iterator, Mapping, Sequence

from ..judging.demand import demand_warnings, supply_warnings
from ..judging.leave import Counted
from ..judging.odd_values import (
    Reach,
    Warned,
    history_warnings,
    reach_of,
    scenario_warnings,
    week_warnings,
)
from ..week.dates import PlanDays, Times
from ..week.facts import WORK_DAYS
from ..week.faults import Gathering
from ..week.records import DAYS, History, Scenario, WeekData, in_a_row, in_plan, together
from ..week.slots import closest
from ..week.words import readable
from .odd_cells import cell_warnings
from .plan_days import Days, plan_warnings, week_of_row_warnings
from .plan_sheets import WeekSheet
from .sheet_facts import look_warnings
from .sheet_files import Book
from .unseen import unseen_warnings
from .ward_sheets import NIGHT, WardTables, HEADS, table_of


def skill_warnings(ward: WardTables, asked: Collection[str]) -> Iterator[str]:
    """Warnings of skills for which the needs have no row. Raises FileFault if one has a name like a
    skill that they ask for."""
    with Gathering() as faults:
        for name, cell in ward.skills.items():
            if name in asked:
                continue
            meant = closest(name, [skill for skill in ward.skills if skill in asked])
            with faults.step():
                if meant:
                    advice = f"write {readable(meant)} if you mean it, else add a row for it"
                    cell.fault(f"no row of the sheet needs has the skill '{cell.text}': {advice}")
            yield f"no row of the sheet needs has the skill {name}"


def book_warnings(book: Book) -> Iterator[str]:
    """Warnings of rows that count though nobody sees them, of names that are numbers, as if they
    were in a wrong column, and of days without a number in rows that have some."""
    for sheet in HEADS:
        rows = [
            row.number
            for row in table_of(book, sheet).rows
            if row.number in book.hidden.get(sheet, ())
        ]
        if rows:
            yield (
                f"sheet {sheet}: row {', '.join(map(str, rows))} hidden, and counted: show it, or"
                " delete it"
            )
    for sheet, head in (("shifts", "shift"), ("contracts", "contract"), ("nurses", "nurse")):
        for row in table_of(book, sheet).rows:
            if row.of(head).text.isdecimal():
                number = (
                    f"the name of the {'shift type' if head == 'shift' else head} is the number"
                    f" {row.of(head).text}"
                )
                yield (
                    f"sheet {sheet}, row {row.number}: {number}: write a name, or leave it if it is"
                    " meant so"
                )
    for row in table_of(book, "needs").rows:
        days = [row.of(day.casefold()) for day in DAYS]
        empty = [day for day, cell in zip(DAYS, days) if not cell.text]
        if not row.of("week").text and 0 < len(empty) < len(days):
            yield (
                f"sheet needs, row {row.number}: {', '.join(empty)} empty, and counted as 0: write"
                " 0 if nobody is needed"
            )


def ward_warnings(ward: WardTables) -> Iterator[str]:
    """Warnings of nurses who never work, and of successions that seem to be the other way round."""
    types = ward.scenario.shift_types
    for nurse, (shifts, weekdays) in ward.never.items():
        if set(shifts) == set(types) or set(weekdays) == set(range(len(DAYS))):
            yield (
                f"sheet nurses: {nurse} never works: correct what she never works, or when she is"
                " always off"
            )
    for name, shift in types.items():
        later = [other for other in types if ward.scenario.forbids(other, name)]
        if NIGHT.search(name) and later and not shift.forbidden_next:
            turned = "is 'not followed by' the other way round?"
            yield (
                f"sheet shifts: {name} may not follow {later[0]}, and each shift type may follow"
                f" {name}: {turned}"
            )
        elif (
            NIGHT.search(name)
            and not shift.forbidden_next
            and any(other.forbidden_next for other in types.values())
        ):
            yield (
                f"sheet shifts: each shift type may follow {name} on the next day: write those that"
                " may not into 'not followed by'"
            )


def held_warnings(ward: WardTables, weeks: list[WeekSheet], days: Days) -> Iterator[str]:
    """Warnings of shifts that are held on more days in a row than a contract never exceeds."""
    plan = days.plan_days
    held = in_plan([shift.row for shift in week.held] for week in weeks)
    for nurse, contract in (
        (name, ward.scenario.contract_of(name)) for name in ward.scenario.nurses
    ):
        most = contract.working_days.maximum
        rows = in_a_row([cell.day for cell in held if cell.nurse == nurse])
        if WORK_DAYS in ward.kept[ward.scenario.nurses[nurse].contract]:
            for row in (row for row in rows if len(row) > most):
                what = (
                    f"{nurse} has {len(row)} fixed shifts in a row, {plan.span(row)}, and never"
                    f" works more than {most}"
                )
                yield f"{what}: take some of them out, or the sign ! from work max"


def odd_sheets(
    book: Book,
    days: Days,
    tables: WardTables,
    sheets: list[WeekSheet],
    times: Mapping[str, Times],
) -> Iterator[str]:
    """What is odd in sheets."""
    for line in scenario_warnings(tables.scenario):
        yield f"sheet shifts, contracts or nurses: {line}"
    asked = {place.skill for sheet in sheets for place in sheet.requirements}
    for line in (*history_warnings(tables.history), *skill_warnings(tables, asked)):
        yield f"sheet nurses: {line}"
    yield from (*book_warnings(book), *look_warnings(book, days), *ward_warnings(tables))
    yield from unseen_warnings(book, days)
    yield from cell_warnings(book, tables, days, sheets, times)
    for line in (*plan_warnings(days, tables.scenario), *held_warnings(tables, sheets, days)):
        yield f"sheet plan: {line}"
    for line in week_of_row_warnings(table_of(book, "needs"), days):
        yield f"sheet needs, {line}"


def odd_weeks(
    scenario: Scenario,
    history: History,
    weeks: Sequence[WeekData],
    days_away: Counted,
    days: PlanDays,
) -> tuple[list[str], Reach]:
    """What is odd in what weeks need, and what plans can reach."""
    paid = [days_away.of_week(number) for number in range(len(weeks))]
    odd: dict[Warned, list[int]] = together(
        (line, number)
        for number, data in enumerate(weeks)
        for line in (
            *week_warnings(scenario, data),
            *demand_warnings(scenario, None if number else history, data, paid[number:]),
        )
    )
    supply = list(supply_warnings(scenario, history, weeks))
    lines = [f"sheet needs, {days.weeks_text(numbers)}: {line}" for line, numbers in odd.items()]
    return [*lines, *(f"sheet needs: {line}" for line in supply)], reach_of([*odd, *supply])
