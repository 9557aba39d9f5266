"""Cells whose numbers are allowed, and are probably mistakes: of shifts, contracts and needs."""

import datetime
from typing import Iterator, Mapping, Sequence

from ..week.dates import DAY, Times, hours_text
from ..week.facts import WEEKENDS
from ..week.records import DAYS, WEEK_DAYS
from ..week.slots import MAX_NUMBER
from ..week.words import plural, readable
from .plan_days import NO_WEEK, Days, date_of_row, week_of_row
from .plan_sheets import WeekSheet
from .sheet_files import Book
from .sheet_rows import SheetRow
from .ward_sheets import WardTables, table_of

# A longer shift leaves less than eleven hours before the same one of the next day.
_LONGEST = datetime.timedelta(hours=13)
# The hours of rest between two shifts, if the sheet has no others.
REST = 11


def cell_warnings(
    book: Book,
    ward: WardTables,
    days: Days,
    weeks: Sequence[WeekSheet],
    times: Mapping[str, Times],
) -> Iterator[str]:
    """Warnings of single cells, each with its place and what to write."""
    shifts = {row.of("shift").key: row for row in table_of(book, "shifts").rows}
    rows = {name: shifts[name.casefold()] for name in ward.scenario.shift_types}
    yield from _long_shifts(rows, times)
    yield from _short_rests(rows, ward, times)
    yield from _followed_by_itself(rows, ward)
    yield from _more_shifts_than_days(book, days)
    yield from _no_weekends(book, ward, weeks)
    yield from _beside_the_date(book, days)


def _long_shifts(rows: Mapping[str, SheetRow], times: Mapping[str, Times]) -> Iterator[str]:
    """Shifts that are longer than most wards have them."""
    for name, time in times.items():
        if time.length > _LONGEST:
            cell = rows[name].of("times")
            yield (
                f"{cell.place}: {readable(name)} lasts {hours_text(time.length)}, {time}: correct"
                " one of the two times, unless it is meant so"
            )


def _short_rests(
    rows: Mapping[str, SheetRow], ward: WardTables, times: Mapping[str, Times]
) -> Iterator[str]:
    """Shift types that may follow one another on the next day with less rest than the sheet asks
    for."""
    types = ward.scenario.shift_types
    for name in (name for name in types if name in times):
        least = rest_after(rows[name])
        short: dict[str, datetime.timedelta] = {}
        for later in (later for later in types if later in times):
            rest = DAY + times[later].begin - times[name].end
            if rest < least and not ward.scenario.forbids(name, later):
                short[later] = rest
        if short:
            cell = rows[name].of("not followed by")
            first, rest = next(iter(short.items()))
            names = ", ".join(map(readable, short))
            written = f"{cell.text}, {names}" if cell.text else names
            asked = "asked for" if rows[name].of("rest").text else "usual"
            yield (
                f"{cell.place}: {readable(first)} may follow {readable(name)} on the next day"
                f" after {hours_text(max(rest, datetime.timedelta()))} of rest, and"
                f" {hours_text(least)} are {asked}: write {written}, or other hours into the"
                " column rest"
            )


def rest_after(row: SheetRow) -> datetime.timedelta:
    """The rest that a nurse has after a shift, by the column `rest`, or else by what is usual."""
    return datetime.timedelta(hours=row.of("rest").number(REST, 24))


def _followed_by_itself(rows: Mapping[str, SheetRow], ward: WardTables) -> Iterator[str]:
    """Shift types that may not follow themselves, and have several days in a row."""
    for name, shift in ward.scenario.shift_types.items():
        if not ward.scenario.forbids(name, name):
            continue
        least = shift.consecutive.minimum
        heads = ("min in a row", "max in a row") if least > 1 else ("max in a row",)
        cell = rows[name].of(heads[0])
        if least > 1 or 1 < shift.consecutive.maximum < MAX_NUMBER:
            what = f"at least {least}" if least > 1 else f"up to {shift.consecutive.maximum}"
            yield (
                f"{cell.place}: {what} days in a row on {readable(name)}, and it may not follow"
                f" itself: write 1, or take {readable(name)} out of 'not followed by'"
            )


def _more_shifts_than_days(book: Book, days: Days) -> Iterator[str]:
    """Maxima of shifts that no period can have."""
    total = len(DAYS) * days.weeks
    for row in table_of(book, "contracts").rows:
        cell = row.of("shifts max")
        number = cell.text.rstrip("! ")
        if number.isdecimal() and total < int(number) < MAX_NUMBER:
            yield (
                f"{cell.place}: at most {plural(int(number), 'shift')}, and the period has"
                f" {total} days: count shifts, not hours; for no limit leave the cell empty"
            )


def _no_weekends(book: Book, ward: WardTables, weeks: Sequence[WeekSheet]) -> Iterator[str]:
    """A warning if no contract has a weekend with work, and weekends are to be worked."""
    contracts = ward.scenario.contracts
    if any(
        contract.max_weekends or WEEKENDS not in ward.kept[contract.name]
        for contract in contracts.values()
    ):
        return
    asked = [
        requirement.minimum
        for week in weeks
        for place, requirement in week.requirements.items()
        if place.day >= WEEK_DAYS - 2
    ]
    if any(asked):
        cell = table_of(book, "contracts").rows[0].of("weekends")
        yield (
            f"{cell.place}: no contract has a weekend with work, and the sheet needs asks for"
            " nurses on Sat and Sun: write how many weekends each contract has at most"
        )


def _beside_the_date(book: Book, days: Days) -> Iterator[str]:
    """Rows of the needs with a date, and with numbers only for other days than this one."""
    for row in table_of(book, "needs").rows:
        date = date_of_row(row.of("week"), days)
        if date is None or week_of_row(row.of("week"), days) == NO_WEEK:
            continue
        right = DAYS[date.weekday()]
        filled = [day for day in DAYS if row.of(day.casefold()).text]
        if filled and right not in filled:
            cell = row.of(filled[0].casefold())
            yield (
                f"{cell.place}: {date} is a {right}, and '{cell.text}' is below {filled[0]}: move"
                f" it below {right}, or write CW {date.isocalendar()[1]} in place of the date"
            )
