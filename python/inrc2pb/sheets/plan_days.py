"""The days and weeks that the sheets name: the heads of the sheet plan, one for each day, and the
weeks of rows of the sheet needs."""

import contextlib
import datetime
import re
from typing import Iterator, NamedTuple

from ..week.dates import DAY, PlanDays, date_without_year, written_dates
from ..week.faults import FileFault, FileFaults
from ..week.records import DAYS, Scenario
from ..week.slots import MAX_WEEKS
from ..week.words import plural
from .sheet_cells import SheetCell, day_meant
from .sheet_files import Book
from .sheet_rows import Table

_OTHER_DATE = re.compile(r"\b([0-9]{1,2})[/-]([0-9]{1,2})[/-]([0-9]{4})\b")
# A date as a spreadsheet counts it, from 1954 on.
_SERIAL = re.compile(r"\b[2-9][0-9]{4}\b")
_FIRST_YEAR = 1954
_CALENDAR_WEEK = re.compile("cw|kw|calendar", re.IGNORECASE)
_NAMED_WEEK = re.compile(r"w(?:eek|oche)?\.? ?([0-9]{1,2})", re.IGNORECASE)
# The week of a row that is for no week of the plan.
NO_WEEK = -1


class Days(NamedTuple):
    """The columns of a period of the sheet plan, one for each day, the date of the first, if the
    heads have dates, and all days of the sheet."""

    plan: Table
    columns: list[SheetCell]
    monday: datetime.date | None
    sheet: PlanDays

    @property
    def weeks(self) -> int:
        """The number of weeks."""
        return len(self.columns) // len(DAYS)

    @property
    def plan_days(self) -> PlanDays:
        """The same days, as verbs count and name them."""
        return PlanDays(self.monday, self.weeks)


def read_days(book: Book, period: PlanDays | None = None) -> Days:
    """The days of the sheet plan, whole weeks from Monday to Sunday; of these those of a period, if
    the sheet has them all."""
    plan = Table(book, "plan", ("nurse",), open_end=True)
    columns = plan.others[: len(plan.others) - book.added]
    dates = [date_of(cell) for cell in columns]
    monday = dates[0] if dates else None
    for index, (cell, date) in enumerate(zip(columns, dates)):
        if cell.column != columns[0].column + index:
            cell.fault(
                "the column before this one is no day: delete it, or move it after the last day"
            )
        if date and monday and (date - monday).days != index:
            cell.fault(f"{date} does not follow the day before: write one column for each day")
        if bool(date) != bool(monday):
            has = "a date" if date else "no date"
            cell.fault(
                f"'{date_shown(cell, date)}' has {has}, unlike the first day: write dates for all"
                " days or for none"
            )
        wanted = DAYS[index % len(DAYS)]
        if (date.weekday() if date else day_of_head(cell)) != index % len(DAYS):
            cell.fault(
                f"'{date_shown(cell, date)}' should be a {wanted}: the plan begins on a Monday, and"
                " has each day once"
            )
    most = MAX_WEEKS * len(DAYS)
    if len(columns) > most:
        columns[most].fault(
            f"week {MAX_WEEKS + 1} begins here, and a plan has at most {MAX_WEEKS} weeks: delete"
            " the days from here on"
        )
    if not columns or len(columns) % len(DAYS):
        plan.fault(f"it has {plural(len(columns), 'day')}: plan whole weeks, from Monday to Sunday")
    columns = [*plan.others[len(columns) :], *columns]
    monday = monday and monday - book.added * DAY
    sheet = PlanDays(monday, len(columns) // len(DAYS))
    first = sheet.first_of(period) if period else None
    if period is None or first is None:
        return Days(plan, columns, monday, sheet)
    return Days(plan, columns[first : first + period.total], period.monday, sheet)


def head_dates(book: Book) -> frozenset[datetime.date]:
    """The dates of the heads of the sheet plan; none if some of them have none."""
    with contextlib.suppress(FileFault, FileFaults):
        heads = Table(book, "plan", ("nurse",), open_end=True).others
        dates = [date for head in heads for date in [date_of(head)] if date]
        return frozenset(dates) if len(dates) == len(heads) else frozenset()
    return frozenset()


def plan_warnings(days: Days, scenario: Scenario) -> Iterator[str]:
    """Warnings of heads that count weeks from 0, and of nurses for whom the plan has no row."""
    if not days.monday and days.columns and week_of_head(days.columns[0]) == 0:
        yield (
            "its heads count weeks from 0, and verbs count from 1: write Mon 1 for"
            f" {days.columns[0].text}, and so on"
        )
    there = {row.of("nurse").key for row in days.plan.rows}
    no_row = "has no row: she has no wishes and no absences; if she has some, add a row"
    yield from (f"{nurse} {no_row}" for nurse in scenario.nurses if nurse.casefold() not in there)


# ---- heads of days


def day_of_head(cell: SheetCell) -> int:
    """The day of the week with which a head begins, as Wed or Wednesday 1."""
    short = cell.text[:3].casefold()
    for day, name in enumerate(DAYS):
        if short == name.casefold():
            return day
    if day_meant(cell.text):
        cell.fault(f"'{cell.text}' is no day of the week: write {day_meant(cell.text)}")
    whole = ", or whole dates such as 2026-11-30" if re.search("[0-9]", cell.text) else ""
    cell.fault(
        f"'{cell.text}' is no day of the week: write one of {','.join(DAYS)}{whole}, or begin the"
        " head with #"
    )


def week_of_head(cell: SheetCell) -> int | None:
    """The number with which a head such as `Wed 1` ends, if it has one."""
    number = re.search("[0-9]{1,2}$", cell.text)
    return int(number.group()) if number else None


def date_of(cell: SheetCell) -> datetime.date | None:
    """The date in a head: written out, or as a number of a spreadsheet."""
    written = next((date for date in written_dates(cell.text) if date.year is not None), None)
    serial = _SERIAL.search(cell.text)
    other = _OTHER_DATE.search(cell.text)
    if other and not written:
        cell.fault(
            f"'{cell.text}' may have the day or the month first: write"
            f" {_year_first(*map(int, other.groups()))}"
        )
    if not written:
        return cell.book.day_zero + int(serial.group()) * DAY if serial else None
    try:
        date = written.date()
    except ValueError:
        cell.fault(f"there is no day {written.text}: write a date such as 2026-11-30")
    if date.year < _FIRST_YEAR:
        cell.fault(
            f"a spreadsheet makes {date} of the number of a day: write whole dates, such as"
            " 2026-11-30"
        )
    return date


def date_shown(cell: SheetCell, date: datetime.date | None) -> str:
    """What a spreadsheet shows in a cell with this date, if it has one."""
    return str(date) if date and cell.text.isdecimal() else cell.text


def _year_first(first: int, second: int, year: int) -> str:
    """The date that has its day or its month first."""
    for month, day in ((second, first), (first, second)):
        if month <= 12 < day:
            return f"{year}-{month:02}-{day:02}"
    return f"{year}-{second:02}-{first:02} or {year}-{first:02}-{second:02}"


# ---- weeks of rows of the needs


def date_of_row(cell: SheetCell, days: Days) -> datetime.date | None:
    """The date that a row of the needs has in place of a week, if it has one, also without its
    year."""
    date = date_of(cell)
    if date or days.sheet.monday is None:
        return date
    try:
        return date_without_year(cell.text, days.sheet.monday)
    except ValueError:
        cell.fault(f"there is no day {cell.text}: write a date such as {days.sheet.monday}")


def week_of_row(cell: SheetCell, days: Days) -> int | None:
    """The week of a row of the needs, from 0, by its number, a calendar week or a date in it; None:
    all weeks; NO_WEEK: a date that is not in the plan, so that the row counts for none of its
    weeks."""
    if not cell.text:
        return None
    plan = days.plan_days
    date = date_of_row(cell, days)
    if date and days.monday is None:
        cell.fault(
            f"'{date_shown(cell, date)}' is a date, and the sheet plan has none: write the week's"
            " number, from 1"
        )
    if date and days.monday:
        week = (date - days.monday).days // len(DAYS)
        return week if 0 <= week < days.weeks else NO_WEEK
    number = plan.week_number(cell.text)
    if cell.text.isdecimal() and number == int(cell.text) - 1 and days.monday != days.sheet.monday:
        # A bare number is of the first period of the sheet.
        return NO_WEEK
    if number is None and days.sheet.week_number(cell.text) is not None:
        return NO_WEEK
    if number is None:
        others = (
            ""
            if days.monday is None
            else f", a calendar week such as CW {plan.calendar_week(days.weeks - 1)}, or a date"
        )
        named = _NAMED_WEEK.fullmatch(cell.text)
        if named:
            calendar = f", or CW {named[1]} for the calendar week" if days.monday else ""
            cell.fault(
                f"'{cell.text}' is no week: write {named[1]} for the week of the plan{calendar}"
            )
        if not cell.text.isdecimal() and not _CALENDAR_WEEK.match(cell.text):
            dated = f"{others} such as {days.monday}" if days.monday else ""
            cell.fault(f"'{cell.text}' is no week: write its number in the plan, from 1{dated}")
        cell.fault(
            f"there is no week {cell.text}: weeks are counted from 1, so write {days.weeks} for the"
            f" last one{others}"
        )
    return number


def week_of_row_warnings(table: Table, days: Days) -> Iterator[str]:
    """Warnings of rows of the needs whose week the plan does not have, and of numbers that may mean
    another week of the calendar."""
    plan = days.plan_days
    for row in table.rows:
        cell = row.of("week")
        week = week_of_row(cell, days)
        if week == NO_WEEK and not _is_of_sheet(cell, days):
            date = date_shown(cell, date_of_row(cell, days))
            yield (
                f"row {row.number}: {date} is not in this plan, so the row counts for no week:"
                " correct the date, or delete the row"
            )
        elif week is not None and week != NO_WEEK and days.monday and cell.text.isdecimal():
            other = plan.week_number(f"CW {cell.text}")
            if other is not None and other != week:
                span = plan.span([len(DAYS) * week, len(DAYS) * week + len(DAYS) - 1])
                yield (
                    f"row {row.number}: {cell.text} is the week of the plan, {span}: write CW"
                    f" {cell.text} for the calendar week"
                )


def _is_of_sheet(cell: SheetCell, days: Days) -> bool:
    """Whether the week of a row is of another period of the sheet."""
    date = date_of_row(cell, days)
    if date is None or days.sheet.monday is None:
        return True
    return 0 <= (date - days.sheet.monday).days < days.sheet.total
