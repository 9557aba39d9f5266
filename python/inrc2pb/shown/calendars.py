"""A calendar file for each nurse, as RFC 5545 defines it: shifts with their times, else with their
days, in local time."""

import datetime
import re
import time
import uuid
from pathlib import Path
from typing import Collection, Iterable, Iterator, Mapping, NamedTuple, Sequence

from ..week.dates import DAY, Times
from ..week.records import in_plan, together
from ..week.writing import write_own_text
from .markup import allowed
from .roster_view import ShownCell, RosterView

# The maximum number of bytes of a line.
_LINE = 75
# The second from which the numbers of calendars count, so that they stay below the most that a
# calendar may have, 2,147,483,647.
_FIRST_ISSUE = datetime.datetime(2025, 1, 1, tzinfo=datetime.timezone.utc).timestamp()


class Issue(NamedTuple):
    """A calendar that takes the place of older ones: its number, which is above theirs, and the
    days on which they had a nurse's shift."""

    number: int
    before: Mapping[str, Collection[datetime.date]] = {}


def issue_now(before: Mapping[str, Collection[datetime.date]]) -> Issue:
    """The issue of this second."""
    return Issue(int(time.time() - _FIRST_ISSUE), before)


def shift_dates(view: RosterView, monday: datetime.date) -> dict[str, list[datetime.date]]:
    """The dates of each nurse's shifts."""
    return together(
        (cell.nurse, monday + cell.day * DAY) for cell in in_plan(week.cells for week in view.weeks)
    )


def _text(value: str) -> str:
    """A value of type TEXT."""
    return (
        re.sub(r"([\\;,])", r"\\\1", allowed(value))
        .replace("\r", " ")
        .replace("\n", "\\n")
        .replace("\t", " ")
    )


def _folded(line: str) -> str:
    """A content line, folded between letters."""
    if len(line.encode()) <= _LINE:
        return line
    parts = [""]
    size = 0
    for letter in line:
        width = len(letter.encode())
        if size + width > _LINE:
            parts.append(" ")
            size = 1
        parts[-1] += letter
        size += width
    return "\r\n".join(parts)


def _day(date: datetime.date) -> str:
    return date.isoformat().replace("-", "")


def _event(
    names: Sequence[str], stamp: Sequence[str], summary: str, when: Iterable[str]
) -> Iterator[str]:
    """The lines of an event. Its names make it the same event in a later calendar."""
    yield "BEGIN:VEVENT"
    yield f"UID:{uuid.uuid5(uuid.NAMESPACE_URL, ' '.join(['inrc2pb', *names]))}"
    yield from stamp
    yield from when
    yield f"SUMMARY:{_text(summary)}"
    yield "END:VEVENT"


def _when(date: datetime.date, shift: str, times: Mapping[str, Times]) -> Iterator[str]:
    """The times of a shift, without a time zone, or its day."""
    if shift not in times:
        yield f"DTSTART;VALUE=DATE:{_day(date)}"
        return
    start = datetime.datetime.combine(date, times[shift].start)
    for name, moment in (("DTSTART", start), ("DTEND", start + times[shift].length)):
        yield f"{name}:{_day(moment.date())}T{moment:%H%M%S}"


def calendar(
    view: RosterView,
    nurse: str,
    monday: datetime.date,
    times: Mapping[str, Times],
    issue: Issue | None = None,
) -> str:
    """The text of a nurse's calendar. One without shifts says so, since a calendar may not be
    empty; an issue of one cancels this, so that a later one has nothing to take back. Shifts of
    older issues are cancelled on days on which this one has none.
    """
    ward = allowed(view.name)
    stamp = [f"DTSTAMP:{_day(monday)}T000000Z", *([f"SEQUENCE:{issue.number}"] if issue else [])]
    lines = ["BEGIN:VCALENDAR", "VERSION:2.0", "PRODID:-//inrc2pb//inrc2pb-roster//EN"]
    shifts: list[tuple[datetime.date, int, ShownCell]] = [
        (monday + (7 * week + day) * DAY, index, cell)
        for week in range(len(view.weeks))
        for day in range(7)
        for index, cell in enumerate(view.cells(week, nurse, day))
    ]
    for date, index, cell in shifts:
        names = [ward, allowed(nurse), _day(date), *([str(index)] if index else [])]
        lines += _event(
            names,
            stamp,
            f"{cell.shift} {cell.skill}".replace("_", " "),
            _when(date, cell.shift, times),
        )
    dates = {date for date, _, _ in shifts}
    for date in sorted(set(issue.before.get(nurse, ())) - dates) if issue else ():
        when = [f"DTSTART;VALUE=DATE:{_day(date)}", "STATUS:CANCELLED"]
        lines += _event([ward, allowed(nurse), _day(date)], stamp, "no shift", when)
    if not shifts:
        end = monday + 7 * len(view.weeks) * DAY
        days = [f"DTSTART;VALUE=DATE:{_day(monday)}", f"DTEND;VALUE=DATE:{_day(end)}"]
        when = [*days, "TRANSP:TRANSPARENT", *(["STATUS:CANCELLED"] if issue else [])]
        lines += _event([ward, allowed(nurse), _day(monday), "none"], stamp, "no shift", when)
    return "".join(f"{_folded(line)}\r\n" for line in [*lines, "END:VCALENDAR"])


def file_names(nurses: Iterable[str]) -> dict[str, str]:
    """A file's name for each nurse, which each system takes; no two differ in case only."""
    names: dict[str, str] = {}
    taken = set()
    for nurse in nurses:
        plain = re.sub(r'[/\\:*?"<>|\ufffd\t\n\r]|^\.', "_", allowed(nurse))[:60]
        name = plain
        number = 1
        while name.lower() in taken:
            number += 1
            name = f"{plain}-{number}"
        taken.add(name.lower())
        names[nurse] = f"{name}.ics"
    return names


def write_calendars(
    view: RosterView,
    folder: Path,
    monday: datetime.date,
    times: Mapping[str, Times],
    issue: Issue | None = None,
) -> None:
    """Writes a calendar for each nurse, also for those of older issues, to the folder, which is
    made if it does not exist."""
    nurses = dict.fromkeys((*view.nurses, *(issue.before if issue else ())))
    texts = {
        name: calendar(view, nurse, monday, times, issue)
        for nurse, name in file_names(nurses).items()
    }
    folder.mkdir(parents=True, exist_ok=True)
    for name, text in texts.items():
        write_own_text(folder / name, text)
