"""The days of a plan and their dates, with the one grammar in which users write them, and the times
of shift types."""

import datetime
import itertools
import re
from typing import Collection, Iterator, NamedTuple, Sequence

from .faults import Misuse
from .records import DAYS, WEEK_DAYS, in_a_row, week_name

from .words import joined, plural

MONTHS = ("Jan", "Feb", "Mar", "Apr", "May", "Jun", "Jul", "Aug", "Sep", "Oct", "Nov", "Dec")
DAY = datetime.timedelta(days=1)
# A shift that lasts longer than this after midnight is a night shift.
_NIGHT_ENDS = datetime.timedelta(hours=3)
TIMES = re.compile("([0-9]{1,2}:[0-9]{2}) ?[-\u2013] ?([0-9]{1,2}:[0-9]{2})")
_WEEKDAY = re.compile("(mon|tue|wed|thu|fri|sat|sun)[a-z]* ?([0-9]{1,2})?", re.IGNORECASE)
_CALENDAR_WEEK = re.compile(r"(?:cw|kw|calendar week)\.? ?([0-9]{1,2})", re.IGNORECASE)
_IN_WORDS = re.compile(
    f"(?:(mon|tue|wed|thu|fri|sat|sun)[a-z]* )?([0-9]{{1,2}}) ({'|'.join(MONTHS)})", re.IGNORECASE
)
_DAY_AND_MONTH = re.compile(rf"([0-9]{{1,2}})\.? ({'|'.join(MONTHS)})[a-z]*\.?", re.IGNORECASE)
_DATE = re.compile(r"([0-9]{4})-([0-9]{1,2})-([0-9]{1,2})|([0-9]{1,2})\.([0-9]{1,2})\.?([0-9]{4})?")


class Times(NamedTuple):
    """When a shift begins, and how long it lasts."""

    start: datetime.time
    length: datetime.timedelta

    @property
    def begin(self) -> datetime.timedelta:
        """The time from midnight to its begin."""
        return datetime.timedelta(hours=self.start.hour, minutes=self.start.minute)

    @property
    def end(self) -> datetime.timedelta:
        """The time from the midnight before it begins to its end."""
        return self.begin + self.length

    @property
    def is_night(self) -> bool:
        """Whether the shift takes a part of the night."""
        return self.end > DAY + _NIGHT_ENDS

    def __str__(self) -> str:
        end = (datetime.datetime.combine(datetime.date.min, self.start) + self.length).time()
        return f"{self.start:%H:%M} to {end:%H:%M}"


def hours_text(time: datetime.timedelta) -> str:
    """A time in hours, as `8 hours`, `1 hour` or `7:30 hours`."""
    hours, minutes = divmod(time // datetime.timedelta(minutes=1), 60)
    return f"{hours}:{minutes:02} hours" if minutes else plural(hours, "hour")


def date_text(date: datetime.date) -> str:
    """A date without its year, as `30 Nov`."""
    return f"{date.day} {MONTHS[date.month - 1]}"


class WrittenDate(NamedTuple):
    """A date as it is written: its text, and its year, if it has one, month and day."""

    text: str
    year: int | None
    month: int
    day: int

    def date(self, year: int = 0) -> datetime.date:
        """The date, of this year if the text has none. Raises ValueError if there is no such
        day."""
        return datetime.date(year if self.year is None else self.year, self.month, self.day)


def written_dates(text: str) -> Iterator[WrittenDate]:
    """The dates in a text, each written as `2026-11-30`, `30.11.2026`, or `30.11.` without its
    year."""
    for match in _DATE.finditer(text):
        year, month, day = match.groups()[:3] if match[1] else (match[6], match[5], match[4])
        yield WrittenDate(match[0], int(year) if year else None, int(month), int(day))


def written_date(text: str) -> WrittenDate | None:
    """The date that the whole text is, if it is one."""
    return next((date for date in written_dates(text) if date.text == text), None)


def date_without_year(text: str, monday: datetime.date) -> datetime.date | None:
    """The date from this Monday on that a text such as `25.12.` or `25 Dec` names, if it is one.
    Raises ValueError if there is no such day."""
    in_words = _DAY_AND_MONTH.fullmatch(text)
    month = MONTHS.index(in_words[2].title()) + 1 if in_words else 0
    written = written_date(f"{in_words[1]}.{month}." if in_words else text)
    if not written or written.year is not None:
        return None
    date = written.date(monday.year)
    return date if date >= monday else written.date(monday.year + 1)


def day_names(monday: datetime.date | None, week: int) -> Sequence[str]:
    """The days of a week, counted from 0, as `Mon 30 Nov`, or as `Mon` if the date is not known."""
    if monday is None:
        return DAYS
    return [
        f"{day} {date_text(monday + (7 * week + number) * DAY)}" for number, day in enumerate(DAYS)
    ]


def times_of(text: str, where: str) -> Times:
    """The times of a shift, given as `06:00-14:15`. Raises Misuse, which names `where`, if the text
    is otherwise."""
    match = TIMES.fullmatch(text)
    if not match:
        raise Misuse(
            f"{where}: '{text}' has no times: write when the shift begins and ends, such as"
            " 06:00-14:15"
        )
    start, end = (_minutes(where, time) for time in match.groups())
    length = (end - start) % (24 * 60) or 24 * 60
    return Times(datetime.time(start // 60 % 24, start % 60), datetime.timedelta(minutes=length))


def _minutes(where: str, time: str) -> int:
    """The minutes from midnight to a time, such as 6:00 or 24:00."""
    hours, minutes = map(int, time.split(":"))
    if minutes > 59 or hours * 60 + minutes > 24 * 60:
        raise Misuse(
            f"{where}: {time} is no time of a day: give hours from 0 to 24 and minutes from 00"
            " to 59"
        )
    return hours * 60 + minutes


# ---- days of a plan


class OtherPlan(Misuse):
    """A day that the plan does not have."""


def is_day(word: str) -> bool:
    """Whether the word is a day, such as `Fri`, `Fri 2`, `2026-12-04` or `4.12.`."""
    return bool(_WEEKDAY.fullmatch(word) or written_date(word))


def is_date(text: str) -> bool:
    """Whether the text is a date, such as `2026-12-04`, `4.12.` or `4 Dec`."""
    return bool(written_date(text) or _IN_WORDS.fullmatch(text))


def first_date(words: Sequence[str]) -> str:
    """The first day among words, if it is a date. The first word may be a name such as Mona."""
    pairs = map(" ".join, zip(words, words[1:]))
    for number, (word, pair) in enumerate(itertools.zip_longest(words, pairs, fillvalue="")):
        if is_date(pair) or is_date(word):
            return pair if is_date(pair) else word
        if number and is_day(word):
            return ""
    return ""


class PlanDays(NamedTuple):
    """The days of some weeks, counted from 0; in words weeks count from 1, with the calendar week
    beside it. The date of the first Monday is None if the sheet has no dates."""

    monday: datetime.date | None
    weeks: int

    @property
    def total(self) -> int:
        """The number of days."""
        return WEEK_DAYS * self.weeks

    def first_of(self, period: "PlanDays") -> int | None:
        """The first day of a period whose days are all among these."""
        if self.monday is None or period.monday is None:
            return None
        first = (period.monday - self.monday).days
        return first if 0 <= first <= self.total - period.total else None

    def next(self) -> "PlanDays":
        """Those of the period after this one, whose number of weeks is not known."""
        return PlanDays(None if self.monday is None else self.monday + self.total * DAY, 0)

    def date(self, day: int) -> datetime.date:
        """The date of a day of a plan with dates."""
        assert self.monday is not None
        return self.monday + day * DAY

    def calendar_week(self, week: int) -> int:
        """The calendar week of a week of a plan with dates."""
        return self.date(WEEK_DAYS * week).isocalendar()[1]

    def week_text(self, week: int) -> str:
        """A week in a sentence, as `week 1 (calendar week 49)`, or `week 1`."""
        name = week_name(week)
        return name if self.monday is None else f"{name} (calendar week {self.calendar_week(week)})"

    def weeks_text(self, weeks: Sequence[int]) -> str:
        """Weeks in a sentence, as `weeks 1 and 3 (calendar weeks 49 and 51)`, or
        `weeks 1 and 3`."""
        if len(weeks) == 1:
            return self.week_text(weeks[0])
        numbers = f"weeks {joined(str(week + 1) for week in weeks)}"
        return (
            numbers
            if self.monday is None
            else (
                f"{numbers} (calendar weeks"
                f" {joined(str(self.calendar_week(week)) for week in weeks)})"
            )
        )

    def week_number(self, text: str) -> int | None:
        """The week that a text names: `2` is the second one of the plan, and `CW 49`, or `49` in a
        plan of fewer weeks, a calendar week. None if the plan does not have it, or it is none."""
        calendar = _CALENDAR_WEEK.fullmatch(text)
        number = int(text) if re.fullmatch("[0-9]{1,2}", text) else 0
        if not calendar and 1 <= number <= self.weeks:
            return number - 1
        wanted = int(calendar[1]) if calendar else number
        weeks = range(0 if self.monday is None else self.weeks)
        return next((week for week in weeks if self.calendar_week(week) == wanted), None)

    def text(self, day: int) -> str:
        """A day in a sentence, as `Fri 4 Dec`, or `Fri of week 1`."""
        name = DAYS[day % WEEK_DAYS]
        return (
            f"{name} of week {day // WEEK_DAYS + 1}"
            if self.monday is None
            else f"{name} {date_text(self.date(day))}"
        )

    def span(self, days: Sequence[int]) -> str:
        """The first and the last of these days, as `Fri 4 Dec to Sun 6 Dec`."""
        return (
            self.text(days[0])
            if days[0] == days[-1]
            else f"{self.text(days[0])} to {self.text(days[-1])}"
        )

    def spans(self, days: Collection[int]) -> str:
        """Days in a sentence, those in a row together."""
        return joined(map(self.span, in_a_row(days)))

    def head(self, day: int) -> str:
        """The day as the head of a column, as `2026-12-04` or `Fri 1`."""
        return (
            f"{DAYS[day % WEEK_DAYS]} {day // WEEK_DAYS + 1}"
            if self.monday is None
            else str(self.date(day))
        )

    def number(self, text: str, near: int) -> int:
        """The day that a text names. A day of the week is the first one from the day `near` on.
        Raises OtherPlan if the plan does not have the day, and Misuse if the text is none."""
        weekday = _WEEKDAY.fullmatch(text)
        date = written_date(text)
        in_words = _IN_WORDS.fullmatch(text)
        if in_words:
            day = self.number(f"{in_words[2]}.{MONTHS.index(in_words[3].title()) + 1}.", near)
            if in_words[1] and in_words[1].title() != DAYS[day % WEEK_DAYS]:
                raise Misuse(
                    f"'{text}' is a {DAYS[day % WEEK_DAYS]}: write {self.head(day)}, if you mean"
                    " this day"
                )
        elif weekday:
            of_week = DAYS.index(weekday[1].title())
            week = self.week_number(weekday[2]) if weekday[2] else None
            # A week that the plan does not have is said below.
            beyond = WEEK_DAYS * (self.weeks if week is None else week)
            day = beyond + of_week if weekday[2] else near + (of_week - near) % WEEK_DAYS
        elif date:
            day = self._of_date(text, date)
        else:
            raise Misuse(
                f"'{text}' is no day: write a day such as {self.head(near)}, or Fri for the next"
                " Friday of the plan"
            )
        if not 0 <= day < self.total:
            raise OtherPlan(
                f"'{text}' is not in this plan: it has the days {self.head(0)} to"
                f" {self.head(self.total - 1)}"
            )
        return day

    def has(self, text: str) -> bool:
        """Whether the text is a date of these days."""
        try:
            return is_date(text) and self.number(text, 0) >= 0
        except Misuse:
            return False

    def _of_date(self, text: str, written: WrittenDate) -> int:
        if self.monday is None:
            raise Misuse(
                f"'{text}': the sheet plan has no dates: write a day such as {self.head(0)}, or"
                " dates into its heads"
            )
        try:
            date = written.date(self.monday.year)
            if date < self.monday and written.year is None:
                date = date.replace(year=date.year + 1)
        except ValueError:
            raise Misuse(f"there is no day '{text}': write a date such as {self.head(0)}") from None
        return (date - self.monday).days
