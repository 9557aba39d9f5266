"""What a page of a roster shows, and the parts of which its tables are made: captions, heads of
rows and columns, and days."""

import datetime
from dataclasses import dataclass, field
from typing import Callable, Collection, Iterable, Mapping, Sequence

from ..week.dates import DAY, Times, day_names
from ..week.records import DAYS, week_name
from ..week.words import readable
from .changes import Change, changes
from .markup import Markup, element, hidden, joined, shown
from .roster_view import AWAY, HELD, RosterView
from .totals import Sums

HOLIDAY = "\u2022"
HOLIDAY_MEANING = "other numbers of nurses are needed, as on a bank holiday"


@dataclass(frozen=True)
class Content:
    """What a page shows."""

    view: RosterView
    # An older roster.
    old: RosterView | None = None
    # The date of the first Monday, and the times of shift types, as far as they are known.
    monday: datetime.date | None = None
    times: Mapping[str, Times] = field(default_factory=dict)
    # For a wall: nothing on what the roster costs, nor on wishes and held shifts.
    only_table: bool = False
    # The address of a nurse's day in a week of the table, if its cells are links.
    link: Callable[[int, str, int], str] | None = None
    # The name of the ward for people, if the roster's own one is not, and which the older
    # roster is.
    name: str = ""
    since: str = "the older roster"
    # Days from the first Monday on with numbers of their own, as bank holidays have.
    holidays: Collection[int] = ()
    # When the page was made.
    as_of: datetime.datetime | None = None
    # Lines on what to look at, and on shifts that are left open.
    notes: Sequence[str] = ()
    opened: Sequence[str] = ()
    # The weeks of the table, nurses and days of swaps that were written, and of promised days.
    swapped: Collection[tuple[int, str, int]] = ()
    promised: Collection[tuple[int, str, int]] = ()
    # The name of the plan of a ward's folder that the page shows.
    plan: str = ""
    # What each nurse has in the whole period, and in that and all earlier ones of the folder,
    # if there are some.
    sums: Mapping[str, Sums] = field(default_factory=dict)
    all_sums: Mapping[str, Sums] = field(default_factory=dict)

    def week_name(self, week: int) -> str:
        """The name of a week: its number, and that of the calendar if its dates are known."""
        name = week_name(self.view.weeks[week].number)
        if self.monday is None:
            return name
        return f"{name}, calendar week {(self.monday + 7 * week * DAY).isocalendar()[1]}"

    def is_holiday(self, week: int, day: int) -> bool:
        """Whether a day has numbers of its own."""
        return len(DAYS) * week + day in self.holidays

    def days(self, week: int) -> Sequence[str]:
        """The names of a week's days."""
        return day_names(self.monday, week)

    def is_swapped(self, week: int, nurse: str, day: int) -> bool:
        """Whether the page shows that a nurse's day is of a swap that was written."""
        return (week, nurse, day) in self.swapped and not self.only_table

    def is_promised(self, week: int, nurse: str, day: int) -> bool:
        """Whether a nurse's day is promised to her."""
        return (week, nurse, day) in self.promised

    def marks(self, week: int, nurse: str, day: int, marks: str) -> str:
        """Those marks of a nurse's shift that the page shows. One that is promised has a sign for
        that."""
        shown_marks = (mark for mark in marks if mark == AWAY or not self.only_table)
        return "".join(
            mark for mark in shown_marks if mark != HELD or not self.is_promised(week, nurse, day)
        )

    @property
    def changed(self) -> str:
        """The meaning of the sign of a changed day."""
        return f"changed since {self.since}"

    @property
    def changes(self) -> list[Change]:
        """What differs from the older roster."""
        return changes(self.old, self.view) if self.old else []

    def open_lines(self) -> list[Markup]:
        """A red line for each shift that is left open."""
        return [element("p", line, class_="open") for line in self.opened]


def table(
    caption: str,
    heads: Sequence[Markup],
    rows: Sequence[Sequence[Markup]],
    class_: str | None = None,
) -> Markup:
    """A table with its caption, the rows of its head and its rows."""
    head = joined(*(element("tr", row) for row in heads))
    body = joined(*(Markup(f"{element('tr', *row)}\n") for row in rows))
    return element(
        "table",
        element("caption", caption),
        element("thead", head),
        element("tbody", body),
        class_=class_,
    )


def column(text: str, class_: str | None = None) -> Markup:
    """The head of a column."""
    return element("th", text, scope="col", class_=class_)


def first(text: str) -> Markup:
    """The head of a row."""
    return element("th", text, scope="row")


def cells(texts: Iterable[str], class_: str | None = None) -> list[Markup]:
    """The cells of a row."""
    return [element("td", text, class_=class_) for text in texts]


def named_row(nurse: str, texts: Iterable[str]) -> list[Markup]:
    """A nurse's row: her name, and these cells."""
    return [first(readable(nurse)), *cells(texts)]


def classes(*kinds: str | None) -> str | None:
    """The classes of an element, as far as it has them."""
    return " ".join(kind for kind in kinds if kind) or None


def weekend_class(day: int) -> str | None:
    """The class of the cells of Saturday and of Sunday."""
    return {5: "sat", 6: "sun"}.get(day)


def groups_of_weeks(shown_weeks: int, size: int) -> list[range]:
    """The weeks that stand next to one another, at most so many."""
    return [range(first, min(first + size, shown_weeks)) for first in range(0, shown_weeks, size)]


def day_heads(page: Content, weeks: Sequence[int], corner: str) -> list[Markup]:
    """The heads of the columns of some weeks: the weeks, if there are several, and their days."""
    days = []
    for week in weeks:
        for day, name in enumerate(page.days(week)):
            word, _, date = name.partition(" ")
            sign = (
                [joined(shown(HOLIDAY, class_="mark"), hidden(f", {HOLIDAY_MEANING}"))]
                if page.is_holiday(week, day)
                else []
            )
            days.append(
                column(
                    joined(
                        word, *sign, *([element("span", f" {date}", class_="date")] if date else [])
                    ),
                    weekend_class(day),
                )
            )
    row = joined(column(corner), *days)
    if len(page.view.weeks) == 1:
        return [row]
    named = [element("th", page.week_name(week), scope="colgroup", colspan="7") for week in weeks]
    return [joined(element("td"), *named), row]
