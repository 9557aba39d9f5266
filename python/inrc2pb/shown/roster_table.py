"""The table of the roster on a page, and the legend of its signs. It means the same without colors
and without sight."""

from typing import Iterator, Mapping, Sequence

from ..week.dates import hours_text
from ..week.words import OFF, readable
from .changes import shifts_text
from .markup import Markup, element, hidden, joined, shown
from .page_content import (
    HOLIDAY,
    HOLIDAY_MEANING,
    Content,
    cells,
    classes,
    column,
    day_heads,
    first,
    groups_of_weeks,
    table,
    weekend_class,
)
from .roster_text import COLORS, cuts
from .roster_view import MEANINGS, ShownCell
from .totals import mean_length, sum_heads, worked

# Weeks next to one another in a table, so that it fits a page.
WEEKS_OF_ROSTER = 4
# The most nurses whose rows are high in print, so that a table fits one page.
MOST_ROOMY = 25
CHANGED = "\u0394"
# The reasons for days off that are none to be away: those on which a nurse never works, and
# promised ones.
_DAYS_OFF = (OFF, "promised")
WEEKENDS = "WE"
# The short heads of sums on a wall, and what they mean.
SUM_HEADS = {
    "shifts": "\u03a3",
    "hours": "h",
    "nights": "Nt",
    "weekends": WEEKENDS,
    "wishes granted": "W",
}
MEANINGS_OF_SUMS = {
    "shifts": "shifts in the period, with those as which days away count",
    "hours": "hours of these, {} for each day away that counts as a shift",
    "nights": "nights",
    "weekends": "weekends with work",
    "wishes granted": "wishes granted, of all",
}
SWAPPED = "\u21c4"
SWAPPED_MEANING = "a swap that was written"
PROMISED = "\u2713"
PROMISED_MEANING = "promised: swaps and later plans keep it"


def _small(names: dict[str, str]) -> dict[str, str]:
    """Short names of skills in small letters, so that none looks like a shift type, if they still
    differ."""
    small = {name: short.lower() for name, short in names.items()}
    return small if len(set(small.values())) == len(names) else names


class RosterTable:
    """The table of the roster."""

    def __init__(self, page: Content) -> None:
        self.page = page
        self.view = page.view
        self.single = len(self.view.weeks) == 1
        self.short = cuts(self.view.shifts, 1)
        self.skills = _small(cuts(self.view.skills, 1))
        self.changed = {(change.week, change.nurse, change.day): change for change in page.changes}

    def tables(self) -> Iterator[Markup]:
        """A table for each four weeks. On a wall the last one has the sums of each nurse in the
        period beside it, or, if they are not known, her shifts of each type and her weekends in
        these weeks."""
        groups = groups_of_weeks(len(self.view.weeks), WEEKS_OF_ROSTER)
        counts = self._counts() if self.page.only_table else {}
        for weeks in groups:
            beside = counts if weeks == groups[-1] else {}
            rows = [
                [
                    self._name(nurse, weeks[0]),
                    *(self._cell(week, nurse, day) for week in weeks for day in range(7)),
                    *cells(beside.get(nurse, ()), "sum"),
                ]
                for nurse in self.view.nurses
            ]
            *above, days = day_heads(self.page, weeks, "nurse")
            if beside:
                text = "period" if self.page.sums else self.view.weeks_text
                summed = element("th", text, scope="colgroup", colspan=str(len(self._sums())))
                above = [joined(head, summed) for head in above]
                days = joined(days, *(column(name, "sum") for name in self._sums()))
            room = (
                " roomy"
                if self.page.only_table and len(groups) == 1 and len(rows) <= MOST_ROOMY
                else ""
            )
            yield table(
                "Shifts of each nurse",
                [*above, days],
                rows,
                ("roster" if self.single else "roster many") + room,
            )

    def _sums(self) -> list[str]:
        """The heads of the columns with sums: short ones of those of the period, or names of shift
        types, as in the cells, and that of weekends."""
        if self.page.sums:
            return [SUM_HEADS[head] for head in sum_heads(bool(self.page.times))]
        return [
            *(readable(shift) if self.single else self.short[shift] for shift in self.view.shifts),
            WEEKENDS,
        ]

    def _counts(self) -> Mapping[str, Sequence[str]]:
        """The sums of each nurse."""
        if self.page.sums:
            return {
                nurse: sums.texts(bool(self.page.times)) for nurse, sums in self.page.sums.items()
            }
        return {nurse: list(map(str, numbers)) for nurse, numbers in worked(self.view).items()}

    def _name(self, nurse: str, week: int) -> Markup:
        """The head of a nurse's row. By keyboard one goes from name to name, and not from cell to
        cell."""
        if not self.page.link:
            return first(readable(nurse))
        return element(
            "th", element("a", readable(nurse), href=self.page.link(week, nurse, 0)), scope="row"
        )

    def _cell(self, week: int, nurse: str, day: int) -> Markup:
        cells = self.view.cells(week, nurse, day)
        change = self.changed.get((week, nurse, day))
        parts = [self._shift(cell, self.page.marks(week, nurse, day, cell.marks)) for cell in cells]
        if not cells and self.view.is_away(week, nurse, day):
            parts.append(element("span", self._why(week, nurse, day), class_="away"))
        elif not cells and change:
            parts.append(element("span", OFF, class_="away"))
        if change:
            before = shifts_text(change.before) if self.page.only_table else change.before_text
            older = f" {self.page.changed}, instead of {readable(before)}"
            parts.append(joined(shown(CHANGED, class_="mark"), hidden(older)))
        for sign, meaning, is_so in (
            (SWAPPED, SWAPPED_MEANING, self.page.is_swapped(week, nurse, day)),
            (PROMISED, PROMISED_MEANING, self.page.is_promised(week, nurse, day)),
        ):
            if is_so:
                parts.append(joined(shown(sign, class_="mark"), hidden(f", {meaning}")))
        number = self.view.shifts.index(cells[0].shift) % len(COLORS) if cells else None
        kinds = [weekend_class(day), f"s{number}" if cells else None, "changed" if change else None]
        if self.page.link:
            named = hidden(f"{readable(nurse)}, {self.page.days(week)[day]}: ")
            parts = [
                element(
                    "a",
                    named,
                    *(parts or [shown("\u00b7")]),
                    href=self.page.link(week, nurse, day),
                    tabindex="-1",
                )
            ]
        return element("td", *parts, class_=classes(*kinds))

    def _why(self, week: int, nurse: str, day: int) -> str:
        """Why a nurse is away on a day. On a wall nobody reads why, and a day off is one for
        whatever reason."""
        why = self.view.reason(week, nurse, day)
        if self.page.only_table:
            return "" if why in _DAYS_OFF else "away"
        return "off" if why in _DAYS_OFF else why

    def _shift(self, cell: ShownCell, marks: str) -> Markup:
        """A shift, and its skill, with these marks."""
        shift = readable(cell.shift)
        skill = readable(cell.skill)
        signs = [
            joined(shown(mark, class_="mark"), hidden(f", {MEANINGS[mark]}")) for mark in marks
        ]
        if self.single:
            return joined(element("b", shift), " ", element("small", skill), *signs)
        short = element("b", self.short[cell.shift])
        if len(self.skills) > 1:
            short = joined(short, element("small", self.skills[cell.skill]))
        return joined(shown(short), hidden(f"{shift} {skill}"), *signs)

    def legend(self) -> list[str]:
        """The meaning of short names, the times of shift types, and the marks and sums."""
        page = self.page
        marks = {
            mark
            for index, week in enumerate(self.view.weeks)
            for row in week.cells
            for mark in page.marks(index, *row.nurse_day, week.marks(row))
        }
        is_swapped = any(page.is_swapped(*place) for place in page.swapped)
        signs = [
            *((mark, meaning, mark in marks) for mark, meaning in MEANINGS.items()),
            (CHANGED, page.changed, bool(self.changed)),
            (SWAPPED, SWAPPED_MEANING, is_swapped),
            (PROMISED, PROMISED_MEANING, bool(page.promised)),
            (HOLIDAY, HOLIDAY_MEANING, bool(page.holidays)),
        ]
        said = [f"{sign} = {meaning}" for sign, meaning, is_there in signs if is_there]
        return [*self._names(), *said, *(self._sums_in_words() if page.only_table else ())]

    def _names(self) -> Iterator[str]:
        """The short names of shift types and skills, and the times of shift types."""
        for shift in self.view.shifts:
            short = "" if self.single or self.short[shift] == shift else f"{self.short[shift]} = "
            times = f", {self.page.times[shift]}" if shift in self.page.times else ""
            if short or times:
                yield f"{short}{readable(shift)}{times}"
        for skill, short in self.skills.items():
            if short != skill and not self.single and len(self.skills) > 1:
                yield f"{short} = {readable(skill)}"

    def _sums_in_words(self) -> Iterator[str]:
        """The heads of sums, and what they mean."""
        if not self.page.sums:
            yield f"{WEEKENDS} = weekends with work"
            return
        mean = hours_text(mean_length(self.page.times))
        for head in sum_heads(bool(self.page.times)):
            yield f"{SUM_HEADS[head]} = {MEANINGS_OF_SUMS[head].format(mean)}"
