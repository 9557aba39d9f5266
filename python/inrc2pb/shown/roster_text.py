"""A roster as a table of text, and as rows of a spreadsheet."""

import unicodedata
from typing import Iterator, Sequence

from ..week.faults import not_obeyed
from ..week.records import DAYS
from .roster_view import RosterView
from .totals import HEADS, LEGEND, totals
from .why import costs_text

# Colors that color-blind eyes distinguish (Okabe and Ito), and their numbers in a terminal. Shift
# types from the ninth on have them again.
COLORS = ("#e69f00", "#56b4e9", "#0072b2", "#009e73", "#f0e442", "#cc79a7", "#d55e00", "#999999")
TERMINAL_COLORS = (214, 74, 25, 36, 227, 175, 166, 246)
# A nurse who is away, in a table of several weeks.
AWAY = "-"


def ink_on(color: str) -> str:
    """Black or white, whichever has the greater contrast with the color (by its luminance, as WCAG
    defines it)."""
    parts = [int(color[index : index + 2], 16) / 255 for index in (1, 3, 5)]
    red, green, blue = (
        part / 12.92 if part <= 0.04045 else ((part + 0.055) / 1.055) ** 2.4 for part in parts
    )
    return "#000000" if 0.2126 * red + 0.7152 * green + 0.0722 * blue > 0.179 else "#ffffff"


def columns(text: str) -> int:
    """The columns that a text takes: a full-width letter, as of Chinese, takes two, and an accent
    of its own none."""
    return sum(
        (
            0
            if unicodedata.combining(letter)
            else 2
            if unicodedata.east_asian_width(letter) in "WF"
            else 1
        )
        for letter in text
    )


def _filled(text: str, width: int) -> str:
    """The text with blanks up to this number of columns."""
    return text + " " * (width - columns(text))


def cuts(names: Sequence[str], minimum: int) -> dict[str, str]:
    """Each name cut to the same length: the shortest, from `minimum` on, at which all of them
    differ."""
    length = minimum
    while len({name[:length] for name in names}) < len(set(names)):
        length += 1
    return {name: name[:length] for name in names}


def abbreviations(*shortened: dict[str, str]) -> list[str]:
    """A line with the meaning of each name that was cut, if one was."""
    cut = dict.fromkeys(
        f"{short} = {name}" for names in shortened for name, short in names.items() if short != name
    )
    return ["  ".join(cut)] if cut else []


def in_color(text: str, number: int) -> str:
    """A cell's text on the color of its shift type."""
    color = number % len(COLORS)
    ink = 16 if ink_on(COLORS[color]) == "#000000" else 231
    return f"\x1b[38;5;{ink};48;5;{TERMINAL_COLORS[color]}m{text}\x1b[0m"


def _with_weekend_apart(cells: Sequence[str], gap: str) -> str:
    return gap.join(cells[:5]) + f"{gap}|{gap}" + gap.join(cells[5:])


class TextTable:
    """The table of a roster. Several weeks stand next to one another, with shift types only, as
    short as they differ. With colors it is for a terminal, so names have codes in place of signs
    that a terminal would obey."""

    def __init__(self, view: RosterView, colored: bool = False) -> None:
        self.view = view
        self.colored = colored
        self.single = len(view.weeks) == 1
        self.nurses = self._cuts(view.nurses, 12)
        self.shifts = self._cuts(view.shifts, 5 if self.single else 1)
        self.skills = self._cuts(view.skills, 2)
        self.gap = "  " if self.single else " "
        cells = [
            self.text(week, nurse, day)
            for week in range(len(view.weeks))
            for nurse in view.nurses
            for day in range(7)
        ]
        self.width = max([3 if self.single else 2, *map(columns, cells)])
        self.has_away = AWAY in cells
        self.first = max([columns(name) for name in self.nurses.values()], default=0)
        self.types = self._cuts(view.shifts, 1)
        self.right = self._right()

    def _harmless(self, text: str) -> str:
        return not_obeyed(text) if self.colored else text

    def _cuts(self, names: Sequence[str], minimum: int) -> dict[str, str]:
        return {name: self._harmless(cut) for name, cut in cuts(names, minimum).items()}

    def _right(self) -> list[list[str]]:
        """The columns right of the days, each with its head and a text for each nurse: totals and
        costs, if they are known."""
        rows = []
        counted = totals(self.view)
        if counted:
            of_types = [list(map(str, total.by_shift.values())) for total in counted.values()]
            table = [list(self.types.values()), *of_types]
            wide = [max(map(columns, column)) for column in zip(*table)]
            rows.append(
                [" ".join(_filled(text, width) for text, width in zip(row, wide)) for row in table]
            )
            rows += [
                [head, *texts]
                for head, *texts in zip(HEADS, *(total.texts() for total in counted.values()))
            ]
        if self.view.has_costs:
            rows.append(
                [
                    "cost",
                    *(
                        f"{sum(self.view.costs[nurse].values()):4} "
                        f" {costs_text(self.view.costs[nurse])}"
                        for nurse in self.view.nurses
                    ),
                ]
            )
        return [[_filled(text, max(map(columns, column))) for text in column] for column in rows]

    def text(self, week: int, nurse: str, day: int) -> str:
        """The text of one nurse and day."""
        cells = self.view.cells(week, nurse, day)
        if not cells and self.view.is_away(week, nurse, day):
            return self._harmless(self.view.reason(week, nurse, day)) if self.single else AWAY
        skills = [f" {self.skills[cell.skill]}" if self.single else "" for cell in cells]
        return (
            "+".join(
                f"{self.shifts[cell.shift]}{skill}{cell.marks}"
                for cell, skill in zip(cells, skills)
            )
            or "."
        )

    def shown(self, week: int, nurse: str, day: int) -> str:
        """The same in its column."""
        cells = self.view.cells(week, nurse, day)
        padded = _filled(self.text(week, nurse, day), self.width)
        return (
            in_color(padded, self.view.shifts.index(cells[0].shift))
            if self.colored and cells
            else padded
        )

    def head(self) -> list[str]:
        """The title, and the names of the columns."""
        days = _with_weekend_apart([f"{day[: self.width]:{self.width}}" for day in DAYS], self.gap)
        between = "  ||  "
        lines = [self.view.title, ""]
        if not self.single:
            numbers = between.join(f"{week.name:{len(days)}}" for week in self.view.weeks)
            lines.append(f"{'':{self.first}}  {numbers}".rstrip())
        named = between.join([days] * len(self.view.weeks))
        return [
            *lines,
            "  ".join([" " * self.first, named, *(column[0] for column in self.right)]).rstrip(),
        ]

    def lines(self) -> list[str]:
        """The whole table."""
        view = self.view
        lines = list(map(self._harmless, self.head()))
        for row, (nurse, name) in enumerate(self.nurses.items(), 1):
            weeks = [
                _with_weekend_apart([self.shown(week, nurse, day) for day in range(7)], self.gap)
                for week in range(len(view.weeks))
            ]
            lines.append(
                "  ".join(
                    [
                        _filled(name, self.first),
                        "  ||  ".join(weeks),
                        *(column[row] for column in self.right),
                    ]
                ).rstrip()
            )
        names = [
            self.nurses,
            self.shifts,
            self.skills if self.single else {},
            self.types if self.right else {},
        ]
        below = abbreviations(*names)
        if totals(view):
            below.append(LEGEND)
        if self.has_away:
            below.append(f"{AWAY} = away")
        below += [*view.legend(), *view.misfilled()]
        return [*lines, "", *map(self._harmless, below)] if below else lines


def spreadsheet(view: RosterView) -> Iterator[list[object]]:
    """Rows of a spreadsheet: nurses by days, then the cost and the rules that charge it, then the
    totals."""
    single = len(view.weeks) == 1
    counted = totals(view)
    days = [day if single else f"{week.name} {day}" for week in view.weeks for day in DAYS]
    heads = (
        [
            "shifts",
            "minimum",
            "maximum",
            "weekends",
            "most weekends",
            "wishes",
            "granted",
            *view.shifts,
        ]
        if counted
        else []
    )
    yield ["nurse", *days, *(["cost", "rules"] if view.has_costs else []), *heads]
    for nurse in view.nurses:
        of_days = [
            view.cells(week, nurse, day) for week in range(len(view.weeks)) for day in range(7)
        ]
        shown = [
            " + ".join(" ".join([cell.shift, cell.skill, *cell.marks]) for cell in cells)
            for cells in of_days
        ]
        row: list[object] = [nurse, *shown]
        if view.has_costs:
            row += [sum(view.costs[nurse].values()), costs_text(view.costs[nurse])]
        if counted:
            total = counted[nurse]
            row += [
                total.shifts,
                *total.contract,
                total.weekends,
                total.max_weekends,
                len(total.wishes),
                total.granted,
                *total.by_shift.values(),
            ]
        yield row
