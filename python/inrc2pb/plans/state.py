"""What verbs have made of a ward: one value for each plan. Days count from the first Monday of the
plan everywhere but in the files of single weeks."""

import datetime
from dataclasses import dataclass, replace
from typing import Callable, Iterable, NamedTuple

from ..sheets.older_names import Names, Renamed
from ..sheets.open_shifts import OpenShift
from ..sheets.written_days import DayWord
from ..week.dates import PlanDays
from ..week.records import WEEK_DAYS, Cell, History, NurseDay, in_week


class SetDay(NamedTuple):
    """A nurse's day whose shift, or day off, was set: it is promised to her, and later plans
    and swaps keep it until it is taken back."""

    nurse: str
    day: int
    # What was written with it, or empty.
    reason: str = ""
    # Empty for a day off, and None in the file of an older version, which has it in the roster
    # only.
    shift: str | None = ""
    skill: str = ""

    @property
    def place(self) -> NurseDay:
        """The nurse's day."""
        return NurseDay(self.nurse, self.day)

    @property
    def cell(self) -> Cell | None:
        """The shift that is promised; None for a day off."""
        return Cell(self.nurse, self.day, self.shift, self.skill) if self.shift else None


class Swap(NamedTuple):
    """Two nurses who change places on these days of the plan."""

    nurse: str
    other: str
    days: tuple[int, ...]

    @property
    def pairs(self) -> tuple[tuple[str, str], tuple[str, str]]:
        """Each nurse with the one whose shifts she gets."""
        return (self.nurse, self.other), (self.other, self.nurse)

    @property
    def places(self) -> list[NurseDay]:
        """The days of both nurses."""
        return [NurseDay(nurse, day) for nurse, _ in self.pairs for day in self.days]


class Record(NamedTuple):
    """What a plan's folder says of itself."""

    # The verb that made it, and when.
    verb: str
    time: datetime.datetime
    days: PlanDays
    # The first week that is not over.
    open_week: int = 0
    # Whether it hangs on the wall, so that later plans change little.
    published: bool = False
    # The days away that verbs have written, of which the last one of a day holds.
    absences: tuple[DayWord, ...] = ()
    # The days of swaps that were written, and those that were set, whose shifts later plans keep.
    agreed: tuple[NurseDay, ...] = ()
    set_days: tuple[SetDay, ...] = ()
    # The words that its user typed.
    typed: str = ""
    # The number of its period in the folder, from 0, which an older version does not say.
    period: int | None = None
    # The shifts that are left open, and the older names that are new ones in the plan.
    opened: tuple[OpenShift, ...] = ()
    was: tuple[Renamed, ...] = ()
    # The days of bank holidays.
    holidays: tuple[int, ...] = ()
    # What no plan costs less than, as far as the last search of all shifts has said so.
    least: int | None = None
    # The swap that its verb has written, if it was one.
    swap: Swap | None = None
    # The first day after those that are recorded as they were worked.
    recorded: int = 0
    # The weeks that are over of which only is known how they were planned, since an older version
    # has ended them.
    as_planned: tuple[int, ...] = ()

    @property
    def begin(self) -> int:
        """The first day that is not recorded as it was worked."""
        return max(WEEK_DAYS * self.open_week, self.recorded)

    @property
    def made(self) -> str:
        """The verb as it was typed, if that is known, and its time."""
        return f"{self.typed or self.verb}, {self.time:%Y-%m-%d %H:%M}"


@dataclass(frozen=True)
class State:
    """A plan without its ward. `start` is the history before the first week, without days away. The
    first `planned` weeks have the shifts of `cells`: those that are over as they were worked, the
    others as they are planned. The others are those of a record."""

    days: PlanDays
    start: History
    open_week: int = 0
    planned: int = 0
    cells: tuple[Cell, ...] = ()
    published: bool = False
    absences: tuple[DayWord, ...] = ()
    agreed: tuple[NurseDay, ...] = ()
    set_days: tuple[SetDay, ...] = ()
    period: int = 0
    opened: tuple[OpenShift, ...] = ()
    was: tuple[Renamed, ...] = ()
    as_planned: tuple[int, ...] = ()
    # Whether the period before it is not over, so it begins as that one is planned.
    is_as_planned: bool = False
    # What no plan costs less than, as far as the last search of all shifts has said so.
    least: int | None = None
    # The first day after those that are recorded as they were worked.
    recorded: int = 0

    @property
    def promised(self) -> dict[NurseDay, SetDay]:
        """The nurses' days that were set."""
        return {promise.place: promise for promise in self.set_days}

    @property
    def kept(self) -> tuple[NurseDay, ...]:
        """The nurses' days that later plans keep as they are: those of swaps, and those that were
        set."""
        return tuple(dict.fromkeys((*self.agreed, *self.promised)))

    @property
    def is_over(self) -> bool:
        """Whether all its weeks are over."""
        return 0 < self.days.weeks <= self.open_week

    @property
    def first(self) -> int:
        """The first day that is not over."""
        return WEEK_DAYS * self.open_week

    @property
    def begin(self) -> int:
        """The first day that plans may change: those before it are over, or recorded."""
        return max(self.first, self.recorded)

    def roster(self, week: int) -> tuple[Cell, ...]:
        """The shifts of a week, with the days of the week, as files have them."""
        return in_week(self.cells, week)

    def with_open(self, cells: Iterable[Cell]) -> "State":
        """The same with these shifts in all weeks that are not over."""
        worked = (cell for cell in self.cells if cell.day < self.first)
        return replace(self, cells=(*worked, *cells), planned=self.days.weeks)

    def record(
        self, verb: str, time: datetime.datetime, typed: str = "", swap: Swap | None = None
    ) -> Record:
        """What the folder of a plan says of itself that this verb has made, for which these words
        were typed."""
        return Record(
            verb,
            time,
            self.days,
            open_week=self.open_week,
            published=self.published,
            absences=self.absences,
            agreed=self.agreed,
            set_days=self.set_days,
            typed=typed,
            period=self.period,
            least=self.least,
            opened=self.opened,
            was=self.was,
            swap=swap,
            recorded=self.recorded,
            as_planned=self.as_planned,
        )

    def renamed(self, names: Names) -> "State":
        """The same with the names that nurses and shift types have now."""
        return replace(
            self,
            start=renamed(self.start, names),
            cells=tuple(
                row._replace(nurse=names.nurse(row.nurse), shift=names.shift(row.shift))
                for row in self.cells
            ),
            absences=tuple(row._replace(nurse=names.nurse(row.nurse)) for row in self.absences),
            agreed=tuple(row._replace(nurse=names.nurse(row.nurse)) for row in self.agreed),
            set_days=tuple(
                row._replace(
                    nurse=names.nurse(row.nurse), shift=row.shift and names.shift(row.shift)
                )
                for row in self.set_days
            ),
            opened=tuple(row._replace(shift=names.shift(row.shift)) for row in self.opened),
        )

    def agreeing(self, fits: Callable[[NurseDay], bool]) -> "State":
        """The same with those days of swaps that fit. Days that were set stay until they are taken
        back."""
        return replace(self, agreed=tuple(place for place in self.agreed if fits(place)))

    def keeping(self, fits: Callable[[NurseDay], bool]) -> "State":
        """The same with those days of swaps, and those that were set, that fit."""
        return replace(
            self.agreeing(fits),
            set_days=tuple(promise for promise in self.set_days if fits(promise.place)),
        )


def renamed(history: History, names: Names) -> History:
    """The history with the names that nurses and shift types have now."""
    rows = [
        replace(
            row,
            nurse=names.nurse(row.nurse),
            last_shift=row.last_shift and names.shift(row.last_shift),
        )
        for row in history.nurses.values()
    ]
    return replace(history, nurses={row.nurse: row for row in rows})
