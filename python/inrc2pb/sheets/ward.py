"""A ward: all that its spreadsheet says, with the days away that verbs have written."""

import re
from dataclasses import dataclass, field, replace
from functools import cached_property
from pathlib import Path
from typing import Collection, Iterable, Mapping, Sequence

from ..judging.absences import NO_SKILL, TooMany, with_requests
from ..judging.leave import Counted, counted, credited
from ..judging.limits import with_given
from ..judging.odd_values import Reach
from ..week.dates import PlanDays, Times
from ..week.facts import Claim, DayAway, facts_text, reasons_text
from ..week.faults import FileFault, FileFaults, Gathering
from ..week.files import history_text, scenario_text, solution_text, week_text
from ..week.records import (
    WEEK_DAYS,
    Cell,
    History,
    NurseDay,
    Scenario,
    Solution,
    WeekData,
    in_plan,
    in_week,
)
from ..week.slots import MAX_NUMBER
from .border import Border, border_claims, next_shift
from .odd_tables import odd_sheets, odd_weeks
from .employment import employed, with_changed_contracts
from .open_shifts import OpenShift, lowered
from .older_names import Begin, Names, Renamed
from .period_row import without_period
from .plan_days import Days, read_days
from .plan_sheets import (
    COUNTED,
    NOT_EMPLOYED,
    WeekSheet,
    check_held,
    read_needs,
    read_weeks,
)
from .sheet_cells import tidy
from .sheet_facts import claims_of, with_part_contracts
from .sheet_files import Book, read_book
from .ward_sheets import NIGHT, WardTables, read_ward, shift_times, table_of
from .week_rows import WeekRow, week_rows
from .written_days import DayWord, lost_shifts, with_written


@dataclass(frozen=True)
class Ward:
    """What the spreadsheet says now, with the days away that verbs have written."""

    # What is odd in the spreadsheet, and what plans can reach.
    warnings: Sequence[str]
    reach: Reach
    days: PlanDays
    # The contracts, nurses and shift types, with the parts of contracts that count, and the history
    # without days away.
    scenario: Scenario
    past: History
    # The absences and the limits that hold, as facts; the needs and wishes of each week; and the
    # shifts that are fixed.
    claims: tuple[Claim, ...]
    weeks: tuple[WeekData, ...]
    held: tuple[Cell, ...]
    # Why nurses are away, the days off that were promised, and as what days away count.
    reasons: Mapping[NurseDay, str]
    promised: frozenset[NurseDay]
    counted: Counted
    times: Mapping[str, Times]
    # The days whose needs have numbers of their own, as bank holidays have, and the rows of the
    # needs that have a week.
    holidays: frozenset[int]
    week_rows: Sequence[WeekRow]
    # The older names of nurses and shift types.
    was: Sequence[Renamed]
    book: Book
    # What nurses have at the begin of the next period, if it is planned.
    border: Border = field(default_factory=dict)
    # The shift types of which nobody has more days in a row than their maximum.
    kept_runs: frozenset[str] = frozenset()
    # The shifts that are left open, without which the minimum numbers of files are.
    opened: tuple[OpenShift, ...] = ()
    # What the period before knows of nurses.
    begin: Begin = Begin()
    # The weeks of the next periods that have plans.
    later_weeks: int = 0

    def with_absences(self, absences: Sequence[DayWord]) -> "Ward":
        """The ward of the same spreadsheet with other days away that verbs have written."""
        ward = ward_of(
            self.book,
            self.scenario.name,
            absences,
            period=self.days,
            opened=self.opened,
            begin=self.begin,
        )
        return ward.with_border(self.border, self.later_weeks)

    @property
    def longer(self) -> PlanDays:
        """Its days, and those of the next periods that have plans."""
        return self.days._replace(weeks=self.days.weeks + self.later_weeks)

    def with_border(self, border: Border, later_weeks: int = 0) -> "Ward":
        """The same with these shifts after its last day, and these later weeks."""
        older, new = (
            dict.fromkeys(border_claims(self.scenario, one, self.days.weeks))
            for one in (self.border, border)
        )
        claims = (claim for claim in self.claims if claim not in older)
        return replace(self, claims=(*claims, *new), border=border, later_weeks=later_weeks)

    def then(self, nurse: str, day: int, shift: str) -> str:
        """The shift of the next period, on its first day, because of which a nurse may not have
        this one, if it is so."""
        is_last = day == self.days.total - 1
        return next_shift(self.scenario, self.border, nurse, shift) if is_last else ""

    def with_open(self, opened: Sequence[OpenShift]) -> "Ward":
        """The same with these shifts left open."""
        return replace(self, opened=tuple(opened))

    @cached_property
    def texts(self) -> dict[str, str]:
        """The texts of the ward's files by their names, for `inrc2pb` and for people."""
        return self.texts_of([self.given(number) for number in range(len(self.weeks))])

    def texts_of(self, weeks: Sequence[WeekData]) -> dict[str, str]:
        """The same with these data of the weeks."""
        name = self.scenario.name
        why = {
            DayAway(day // WEEK_DAYS + 1, nurse, day % WEEK_DAYS): word
            for (nurse, day), word in self.reasons.items()
        }
        texts = {
            "ward.txt": scenario_text(self.scenario),
            "history-0.txt": history_text(credited(self.past, self.counted)),
            "facts.txt": facts_text(name, self.claims),
            "reasons.txt": reasons_text(name, why),
        }
        for number, week in enumerate(weeks):
            held = tuple(in_week(self.held, number))
            texts[f"week-{number}.txt"] = week_text(week)
            texts[f"fix-{number}.txt"] = solution_text(Solution(number, name, held))
        return texts

    def with_requests(self) -> list[WeekData]:
        """The data of the weeks with absences as requests. Raises FileFault if these are too
        many."""
        weeks = []
        for number in range(len(self.weeks)):
            try:
                data = with_requests(self.scenario, self.given(number), ()).data
            except TooMany as fault:
                where = f"sheet plan, {self.days.week_text(number)}"
                raise FileFault(self.book.path, 0, f"{where}: {fault}: {NO_SKILL}") from fault
            weeks.append(data)
        return weeks

    def given(self, number: int) -> WeekData:
        """The data of a week, with its absences and limits."""
        return with_given(self.scenario, self.asked(number), self.claims, number)

    def asked(self, number: int) -> WeekData:
        """The needs and wishes of a week, with minimum numbers without the open shifts."""
        return lowered(self.weeks[number], number, self.opened)

    @cached_property
    def nights(self) -> frozenset[str]:
        """The shift types of the night, which are known by their times, or else by their names."""
        return frozenset(
            name
            for name in self.scenario.shift_types
            if (self.times[name].is_night if name in self.times else NIGHT.search(name))
        )

    @property
    def credit(self) -> Mapping[str, int]:
        """The shifts as which the days away of each nurse count in the whole period."""
        return self.counted.shifts

    @cached_property
    def leaving(self) -> dict[str, int]:
        """The day from which each nurse is gone to the end of the plan, if there is one."""
        gone = {place for place, word in self.reasons.items() if word in NOT_EMPLOYED}
        total = self.days.total
        leaving: dict[str, int] = {}
        for nurse in dict.fromkeys(nurse for nurse, _ in sorted(gone)):
            first = total
            while NurseDay(nurse, first - 1) in gone:
                first -= 1
            if 0 < first < total:
                leaving[nurse] = first
        return leaving

    def names_since(self, known: Collection[Renamed]) -> Names:
        """The names of now, for a plan that knew these new names already."""
        return Names(one for one in self.was if one not in known)

    def knows(self, cell: Cell) -> bool:
        """Whether the ward has the names of a shift."""
        scenario = self.scenario
        return (
            cell.nurse in scenario.nurses
            and cell.shift in scenario.shift_types
            and cell.skill in scenario.skills
        )


def ward_name(path: Path) -> str:
    """A name for the ward, from that of the file."""
    return re.sub("[(),= ]", "_", tidy(path.resolve().stem)) or "ward"


def read_sheet(path: Path, name: str | None = None, absences: Sequence[DayWord] = ()) -> Ward:
    """The ward of a spreadsheet, which has this name, if it has one, with these days away in its
    plan. Raises FileFaults if sheets have mistakes, or more than files can have."""
    return ward_of(read_book(path), name or ward_name(path), absences)


def ward_of(
    book: Book,
    name: str,
    absences: Sequence[DayWord] = (),
    reasons: Sequence[str] = COUNTED,
    period: PlanDays | None = None,
    opened: Sequence[OpenShift] = (),
    begin: Begin = Begin(),
) -> Ward:
    """The ward of a period of a spreadsheet that was read, or of all its days. Absences for these
    reasons count as work, illnesses as the shifts that they have taken from plans on the wall.
    These shifts are left open, and `begin` has what the period before knows of nurses.
    Raises FileFaults if sheets have mistakes, or more than files can have."""
    columns = days_of(book, period)
    here, away_words, changes = employed(_with_contracts(book), columns)
    written = with_written(here, columns, [*away_words, *absences])
    days = read_days(written, period)
    with Gathering() as faults:
        tables = read_ward(written, name, days.weeks, faults)
        sheets = read_weeks(written, tables, days, faults)
    tables = tables._replace(history=_with_begin(tables, begin))
    check_held(tables, sheets)
    tables = with_changed_contracts(tables, changes, days.plan_days.total)
    away = _in_plan(sheet.reasons for sheet in sheets)
    as_shifts = counted(tables.scenario, away, reasons, lost_shifts(absences))
    tables = with_part_contracts(tables, sheets)
    claims = _claims(book, tables, credited(tables.history, as_shifts), sheets)
    ward = Ward(
        warnings=(),
        reach=Reach.ALL,
        days=days.plan_days,
        scenario=tables.scenario,
        past=tables.history,
        claims=claims,
        weeks=tuple(WeekData(name, sheet.requirements, tuple(sheet.wishes)) for sheet in sheets),
        held=in_plan([held.row for held in sheet.held] for sheet in sheets),
        reasons=away,
        promised=frozenset(_in_plan(dict.fromkeys(sheet.promised, "") for sheet in sheets)),
        counted=as_shifts,
        times=shift_times(written),
        holidays=_holidays(sheets),
        week_rows=week_rows(written, days),
        was=tables.was,
        book=book,
        kept_runs=tables.kept_runs,
        opened=tuple(opened),
        begin=begin,
    )
    past = credited(ward.past, ward.counted)
    data = [ward.given(number) for number in range(len(ward.weeks))]
    odd, reach = odd_weeks(ward.scenario, past, data, ward.counted, ward.days)
    warnings = [*odd_sheets(written, days, tables, sheets, ward.times), *odd]
    return replace(ward, warnings=warnings, reach=reach)


def _with_begin(tables: WardTables, begin: Begin) -> History:
    """The history with what the period before knows. A shift type that the sheets do not have is
    told later."""
    known = begin.nurses(tables.was)
    types = (None, *tables.scenario.shift_types)
    rows = {
        nurse: known[nurse] if nurse in known and known[nurse].last_shift in types else row
        for nurse, row in tables.history.nurses.items()
    }
    return replace(tables.history, nurses=rows)


def _with_contracts(book: Book) -> Book:
    """The spreadsheet without the row on periods, if its sheet of contracts can be read."""
    try:
        return without_period(book)
    except (FileFault, FileFaults):
        return book


def _in_plan(weeks: Iterable[Mapping[tuple[str, int], str]]) -> dict[NurseDay, str]:
    """The words of nurses' days of the plan, by those of each week."""
    return {
        NurseDay(nurse, WEEK_DAYS * number + day): word
        for number, week in enumerate(weeks)
        for (nurse, day), word in week.items()
    }


def _holidays(sheets: Sequence[WeekSheet]) -> frozenset[int]:
    """The days whose needs have numbers of their own, in weeks of which not all days have."""
    return frozenset(
        WEEK_DAYS * number + day
        for number, sheet in enumerate(sheets)
        if len(sheet.holidays) < WEEK_DAYS
        for day in sheet.holidays
    )


def _claims(
    book: Book, tables: WardTables, history: History, sheets: list[WeekSheet]
) -> tuple[Claim, ...]:
    """The absences and limits as facts. Raises FileFault if they are more than a file can have."""
    claims = claims_of(tables, history, sheets)
    if len(claims) > MAX_NUMBER:
        most = f"and a file {MAX_NUMBER} facts at most: {NO_SKILL}"
        raise FileFault(
            book.path, 0, f"sheets nurses and plan: they have {len(claims)} days away, {most}"
        )
    return tuple(claims)


def days_of(book: Book, period: PlanDays | None = None) -> Days:
    """The days of a period of the sheet plan. Raises their faults together with those of the other
    sheets."""
    try:
        return read_days(book, period)
    except (FileFault, FileFaults) as of_days:
        with Gathering() as faults:
            with faults.step():
                raise of_days
            ward = read_ward(book, "ward", 1, faults)
            read_needs(table_of(book, "needs"), ward, None, [], faults)
        raise
