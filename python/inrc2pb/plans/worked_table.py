"""The tables of what was worked, which payroll can read: a row for each nurse's day of a week that
is over on which she worked, was to work, or was away."""

import csv
import datetime
import io
from pathlib import Path
from typing import Iterable, Iterator, Sequence

from ..sheets.ods_file import no_formula
from ..sheets.ward import Ward
from ..week.facts import read_reasons
from ..week.faults import FileFault
from ..week.files import read_scenario
from ..week.records import WEEK_DAYS, Cell, NurseDay
from ..week.words import readable
from .kept_shifts import known_cells
from .periods import Period, kept_plans, periods_of, state_of
from .plan_files import roster_name
from .tables import table_name, table_names

HEADS = ("nurse", "date", "shift type", "skill", "planned")
_Row = tuple[str, ...]


def worked_tables(folders: Sequence[Path], ward: Ward, names: set[str]) -> dict[str, bytes]:
    """The tables with these names, of all periods of these folders that have dates, with the names
    that nurses have now, as far as weeks are over. `planned` is the shift of the last plan before
    the week was over."""
    planned = _planned_files(folders)
    tables: dict[str, list[_Row]] = {}
    for period in periods_of(folders):
        if names & table_names(period.days):
            for date, row in _rows(period, planned, ward):
                tables.setdefault(table_name(date.year), []).append(row)
    return {name: _text(tables[name]).encode() for name in names if name in tables}


def _text(rows: Iterable[_Row]) -> str:
    text = io.StringIO()
    csv.writer(text, lineterminator="\n").writerows([HEADS, *rows])
    return text.getvalue()


def _planned_files(folders: Sequence[Path]) -> dict[tuple[int, int], Path]:
    """The roster of each period and day as the day was planned last, before it was over or
    recorded."""
    return {
        (number, day): folder / roster_name(day // WEEK_DAYS)
        for folder, record, number in kept_plans(folders)
        for day in range(record.begin, record.days.total)
    }


def _rows(
    period: Period, planned: dict[tuple[int, int], Path], now: Ward
) -> Iterator[tuple[datetime.date, _Row]]:
    """The rows of a period with their dates, but for damaged folders."""
    try:
        state = state_of(period)
        ward = read_scenario(period.folder / "ward.txt")
        words = read_reasons(period.folder / "reasons.txt", ward)
    except (FileFault, OSError):
        return
    away = {NurseDay(one.nurse, WEEK_DAYS * (one.week - 1) + one.day): words[one] for one in words}
    before = _cells([planned.get((period.number, day)) for day in range(state.first)])
    works = {cell.nurse_day: cell for cell in state.cells}
    names = now.names_since(state.was)
    order = {nurse: number for number, nurse in enumerate(ward.nurses)}
    places = sorted(
        (
            place
            for place in {*works, *before, *away}
            if place.day < state.first and place.day // WEEK_DAYS not in state.as_planned
        ),
        key=lambda place: (place.day, order.get(place.nurse, len(order)), place.nurse),
    )
    for place in places:
        cell = works.get(place)
        shift = cell.shift if cell else away.get(place, "")
        was = before.get(place)
        texts = [
            names.nurse(place.nurse),
            shift,
            cell.skill if cell else "",
            was.shift if was else "",
        ]
        nurse, shift, skill, plan = (no_formula(readable(text)) for text in texts)
        date = period.days.date(place.day)
        yield date, (nurse, str(date), shift, skill, plan)


def _cells(paths: Sequence[Path | None]) -> dict[NurseDay, Cell]:
    """The shifts of days in these rosters of their weeks, as far as they are there."""
    known = {path: known_cells(path) for path in paths if path}
    return {
        NurseDay(cell.nurse, day): cell._replace(day=day)
        for day, path in enumerate(paths)
        for cell in (known[path] if path else ())
        if cell.day == day % WEEK_DAYS
    }
