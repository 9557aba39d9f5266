"""The tables of a ward's folder, for each year: a spreadsheet of the plans of the periods that
begin in it, and what was worked in it. They are copies, which no verb reads. A verb writes those
that it can have changed, and those that are not there, and leaves those of older years alone."""

from pathlib import Path
from typing import Collection, Iterable, Mapping

from ..week.dates import PlanDays
from ..week.own_files import is_own_file, without_link
from ..week.writing import write_own_bytes

TABLES = "tables"
# The tables of all years in one, which older versions have written.
_OF_ALL_YEARS = ("roster.ods", "worked.csv")


def sheet_name(days: PlanDays) -> str:
    """The name of the spreadsheet that has the plan of these days."""
    return "roster.ods" if days.monday is None else f"roster-{days.monday.year}.ods"


def table_name(year: int) -> str:
    """The name of the table of what was worked in a year."""
    return f"worked-{year}.csv"


def table_names(days: PlanDays) -> set[str]:
    """The names of the tables of what was worked on these days, if they have dates."""
    if days.monday is None or not days.weeks:
        return set()
    return set(map(table_name, range(days.monday.year, days.date(days.total - 1).year + 1)))


def _names(days: PlanDays) -> set[str]:
    return {sheet_name(days), *table_names(days)}


def names_to_write(
    top: Path, changed: Iterable[PlanDays], all_days: Iterable[PlanDays]
) -> set[str]:
    """The names of the tables to write if plans of some days may have changed."""
    names = {name for days in all_days for name in _names(days)}
    missing = {name for name in names if not is_own_file(top / TABLES / name)}
    older = {name for name in _OF_ALL_YEARS if name not in names}
    return {*older, *missing, *(name for days in changed for name in _names(days))}


def write_tables(
    top: Path, names: Collection[str], tables: Mapping[str, bytes]
) -> tuple[Path, ...]:
    """Writes the tables with these names, and takes those away that have nothing. Returns the paths
    of those that have other bytes now."""
    folder = top / TABLES
    without_link(folder)
    written = []
    for path in (folder / name for name in sorted(names)):
        data = tables.get(path.name, b"")
        if not data:
            if path.is_file():
                path.unlink()
            continue
        folder.mkdir(exist_ok=True)
        if not is_own_file(path) or path.read_bytes() != data:
            write_own_bytes(path, data)
            written.append(path)
    return tuple(written)
