"""The columns `from` and `until` of the sheet nurses: the days on which a nurse is in the ward.

On other days of the plan she is away, as if each of them had that word, and in a period without a
day of hers she has no row. Two rows of one nurse that meet are a change of contract: in a period
that has days of both, her shifts and weekends are parts of both contracts, in proportion to the
days, and all else is as in the row with more days.
"""

from dataclasses import replace
from typing import Mapping, NamedTuple, Sequence

from ..week.faults import Gathering, Misuse
from ..week.records import Limits
from ..week.slots import MAX_CONTRACTS, MAX_NUMBER
from ..week.words import readable
from .plan_days import Days, date_of
from .sheet_cells import SheetCell
from .sheet_files import Book
from .sheet_rows import SheetRow
from .ward_sheets import WardTables, table_of
from .written_days import DayWord

# The word for days before a nurse comes or after she leaves.
AWAY = "away"
_SAME = ("", "-", AWAY)
# More days than those of any plan.
_EVER = 10**6


class Stay(NamedTuple):
    """A row of the sheet nurses, the first day of the plan on which it counts, and the first one on
    which it does not any more."""

    row: SheetRow
    first: int
    end: int

    @property
    def is_for_ever(self) -> bool:
        """Whether both cells are empty."""
        return (self.first, self.end) == (-_EVER, _EVER)

    def number(self, total: int) -> int:
        """On how many days of a plan it counts."""
        return max(0, min(self.end, total) - max(self.first, 0))


class Employment(NamedTuple):
    """A spreadsheet without the rows of nurses who are not in the ward in a period, the days of the
    others on which they are not, and the rows of those whose contract changes in it, by their names
    in small letters."""

    book: Book
    away: Sequence[DayWord] = ()
    changes: Mapping[str, Sequence[Stay]] = {}


def employed(book: Book, days: Days) -> Employment:
    """The spreadsheet for the nurses of a period. Raises the faults of the two columns."""
    table = table_of(book, "nurses")
    if not {"from", "until"} & set(table.columns):
        return Employment(book)
    stays: dict[str, list[Stay]] = {}
    away: list[DayWord] = []
    changes = {}
    gone: dict[str, list[int]] = {"nurses": [], "plan": []}
    in_plan = {row.of("nurse").key: row for row in days.plan.rows}
    total = days.plan_days.total
    with Gathering() as faults:
        for row in table.rows:
            with faults.step():
                stays.setdefault(row.of("nurse").key, []).append(_stay(row, days))
        for nurse, rows in stays.items():
            with faults.step():
                _check_meeting(rows)
            here = [stay for stay in rows if stay.number(total)]
            main = max(here, key=lambda stay: stay.number(total), default=None)
            if len(here) > 1:
                changes[nurse] = here
            others = (stay for stay in rows if stay is not main and not stay.is_for_ever)
            gone["nurses"] += [stay.row.number for stay in others]
            if main:
                without = {
                    day
                    for day in range(total)
                    if not any(stay.first <= day < stay.end for stay in here)
                }
                with faults.step():
                    _check_cells(in_plan.get(nurse), days, without)
                name = main.row.of("nurse").text.replace(" ", "_")
                away += [DayWord(name, day, AWAY) for day in sorted(without)]
            elif nurse in in_plan:
                gone["plan"].append(in_plan[nurse].number)
    sheets = {
        name: [[] if row + 1 in numbers else cells for row, cells in enumerate(book.sheets[name])]
        for name, numbers in gone.items()
    }
    return Employment(book._replace(sheets={**book.sheets, **sheets}), away, changes)


def _stay(row: SheetRow, days: Days) -> Stay:
    """The days of a row; it counts for ever if its cells are empty."""
    begin, last = row.of("from"), row.of("until")
    first = _day(begin, days) if begin.text else -_EVER
    end = _day(last, days) + 1 if last.text else _EVER
    if first >= end:
        last.fault(f"'{last.text}' is before '{begin.text}': correct one of the two")
    return Stay(row, first, end)


def _day(cell: SheetCell, days: Days) -> int:
    """The day of the plan that a cell names, which may be before it or after it."""
    date = date_of(cell)
    if date and days.monday:
        return (date - days.monday).days
    if date or days.monday:
        has = "a date, and the sheet plan has none" if date else "no date"
        cell.fault(f"'{cell.text}' is {has}: write {days.plan_days.head(0)}, for example")
    try:
        return days.plan_days.number(cell.text, 0)
    except Misuse as fault:
        cell.fault(str(fault))


def _check_meeting(stays: Sequence[Stay]) -> None:
    """Each row of a nurse begins on the day after the one before it. Rows that count for ever are
    told as a name that is there already."""
    rows = sorted(stays, key=lambda stay: stay.first)
    for before, after in zip(rows, rows[1:]):
        if before.end != after.first and not (before.is_for_ever and after.is_for_ever):
            after.row.of("from").fault(
                f"{readable(after.row.of('nurse').text)} has row {before.row.number}, too: let one"
                " of them begin on the day after the one in the column until of the other, or"
                " delete one"
            )


def _check_cells(row: SheetRow | None, days: Days, without: set[int]) -> None:
    """The row of a nurse in the sheet plan has no other word on these days."""
    cells = [row.at(days.columns[day].column) for day in sorted(without)] if row else []
    for cell in cells:
        if cell.text.casefold() not in _SAME:
            cell.fault(
                f"'{cell.text}' is on a day on which she is not in the ward, by from and until of"
                " the sheet nurses: empty this cell, or correct them"
            )


def with_changed_contracts(
    ward: WardTables, changes: Mapping[str, Sequence[Stay]], total: int
) -> WardTables:
    """The ward in which each nurse with a change of contract in these days has one of her own, with
    the shifts and weekends of both in proportion, and all else as in the row with more days."""
    scenario = ward.scenario
    contracts = dict(scenario.contracts)
    kept = dict(ward.kept)
    nurses = dict(scenario.nurses)
    for name, nurse in scenario.nurses.items():
        stays = changes.get(name.casefold(), ())
        parts = [
            (contract, stay.number(total))
            for stay in stays
            for contract in [scenario.contracts[_contract(stay, scenario.contracts)]]
        ]
        named = "_".join(f"{contract.name}_{number}_days" for contract, number in parts)
        if parts and (named in contracts or len(contracts) < MAX_CONTRACTS):
            days = sum(number for _, number in parts)
            least = sum(contract.assignments.minimum * number for contract, number in parts)
            most = sum(contract.assignments.maximum * number for contract, number in parts)
            weekends = sum(contract.max_weekends * number for contract, number in parts)
            contracts[named] = replace(
                scenario.contract_of(name),
                name=named,
                assignments=Limits(least // days, min(MAX_NUMBER, -(-most // days))),
                max_weekends=min(MAX_NUMBER, -(-weekends // days)),
            )
            kept[named] = ward.kept[nurse.contract]
            nurses[name] = replace(nurse, contract=named)
    return ward._replace(scenario=replace(scenario, contracts=contracts, nurses=nurses), kept=kept)


def _contract(stay: Stay, contracts: Mapping[str, object]) -> str:
    """The contract of a row."""
    return stay.row.of("contract").known("contract", contracts.keys())
