"""The ward and its first history, from the sheets shifts, contracts and nurses of a spreadsheet."""

import re
from typing import Collection, NamedTuple, Sequence

from ..week.dates import Times, times_of
from ..week.facts import SHIFTS, WEEKENDS, WORK_DAYS
from ..week.faults import Gathering, Misuse
from ..week.records import DAYS, Contract, History, Limits, Nurse, NurseHistory, Scenario, ShiftType
from ..week.slots import MAX_CONTRACTS, MAX_NUMBER, MAX_NURSES, MAX_SHIFTS, MAX_SKILLS
from ..week.words import readable
from .older_names import Renamed, older_names
from .sheet_cells import KEPT, SheetCell, day_meant, new_name
from .sheet_files import Book
from .sheet_rows import SheetRow, Table
from .skill_names import SkillNames

_WEEKDAYS = ("Monday", "Tuesday", "Wednesday", "Thursday", "Friday", "Saturday", "Sunday")
NIGHT = re.compile("night|nacht|nuit|noche|notte|noite", re.IGNORECASE)
_YES = ("1", "yes", "x", "true")
_NO = ("", "0", "no", "-", "false")
HEADS = {
    "shifts": (
        ("shift",),
        ("min in a row", "max in a row", "not followed by", "times", "rest", "was"),
    ),
    "contracts": (
        ("contract",),
        tuple(
            "shifts min,shifts max,work min,work max,off min,off max,weekends,"
            "complete weekends,was".split(",")
        ),
    ),
    "nurses": (
        ("nurse", "contract", "skills"),
        tuple(
            "never,always off,worked,worked weekends,last shift,days on it,days of work,"
            "days off,was,from,until".split(",")
        ),
    ),
    "needs": (("shift", "skill", *(day.casefold() for day in DAYS)), ("week",)),
}

# Words with a meaning of their own in cells and files, so no shift type has such a name.
OWN_WORDS = ("none", "any", "off", "wish", "away", "ill", "leave", "unpaid", "training")
# The maxima of a contract that may be never exceeded, by their columns.
_IN_A_ROW = "max in a row"
_KEPT = {"shifts max": SHIFTS, "work max": WORK_DAYS, "weekends": WEEKENDS}


class WardTables(NamedTuple):
    """A ward, its first history, each nurse's shift types that she never works and days of the week
    on which she is always off, the kinds of maxima that each contract never exceeds, the first cell
    with each skill, and where faults of unknown names go.
    """

    scenario: Scenario
    history: History
    never: dict[str, tuple[list[str], list[int]]]
    kept: dict[str, set[str]]
    skills: dict[str, SheetCell]
    unknown: "Unknown"
    # The older names of nurses and shift types.
    was: Sequence[Renamed]
    # The shift types whose maximum of days in a row is never exceeded.
    kept_runs: frozenset[str] = frozenset()


class Unknown(NamedTuple):
    """Where faults of names that these sheets do not have are kept: with all others, or, if a name
    of them has a fault itself, apart from them, since it may be the one that is meant."""

    shifts: Gathering
    nurses: Gathering


def read_ward(book: Book, name: str, weeks: int, faults: Gathering) -> WardTables:
    """The ward of these sheets, with this name and number of weeks. What has a fault gets a value
    that no later fault comes from. Raises the faults at once if a sheet has no rows that can be
    read, or not the names of others."""
    shifts, contract_rows, nurse_rows, needs = [
        faults.tried(lambda: table_of(book, sheet), None) for sheet in HEADS
    ]
    shift_types, of_shifts = _shift_types(shifts, faults) if shifts else ({}, faults)
    contracts, kept, of_contracts = (
        _contracts(contract_rows, faults) if contract_rows else ({}, {}, faults)
    )
    for table, kind, number, most in (
        (shifts, "shift types", len(shift_types), MAX_SHIFTS),
        (contract_rows, "contracts", len(contracts), MAX_CONTRACTS),
    ):
        if table and not 1 <= number <= most:
            with faults.step():
                _check_number(table, kind, number, most)
            faults.end()
    if not (shifts and contract_rows and nurse_rows and needs):
        faults.end()
    skills = SkillNames(
        [cell.text for row in _rows(needs) for cell in [row.of("skill")] if cell.text]
    )
    nurses: dict[str, Nurse] = {}
    taken: set[str] = set()
    past: dict[str, NurseHistory] = {}
    never: dict[str, tuple[list[str], list[int]]] = {}
    of_nurses = faults
    for row in _rows(nurse_rows):
        before = faults.number
        nurse = new_name(row.of("nurse"), "nurse", taken, faults)
        of_nurses = Gathering() if faults.number > before else of_nurses
        contract = of_contracts.tried(
            lambda: row.of("contract").known("contract", contracts), next(iter(contracts))
        )
        record = Nurse(nurse, contract, skills.of(row.of("skills"), faults))
        shift_names = [
            of_shifts.tried(lambda: part.known("shift type", shift_types), "")
            for part in row.of("never").parts()
        ]
        no_days: list[int] = []
        off = faults.tried(lambda: days_off(row.of("always off")), no_days)
        of_past = _past(row, nurse, shift_types, faults, of_shifts)
        if nurse and nurse not in nurses:
            nurses[nurse] = record
            past[nurse] = of_past
            never[nurse] = ([shift for shift in shift_names if shift], off)
    for kind, number, most in (
        ("nurses", len(nurses), MAX_NURSES),
        ("skills", len(skills.cells), MAX_SKILLS),
    ):
        with faults.step():
            _check_number(table_of(book, "nurses"), kind, number, most)
    scenario = Scenario(
        name,
        weeks,
        tuple(skills.cells),
        shift_types=shift_types,
        contracts=contracts,
        nurses=nurses,
    )
    history = History(0, name, past)
    return WardTables(
        scenario,
        history,
        never=never,
        kept=kept,
        skills=skills.cells,
        unknown=Unknown(of_shifts, of_nurses),
        was=[
            *older_names(nurse_rows, "nurse", nurses, faults),
            *older_names(shifts, "shift", shift_types, faults),
        ],
        kept_runs=_kept_runs(shifts, faults) if shifts else frozenset(),
    )


def _kept_runs(table: Table, faults: Gathering) -> frozenset[str]:
    """The shift types whose maximum of days in a row is never exceeded."""
    for head, cell in table.kept.items():
        with faults.step():
            if head != _IN_A_ROW:
                cell.fault(f"the sign {KEPT} is for {_IN_A_ROW}: delete it here")
    return frozenset(
        row.of("shift").text.replace(" ", "_")
        for row in table.rows
        for text in [row.of(_IN_A_ROW).text]
        if text.endswith(KEPT) or (_IN_A_ROW in table.kept and text)
    )


def _rows(table: Table | None) -> Sequence[SheetRow]:
    return table.rows if table else ()


def table_of(book: Book, name: str) -> Table:
    """One of the sheets shifts, contracts, nurses and needs."""
    heads, optional = HEADS[name]
    return Table(book, name, heads, optional)


def _check_number(table: Table, kind: str, number: int, most: int) -> None:
    if not 1 <= number <= most:
        table.fault(f"it has {number} {kind}, and a ward has 1 to {most}: correct the rows")


def days_off(cell: SheetCell) -> list[int]:
    """The days of the week that the cell names, with commas between."""
    names = {
        name.casefold(): day for day, full in enumerate(_WEEKDAYS) for name in (full, DAYS[day])
    }
    days = []
    for part in cell.parts():
        if part.text.casefold() not in names:
            if day_meant(part.text):
                part.fault(f"'{part.text}' is no day of the week: write {day_meant(part.text)}")
            part.fault(
                f"'{part.text}' is no day of the week: write days with commas between, such as"
                " Mon, Tue"
            )
        days.append(names[part.text.casefold()])
    return days


def _shift_types(table: Table, faults: Gathering) -> tuple[dict[str, ShiftType], Gathering]:
    """The shift types, and where faults of names that are none of them go."""
    names: dict[str, SheetRow] = {}
    taken: set[str] = set()
    before = faults.number
    for row in table.rows:
        cell = row.of("shift")
        name = new_name(cell, "shift type", taken, faults)
        with faults.step():
            if name.casefold() in OWN_WORDS:
                cell.fault(
                    f"'{cell.text}' has a meaning of its own in the ward's files: use another name"
                )
        if name:
            names.setdefault(name, row)
    unknown = faults if faults.number == before else Gathering()
    return {
        name: _shift_type(row, name, names, faults, unknown) for name, row in names.items()
    }, unknown


def _shift_type(
    row: SheetRow, name: str, names: Collection[str], faults: Gathering, unknown: Gathering
) -> ShiftType:
    parts = row.of("not followed by").parts()
    after = [unknown.tried(lambda: part.known("shift type", names), "") for part in parts]
    limits = _limits(row, "min in a row", "max in a row", faults)
    return ShiftType(name, limits, tuple(dict.fromkeys(other for other in after if other)))


def shift_times(book: Book) -> dict[str, Times]:
    """When the shifts of each type begin and end, if the sheet has it for one of them."""
    cells = {
        row.of("shift").text.replace(" ", "_"): row.of("times")
        for row in table_of(book, "shifts").rows
    }
    if not any(cell.text for cell in cells.values()):
        return {}
    times: dict[str, Times] = {}
    with Gathering() as faults:
        for name, cell in cells.items():
            with faults.step():
                try:
                    times[name] = times_of(cell.text, readable(name))
                except Misuse as fault:
                    cell.fault(f"{fault}; all shifts have times, or none has")
    return times


def _contracts(
    table: Table, faults: Gathering
) -> tuple[dict[str, Contract], dict[str, set[str]], Gathering]:
    """The contracts, the kinds of maxima that each of them never exceeds, and where faults of names
    that are none of them go."""
    contracts: dict[str, Contract] = {}
    taken: set[str] = set()
    kept: dict[str, set[str]] = {}
    unknown = faults
    for head, cell in table.kept.items():
        with faults.step():
            if head not in _KEPT:
                cell.fault(f"the sign {KEPT} is for {', '.join(_KEPT)}: delete it here")
    for row in table.rows:
        before = faults.number
        name = new_name(row.of("contract"), "contract", taken, faults)
        unknown = Gathering() if faults.number > before else unknown
        contract = _contract(row, name, faults)
        texts = {head: row.of(head).text for head in _KEPT}
        if name and name not in contracts:
            contracts[name] = contract
            kept[name] = {
                _KEPT[head]
                for head, text in texts.items()
                if text.endswith(KEPT) or (head in table.kept and text)
            }
    return contracts, kept, unknown


def _contract(row: SheetRow, name: str, faults: Gathering) -> Contract:
    return Contract(
        name,
        _limits(row, "shifts min", "shifts max", faults),
        _limits(row, "work min", "work max", faults),
        days_off=_limits(row, "off min", "off max", faults),
        max_weekends=faults.tried(lambda: _maximum(row, "weekends"), MAX_NUMBER),
        complete_weekends=faults.tried(lambda: _is_yes(row.of("complete weekends")), False),
    )


def _maximum(row: SheetRow, head: str) -> int:
    """The maximum in this column; an empty cell sets no limit."""
    cell = row.of(head)
    may_be_kept = head in (*_KEPT, _IN_A_ROW)
    if may_be_kept and re.fullmatch(f"{KEPT} ?[0-9]{{1,4}}", cell.text):
        cell.fault(
            f"'{cell.text}' has the sign {KEPT} before the number: write"
            f" {cell.text[1:].strip()}{KEPT}"
        )
    if not may_be_kept or not cell.text.endswith(KEPT):
        return cell.number(MAX_NUMBER)
    number = cell._replace(text=cell.text.rstrip(f"{KEPT} "))
    if not number.text:
        cell.fault(f"there is no number before the sign {KEPT}: write one, such as 10{KEPT}")
    if cell.text.count(KEPT) > 1:
        cell.fault(f"'{cell.text}' has the sign {KEPT} more than once: write {number.text}{KEPT}")
    return number.number(typed=cell.text)


def _limits(row: SheetRow, least: str, most: str, faults: Gathering) -> Limits:
    """A minimum and a maximum; empty cells set no limit."""
    limits = Limits(
        faults.tried(lambda: row.of(least).number(0), 0),
        faults.tried(lambda: _maximum(row, most), MAX_NUMBER),
    )
    with faults.step():
        if limits.minimum > limits.maximum:
            empty = "; for no limit leave the cell empty" if limits.maximum == 0 else ""
            row.of(least).fault(
                f"the minimum {limits.minimum} is above the maximum {limits.maximum}: correct one"
                f" of the two{empty}"
            )
    return limits


def _is_yes(cell: SheetCell) -> bool:
    if cell.text.casefold() not in (*_YES, *_NO):
        cell.fault(f"'{cell.text}' is neither yes nor no: write yes or no")
    return cell.text.casefold() in _YES


def _past(
    row: SheetRow,
    nurse: str,
    shift_types: dict[str, ShiftType],
    faults: Gathering,
    unknown: Gathering,
) -> NurseHistory:
    """The nurse's history; empty cells are 0, and an empty last shift is a day off."""
    cell = row.of("last shift")
    is_off = cell.text.casefold() in ("", "none", "off", "-")
    last = None if is_off else unknown.tried(lambda: cell.known("shift type", shift_types), None)
    totals, runs = (
        [faults.tried(lambda: row.of(head).number(0), 0) for head in heads]
        for heads in (("worked", "worked weekends"), ("days on it", "days of work", "days off"))
    )
    return NurseHistory(nurse, totals[0], totals[1], last, *runs)
