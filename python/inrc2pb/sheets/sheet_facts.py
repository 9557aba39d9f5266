"""The facts of a spreadsheet: absences, maxima that are never exceeded, and contracts of those who
are away: in proportion to the days on which they run, and without a limit of days off that leave
exceeds. Warnings of what only the look of a cell says.

A ward's file has one contract for a whole period, so a nurse for whom another one counts gets a
contract of her own.
"""

from collections import Counter
from dataclasses import replace
from typing import Collection, Iterator, Sequence

from ..judging.leave import PartContract
from ..week.facts import SHIFTS, WEEKENDS, Charged, Choice, Claim
from ..week.records import WEEK_DAYS, Contract, History, Limits, together
from ..week.slots import MAX_CONTRACTS, MAX_NUMBER
from .plan_days import Days
from .plan_sheets import NOT_EMPLOYED, WeekSheet
from .sheet_cells import letters_of, tidy
from .sheet_files import Book
from .ward_sheets import WardTables

# The word for days before a nurse comes or after she leaves.
_AWAY = "away"


def claims_of(ward: WardTables, history: History, weeks: list[WeekSheet]) -> list[Claim]:
    """The absences, and the maxima that nurses never exceed, as facts about a plan that follows
    this history."""
    order = {nurse: number for number, nurse in enumerate(ward.scenario.nurses)}
    claims: list[Claim] = []
    for number, week in enumerate(weeks, 1):
        for absence in sorted(
            set(week.absences), key=lambda away: (order[away.nurse], away.day, away.shift or "")
        ):
            claims.append(
                Claim(
                    Choice(number, absence.nurse, absence.day, absence.shift), absence.shift is None
                )
            )
    for nurse, past in history.nurses.items():
        contract = ward.scenario.contract_of(nurse)
        over = {
            SHIFTS: past.assignments - contract.assignments.maximum,
            WEEKENDS: past.weekends - contract.max_weekends,
        }
        claims += [
            Claim(Charged(kind, nurse, max(0, over.get(kind, 0))))
            for kind in sorted(ward.kept[contract.name])
        ]
    return claims


def with_part_contracts(ward: WardTables, weeks: Sequence[WeekSheet]) -> WardTables:
    """The ward with a contract of its own for each nurse who is not employed on some days of the
    plan, or who is away for more days in a row than her contract has days off in a row, or comes or
    leaves. A ward that has the most contracts already keeps these.
    """
    contracts = dict(ward.scenario.contracts)
    nurses = dict(ward.scenario.nurses)
    kept = dict(ward.kept)
    not_employed = Counter(
        who for week in weeks for (who, _), word in week.reasons.items() if word in NOT_EMPLOYED
    )
    away = together(
        (absence.nurse, WEEK_DAYS * number + absence.day)
        for number, week in enumerate(weeks)
        for absence in week.absences
        if absence.shift is None
    )
    for name, nurse in ward.scenario.nurses.items():
        contract = _own_contract(ward, name, weeks, not_employed[name], away.get(name, ()))
        while contracts.get(contract.name, contract) != contract:
            contract = replace(contract, name=f"{contract.name}_")
        if contract.name in contracts or len(contracts) < MAX_CONTRACTS:
            contracts[contract.name] = contract
            kept[contract.name] = ward.kept[nurse.contract]
            nurses[name] = replace(nurse, contract=contract.name)
    return ward._replace(
        scenario=replace(ward.scenario, contracts=contracts, nurses=nurses), kept=kept
    )


def _own_contract(
    ward: WardTables, nurse: str, weeks: Sequence[WeekSheet], gone: int, away: Collection[int]
) -> Contract:
    """The contract that counts for a nurse, who is not employed on so many days, and away on these.
    One that differs has a name that says so."""
    contract = ward.scenario.contract_of(nurse)
    total = WEEK_DAYS * ward.scenario.weeks
    part = PartContract(contract.name)
    if gone:
        minimum, maximum = contract.assignments
        most = (
            maximum if maximum >= min(total, MAX_NUMBER) else -(-maximum * (total - gone) // total)
        )
        contract = replace(contract, assignments=Limits(minimum * (total - gone) // total, most))
        part = part._replace(days=total - gone, total=total)
    before = ward.history.nurses[nurse].days_off
    if _longest(
        away, WEEK_DAYS * len(weeks), before
    ) > contract.days_off.maximum or _comes_or_leaves(nurse, weeks):
        contract = replace(contract, days_off=Limits(contract.days_off.minimum, MAX_NUMBER))
        part = part._replace(any_days_off=True)
    return replace(contract, name=part.name)


def _comes_or_leaves(nurse: str, weeks: Sequence[WeekSheet]) -> bool:
    """Whether the nurse is away on the first or on the last day of the plan: her days off beside
    these days are no row."""
    return _AWAY in (
        weeks[0].reasons.get((nurse, 0)),
        weeks[-1].reasons.get((nurse, WEEK_DAYS - 1)),
    )


def _longest(away: Collection[int], total: int, before: int) -> int:
    """The most of these days in a row, of so many days, with the days off before them."""
    longest = 0
    run = before
    for day in range(total):
        run = run + 1 if day in away else 0
        longest = max(longest, run)
    return longest


def look_warnings(book: Book, days: Days) -> Iterator[str]:
    """The warnings of a spreadsheet. Colors that most nurses of a day or most days of a nurse have
    are for the eye only."""
    for sheet, marks in book.marks.items():
        for row, column in sorted(marks.struck):
            text = tidy(book.sheets[sheet][row][column])
            yield (
                f"sheet {sheet}, row {row + 1}, column {letters_of(column)}: '{text}' is struck"
                " through, and counts: delete it"
            )
    colored = book.marks["plan"].colored if "plan" in book.marks else ()
    for row, columns in _colored_alone(days, colored):
        where = ", ".join(map(letters_of, columns))
        yield (
            f"sheet plan, row {row + 1}, column {where}: a color without a word counts for nothing:"
            " write leave or wish, for example"
        )


def _colored_alone(
    days: Days, colored: Collection[tuple[int, int]]
) -> Iterator[tuple[int, list[int]]]:
    """The rows of nurses, and the columns of their empty cells that have a color, unlike most cells
    beside and above them."""
    rows = [row.number - 1 for row in days.plan.rows]
    columns = [head.column for head in days.columns]
    by_row = {row: sum((row, column) in colored for column in columns) for row in rows}
    by_column = {column: sum((row, column) in colored for row in rows) for column in columns}
    for nurse in days.plan.rows:
        row = nurse.number - 1
        marked = [
            column for column in columns if (row, column) in colored and not nurse.at(column).text
        ]
        alone = [
            column
            for column in marked
            if 2 * by_row[row] <= len(columns) and 2 * by_column[column] <= len(rows)
        ]
        if alone:
            yield row, alone
