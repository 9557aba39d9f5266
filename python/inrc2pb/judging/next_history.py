"""The history with which the next week begins, from a week's history and roster."""

from typing import Callable, Iterable

from ..week.faults import Misuse
from ..week.records import Cell, History, NurseHistory, Scenario, week_name
from ..week.slots import MAX_NUMBER
from .rules import SATURDAY, SUNDAY


def _length_on_sunday(has: Callable[[int], bool], before: int) -> int:
    """For how many days in a row the property holds on Sunday, if it held for `before` days before
    Monday.

    A file has no larger number than MAX_NUMBER. Since no limit is larger, a longer run costs the
    same.
    """
    length = before
    for day in range(7):
        length = length + 1 if has(day) else 0
    return min(length, MAX_NUMBER)


def next_nurse_history(
    past: NurseHistory, shifts: dict[int, str], new_period: bool = False
) -> NurseHistory:
    """A nurse's next history; `shifts` has the shift type of each day on which she works."""
    sunday = shifts.get(SUNDAY)
    before = past.consecutive_shifts if sunday is not None and past.last_shift == sunday else 0
    return NurseHistory(
        past.nurse,
        0 if new_period else past.assignments + len(shifts),
        0 if new_period else past.weekends + (SATURDAY in shifts or SUNDAY in shifts),
        last_shift=sunday,
        consecutive_shifts=(
            _length_on_sunday(lambda day: shifts.get(day) == sunday, before)
            if sunday is not None
            else 0
        ),
        working_days=_length_on_sunday(lambda day: day in shifts, past.working_days),
        days_off=_length_on_sunday(lambda day: day not in shifts, past.days_off),
    )


def next_history(
    scenario: Scenario, history: History, cells: Iterable[Cell], new_period: bool = False
) -> History:
    """The next week's history. Raises Misuse if a nurse has two assignments on one day, or if the
    week is the last of its period."""
    if not new_period and history.week + 1 >= scenario.weeks:
        raise Misuse(
            f"{week_name(history.week)} is the last of {scenario.weeks}: begin a new period with"
            " --new-period"
        )
    shifts: dict[str, dict[int, str]] = {nurse: {} for nurse in history.nurses}
    for cell in cells:
        if cell.day in shifts[cell.nurse]:
            raise Misuse(f"{cell.row()}: {cell.nurse} has two assignments on this day, remove one")
        shifts[cell.nurse][cell.day] = cell.shift
    nurses = {
        nurse: next_nurse_history(past, shifts[nurse], new_period)
        for nurse, past in history.nurses.items()
    }
    for nurse, next_one in nurses.items():
        if max(next_one.assignments, next_one.weekends) > MAX_NUMBER:
            raise Misuse(
                f"{nurse} would have more than {MAX_NUMBER} assignments or weekends: correct her"
                " history"
            )
    return History(0 if new_period else history.week + 1, history.scenario, nurses)
