"""The files in which the folder of a plan keeps what verbs have made of a ward: `plan.json`, which
says what they have written beside the shifts, and for each week a roster and a history, for
`inrc2pb` and for people."""

import datetime
import functools
import json
import time
from pathlib import Path
from typing import Any, Callable, Sequence

from ..sheets.older_names import Renamed
from ..sheets.open_shifts import OpenShift
from ..sheets.written_days import DayWord
from ..week.dates import PlanDays
from ..week.faults import FileFault, Misuse
from ..week.files import (
    history_text,
    read_history,
    read_scenario,
    read_solution,
    read_week,
    solution_text,
)
from ..week.own_files import check_own
from ..week.records import Cell, History, NurseDay, Scenario, Solution, in_plan
from ..week.slots import MAX_NUMBER, MAX_WEEKS, is_utf8, text_of
from .kept import Looks, is_settled, looks_of
from .state import Record, SetDay, State, Swap


NAME = "plan.json"
START = "start.txt"
# The most bytes of a plan's file: that of the largest ward has some thousand days away.
_MOST_BYTES = 1_000_000
_CURE = "correct it, or type undo to go back to the plan before it"
# What the plans of an older version do not have.
_SET = "set days"
_TYPED = "typed"
_PERIOD = "period"
_OPEN = "open shifts"
_WAS = "was"
# The most records that are kept: the verbs of some years.
_KEPT_RECORDS = 1 << 14
_HOLIDAYS = "bank holidays"
_LEAST = "least points"
# The most points of a plan.
_MOST_POINTS = 10**9
_SWAP = "swap"
_RECORDED = "days recorded"
_AS_PLANNED = "weeks as planned"
# All names of a plan, and those that an older version may not have, some of which are lists.
_NAMES = "verb,time,monday,weeks,weeks over,published,days away,agreed days".split(",")
_LISTS = (_SET, _OPEN, _WAS, _HOLIDAYS, _SWAP, _AS_PLANNED)
_NEWER = (*_LISTS, _TYPED, _PERIOD, _LEAST, _RECORDED)
# The most periods of a folder.
_MOST_PERIODS = 9999


def roster_name(week: int) -> str:
    """The name of the file of a week's roster."""
    return f"roster-{week}.txt"


def record_text(record: Record) -> str:
    """The text of the file of a record, in which days are numbers from the first Monday on."""
    values: dict[str, Any] = {
        "verb": record.verb,
        "time": f"{record.time:%Y-%m-%d %H:%M}",
        "monday": None if record.days.monday is None else str(record.days.monday),
        "weeks": record.days.weeks,
        "weeks over": record.open_week,
        "published": record.published,
        "days away": [
            list(absence if absence.lost is not None else absence[:3])
            for absence in record.absences
        ],
        "agreed days": [list(place) for place in record.agreed],
        _SET: [list(promise) for promise in record.set_days],
        _TYPED: record.typed,
        **({} if record.period is None else {_PERIOD: record.period}),
        **({_OPEN: [list(one) for one in record.opened]} if record.opened else {}),
        **({_WAS: [list(one) for one in record.was]} if record.was else {}),
        **({_HOLIDAYS: [*record.holidays]} if record.holidays else {}),
        **({} if record.least is None else {_LEAST: record.least}),
        **({_SWAP: [list(place) for place in record.swap.places]} if record.swap else {}),
        **({_RECORDED: record.recorded} if record.recorded else {}),
        **({_AS_PLANNED: [*record.as_planned]} if record.as_planned else {}),
    }
    lines = [
        f"  {json.dumps(name)}: {json.dumps(value, ensure_ascii=False)}"
        for name, value in values.items()
    ]
    return "{\n" + ",\n".join(lines) + "\n}\n"


def read_record(folder: Path) -> Record:
    """The record of a plan's folder. Raises FileFault with place and cure if the file is not as a
    verb has written it. A file is read again only if it has changed."""
    path = folder / NAME
    if not path.exists():
        raise FileFault(
            folder,
            0,
            "this folder is no plan: move it away, or type undo to go back to the plan before it",
        )
    now = time.time_ns()
    looks = looks_of((folder, path))
    return _kept_record(path, looks) if is_settled(looks, now) else _record_in(path)


@functools.lru_cache(maxsize=_KEPT_RECORDS)
def _kept_record(path: Path, _looks: Looks) -> Record:
    """The record in a file that has these looks, and so has its folder."""
    return _record_in(path)


def _record_in(path: Path) -> Record:
    check_own(path.parent)
    if path.stat().st_size > _MOST_BYTES:
        raise FileFault(path, 0, f"the file has more than {_MOST_BYTES} bytes: {_CURE}")
    text = text_of(path)
    for number, line in enumerate(text.split("\n"), 1):
        if not is_utf8(line):
            raise FileFault(
                path,
                number,
                f"this line has a byte that is no UTF-8, as another program has saved it: {_CURE}",
            )
    try:
        return _record_of(json.loads(text))
    except json.JSONDecodeError as fault:
        raise FileFault(
            path, fault.lineno, f"this line was changed, and is no JSON any more: {_CURE}"
        ) from fault
    except (ValueError, RecursionError) as fault:
        what = fault.args[0] if isinstance(fault, _Changed) else "it is no plan"
        raise FileFault(path, 0, f"this file was changed: {what}: {_CURE}") from fault


def known_record(folder: Path) -> Record | None:
    """The record of a plan's folder, if it is not damaged."""
    try:
        return read_record(folder)
    except (FileFault, OSError):
        return None


class _Changed(ValueError):
    """A value of the file that no verb has written, in words."""


def _record_of(values: Any) -> Record:
    names = (*_NAMES, *_NEWER)
    if not isinstance(values, dict) or {*_NEWER, *values} != set(names):
        raise _Changed(f"it has not the names {', '.join(names)}")
    missing = {**{name: [] for name in _LISTS}, _TYPED: "", _RECORDED: 0}
    values = {**missing, **values}
    monday = values["monday"]
    weeks = _taken(values, "weeks", _is_number_to(MAX_WEEKS))
    days = PlanDays(None if monday is None else _time(values, "monday", "%Y-%m-%d").date(), weeks)
    is_day = _is_number_to(days.total - 1)
    open_week = _taken(values, "weeks over", _is_number_to(weeks))
    absences = _rows(values, "days away", [_is_text, is_day, _is_text, _is_number_to(1)], least=3)
    agreed = _rows(values, "agreed days", [_is_text, is_day])
    set_days = _rows(
        values, _SET, [_is_text, is_day, *[lambda value: isinstance(value, str)] * 3], least=3
    )
    return Record(
        _taken(values, "verb", _is_text),
        _time(values, "time", "%Y-%m-%d %H:%M"),
        days,
        open_week=open_week,
        published=_taken(values, "published", _is_truth),
        absences=tuple(DayWord(*row) for row in absences),
        agreed=tuple(NurseDay(*row) for row in agreed),
        set_days=tuple(SetDay(*(row if len(row) > 3 else [*row, None])) for row in set_days),
        typed=_taken(values, _TYPED, lambda value: isinstance(value, str)),
        period=_taken(values, _PERIOD, _is_number_to(_MOST_PERIODS)) if _PERIOD in values else None,
        opened=tuple(
            OpenShift(*row)
            for row in _rows(values, _OPEN, [is_day, _is_text, _is_text, _is_number_to(MAX_NUMBER)])
        ),
        was=tuple(Renamed(*row) for row in _rows(values, _WAS, [_is_text] * 3)),
        least=_taken(values, _LEAST, _is_number_to(_MOST_POINTS)) if _LEAST in values else None,
        holidays=tuple(_numbers(values, _HOLIDAYS, is_day)),
        as_planned=tuple(_numbers(values, _AS_PLANNED, _is_number_to(weeks))),
        swap=_swap_of(_rows(values, _SWAP, [_is_text, is_day]), values["verb"], days),
        recorded=_taken(values, _RECORDED, _is_number_to(days.total)),
    )


def _swap_of(rows: Sequence[Sequence[Any]], verb: str, days: PlanDays) -> Swap | None:
    """The swap of these nurses' days, if there are some; an older version has it in the words of
    its verb only."""
    if rows:
        first = rows[0][0]
        return Swap(first, rows[-1][0], tuple(day for nurse, day in rows if nurse == first))
    name, *words = verb.split(" ")
    heads = f" {' '.join(words[2:])} "
    swapped = tuple(day for day in range(days.total) if f" {days.head(day)} " in heads)
    return Swap(words[0], words[1], swapped) if name == "swap" and swapped else None


def _is_truth(value: object) -> bool:
    return isinstance(value, bool)


def _is_text(value: object) -> bool:
    return isinstance(value, str) and bool(value)


def _is_number_to(most: int) -> Callable[[object], bool]:
    return (
        lambda value: isinstance(value, int) and not isinstance(value, bool) and 0 <= value <= most
    )


def _taken(values: dict[str, Any], name: str, fits: Callable[[object], bool]) -> Any:
    """The value of this name, if it fits."""
    if not fits(values[name]):
        raise _Changed(f"'{name}' has a value that no plan has")
    return values[name]


def _numbers(values: dict[str, Any], name: str, fits: Callable[[object], bool]) -> list[int]:
    """The numbers of this name, if all of them fit."""
    return list(_taken(values, name, lambda rows: isinstance(rows, list) and all(map(fits, rows))))


def _time(values: dict[str, Any], name: str, form: str) -> datetime.datetime:
    text = _taken(values, name, _is_text)
    try:
        return datetime.datetime.strptime(text, form)
    except ValueError:
        raise _Changed(f"'{name}' has a value that no plan has") from None


def _rows(
    values: dict[str, Any],
    name: str,
    fits: Sequence[Callable[[object], bool]],
    least: int | None = None,
) -> list[list[Any]]:
    """The rows of this name, whose values fit one by one: all of them, or the first ones, at least
    so many."""
    lengths = range(len(fits) if least is None else least, len(fits) + 1)
    rows = _taken(values, name, lambda value: isinstance(value, list))
    for number, row in enumerate(rows, 1):
        if (
            not isinstance(row, list)
            or len(row) not in lengths
            or not all(fit(value) for fit, value in zip(fits, row))
        ):
            raise _Changed(f"row {number} of '{name}' is none of a plan")
    return list(rows)


def read_state(folder: Path) -> State:
    """Reads the folder of a plan."""
    record = read_record(folder)
    planned = next(
        (week for week in range(record.days.weeks) if not (folder / roster_name(week)).exists()),
        record.days.weeks,
    )
    cells = in_plan([read_solution(folder / roster_name(week)).cells for week in range(planned)])
    start = read_history(folder / START, read_scenario(folder / "ward.txt"))
    return State(
        days=record.days,
        start=start,
        open_week=record.open_week,
        planned=planned,
        cells=cells,
        published=record.published,
        absences=record.absences,
        agreed=record.agreed,
        set_days=_with_shifts(record.set_days, cells),
        period=record.period or 0,
        opened=record.opened,
        was=record.was,
        least=record.least,
        recorded=record.recorded,
        as_planned=record.as_planned,
    )


def check_readable(folder: Path) -> None:
    """Raises Misuse if no verb could read the plan that was written to this folder."""
    try:
        days = read_state(folder).days
        ward = read_scenario(folder / "ward.txt")
        for week in range(days.weeks):
            read_week(folder / f"week-{week}.txt", ward)
    except FileFault as fault:
        what = f"{fault.path.name}: {fault.message.removesuffix(f': {_CURE}')}"
        raise Misuse(
            f"nothing is written, since no verb could read it again: {what}: give fewer words, or"
            " take days back that are set"
        ) from fault


def _with_shifts(set_days: Sequence[SetDay], cells: Sequence[Cell]) -> tuple[SetDay, ...]:
    """The days that were set, those of an older version with the shifts of the rosters."""
    works = {cell.nurse_day: cell for cell in cells}
    pairs = ((promise, works.get(promise.place)) for promise in set_days)
    return tuple(
        (
            promise
            if promise.shift is not None
            else promise._replace(
                shift=cell.shift if cell else "", skill=cell.skill if cell else ""
            )
        )
        for promise, cell in pairs
    )


def state_texts(
    state: State, record: Record, scenario: Scenario, histories: Sequence[History]
) -> dict[str, str]:
    """The files of a plan's folder beside those of the ward: what its verbs have written, and the
    rosters and histories that are known."""
    texts = {START: history_text(state.start), NAME: record_text(record)}
    texts.update(
        {
            f"history-{week}.txt": history_text(past)
            for week, past in enumerate(histories[: state.open_week + 1])
        }
    )
    return {**texts, **roster_texts(state, scenario)}


def roster_texts(state: State, scenario: Scenario) -> dict[str, str]:
    """The files of the rosters that are known, with the nurses in the order of the ward."""
    order = {nurse: number for number, nurse in enumerate(scenario.nurses)}
    texts = {}
    for week in range(state.planned):
        cells = sorted(
            state.roster(week), key=lambda cell: (order.get(cell.nurse, len(order)), cell.day)
        )
        texts[roster_name(week)] = solution_text(Solution(week, scenario.name, tuple(cells)))
    return texts
