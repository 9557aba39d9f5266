"""What differs in two rosters of the same weeks, in sentences: shifts, and charges that are saved
or added; and swaps of two nurses' days.

The lines of a ward's plans are made of the same sentences as those of rosters that were given as
files.
"""

import collections
from dataclasses import replace
from typing import Iterable, Iterator, NamedTuple, Sequence

from ..week.faults import Misuse
from ..week.records import DAYS, WEEK_DAYS, Cell, NurseDay, exchanged
from ..week.slots import did_you_mean
from ..week.words import OFF, quoted
from .roster_view import RosterView, ShownCell


# ---- shifts


def shifts_text(cells: Iterable[Cell | ShownCell], away: str = OFF) -> str:
    """A nurse's day in words: her shift types and skills, or, if she has none, why she is away or
    that she is off."""
    return " and ".join(f"{cell.shift} {cell.skill}" for cell in cells) or away


def change_text(who: str, now: str, before: str) -> str:
    """That a nurse's day is another one in a new roster."""
    return f"{who}: {now} instead of {before}"


class Change(NamedTuple):
    """A nurse's day whose cells differ in two rosters, and each of the two in words: why she is
    away, if she is."""

    week: int
    nurse: str
    day: int
    before: Sequence[ShownCell]
    now: Sequence[ShownCell]
    before_text: str
    now_text: str


def changes(old: RosterView, new: RosterView) -> list[Change]:
    """The days of nurses that differ, in the order of weeks, days and nurses."""
    differing = []
    for week in range(len(new.weeks)):
        for day in range(WEEK_DAYS):
            for nurse in dict.fromkeys([*new.nurses, *old.nurses]):
                before = old.cells(week, nurse, day)
                now = new.cells(week, nurse, day)
                if {cell[:2] for cell in before} != {cell[:2] for cell in now}:
                    texts = (_day_text(view, week, nurse, day) for view in (old, new))
                    differing.append(Change(week, nurse, day, before, now, *texts))
    return differing


def _day_text(view: RosterView, week: int, nurse: str, day: int) -> str:
    return shifts_text(
        view.cells(week, nurse, day),
        view.reason(week, nurse, day) if view.is_away(week, nurse, day) else OFF,
    )


def changed_lines(old: RosterView, new: RosterView) -> Iterator[str]:
    """A line for each change."""
    for change in changes(old, new):
        week = new.prefix(new.weeks[change.week])
        yield change_text(
            f"{week}{change.nurse} {DAYS[change.day]}", change.now_text, change.before_text
        )


# ---- charges


class PricedWords(NamedTuple):
    """What a charge costs, and the charge in words."""

    cost: int
    words: str


def charge_lines(old: Sequence[PricedWords], new: Sequence[PricedWords]) -> Iterator[str]:
    """A line for each charge that only the old roster has, which is saved, and then for each that
    only the new one has."""
    before = collections.Counter(old)
    now = collections.Counter(new)
    yield from (f"{-charge.cost:+5}  {charge.words}" for charge in (before - now).elements())
    yield from (f"{charge.cost:+5}  {charge.words}" for charge in (now - before).elements())


def sum_text(before: int, now: int, words: str) -> str:
    """What two rosters differ in all."""
    return f"{now - before:+5}  in all{words}"


# ---- swaps


def with_swaps(view: RosterView, swaps: Sequence[tuple[str, str]]) -> RosterView:
    """The roster of one week after swaps in turn: two nurses and days, as `Chen Fri` and
    `Grace Fri`, get each other's cells. Raises Misuse if one of them is not in the roster."""
    if len(view.weeks) != 1:
        raise Misuse(
            "swap is for one roster: change a copy of one of these, and give the others to why,"
            " with --old"
        )
    cells = list(view.weeks[0].cells)
    for pair in swaps:
        first, second = (_place(view, text) for text in pair)
        if first == second:
            raise Misuse(f"swap {_quoted(pair)}: these are one cell: give two")
        cells = exchanged(cells, {first: second, second: first})
    return replace(view, weeks=[replace(view.weeks[0], cells=cells)])


def _quoted(pair: tuple[str, str]) -> str:
    return " ".join(f'"{text}"' for text in pair)


def _place(view: RosterView, text: str) -> NurseDay:
    """The nurse and the day that a text names."""
    *names, day = text.split() or [""]
    if not names:
        raise Misuse(f'swap "{text}": give a nurse and a day, as in "Chen Fri"')
    nurse = "_".join(names)
    for word, known, what in ((nurse, view.nurses, "nurse"), (day, DAYS, "day")):
        if word not in known:
            advice = did_you_mean(word, known, f"give one of {quoted(known)}")
            raise Misuse(f"swap \"{text}\": '{word}' is no {what}: {advice}")
    return NurseDay(nurse, DAYS.index(day))
