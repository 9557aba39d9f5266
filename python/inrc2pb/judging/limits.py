"""Limits that are never exceeded: who exceeds one in a roster, in words, and who could work
instead; and the facts that plans are asked to keep, as the absences and limits of weeks."""

from dataclasses import replace
from typing import Collection, Iterable, Iterator, Sequence

from ..week.facts import (
    SHIFTS,
    WEEKENDS,
    WORK_DAYS,
    Charged,
    Choice,
    Claim,
    fact_text,
    of_weeks,
    read_facts,
)
from ..week.faults import FileFault
from ..week.records import DAYS, Absence, Cell, KeptLimit, Scenario, Week, WeekData
from ..week.slots import PathLike
from ..week.words import joined, plural, readable
from .absences import absences_of
from .obstacles import obstacles
from .rules import SATURDAY, Charge, charges

# The kinds of charges, by their rules and their words.
_KINDS = {("S2", "work above"): WORK_DAYS, ("S6", "above"): SHIFTS, ("S7", "above"): WEEKENDS}


def exceeded(week: Week, limits: Collection[KeptLimit], cells: Sequence[Cell]) -> list[Charge]:
    """What the roster of this week has above the limits; totals count from the first one above."""
    most = {(limit.nurse, limit.kind): limit.most for limit in limits}
    charges_above: list[Charge] = []
    for charge in charges(week, cells, early=True) if limits else ():
        key = charge.nurse or "", _KINDS.get((charge.rule, charge.what), "")
        if key in most:
            times = (
                charge.times
                if key[1] == WORK_DAYS
                else charge.number - max(charge.limit + most[key], charge.before)
            )
            if times > 0:
                charges_above.append(charge._replace(times=times))
    return charges_above


def excess(charged: Iterable[Charge]) -> int:
    """How much is above the limits in all."""
    return sum(charge.times for charge in charged)


def limits_in_words(
    charged: Iterable[Charge], cells: Sequence[Cell], names: Sequence[str] = DAYS
) -> str:
    """Who exceeds which limit with these assignments, as
    `Amara has 6 days of work in a row, Tue to Sun, of at most
    5`. The days of the week have these names."""
    return ", ".join(
        _in_words(charge, sorted({cell.day for cell in cells if cell.nurse == charge.nurse}), names)
        for charge in charged
    )


def _in_words(charge: Charge, worked: Sequence[int], names: Sequence[str]) -> str:
    """The same of one limit. The shifts above are the last of the days on which the nurse works."""
    nurse = readable(charge.nurse or "")
    if charge.rule == "S2":
        first, last = charge.days or (0, 0)
        days = f", to {names[last]}," if charge.before else f", {names[first]} to {names[last]},"
        return (
            f"{nurse} has {plural(charge.number, 'day')} of work in a row{days} of at most"
            f" {charge.limit}"
        )
    what, above = (
        ("shift", worked[-charge.times :])
        if charge.rule == "S6"
        else ("weekend", [day for day in worked if day >= SATURDAY])
    )
    return (
        f"{nurse} has {plural(charge.number, what)} of at most {charge.limit}, above on"
        f" {joined(names[day] for day in above)}"
    )


def limits_way_out(week: Week, charged: Sequence[Charge], cells: Sequence[Cell]) -> str:
    """What to do if a roster exceeds limits."""
    over = {charge.nurse for charge in charged}
    spare = list(_with_shifts_left(week, [cell for cell in cells if cell.nurse in over], cells))
    others = (
        f"; with these skills shifts are left for {joined(spare[:6])}"
        if spare
        else "; nobody with these skills has shifts left"
    )
    return f"lower minimum numbers, hold fewer shifts, or allow these nurses more{others}"


def _with_shifts_left(week: Week, too_many: Sequence[Cell], cells: Sequence[Cell]) -> Iterator[str]:
    """The nurses who could have one of these assignments, since they are off on its day and not
    away, and whose contracts have shifts left after this week; and how many."""
    away = absences_of(week.data)
    works = {cell.nurse_day for cell in cells}
    over = {cell.nurse for cell in too_many}
    for nurse in week.scenario.nurses:
        worked = week.history.nurses[nurse].assignments + sum(cell.nurse == nurse for cell in cells)
        left = week.scenario.contract_of(nurse).assignments.maximum - worked
        free = (cell._replace(nurse=nurse) for cell in too_many if (nurse, cell.day) not in works)
        may_work = any(not obstacles(week.scenario, away, cell) for cell in free)
        if nurse not in over and left > 0 and may_work:
            yield f"{readable(nurse)} ({left})"


# ---- facts that plans are asked to keep


def read_given(path: PathLike, scenario: Scenario, text: str | None = None) -> tuple[Claim, ...]:
    """Reads the facts about the weeks of a period that plans are asked to keep. Raises FileFault if
    the search cannot keep one."""
    claims = read_facts(path, scenario, scenario.weeks, text)
    for claim in claims:
        if not _is_kept(claim):
            words = f"{'HOLDS' if claim.holds else 'NOT'} {fact_text(claim.fact)}"
            raise FileFault(
                path, 0, f"'{words}' is neither an absence nor a limit of a nurse: remove it"
            )
    return claims


def _is_kept(claim: Claim) -> bool:
    """Whether a claim is an absence, or a limit of a nurse or of each."""
    fact, holds = claim
    if isinstance(fact, Choice):
        return holds == (fact.shift is None)
    counts = isinstance(fact, Charged) and fact.nurse is not None and fact.kind != WORK_DAYS
    return (
        holds
        and isinstance(fact, Charged)
        and fact.kind in (WORK_DAYS, SHIFTS, WEEKENDS)
        and (counts or fact.most == 0)
    )


def with_given(
    scenario: Scenario, data: WeekData, claims: Iterable[Claim], number: int
) -> WeekData:
    """The data of the week with this number from 0, with what these facts ask for."""
    claims = of_weeks(claims, number, 1)
    absences = {
        Absence(fact.nurse, fact.day, fact.shift) for fact, _ in claims if isinstance(fact, Choice)
    }
    return replace(data, absences=frozenset(absences), limits=frozenset(_limits(scenario, claims)))


def _limits(scenario: Scenario, claims: Iterable[Claim]) -> Iterator[KeptLimit]:
    for fact, _ in claims:
        if isinstance(fact, Charged):
            yield from (
                KeptLimit(nurse, fact.kind, fact.most)
                for nurse in ([fact.nurse] if fact.nurse else scenario.nurses)
            )
