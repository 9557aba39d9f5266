"""The rules of one week, written from docs/rules.md alone, to be compared with the program.

`python/tests/rules_command.py --sce F --his F --week F [--fix F] [--early]
ROSTER` prints the first hard rule that the roster breaks as `extend` does; if it breaks none, the
penalty and the costs as `decode` reports them.
"""

import collections
from typing import Counter, Iterable, Iterator, NamedTuple, Sequence

from ..week.records import Cell, Contract, Limits, NurseHistory, Place, Request, Week
from ..week.soft_rules import (
    ASSIGNMENT_TOTAL,
    DAYS_OFF_RUN,
    HALF_WEEKEND,
    MISSING_NURSE,
    REQUEST,
    SHIFT_RUN,
    SOFT_RULES,
    WEEKEND_TOTAL,
    WORK_RUN,
)

SATURDAY = 5
SUNDAY = 6
Shifts = dict[tuple[str, int], list[str]]


class Charge(NamedTuple):
    """What a soft rule charges: something that occurs a number of times."""

    rule: str
    what: str
    # None for a place with too few nurses.
    nurse: str | None
    # The points of each time.
    weight: int
    # The place or the shift type, if there is one.
    subject: str = ""
    # The first and the last day of this week that it concerns; None for days before Monday
    # only, and for the totals of a period.
    days: tuple[int, int] | None = None
    # What the rule compares with the limit, and the part of it from before Monday.
    number: int = 0
    limit: int = 0
    before: int = 0
    times: int = 1

    @property
    def cost(self) -> int:
        """What it costs."""
        return self.times * self.weight


# ---- hard rules


def shifts_by_day(roster: Iterable[Cell]) -> Shifts:
    """The shift types that a nurse has on a day."""
    shifts: Shifts = collections.defaultdict(list)
    for cell in roster:
        shifts[cell.nurse, cell.day].append(cell.shift)
    return shifts


def numbers(roster: Iterable[Cell]) -> Counter[Place]:
    """The number of nurses at each place."""
    return collections.Counter(Place(cell.day, cell.shift, cell.skill) for cell in roster)


def _has_forbidden_succession(week: Week, shifts: Shifts, nurse: str) -> bool:
    days: list[Sequence[str | None]] = [
        [week.history.nurses[nurse].last_shift],
        *(shifts[nurse, day] for day in range(7)),
    ]
    return any(
        week.scenario.forbids(earlier, later)
        for before, now in zip(days, days[1:])
        for earlier in before
        for later in now
    )


def broken(week: Week, roster: Sequence[Cell], held: Iterable[Cell] = ()) -> Iterator[str]:
    """The hard rules that the roster breaks, in their order."""
    shifts = shifts_by_day(roster)
    number = numbers(roster)
    nurses = week.scenario.nurses
    if any(len(shifts[nurse, day]) > 1 for nurse in nurses for day in range(7)):
        yield "H1"
    if any(number[place] < required.minimum for place, required in week.data.requirements.items()):
        yield "H2"
    if any(_has_forbidden_succession(week, shifts, nurse) for nurse in nurses):
        yield "H3"
    if any(cell.skill not in nurses[cell.nurse].skills for cell in roster):
        yield "H4"
    rows: set[Cell] = set(roster)
    if any(cell not in rows for cell in held):
        yield "H5"


def first_broken(week: Week, roster: Sequence[Cell], held: Iterable[Cell] = ()) -> str | None:
    """The first hard rule that the roster breaks, or None."""
    return next(broken(week, roster, held), None)


# ---- soft rules


def run_charges(base: Charge, has: Sequence[bool], before: int, limits: Limits) -> Iterator[Charge]:
    """The days above the maximum and below the minimum in each run of a property, given the days
    that have it, and the length of its run on the Sunday before. `base` has the rest of the
    charges."""
    minimum, maximum = limits
    first = 0
    for day in range(8):
        if day < 7 and has[day]:
            continue
        length = before + day - first
        above = min(day - first, length - maximum)
        # A run that goes on after Sunday may still grow.
        below = minimum - length if 0 < length and day < 7 else 0
        if above > 0 or below > 0:
            run = base._replace(
                days=(first, day - 1) if first < day else None, number=length, before=before
            )
            if above > 0:
                yield run._replace(what=f"{base.what} above", limit=maximum, times=above)
            if below > 0:
                yield run._replace(what=f"{base.what} below", limit=minimum, times=below)
        first = day + 1
        before = 0


def charges(week: Week, roster: Sequence[Cell], early: bool = False) -> Iterator[Charge]:
    """Everything that the soft rules charge: first the places, then each nurse."""
    shifts = shifts_by_day(roster)
    number = numbers(roster)
    for place, required in week.data.requirements.items():
        missing = required.optimal - number[place]
        if missing > 0:
            charge = Charge(
                "S1",
                "missing",
                None,
                weight=MISSING_NURSE,
                subject=f"{place.shift} {place.skill}",
                days=(place.day, place.day),
                times=missing,
            )
            yield charge._replace(number=number[place], limit=required.optimal)
    requests = requests_by_nurse(week)
    for nurse in week.scenario.nurses:
        yield from nurse_charges(week, shifts, requests[nurse], nurse, early)


def requests_by_nurse(week: Week) -> dict[str, list[Request]]:
    """The requests of each nurse."""
    requests: dict[str, list[Request]] = {nurse: [] for nurse in week.scenario.nurses}
    for request in week.data.requests:
        requests[request.nurse].append(request)
    return requests


def nurse_charges(
    week: Week, shifts: Shifts, requests: Sequence[Request], nurse: str, early: bool = False
) -> Iterator[Charge]:
    """What a nurse with these requests is charged, given the shift types that nurses have on
    days."""
    contract = week.scenario.contract_of(nurse)
    history = week.history.nurses[nurse]
    shift_on = [shifts[nurse, day] for day in range(7)]
    for name, shift in week.scenario.shift_types.items():
        before = history.consecutive_shifts if history.last_shift == name else 0
        yield from run_charges(
            Charge("S2", "shift", nurse, SHIFT_RUN, name),
            [name in now for now in shift_on],
            before,
            shift.consecutive,
        )
    work = Charge("S2", "work", nurse, WORK_RUN)
    off = Charge("S3", "off", nurse, DAYS_OFF_RUN)
    yield from run_charges(
        work, [bool(now) for now in shift_on], history.working_days, contract.working_days
    )
    yield from run_charges(off, [not now for now in shift_on], history.days_off, contract.days_off)
    yield from _request_charges(nurse, shift_on, requests)
    saturday = bool(shift_on[SATURDAY])
    sunday = bool(shift_on[SUNDAY])
    if contract.complete_weekends and saturday != sunday:
        day = SATURDAY if saturday else SUNDAY
        yield Charge("S5", "half", nurse, HALF_WEEKEND, days=(day, day))
    yield from _total_charges(
        week,
        contract,
        history,
        works=sum(map(len, shift_on)),
        weekend=saturday or sunday,
        early=early,
    )


def _request_charges(
    nurse: str, shift_on: Sequence[list[str]], requests: Sequence[Request]
) -> Iterator[Charge]:
    """The requests that are not granted; equal ones are one charge."""
    for request, count in collections.Counter(requests).items():
        for shift in shift_on[request.day]:
            if request.shift in (None, shift):
                what = "Any" if request.shift is None else "shift"
                yield Charge(
                    "S4",
                    what,
                    nurse,
                    weight=REQUEST,
                    subject=shift,
                    days=(request.day, request.day),
                    number=count,
                    times=count,
                )


def _total_charges(
    week: Week, contract: Contract, history: NurseHistory, works: int, weekend: bool, early: bool
) -> Iterator[Charge]:
    """What S6 and S7 charge a nurse."""
    (minimum, maximum) = contract.assignments
    most = contract.max_weekends
    total = history.assignments + works
    weekends = history.weekends + weekend
    if week.is_last and total < minimum:
        charge = Charge(
            "S6",
            "below",
            history.nurse,
            ASSIGNMENT_TOTAL,
            number=total,
            limit=minimum,
            times=minimum - total,
        )
        yield charge._replace(before=history.assignments)
    if week.is_last or early:
        for rule, now, limit, before, weight in (
            ("S6", total, maximum, history.assignments, ASSIGNMENT_TOTAL),
            ("S7", weekends, most, history.weekends, WEEKEND_TOTAL),
        ):
            times = now - max(limit, before) if early else now - limit
            if times > 0:
                yield Charge(
                    rule,
                    "above",
                    history.nurse,
                    weight,
                    number=now,
                    limit=limit,
                    before=before,
                    times=times,
                )


def cost_by_rule(charged: Iterable[Charge]) -> dict[str, int]:
    """What these charges cost by each soft rule."""
    cost = dict.fromkeys(SOFT_RULES, 0)
    for charge in charged:
        cost[charge.rule] += charge.cost
    return cost


def costs(week: Week, roster: Sequence[Cell], early: bool = False) -> dict[str, int]:
    """The cost of each soft rule; the penalty is their sum."""
    return cost_by_rule(charges(week, roster, early))


def nurse_costs(
    week: Week, roster: Sequence[Cell], early: bool = False
) -> dict[str, dict[str, int]]:
    """The same of each nurse; no nurse pays for S1."""
    shifts = shifts_by_day(roster)
    requests = requests_by_nurse(week)
    return {
        nurse: cost_by_rule(nurse_charges(week, shifts, requests[nurse], nurse, early))
        for nurse in week.scenario.nurses
    }
