"""Random weeks of seven kinds, each of which a hidden roster meets: always the same files for the
same kind and seed.

`tight` asks for nearly all that its nurses can do, `skills` has many skills, `long` runs of shifts
that depend on the week before, `weekends` is a last week with many totals, `wishes` has three
requests for each nurse, `first` and `last` are weeks of a period; `wide` has eight shift types and
skills.
"""

import random
from pathlib import Path
from typing import Dict, List, NamedTuple, Optional, Sequence, Set, Tuple

from make_weeks import write_week

from inrc2pb.week.records import (
    DAYS,
    Contract,
    History,
    Limits,
    Nurse,
    NurseHistory,
    Place,
    Request,
    Requirement,
    Scenario,
)
from inrc2pb.week.records import ShiftType, WeekData
from inrc2pb.programs.program import WeekFiles

KINDS = ("tight", "skills", "long", "weekends", "wishes", "first", "last")
WIDE = "wide"
# The nurses of a kind, at least and at most, and of the others.
NURSES = {WIDE: (50, 90), "skills": (25, 80), "first": (12, 120), "last": (12, 120)}
ANY_NURSES = (15, 70)
WEEKS = 4
CONTRACTS = (
    Contract("Full", Limits(15, 22), Limits(3, 5), Limits(2, 3), 2, True),
    Contract("Part", Limits(9, 15), Limits(2, 5), Limits(2, 5), 2, True),
    Contract("Half", Limits(5, 11), Limits(2, 4), Limits(2, 6), 1, False),
    Contract("Few", Limits(0, 6), Limits(1, 3), Limits(3, 7), 1, False),
)
SHARES = (6, 3, 2, 1)
Worked = Dict[Place, int]


class _Last(NamedTuple):
    """The shift type of the day before, None if it was off, and the days of work in a row."""

    shift: Optional[str]
    days: int


def hidden_week(kind: str, seed: int, folder: Path) -> WeekFiles:
    """Writes the files of a week to a folder of this folder."""
    chance = random.Random(f"{kind}-{seed}")
    ward = _ward(kind, seed, chance)
    week = {
        "first": 0,
        "last": WEEKS - 1,
        "weekends": WEEKS - 1,
        "long": chance.choice([1, 3]),
    }.get(kind, chance.randrange(WEEKS))
    past = History(
        week, ward.name, {nurse: _past(ward, nurse, week, chance) for nurse in ward.nurses}
    )
    worked = _hidden_roster(
        ward, past, 0.95 if kind == "tight" else chance.uniform(0.6, 0.8), chance
    )
    asked = {
        place: _asked(number, kind == "tight", chance) for place, number in sorted(worked.items())
    }
    names = list(ward.nurses)
    shifts = [None, *ward.shift_types]
    wishes = range(3 * len(names) if kind == "wishes" else len(names) // 2)
    requests = tuple(
        Request(chance.choice(names), chance.choice(shifts), chance.randrange(len(DAYS)))
        for _ in wishes
    )
    write_week(folder, ward, WeekData(ward.name, asked, requests), past)
    home = folder / ward.name
    return WeekFiles(home / "ward.txt", home / f"history-{week}.txt", home / f"week-{week}.txt")


def _ward(kind: str, seed: int, chance: random.Random) -> Scenario:
    count = chance.randint(*NURSES.get(kind, ANY_NURSES))
    shifts = {WIDE: 8, "long": 5}.get(kind, chance.choice([3, 4, 4]))
    skills = [
        f"Skill{number}"
        for number in range(
            {WIDE: 8, "skills": chance.randint(6, 12)}.get(kind, chance.choice([2, 3, 4]))
        )
    ]
    names = [f"Shift{number}" for number in range(shifts)]
    minimums, maximums = ((2, 4), (4, 6)) if kind == "long" else ((1, 3), (3, 6))
    runs = [Limits(chance.randint(*minimums), chance.randint(*maximums)) for _ in names]
    if kind != "long":
        runs[chance.randrange(shifts)] = Limits(2, 28)
    step = 1 if kind == "long" else max(1, shifts // 3)
    types = {
        name: ShiftType(name, runs[index], tuple(names[: max(0, index - step + 1)]))
        for index, name in enumerate(names)
    }
    contracts = {contract.name: contract for contract in CONTRACTS}
    few = [1, 2, 3, 4, 5] if kind == "skills" else [1, 1, 2, 2, 3]
    nurses = {}
    for number in range(count):
        contract = chance.choices(CONTRACTS, SHARES)[0].name
        nurses[f"N{number}"] = Nurse(
            f"N{number}",
            contract,
            tuple(sorted(chance.sample(skills, min(len(skills), chance.choice(few))))),
        )
    return Scenario(f"{kind}{seed}", WEEKS, tuple(skills), types, contracts, nurses)


def _past(ward: Scenario, nurse: str, week: int, chance: random.Random) -> NurseHistory:
    most = ward.contract_of(nurse).assignments.maximum
    worked = max(0, most * week // WEEKS + chance.randint(-3, 2)) if week else 0
    weekends = chance.randint(0, min(week, 2))
    if chance.random() < 0.6:
        run = chance.randint(1, 5)
        return NurseHistory(
            nurse,
            worked,
            weekends,
            chance.choice(list(ward.shift_types)),
            chance.randint(1, run),
            run,
            0,
        )
    return NurseHistory(nurse, worked, weekends, None, 0, 0, chance.randint(1, 4))


def _hidden_roster(ward: Scenario, past: History, share: float, chance: random.Random) -> Worked:
    """How many nurses of a made-up roster are at each place."""
    number: Worked = {}
    for nurse, known in ward.nurses.items():
        last = _Last(past.nurses[nurse].last_shift, past.nurses[nurse].working_days)
        for day in range(len(DAYS)):
            shift = _next_shift(ward, nurse, last, share, chance)
            last = _Last(shift, last.days + 1 if shift else 0)
            if shift:
                place = Place(day, shift, chance.choice(known.skills))
                number[place] = number.get(place, 0) + 1
    return number


def _next_shift(
    ward: Scenario, nurse: str, last: _Last, share: float, chance: random.Random
) -> Optional[str]:
    limits = ward.contract_of(nurse).working_days
    if last.shift:
        works = last.days < limits.minimum or (
            last.days < limits.maximum and chance.random() < share
        )
    else:
        works = chance.random() < share * 0.55
    forbidden: Set[str] = set(ward.shift_types[last.shift].forbidden_next) if last.shift else set()
    allowed: Sequence[str] = [shift for shift in ward.shift_types if shift not in forbidden]
    if not (works and allowed):
        return None
    return (
        last.shift if last.shift in allowed and chance.random() < 0.75 else chance.choice(allowed)
    )


def _asked(number: int, is_tight: bool, chance: random.Random) -> Requirement:
    """What a place with this number of nurses asks for: no minimum that they do not meet."""
    minimum = (
        number * chance.choice([6, 8]) // 10
        if number > 1
        else int(chance.random() < (0.7 if is_tight else 0.35))
    )
    more: List[int] = [-1, 0, 0, 1, 1] if is_tight else [-1, -1, 0, 0, 1]
    return Requirement(minimum, max(minimum, number + chance.choice(more)))


__all__: Tuple[str, ...] = ("KINDS", "WIDE", "hidden_week")
