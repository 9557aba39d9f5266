#!/usr/bin/env python3
"""Makes a ward with many shift types and skills, and its last week: always the same files for the
same seed.

usage: wide_weeks.py FOLDER NURSES KINDS SEED [PERCENT]

It has KINDS shift types and skills, and each nurse has one to five skills of her own. A made-up
roster sets the minimums, so that they can nearly always be met. The optimal numbers ask for PERCENT
(100) of what the nurses work in it, and for one nurse more at some places. Needs Python 3.11 or
later.
"""

import sys
from pathlib import Path
from typing import Dict, List

sys.path.insert(0, str(Path(__file__).resolve().parent))

from make_weeks import CONTRACTS, WEEKS, Numbers, write_week  # noqa: E402

from inrc2pb.week.records import (  # noqa: E402
    DAYS,
    History,
    Limits,
    Nurse,
    NurseHistory,
    Place,
    Request,
    Requirement,
    Scenario,
)
from inrc2pb.week.records import ShiftType, WeekData  # noqa: E402

# The days that a nurse works in the made-up roster, and in each of the weeks before, at least.
WORKS = {"FullTime": (5, 4), "PartTime": (4, 3), "HalfTime": (3, 2)}
MOST_SKILLS = 5


def skills_of(numbers: Numbers, kinds: int) -> List[int]:
    """The skills of a nurse: small numbers are more frequent."""
    drawn = (
        min(numbers.below(kinds), numbers.below(kinds))
        for _ in range(1 + numbers.below(MOST_SKILLS))
    )
    return sorted(set(drawn))


def shift_types(numbers: Numbers, kinds: int) -> List[ShiftType]:
    """Shift types in the order of their times: one that is much earlier may not follow."""
    types = []
    for number in range(kinds):
        minimum = 1 + numbers.below(3)
        earlier = tuple(f"shift{other}" for other in range(number - kinds // 3))
        types.append(
            ShiftType(f"shift{number}", Limits(minimum, minimum + 2 + numbers.below(3)), earlier)
        )
    return types


def ward(name: str, nurses: int, kinds: int, numbers: Numbers) -> Scenario:
    """A ward of these sizes."""
    skills = [f"skill{number}" for number in range(kinds)]
    types = {named.name: named for named in shift_types(numbers, kinds)}
    staff = {
        f"nurse{number}": Nurse(
            f"nurse{number}",
            numbers.one_of(CONTRACTS).name,
            tuple(skills[index] for index in skills_of(numbers, kinds)),
        )
        for number in range(nurses)
    }
    return Scenario(
        name, WEEKS, tuple(skills), types, {named.name: named for named in CONTRACTS}, staff
    )


def past(nurse: Nurse, shifts: List[str], numbers: Numbers) -> NurseHistory:
    """A nurse's past: she worked on the last days, or was off."""
    assignments = (WEEKS - 1) * WORKS[nurse.contract][1] + numbers.below(6)
    weekends = numbers.below(3)
    if numbers.below(5) < 3:
        run = 1 + numbers.below(4)
        return NurseHistory(
            nurse.name,
            assignments,
            weekends,
            numbers.one_of(shifts),
            1 + numbers.below(run),
            run,
            0,
        )
    return NurseHistory(nurse.name, assignments, weekends, None, 0, 0, 1 + numbers.below(3))


def made_up_numbers(scenario: Scenario, history: History, numbers: Numbers) -> Dict[Place, int]:
    """How many nurses are at each place in a made-up roster."""
    there: Dict[Place, int] = {}
    for nurse in scenario.nurses.values():
        last = history.nurses[nurse.name].last_shift
        left = WORKS[nurse.contract][0]
        for day in range(len(DAYS)):
            works = numbers.below(len(DAYS) - day) < left
            left -= works
            forbidden = scenario.shift_types[last].forbidden_next if last else ()
            if works and (last is None or numbers.below(5) < 2):
                last = numbers.one_of(
                    [shift for shift in scenario.shift_types if shift not in forbidden]
                )
            last = last if works else None
            if last:
                place = Place(day, last, numbers.one_of(nurse.skills))
                there[place] = there.get(place, 0) + 1
    return there


def last_week(scenario: Scenario, history: History, percent: int, numbers: Numbers) -> WeekData:
    """A week with a request for each nurse."""
    there = made_up_numbers(scenario, history, numbers)
    asked = {}
    for place in (
        Place(day, shift, skill)
        for day in range(len(DAYS))
        for shift in scenario.shift_types
        for skill in scenario.skills
    ):
        number = there.get(place, 0)
        minimum = min(number, (6 * number + numbers.below(9)) // 10)
        best = max(minimum, (number * percent + numbers.below(100)) // 100) + (
            numbers.below(100) < 15
        )
        if best:
            asked[place] = Requirement(minimum, best)
    nurses = list(scenario.nurses)
    shifts = [None, *scenario.shift_types]
    requests = (
        Request(numbers.one_of(nurses), numbers.one_of(shifts), numbers.below(len(DAYS)))
        for _ in nurses
    )
    return WeekData(scenario.name, asked, tuple(requests))


def main() -> None:
    """Writes the files."""
    if len(sys.argv) not in (5, 6) or not all(word.isdecimal() for word in sys.argv[2:]):
        sys.exit(__doc__)
    nurses, kinds, seed, percent = (*map(int, sys.argv[2:]), 100)[:4]
    numbers = Numbers(seed)
    scenario = ward(f"wide{kinds}x{seed}", nurses, kinds, numbers)
    pasts = {
        nurse.name: past(nurse, list(scenario.shift_types), numbers)
        for nurse in scenario.nurses.values()
    }
    history = History(WEEKS - 1, scenario.name, pasts)
    write_week(Path(sys.argv[1]), scenario, last_week(scenario, history, percent, numbers), history)


if __name__ == "__main__":
    main()
