#!/usr/bin/env python3
"""Makes the example weeks `thirty`, `month` and `eight`: always the same files.

usage: make_weeks.py FOLDER [NURSES [--demand PERCENT]]

`thirty` is the last of four weeks of a ward with 30 nurses, four shift types and four skills.
`month` has all four weeks of the same ward. `eight` is the second of four weeks of eight nurses,
and no roster meets it: two nurses have the skill HeadNurse, and it is asked for on Wednesday night
and, on Thursday, early and late. Nobody may work early or late on the day after a night. With
NURSES, 12 or more, it writes only a ward of that size, such as `ward60` for 60 nurses: its last
week, like `thirty`, and the three weeks before it, with the history of the first one. With
`--demand 75` the weeks ask for three quarters of that demand. Needs Python 3.11 or later.
"""

import argparse
import itertools
import sys
from dataclasses import replace
from pathlib import Path
from typing import Callable, Dict, Iterator, List, Sequence, TypeVar

sys.path.insert(0, str(Path(__file__).resolve().parents[1] / "python"))

from inrc2pb.week.records import (  # noqa: E402
    ANY,
    DAYS,
    Contract,
    History,
    Limits,
    Nurse,
    NurseHistory,
    Place,
    Request,
    Requirement,
)
from inrc2pb.week.records import Scenario, ShiftType, WeekData  # noqa: E402
from inrc2pb.week.files import history_text, scenario_text, week_text  # noqa: E402
from inrc2pb.week.writing import write_text  # noqa: E402

SKILLS = ("HeadNurse", "Nurse", "Caretaker", "Trainee")
SHIFT_TYPES = (
    ShiftType("Early", Limits(2, 5), ()),
    ShiftType("Day", Limits(2, 28), ("Early",)),
    ShiftType("Late", Limits(2, 5), ("Early", "Day")),
    ShiftType("Night", Limits(3, 5), ("Early", "Day", "Late")),
)
SHIFTS = [shift.name for shift in SHIFT_TYPES]
CONTRACTS = (
    Contract("FullTime", Limits(15, 22), Limits(3, 5), Limits(2, 3), 2, True),
    Contract("PartTime", Limits(7, 15), Limits(3, 5), Limits(2, 5), 2, True),
    Contract("HalfTime", Limits(5, 11), Limits(3, 5), Limits(3, 5), 1, True),
)
WEEKS = 4
NAMES = """
    Ada Berta Carla David Emil Frieda Greta Hanna Ida Jonas Karl Lena Mia Nora Otto Paula Quirin Rosa Simon Tilda
    Ulla Viktor Wanda Xaver Yara Zita Anton Bruno Clara Dora
""".split()
# The nurses of the ward whose demands `demands_of_ward` has. A ward of fewer than 12 would need
# nobody at most places.
WARD = 30
FEWEST = 12
MOST = 1000

Requirements = Dict[Place, Requirement]
T = TypeVar("T")


class Numbers:
    """The same row of numbers for the same seed, on every machine."""

    def __init__(self, seed: int) -> None:
        self.state = seed

    def below(self, bound: int) -> int:
        """The next number, from 0 to below the bound."""
        self.state = (self.state * 6364136223846793005 + 1442695040888963407) % 2**64
        return (self.state >> 33) % bound

    def one_of(self, choices: Sequence[T]) -> T:
        """One of the choices, by the next number."""
        return choices[self.below(len(choices))]


def scenario(name: str, nurses: Sequence[Nurse]) -> Scenario:
    """The ward of these nurses."""
    types = {shift.name: shift for shift in SHIFT_TYPES}
    contracts = {contract.name: contract for contract in CONTRACTS}
    return Scenario(name, WEEKS, SKILLS, types, contracts, {nurse.name: nurse for nurse in nurses})


def history(ward: Scenario, week: int, numbers: Numbers) -> History:
    """A nurse worked on the last days up to Sunday, or she was off on them."""
    minimum = {"FullTime": 4, "PartTime": 3, "HalfTime": 2}
    pasts = {}
    for nurse in ward.nurses.values():
        assignments = week * minimum[nurse.contract] + numbers.below(2 * week)
        weekends = numbers.below(min(week, 2) + 1)
        if numbers.below(5) < 3:
            run = 1 + numbers.below(4)
            pasts[nurse.name] = NurseHistory(
                nurse.name,
                assignments,
                weekends,
                numbers.one_of(SHIFTS),
                1 + numbers.below(run),
                run,
                0,
            )
        else:
            pasts[nurse.name] = NurseHistory(
                nurse.name, assignments, weekends, None, 0, 0, 1 + numbers.below(3)
            )
    return History(week, ward.name, pasts)


def first_history(ward: Scenario, numbers: Numbers) -> History:
    """Each nurse was off on the last days before the period."""
    return History(
        0,
        ward.name,
        {
            nurse: NurseHistory(nurse, 0, 0, None, 0, 0, 1 + numbers.below(3))
            for nurse in ward.nurses
        },
    )


def week(ward: Scenario, requirements: Requirements, requests: int, numbers: Numbers) -> WeekData:
    """A week with these requirements, and this number of requests."""
    nurses = list(ward.nurses)
    rows = [
        (numbers.one_of(nurses), numbers.one_of([ANY, *SHIFTS]), numbers.below(len(DAYS)))
        for _ in range(requests)
    ]
    return WeekData(
        ward.name,
        requirements,
        tuple(Request(nurse, None if shift == ANY else shift, day) for nurse, shift, day in rows),
    )


def nurses_of_ward(count: int) -> List[Nurse]:
    """This number of nurses: each fifth has the same skills, each fourth the same contract."""
    mixes = [
        ("HeadNurse", "Nurse"),
        ("Nurse",),
        ("Nurse", "Caretaker"),
        ("Caretaker",),
        ("Caretaker", "Trainee"),
    ]
    contracts = ["FullTime", "FullTime", "PartTime", "HalfTime"]
    names: Iterator[str] = (
        name + (str(more) if more else "") for more in itertools.count() for name in NAMES
    )
    return [
        Nurse(name, contracts[n % 4], mixes[n % 5])
        for n, name in enumerate(itertools.islice(names, count))
    ]


def demands_of_ward(numbers: Numbers, nurses: int = WARD, percent: int = 100) -> Requirements:
    """For 30 nurses one nurse and one caretaker on each shift, two nurses early on weekdays, and
    some places for which one more is best. For other numbers of nurses, and this percentage of the
    demand, in proportion: a part of a nurse is rounded up at some places and down at others."""
    wanted = nurses * percent
    whole = WARD * 100
    demands = {}
    for index, (shift, skill, day) in enumerate(
        itertools.product(SHIFTS, SKILLS, range(len(DAYS)))
    ):
        minimum = int(skill in ("Nurse", "Caretaker")) + (
            day < 5 and skill == "Nurse" and shift == "Early"
        )
        best = minimum + (numbers.below(3) > 0)
        up = 7 * index % WARD * 100
        demands[Place(day, shift, skill)] = Requirement(
            (minimum * wanted + up) // whole, (best * wanted + up) // whole
        )
    return demands


def week_of_ward(ward: Scenario, numbers: Numbers, percent: int = 100) -> WeekData:
    """A week with 25 requests for 30 nurses, and this percentage of the demand."""
    return week(
        ward,
        demands_of_ward(numbers, len(ward.nurses), percent),
        25 * len(ward.nurses) // WARD,
        numbers,
    )


def write(folder: Path, texts: Dict[str, str]) -> None:
    """Writes files to the folder."""
    folder.mkdir(parents=True, exist_ok=True)
    for name, text in texts.items():
        write_text(folder / name, text)


def write_week(folder: Path, ward: Scenario, data: WeekData, past: History) -> None:
    """Writes the files of a week, with the names that the competition has."""
    names = ["ward.txt", f"history-{past.week}.txt", f"week-{past.week}.txt"]
    write(
        folder / ward.name,
        dict(zip(names, (scenario_text(ward), history_text(past), week_text(data)))),
    )


def last_week(folder: Path, ward: Scenario, numbers: Numbers, percent: int = 100) -> None:
    """The last week of the ward, after a history that is made up."""
    data = week_of_ward(ward, numbers, percent)
    write_week(folder, ward, data, history(ward, WEEKS - 1, numbers))


def ward_of_size(folder: Path, count: int, percent: int) -> None:
    """A ward of `count` nurses: the last week, then the weeks before it."""
    numbers = Numbers(count)
    ward = scenario(f"ward{count}", nurses_of_ward(count))
    last_week(folder, ward, numbers, percent)
    weeks = {
        f"week-{number}.txt": week_text(week_of_ward(ward, numbers, percent))
        for number in range(WEEKS - 1)
    }
    write(
        folder / ward.name, {"history-0.txt": history_text(first_history(ward, numbers)), **weeks}
    )


def month(folder: Path) -> None:
    """30 nurses in all four weeks of a period."""
    numbers = Numbers(4)
    ward = scenario("month", nurses_of_ward(WARD))
    weeks = {
        f"week-{number}.txt": week_text(week_of_ward(ward, numbers)) for number in range(WEEKS)
    }
    past = history_text(first_history(ward, numbers))
    write(folder / ward.name, {"ward.txt": scenario_text(ward), "history-0.txt": past, **weeks})


def period(folder: Path, name: str, count: int, weeks: int, percent: int, seed: int) -> None:
    """All weeks of a period of four or eight weeks of a ward with this number of nurses; totals are
    for the whole period."""
    numbers = Numbers(seed)
    times = weeks // WEEKS
    for _ in range(8):
        numbers.below(1)
    ward = scenario(name, nurses_of_ward(count))
    contracts = {
        contract.name: replace(
            contract,
            assignments=Limits(
                times * contract.assignments.minimum, times * contract.assignments.maximum
            ),
            max_weekends=times * contract.max_weekends,
        )
        for contract in CONTRACTS
    }
    ward = replace(ward, weeks=weeks, contracts=contracts)
    texts = {
        f"week-{number}.txt": week_text(week_of_ward(ward, numbers, percent))
        for number in range(weeks)
    }
    write(
        folder / name,
        {
            "ward.txt": scenario_text(ward),
            "history-0.txt": history_text(first_history(ward, numbers)),
            **texts,
        },
    )


def short_of_heads(folder: Path) -> None:
    """Eight nurses, two of them head nurses, in the second of four weeks."""
    numbers = Numbers(8)
    mixes = [("HeadNurse", "Nurse"), ("Nurse", "Caretaker"), ("Nurse",), ("Caretaker", "Trainee")]
    contracts = ["FullTime", "PartTime", "FullTime"]
    ward = scenario("eight", [Nurse(NAMES[n], contracts[n % 3], mixes[n % 4]) for n in range(8)])
    places = itertools.product(SHIFTS, SKILLS[1:3], range(len(DAYS)))
    demands = {
        Place(day, shift, skill): Requirement(0, 1 + numbers.below(2))
        for shift, skill, day in places
    }
    for shift, wanted in {"Early": 3, "Late": 3, "Night": 2}.items():
        demands.update(
            {
                Place(day, shift, "HeadNurse"): Requirement(int(day == wanted), 1)
                for day in range(len(DAYS))
            }
        )
    data = week(ward, demands, 5, numbers)
    write_week(folder, ward, data, history(ward, 1, numbers))


def number_within(low: int, high: int) -> Callable[[str], int]:
    """The reader of a number within these limits."""

    def number(word: str) -> int:
        if not word.isdecimal() or not low <= int(word) <= high:
            raise argparse.ArgumentTypeError(f"no number from {low} to {high}")
        return int(word)

    return number


def main() -> None:
    """Writes the example weeks, or a ward."""
    parser = argparse.ArgumentParser(
        description=__doc__,
        formatter_class=argparse.RawDescriptionHelpFormatter,
        usage=argparse.SUPPRESS,
    )
    parser.add_argument(
        "folder", metavar="FOLDER", type=Path, help="the weeks get a folder each in this folder"
    )
    size = number_within(FEWEST, MOST)
    parser.add_argument(
        "nurses", metavar="NURSES", nargs="?", type=size, help=f"a number from {FEWEST} to {MOST}"
    )
    percent = number_within(1, 200)
    parser.add_argument(
        "--demand",
        metavar="PERCENT",
        type=percent,
        default=100,
        help="of the demand in proportion to the nurses",
    )
    words = parser.parse_args()
    if words.nurses:
        ward_of_size(words.folder, words.nurses, words.demand)
    else:
        last_week(words.folder, scenario("thirty", nurses_of_ward(WARD)), Numbers(WARD))
        month(words.folder)
        short_of_heads(words.folder)


if __name__ == "__main__":
    main()
