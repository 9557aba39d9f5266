#!/usr/bin/env python3
"""The sixty weeks and twelve periods of docs/benchmark.md: always the same files.

    certified/instances.py FOLDER [NAME ..]     writes the files of all instances, or of these, to a
                                                folder each, and prints their names with the options
                                                of the programs
    certified/instances.py --list               prints the names

The numbers come from a generator of their own, so they are the same on every machine and for each
version of Python.
"""

import argparse
import itertools
import sys
from dataclasses import replace
from pathlib import Path
from typing import Dict, Iterator, List, NamedTuple, Optional, Tuple

# The generators of weeks.
sys.path.insert(0, str(Path(__file__).resolve().parents[1] / "bench"))

import make_weeks  # noqa: E402
import wide_weeks  # noqa: E402
from make_weeks import (  # noqa: E402
    NAMES,
    WEEKS,
    Numbers,
    first_history,
    history,
    nurses_of_ward,
    week_of_ward,
    write,
    write_week,
)

from inrc2pb.search.planned_weeks import PeriodFiles  # noqa: E402
from inrc2pb.week.files import solution_text  # noqa: E402
from inrc2pb.week.records import (  # noqa: E402
    DAYS,
    Cell,
    History,
    Nurse,
    Place,
    Requirement,
    Scenario,
    Solution,
    WeekData,
)

FIRST, SECOND, THIRD, LAST = range(WEEKS)
# The numbers that a generator draws before it is used: the first ones of near seeds are similar.
WARM = 8
# The shift types of small wards, the mixes of skills of their nurses, and the part of each nurse
# who is needed on each shift, in percent.
SMALL_SHIFTS = ("Early", "Late", "Night")
SMALL_SKILLS = (("HeadNurse", "Nurse"), ("Nurse",), ("Nurse",))
SMALL_SHARE = 15
SMALL_CONTRACTS = ("FullTime", "PartTime", "FullTime", "HalfTime")

# A ward, the history with which its week begins, and the week.
Made = Tuple[Scenario, History, WeekData]


class Instance(NamedTuple):
    """A week, or a period of several weeks: its name, what makes it, its number of nurses, that of
    its week or weeks, its demand in percent, whether totals are charged early, how many cells are
    held, and how many shift types and skills a wide week has.
    """

    name: str
    kind: str
    nurses: int
    week: int
    percent: int = 100
    early: bool = False
    held: int = 0
    kinds: int = 0

    @property
    def weeks(self) -> int:
        """How many weeks are planned."""
        return self.week if self.kind == "period" else 1


def _small(one: Instance, numbers: Numbers) -> Made:
    """A ward of a few nurses with three shift types and two skills."""
    nurses = [
        Nurse(NAMES[n], SMALL_CONTRACTS[n % 4], SMALL_SKILLS[n % 3]) for n in range(one.nurses)
    ]
    ward = make_weeks.scenario(one.name, nurses)
    types = {name: ward.shift_types[name] for name in SMALL_SHIFTS}
    types = {
        name: replace(kind, forbidden_next=tuple(filter(types.get, kind.forbidden_next)))
        for name, kind in types.items()
    }
    ward = replace(ward, skills=ward.skills[:2], shift_types=types)
    asked: Dict[Place, Requirement] = {}
    for day, shift in itertools.product(range(len(DAYS)), SMALL_SHIFTS):
        minimum = (SMALL_SHARE * one.nurses * one.percent // 100 + numbers.below(40)) // 100
        asked[Place(day, shift, "HeadNurse")] = Requirement(0, numbers.below(2))
        asked[Place(day, shift, "Nurse")] = Requirement(minimum, minimum + numbers.below(2))
    data = make_weeks.week(ward, asked, one.nurses, numbers)
    requests = tuple(
        wish if wish.shift != "Day" else replace(wish, shift="Early") for wish in data.requests
    )
    past = _past(one, ward, numbers)
    pasts = {
        name: of_nurse if of_nurse.last_shift != "Day" else replace(of_nurse, last_shift="Early")
        for name, of_nurse in past.nurses.items()
    }
    return ward, replace(past, nurses=pasts), replace(data, requests=requests)


def _past(one: Instance, ward: Scenario, numbers: Numbers) -> History:
    return history(ward, one.week, numbers) if one.week else first_history(ward, numbers)


def _usual(one: Instance, numbers: Numbers) -> Made:
    """A ward like that of the example `thirty`."""
    ward = make_weeks.scenario(one.name, nurses_of_ward(one.nurses))
    past = _past(one, ward, numbers)
    return ward, past, week_of_ward(ward, numbers, one.percent)


def _short(one: Instance, numbers: Numbers) -> Made:
    """A usual week that asks for all head nurses on one night, and for one of them early on the day
    after it: no roster meets it."""
    ward, past, data = _usual(one, numbers)
    heads = sum("HeadNurse" in nurse.skills for nurse in ward.nurses.values())
    night = 1 + numbers.below(5)
    more = {
        Place(night, "Night", "HeadNurse"): Requirement(heads, heads),
        Place(night + 1, "Early", "HeadNurse"): Requirement(1, 1),
    }
    return ward, past, replace(data, requirements={**data.requirements, **more})


def _wide(one: Instance, numbers: Numbers) -> Made:
    """A last week with many shift types and skills."""
    ward = wide_weeks.ward(one.name, one.nurses, one.kinds, numbers)
    pasts = {
        nurse.name: wide_weeks.past(nurse, list(ward.shift_types), numbers)
        for nurse in ward.nurses.values()
    }
    past = History(one.week, ward.name, pasts)
    return ward, past, wide_weeks.last_week(ward, past, one.percent, numbers)


MAKERS = {"small": _small, "usual": _usual, "short": _short, "wide": _wide}


def _held(one: Instance, ward: Scenario, past: History, numbers: Numbers) -> Iterator[Cell]:
    """Cells to hold, each of another nurse, on days from Tuesday on."""
    nurses = list(ward.nurses.values())
    for number in range(one.held):
        nurse = nurses[(number * len(nurses)) // one.held]
        yield Cell(
            nurse.name,
            1 + numbers.below(len(DAYS) - 1),
            numbers.one_of(list(ward.shift_types)),
            numbers.one_of(nurse.skills),
        )


def _all() -> Iterator[Instance]:
    """All instances, the smallest of each kind first."""
    for nurses in (5, 6, 8, 10):
        for name, week in (("first", FIRST), ("second", SECOND), ("last", LAST)):
            yield Instance(
                f"small-{nurses}-{name}",
                "small",
                nurses,
                week,
                {FIRST: 100, SECOND: 120, LAST: 90}[week],
            )
    for nurses in (12, 20, 30, 45, 60, 80, 100, 120, 150, 200):
        yield Instance(f"first-{nurses}", "usual", nurses, FIRST)
        yield Instance(f"last-{nurses}", "usual", nurses, LAST)
    for nurses in (12, 30, 120):
        yield Instance(f"tight-{nurses}", "usual", nurses, THIRD, 180)
    for nurses in (12, 30, 60, 120):
        yield Instance(f"early-{nurses}", "usual", nurses, SECOND, 110, early=True)
        yield Instance(f"fix-{nurses}", "usual", nurses, THIRD, 95, held=nurses // 6)
    for nurses in (20, 80):
        yield Instance(f"early-fix-{nurses}", "usual", nurses, THIRD, 105, True, nurses // 5)
    for nurses, kinds in ((40, 6), (60, 8), (60, 10), (100, 8), (150, 6)):
        yield Instance(f"wide-{nurses}x{kinds}", "wide", nurses, LAST, 100, kinds=kinds)
    for nurses, week in ((250, LAST), (500, FIRST), (1000, LAST)):
        yield Instance(f"large-{nurses}", "usual", nurses, week)
    for nurses in (12, 30, 60, 120, 250):
        yield Instance(f"none-{nurses}", "short", nurses, SECOND)
    for nurses in (20, 60):
        yield Instance(f"full-{nurses}", "usual", nurses, SECOND, 300)
    for nurses, weeks, percent in (
        (12, 2, 100),
        (20, 2, 95),
        (30, 2, 105),
        (60, 2, 100),
        (12, 4, 90),
        (20, 4, 100),
        (30, 4, 100),
        (40, 4, 95),
        (60, 4, 105),
        (12, 8, 100),
        (16, 8, 95),
        (30, 8, 100),
    ):
        yield Instance(f"period-{nurses}x{weeks}", "period", nurses, weeks, percent)


INSTANCES: List[Instance] = list(_all())


def _period(one: Instance, home: Path, seed: int) -> PeriodFiles:
    """Writes the files of a period: the first weeks of a ward that is planned for four weeks or for
    eight."""
    make_weeks.period(home.parent, one.name, one.nurses, max(WEEKS, one.week), one.percent, seed)
    for path in home.glob("week-*.txt"):
        if int(path.stem.partition("-")[2]) >= one.week:
            path.unlink()
    return PeriodFiles(
        home / "ward.txt",
        home / "history-0.txt",
        [home / f"week-{number}.txt" for number in range(one.week)],
    )


def make(one: Instance, folder: Path) -> PeriodFiles:
    """Writes the files of an instance to a folder of its name in this folder, and returns them."""
    home = folder / one.name
    seed = 7001 + INSTANCES.index(one)
    if one.kind == "period":
        return _period(one, home, seed)
    numbers = Numbers(seed)
    for _ in range(WARM):
        numbers.below(1)
    ward, past, data = MAKERS[one.kind](one, numbers)
    write_week(folder, ward, data, past)
    fixes = {}
    if one.held:
        fixes[0] = home / "fix.txt"
        write(
            home,
            {
                "fix.txt": solution_text(
                    Solution(past.week, ward.name, tuple(_held(one, ward, past, numbers)))
                )
            },
        )
    return PeriodFiles(
        home / "ward.txt",
        home / f"history-{past.week}.txt",
        [home / f"week-{past.week}.txt"],
        fixes,
        one.early,
    )


def options_of(files: PeriodFiles) -> List[str]:
    """The files of an instance as options of the programs and of `inrc2pb-solve`."""
    weeks = [word for path in files.weeks for word in ("--week", str(path))]
    fixes = ["--fix", str(files.fixes[0])] if files.fixes else []
    return [
        "--sce",
        str(files.scenario),
        "--his",
        str(files.history),
        *weeks,
        *fixes,
        *["--early"] * files.early,
    ]


def named(name: str) -> Instance:
    """The instance with this name. Another name ends the program."""
    found: Optional[Instance] = next((one for one in INSTANCES if one.name == name), None)
    if found is None:
        sys.exit(f"there is no instance {name}: instances.py --list prints the names")
    return found


def main() -> None:
    """Writes instances, or prints their names."""
    options = argparse.ArgumentParser(
        description=__doc__, formatter_class=argparse.RawDescriptionHelpFormatter
    )
    options.add_argument("folder", metavar="FOLDER", nargs="?", type=Path)
    options.add_argument("names", metavar="NAME", nargs="*")
    options.add_argument("--list", action="store_true")
    given = options.parse_args()
    if given.list:
        print("\n".join(one.name for one in INSTANCES))
    elif given.folder is None:
        options.error("give the folder")
    else:
        for one in map(named, given.names) if given.names else INSTANCES:
            print(one.name, *options_of(make(one, given.folder)))


if __name__ == "__main__":
    main()
