#!/usr/bin/env python3
"""Writes the three files of a made-up week, always the same ones, and an answer to its model; also
a ward of any size.

usage: weeks.py files ward|large|greatest FOLDER     writes scenario.txt, history.txt and week.txt
       weeks.py answer ward|large MODEL ANSWER       writes a solver's answer, on one line
       weeks.py period NURSES FOLDER                 writes ward.txt, history-0.txt, week-0.txt
                                                     and week-1.txt

`ward` is a last week of 120 nurses, 4 shift types and 4 skills. `large` has as many nurses, shift
types, skills, contracts and requests as the limits allow: 1000, 16, 16, 64 and 9999. `greatest` is
the week with the longest model that we know of: as large, with the numbers that charge most. In the
answer's roster each place of a minimum has a nurse of its own, and no hard rule is broken; all
slacks of the model are true. `period` has a ward like `ward`, with 48 to 1000 nurses, which asks
for the same in each of its two weeks.
"""

import sys
from dataclasses import replace
from pathlib import Path
from typing import List, NamedTuple

ROOT = Path(__file__).resolve().parent.parent
sys.path.append(str(ROOT / "python"))

from inrc2pb.week.records import (  # noqa: E402
    DAYS,
    Contract,
    History,
    Limits,
    Nurse,
    NurseHistory,
    Place,
    Request,
    Requirement,
    Scenario,
)
from inrc2pb.week.records import ShiftType, Week, WeekData  # noqa: E402
from inrc2pb.week.files import history_text, scenario_text, week_text  # noqa: E402
from inrc2pb.week.writing import write_text  # noqa: E402

NAME = "bench"
WEEKS = 4
SHORT_PERIOD = 2


class Size(NamedTuple):
    """The size of a week."""

    nurses: int
    shifts: int
    skills: int
    contracts: int
    requests: int

    def block_size(self) -> int:
        """The nurses of a block. Each day asks for one nurse of each shift type and skill: they are
        the nurses of one block, and three blocks take turns, so that no nurse works on two days
        that follow one another."""
        return self.shifts * self.skills

    def worker(self, day: int, shift: int, skill: int) -> int:
        """The nurse who works there."""
        return day % 3 * self.block_size() + shift * self.skills + skill

    def skills_of(self, nurse: int) -> List[int]:
        """Half of the skills, from the one on with which her block wants her."""
        return sorted((nurse + step) % self.skills for step in range((self.skills + 1) // 2))


SIZES = {
    "ward": Size(nurses=120, shifts=4, skills=4, contracts=4, requests=120),
    "large": Size(nurses=1000, shifts=16, skills=16, contracts=64, requests=9999),
}

# The nurses of the three blocks of a ward, and the most nurses of a scenario.
FEWEST_OF_PERIOD = 3 * SIZES["ward"].block_size()
MOST_OF_PERIOD = 1000

# Weeks that differ only in the number of nurses, as wards do: requests grow with it.
GROWTH = {
    nurses: Size(nurses=nurses, shifts=4, skills=4, contracts=4, requests=9 * nurses)
    for nurses in (10, 30, 120, 300, 1000)
}


def named(kind: str, count: int) -> List[str]:
    """The names of this number of shift types, skills, contracts or nurses."""
    return [f"{kind}{number}" for number in range(count)]


def scenario(size: Size, weeks: int = WEEKS) -> Scenario:
    """A scenario of this size, with this number of weeks."""
    shifts = named("shift", size.shifts)
    skills = named("skill", size.skills)
    types = {
        name: ShiftType(name, Limits(2, 3 + number % 3), tuple(shifts[max(0, number - 2) : number]))
        for number, name in enumerate(shifts)
    }
    contracts = {
        name: Contract(
            name,
            Limits(7 + c % 9, 11 + c % 12),
            Limits(3, 4 + c % 3),
            Limits(2, 3 + c % 3),
            1 + c % 2,
            c % 2 == 1,
        )
        for c, name in enumerate(named("contract", size.contracts))
    }
    nurses = {
        name: Nurse(
            name,
            f"contract{number % size.contracts}",
            tuple(skills[skill] for skill in size.skills_of(number)),
        )
        for number, name in enumerate(named("nurse", size.nurses))
    }
    return Scenario(NAME, weeks, tuple(skills), types, contracts, nurses)


def first_history(size: Size) -> History:
    """The history of a first week: each nurse was off on the last days."""
    return History(
        0,
        NAME,
        {
            name: NurseHistory(name, 0, 0, None, 0, 0, 1 + n % 4)
            for n, name in enumerate(named("nurse", size.nurses))
        },
    )


def history(size: Size) -> History:
    """The history of the last week: each second nurse who is in no block has worked."""
    pasts = {}
    for n, name in enumerate(named("nurse", size.nurses)):
        works = n >= 3 * size.block_size() and n % 2 == 0
        run = (
            (f"shift{n % size.shifts}", 1 + n % 3, 2 + n % 3, 0)
            if works
            else (None, 0, 0, 1 + n % 4)
        )
        pasts[name] = NurseHistory(name, 6 + n % 12, n % 4, *run)
    return History(WEEKS - 1, NAME, pasts)


def week(size: Size) -> WeekData:
    """One nurse is needed at each place."""
    requirements = {
        Place(day, f"shift{shift}", f"skill{skill}"): Requirement(1, 2 + (day + shift + skill) % 2)
        for shift in range(size.shifts)
        for skill in range(size.skills)
        for day in range(len(DAYS))
    }
    requests = [
        Request(f"nurse{r * 7 % size.nurses}", f"shift{r % size.shifts}" if r % 3 else None, r % 7)
        for r in range(size.requests)
    ]
    return WeekData(NAME, requirements, tuple(requests))


def greatest() -> Week:
    """The week with the longest model. Each succession is forbidden, no nurse has a skill, and
    limits whose minimum is above the maximum charge both."""
    shifts = tuple(named("shift", 16))
    skills = tuple(named("skill", 16))
    nurses = named("nurse", 1000)
    both = Limits(9999, 0)
    contract = Contract("contract0", both, both, both, 0, True)
    types = {name: ShiftType(name, both, shifts) for name in shifts}
    ward = Scenario(
        NAME,
        WEEKS,
        skills,
        types,
        {contract.name: contract},
        {name: Nurse(name, contract.name, ()) for name in nurses},
    )
    pasts = {name: NurseHistory(name, 0, 0, shifts[0], 1, 1, 1) for name in nurses}
    requirements = {
        Place(day, shift, skill): Requirement(1, 9999)
        for shift in shifts
        for skill in skills
        for day in range(len(DAYS))
    }
    requests = tuple(Request(nurses[r // 7 % 1000], None, r % 7) for r in range(9999))
    return Week(ward, History(WEEKS - 1, NAME, pasts), WeekData(NAME, requirements, requests))


def write_week(folder: Path, made: Week) -> None:
    """Writes the files of a week."""
    folder.mkdir(parents=True, exist_ok=True)
    write_text(folder / "scenario.txt", scenario_text(made.scenario))
    write_text(folder / "history.txt", history_text(made.history))
    write_text(folder / "week.txt", week_text(made.data))


def write_files(size: Size, folder: str) -> None:
    """Writes a week of this size. `late.txt` is its history in a week that the scenario does not
    have: a run reads all files and ends there."""
    made = Week(scenario(size), history(size), week(size))
    write_week(Path(folder), made)
    write_text(Path(folder, "late.txt"), history_text(replace(made.history, week=WEEKS)))


def write_period(nurses: int, folder: Path) -> None:
    """Writes a period of two weeks that ask for the same."""
    size = SIZES["ward"]._replace(nurses=nurses, requests=nurses)
    folder.mkdir(parents=True, exist_ok=True)
    write_text(folder / "ward.txt", scenario_text(scenario(size, SHORT_PERIOD)))
    write_text(folder / "history-0.txt", history_text(first_history(size)))
    for number in range(SHORT_PERIOD):
        write_text(folder / f"week-{number}.txt", week_text(week(size)))


def write_greatest(folder: str) -> None:
    """Writes the week with the longest model."""
    write_week(Path(folder), greatest())


def cell_variable(size: Size, nurse: int, day: int, shift: int, skill: int) -> int:
    """The variable of a cell, by docs/model.md."""
    return ((nurse * 7 + day) * size.shifts + shift) * size.skills + skill + 1


def write_answer(size: Size, model: str, answer: str) -> None:
    """Writes the answer to the model of a week of this size."""
    with open(model) as file:
        words = file.readline().split()
    variables = int(words[words.index("#variable=") + 1])
    cells = 7 * size.nurses * size.shifts * size.skills
    is_true = bytearray(variables + 1)
    is_true[cells + 1 :] = b"\1" * (variables - cells)
    for day in range(7):
        for shift in range(size.shifts):
            for skill in range(size.skills):
                nurse = size.worker(day, shift, skill)
                is_true[cell_variable(size, nurse, day, shift, skill)] = 1
    with open(answer, "w") as file:
        file.write("s SATISFIABLE\nv")
        file.writelines(f" x{n}" if is_true[n] else f" -x{n}" for n in range(1, variables + 1))
        file.write("\n")


def main() -> None:
    """Writes the files or the answer that the words ask for."""
    if len(sys.argv) == 4 and sys.argv[1:3] == ["files", "greatest"]:
        write_greatest(sys.argv[3])
    elif len(sys.argv) == 4 and sys.argv[1] == "files" and sys.argv[2] in SIZES:
        write_files(SIZES[sys.argv[2]], sys.argv[3])
    elif (
        len(sys.argv) == 4
        and sys.argv[1] == "period"
        and sys.argv[2].isdecimal()
        and FEWEST_OF_PERIOD <= int(sys.argv[2]) <= MOST_OF_PERIOD
    ):
        write_period(int(sys.argv[2]), Path(sys.argv[3]))
    elif len(sys.argv) == 5 and sys.argv[1] == "answer" and sys.argv[2] in SIZES:
        write_answer(SIZES[sys.argv[2]], *sys.argv[3:])
    else:
        sys.exit(__doc__)


if __name__ == "__main__":
    main()
