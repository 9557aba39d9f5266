#!/usr/bin/env python3
"""Writes ten weeks with rosters, and prints what each soft rule costs in them.

    certified/costs.py FOLDER

The files are those of the competition INRC-II: FOLDER/NAME has the scenario, the history, the week
and roster.txt, the solution. Whoever has the competition's validator can run it on them, and
compare its costs with these, which `inrc2pb decode` reports.
"""

import contextlib
import shutil
import sys
from dataclasses import replace
from pathlib import Path
from typing import Iterator

sys.path.insert(0, str(Path(__file__).resolve().parent))

from certify import KNOWN  # noqa: E402
from instances import make, named  # noqa: E402

from inrc2pb.judging.rules import SATURDAY  # noqa: E402
from inrc2pb.programs.program import Report, WeekFiles, extend  # noqa: E402
from inrc2pb.week.faults import ProgramFault  # noqa: E402
from inrc2pb.week.files import read_solution, write_solution  # noqa: E402
from inrc2pb.week.records import Solution  # noqa: E402
from inrc2pb.week.soft_rules import SOFT_RULES  # noqa: E402

# Weeks in whose best rosters each soft rule costs something but S5, and one in which a row is left
# out of the best roster, so that a weekend is not complete.
HALF_WEEKEND = "first-20"
WEEKS = (
    "small-5-first",
    "small-5-second",
    "small-5-last",
    "small-10-last",
    "first-12",
    "last-12",
    "first-30",
    "last-30",
    "full-20",
    HALF_WEEKEND,
)


def write(name: str, folder: Path) -> Report:
    """Writes the files of a week and its roster. Returns what the roster costs."""
    files = make(named(name), folder)
    week = WeekFiles(files.scenario, files.history, files.weeks[0])
    roster = folder / name / "roster.txt"
    (known,) = (KNOWN / name).glob("roster-*.txt")
    if name == HALF_WEEKEND:
        return next(_without_a_row(week, read_solution(known), roster))
    shutil.copy(known, roster)
    return extend(week, roster)[1]


def _without_a_row(week: WeekFiles, best: Solution, roster: Path) -> Iterator[Report]:
    """Writes the roster without a row of the weekend. What each costs that keeps the hard rules,
    and pays for a weekend that is not complete."""
    for row in best.cells:
        if row.day < SATURDAY:
            continue
        cells = tuple(cell for cell in best.cells if cell != row)
        write_solution(roster, replace(best, cells=cells))
        with contextlib.suppress(ProgramFault):
            report = extend(week, roster)[1]
            if report.by_rule["S5"]:
                yield report


def main() -> None:
    """Writes the weeks, and prints the table of their costs."""
    if len(sys.argv) != 2:
        sys.exit("usage: certified/costs.py FOLDER")
    folder = Path(sys.argv[1])
    print(f"{'week':<15}{'penalty':>8}", *(f"{rule:>5}" for rule in SOFT_RULES))
    for name in WEEKS:
        report = write(name, folder)
        print(f"{name:<15}{report.penalty:>8}", *(f"{cost:>5}" for cost in report.by_rule.values()))


if __name__ == "__main__":
    main()
