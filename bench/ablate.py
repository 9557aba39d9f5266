#!/usr/bin/env python3
"""Says what each part of a search gives: plans weeks and periods with the part and without it.

    bench/ablate.py [--seeds NUMBER] [PART ..]

For each part the search is copied with this part off. A line has the penalty and the bound of each
seed, the best first, and the processor seconds of all. A part that changes less than seeds do gives
nothing. Run it on two quiet processors (`taskset -c 2,3`); all parts take some hours.
"""

import argparse
import shutil
import tempfile
from pathlib import Path
from typing import Dict, Iterator, NamedTuple, Sequence, Tuple

import make_weeks
import solvers
from hidden_weeks import hidden_week
from solvers import ROOT, Work


class Change(NamedTuple):
    """A place of a module of `rows` at which a part is turned off."""

    module: str
    old: str
    new: str


PARTS: Dict[str, Sequence[Change]] = {
    "all parts": (),
    "first prices by rounds": (
        Change("row_run", "            self._try(search.approach, STEP_SHARE)", "            pass"),
    ),
    "smoothed prices": (
        Change(
            "row_generation",
            "SMOOTHING = 0.4\nLONG_SMOOTHING = 0.7",
            "SMOOTHING = 0.0\nLONG_SMOOTHING = 0.0",
        ),
    ),
    "rounds in large dives": (Change("week_dives", "MANY_PLACES = 400", "MANY_PLACES = 10**9"),),
    "undone fixings": (Change("week_dives", "MOST_RISE = 6 * STEP", "MOST_RISE = 10**9"),),
    "dives in a week": (
        Change("row_run", "MORE_DIVES = (0.15, 0.3, 0.0, 0.15, 0.08, 0.15)", "MORE_DIVES = ()"),
    ),
    "windows": (Change("windows", "        self._days = _days(plan)", "        self._days = []"),),
    "windows before prices": (
        Change(
            "row_run",
            "if self._solver and search.penalty is not None and self.plan.is_long:",
            "if False:",
        ),
    ),
    "cases": (Change("row_run", "if not self._splits or self._tree:", "if True:"),),
}
# Weeks by kind and seed, and periods by nurses, weeks, percentage of the demand and seed; the most
# seconds of each.
WEEKS = (("skills", 98812, 10), ("skills", 77, 10), ("wide", 8804, 10), ("wide", 75, 10))
PERIODS = (
    (14, 4, 100, 96014, 60),
    (20, 4, 100, 96020, 60),
    (60, 4, 95, 96060, 60),
    (100, 4, 95, 96100, 60),
    (20, 8, 100, 97020, 120),
    (40, 8, 95, 97040, 120),
)


def problems(folder: Path) -> Iterator[Tuple[str, Work]]:
    """The weeks and periods, by name."""
    for kind, seed, seconds in WEEKS:
        week = hidden_week(kind, seed, folder)
        yield f"{kind} {seed}", Work(week.scenario, week.history, [week.week], seconds)
    for nurses, weeks, percent, seed, seconds in PERIODS:
        name = f"{nurses} nurses, {weeks} weeks"
        make_weeks.period(folder, name, nurses, weeks, percent, seed)
        yield name, solvers.period_in(folder / name, seconds)


def copied(part: str, folder: Path) -> Path:
    """The command of a copy without this part."""
    shutil.copytree(ROOT / "python", folder / "python", ignore=shutil.ignore_patterns("tests"))
    (folder / "out").symlink_to(ROOT / "out")
    for module, old, new in PARTS[part]:
        path = folder / "python" / "inrc2pb" / "rows" / f"{module}.py"
        path.write_text(changed(path.read_text(), old, new))
    return folder / "python" / "inrc2pb-solve"


def changed(text: str, old: str, new: str) -> str:
    """The text with the only place that has the old text changed. Raises ValueError if it is not
    the only one."""
    if text.count(old) != 1:
        raise ValueError(f"{text.count(old)} places have: {old}")
    return text.replace(old, new)


def measure(part: str, seeds: int, folder: Path) -> None:
    """Prints a line for each problem."""
    command = copied(part, folder)
    for name, work in problems(folder):
        runs = [solvers.run(work, folder, seed, command) for seed in range(1, seeds + 1)]
        found = sorted((int(ran.penalty), ran.bound) for ran in runs if ran.penalty.isdigit())
        used = sum(ran.processor for ran in runs)
        line = ", ".join(f"{penalty}/{bound}" for penalty, bound in found)
        print(f"{part:<24} {name:<20} {line:<36} {used:8.0f}", flush=True)


def main() -> None:
    """Measures the parts that are named, or all."""
    options = argparse.ArgumentParser(
        description=__doc__, formatter_class=argparse.RawDescriptionHelpFormatter
    )
    options.add_argument("parts", metavar="PART", nargs="*", help=", ".join(PARTS))
    options.add_argument("--seeds", metavar="NUMBER", type=int, default=3)
    given = options.parse_args()
    for part in given.parts or PARTS:
        with tempfile.TemporaryDirectory() as folder:
            measure(part, given.seeds, Path(folder))


if __name__ == "__main__":
    main()
