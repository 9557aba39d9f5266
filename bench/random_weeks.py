#!/usr/bin/env python3
"""Lets `inrc2pb-solve` plan random weeks from nothing, one after another, and says how many
`inrc2pb-bound` proves in time.

    bench/random_weeks.py [--first SEED] [--count NUMBER] [--time SECONDS]
                          [--within SECONDS] [--wide PERCENT]

Each seed is a ward of 12 to 120 nurses with four shift types, in one of its four weeks, that asks
for 70 to 110 % of what `make_weeks.py` asks for. With --wide it is the week of 100 nurses and eight
shift types and skills that `wide_weeks.py` makes for this percentage: some are not proved in a
minute. The programs are out/inrc2pb and out/inrc2pb-bound, or the one that INRC2PB names and the
one beside it.
"""

import argparse
import subprocess
import sys
import tempfile
from pathlib import Path

sys.path.insert(0, str(Path(__file__).resolve().parent))

import make_weeks  # noqa: E402
import solvers  # noqa: E402

from inrc2pb.search.bounds import PROVER, find_prover  # noqa: E402
from inrc2pb.programs.program import WeekFiles  # noqa: E402

FEWEST = 12
MOST = 120
LEAST_PERCENT = 70
GREATEST_PERCENT = 110
WIDE_NURSES = 100
WIDE_KINDS = 8


def random_week(folder: Path, seed: int) -> WeekFiles:
    """The files of the week of this seed."""
    numbers = make_weeks.Numbers(seed)
    for _ in range(8):
        numbers.below(1)
    nurses = FEWEST + numbers.below(MOST - FEWEST + 1)
    percent = LEAST_PERCENT + numbers.below(GREATEST_PERCENT - LEAST_PERCENT + 1)
    week = numbers.below(make_weeks.WEEKS)
    ward = make_weeks.scenario(f"random{seed}", make_weeks.nurses_of_ward(nurses))
    past = (
        make_weeks.history(ward, week, numbers) if week else make_weeks.first_history(ward, numbers)
    )
    make_weeks.write_week(folder, ward, make_weeks.week_of_ward(ward, numbers, percent), past)
    return solvers.named(folder / ward.name, ward.name, week)


def wide_week(folder: Path, seed: int, percent: int) -> WeekFiles:
    """The files of the wide week of this seed."""
    words = [str(folder), str(WIDE_NURSES), str(WIDE_KINDS), str(seed), str(percent)]
    subprocess.run(
        [sys.executable, str(Path(__file__).with_name("wide_weeks.py")), *words], check=True
    )
    return solvers.named(folder / f"wide{WIDE_KINDS}x{seed}", "wide", make_weeks.WEEKS - 1)


def gap(ran: solvers.Run) -> str:
    """By how much the roster costs more than its bound, in percent."""
    if not (ran.penalty.isdecimal() and ran.bound.isdecimal()):
        return ""
    return f"{100 * (int(ran.penalty) - int(ran.bound)) / max(1, int(ran.penalty)):.2f}"


def main() -> None:
    """Plans the weeks, and prints a line for each."""
    options = argparse.ArgumentParser(
        description=__doc__, formatter_class=argparse.RawDescriptionHelpFormatter
    )
    options.add_argument(
        "--first",
        type=int,
        default=70001,
        metavar="SEED",
        help="the first seed (default: %(default)s)",
    )
    options.add_argument(
        "--count",
        type=int,
        default=200,
        metavar="NUMBER",
        help="how many weeks (default: %(default)s)",
    )
    options.add_argument(
        "--time",
        type=float,
        default=60,
        metavar="SECONDS",
        help="the most seconds of a run (default: %(default)s)",
    )
    options.add_argument(
        "--within",
        type=float,
        default=5,
        metavar="SECONDS",
        help="the seconds that count as in time (default: %(default)s)",
    )
    options.add_argument(
        "--wide",
        type=int,
        metavar="PERCENT",
        help="weeks with many shift types and skills, and this demand",
    )
    given = options.parse_args()
    if find_prover() is None:
        sys.exit(f"random_weeks.py: there is no {PROVER} beside inrc2pb: type make")
    proved = 0
    by_clock = 0
    by_processor = 0
    print(
        "  seed nurses week  penalty    bound  gap %  best      seconds  of processors", flush=True
    )
    for seed in range(given.first, given.first + given.count):
        with tempfile.TemporaryDirectory() as room:
            files = (
                wide_week(Path(room), seed, given.wide)
                if given.wide
                else random_week(Path(room), seed)
            )
            ran = solvers.run(
                solvers.Work(files.scenario, files.history, [files.week], given.time), Path(room)
            )
            nurses = files.scenario.read_text().partition("NURSES = ")[2].split()[0]
        is_proved = ran.proved == "yes" and ran.by == PROVER
        proved += is_proved
        by_clock += is_proved and ran.seconds <= given.within
        by_processor += is_proved and ran.processor <= given.within
        week = files.week.stem.rpartition("-")[2]
        best = ran.proved.partition(";")[0]
        figures = (
            f"{ran.penalty:>8} {ran.bound:>8} {gap(ran):>6} "
            f" {best:8} {ran.seconds:8.1f} {ran.processor:14.1f}"
        )
        print(f"{seed:6} {nurses:>6} {week:>4} {figures}", flush=True)
    within = f"within {given.within:g} s"
    print(
        f"{proved} of {given.count} are proved: {by_clock} {within}, {by_processor} {within} of"
        " processors"
    )


if __name__ == "__main__":
    main()
