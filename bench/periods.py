#!/usr/bin/env python3
"""Plans periods and random weeks from nothing, and says which goals are reached.

    bench/periods.py [--seeds NUMBER] [--weeks NUMBER] [--wide NUMBER] [--eight SECONDS] [NAME ..]

The month is planned once for each of the first seeds, each other period once, and so many random
weeks of each of seven kinds, and with eight shift types and skills. `inrc2pb` checks all rosters,
and `inrc2pb-bound` all bounds. With the default numbers it takes 25 minutes on four processors that
nothing else uses. Names are those of goals.
"""

import argparse
import sys
import tempfile
from pathlib import Path
from typing import Callable, Dict, Iterator, List, NamedTuple

sys.path.insert(0, str(Path(__file__).resolve().parent))

import solvers  # noqa: E402
from hidden_weeks import KINDS, WIDE, hidden_week  # noqa: E402
from solvers import Run, Work  # noqa: E402

FIRST_SEED = 9001
WEEK_SECONDS = 10.0
WIDE_SECONDS = 20.0
MONTH = "month"
ALL_WEEKS = "random weeks"
WIDE_WEEKS = "random weeks, 8 x 8"


class Goal(NamedTuple):
    """What a plan is to cost at most, the bound that is to be reached, and the most seconds."""

    penalty: int
    bound: int
    seconds: float


# What most seeds reached on two processors when this was written.
GOALS = {
    "12 nurses, 4 weeks": Goal(1235, 1195, 120),
    "20 nurses, 4 weeks": Goal(845, 780, 120),
    "40 nurses, 4 weeks": Goal(3110, 3110, 60),
    "60 nurses, 4 weeks": Goal(2170, 2170, 60),
    "16 nurses, 8 weeks": Goal(2165, 2020, 300),
    "30 nurses, 8 weeks": Goal(1660, 1575, 300),
    "40 nurses, 8 weeks": Goal(2860, 2780, 300),
    "60 nurses, 8 weeks": Goal(4070, 4070, 240),
}
MONTH_GOAL = Goal(1820, 1820, 300)


def show(name: str, goal: Goal, ran: Run) -> None:
    """Prints a line of the table."""
    reached = (
        ran.penalty.isdigit() and int(ran.penalty) <= goal.penalty,
        ran.bound.isdigit() and int(ran.bound) >= goal.bound,
    )
    words = (
        " and ".join(word for word, is_reached in zip(("plan", "bound"), reached) if is_reached)
        or "neither"
    )
    figures = (
        f"{ran.penalty:>8} {goal.penalty:>8} {ran.bound:>8} "
        f"{goal.bound:>8} {ran.seconds:8.1f} {ran.processor:8.1f}"
    )
    print(f"{name:<24} {figures}  reached: {words} ({ran.by})", flush=True)


def random_runs(kinds: List[str], count: int, seconds: float, folder: Path) -> Iterator[Run]:
    """Plans this number of weeks of each kind. Those that are not proved are printed."""
    for kind in kinds:
        for seed in range(FIRST_SEED, FIRST_SEED + count):
            files = hidden_week(kind, seed, folder)
            ran = solvers.run(Work(files.scenario, files.history, [files.week], seconds), folder)
            if ran.proved != "yes":
                print(
                    (
                        f"  {kind} {seed}: penalty {ran.penalty}, lower bound {ran.bound},"
                        f" {ran.proved} ({ran.by})"
                    ),
                    flush=True,
                )
            yield ran


def weeks(name: str, kinds: List[str], count: int, seconds: float, folder: Path) -> None:
    """Plans random weeks, and prints how many are proved."""
    runs = list(random_runs(kinds, count, seconds, folder))
    proved = [ran for ran in runs if ran.proved == "yes"]
    known = [
        (int(ran.penalty), int(ran.bound)) for ran in runs if ran.penalty.isdigit() and ran.bound
    ]
    gaps = [(penalty - bound) / penalty for penalty, bound in known if penalty]
    used = sum(ran.processor for ran in runs)
    print(
        (
            f"{name}: {len(proved)} of {len(runs)} proved within {seconds:g} s; the widest gap is"
            f" {100 * max(gaps, default=0):.2f} %; {used:.0f} seconds of processors in all"
        ),
        flush=True,
    )


def main() -> None:
    """Plans all that was asked for."""
    options = argparse.ArgumentParser(
        description=__doc__, formatter_class=argparse.RawDescriptionHelpFormatter
    )
    options.add_argument("names", nargs="*", metavar="NAME", help="only these goals")
    options.add_argument(
        "--seeds",
        type=int,
        default=3,
        metavar="NUMBER",
        help="how often the month is planned (default: 3)",
    )
    options.add_argument(
        "--weeks",
        type=int,
        default=20,
        metavar="NUMBER",
        help="random weeks of each kind (default: 20)",
    )
    options.add_argument(
        "--wide",
        type=int,
        default=10,
        metavar="NUMBER",
        help="random weeks with 8 x 8 (default: 10)",
    )
    options.add_argument(
        "--eight",
        type=float,
        default=240,
        metavar="SECONDS",
        help="the most seconds for eight weeks (default: 240)",
    )
    given = options.parse_args()
    with tempfile.TemporaryDirectory() as room:
        folder = Path(room, "plan")
        folder.mkdir()
        found = solvers.periods(Path(room))
        steps: Dict[str, Callable[[], None]] = {}

        def plan(name: str, goal: Goal, seed: int, line: str) -> None:
            seconds = min(goal.seconds, given.eight) if len(found[name].weeks) > 4 else goal.seconds
            show(line, goal, solvers.run(found[name]._replace(seconds=seconds), folder, seed))

        def month() -> None:
            for seed in range(1, given.seeds + 1):
                plan(MONTH, MONTH_GOAL, seed, f"{MONTH}, seed {seed}")

        steps[MONTH] = month
        for name, goal in GOALS.items():
            steps[name] = lambda name=name, goal=goal: plan(  # type: ignore[misc]
                name, goal, 1, name
            )
        steps[ALL_WEEKS] = lambda: weeks(ALL_WEEKS, list(KINDS), given.weeks, WEEK_SECONDS, folder)
        steps[WIDE_WEEKS] = lambda: weeks(WIDE_WEEKS, [WIDE], given.wide, WIDE_SECONDS, folder)
        print(
            (
                f"{'':<24} {'penalty':>8} {'goal':>8} {'bound':>8} {'goal':>8} {'seconds':>8} "
                f"{'of proc.':>8}"
            ),
            flush=True,
        )
        for name in given.names or list(steps):
            steps[name]()


if __name__ == "__main__":
    main()
