"""`inrc2pb-solve --inrc2`: the command line of the competition INRC-II,
`--sce F --his F --week F --sol F [..]`."""

import argparse
import os
import sys
import time
from dataclasses import replace
from pathlib import Path
from typing import Sequence

from ..programs.clock import Clock
from ..programs.inputs import Inputs
from ..programs.interrupts import interrupts
from ..programs.locks import locked
from ..programs.program import NO_ROSTER, Report
from ..programs.progress import Progress
from ..search.improving import search
from ..search.best_plan import BestPlan
from ..search.plan_search import PlanSearch
from ..search.planned_weeks import PeriodFiles, PlannedWeeks
from ..search.roster_file import RosterFile
from ..week.faults import Misuse, ProgramFault
from ..week.writing import check_inputs_stay, check_no_pipes, check_target, write_text
from .arguments import Parser, parser
from .week_options import add_solver_option, check_seconds, number_of_seconds

# The minimum of seconds, and of the share of the time, for the last check, the file and the end of
# Python.
END_SECONDS = 0.5
END_SHARE = 0.05
# A search takes at least this, even if the time is over.
LEAST_SECONDS = 0.2


def seconds_since_start() -> float:
    """The seconds by the clock since this process began; if the system does not say, the seconds of
    processor time."""
    try:
        words = (
            Path("/proc/self/stat")
            .read_text(encoding="utf-8", errors="replace")
            .rpartition(")")[2]
            .split()
        )
        return time.clock_gettime(time.CLOCK_BOOTTIME) - int(words[19]) / os.sysconf("SC_CLK_TCK")
    except (OSError, AttributeError, ValueError, IndexError):
        return time.process_time()


def search_seconds(timeout: float, used: float) -> float:
    """The seconds to search, if the process has to end after `timeout` seconds and has used some of
    them."""
    return max(LEAST_SECONDS, timeout - max(END_SECONDS, END_SHARE * timeout) - used)


def plan_ahead(
    weeks: PlannedWeeks, solution: Path, seconds: float, inputs: Sequence[Path]
) -> tuple[Report, BaseException | None]:
    """Plans the week, which is the first of all weeks that are left, and writes its roster, which
    takes the place of no input. Also returns the fault that ended the search after the roster was
    found."""
    best = BestPlan(weeks, RosterFile(weeks, solution, inputs))
    running = PlanSearch(weeks, best, Clock(seconds), Progress(None))
    ended: BaseException | None = None
    with interrupts() as signals, signals.calling(running.interrupt):
        try:
            running.run()
        except Exception as fault:
            ended = fault
    best.look_again()
    report = best.report()
    if report is None:
        raise ended or ProgramFault(NO_ROSTER, "no roster was found")
    return report, ended


def _planned(
    given: argparse.Namespace, weeks: PlannedWeeks, seconds: float
) -> tuple[Report, BaseException | None]:
    """The report of the week's roster, and the fault that ended its search after the roster was
    found."""
    inputs = [given.sce, given.his, given.week]
    if weeks.later() and not given.solver:
        return plan_ahead(weeks, given.sol, seconds, inputs)
    files = replace(weeks.week_files(weeks.history.week), early=bool(given.solver))
    outcome = search(
        files,
        given.sol,
        None,
        seconds=seconds,
        solver=given.solver,
        proof=None,
        progress=Progress(None),
        originals=inputs,
    )
    return outcome.report, outcome.fault


def options() -> Parser:
    """The parser of `--inrc2`."""
    competition = parser(
        (
            "Plans one week, with the command line that the simulator of the competition INRC-II"
            " calls: as the first week of a plan of\nall weeks that are left. The later ones are"
            " not known, and count with the numbers of this one."
        ),
        (
            "--cusIn and --cusOut carry a solver's own data from week to week. This one keeps none:"
            " it reads no --cusIn, and writes\nthe number of the next week to --cusOut."
        ),
    )
    competition.add_argument(
        "--inrc2",
        action="store_true",
        required=True,
        help="the word that selects this command line",
    )
    competition.add_file("--sce", "the scenario", required=True)
    competition.add_file("--his", "the history with which the week begins", required=True)
    competition.add_file("--week", "the week's requirements and requests", required=True)
    competition.add_file("--sol", "the solution file to write", required=True)
    competition.add_file("--cusIn", "a solver's data from the week before: not read")
    competition.add_file("--cusOut", "the data for the next week: its number")
    competition.add_argument("--rand", metavar="N", type=int, help="the seed: not used")
    timeout = "seconds in which this process ends, its start included (default: 60)"
    competition.add_argument(
        "--timeout", metavar="SECONDS", type=number_of_seconds, default=60, help=timeout
    )
    add_solver_option(competition)
    return competition


def main(given: argparse.Namespace) -> int:
    """Plans the week; the exit status."""
    check_seconds(given.timeout, "--timeout")
    files = PeriodFiles(given.sce, given.his, [given.week], ahead=True)
    check_no_pipes(files.all())
    inputs = Inputs()
    with inputs.naming():
        weeks = PlannedWeeks(files.copied(inputs.copy))
    check_target(given.sol.absolute())
    check_inputs_stay(files.all(), given.sol, "the roster")
    if given.cusOut:
        check_target(given.cusOut.absolute())
        check_inputs_stay(files.all(), given.cusOut, "the number of the next week")
        if os.path.realpath(given.sol) == os.path.realpath(given.cusOut) != os.devnull:
            raise Misuse(
                f"{given.sol} gets the roster, so the number of the next week cannot be written to"
                " it: choose another file"
            )
    seconds = search_seconds(given.timeout, seconds_since_start())
    progress = Progress(sys.stderr, inputs.named)
    with interrupts(), locked([given.sol], False, progress.warn), inputs.naming():
        try:
            report, fault = _planned(given, weeks, seconds)
        except ProgramFault as none:
            if none.status != NO_ROSTER:
                raise
            raise ProgramFault(NO_ROSTER, f"--timeout {given.timeout:g}: {none.message}") from none
        if given.cusOut:
            write_text(given.cusOut, f"{weeks.history.week + 1}\n")
        print(report.text, end="", flush=True)
        for line in inputs.changes():
            progress.warn(line)
        if fault:
            raise fault
    return 0
