"""The command `inrc2pb-solve`: finds the best roster of a week, or plans the weeks of a period
together."""

import argparse
import contextlib
import os
import sys
from pathlib import Path

from ..programs.interrupts import interrupts
from ..programs.progress import Progress
from ..search.improving import SECONDS, search
from ..search.planned_weeks import PeriodFiles
from ..solvers.linear_program import ModelFault, write_linear_program
from ..solvers.mip_solution import STATUSES, check_size, read_answer
from ..solvers.solvers import find_solver
from ..week.faults import Misuse
from ..week.writing import check_inputs_stay, replacing
from . import competition
from .arguments import Parser, parser
from .week_options import (
    add_given_option,
    add_solver_option,
    add_weeks_options,
    check_seconds,
    fix_files,
    number_of_seconds,
    the_week,
)
from .period import PeriodRun

# The seconds of a search for several weeks, for each of them.
WEEK_SECONDS = 60.0


def _options() -> Parser:
    options = parser(
        (
            "Finds the best roster for a week, or improves one; plans several weeks together. The"
            " search is over whole weeks of nurses, by\nthe linear programs of Clp, which comes"
            " with cbc. `inrc2pb decode` checks each roster, and `inrc2pb-bound` proves the"
            " lower\nbound. Ctrl-C ends the search and keeps the best. Improvements are printed on"
            " standard error, the report on standard output."
        ),
        (
            "For one week --out is the roster's file. For several weeks, or if it is a folder that"
            " is there, it is the folder for\nroster-N.txt of each week and history-N.txt of each"
            " next one, numbered as in the histories, from 0.\nExample: inrc2pb-solve $WEEK --out"
            " roster.txt"
        ),
    )
    add_weeks_options(options)
    add_given_option(options)
    options.add_file(
        "--out",
        (
            "the roster to write, or the folder for rosters and histories; the search begins with"
            " rosters of these weeks that are there, so it never gets worse ones"
        ),
        required=True,
        metavar="PATH",
    )
    options.add_files(
        "--roster",
        (
            "a roster of each week, in order, to begin with (default: those of --out, if they are"
            " of these weeks)"
        ),
    )
    options.add_flag(
        "--ahead",
        "plan for the later weeks too: they are not known, and count with the numbers of these"
        " weeks",
    )
    options.add_argument(
        "--time",
        metavar="SECONDS",
        type=number_of_seconds,
        help=(
            f"the most seconds to search in all (default: {SECONDS:.0f} for one week, and"
            f" {WEEK_SECONDS:.0f} times their number for several)"
        ),
    )
    options.add_file(
        "--proof", "the file for the certificate of the lower bound, for inrc2pb-bound"
    )
    options.add_argument(
        "--seed",
        metavar="N",
        type=int,
        default=1,
        help=(
            "the beginning of the search's random choices: with one processor the same search"
            " (default: 1)"
        ),
    )
    options.add_flag("--wait", "if another search writes the same file, wait until it has ended")
    add_solver_option(options)
    others = options.add_argument_group("other command lines, each with its own --help")
    others.add_argument(
        "--inrc2",
        action="store_true",
        help="plan one week, with the command line of the competition INRC-II",
    )
    others.add_argument("--model", metavar="FILE", nargs="?", type=Path, help=MODEL)
    others.add_argument("--answer", metavar="FILE", type=Path, help=ANSWER)
    return options


def _one_week(given: argparse.Namespace) -> int:
    """Finds the best roster of the week; the exit status."""
    if len(given.roster) > 1:
        raise Misuse(f"--roster has {len(given.roster)} files for one week: give one")
    start = next(iter(given.roster), None)
    seconds = SECONDS if given.time is None else given.time
    with interrupts():
        progress = Progress(sys.stderr)
        outcome = search(
            the_week(given),
            given.out,
            start,
            seconds=seconds,
            solver=given.solver,
            proof=given.proof,
            progress=progress,
            seed=given.seed,
            wait=given.wait,
        )
        print(outcome.report.text, end="")
        print("\n".join(outcome.lines()), flush=True)
        if outcome.fault:
            raise outcome.fault
    return 0


def _several_weeks(given: argparse.Namespace) -> int:
    """Plans the weeks together, or each after the other by the user's own solver; the exit
    status."""
    if given.solver:
        find_solver(given.solver)
        if given.ahead:
            raise Misuse(
                "--ahead is a plan of all weeks, and --solver plans one: leave one of them out"
            )
    if given.proof and (given.solver or given.ahead):
        raise Misuse(
            f"with {'--solver' if given.solver else '--ahead'} there is no certificate: leave out"
            " --proof"
        )
    seconds = WEEK_SECONDS * len(given.week) if given.time is None else given.time
    fixes = fix_files(given.fix, len(given.week))
    files = PeriodFiles(
        given.sce,
        given.his,
        given.week,
        fixes=fixes,
        early=given.early,
        ahead=given.ahead,
        given=given.facts,
    )
    period = PeriodRun(files, given.out, given.proof, given.seed, given.roster)
    with interrupts() as signals, signals.ending(), period.locked(given.wait):
        period.name_replaced()
        try:
            if given.solver or (len(period.numbers) == 1 and not period.weeks.later()):
                period.plan_one_by_one(seconds, given.solver)
            else:
                period.plan_together(seconds)
        finally:
            if period.reports:
                lines = ["", *period.table(), *period.bound_lines, *period.changes()]
                if signals.caught:
                    lines.append(period.stop_line())
                print("\n".join(lines), flush=True)
            else:
                for line in period.changes():
                    period.progress.warn(line)
    return 0


def _search(given: argparse.Namespace) -> int:
    if given.time is not None:
        check_seconds(given.time, "--time")
    if given.early and given.ahead:
        raise Misuse("--early and --ahead are two ways to count totals: leave one of them out")
    if len(given.week) == 1 and not given.ahead and not given.out.is_dir():
        return _one_week(given)
    return _several_weeks(given)


def main(words: list[str] | None = None) -> int:
    """The command `inrc2pb-solve`."""
    given = sys.argv[1:] if words is None else words
    named = {word.split("=")[0] for word in given}
    if named & {"--help", "-h"}:
        # A mode's own help, also without the file that it needs.
        given = ["--help"]
    if "--inrc2" in named:
        return competition.main(competition.options().parse_args(given))
    if "--model" in named:
        return write_model(model_options().parse_args(given))
    if "--answer" in named:
        return write_answer(answer_options().parse_args(given))
    return _search(_options().parse_args(given))


EXAMPLE = (
    "Example:\n"
    "  inrc2pb encode $WEEK | inrc2pb-solve --model --out week.lp\n"
    "  cbc week.lp sec 60 timem elapsed solve solution week.sol\n"
    "  inrc2pb-solve --answer week.sol | inrc2pb decode $WEEK --sol roster.txt"
)
MODEL = "convert the OPB model that `inrc2pb encode` wrote (default: standard input) to an LP file"
ANSWER = (
    "convert a solver's result file, of cbc, glpsol, HiGHS, Gurobi, SYMPHONY or toulbar2, to an"
    " answer for `inrc2pb decode`"
)


def model_options() -> Parser:
    """The parser of `--model`."""
    options = parser("Converts the OPB model of a week to an LP file, for a MIP solver.", EXAMPLE)
    options.add_argument("--model", metavar="FILE", nargs="?", type=Path, help=MODEL)
    options.add_file("--out", "the LP file to write (default: standard output)")
    return options


def write_model(given: argparse.Namespace) -> int:
    """Writes the LP file of a model; the exit status."""
    if given.out:
        check_inputs_stay([given.model], given.out, "the LP file")
    with contextlib.ExitStack() as open_files:
        opb = open_files.enter_context(open(given.model or 0, encoding="ascii", errors="replace"))
        lp = open_files.enter_context(replacing(given.out)) if given.out else sys.stdout
        try:
            write_linear_program(opb, lp)
        except ModelFault as fault:
            unusable = "" if given.out else "; the printed LP text is cut too: do not use it"
            raise ModelFault(f"{fault}{unusable}") from fault
    return 0


def answer_options() -> Parser:
    """The parser of `--answer`."""
    options = parser(
        "Converts the result file of a MIP solver to an answer, for `inrc2pb decode`.", EXAMPLE
    )
    options.add_file("--answer", ANSWER, required=True)
    says = (
        "how the solver ended, if its file does not say (Gurobi; default: stopped); with infeasible"
        " the file may be missing"
    )
    options.add_argument("--status", choices=sorted(STATUSES), help=says)
    return options


def write_answer(given: argparse.Namespace) -> int:
    """Prints the answer of a result file; the exit status."""
    # Gurobi writes no file if there is no solution.
    missing = given.status == "infeasible" and not given.answer.exists()
    check_size(given.answer)
    with open(
        os.devnull if missing else given.answer, encoding="utf-8", errors="replace"
    ) as solution:
        read_answer(solution, given.status).write(sys.stdout)
    return 0
