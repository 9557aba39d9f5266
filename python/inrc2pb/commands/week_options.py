"""The options of the commands that read the files of weeks: the files, held cells, rosters, facts,
a solver, and seconds."""

import argparse
import re
from pathlib import Path
from typing import Sequence

from ..programs.program import WeekFiles
from ..week.faults import Misuse
from .arguments import Parser


# The most seconds of a search, and the most faults of a file that are reported together.
MAX_SECONDS = 10_000_000


def number_of_seconds(text: str) -> float:
    """The number of seconds that an option gives."""
    try:
        return float(text)
    except ValueError:
        raise argparse.ArgumentTypeError(
            f"'{text}' is no number: give seconds, such as 60 or 2.5"
        ) from None


def fix_files(texts: Sequence[str], weeks: int) -> dict[int, Path]:
    """The fix files of some weeks, by the week's index among this number of weeks, from 0.

    Each is given as `N=FILE`, where N is 1 for the first week, or as `FILE` if there is only one
    week. Raises Misuse if there is no such week, or if it has two files.
    """
    fixes: dict[int, Path] = {}
    for text in texts:
        match = re.fullmatch("([0-9]{1,4})=(.+)", text, re.DOTALL)
        if not match and weeks > 1:
            raise Misuse(
                f"--fix {text}: give the week's number, 1 for the first week, and its file, such as"
                " 1=promised.txt"
            )
        number, path = (int(match[1]), Path(match[2])) if match else (1, Path(text))
        if not 1 <= number <= weeks:
            last = (
                "for the only week"
                if weeks == 1
                else f"for the first week, and {weeks} for the last"
            )
            raise Misuse(f"--fix {text}: there is no week {number}: give 1 {last}")
        if number - 1 in fixes:
            raise Misuse(
                f"--fix {text}: week {number} has the file {fixes[number - 1]}: put all rows into"
                " one file"
            )
        fixes[number - 1] = path
    return fixes


def add_weeks_options(options: Parser, required: bool = True, one: bool = False) -> None:
    """The options that name the files of one or more weeks, as `inrc2pb-bound` has them. With `one`
    a word after the week's file is no second week."""
    options.add_file("--sce", "the scenario", required=required)
    options.add_file("--his", "the history with which the first week begins", required=required)
    options.add_files(
        "--week",
        "the requirements and requests of each week, in order",
        required=required,
        nargs=1 if one else "+",
    )
    options.add_fix(
        "assignments to keep, as a solution file: the rows of a roster that are fixed, with"
        " their number after ASSIGNMENTS; of week N of several as N=FILE, where N is 1 for the"
        " first week that is given"
    )
    options.add_flag("--early", "charge excess assignments and weekends as soon as they occur")


def add_given_option(options: Parser) -> None:
    """The option that names the facts that plans keep."""
    asks = "facts about the period to keep: absences, and limits that hold"
    options.add_argument("--given", dest="facts", metavar="FILE", type=Path, help=asks)


def add_solver_option(options: Parser) -> None:
    """The option that names a solver for whole weeks."""
    solver = (
        "clasp, cbc, or a command that solves the whole week in place of this search, with {opb} or"
        " {lp} for the model, {sol} for the result file, if it does not print its answer, and"
        " {seconds}"
    )
    options.add_argument("--solver", metavar="COMMAND", help=solver)


def check_seconds(seconds: float, option: str) -> None:
    """Raises Misuse if a search with this limit would not end."""
    if not 0 < seconds <= MAX_SECONDS:
        raise Misuse(f"{option} has to be a number of seconds above 0, and at most {MAX_SECONDS}")


def the_week(given: argparse.Namespace) -> WeekFiles:
    """The files of the only week that the options of `add_weeks_options` name. Raises Misuse if
    they name several weeks."""
    if len(given.week) != 1:
        raise Misuse(f"--week has {len(given.week)} files: give one")
    return WeekFiles(
        given.sce,
        given.his,
        given.week[0],
        fix=fix_files(given.fix, 1).get(0),
        early=given.early,
        given=vars(given).get("facts"),
    )
