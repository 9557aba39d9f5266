"""The verb `names` of `inrc2pb-roster`: the variables and constraints of a model in words."""

import argparse
import filecmp
import sys
import tempfile
from pathlib import Path

from ..judging.breaches import read_held
from ..judging.constraints import names_of
from ..programs.program import encode
from ..week.faults import Misuse
from ..week.files import read_files
from ..week.writing import check_inputs_stay
from ..week.writing import replacing
from .arguments import Parser, parser
from .week_options import add_weeks_options, the_week


def options() -> Parser:
    """The parser of the verb."""
    names = parser(
        (
            "Lists each variable and each constraint of a week's model in words, one on a line: the"
            " cells first, and after each constraint\nits slacks, with what they cost."
        ),
        (
            "The model has to be the one that `inrc2pb encode` writes for these files, also with"
            " --fix and --early.\nExample: inrc2pb-roster names week.opb $WEEK --out names.txt"
        ),
        "names",
    )
    names.add_argument("model", metavar="FILE", type=Path, help="the model")
    add_weeks_options(names, one=True)
    names.add_out()
    return names


def main(given: argparse.Namespace) -> int:
    """Lists the names; the exit status."""
    files = the_week(given)
    if given.out:
        check_inputs_stay((given.model, *files.all()), given.out, "the list of names")
    week = read_files(files.scenario, files.history, files.week)
    held = (
        read_held(files.fix, week.scenario, week.history, lambda hint: None).cells
        if files.fix
        else ()
    )
    with tempfile.TemporaryDirectory() as folder:
        model = Path(folder, "week.opb")
        encode(files, model)
        if not filecmp.cmp(model, given.model, shallow=False):
            raise Misuse(
                f"{given.model} is not the model of this week: give the files of which it was made,"
                " and --fix and --early as then"
            )
        with open(model, encoding="ascii") as lines:
            names = (f"{line}\n" for line in names_of(lines, week, held, files.early))
            if given.out:
                with replacing(given.out) as target:
                    target.writelines(names)
            else:
                sys.stdout.writelines(names)
    return 0
