"""The command `inrc2pb-roster`: shows, explains and checks rosters, and goes on from them."""

import argparse
import itertools
import sys
from pathlib import Path
from typing import Callable, Iterator, NamedTuple, Sequence

from ..judging.absences import absences_of
from ..judging.demand import can_work
from ..judging.next_history import next_history
from ..programs.program import BROKEN_RULE, WeekFiles
from ..search.improving import read_week_given
from ..shown.changes import with_swaps
from ..shown.results import read_results, results_table
from ..shown.roster_files import RosterFiles, read_old, read_view
from ..shown.roster_view import RosterView
from ..shown.why import difference_lines, why_lines
from ..week.faults import Misuse
from ..week.files import history_text, read_history, read_scenario, read_solution
from ..week.records import DAYS, Place, Week
from . import check, names, referee, show
from .arguments import Parser, check_verb, parser, verbs_table
from .week_options import add_given_option, add_weeks_options, fix_files
from .show import lines_text, warn, write_result


class Verb(NamedTuple):
    """What a verb does in one line, its parser, and what it does with the values of the command
    line; the exit status."""

    purpose: str
    options: Callable[[], Parser]
    do: Callable[[argparse.Namespace], int]


# ---- why and swap


def _why_options() -> Parser:
    options = parser(
        (
            "Writes each charge of the rosters of some weeks: its cost, its rule, who and when; or"
            " each hard rule that is broken."
        ),
        "Example: inrc2pb-roster why $WEEK --roster roster.txt",
        "why",
    )
    add_weeks_options(options)
    add_given_option(options)
    options.add_files(
        "--roster", "a roster of each week, in order, as a solution file", required=True
    )
    options.add_files("--old", "an older roster of each week: what the change saves and costs")
    options.add_out()
    return options


def _swap_options() -> Parser:
    options = parser(
        (
            "Writes what it saves and costs, charge by charge, if two nurses swap these days in a"
            " roster."
        ),
        'Example: inrc2pb-roster swap "Chen Fri" "Grace Fri" $WEEK --roster roster.txt',
        "swap",
    )
    options.add_argument(
        "days",
        metavar='"NURSE DAY"',
        nargs="+",
        help="two nurses' days, right after the verb; more pairs are swapped in turn",
    )
    add_weeks_options(options)
    add_given_option(options)
    options.add_files("--roster", "the roster of the week, as a solution file", required=True)
    options.add_out()
    return options


def _roster_files(given: argparse.Namespace) -> RosterFiles:
    """The files of some weeks and their rosters."""
    return RosterFiles(
        given.roster,
        given.sce,
        [given.his],
        weeks=given.week,
        fixes=fix_files(given.fix, len(given.roster)),
        early=given.early,
        given=given.facts,
    )


def _why(given: argparse.Namespace) -> int:
    files = _roster_files(given)
    view = read_view(files)
    if not given.old:
        return _explain(given, view, list(why_lines(view)))
    return _explain(given, view, list(difference_lines(read_old(files, given.old), view)))


def _swap(given: argparse.Namespace) -> int:
    if len(given.days) % 2:
        raise Misuse(
            f'"{given.days[-1]}" has no second day: give pairs, as in "Chen Fri" "Grace Fri"'
        )
    view = read_view(_roster_files(given))
    new = with_swaps(view, list(zip(given.days[::2], given.days[1::2])))
    return _explain(given, new, list(difference_lines(view, new)))


def _explain(given: argparse.Namespace, view: RosterView, lines: Sequence[str]) -> int:
    """Writes the lines. A roster that breaks a hard rule is told by the status."""
    inputs = [
        given.sce,
        given.his,
        *given.week,
        *given.roster,
        given.facts,
        *fix_files(given.fix, len(given.roster)).values(),
    ]
    write_result(
        lines_text(lines), given.out, [*inputs, *vars(given).get("old", [])], "the charges"
    )
    warn(view)
    return BROKEN_RULE if any(week.breaches for week in view.weeks) else 0


# ---- next


def _next_options() -> Parser:
    options = parser(
        "Writes the history with which the week after this roster begins.",
        (
            "docs/rules.md says what each number is. Files of different weeks or wards are a fault,"
            " with status 1.\nExample: inrc2pb-roster next --sce ward.txt --his history-0.txt"
            " --roster roster-0.txt --out history-1.txt"
        ),
        "next",
    )
    options.add_file("--sce", "the scenario", required=True)
    options.add_file("--his", "the history with which the week began", required=True)
    options.add_file("--roster", "the week's roster, as a solution file", required=True)
    options.add_flag("--new-period", "the next week is the first of a new period")
    options.add_out()
    return options


def _next(given: argparse.Namespace) -> int:
    scenario = read_scenario(given.sce)
    history = read_history(given.his, scenario)
    if history.scenario != scenario.name:
        raise Misuse(
            f"{given.his} is of {history.scenario}, the scenario is {scenario.name}: give the files"
            " of one ward"
        )
    roster = read_solution(given.roster, scenario)
    if (roster.week, roster.scenario) != (history.week, history.scenario):
        raise Misuse(
            f"{given.roster} is of week {roster.week} of {roster.scenario}, not of week"
            f" {history.week} of {history.scenario}: give the roster and the history of one week"
        )
    try:
        text = history_text(next_history(scenario, history, roster.cells, given.new_period))
    except Misuse as fault:
        raise Misuse(f"{given.roster}: {fault}") from fault
    write_result(text, given.out, (given.sce, given.his, given.roster), "the next history")
    return 0


# ---- fits


def _fits_options() -> Parser:
    options = parser(
        (
            "Lists for each place of a week that needs nurses who could fill it: who has the skill,"
            " is not away, and, on Monday, may work the\nshift type after her last one. A line has"
            " the day, the shift type, the skill, the minimum and the best number, and the nurses."
        ),
        (
            "It helps if no roster exists: look for a place that few nurses could fill.\n"
            "Example: inrc2pb-roster fits $WEEK | grep 'HeadNurse (1'"
        ),
        "fits",
    )
    options.add_file("--sce", "the scenario", required=True)
    options.add_file("--his", "the history with which the week begins", required=True)
    options.add_file("--week", "the requirements and requests of the week", required=True)
    add_given_option(options)
    return options


def _fits(given: argparse.Namespace) -> int:
    for line in fits_lines(
        read_week_given(WeekFiles(given.sce, given.his, given.week, given=given.facts))
    ):
        print(line)
    return 0


# ---- results


def _results_options() -> Parser:
    options = parser(
        (
            "Prints a table of the reports of many runs of inrc2pb-solve: what each has printed on"
            " standard output, in a file of its own."
        ),
        (
            "bench/README.md shows how to run many weeks, on one machine or on several.\n"
            "Example: inrc2pb-roster results reports/*.txt --joblog jobs.log"
        ),
        "results",
    )
    options.add_argument(
        "reports", metavar="FILE", type=Path, nargs="+", help="the reports, right after the verb"
    )
    seconds = (
        "a file that `parallel --joblog` has written: the seconds of job N are those of the report"
        " whose name ends with N"
    )
    options.add_file("--joblog", seconds)
    return options


def _results(given: argparse.Namespace) -> int:
    print("\n".join(results_table(read_results(given.reports, given.joblog))))
    return 0


# ---- the command


VERBS = {
    "show": Verb("rosters as a table, a page, a spreadsheet or calendars", show.options, show.main),
    "why": Verb("each charge of a roster, or what a change saves and costs", _why_options, _why),
    "swap": Verb("what it saves and costs if two nurses swap days", _swap_options, _swap),
    "check": Verb(
        "the mistakes of files and rosters, and how to correct them", check.options, check.main
    ),
    "next": Verb("the history with which the next week begins", _next_options, _next),
    "fits": Verb("the nurses who could fill each place of a week", _fits_options, _fits),
    "referee": Verb(
        "whether what solvers claim about a week is true", referee.options, referee.main
    ),
    "results": Verb("a table of the reports of many runs", _results_options, _results),
    "names": Verb("the variables and constraints of a model, in words", names.options, names.main),
}


def _help() -> Parser:
    purposes = verbs_table({name: verb.purpose for name, verb in VERBS.items()})
    options = parser(
        f"Shows, explains and checks rosters, and goes on from them.\n\n{purposes}",
        (
            "A roster is a solution file, as `inrc2pb decode` writes it. Each verb has --help.\n"
            "Example: inrc2pb-roster show $WEEK --roster roster.txt"
        ),
    )
    options.add_argument("verb", metavar="VERB", help="what to do")
    return options


def main(words: list[str] | None = None) -> int:
    """The command `inrc2pb-roster`."""
    given = sys.argv[1:] if words is None else words
    if given[:1] in (["--help"], ["-h"], ["--version"]):
        _help().parse_args(given[:1])
    if not given or given[0].startswith("-"):
        raise Misuse(f"the verb comes first: write one of {', '.join(VERBS)}, then the options")
    check_verb(given[0], list(VERBS))
    verb = VERBS[given[0]]
    return verb.do(verb.options().parse_args(given[1:]))


def fits_lines(week: Week) -> Iterator[str]:
    """A line for each place that asks for nurses, such as `Mon Early Nurse (1,2): Ann Cem`, by day,
    shift type and skill."""
    scenario = week.scenario
    away = absences_of(week.data)
    for place in itertools.starmap(
        Place, itertools.product(range(len(DAYS)), scenario.shift_types, scenario.skills)
    ):
        needed = week.data.requirements.get(place)
        if needed and (needed.minimum or needed.optimal):
            fit = [
                nurse
                for nurse in scenario.nurses
                if can_work(scenario, week.history, away, nurse, place)
            ]
            named = f"{DAYS[place.day]} {place.shift} {place.skill}"
            yield f"{named} ({needed.minimum},{needed.optimal}): {' '.join(fit) or 'nobody'}"
