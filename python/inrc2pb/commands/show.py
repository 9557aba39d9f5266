"""The verb `show` of `inrc2pb-roster`: rosters as a table of nurses by days, as a page, as a
spreadsheet, or as calendars."""

import argparse
import csv
import datetime
import io
import os
import sys
from pathlib import Path
from typing import Collection, Iterable, Sequence

from ..shown.calendars import issue_now, shift_dates, write_calendars
from ..shown.changes import changed_lines
from ..shown.page import page_text
from ..shown.page_content import Content
from ..shown.roster_files import RosterFiles, read_old, read_view
from ..shown.roster_text import TextTable, spreadsheet
from ..shown.roster_view import AWAY, HELD, REFUSED, RosterView
from ..week.dates import DAY, TIMES, Times, times_of
from ..week.faults import Misuse, not_obeyed
from ..week.slots import did_you_mean
from ..week.words import quoted
from ..week.writing import check_inputs_stay, write_text
from .arguments import Parser, parser
from .command import print_painted
from .week_options import add_given_option, fix_files


def options() -> Parser:
    """The parser of the verb."""
    shown = parser(
        "Shows rosters as a table of nurses by days.",
        (
            "With --sce, --his and --week the table has what each nurse costs, by rule, and the"
            " places with too few or too many nurses.\nThe first week's --his is enough. In a"
            " terminal each shift type has a color, unless NO_COLOR is set.\nExample:"
            " inrc2pb-roster show $WEEK --roster roster.txt"
        ),
        "show",
    )
    shown.add_files(
        "--roster", "a roster of each week, in order, as a solution file", required=True
    )
    shown.add_file("--sce", "the scenario: nurses and colors have its order")
    histories = "the history with which the first week begins, or each week; needs --sce and --week"
    shown.add_files("--his", histories)
    weeks = (
        "the requirements and requests of each week, in order: a cell that should be free has a"
        f" {REFUSED}, of a nurse who is away a {AWAY}"
    )
    shown.add_files("--week", weeks)
    held = (
        f"assignments that are held: their cells have a {HELD}; of week N of several as N=FILE,"
        " where N is 1 for the first roster"
    )
    shown.add_fix(held)
    add_given_option(shown)
    shown.add_file("--reasons", "why nurses are away, as `inrc2pb-plan FOLDER files` writes it")
    shown.add_flag("--early", "count costs as inrc2pb does with --early")
    old = "an older roster of each week: what has changed"
    shown.add_files("--old", old)
    shown.add_argument(
        "--monday",
        metavar="DATE",
        help="the date of the first Monday, such as 2026-11-30; for --html and --ics",
    )
    times = (
        "when shifts of a type begin and end, such as Early=06:00-14:15; for --html and --ics; may"
        " be repeated"
    )
    shown.add_argument("--times", metavar="SHIFT=TIMES", action="append", default=[], help=times)
    shown.add_file(
        "--ics", "also write a calendar for each nurse; needs --monday", metavar="FOLDER"
    )
    shown.add_flag(
        "--only-table", "with --html: no costs, totals and wishes, for a page on the wall"
    )
    shown.add_out()
    form = shown.add_mutually_exclusive_group()
    form.add_argument(
        "--html",
        action="store_true",
        help="write a page to print, with totals, coverage, wishes and charges (HTML)",
    )
    form.add_argument(
        "--csv",
        action="store_true",
        help="write rows for a spreadsheet (CSV), without the lines below the table",
    )
    return shown


def main(given: argparse.Namespace) -> int:
    """Shows the rosters; the exit status."""
    fixes = fix_files(given.fix, len(given.roster))
    inputs = [
        *given.roster,
        given.sce,
        *given.his,
        *given.week,
        given.facts,
        given.reasons,
        *given.old,
        *fixes.values(),
    ]
    _check_options(given, inputs)
    monday = read_monday(given.monday, len(given.roster)) if given.monday else None
    files = RosterFiles(
        given.roster,
        given.sce,
        given.his,
        weeks=given.week,
        fixes=fixes,
        early=given.early,
        given=given.facts,
        reasons=given.reasons,
    )
    view = read_view(files)
    old = read_old(files, given.old) if given.old else None
    content = Content(view, old, monday, read_times(given.times, view.shifts), given.only_table)
    warn(view)
    text = _text(view, given, content)
    if monday and given.ics:
        issue = issue_now(shift_dates(content.old, monday)) if content.old else None
        write_calendars(view, given.ics, monday, content.times, issue)
    if _has_colors(given):
        print_painted(text)
    else:
        write_result(text, given.out, inputs, "the table")
    return 0


def warn(view: RosterView) -> None:
    """Prints the warnings about the files of rosters."""
    for warning in view.warnings:
        print(f"{os.path.basename(sys.argv[0])}: {warning}", file=sys.stderr)


def write_result(text: str, target: Path | None, inputs: Sequence[Path | None], what: str) -> None:
    """Writes the text to the file, or to standard output. Raises Misuse if the file is one of
    these, which are read."""
    if target is None:
        print(text, end="")
        return
    check_inputs_stay(inputs, target, what)
    write_text(target, text)


def _check_options(given: argparse.Namespace, inputs: Sequence[Path | None]) -> None:
    """Options that need others, or do not fit them."""
    if given.old and given.csv:
        raise Misuse("--old is for the table and --html: leave it out")
    if given.only_table and not given.html:
        raise Misuse("--only-table is for --html: give both")
    if given.ics and not given.monday:
        raise Misuse("--ics needs --monday: give the date of the first Monday, such as 2026-11-30")
    for name, value in (("--monday", given.monday), ("--times", given.times)):
        if value and not (given.html or given.ics):
            raise Misuse(f"{name} is for --html and --ics: give one of them")
    if given.out:
        check_inputs_stay(inputs, given.out, "the table")
    if given.ics and given.ics.is_dir():
        for file in given.ics.glob("*.ics"):
            check_inputs_stay(inputs, file, "a calendar", "folder")


def _text(view: RosterView, given: argparse.Namespace, content: Content) -> str:
    """What the verb writes."""
    if given.html:
        return page_text(content)
    if given.csv:
        return _csv_text(view)
    lines = TextTable(view, _has_colors(given)).lines()
    if content.old:
        changed = [f"changed: {line}" for line in changed_lines(content.old, view)]
        lines += map(not_obeyed, changed) if _has_colors(given) else changed
    return lines_text(lines)


def lines_text(lines: Iterable[str]) -> str:
    """The lines, each with its end."""
    return "".join(f"{line}\n" for line in lines)


def _csv_text(view: RosterView) -> str:
    """The rows of `spreadsheet` as text."""
    text = io.StringIO()
    csv.writer(text, lineterminator="\n").writerows(spreadsheet(view))
    return text.getvalue()


def _has_colors(given: argparse.Namespace) -> bool:
    """Whether the verb writes the table to a terminal that has colors."""
    is_table = not (given.out or given.html or given.csv)
    return (
        is_table
        and sys.stdout.isatty()
        and not os.environ.get("NO_COLOR")
        and os.environ.get("TERM") != "dumb"
    )


def read_monday(text: str, weeks: int) -> datetime.date:
    """The Monday with which so many weeks begin. Raises Misuse if the text is no Monday, written as
    `2026-11-30`."""
    try:
        date = datetime.date.fromisoformat(text)
        if str(date) != text:
            raise ValueError
    except ValueError:
        raise Misuse(
            f"--monday {text}: this is no date: give year, month and day, such as 2026-11-30"
        ) from None
    try:
        date + (7 * weeks + 2) * DAY
        monday = date - date.weekday() * DAY
    except OverflowError:
        raise Misuse(f"--monday {text}: give a date of this century, such as 2026-11-30") from None
    if date != monday:
        raise Misuse(f"--monday {text}: this is a {date:%A}: give a Monday, such as {monday}")
    return date


def read_times(texts: Sequence[str], shifts: Collection[str]) -> dict[str, Times]:
    """The times of all shift types or of none, each given as `Early=06:00-14:15`. A shift that ends
    before it begins ends a day later. Raises Misuse if a text has no times, or only some shift
    types have them."""
    by_shift: dict[str, Times] = {}
    for text in texts:
        shift, is_given, times = text.rpartition("=")
        if not is_given or not TIMES.fullmatch(times):
            raise Misuse(
                f"--times {text}: give a shift type, its start and its end, such as"
                " Early=06:00-14:15"
            )
        if shift not in shifts:
            advice = did_you_mean(shift, shifts, f"give one of {quoted(shifts)}")
            raise Misuse(f"--times {text}: '{shift}' is no shift type: {advice}")
        if shift in by_shift:
            raise Misuse(f"--times {text}: {shift} has two times: give one")
        by_shift[shift] = times_of(times, f"--times {text}")
    missing = [shift for shift in shifts if shift not in by_shift]
    if by_shift and missing:
        raise Misuse(
            f"--times has no times of {quoted(missing)}: give them too, such as --times"
            f" {missing[0]}=06:00-14:15"
        )
    return by_shift
