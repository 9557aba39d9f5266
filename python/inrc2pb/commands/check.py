"""The verb `check` of `inrc2pb-roster`: names the first mistake of each file of a week and how to
correct it, and warns of odd values."""

import argparse
import os
from pathlib import Path
from typing import Callable, Iterator, TypeVar

from ..judging.absences import absences_of, working_while_away
from ..judging.breaches import explained, other_week, read_held, read_roster
from ..judging.demand import demand_warnings
from ..judging.limits import exceeded, limits_in_words, read_given, with_given
from ..judging.odd_values import Reach, Warned, history_warnings, scenario_warnings, week_warnings
from ..judging.rules import first_broken
from ..programs.program import BROKEN_RULE, FAULT, NO_PROGRAM, answer_with, encode
from ..search.why_none import shortage_lines, why_none
from ..shown.ward_sentences import (
    history_sentences,
    limit_sentences,
    scenario_sentences,
    supply_text,
    ward_sentence,
)
from ..shown.week_sentences import DescribedWeek, held_sentences, weeks_sentences
from ..week.faults import FileFault, Misuse, ProgramFault, fault_line, printable
from ..week.files import check_week_number, read_history, read_scenario, read_solution, read_week
from ..week.records import DAYS, Cell, History, Scenario, Week, WeekData
from ..week.words import readable
from ..week.writing import check_no_pipes
from .arguments import Parser, parser
from .week_options import (
    add_given_option,
    add_weeks_options,
    fix_files,
    the_week,
)

Contents = TypeVar("Contents")


class Check:
    """A check of a week's files. It prints what it finds, counts the mistakes, and notes whether a
    roster is impossible."""

    def __init__(self, given: argparse.Namespace) -> None:
        self.given = given
        self.week_file: Path | None = next(iter(given.week), None)
        self.fix_file: Path | None = fix_files(given.fix, 1).get(0)
        self.mistakes = 0
        self.impossible = False

    def reads(self, reader: Callable[[], Contents]) -> Contents | None:
        """Returns the contents of a file, or None after a mistake."""
        try:
            return reader()
        except (FileFault, OSError) as fault:
            self.mistake(fault_line(fault))
        return None

    def mistake(self, line: str) -> None:
        """Prints and counts a mistake."""
        self.mistakes += 1
        print(printable(line))

    def warns(self, path: Path, warnings: Iterator[str]) -> None:
        """Prints the warnings about a file without a mistake."""
        for warning in warnings:
            print(f"{path}: warning: {warning}")
            self.impossible = (
                self.impossible or isinstance(warning, Warned) and warning.reach is Reach.NONE
            )

    def name(self, name: str, scenario: Scenario) -> Iterator[str]:
        """A warning if the file is of another ward."""
        if name != scenario.name:
            yield f"it is of '{name}', and the scenario is '{scenario.name}'"

    def held(self, path: Path, scenario: Scenario, history: History | None) -> list[Cell]:
        """Checks a fix file: its assignments, if it has no mistake."""
        solution = self.reads(
            lambda: read_held(
                path, scenario, history, lambda warning: self.warns(path, iter([warning]))
            )
        )
        return list(solution.cells) if solution else []

    def roster(self, path: Path, scenario: Scenario, history: History | None) -> None:
        """Checks a roster."""
        if self.reads(lambda: read_roster(path, scenario, history)):
            self.warns(path, filter(None, [other_week(path, scenario, history)]))

    def history(self, scenario: Scenario) -> History | None:
        """Checks the history."""
        path = self.given.his

        def read() -> History:
            history = read_history(path, scenario)
            check_week_number(path, history, scenario)
            return history

        history = self.reads(read)
        if history:
            self.warns(path, self.name(history.scenario, scenario))
            self.warns(path, history_warnings(history, scenario))
        return history

    def week_data(self, path: Path, scenario: Scenario, history: History | None) -> WeekData | None:
        """Checks the week data."""
        facts = self.given.facts
        data = self.reads(lambda: read_week(path, scenario))
        claims = self.reads(lambda: read_given(facts, scenario)) if facts else ()
        if data and history:
            data = with_given(scenario, data, claims or (), history.week)
        if data:
            self.warns(path, self.name(data.name, scenario))
            self.warns(path, week_warnings(scenario, data))
            self.warns(path, demand_warnings(scenario, history, data))
        return data

    def all_files(self) -> tuple[Week | None, list[Cell]]:
        """Checks each file that is given: the week, if its three files have no mistake, and the
        held assignments."""
        given = self.given
        scenario = self.reads(lambda: read_scenario(given.sce))
        if not scenario:
            if given.his or given.week or given.fix or given.roster:
                print("The other files are checked when this one has no mistake.")
            return None, []
        self.warns(given.sce, scenario_warnings(scenario))
        history = self.history(scenario) if given.his else None
        data = self.week_data(self.week_file, scenario, history) if self.week_file else None
        held = self.held(self.fix_file, scenario, history) if self.fix_file else []
        if data:
            for row in working_while_away(absences_of(data), held):
                self.mistake(
                    f"{self.fix_file}: {row.nurse} is away on {DAYS[row.day]}, and {row.shift} is"
                    " held: remove one of the two"
                )
        if given.tell and not self.mistakes:
            self.tell(scenario, history, data, held)
        for roster in given.roster:
            self.roster(roster, scenario, history)
        week = Week(scenario, history, data) if history and data else None
        return week, held

    def tell(
        self,
        scenario: Scenario,
        history: History | None,
        data: WeekData | None,
        held: list[Cell],
    ) -> None:
        """Prints the files in sentences."""
        lines = [ward_sentence(scenario), *scenario_sentences(scenario), ""]
        lines += [*history_sentences(history), ""] if history else []
        if data:
            lines.append(f"The week {supply_text(scenario, history, data)}.")
            lines += [
                *weeks_sentences(scenario, [DescribedWeek(0, data)]),
                *limit_sentences(scenario, data),
                "",
            ]
        lines += [*held_sentences(held), ""] if held else []
        print(readable("\n".join(lines)))

    def model(self, week: Week, held: list[Cell]) -> None:
        """Lets `inrc2pb` check the files too. If it cannot be run, the rosters are compared with
        `rules`, and a warning says so."""
        files = the_week(self.given)
        has_program = True
        try:
            encode(files, Path(os.devnull))
        except ProgramFault as fault:
            if fault.status != NO_PROGRAM:
                self.mistake(_said(fault))
                return
            has_program = False
            print(f"warning: {fault_line(fault)}; the files were checked without it")
        for roster in self.given.roster:
            try:
                if has_program:
                    answer_with(files, roster)
                else:
                    _compare(roster, week, held)
            except ProgramFault as fault:
                self.mistake(_said(explained(fault, roster, week, held)))
                continue
            self.away(roster, week)

    def away(self, roster: Path, week: Week) -> None:
        """A roster may not break an absence of its week, nor exceed a limit that holds."""
        cells = read_solution(roster, week.scenario).cells
        for row in working_while_away(absences_of(week.data), cells):
            self.mistake(f"{roster}: {row.nurse} works {row.shift} on {DAYS[row.day]}, and is away")
        for charge in exceeded(week, week.data.limits, cells):
            self.mistake(f"{roster}: {limits_in_words([charge], cells)}, and this limit holds")


def _said(fault: ProgramFault) -> str:
    """A fault of the program: of a file or a roster as the program says it, any other with
    advice."""
    return str(fault) if fault.status in (FAULT, BROKEN_RULE) else fault_line(fault)


def _compare(roster: Path, week: Week, held: list[Cell]) -> None:
    """Raises the fault of `inrc2pb extend` if the roster breaks a hard rule."""
    rule = first_broken(week, read_solution(roster, week.scenario).cells, held)
    if rule:
        raise ProgramFault(BROKEN_RULE, f"roster breaks {rule}")


def options() -> Parser:
    """The parser of the verb."""
    checks = parser(
        (
            "Checks the files of a week: names the first mistake in each file and how to correct"
            " it, and prints warnings."
        ),
        (
            "--sce is required. Ends with status 1 if a file has a mistake; a warning is not a"
            " mistake.\nExample: inrc2pb-roster check $WEEK --roster roster.txt"
        ),
        "check",
    )
    add_weeks_options(checks, required=False)
    add_given_option(checks)
    checks.add_files("--roster", "rosters of the week to check, as solution files")
    checks.add_flag("--tell", "print the files in sentences")
    checks.add_flag(
        "--why-none", "if no roster exists: the minimum numbers to lower, and who has the skill"
    )
    return checks


def _check_options(given: argparse.Namespace) -> None:
    """Raises Misuse if options need others."""
    if not given.sce:
        raise Misuse(
            "no scenario is given: give --sce FILE, and the files to check; is WEEK set in this"
            " terminal?"
        )
    if len(given.week) > 1:
        raise Misuse(f"--week has {len(given.week)} files: check each week with its own history")
    for name, value in (("--why-none", given.why_none), ("--given", given.facts)):
        if value and not (given.his and given.week):
            raise Misuse(f"{name} needs the whole week: give --sce, --his and --week")
    check_no_pipes(
        (
            given.sce,
            given.his,
            *given.week,
            fix_files(given.fix, 1).get(0),
            given.facts,
            *given.roster,
        )
    )


def main(given: argparse.Namespace) -> int:
    """Checks the files; the exit status."""
    _check_options(given)
    check = Check(given)
    week, held = check.all_files()
    if not check.mistakes and week and given.why_none:
        print("\n".join(shortage_lines(why_none(the_week(given), week))), flush=True)
        return 0
    if not check.mistakes and week:
        check.model(week, held)
    elif not check.mistakes and given.roster:
        print(
            "warning: hard rules are not checked without the whole week: give --his and --week too"
        )
    if not check.mistakes:
        print(
            "No mistake found, but see the warnings." if check.impossible else "No mistake found."
        )
    return FAULT if check.mistakes else 0
