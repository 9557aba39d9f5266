"""Drafts of weeks, which tests make at random and change, and the library's values and rules of
them.

A draft has the names of its scenario, history and week as dictionaries that may change; a cell is a
tuple (nurse, day, shift type, skill). The library is python/inrc2pb.
"""

import os
import sys
from types import SimpleNamespace

ROOT = os.path.abspath(f"{os.path.dirname(__file__)}/../..")
sys.path.insert(0, f"{ROOT}/python")

from inrc2pb.judging import rules  # noqa: E402
from inrc2pb.week import faults, files, records, soft_rules  # noqa: E402

DAYS = list(records.DAYS)
SOFT_RULES = soft_rules.SOFT_RULES
FileFault = faults.FileFault


def week_of(draft):
    """The library's value of a draft."""
    limits = records.Limits
    shifts = {
        shift: records.ShiftType(
            shift,
            limits(*pair),
            tuple(after for after in draft.shifts if (shift, after) in draft.forbidden),
        )
        for shift, pair in draft.shifts.items()
    }
    contracts = {
        name: records.Contract(
            name,
            limits(*one.total),
            limits(*one.work),
            limits(*one.off),
            one.weekends,
            bool(one.complete),
        )
        for name, one in draft.contracts.items()
    }
    nurses = {
        name: records.Nurse(name, one.contract, tuple(one.skills))
        for name, one in draft.nurses.items()
    }
    history = {
        name: records.NurseHistory(
            name,
            one.assignments,
            one.weekends,
            None if one.last == "None" else one.last,
            one.same,
            one.work,
            one.off,
        )
        for name, one in draft.history.items()
    }
    required = {
        records.Place(*place): records.Requirement(*pair) for place, pair in draft.required.items()
    }
    requests = tuple(
        records.Request(nurse, None if shift == "Any" else shift, day)
        for nurse, shift, day in draft.requests
    )
    return records.Week(
        records.Scenario(draft.name, draft.weeks, tuple(draft.skills), shifts, contracts, nurses),
        records.History(draft.number, draft.name, history),
        records.WeekData(draft.name, required, requests),
    )


def draft_of(week):
    """The draft of a week."""
    ward = week.scenario
    data = week.data
    return SimpleNamespace(
        name=ward.name,
        weeks=ward.weeks,
        number=week.history.week,
        skills=list(ward.skills),
        shifts={name: tuple(one.consecutive) for name, one in ward.shift_types.items()},
        forbidden={
            (name, after) for name, one in ward.shift_types.items() for after in one.forbidden_next
        },
        contracts={
            name: SimpleNamespace(
                total=tuple(one.assignments),
                work=tuple(one.working_days),
                off=tuple(one.days_off),
                weekends=one.max_weekends,
                complete=int(one.complete_weekends),
            )
            for name, one in ward.contracts.items()
        },
        nurses={
            name: SimpleNamespace(contract=one.contract, skills=list(one.skills))
            for name, one in ward.nurses.items()
        },
        history={
            name: SimpleNamespace(
                assignments=one.assignments,
                weekends=one.weekends,
                last=one.last_shift or "None",
                same=one.consecutive_shifts,
                work=one.working_days,
                off=one.days_off,
            )
            for name, one in week.history.nurses.items()
        },
        required={
            tuple(place): (one.minimum, one.optimal) for place, one in data.requirements.items()
        },
        requests=[(one.nurse, one.shift or "Any", one.day) for one in data.requests],
    )


def read_week(scenario, history, week):
    """The draft of three texts. A fault's path is the option that names the file."""
    ward = files.read_scenario("sce", scenario)
    past = files.read_history("his", ward, history)
    data = files.read_week("week", ward, week)
    files.check_week_number("his", past, ward)
    return draft_of(records.Week(ward, past, data))


def read_roster(text, path="roster", ward=None):
    """The cells of a solution or fix file, in the order of its rows."""
    return [tuple(row) for row in files.read_solution(path, ward, text).cells]


def rows(cells):
    """The library's values of these cells."""
    return [records.Cell(*cell) for cell in cells]


def files_of(draft):
    """The texts of the three files, by the options that name them."""
    week = week_of(draft)
    return {
        "sce": files.scenario_text(week.scenario),
        "his": files.history_text(week.history),
        "week": files.week_text(week.data),
    }


def solution_text(draft, cells):
    """The text of a solution or fix file."""
    return files.solution_text(records.Solution(draft.number, draft.name, tuple(rows(cells))))


def first_broken(draft, cells, held=()):
    """The first hard rule that the roster breaks, or None."""
    return rules.first_broken(week_of(draft), rows(cells), rows(held))


def costs(draft, cells, early=False):
    """The cost of each soft rule, in their order."""
    return list(rules.costs(week_of(draft), rows(cells), early).values())
