#!/usr/bin/env python3
"""Weeks, rosters and held cells made at random: the program beside python/inrc2pb/judging/rules.py,
which is written from docs/rules.md.

usage: random_rosters.py PROGRAM [--weeks N] [--seed N]

`extend` has to name the first hard rule that a roster breaks, or to tell its penalty; `decode` of
that answer has to give the same roster, penalty and costs. Prints how many rosters were of each
class, in weeks without options, with `--early`, with `--fix` and with both, and fails where a class
has none.
"""

import argparse
import collections
import concurrent.futures
import functools
import re
import sys
import tempfile

from drafts import costs, first_broken, read_roster, read_week, rows, rules, solution_text, week_of
from random_weeks import random_cases
from runs import Runs, Wrong, report_text

COLUMNS = ["", "early", "fix", "fix early"]


# ---- one roster


def read_case(case):
    held = read_roster(case["fix"]) if "fix" in case else []
    return read_week(case["sce"], case["his"], case["week"]), read_roster(case["roster"]), held


def same(kind, found, wanted):
    if found != wanted:
        raise Wrong(kind, f"{found!r} is not {wanted!r}")


def check_roster(runs, case):
    """Runs the roster of a case through the program, and raises what is wrong."""
    week, roster, held = read_case(case)
    runs.put(case)
    status, out, err = runs.run("extend", "--from", "roster.txt")
    if status not in (0, 6):
        raise Wrong(re.sub(r"\d+", "N", f"status {status}, {err!r}"), "on files without a fault")
    broken = first_broken(week, roster, held)
    if broken:
        return same("hard rules", (status, out, err), (6, "", f"inrc2pb: roster breaks {broken}\n"))
    same("hard rules", (status, err), (0, ""))
    cost = costs(week, roster, "early" in case)
    penalty = sum(cost)
    same("penalty of extend", out.split("\n")[:2], [f"o {penalty}", "s SATISFIABLE"])
    runs.put(dict(case, answer=out))
    status, report, err, solution = runs.decode()
    same("decode of what extend wrote", (status, err), (0, ""))
    nurses = list(week.nurses)
    sorted_cells = sorted(roster, key=lambda cell: (nurses.index(cell[0]), cell[1]))
    same("roster of decode", solution, solution_text(week, sorted_cells))
    return same("report", report, report_text(penalty, cost, last=penalty))


# ---- what was hit


def hard_class(week, roster, held):
    """The first broken rule, and in which of its ways it is broken."""
    broken = first_broken(week, roster, held)
    shifts = rules.shifts_by_day(rows(roster))
    if broken == "H1":
        return (
            "H1 two shift types"
            if any(len(set(on)) > 1 for on in shifts.values())
            else "H1 two skills"
        )
    if broken == "H3":
        monday = any(
            (week.history[n].last, s) in week.forbidden for n in week.nurses for s in shifts[n, 0]
        )
        return "H3 after the history" if monday else "H3 within the week"
    if broken == "H5":
        missing = [cell for cell in held if cell not in roster]
        if held.index(missing[0]) > 0:
            return "H5 a later row"
        other = any(s in shifts[n, d] for n, d, s, _ in missing)
        return "H5 another skill" if other else "H5 the first row"
    return broken or "kept"


def may_charge(week, rule, what, early):
    """Whether the rule may charge this in a week."""
    if rule == "S4":
        return any((shift == "Any") == (what == "Any") for _, shift, _ in week.requests)
    if rule in ("S6", "S7"):
        return week.number + 1 == week.weeks or early and what == "above"
    return True


def counted_classes(week, roster, early):
    """What the soft rules charge, and what they do not."""
    charged = {
        (charge.rule, charge.what) for charge in rules.charges(week_of(week), rows(roster), early)
    }
    when = ", last week" if week.number + 1 == week.weeks else ", before"
    kinds = {tuple(name.split(",")[0].split(" ", 1)) for name in COUNTED}
    for rule, what in kinds:
        if may_charge(week, rule, what, early):
            yield (
                f"{rule} {what}{when if rule in ('S6', 'S7') else ''}:"
                f" {'some' if (rule, what) in charged else 'none'}"
            )


def met_classes(week, roster):
    """What is met in some weeks only."""
    contracts = [week.contracts[one.contract] for one in week.nurses.values()]
    limits = {
        "S1 numbers": week.required.values(),
        "S2 shift limits": week.shifts.values(),
        "S2 work limits": [one.work for one in contracts],
        "S3 limits": [one.off for one in contracts],
        "S6 limits": [one.total for one in contracts],
    }
    for what, pairs in limits.items():
        if any(least > most for least, most in pairs):
            yield f"{what} with the minimum above"
    if any(
        week.requests.count(row) > 1
        for row in week.requests
        for n, d, s, _ in roster
        if row in ((n, s, d), (n, "Any", d))
    ):
        yield "S4 a row that stands twice"
    before = {
        nurse: week.history[nurse].assignments - week.contracts[one.contract].total[1]
        for nurse, one in week.nurses.items()
    }
    if any(before[nurse] > 0 for nurse, _, _, _ in roster):
        yield "S6 above already in the history"


COUNTED = [
    "S1 missing",
    "S2 shift above",
    "S2 shift below",
    "S2 work above",
    "S2 work below",
    "S3 off above",
    "S3 off below",
    "S4 shift",
    "S4 Any",
    "S5 half",
    "S6 below, last week",
    "S6 above, last week",
    "S6 above, before",
    "S7 above, last week",
    "S7 above, before",
]
BROKEN = [
    "kept",
    "H1 two shift types",
    "H1 two skills",
    "H2",
    "H3 after the history",
    "H3 within the week",
    "H4",
    "H5 the first row",
    "H5 a later row",
    "H5 another skill",
]
MET = [
    "S1 numbers with the minimum above",
    "S2 shift limits with the minimum above",
    "S2 work limits with the minimum above",
    "S3 limits with the minimum above",
    "S6 limits with the minimum above",
    "S4 a row that stands twice",
    "S6 above already in the history",
]


def classes():
    """Each class of rosters that has to be hit, with the columns where it can be."""
    for name in BROKEN:
        yield name, [column for column in COLUMNS if "fix" in column or not name.startswith("H5")]
    for name in COUNTED:
        columns = [column for column in COLUMNS if "early" in column or not name.endswith("before")]
        yield f"{name}: some", columns
        yield f"{name}: none", columns
    for name in MET:
        yield name, COLUMNS


def classes_of(case):
    week, roster, held = read_case(case)
    hard = hard_class(week, roster, held)
    yield hard
    if hard == "kept":
        yield from counted_classes(week, roster, "early" in case)
        yield from met_classes(week, roster)


# ---- all of them


def try_week(program, seed, number):
    """What the rosters of a week hit, and what was wrong."""
    hits = collections.Counter()
    wrong = []
    with tempfile.TemporaryDirectory(prefix="inrc2pb-") as folder:
        runs = Runs(program, folder)
        for case in random_cases(seed, number):
            column = " ".join(name for name in ("fix", "early") if name in case)
            hits.update((name, column) for name in set(classes_of(case)))
            try:
                check_roster(runs, case)
            except Wrong as error:
                wrong.append(f"week {number}: {error}")
    return hits, wrong


def show(hits):
    """Prints the table of hits; which class was never hit."""
    lines = [("rosters", "no option", "--early", "--fix", "both")]
    never = []
    for name, columns in classes():
        lines.append(
            (name, *(hits[name, column] if column in columns else "-" for column in COLUMNS))
        )
        never += [
            f"{name}, {column or 'no option'}" for column in columns if not hits[name, column]
        ]
    print("".join("{:42}{:>10}{:>10}{:>10}{:>10}\n".format(*line) for line in lines), end="")
    return never


def main():
    reader = argparse.ArgumentParser(
        description=__doc__, formatter_class=argparse.RawDescriptionHelpFormatter
    )
    reader.add_argument("program")
    reader.add_argument("--weeks", type=int, default=500)
    reader.add_argument("--seed", type=int, default=1)
    given = reader.parse_args()
    hits = collections.Counter()
    failed = []
    with concurrent.futures.ProcessPoolExecutor() as pool:
        for found, wrong in pool.map(
            functools.partial(try_week, given.program, given.seed), range(given.weeks), chunksize=10
        ):
            hits += found
            failed += wrong
    failed += [f"no roster of the class {name}" for name in show(hits)]
    tried = sum(hits[name, column] for name in BROKEN for column in COLUMNS)
    print("".join(f"FAILED: {line}\n" for line in failed[:20]), end="")
    print(
        f"random_rosters.py: seed {given.seed}, {given.weeks} weeks, {tried} rosters,"
        f" {len(failed)} failed"
    )
    sys.exit(1 if failed else 0)


if __name__ == "__main__":
    main()
