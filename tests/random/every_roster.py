#!/usr/bin/env python3
"""Compares the models of `encode` for small weeks, and answers to them, with
python/inrc2pb/judging/rules.py, for every roster.

usage: every_roster.py PROGRAM [--weeks N] [--seed N]

For each set of cells, the constraints can be satisfied exactly if the roster keeps the hard rules,
and the minimum objective is then its penalty. So the minimum of all penalties is the optimum, or
there is none; if clasp is installed, it has to prove the same. Each slack must be in one constraint
only, with the coefficient 1 and a price of at least 0, so that the minimum objective for some cells
is a sum over the constraints of their cheapest slacks.

For answers with any slacks `decode` has to name the first constraint that is not satisfied, or to
report the answer's objective and the roster's costs.
"""

import random
import re
import shutil
import subprocess
import tempfile

from drafts import costs, files_of, rows, rules, solution_text, week_of
from random_weeks import any_cell, cells_of, legal_roster, random_week
from runs import Runs, Wrong, report_text
from trials import run_trials

# Nurses, shift types and skills of the weeks, in turn: 7 cells, and now and then 14.
SIZES = [(1, 1, 1)] * 12 + [(1, 2, 1)] * 2 + [(2, 1, 1), (1, 1, 2)]
ANSWERS_OF_A_WEEK = 8
HAS_CLASP = shutil.which("clasp") is not None


# ---- the model


class Model:
    """An OPB text: the price of each variable, and the constraints as their terms and degrees. For
    the search each of these is also kept as masks over the cells, the degree, and the prices of its
    slacks."""

    def __init__(self, text, cells):
        first, *lines = text.split("\n")[:-1]
        self.variables = int(first.split()[2])
        objective = lines.pop(0) if lines[0].startswith("min:") else ""
        self.price = {
            int(variable): int(price)
            for price, variable in re.findall(r"([+-]\d+) x(\d+)", objective)
        }
        self.cell_prices = [self.price.get(cell + 1, 0) for cell in range(cells)]
        self.constraints = [self.constraint(line) for line in lines]
        self.slacks = set()
        self.rows = [self.row(terms, degree, cells) for terms, degree in self.constraints]

    @staticmethod
    def constraint(line):
        terms = [
            (1 if sign == "+" else -1, int(variable))
            for sign, variable in re.findall(r"([+-])1 x(\d+) ", line)
        ]
        degree = int(line.split()[-2])
        if line != " ".join(
            [*(f"{sign:+} x{variable}" for sign, variable in terms), f">= {degree} ;"]
        ):
            raise Wrong("constraint", line)
        return terms, degree

    def row(self, terms, degree, cells):
        plus, minus = (
            sum(
                1 << variable - 1
                for sign, variable in terms
                if sign == wanted and variable <= cells
            )
            for wanted in (1, -1)
        )
        slacks = {variable: sign for sign, variable in terms if variable > cells}
        prices = sorted(self.price.get(variable, 0) for variable in slacks)
        if -1 in slacks.values() or self.slacks & set(slacks) or prices and prices[0] < 0:
            raise Wrong("slacks", f"{terms}")
        self.slacks |= set(slacks)
        return plus, minus, degree, prices

    def first_unmet(self, true):
        """The number of the first constraint that these variables do not satisfy, or None."""
        for number, (terms, degree) in enumerate(self.constraints, 1):
            if sum(sign for sign, variable in terms if variable in true) < degree:
                return number
        return None

    def least(self, bits):
        """The least objective for these cells, or None where a constraint cannot be satisfied."""
        objective = sum(price for cell, price in enumerate(self.cell_prices) if bits >> cell & 1)
        for plus, minus, degree, prices in self.rows:
            lacking = degree - bin(bits & plus).count("1") + bin(bits & minus).count("1")
            if lacking > len(prices):
                return None
            objective += sum(prices[: max(0, lacking)])
        return objective


def clasp_optimum(text):
    """The optimum that clasp proves, or None where there is no solution."""
    said = subprocess.run(
        ["clasp", "--quiet=1"], input=text, capture_output=True, text=True, timeout=60
    ).stdout
    if "s UNSATISFIABLE" in said:
        return None
    status = re.search(r"^s (.*)$", said, re.MULTILINE).group(1)
    if (status == "OPTIMUM FOUND") != ("\nmin:" in text) or status not in (
        "OPTIMUM FOUND",
        "SATISFIABLE",
    ):
        raise Wrong("clasp", status)
    return (
        int(re.findall(r"^o (-?\d+)$", said, re.MULTILINE)[-1]) if status == "OPTIMUM FOUND" else 0
    )


# ---- one week


def small_case(chance, number):
    """A week of one of the sizes with exactly so many names, its held cells, and its files."""
    size = SIZES[number % len(SIZES)]
    week = None
    while week is None or (len(week.nurses), len(week.shifts), len(week.skills)) != size:
        week, _ = random_week(chance, *size)
    case = files_of(week)
    held = chance.choice([[], legal_roster(chance, week)[:2], [any_cell(chance, week)]])
    if held or chance.random() < 0.5:
        case["fix"] = solution_text(week, held)
    if chance.random() < 0.4:
        case["early"] = ""
    return week, held, case


def check_answer(runs, model, week, case, true):
    """Compares what `decode` makes of the answer in which these variables are true."""
    literals = [
        f"x{variable}" if variable in true else f"-x{variable}"
        for variable in range(1, model.variables + 1)
    ]
    runs.put(dict(case, answer=f"s SATISFIABLE\nv {' '.join(literals)}\n"))
    ended = runs.decode()
    unmet = model.first_unmet(true)
    if unmet:
        wanted = (6, "", f"inrc2pb: constraint {unmet} is not satisfied\n", None)
    else:
        roster = [cell for index, cell in enumerate(cells_of(week)) if index + 1 in true]
        objective = sum(model.price.get(variable, 0) for variable in true)
        wanted = (
            0,
            report_text(objective, costs(week, roster, "early" in case)),
            "",
            solution_text(week, roster),
        )
    if ended != wanted:
        raise Wrong("decode", f"{ended} is not {wanted}")
    return unmet is None


def random_answer(chance, model, cells, kept):
    """Variables that are true: mostly of a roster that keeps the hard rules, and many slacks."""
    bits = (
        chance.choice(kept) if kept and chance.random() < 0.8 else chance.randrange(1 << len(cells))
    )
    likely = chance.choice([1, 1, 0.9, 0.5])
    slacks = {slack for slack in sorted(model.slacks) if chance.random() < likely}
    return slacks | {index + 1 for index in range(len(cells)) if bits >> index & 1}


def penalties(model, week, held, early):
    """The penalty of each set of cells that keeps the hard rules, as it is compared with the least
    objective of all sets."""
    cells = rows(cells_of(week))
    value = week_of(week)
    held_rows = rows(held)
    found = {}
    for bits in range(1 << len(cells)):
        roster = [cell for index, cell in enumerate(cells) if bits >> index & 1]
        broken = rules.first_broken(value, roster, held_rows)
        penalty = None if broken else sum(rules.costs(value, roster, early).values())
        if model.least(bits) != penalty:
            raise Wrong("least objective", f"{model.least(bits)} is not {penalty} for {roster}")
        if penalty is not None:
            found[bits] = penalty
    return found


def try_week(runs, chance, week, held, case):
    """What was tried: sets of cells, those of them that keep the hard rules, whether there is none,
    and answers that satisfy the model and that do not."""
    runs.put(case)
    status, text, err = runs.run("encode")
    if status or err:
        raise Wrong("encode", f"status {status}, {err!r}")
    cells = cells_of(week)
    model = Model(text, len(cells))
    penalty = penalties(model, week, held, "early" in case)
    least = min(penalty.values(), default=None)
    if HAS_CLASP and clasp_optimum(text) != least:
        raise Wrong("clasp's optimum", f"{clasp_optimum(text)} is not {least}")
    answers = [random_answer(chance, model, cells, list(penalty)) for _ in range(ANSWERS_OF_A_WEEK)]
    satisfying = sum(check_answer(runs, model, week, case, true) for true in answers)
    return 1 << len(cells), len(penalty), not penalty, satisfying, ANSWERS_OF_A_WEEK - satisfying


def try_number(program, seed, number):
    """As `try_week`, or what is wrong."""
    chance = random.Random(f"small {seed} {number}")
    with tempfile.TemporaryDirectory(prefix="inrc2pb-") as folder:
        try:
            return try_week(Runs(program, folder), chance, *small_case(chance, number))
        except Wrong as wrong:
            return f"week {number}: {wrong}"


if __name__ == "__main__":
    run_trials(
        __doc__,
        try_number,
        (
            "sets of cells",
            "of them rosters that keep the hard rules",
            "weeks without a roster" + ", as clasp proves" * HAS_CLASP,
            "answers that satisfy the model",
            "that do not",
        ),
        default=64,
    )
