#!/usr/bin/env python3
"""Compares `inrc2pb-bound` on tiny periods of one to three weeks with all plans, under certificates
and facts of all kinds.

usage: every_plan.py PROGRAM [--periods N] [--seed N]

The plans and the bounds are those of plain_plans.py and plain_bounds.py. The program's bound is
that of the certificate, and no plan that keeps the hard rules and the given facts costs less; none
exists if the program says so. It gives the penalties of some plans, `optimal` if such a plan has
the bound, and the first rule or fact that others break. It refuses a certificate with a fact twice
on a path. A period that fails is made smaller and kept in fuzz-failures/.
"""

import itertools
import random
import shutil
import subprocess
import tempfile
import time
from dataclasses import replace
from pathlib import Path
from typing import Callable, Dict, Iterator, List, NamedTuple, Optional, Sequence, Tuple

import plain_plans
from drafts import ROOT, first_broken, solution_text
from periods import (
    certificate_text,
    period_files,
    random_certificate,
    random_period,
    repeating_tree,
)
from plain_bounds import NONE, Certificate, lower_bound, minimums_bound
from plain_plans import Chain, Period, Plan
from random_weeks import any_cell
from runs import Wrong, builds, same_by_all
from trials import run_trials

MOST_PLANS = 3000
# A bound that is not below it is the bound of a certificate without a plan.
GREAT = 10**9
SECONDS = 20
# The most choices of a nurse in a case that is made smaller.
GREATEST = 4000


class Case(NamedTuple):
    """A period with a certificate."""

    period: Period
    certificate: Certificate


class Plans(NamedTuple):
    """The plans of a period that are not refused, with their costs, others that are, and whether
    these are all."""

    kept: List[Tuple[int, Plan]]
    broken: List[Plan]
    all_tried: bool


def refusal(period: Period, plan: Plan) -> Optional[Tuple[int, str]]:
    """The status and the fault with which the program refuses a plan: that of the first week with
    one, or of the first fact it breaks."""
    rule = plain_plans.first_broken(period, plan)
    beyond = plain_plans.first_beyond(plan)
    fact = plain_plans.first_unmet(period, plan)
    if beyond is not None and (rule is None or beyond <= rule[0]):
        return 1, f"week {beyond + 1}: history: out of limits"
    if rule:
        return 6, (
            f"week {rule[0] + 1}: roster breaks {rule[1]}"
            if len(period.weeks) > 1
            else f"roster breaks {rule[1]}"
        )
    return None if fact is None else (6, f"facts line {fact + 5}: not met")


def plans_of(period: Period, chance: random.Random, every: Dict[str, List[Chain]]) -> Plans:
    """All plans, or the first ones in a random order."""
    for own in every.values():
        chance.shuffle(own)
    found = list(itertools.islice(plain_plans.plans(every), MOST_PLANS + 1))
    kept: List[Tuple[int, Plan]] = []
    broken: List[Plan] = []
    for plan in found[:MOST_PLANS]:
        if refusal(period, plan):
            broken.append(plan)
        else:
            kept.append((plain_plans.cost(period, plan), plan))
    return Plans(kept, broken, len(found) <= MOST_PLANS)


# ---- runs of the program


class Runs:
    """A folder with the files of a period, and runs of the program there."""

    def __init__(self, program: str, folder: str, case: Case) -> None:
        self.programs = builds(program)
        self.folder = Path(folder)
        self.period = case.period
        files = period_files(*case)
        for name, text in files.items():
            (self.folder / name).write_text(text)
        weeks = range(len(case.period.weeks))
        self.words = [
            "--sce",
            "ward.txt",
            "--his",
            "history.txt",
            *(word for week in weeks for word in ("--week", f"week-{week}.txt")),
        ]
        self.words += [
            word
            for week in weeks
            if f"fix-{week}.txt" in files
            for word in ("--fix", f"{week + 1}=fix-{week}.txt")
        ]
        self.words += (
            ["--given", "facts.txt"] * ("facts.txt" in files)
            + ["--early"] * case.period.early
            + ["--proof", "certificate.txt"]
        )

    def run(self, *words: str) -> Tuple[int, str, str]:
        """The status, standard output and standard error of a run, in each build."""
        return same_by_all(self.programs, lambda program: self.run_of(program, *words))

    def run_of(self, program: str, *words: str) -> Tuple[int, str, str]:
        """The status, standard output and standard error of a build."""
        ended = subprocess.run(
            [program, *self.words, *words],
            cwd=self.folder,
            capture_output=True,
            text=True,
            timeout=60,
        )
        return ended.returncode, ended.stdout, ended.stderr

    def expect(self, what: str, wanted: Tuple[int, str, str], *words: str) -> None:
        """The run with these words, too, ends so."""
        found = self.run(*words)
        if found != wanted:
            raise Wrong(
                what, f"{str(found)[:400]} is not {wanted} for {' '.join([*self.words, *words])}"
            )

    def judge(self, rosters: Sequence[Sequence[plain_plans.Cell]]) -> List[str]:
        """Writes these rosters of the weeks; returns the words that name them."""
        words = []
        for number, (week, roster) in enumerate(zip(self.period.weeks, rosters)):
            (self.folder / f"roster-{number}.txt").write_text(solution_text(week, roster))
            words += ["--roster", f"roster-{number}.txt"]
        return words


def check_first_roster(runs: Runs, chance: random.Random) -> bool:
    """Tries some cells as the first roster, which mostly break a hard rule. Whether they did."""
    first, *later = runs.period.weeks
    cells = list(dict.fromkeys(any_cell(chance, first) for _ in range(chance.randint(1, 3))))
    rule = first_broken(first, cells, runs.period.held[0])
    if rule:
        told = f"inrc2pb-bound: {'week 1: ' * bool(later)}roster breaks {rule}\n"
        runs.expect("first roster", (6, "", told), *runs.judge([cells, *([] for _ in later)]))
    return bool(rule)


def check_repeated_fact(runs: Runs, case: Case, chance: random.Random) -> None:
    """Tries the certificate with a fact twice on a path."""
    text = certificate_text(
        case.period, case.certificate._replace(tree=repeating_tree(chance, case.certificate.tree))
    )
    (runs.folder / "certificate.txt").write_text(text)
    runs.expect("repeated fact", (1, "", "inrc2pb-bound: certificate: repeated\n"))


def check(program: str, folder: str, case: Case) -> Tuple[bool, ...]:
    """What was tried: whether there are several weeks, several leaves, given facts of other kinds
    than choices, a bound above 0, an optimal plan, no plan at all, a proof of that, a plan that
    breaks a rule, one that breaks a fact."""
    period, certificate = case
    runs = Runs(program, folder, case)
    every = {nurse: list(plain_plans.chains(period, nurse)) for nurse in period.nurses}
    plans = plans_of(period, random.Random("plans"), every)
    bound = lower_bound(period, certificate, every)
    minimums = minimums_bound(period, certificate, every)
    cheapest = min((cost for cost, _ in plans.kept), default=NONE)
    if cheapest < bound or plans.kept and minimums > 0:
        raise Wrong(
            "definition", f"a plan costs {cheapest}, below {bound}, or there is none by {minimums}"
        )
    if bound < NONE:
        runs.expect("bound", (0, f"lower bound {bound}\n", ""))
    else:
        status, text, _ = runs.run()
        if status or int(text.split()[-1]) < GREAT:
            raise Wrong("bound", f"{text!r} though no plan exists")
    runs.expect(
        "minimums",
        (0, "no roster exists\n" if minimums > 0 else "no proof that no roster exists\n", ""),
        "--minimums",
    )
    plans.kept.sort(key=lambda pair: pair[0])
    for cost, plan in plans.kept[:1] + plans.kept[-1:]:
        text = f"lower bound {bound}\npenalty {cost}\n" + "optimal\n" * (cost == bound)
        runs.expect("rosters", (0, text, ""), *runs.judge(plan.rosters(len(period.weeks))))
    rules = int(check_first_roster(runs, random.Random("cells")))
    facts = 0
    for plan in plans.broken[:3]:
        status, told = refusal(period, plan) or (0, "")
        rules = rules + ("breaks" in told)
        facts = facts + ("fact" in told)
        runs.expect(
            "broken",
            (status, "", f"inrc2pb-bound: {told}\n"),
            *runs.judge(plan.rosters(len(period.weeks))),
        )
    if certificate.tree[0] == "SPLIT":
        check_repeated_fact(runs, case, random.Random("fact"))
    return (
        len(period.weeks) > 1,
        certificate.tree[0] == "SPLIT",
        any(fact[0] != "CHOICE" for fact, _ in period.given),
        0 < bound < NONE,
        plans.all_tried and cheapest == bound < NONE,
        plans.all_tried and not plans.kept,
        minimums > 0,
        rules > 0,
        facts > 0,
    )


# ---- a case that fails


def subtrees(tree: tuple) -> Iterator[tuple]:  # type: ignore[type-arg]
    """Smaller trees: one of the two parts of a node in its place, or a leaf without its last
    surcharge."""
    if tree[0] == "LEAF":
        if tree[2]:
            yield (*tree[:2], tree[2][:-1])
        return
    yield from tree[2:]
    yield from ((*tree[:2], less, tree[3]) for less in subtrees(tree[2]))
    yield from ((*tree[:3], less) for less in subtrees(tree[3]))


def smaller(case: Case) -> Iterator[Case]:
    """Cases with a part less."""
    period, certificate = case
    for number in range(len(period.given)):
        yield case._replace(
            period=replace(period, given=period.given[:number] + period.given[number + 1 :])
        )
    yield from (
        case._replace(certificate=certificate._replace(tree=tree))
        for tree in subtrees(certificate.tree)
    )
    for number, prices in enumerate(certificate.prices):
        for place in prices:
            less = {other: price for other, price in prices.items() if other != place}
            lists = [*certificate.prices[:number], less, *certificate.prices[number + 1 :]]
            yield case._replace(certificate=certificate._replace(prices=lists))
    for number, week in enumerate(period.weeks):
        held = [*period.held[:number], [], *period.held[number + 1 :]]
        for changed in ({"requests": []}, {"required": {}}):
            other = type(week)(**{**vars(week), **changed})
            yield case._replace(
                period=replace(
                    period, weeks=[*period.weeks[:number], other, *period.weeks[number + 1 :]]
                )
            )
        if period.held[number]:
            yield case._replace(period=replace(period, held=held))


def shrunk(case: Case, fails: Callable[[Case], bool]) -> Case:
    """A small case that fails, after some seconds at the latest."""
    end = time.monotonic() + SECONDS
    while True:
        small = (
            one
            for one in smaller(case)
            if period_files(*one) != period_files(*case)
            and plain_plans.size(one.period) <= GREATEST
        )
        found = next((one for one in small if time.monotonic() > end or fails(one)), None)
        if found is None or time.monotonic() > end:
            return case
        case = found


def wrong_of(program: str, case: Case) -> Optional[Wrong]:
    """What is wrong with the program's runs on a case."""
    with tempfile.TemporaryDirectory(prefix="inrc2pb-") as folder:
        try:
            check(program, folder, case)
        except Wrong as wrong:
            return wrong
    return None


def keep(program: str, case: Case, name: str) -> str:
    """Makes a case that fails smaller, and keeps its files; what is wrong with it, and where they
    are."""
    kind = getattr(wrong_of(program, case), "kind", "")
    small = shrunk(case, lambda one: getattr(wrong_of(program, one), "kind", None) == kind)
    folder = Path(ROOT) / "fuzz-failures" / name
    shutil.rmtree(folder, ignore_errors=True)
    folder.mkdir(parents=True)
    try:
        check(program, str(folder), small)
    except Wrong as wrong:
        return f"{wrong}\n  kept in {folder}"
    return f"another run of {folder} is right"


def try_number(program: str, seed: int, number: int):  # type: ignore[no-untyped-def]
    """As `check`, or what is wrong."""
    chance = random.Random(f"plans {seed} {number}")
    period = random_period(chance)
    every = {nurse: list(plain_plans.chains(period, nurse)) for nurse in period.nurses}
    case = Case(period, random_certificate(chance, period, every))
    with tempfile.TemporaryDirectory(prefix="inrc2pb-") as folder:
        try:
            return check(program, folder, case)
        except Wrong:
            return f"period {number}: {keep(program, case, f'plans-{seed}-{number}')}"


if __name__ == "__main__":
    run_trials(
        __doc__,
        try_number,
        (
            "of several weeks",
            "with several leaves",
            "with facts",
            "with a bound above 0",
            "with an optimal plan",
            "without a plan",
            "proved to have none",
            "with a plan that breaks a rule",
            "with one that breaks a fact",
        ),
        "periods",
        120,
    )
