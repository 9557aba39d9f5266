"""Tiny periods made at random, with certificates and facts of all kinds, and their files."""

import copy
import math
from typing import Dict, List, Sequence

import plain_plans
from drafts import DAYS, files_of, solution_text
from plain_bounds import Certificate, leaf_bound, leaves
from plain_plans import POINTS, Period, choices
from random_weeks import any_cell, legal_roster, random_requirements, random_week

MAX_PRICE = 999_999_999
# The most choices of a nurse for all days of a period, the most chains of nurses for which prices
# are sought, and the most leaves of a tree that splits all choices.
SIZES = (6, 40, 600)
FEW = 200
LEAVES = 40


# ---- periods


def random_period(chance) -> Period:
    """One to three weeks of one or two nurses, with facts that leave few choices. Mostly there is a
    plan."""
    first, roster = random_week(chance, 2, 2, 2)
    with_extremes(chance, first)
    number = chance.choice([1, 1, 2, 2, 3])
    first.weeks = chance.randint(number, 4)
    first.number = (
        first.weeks - number if chance.random() < 0.6 else chance.randint(0, first.weeks - number)
    )
    weeks = [first]
    rosters = [roster]
    while len(weeks) < number:
        week = copy.copy(first)
        rosters.append(legal_roster(chance, after(first, rosters[-1])))
        names = list(week.nurses)
        shifts = ["Any", *week.shifts]
        week.requests = [
            (chance.choice(names), chance.choice(shifts), chance.randrange(7))
            for _ in range(chance.randint(0, 6))
        ]
        week.required = random_requirements(chance, week, rosters[-1])
        weeks.append(week)
    period = Period(
        weeks,
        chance.random() < 0.4,
        [random_held(chance, *pair) for pair in zip(weeks, rosters)],
        [],
    )
    limit = chance.choice(SIZES)
    while plain_plans.size(period) > limit:
        period.given.append(restriction(chance, period, rosters))
    for _ in range(chance.choice([0, 0, 1, 2])):
        fact = random_fact(chance, period)
        period.given.insert(
            chance.randint(0, len(period.given)),
            (fact, holds_mostly(chance, period, rosters, fact)),
        )
    return period


def after(first, roster):
    """The first week with the last shifts of the week with this roster."""
    week = copy.copy(first)
    sunday = {cell[0]: cell[2] for cell in roster if cell[1] == 6}
    week.history = {nurse: copy.copy(past) for nurse, past in first.history.items()}
    for nurse, past in week.history.items():
        past.last = sunday.get(nurse, "None")
    return week


def holds_mostly(chance, period: Period, rosters, fact) -> bool:
    """Mostly whether the fact is true of these rosters; at random where they are no plan of the
    period."""
    plan = plain_plans.plan_of(period, rosters)
    return (
        chance.random() < 0.5
        if plan is None or chance.random() < 0.1
        else plain_plans.is_fact(plan, fact)
    )


def with_extremes(chance, week) -> None:
    """Now and then limits and a history of 0 and 9999."""
    for contract in week.contracts.values():
        contract.total = chance.choice(
            [contract.total, contract.total, (0, 3), (3, 5), (0, 0), (9999, 9999), (0, 10_000 - 1)]
        )
        if chance.random() < 0.1:
            contract.weekends = chance.choice([0, 9999])
    for past in week.history.values():
        past.assignments = chance.choice([past.assignments, 0, 2, 4])
        past.weekends = chance.choice([past.weekends, 0, 1])
        if chance.random() < 0.1:
            past.assignments, past.off, past.weekends, past.same, past.work = [
                chance.choice([9999, 3]) for _ in range(5)
            ]


def random_held(chance, week, roster) -> list:
    """Held cells of a week, mostly none, and mostly of this roster."""
    cells = []
    for _ in range(chance.choice([0, 0, 0, 1, 2])):
        cells.append(
            chance.choice(roster) if roster and chance.random() < 0.8 else any_cell(chance, week)
        )
    return list(dict.fromkeys(cells))


def restriction(chance, period: Period, rosters):
    """A condition about a day on which a nurse has several choices, true of the rosters."""
    days = [
        (week, nurse, day)
        for week in range(len(period.weeks))
        for nurse in period.nurses
        for day in range(7)
        if len(choices(period, week, nurse, day)) > 1
    ]
    week, nurse, day = chance.choice(days)
    shift = next((cell[2] for cell in rosters[week] if cell[:2] == (nurse, day)), None)
    found = list(choices(period, week, nurse, day))
    choice = chance.choice([shift, *found])
    return ("CHOICE", week, nurse, day, choice), choice == shift or choice not in found


def random_fact(chance, period: Period) -> plain_plans.Fact:
    """A fact of any kind."""
    week = chance.randrange(len(period.weeks))
    draft = period.weeks[week]
    kind = chance.choice(["CHOICE", "PLACE", "CHARGES", "CHARGES", "EVEN"])
    if kind == "CHOICE":
        return (
            kind,
            week,
            chance.choice(period.nurses),
            chance.randrange(7),
            chance.choice([None, *draft.shifts]),
        )
    if kind == "PLACE":
        return (
            kind,
            week,
            chance.randrange(7),
            chance.choice(list(draft.shifts)),
            chance.choice(draft.skills),
            chance.choice([0, 0, 1, 2]),
        )
    if kind == "CHARGES":
        return (
            kind,
            chance.choice(list(POINTS)),
            chance.choice([None, None, *period.nurses]),
            chance.choice([0, 0, 1, 2, 3, 9999]),
        )
    return (kind,)


# ---- certificates


def random_prices(chance, period: Period):
    """A price for each place, in thousandths."""
    kinds: Sequence[int] = chance.choice(
        [
            [0],
            [0, 30_000],
            [22_500, 30_000],
            [0, 10_000, 17_500, 30_000, 40_000],
            [0, 29_999, 30_001, MAX_PRICE],
            range(60_001),
        ]
    )
    return {place: chance.choice(kinds) for place in period.demands if chance.random() < 0.9}


def random_tree(chance, period: Period, lists: int, facts: Sequence[plain_plans.Fact] = ()):
    """A tree of at most eight leaves, below a node with these facts. A fact comes once on a
    path."""
    depth = len(facts)
    if depth < 3 and chance.random() < (0.8, 0.6, 0.4)[depth]:
        fact = next(
            fact for fact in iter(lambda: random_fact(chance, period), None) if fact not in facts
        )
        return (
            "SPLIT",
            fact,
            *(random_tree(chance, period, lists, (*facts, fact)) for _ in range(2)),
        )
    kinds = chance.choice(
        [
            [0],
            [0, 5_000, 10_000, 15_000, 20_000, 30_000],
            [0, 4_999, 14_999, 15_001],
            [0, 0, MAX_PRICE],
        ]
    )
    return (
        "LEAF",
        chance.randrange(lists),
        [chance.choice(kinds) for _ in range(chance.randint(0, depth + len(period.given) + 1))],
    )


def repeating_tree(chance, tree, facts: Sequence[plain_plans.Fact] = ()):
    """The tree with one of its leaves split by a fact of its path."""
    if tree[0] == "LEAF":
        return "SPLIT", chance.choice(facts), tree, tree
    parts = list(tree[2:])
    number = chance.randrange(2)
    parts[number] = repeating_tree(chance, parts[number], (*facts, tree[1]))
    return (*tree[:2], *parts)


def random_certificate(chance, period: Period, every: Dict[str, list]) -> Certificate:
    """A certificate; if there are few chains, each list of prices is the best of some for one of
    its leaves."""
    if chance.random() < 0.6 and 0 < math.prod(map(len, every.values())) <= LEAVES:
        return whole_certificate(period)
    lists = chance.randint(1, 3)
    certificate = Certificate([{}] * lists, random_tree(chance, period, lists))
    tries = 12 if sum(map(len, every.values())) <= FEW else 1
    drafts: List[dict] = []
    for number in range(lists):
        found = [random_prices(chance, period) for _ in range(tries)]
        filled = [
            list(leaves(certificate._replace(prices=[prices] * lists), period.given))
            for prices in found
        ]
        leaf = chance.randrange(len(filled[0]))
        drafts.append(
            max(zip(found, filled), key=lambda pair: leaf_bound(period, pair[1][leaf], every))[0]
        )
    return certificate._replace(prices=drafts)


def whole_certificate(period: Period) -> Certificate:
    """A tree that splits the choices of all days until one is left. Where nurses are missing, the
    price is the cost of a missing one."""
    prices: List[dict] = []
    days = [
        (week, nurse, day)
        for week in range(len(period.weeks))
        for nurse in period.nurses
        for day in range(7)
    ]

    def below(number: int, path: list):
        own = Period(period.weeks, period.early, period.held, period.given + path)
        while number < len(days) and len(choices(own, *days[number])) <= 1:
            number += 1
        if number < len(days):
            fact = ("CHOICE", *days[number], next(iter(choices(own, *days[number]))))
            return (
                "SPLIT",
                fact,
                below(number, [*path, (fact, True)]),
                below(number, [*path, (fact, False)]),
            )
        present: Dict[object, int] = {}
        for week, nurse, day in days:
            for shift, skills in choices(own, week, nurse, day).items():
                if shift:
                    place = (week, day, shift, skills[0])
                    present[place] = present.get(place, 0) + 1
        prices.append(
            {
                place: 30_000
                * (present.get(place, 0) <= optimal or present.get(place, 0) < minimum)
                for place, (minimum, optimal) in period.demands.items()
            }
        )
        return "LEAF", len(prices) - 1, []

    return Certificate(prices, below(0, []))


# ---- texts


def fact_text(fact) -> str:
    """The words of a fact."""
    words = list(fact)
    if fact[0] == "CHARGES":
        words[2:3] = ["ALL"] if fact[2] is None else ["NURSE", fact[2]]
    elif fact[0] in ("CHOICE", "PLACE"):
        day = 3 if fact[0] == "CHOICE" else 2
        words[1] = fact[1] + 1
        words[day] = DAYS[fact[day]]
    return " ".join(map(str, words))


def facts_text(given) -> str:
    """The text of a file of facts."""
    rows = [f"{'HOLDS' if holds else 'NOT'} {fact_text(fact)}" for fact, holds in given]
    return "\n".join(["FACTS", "w", "", f"ROWS = {len(rows)}", *rows]) + "\n"


def table_text(prices, week: int) -> str:
    """The table of a week's prices."""
    pairs = list(dict.fromkeys(place[2:] for place in prices if place[0] == week))
    rows = [
        " ".join([*pair, *(str(prices.get((week, day, *pair), 0)) for day in range(7))])
        for pair in pairs
    ]
    return "\n".join([f"ROWS = {len(rows)}", *rows])


def certificate_text(period: Period, certificate: Certificate) -> str:
    """The text of a certificate."""
    weeks = range(len(period.weeks))
    number = len(list(leaves(certificate, [])))
    lines = ["CERTIFICATE", "w", f"WEEKS = {len(weeks)}", f"PRICES = {len(certificate.prices)}"]
    lines += [table_text(prices, week) for prices in certificate.prices for week in weeks]

    def below(tree) -> None:
        if tree[0] == "SPLIT":
            lines.append(f"SPLIT {fact_text(tree[1])}")
            below(tree[2])
            below(tree[3])
        else:
            lines.append(
                " ".join(map(str, ["LEAF", tree[1], "SURCHARGES", "=", len(tree[2]), *tree[2]]))
            )

    lines.append(f"LEAVES = {number}")
    below(certificate.tree)
    return "\n".join(lines) + "\n"


def period_files(period: Period, certificate: Certificate) -> Dict[str, str]:
    """The texts of the files of a period, by their names."""
    texts = [files_of(week) for week in period.weeks]
    files = {
        "ward.txt": texts[0]["sce"],
        "history.txt": texts[0]["his"],
        "certificate.txt": certificate_text(period, certificate),
    }
    for number, text in enumerate(texts):
        files[f"week-{number}.txt"] = text["week"]
        if period.held[number]:
            files[f"fix-{number}.txt"] = solution_text(period.weeks[number], period.held[number])
    if period.given:
        files["facts.txt"] = facts_text(period.given)
    return files
