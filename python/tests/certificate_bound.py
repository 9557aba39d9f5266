#!/usr/bin/env python3
"""The bound of a certificate for tiny weeks, in plain Python: all choices of each nurse in each
week are tried, by the rules of `rules`.

    certificate_bound.py --sce F --his F --week F.. [--early] [--given F] [--proof F]

prints `lower bound N`, and with --leaves a line for each leaf. Histories that are the same after a
week are tried once. This reads the text of a certificate itself, so it shares neither the writer
nor the tree of the package.
"""

import argparse
import itertools
import sys
from dataclasses import replace
from pathlib import Path
from typing import Dict, List, NamedTuple, Optional, Tuple

sys.path.insert(0, str(Path(__file__).resolve().parents[2] / "python"))

from inrc2pb.judging.next_history import next_history  # noqa: E402
from inrc2pb.judging.rules import broken, charges  # noqa: E402
from inrc2pb.week.files import read_history, read_scenario, read_week  # noqa: E402
from inrc2pb.week.records import (  # noqa: E402
    DAYS,
    Cell,
    History,
    Place,
    Requirement,
    Scenario,
    Week,
    WeekData,
)

POINT = 1000
MISSING = 30
NEVER = 1 << 60
# The weight of each kind of charges, and the rules that charge them.
WEIGHTS = {"SHIFT_RUNS": 15, "WORK_DAYS": 30, "SHIFTS": 20, "WEEKENDS": 30}
KINDS = tuple(WEIGHTS)
CHARGED = {
    ("S2", "shift"): "SHIFT_RUNS",
    ("S2", "work above"): "WORK_DAYS",
    ("S6", "above"): "SHIFTS",
    ("S7", "above"): "WEEKENDS",
}


class Literal(NamedTuple):
    """The words of a fact, and whether it holds."""

    words: Tuple[str, ...]
    holds: bool


class Leaf(NamedTuple):
    """The facts of a leaf, the given ones last, its prices of places with the day of the period,
    and its surcharges."""

    case: List[Literal]
    prices: Dict[Place, int]
    surcharges: List[int]


class Words:
    """The words of a file, one after another."""

    def __init__(self, text: str) -> None:
        for sign in "(),=":
            text = text.replace(sign, f" {sign} ")
        self._words = iter(text.split())

    def next(self, wanted: Optional[str] = None) -> str:
        word = next(self._words)
        assert wanted in (None, word), (wanted, word)
        return word

    def number(self) -> int:
        return int(self.next())

    def named(self, name: str) -> int:
        self.next(name)
        self.next("=")
        return self.number()

    def fact(self) -> Tuple[str, ...]:
        kind = self.next()
        if kind == "CHARGES":
            words = [kind, self.next(), self.next()]
            return tuple(words + [self.next() for _ in range(1 if words[2] == "ALL" else 2)])
        return (kind, *(self.next() for _ in range({"CHOICE": 4, "PLACE": 5, "EVEN": 0}[kind])))

    def end(self) -> None:
        assert next(self._words, None) is None


def read_given(text: str) -> List[Literal]:
    """The facts that all plans are asked to keep."""
    words = Words(text)
    words.next("FACTS")
    words.next()
    found = []
    for _ in range(words.named("ROWS")):
        holds = {"HOLDS": True, "NOT": False}[words.next()]
        found.append(Literal(words.fact(), holds))
    words.end()
    return found


def read_certificate(text: str, weeks: int, given: List[Literal]) -> List[Leaf]:
    """The leaves of a certificate."""
    words = Words(text)
    words.next("CERTIFICATE")
    words.next()
    assert words.named("WEEKS") == weeks
    tables = []
    for _ in range(words.named("PRICES")):
        prices: Dict[Place, int] = {}
        for week in range(weeks):
            for _ in range(words.named("ROWS")):
                shift = words.next()
                skill = words.next()
                for day in range(7):
                    prices[Place(7 * week + day, shift, skill)] = words.number()
        tables.append(prices)
    number = words.named("LEAVES")
    leaves = []

    def node(case: List[Literal]) -> None:
        if words.next() == "SPLIT":
            fact = words.fact()
            node([*case, Literal(fact, True)])
            node([*case, Literal(fact, False)])
        else:
            prices = tables[words.number()]
            surcharges = [words.number() for _ in range(words.named("SURCHARGES"))]
            leaves.append(Leaf([*case, *given], prices, surcharges))

    node([])
    words.end()
    assert len(leaves) == number
    return leaves


class Period:
    """The weeks, with what each week of choices of a nurse costs and charges after each history."""

    def __init__(
        self, scenario: Scenario, history: History, weeks: List[WeekData], early: bool = False
    ) -> None:
        self.scenario = scenario
        self.history = history
        self.weeks = weeks
        self.early = early
        self.choices = [None, *scenario.shift_types]
        self._alone = {
            name: replace(scenario, nurses={name: nurse}) for name, nurse in scenario.nurses.items()
        }
        self._known: Dict[tuple, tuple] = {}

    def week_of(
        self, nurse: str, number: int, past: tuple, choices: Tuple[Optional[str], ...]
    ) -> Optional[tuple]:
        """What a nurse's week costs, its charges by kind, and her history after it; None if she
        breaks the rule of successions."""
        key = (nurse, number, past, choices)
        if key not in self._known:
            self._known[key] = self._week_of(*key)
        return self._known[key]

    def _week_of(self, nurse: str, number: int, past, choices) -> Optional[tuple]:
        skill = (self.scenario.nurses[nurse].skills or ("",))[0]
        cells = [Cell(nurse, day, shift, skill) for day, shift in enumerate(choices) if shift]
        data = WeekData(
            "",
            {},
            tuple(request for request in self.weeks[number].requests if request.nurse == nurse),
        )
        week = Week(
            self._alone[nurse],
            History(self.history.week + number, self.history.scenario, {nurse: past}),
            data,
        )
        if "H3" in broken(week, cells):
            return None
        counts = dict.fromkeys(KINDS, 0)
        cost = 0
        for charge in charges(week, cells, self.early):
            cost += charge.cost
            what = "shift" if charge.what.startswith("shift") else charge.what
            if (charge.rule, what) in CHARGED:
                counts[CHARGED[charge.rule, what]] += charge.times
        after = (
            None if week.is_last else next_history(self.scenario, week.history, cells).nurses[nurse]
        )
        return cost, tuple(counts.values()), after


def _forbidden(period: Period, leaf: Leaf, nurse: str) -> "set[tuple]":
    """The days and choices that a nurse may not have."""
    found = set()
    for (kind, *words), holds in leaf.case:
        if kind == "CHOICE" and words[1] == nurse:
            day = 7 * (int(words[0]) - 1) + DAYS.index(words[2])
            choice = None if words[3] == "None" else words[3]
            found |= {(day, other) for other in period.choices if (other == choice) != holds}
    return found


def _weights(leaf: Leaf) -> Tuple[Dict[tuple, int], int, "set[tuple]"]:
    """What a charge of a kind costs a nurse (None: all nurses) more or less, what the bound gains,
    and the charges that are forbidden."""
    changes: Dict[tuple, int] = {}
    gains = 0
    never = set()
    for ((kind, *words), holds), surcharge in itertools.zip_longest(
        leaf.case, leaf.surcharges[: len(leaf.case)], fillvalue=0
    ):
        if kind == "EVEN" and not holds:
            counted = ("SHIFT_RUNS", None)
            number = 1
        elif kind == "CHARGES":
            counted = (words[0], words[2] if words[1] == "NURSE" else None)
            most = int(words[-1])
            number = -most if holds else most + 1
            if holds and most == 0:
                never.add(counted)
        else:
            continue
        changes[counted] = changes.get(counted, 0) + (surcharge if number <= 0 else -surcharge)
        gains += surcharge * number
    return changes, gains, never


def _minimum(
    period: Period, leaf: Leaf, nurse: str, changes: Dict[tuple, int], never: "set[tuple]"
) -> int:
    """The minimum that a nurse costs less what she earns, in thousandths."""
    forbidden = _forbidden(period, leaf, nurse)
    skills = period.scenario.nurses[nurse].skills
    added = [sum(changes.get((kind, who), 0) for who in (None, nurse)) for kind in KINDS]
    banned = [any((kind, who) in never for who in (None, nurse)) for kind in KINDS]
    layer = {period.history.nurses[nurse]: 0}
    for number in range(len(period.weeks)):
        later: Dict[object, int] = {}
        days = [
            [
                one
                for one in period.choices
                if (7 * number + day, one) not in forbidden and (one is None or skills)
            ]
            for day in range(7)
        ]
        for choices in itertools.product(*days):
            worked = [(7 * number + day, one) for day, one in enumerate(choices) if one]
            earned = sum(
                max(leaf.prices.get(Place(day, one, skill), 0) for skill in skills)
                for day, one in worked
            )
            for past, before in layer.items():
                found = period.week_of(nurse, number, past, choices)
                if found is None or any(ban and count for ban, count in zip(banned, found[1])):
                    continue
                cost = (
                    before
                    + found[0] * POINT
                    - earned
                    + sum(more * count for more, count in zip(added, found[1]))
                )
                later[found[2]] = min(later.get(found[2], NEVER), cost)
        layer = later
    return min(layer.values(), default=NEVER)


def _asked(period: Period, leaf: Leaf) -> Tuple[Dict[Place, Requirement], int, bool]:
    """What each place asks for in a case, how many nurses are given up, and whether a minimum
    contradicts it."""
    asked: Dict[Place, Requirement] = {}
    given_up = 0
    none = False
    for number, week in enumerate(period.weeks):
        for place, one in week.requirements.items():
            asked[place._replace(day=7 * number + place.day)] = Requirement(
                one.minimum, max(one.minimum, one.optimal)
            )
    for (kind, *words), holds in leaf.case:
        if kind == "PLACE":
            place = Place(7 * (int(words[0]) - 1) + DAYS.index(words[1]), words[2], words[3])
            most = int(words[4])
            present = asked.get(place, Requirement(0, 0))
            least = present.minimum
            best = present.optimal
            if holds:
                none = none or most < least
                given_up += max(0, best - most)
                best = min(best, most)
            else:
                least = max(least, most + 1)
                best = max(best, most + 1)
            asked[place] = Requirement(least, best)
    return asked, given_up, none


def leaf_bound(period: Period, leaf: Leaf) -> int:
    """The bound of a leaf in points; NEVER if no plan is in it."""
    changes, gains, never = _weights(leaf)
    nurses = period.scenario.nurses
    lowest = {
        kind: min(changes.get((kind, None), 0) + changes.get((kind, nurse), 0) for nurse in nurses)
        for kind in KINDS
    }
    if any(WEIGHTS[kind] * POINT + change < 0 for kind, change in lowest.items()):
        return 0
    asked, given_up, none = _asked(period, leaf)
    values = [_minimum(period, leaf, nurse, changes, never) for nurse in nurses]
    if none or NEVER in values:
        return NEVER
    total = sum(values) + gains + MISSING * POINT * given_up
    for place, one in asked.items():
        price = leaf.prices.get(place, 0)
        total += one.minimum * price + (one.optimal - one.minimum) * min(MISSING * POINT, price)
    points = 5 * -(-max(0, total) // (5 * POINT))
    for literal in leaf.case:
        if literal.words == ("EVEN",):
            points += 5 * ((points // 5) % 2 == literal.holds)
    return points


def bound(period: Period, certificate: Optional[str], given: str = "FACTS x ROWS = 0") -> int:
    """The bound of a certificate; without one all prices are 0."""
    facts = read_given(given)
    leaves = (
        [Leaf(facts, {}, [])]
        if certificate is None
        else read_certificate(certificate, len(period.weeks), facts)
    )
    return min(leaf_bound(period, leaf) for leaf in leaves)


def main() -> None:
    parser = argparse.ArgumentParser(description=__doc__.split("\n", 1)[0])
    for name in ("--sce", "--his"):
        parser.add_argument(name, required=True)
    parser.add_argument("--week", action="append", required=True)
    parser.add_argument("--early", action="store_true")
    parser.add_argument("--leaves", action="store_true")
    for name in ("--given", "--proof"):
        parser.add_argument(name)
    words = parser.parse_args()
    scenario = read_scenario(Path(words.sce))
    weeks = [read_week(Path(week), scenario) for week in words.week]
    period = Period(scenario, read_history(Path(words.his), scenario), weeks, words.early)
    given = Path(words.given).read_text() if words.given else "FACTS x ROWS = 0"
    proof = Path(words.proof).read_text() if words.proof else None
    if words.leaves and proof:
        for leaf in read_certificate(proof, len(period.weeks), read_given(given)):
            print(
                leaf_bound(period, leaf),
                *(f"{'' if holds else 'NOT '}{' '.join(fact)};" for fact, holds in leaf.case),
            )
    print("lower bound", bound(period, proof, given))


if __name__ == "__main__":
    main()
