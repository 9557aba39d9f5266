"""Tests of certificates: their text, and the bounds of their leaves against all plans of tiny
periods, under all kinds of facts."""

import itertools
import unittest

import certificate_bound as plain
from test_rows import random_plan

from inrc2pb.rows.case_limits import Count
from inrc2pb.rows.case_pricing import CasePricing, leaf_of, surcharge_of
from inrc2pb.rows.certificate import Certificate, Leaf, Split
from inrc2pb.rows.pricing import Crews
from inrc2pb.week.facts import KINDS, SHIFT_RUNS, AtPlace, Charged, Choice, Claim, Even, facts_text
from inrc2pb.week.records import Place

POINT = 1000


def random_fact(plan, chance, kinds):
    """Any fact about a plan; charges are of these kinds."""
    week = chance.randint(1, len(plan.weeks))
    day = chance.randrange(7)
    shifts = list(plan.scenario.shift_types)
    kind = chance.randrange(4)
    if kind == 0:
        return Choice(week, chance.choice(plan.nurses), day, chance.choice([None, *shifts]))
    if kind == 1:
        place = chance.choice(list(plan.demand))
        return AtPlace(place.day // 7 + 1, place._replace(day=place.day % 7), chance.randrange(3))
    if kind == 2:
        return Charged(
            chance.choice(kinds),
            chance.choice([None, *plan.nurses]) if len(kinds) > 1 else None,
            chance.randrange(4),
        )
    return Even()


def random_tree(plan, chance, splits, kinds, facts=()):
    """A tree with any facts, prices and surcharges; no fact comes twice on a path."""
    if not splits:
        prices = [chance.choice([0, 5, 15, 20, 30, 200]) * POINT for _ in plan.demand]
        return Leaf(
            prices,
            tuple(
                chance.choice([0, 0, 5, 15]) * POINT for _ in range(chance.randint(0, len(facts)))
            ),
        )
    first = chance.randrange(splits)
    sizes = (first, splits - 1 - first)
    fact = next(
        fact for fact in iter(lambda: random_fact(plan, chance, kinds), None) if fact not in facts
    )
    return Split(fact, *(random_tree(plan, chance, size, kinds, (*facts, fact)) for size in sizes))


def period_of(plan):
    """The same weeks for the plain program."""
    return plain.Period(plan.scenario, plan.history, list(plan.weeks), plan.early)


class AllPlans:
    """All plans of a tiny period: the cells of each nurse, with what they cost and charge, and the
    nurses at each place."""

    def __init__(self, plan):
        self.plan = plan
        self.period = period_of(plan)
        self.of = [list(self._of(nurse)) for nurse in plan.nurses]

    def _of(self, nurse):
        """The choices of all days with their cost, charges by kind, and places."""
        skills = self.plan.scenario.nurses[nurse].skills
        choices = [None, *self.plan.scenario.shift_types] if skills else [None]
        for weeks in itertools.product(
            itertools.product(choices, repeat=7), repeat=len(self.plan.weeks)
        ):
            past = self.plan.history.nurses[nurse]
            total = 0
            counts = [0] * len(KINDS)
            for number, days in enumerate(weeks):
                found = self.period.week_of(nurse, number, past, days)
                if found is None:
                    break
                total = total + found[0]
                past = found[2]
                counts = [one + more for one, more in zip(counts, found[1])]
            else:
                yield tuple(itertools.chain(*weeks)), total, counts

    def sample(self, chance, number):
        """Some plans with their skills, which keep the minimums: choices, charges, nurses at
        places, and penalty."""
        for _ in range(number):
            rows = [chance.choice(own) for own in self.of]
            there = {}
            penalty = sum(row[1] for row in rows)
            for nurse, (days, *_) in zip(self.plan.nurses, rows):
                for day, shift in enumerate(days):
                    if shift:
                        place = Place(
                            day, shift, chance.choice(self.plan.scenario.nurses[nurse].skills)
                        )
                        there[place] = there.get(place, 0) + 1
            asked = self.plan.demand.items()
            if all(there.get(place, 0) >= one.minimum for place, one in asked):
                penalty += sum(
                    30 * max(0, one.optimal - there.get(place, 0)) for place, one in asked
                )
                yield rows, there, penalty

    def holds(self, fact, rows, there):
        """Whether a fact holds for a plan."""
        if isinstance(fact, Choice):
            days = rows[self.plan.nurses.index(fact.nurse)][0]
            return days[7 * (fact.week - 1) + fact.day] == fact.shift
        if isinstance(fact, AtPlace):
            return (
                there.get(fact.place._replace(day=7 * (fact.week - 1) + fact.place.day), 0)
                <= fact.most
            )
        kind = KINDS.index(fact.kind) if isinstance(fact, Charged) else 0
        named = getattr(fact, "nurse", None)
        number = sum(
            row[2][kind] for nurse, row in zip(self.plan.nurses, rows) if named in (None, nurse)
        )
        return number <= fact.most if isinstance(fact, Charged) else number % 2 == 0


class Texts(unittest.TestCase):
    def test_the_text_of_a_certificate(self):
        places = [Place(0, "Late", "Nurse"), Place(8, "Early", "Nurse")]
        tree = Split(
            Even(),
            Leaf([5, 0]),
            Split(Charged(SHIFT_RUNS, None, 2), Leaf([0, 7], (0, 3)), Leaf([5, 0], (4, 0))),
        )
        wanted = (
            "CERTIFICATE w\nWEEKS = 2\nPRICES = 2\nROWS = 1\nLate Nurse 5 0 0 0 0 0 0\nROWS ="
            " 0\nROWS = 0\nROWS = 1\nEarly Nurse 0 7 0 0 0 0 0\nLEAVES = 3\nSPLIT EVEN\nLEAF 0"
            " SURCHARGES = 0\nSPLIT CHARGES SHIFT_RUNS ALL 2\nLEAF 1 SURCHARGES = 2 0 3\nLEAF 0"
            " SURCHARGES = 2 4 0\n"
        )
        self.assertEqual(Certificate(2, places, tree).text("w"), wanted)

    def test_a_text_has_all_of_a_certificate(self):
        for seed in range(40):
            plan, chance = random_plan(seed, 1 + seed % 2)
            if not plan.demand:
                continue
            certificate = Certificate(
                len(plan.weeks), list(plan.demand), random_tree(plan, chance, seed % 6, KINDS)
            )
            read = plain.read_certificate(certificate.text("x"), len(plan.weeks), [])
            self.assertEqual(len(read), len(certificate.leaves()))
            for (case, leaf), (words, prices, surcharges) in zip(certificate.leaves(), read):
                given = plain.read_given(facts_text("x", case))
                self.assertEqual(words, given)
                self.assertEqual([prices.get(place, 0) for place in plan.demand], leaf.prices)
                self.assertEqual(tuple(surcharges), leaf.surcharges)


class Bounds(unittest.TestCase):
    def test_no_bound_is_above_a_plan_of_its_case(self):
        seen = set()
        for seed in range(8):
            weeks, shifts = ((1, 2), (1, 1), (1, 1), (2, 1))[seed % 4]
            plan, chance = random_plan(seed, weeks, nurses=2, shifts=shifts)
            if not plan.demand:
                continue
            every = AllPlans(plan)
            root = random_tree(plan, chance, 7, KINDS)
            certificate = Certificate(weeks, list(plan.demand), root)
            leaves = plain.read_certificate(certificate.text("x"), weeks, [])
            bounds = [plain.leaf_bound(every.period, leaf) for leaf in leaves]
            for rows, there, penalty in every.sample(chance, 300):
                cases = [
                    all(every.holds(fact, rows, there) == holds for fact, holds in case)
                    for case, _ in certificate.leaves()
                ]
                self.assertEqual(sum(cases), 1)
                self.assertLessEqual(bounds[cases.index(True)], penalty, (seed, cases))
                seen |= {
                    (type(fact), holds)
                    for fact, holds in certificate.leaves()[cases.index(True)][0]
                }
        self.assertEqual(len(seen), 8)


class Pricings(unittest.TestCase):
    def test_limits_of_the_charges_of_shift_runs(self):
        # Where `at most 2` does not hold, at least 3 are charged.
        plan, _ = random_plan(0, 1, nurses=2, shifts=1)
        pricing = CasePricing(plan, Crews(plan), lambda: None)
        for holds, found in ((True, (None, Count(2, 0))), (False, (Count(3, 0), None))):
            limits = pricing.limits([Claim(Charged(SHIFT_RUNS, None, 2), holds)])
            self.assertEqual((limits.least, limits.most), found)

    def test_bounds_of_leaves_are_those_of_all_plans(self):
        compared = 0
        for seed in range(12):
            weeks, shifts = ((1, 2), (1, 1), (1, 1), (2, 1))[seed % 4]
            plan, chance = random_plan(seed, weeks, nurses=2, shifts=shifts)
            if not plan.demand:
                continue
            pricing = CasePricing(plan, Crews(plan), lambda: None)
            period = period_of(plan)
            certificate = Certificate(
                weeks, list(plan.demand), random_tree(plan, chance, 3, (SHIFT_RUNS,))
            )
            for case, leaf in certificate.leaves():
                limits = pricing.limits(case)
                one = leaf_of(limits, leaf.prices, max(-15 * POINT, surcharge_of(limits, leaf)))
                found = pricing.bound(case, one)
                text = facts_text("x", case)
                wanted = plain.leaf_bound(
                    period,
                    plain.Leaf(
                        plain.read_given(text),
                        dict(zip(plan.demand, one.prices)),
                        list(one.surcharges),
                    ),
                )
                self.assertEqual(plain.NEVER if found is None else found, wanted, (seed, case, one))
                compared += 1
        self.assertGreater(compared, 30)


if __name__ == "__main__":
    unittest.main()
