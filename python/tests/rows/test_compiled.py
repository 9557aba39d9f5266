"""Tests of the compiled pricing: on random graphs it finds the rows that NumPy finds, and costs as
much; without a library NumPy is used."""

import os
import shutil
import subprocess
import tempfile
import unittest
from pathlib import Path
from unittest import mock

import numpy
from test_rows import POINT, pricing_of, random_plan
from ward import HELPERS, HelperTest

from inrc2pb.judging.runs import NEVER
from inrc2pb.programs.clock import Clock
from inrc2pb.rows import compiled
from inrc2pb.rows.case_pricing import CasePricing
from inrc2pb.rows.compiled import CompiledRows
from inrc2pb.rows.pricing import Crews
from inrc2pb.rows.row_arrays import Arrays, Blocks, Member
from inrc2pb.rows.row_generation import RowGeneration

SOURCE = HELPERS / "inrc2pb" / "rows" / "cheapest_rows.c"
COMPILER = shutil.which("cc") or shutil.which("clang")


def built(folder):
    """The library of the present source."""
    path = Path(folder, "rows.so")
    # With ROWS_FLAGS='-fsanitize=address,undefined', and LD_PRELOAD of its library, an access
    # outside of an array is found.
    flags = os.environ.get("ROWS_FLAGS", "").split()
    subprocess.run(
        [
            COMPILER,
            *flags,
            "-O1",
            "-Wall",
            "-Wextra",
            "-Werror",
            "-shared",
            "-fPIC",
            "-o",
            str(path),
            str(SOURCE),
        ],
        check=True,
    )
    return compiled.load(path)


@unittest.skipUnless(COMPILER, "needs cc")
class CompiledPricing(unittest.TestCase):
    @classmethod
    def setUpClass(cls):
        with tempfile.TemporaryDirectory() as folder:
            cls.library = built(folder)

    def compare(self, members, days, pay):
        """Both find the same rows of all nurses, and of some, at the same costs."""
        fast = CompiledRows(members, days, self.library)
        plain = Blocks(members, days)
        nurses = [member.nurse for member in members]
        for some in (nurses, nurses[::-2]):
            (costs, rows) = fast.cheapest(pay[some], some)
            (wanted, wanted_rows) = plain.cheapest(pay[some], some)
            for number in range(len(some)):
                self.assertEqual(min(costs[number], NEVER // 2), min(wanted[number], NEVER // 2))
                if costs[number] < NEVER // 2:
                    self.assertEqual(rows[number].tobytes(), wanted_rows[number].tobytes())

    @staticmethod
    def pay(chance, pricing, allowed):
        """What each choice costs each nurse: many costs are equal, so that rows are, too."""
        shape = numpy.array(pricing.crews.of).shape
        costs = [
            chance.choice((0, 0, -30 * POINT, 10 * POINT, chance.randrange(-(10**6), 10**6)))
            for _ in range(numpy.prod(shape))
        ]
        return numpy.where(allowed, numpy.array(costs, dtype=numpy.int64).reshape(shape), NEVER)

    def test_the_same_rows_on_random_graphs(self):
        for seed in range(30):
            plan, chance = random_plan(seed, weeks=1 + seed % 3 // 2, nurses=12)
            pricing = pricing_of(plan)
            members = [
                Member(nurse, graph.arrays, start)
                for nurse, (graph, start) in enumerate(zip(pricing.graphs, pricing.starts))
            ]
            shape = numpy.array(pricing.crews.of).shape
            # With few choices nurses reach few nodes; some have no row.
            for open_share in (1.0, 0.7, 0.3):
                allowed = numpy.array(
                    [chance.random() < open_share for _ in range(numpy.prod(shape))]
                ).reshape(shape)
                self.compare(members, range(plan.days), self.pay(chance, pricing, allowed))

    def test_the_same_rows_on_some_days(self):
        for seed in range(20):
            plan, chance = random_plan(seed, weeks=2, nurses=9)
            pricing = pricing_of(plan)
            for open_share in (0.4, 1.0):
                days = range(chance.randrange(7), chance.randrange(8, 14))
                members = []
                for nurse, (graph, start) in enumerate(zip(pricing.graphs, pricing.starts)):
                    row = bytes(chance.choice((0, 0, 1)) for _ in range(plan.days))
                    members.append(
                        Member(
                            nurse,
                            graph.arrays,
                            graph.walked(start, row[: days.start])[0],
                            graph.arrays.after(days.stop, row),
                        )
                    )
                shape = numpy.array(pricing.crews.of).shape
                allowed = numpy.array(
                    [chance.random() < open_share for _ in range(numpy.prod(shape))]
                ).reshape(shape)
                self.compare(members, days, self.pay(chance, pricing, allowed))

    def test_a_nurse_with_few_choices_who_reaches_each_node(self):
        """Two choices of five are left, which lead from each node to two others: the next day has
        twice as many nodes, and all of them have room."""
        days = range(6)
        arrays = Arrays(
            [
                (
                    numpy.zeros((5, 2**day), dtype=numpy.int64),
                    numpy.array([[2 * node + c % 2 for node in range(2**day)] for c in range(5)]),
                    numpy.arange(2 ** (day + 1)) % 2,
                )
                for day in days
            ]
        )
        pay = numpy.full((1, len(days), 5), NEVER)
        pay[0, :, :2] = [[0, POINT * (day - 2)] for day in days]
        self.compare([Member(0, arrays, 0)], days, pay)

    def test_the_same_prices_of_cases(self):
        for seed in range(20):
            plan, chance = random_plan(seed, nurses=9)
            crews = Crews(plan)
            found = []
            prices = [chance.randrange(40 * POINT) for _ in crews.places]
            for library in (self.library, None):
                with mock.patch.object(compiled, "library", library):
                    cases = CasePricing(plan, crews, lambda: None)
                limits = cases.limits(())
                found.append(
                    [
                        cases.price(limits, prices, surcharge)
                        for surcharge in (0, 7 * POINT, -7 * POINT)
                    ]
                )
            self.assertEqual(*found)

    def test_the_cost_of_a_row_is_walked(self):
        """A library whose costs are wrong changes no cost of a row in a program."""
        plan, _ = random_plan(2, nurses=6)

        class Wrong(CompiledRows):
            def cheapest(self, pay, nurses, run_cost=0):
                costs, rows = super().cheapest(pay, nurses, run_cost)
                return costs - 5 * POINT, rows

        with mock.patch.object(compiled, "CompiledRows", Wrong), mock.patch.object(
            compiled, "library", self.library
        ):
            generation = RowGeneration(pricing_of(plan), None, lambda: None)
            generation.approach(Clock(60))
        self.assertTrue(generation.program.columns)
        for nurse, row, cost, _ in generation.program.columns:
            self.assertEqual(cost, generation.pricing.cost(nurse, row))


class NoLibrary(HelperTest):
    def test_a_file_that_is_no_library_is_not_used(self):
        (self.folder / "rows.so").write_text("no library")
        self.assertIsNone(compiled.load(self.folder / "rows.so"))
        self.assertIsNone(compiled.load(self.folder / "missing.so"))

    @unittest.skipUnless(COMPILER, "needs cc")
    def test_a_library_of_another_layout_is_not_used(self):
        with mock.patch.object(compiled, "LAYOUT", compiled.LAYOUT + 1):
            self.assertIsNone(built(self.folder))
        self.assertIsNotNone(built(self.folder))


if __name__ == "__main__":
    unittest.main()
