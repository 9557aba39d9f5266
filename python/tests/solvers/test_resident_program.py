"""Tests of linear programs that stay in a solver: their solutions, by hand and by cbc, and children
that end."""

import math
import os
import pickle
import random
import signal
import threading
import time
import unittest
from array import array
from unittest import mock

from test_processes import is_alive
from ward import ENOUGH, HelperTest

from inrc2pb.programs.clock import Clock, TimeIsOver
from inrc2pb.programs.processes import Processes
from inrc2pb.solvers import clp_child
from inrc2pb.solvers.answers import MAX_FAULTS, SolverFault
from inrc2pb.solvers.resident_program import (
    DUAL,
    INFEASIBLE,
    OPTIMAL,
    PRIMAL,
    STOPPED,
    Child,
    Column,
    LinearProgram,
)

try:
    clp_child.load()
    HAS_CLP = True
except OSError:
    HAS_CLP = False
INF = math.inf


class Programs(HelperTest):
    def setUp(self):
        super().setUp()
        self.processes = Processes()
        self.child = Child(self.processes, self.folder)
        self.addCleanup(self.child.end)

    def program(self):
        return LinearProgram(self.child)

    def small(self):
        """At least 3 of two columns of costs 2 and 3, of which the first has at most 2."""
        program = self.program()
        program.add_rows([(3.0, INF)])
        program.add_columns([Column(2.0, 0.0, 2.0, [(0, 1.0)]), Column(3.0, 0.0, INF, [(0, 1.0)])])
        return program


@unittest.skipUnless(HAS_CLP, "needs Clp's library")
class Solutions(Programs):
    def test_a_program_by_hand(self):
        found = self.small().solve(Clock(600))
        # Two of the first column and one of the second: one more would cost 3.
        self.assertEqual(
            (found.status, found.value, list(found.columns), list(found.prices)),
            (OPTIMAL, 7.0, [2.0, 1.0], [3.0]),
        )

    def test_changes(self):
        program = self.small()
        self.assertEqual(program.solve(Clock(600)).value, 7.0)
        self.assertEqual(program.add_columns([Column(1.0, 0.0, 0.5, [(0, 1.0)])]), 2)
        self.assertEqual(program.solve(Clock(600)).value, 0.5 + 4.0 + 1.5)
        program.bound_columns({0: (0.0, 0.0), 2: (0.0, 1.0)})
        self.assertEqual(program.solve(Clock(600), DUAL).value, 1.0 + 6.0)
        program.set_costs({1: 5.0})
        self.assertEqual(program.solve(Clock(600)).value, 1.0 + 10.0)
        program.bound_rows({0: (1.0, 2.0)})
        self.assertEqual(program.solve(Clock(600), DUAL).value, 1.0)
        program.bound_rows({0: (9.0, INF)})
        program.bound_columns({1: (0.0, 1.0)})
        found = program.solve(Clock(600), DUAL)
        self.assertEqual((found.status, found.value), (INFEASIBLE, INF))
        program.bound_columns({1: (0.0, INF)})
        self.assertEqual(program.solve(Clock(600)).value, 1.0 + 40.0)

    def test_a_row_that_comes_later(self):
        program = self.small()
        program.solve(Clock(600))
        program.add_rows([(-INF, 1.0)])
        program.add_columns([Column(0.0, 0.0, INF, [(0, 1.0), (1, 2.0)])])
        self.assertEqual(program.solve(Clock(600)).value, 0.5 * 0 + 2.0 * 2 + 3.0 * 0.5)

    def test_two_programs_of_one_child(self):
        one = self.small()
        other = self.small()
        other.bound_rows({0: (1.0, INF)})
        self.assertEqual(
            [
                one.solve(Clock(600)).value,
                other.solve(Clock(600)).value,
                one.solve(Clock(600)).value,
            ],
            [7.0, 2.0, 7.0],
        )
        one.close()
        self.assertEqual(other.solve(Clock(600)).value, 2.0)

    def test_only_the_value(self):
        found = self.small().solve(Clock(600), whole=False)
        self.assertEqual((found.value, found.prices, found.columns), (7.0, array("d"), array("d")))

    def test_a_basis_that_is_kept(self):
        program = covering(self.program(), 40)
        first = program.solve(Clock(600))
        program.bound_columns({number: (0.0, 0.0) for number in range(0, 40, 3)})
        program.solve(Clock(600))
        program.bound_columns({number: (0.0, INF) for number in range(0, 40, 3)})
        program.take_basis(first.basis)
        again = program.solve(Clock(600))
        self.assertAlmostEqual(again.value, first.value, 6)
        self.assertLess(again.iterations, max(3, first.iterations))

    def test_a_part_begins_at_the_basis_of_the_whole(self):
        whole = covering(self.program(), 200)
        first = whole.solve(Clock(600))
        # As another process gets it.
        copied = (
            pickle.loads(pickle.dumps(whole))
            .part(range(whole.columns), self.program())
            .solve(Clock(600))
        )
        self.assertAlmostEqual(copied.value, first.value, 6)
        self.assertEqual(copied.iterations, 0)
        left = [
            number for number, value in enumerate(first.columns) if value > 1e-9 or number % 3 == 0
        ]
        part = whole.part(left, self.program())
        found = part.solve(Clock(600))
        self.assertEqual((part.columns, found.iterations), (len(left), 0))
        self.assertEqual(
            [round(value, 6) for value in found.columns],
            [round(first.columns[number], 6) for number in left],
        )

    def test_a_limit_of_iterations(self):
        program = covering(self.program(), 200)
        self.assertEqual(program.solve(Clock(600), DUAL, iterations=2).status, STOPPED)
        self.assertEqual(program.solve(Clock(600)).status, OPTIMAL)

    def test_a_solution_is_proved_by_its_prices(self):
        for seed, how in ((1, DUAL), (2, PRIMAL)):
            program = covering(self.program(), 30 * seed, seed)
            found = program.solve(Clock(600), how)
            there = [0.0] * program.rows
            for column, taken in zip(program._columns, found.columns):
                earned = sum(found.prices[row] for row, _ in column.entries)
                self.assertLessEqual(earned, column.cost + 1e-6)
                for row, _ in column.entries:
                    there[row] += taken
            for row, number in enumerate(there):
                self.assertGreaterEqual(number, 1 + row % 3 - 1e-6)
            # By duality the prices have this value, too.
            self.assertAlmostEqual(
                sum(price * (1 + row % 3) for row, price in enumerate(found.prices)), found.value, 4
            )


def covering(program, columns, seed=5):
    """Adds rows that ask for 1, 2 or 3, and random columns that count in some of them; all entries
    are 1, and no column has a bound."""
    chance = random.Random(seed)
    rows = 12
    program.add_rows([(1.0 + row % 3, INF) for row in range(rows)])
    made = [chance.sample(range(rows), chance.randint(1, 4)) for _ in range(columns)] + [
        [row] for row in range(rows)
    ]
    program.add_columns(
        [
            Column(float(chance.randint(5, 30)), 0.0, INF, [(row, 1.0) for row in entries])
            for entries in made
        ]
    )
    return program


class Faults(Programs):
    @unittest.skipUnless(HAS_CLP, "needs Clp's library")
    def test_a_child_that_is_killed_starts_again(self):
        program = self.small()
        self.assertEqual(program.solve(Clock(600)).value, 7.0)
        program.bound_rows({0: (4.0, INF)})
        self.processes.end_running()
        self.child._process.wait()
        self.assertEqual(program.solve(Clock(600)).value, 10.0)
        self.assertEqual(self.child.broken, "")

    @unittest.skipUnless(HAS_CLP, "needs Clp's library")
    def test_a_child_that_hangs(self):
        program = self.small()
        program.solve(Clock(600))
        os.kill(self.child._process.pid, signal.SIGSTOP)
        began = time.monotonic()
        with self.assertRaises(TimeIsOver):
            program.solve(Clock(0.2))
        self.assertLess(time.monotonic() - began, ENOUGH)
        self.assertEqual(program.solve(Clock(600)).value, 7.0)

    @unittest.skipUnless(HAS_CLP, "needs Clp's library")
    def test_a_search_that_is_stopped(self):
        program = self.small()
        program.solve(Clock(600))
        os.kill(self.child._process.pid, signal.SIGSTOP)
        threading.Timer(0.2, self.processes.stop).start()
        with self.assertRaises(TimeIsOver):
            program.solve(Clock(600))
        with self.assertRaises(TimeIsOver):
            program.solve(Clock(600))

    @unittest.skipUnless(HAS_CLP, "needs Clp's library")
    def test_a_child_ends_with_its_parent(self):
        reading, writing = os.pipe()
        parent = os.fork()
        if not parent:
            program = LinearProgram(Child(Processes(), self.folder))
            program.add_rows([(1.0, INF)])
            program.add_columns([Column(1.0, 0.0, INF, [(0, 1.0)])])
            program.solve(Clock(600))
            os.write(writing, str(program._child._process.pid).encode())
            os.kill(os.getpid(), signal.SIGKILL)
        os.waitpid(parent, 0)
        number = int(os.read(reading, 20))
        os.close(reading)
        os.close(writing)
        limit = time.monotonic() + ENOUGH
        while is_alive(number) and time.monotonic() < limit:
            time.sleep(0.05)
        self.assertLess(time.monotonic(), limit)

    def child_that(self, script):
        """A program in Python in place of the child."""
        path = self.folder / "child.py"
        path.write_text(script)
        return mock.patch.object(clp_child, "__file__", str(path))

    def test_without_a_child_that_works(self):
        answer = (
            "import os\nfrom multiprocessing.connection import Connection\nfrom struct import"
            " pack\nConnection(os.dup(0), writable=False).recv()\nanswers = Connection(os.dup(1),"
            " readable=False)\none, two = pack('d', 1.0), pack('2d', 1.0, 1.0)\nanswers.send(({},"
            " b'', b''))\nos.read(0, 1)\n"
        )
        children = {
            "no library": (
                f"import sys\nsys.exit({clp_child.NO_LIBRARY})",
                "libClp.so.1 is missing: install it",
            ),
            "crash": (
                "import os, signal\nos.kill(os.getpid(), signal.SIGSEGV)",
                "Clp's library ended",
            ),
            "cut": ("import os\nos.read(0, 10)\nos.write(1, b'abc')", "Clp's library ended"),
            "abandoned": (
                answer.format("4, 0, 7.0, one, two"),
                "Clp's library ended with status 4",
            ),
            "no numbers": (
                answer.format("0, 0, 7.0, one, pack('2d', 1.0, float('nan'))"),
                "numbers that are none",
            ),
            "no prices": (
                answer.format("0, 0, 7.0, pack('d', float('nan')), two"),
                "numbers that are none",
            ),
            "few columns": (
                answer.format("0, 0, 7.0, one, one"),
                "Clp's library ended with status 0",
            ),
            "many prices": (
                answer.format("0, 0, 7.0, two, two"),
                "Clp's library ended with status 0",
            ),
            "no value": (answer.format("0, 0, float('nan'), one, two"), "numbers that are none"),
            "other sizes": (
                answer.format("0, 0, 7.0, two, one"),
                "Clp's library ended with status 0",
            ),
        }
        for how, (script, fault) in children.items():
            with self.subTest(how=how), self.child_that(script):
                self.child = Child(self.processes, self.folder)
                program = self.small()
                for _ in range(2):
                    with self.assertRaisesRegex(SolverFault, fault):
                        program.solve(Clock(600))
                self.assertLessEqual(self.child.starts, MAX_FAULTS)

    def test_without_any_solver(self):
        with self.assertRaises(SolverFault):
            LinearProgram(None).solve(Clock(600))


if __name__ == "__main__":
    unittest.main()
