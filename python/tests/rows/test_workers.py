"""Tests of processes that search parts: they find what this process finds, and cost only time if
they end, hang or lie."""

import os
import signal
import threading
import time
import unittest
from unittest import mock

from test_processes import is_alive
from test_row_parts import LONG, search_of
from ward import ENOUGH, HAS_CBC, HelperTest

from inrc2pb.programs.clock import Clock, TimeIsOver
from inrc2pb.programs.processes import Processes
from inrc2pb.rows import workers
from inrc2pb.rows.part_search import Dive, Done, PartSearch
from inrc2pb.rows.windows import Window
from inrc2pb.solvers.answers import MAX_FAULTS, SolverFault
from inrc2pb.solvers.linear_solvers import LinearSolver

WINDOW = Window(range(2, 6), None)


@unittest.skipUnless(HAS_CBC, "needs cbc")
class Workers(HelperTest):
    def setUp(self):
        super().setUp()
        self.search = search_of(1)
        self.found = []
        self.processes = Processes()
        self.solver = LinearSolver(self.processes, self.folder, self.fail)
        known = self.search.known()._replace(program=self.search.program)
        self.own = PartSearch(self.search.pricing, known, self.solver)
        [self.worker] = workers.workers(known, [self.solver])
        self.addCleanup(self.solver.close)
        self.addCleanup(self.worker.end)

    def take(self, rows, finder):
        self.found.append((rows, finder))
        return True

    def improve(self, searcher, seconds=LONG):
        """What a search finds in the part, and how it ends."""
        self.found = []
        return searcher.improve(Clock(seconds), self.take, WINDOW, self.search.rows), self.found

    def instead(self, script):
        """A process that does this in place of tasks."""
        return mock.patch.object(workers, "_START", script)

    def test_a_process_finds_the_same(self):
        done, found = self.improve(self.own)
        self.assertTrue(found)
        for _ in range(2):
            self.assertEqual(self.improve(self.worker), (done, found))

    def test_a_dive_is_the_same(self):
        for task in (
            Dive(0.12, True, None, None),
            Dive(0.06, False, 5, None),
        ):
            self.found = []
            done = self.own.dive(Clock(LONG), self.take, task)
            own = self.found
            self.found = []
            self.assertEqual(
                (self.worker.dive(Clock(LONG), self.take, task), self.found), (done, own)
            )
            self.assertTrue(done.ended and own)

    def test_processes_that_end(self):
        for script in (
            "import os; os.abort()",
            "print('no answer')",
            "import os; os.read(0, 9); os.write(1, b'\\0\\0\\0\\2no')",
        ):
            with self.subTest(script=script), self.instead(script):
                [worker] = workers.workers(self.search.known(), [self.solver])
                for _ in range(2):
                    with self.assertRaisesRegex(
                        SolverFault, "processes of the search end .* once more"
                    ):
                        self.improve(worker)
                self.assertEqual((worker._faults, worker._running, self.found), (3, None, []))

    def test_a_process_that_is_killed_once(self):
        expected = self.improve(self.worker)
        os.killpg(self.worker._running.process.pid, signal.SIGKILL)
        self.assertEqual(self.improve(self.worker), expected)
        self.assertIsNotNone(self.worker._running)
        self.assertEqual(self.worker._faults, 0)

    def test_a_process_that_hangs(self):
        with self.instead("import time; time.sleep(1000)"), mock.patch.object(
            workers, "GRACE", 0.1
        ):
            began = time.monotonic()
            self.assertEqual(self.improve(self.worker, 0.5), (Done(False), []))
        self.assertLess(time.monotonic() - began, ENOUGH)
        self.assertEqual(self.processes._running, {})

    def test_a_search_that_is_stopped(self):
        clock = Clock(LONG)

        def stop():
            clock.stop()
            self.processes.stop()

        with self.instead("import time; time.sleep(1000)"):
            threading.Timer(0.3, stop).start()
            self.assertFalse(self.worker.improve(clock, self.take, WINDOW, self.search.rows).ended)
        self.worker.end()
        self.assertEqual(self.processes._running, {})

    def test_a_process_ends_with_its_parent(self):
        reading, writing = os.pipe()
        parent = os.fork()
        if not parent:
            self.improve(self.worker)
            os.write(writing, str(self.worker._running.process.pid).encode())
            os.kill(os.getpid(), signal.SIGKILL)
        os.waitpid(parent, 0)
        number = int(os.read(reading, 20))
        os.close(reading)
        os.close(writing)
        limit = time.monotonic() + ENOUGH
        while is_alive(number) and time.monotonic() < limit:
            time.sleep(0.05)
        self.assertLess(time.monotonic(), limit)

    def test_a_process_that_fails_is_not_started_again(self):
        with mock.patch.object(workers.Worker, "_start", side_effect=OSError) as start:
            for _ in range(2):
                with self.assertRaises(SolverFault):
                    self.improve(self.worker)
        self.assertEqual(start.call_count, MAX_FAULTS)

    def test_a_case_without_time(self):
        with self.assertRaises(TimeIsOver):
            self.worker.close(Clock(0.0), self.take, None)

    def test_a_fault_of_all_solvers_of_a_process(self):
        with mock.patch.object(
            self.worker, "_answer", return_value=SolverFault("Clp's library ended")
        ) as answer:
            with self.assertRaisesRegex(SolverFault, "Clp's library ended"):
                self.improve(self.worker)
        self.assertEqual(answer.call_count, 1)


if __name__ == "__main__":
    unittest.main()
