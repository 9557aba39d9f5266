"""Makes the best roster of a search better, with several solvers at once: by dives and windows."""

import concurrent.futures
import itertools
import random
import threading
from typing import Dict, List, Optional, Sequence, Union

from ..programs.clock import Clock, TimeIsOver
from ..solvers.answers import SolverFault
from ..solvers.linear_solvers import LinearSolver
from .part_search import Dive, PartSearch, put
from .pricing import NurseWeek
from .row_search import RowSearch
from .windows import Window, Windows
from .workers import Worker, workers

# The shares of the rows that dives fix at once.
FIXED_SHARES = (0.3, 0.2, 0.4)
# The dives in vain after which a few weeks get windows: as long as dives still end lower, they do
# so sooner. A ward of 30 nurses and four weeks, with the bound 1140, comes to 1150 and 1160 in 39
# and 37 seconds of processors, by dives alone to 1190 in 82 and 66.
MOST_VAIN = 2


class RowParts:
    """Makes the best roster of a search better, with each of the solvers at once, `apart` in a
    process of its own. Each solver has files of its own."""

    def __init__(
        self, search: RowSearch, solvers: Sequence[LinearSolver], seed: int = 1, apart: bool = False
    ) -> None:
        self._search = search
        self._solvers = solvers
        self._chance = random.Random(seed)
        known = search.known()._replace(program=search.program)
        self._workers = workers(known, solvers) if apart else []
        own = [PartSearch(search.pricing, known, solver) for solver in solvers]
        self._searches: Dict[LinearSolver, Union[PartSearch, Worker]] = dict(
            zip(solvers, self._workers or own)
        )
        self._windows = Windows(search.plan, self._chance)
        self._dives = itertools.count()
        # The dives in vain since the roster got better.
        self._vain = 0
        # Guards all that the threads share: the search, and the lines from the chance on.
        self._lock = threading.Lock()

    def run(self, clock: Clock) -> None:
        """Searches until the time is over or the best roster is proved."""
        try:
            self._run(clock.part(clock.left()))
        finally:
            for worker in self._workers:
                worker.end()

    def _run(self, shared: Clock) -> None:
        with concurrent.futures.ThreadPoolExecutor(len(self._solvers)) as pool:
            threads = [
                pool.submit(self._work, solver, shared, number)
                for number, solver in enumerate(self._solvers)
            ]
            left = len(threads)
            try:
                for thread in concurrent.futures.as_completed(threads):
                    try:
                        thread.result()
                    except SolverFault as fault:
                        left -= 1
                        if not left:
                            raise
                        self._solvers[0].warn(
                            f"{fault}: the search goes on with {left} of {len(threads)} threads"
                        )
            except (SolverFault, TimeIsOver):
                # A thread that finds the proof stops the clock of all, and their solvers.
                if not self._search.is_proved:
                    raise
            finally:
                shared.stop()

    def _work(self, solver: LinearSolver, clock: Clock, number: int) -> None:
        """One thread: it dives when no window is due. Half of the threads of a long period begin
        with windows, because a dive takes long there."""
        if not self._search.plan.is_long or number < max(1, len(self._solvers) // 2):
            self._dive(solver, clock, self._next_dive())
        while not self._search.is_proved:
            clock.check()
            window = self._next_window()
            if window:
                self._improve(solver, clock, window)
            else:
                self._dive(solver, clock, self._next_dive())
        clock.stop()
        solver.end_all()

    def _next_dive(self) -> Dive:
        """The next dive, the first one without chance. Every second one begins at another solution:
        from the same one nearly all dives end well, or nearly none. Of eight dives for 80 nurses
        and four weeks seven end at the best plan with the rows of the first roster, and none
        without; for 100 nurses four and five."""
        with self._lock:
            number = next(self._dives)
            share = self._chance.choice(FIXED_SHARES) if number else FIXED_SHARES[0]
            seed = self._chance.random() if number else None
            return Dive(share, number % 2 == 1, seed, self._search.penalty)

    def _next_window(self) -> Optional[Window]:
        """The next window, if one is left and dives need not come first."""
        plan = self._search.plan
        is_short = len(plan.weeks) > 1 and not plan.is_long
        with self._lock:
            return None if is_short and self._vain < MOST_VAIN else self._windows.next()

    def _dive(self, solver: LinearSolver, clock: Clock, dive: Dive) -> None:
        """A dive over all nurses and days."""
        before = self._search.penalty
        self._searches[solver].dive(clock, self._keep, dive)
        with self._lock:
            self._vain = self._vain + 1 if self._search.penalty == before else 0

    def _keep(self, rows: List[NurseWeek], finder: str) -> bool:
        """Keeps better rows. The windows begin again with them."""
        with self._lock:
            is_better = self._search.keep(rows, finder)
            if is_better:
                self._windows.open()
            return is_better

    def _improve(self, solver: LinearSolver, clock: Clock, window: Window) -> None:
        """Looks for better rows of a window of the best roster."""
        rows = list(self._search.rows or ())

        def take(found: List[NurseWeek], finder: str) -> bool:
            # Meanwhile another thread may have found better rows on other days.
            now = self._search.rows or rows
            return self._keep(put(window, now, found), finder) or self._keep(
                put(window, rows, found), finder
            )

        done = self._searches[solver].improve(clock, take, window, rows)
        with self._lock:
            if done.ended and self._search.rows == rows:
                self._windows.close(window.days)
