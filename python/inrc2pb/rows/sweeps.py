"""Windows in a process of their own, while the prices of a long period are not known yet."""

import concurrent.futures
import functools
import itertools
from typing import List

from ..programs.clock import Clock
from ..solvers.linear_solvers import LinearSolver
from .part_search import put
from .pricing import NurseWeek
from .row_search import RowSearch, WrongBound
from .windows import Window, of_weeks
from .workers import workers

# The number of weeks of a window.
WEEKS = 3


class Sweeps:
    """Makes the first plan of a long period better, window after window, until all of them are in
    vain or it is ended."""

    def __init__(self, search: RowSearch, solver: LinearSolver, clock: Clock) -> None:
        self._search = search
        self._clock = clock.part(clock.left())
        [self._worker] = workers(search.known(), [solver])
        self._pool = concurrent.futures.ThreadPoolExecutor(1)
        self._done = self._pool.submit(self._run)

    def _run(self) -> None:
        search = self._search
        vain = 0
        every = of_weeks(len(search.plan.weeks), WEEKS)
        for days in itertools.cycle(every):
            if vain == len(every) or self._clock.left() <= 0:
                return
            before = search.penalty
            window = Window(days, None)
            take = functools.partial(self._take, window)
            self._worker.improve(self._clock, take, window, list(search.rows or ()))
            vain = vain + 1 if search.penalty == before else 0

    def _take(self, window: Window, found: List[NurseWeek], finder: str) -> bool:
        rows = self._search.rows
        return rows is not None and self._search.keep(put(window, rows, found), finder)

    def end(self) -> None:
        """Ends the search and its process. Raises WrongBound if it has met one."""
        self._clock.stop()
        self._pool.shutdown()
        self._worker.end()
        fault = self._done.exception()
        if isinstance(fault, WrongBound):
            raise fault
