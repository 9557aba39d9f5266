"""All steps of a search over rows, in their order and within its time."""

import concurrent.futures
import contextlib
import random
import threading
from typing import Callable, Dict, List, Optional, TypeVar

from ..judging.runs import NEVER
from ..programs.clock import Clock, TimeIsOver
from ..programs.processes import processors
from ..solvers.answers import SolverFault
from ..solvers.linear_solvers import LinearSolver
from .case_search import CaseSearch
from .case_tree import CaseTree
from .certificate import Certificate, Leaf
from .descent import all_off
from .plan import POINT, STEP, Plan, Points
from .pricing import Crews, NurseWeek, Priced, Prices, Pricing
from .row_generation import NoRow, RowGeneration
from .row_parts import RowParts
from .row_search import GIVEN, Known, Offer, RowSearch, WrongBound
from .skills import staffed
from .week_dives import WeekDives
from .sweeps import Sweeps
from .workers import workers

# The shares of the time that is left: for new rows, and for a dive after them, and for the last
# dive, when no row is missing.
STEP_SHARE = 0.5
LAST_DIVE_SHARE = 0.8
# The shares of the rows that further dives in a week fix at once.
MORE_DIVES = (0.15, 0.3, 0.0, 0.15, 0.08, 0.15)
# A tree of cases is worth its time if the gap, in thousandths, is at most the first number, or at
# most this part of the bound. The second part is for a long period, in which plans get better for
# long.
TREE_GAP = 4 * STEP * POINT
TREE_PART = 0.15
LONG_TREE_PART = 0.015
Found = TypeVar("Found")


class WholeSearch(WeekDives):
    """The search over all rows of a plan, whose best roster several threads may improve. It refutes
    a bound above its penalty."""

    def __init__(
        self,
        pricing: Pricing,
        solver: Optional[LinearSolver],
        clock: Clock,
        offer: Offer,
        heard: Callable[[], None],
    ) -> None:
        super().__init__(pricing, solver, clock, offer, heard)
        self._lock = threading.RLock()

    def keep(self, rows: List[NurseWeek], finder: str) -> bool:
        """Offers rows that may be better than the best roster. Returns whether they are."""
        with self._lock:
            is_better = super().keep(rows, finder)
            self._check_bound()
            return is_better

    def _raise_bound(self, prices: Prices, found: Dict[int, Priced]) -> None:
        super()._raise_bound(prices, found)
        self._check_bound()

    def _check_bound(self) -> None:
        if (
            self.penalty is not None
            and self.lower_bound is not None
            and self.penalty < self.lower_bound
        ):
            raise WrongBound(self.lower_bound, self.penalty)


class RowRun:
    """A search over the rows of a plan. `start` has the rows to begin with, if any; `heard` is
    called if the bound rises, and when it is final. The `seed` begins its random choices. Without
    `splits` no cases raise the bound of the prices. If it `is_quick`, it ends with the first roster
    by the prices."""

    def __init__(
        self,
        plan: Plan,
        solver: Optional[LinearSolver],
        clock: Clock,
        offer: Offer,
        heard: Callable[[], None],
        start: Optional[List[NurseWeek]] = None,
        seed: int = 1,
        splits: bool = True,
        is_quick: bool = False,
    ) -> None:
        self.plan = plan
        self._solver = solver
        self._clock = clock
        self._offer = offer
        self._heard = heard
        self._start = start
        self._seed = seed
        self._splits = splits
        self._is_quick = is_quick
        self.crews = Crews(plan)
        self.search: Optional[WholeSearch] = None
        self._tree: Optional[CaseTree] = None
        self._sweeps: Optional[Sweeps] = None
        # Prices that prove that no roster keeps the minimums; or the nurse who has no row.
        self.minimums: Optional[Certificate] = None
        self.without_row: Optional[str] = None

    @property
    def lower_bound(self) -> Optional[Points]:
        """No roster of the plan costs less, by plain Python; None without prices."""
        if self.search is None or self.search.lower_bound is None:
            return None
        return (
            max(self.search.lower_bound, self._tree.bound)
            if self._tree
            else self.search.lower_bound
        )

    def certificate(self) -> Optional[Certificate]:
        """What proves the lower bound: the best prices alone, or cases."""
        if self.search is None or self.search.bound is None:
            return None
        if self._tree and self._tree.bound > (self.search.lower_bound or 0):
            return self._tree.certificate()
        return Certificate(len(self.plan.weeks), self.crews.places, Leaf(self.search.prices))

    def run(self) -> None:
        """Searches until the time is over, the best roster is proved, or no roster exists."""
        try:
            self._run()
        except TimeIsOver:
            return
        except NoRow as none:
            self.without_row = none.nurse
        finally:
            if self._sweeps:
                self._sweeps.end()

    def _run(self) -> None:
        first = self._start or all_off(self.plan)
        penalty = None
        if self._start and not staffed(self.plan, self.crews, first).below:
            penalty = self._offer(first, GIVEN)
        pricing = Pricing(self.plan, self.crews, self._clock.check)
        search = self.search = WholeSearch(
            pricing, self._solver, self._clock, self._offer, self._heard
        )
        search.begin(first, penalty)
        if self._solver and search.penalty is not None and self.plan.is_long:
            self._sweeps = Sweeps(search, self._solver.beside(1), self._clock)
        if self.plan.charging:
            self._try(search.approach, STEP_SHARE)
        if self._solver is None:
            self._try(search.prove, STEP_SHARE)
            return
        while not search.complete:
            self._try(search.generate, STEP_SHARE)
            if search.complete and search.misses_minimums and self._ends_without_roster():
                return
            if search.complete and self._is_period and search.penalty is not None:
                break
            rows = self._try(search.dive, LAST_DIVE_SHARE if search.complete else STEP_SHARE)
            if rows:
                search.keep(rows, "fixing rows")
        if search.penalty is None or not self._is_quick:
            self._close_gaps(search, self._solver)

    def _close_gaps(self, search: WholeSearch, solver: LinearSolver) -> None:
        """Looks for the best roster, anew if the clock goes on at its end."""
        while True:
            try:
                return self._close_gap(search, solver)
            except TimeIsOver:
                self._clock.check()

    def _try(self, step: Callable[[Clock], Found], share: float) -> Optional[Found]:
        """What the step finds in this share of the time that is left; None if it takes longer."""
        try:
            return step(self._clock.part(self._clock.left() * share))
        except TimeIsOver:
            self._clock.check()
            return None

    @property
    def _is_period(self) -> bool:
        """Whether there are several weeks. Dives take long then, and each ends elsewhere, so
        several are made at once."""
        return len(self.plan.weeks) > 1

    def _ends_without_roster(self) -> bool:
        """Whether limits, or days beside days away, may be why minimums are missed, or prices prove
        that no roster keeps the minimums."""
        if self.plan.keeps_more and self.plan.keeping.limit == NEVER:
            return True
        plan = self.plan.hard_only()
        generation = RowGeneration(
            Pricing(plan, Crews(plan), self._clock.check), self._solver, lambda: None
        )
        generation.generate(self._clock)
        if generation.bound is not None and generation.bound > 0:
            self.minimums = Certificate(
                len(plan.weeks), generation.pricing.crews.places, Leaf(generation.prices)
            )
        return self.minimums is not None

    def _close_gap(self, search: WholeSearch, solver: LinearSolver) -> None:
        """Looks for the best roster, with a tree of cases beside that."""
        if search.penalty is None:
            self._dive_again(search, self._clock)
        if search.penalty is None or search.is_proved or self._is_quick:
            return
        clock = self._clock.part(self._clock.left())
        known = search.known()
        with concurrent.futures.ThreadPoolExecutor(1) as pool:
            tree = pool.submit(self._close_cases, search, known, solver, clock)
            try:
                self._improve(search, solver, clock)
            except (TimeIsOver, SolverFault):
                self._clock.check()
                if not self._is_proved(search):
                    raise
            finally:
                clock.stop()
                solver.end_all()
                tree.result()

    def _improve(self, search: WholeSearch, solver: LinearSolver, clock: Clock) -> None:
        """Improves the best roster: in a week by more dives here, which take less than the first
        one, and then on all processors."""
        if not self._is_period:
            self._dive_again(search, clock)
        if self._sweeps:
            self._sweeps.end()
        if not search.is_proved:
            RowParts(search, _side_by_side(solver), self._seed, processors() > 1).run(clock)

    def _dive_again(self, search: WholeSearch, clock: Clock) -> None:
        """Dives by chance. Those that cannot end in a better roster end early."""
        chance = random.Random(self._seed)
        for share in MORE_DIVES:
            clock.check()
            rows = None if search.is_proved else search.dive(clock, share, chance)
            if rows:
                search.keep(rows, "fixing rows")

    def _is_narrow(self, search: RowSearch) -> bool:
        """Whether the gap is small enough for a tree of cases."""
        part = LONG_TREE_PART if self.plan.is_long else TREE_PART
        return search.bound is not None and search.gap() <= max(TREE_GAP, part * search.bound)

    def _close_cases(
        self, search: RowSearch, known: Known, solver: LinearSolver, clock: Clock
    ) -> None:
        """Looks for cases that show that no roster costs less than the best one, and for better
        rosters, as soon as the gap is small. If that ends the search, it ends all solvers."""
        if not self._splits or self._tree:
            return
        with contextlib.suppress(SolverFault, TimeIsOver):
            clock.wait_until(lambda: self._is_narrow(search))
            self._run_tree(search, known, solver, clock)
            clock.wait_until(lambda: self._is_proved(search))
            clock.stop()
            solver.end_all()

    def _run_tree(
        self, search: RowSearch, known: Known, solver: LinearSolver, clock: Clock
    ) -> None:
        """The tree that goes on from a search. With several processors other processes search
        cases, too."""
        count = processors()
        own = CaseSearch.begin(known, search.pricing.crews, solver.beside(count), clock.check)
        others = workers(known, [solver.beside(count + number) for number in range(1, count)])

        def best() -> Points:
            assert search.penalty is not None
            return search.penalty

        self._tree = CaseTree(own.pricing, search.prices, best, search.keep, self._heard)
        try:
            self._tree.run(clock, [own.close, *(worker.close for worker in others)])
        finally:
            for worker in others:
                worker.end()

    def _is_proved(self, search: RowSearch) -> bool:
        """Whether the best roster costs no more than the bound."""
        return (
            search.penalty is not None
            and self.lower_bound is not None
            and search.penalty <= self.lower_bound
        )


def _side_by_side(solver: LinearSolver) -> List[LinearSolver]:
    """As many solvers as there are processors."""
    return [solver, *(solver.beside(number) for number in range(1, processors()))]
