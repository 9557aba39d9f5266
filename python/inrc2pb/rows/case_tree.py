"""A tree of cases that proves that no roster costs less than the best one: a case that prices do
not close is split, the one with the least bound first. Several searches of cases work on it at
once. It also finds better rosters."""

import concurrent.futures
import heapq
import itertools
import threading
from dataclasses import dataclass, field
from typing import Callable, FrozenSet, Iterable, List, Optional, Sequence, Tuple

from ..judging.runs import NEVER
from ..programs.clock import PAUSE, Clock
from ..solvers.answers import SolverFault
from ..week.facts import Claim, Even, Fact
from .case_limits import CaseLimits
from .case_pricing import CasePricing, leaf_of
from .case_search import CaseTask, Examined, Proved
from .certificate import MOST_LEAVES, Case, Certificate, Node, Split
from .plan import Points, Thousandths
from .pricing import Prices
from .row_search import Take

# With more leaves than this all are kept.
MOST_PRUNED = 30
# A further search begins when the tree has this number of leaves for each of those before it.
LEAVES_EACH = 6
# Searches a case.
Close = Callable[[Clock, Take, CaseTask], Examined]


@dataclass
class CaseNode:
    """A case with what is proved of it. If it is split, it has the fact and the two cases."""

    case: Case
    limits: CaseLimits
    proved: Proved
    fact: Optional[Fact] = None
    cases: "List[CaseNode]" = field(default_factory=list)

    @property
    def points(self) -> Points:
        """What no roster of the case costs less than, without its splits."""
        return self.limits.in_steps(self.proved.bound)


class CaseTree:
    """The cases of a plan, which begin with these prices. `take` gets each roster that a solution
    is; `best` says what the best one costs, which is to be proved. `heard` is called if the bound
    rises."""

    def __init__(
        self,
        pricing: CasePricing,
        prices: Prices,
        best: Callable[[], Points],
        take: Take,
        heard: Callable[[], None] = lambda: None,
    ) -> None:
        self._pricing = pricing
        self._best = best
        self._take = take
        self._heard = heard
        self.root = CaseNode((), pricing.limits(()), Proved(prices, 0, Thousandths(0)))
        self._number = itertools.count()
        self._open: List[Tuple[int, float, int, CaseNode]] = []
        # How many cases are searched now, and a guard of all that the searches share.
        self._busy = 0
        self._changed = threading.Condition()
        # How many searches have ended by a fault, and the lowest bound of a case that is not split.
        self._failed = 0
        self._unsplit = Points(NEVER)
        self.leaves = 1

    @property
    def target(self) -> Points:
        """What is to be proved: the penalty of the best roster, or less if no split raises the
        value of a case with a lower bound."""
        return min(self._best(), self._unsplit)

    # ---- the search

    def run(self, clock: Clock, searches: Sequence[Close]) -> None:
        """Splits cases until the target is proved, or the time is over. The bound rises on the
        way."""
        self._begin()
        with concurrent.futures.ThreadPoolExecutor(len(searches)) as pool:
            running = [
                pool.submit(self._work, close, clock, number)
                for number, close in enumerate(searches)
            ]
            faults = [found for found in (thread.exception() for thread in running) if found]
        for fault in faults:
            if not isinstance(fault, SolverFault) or len(faults) == len(searches):
                raise fault

    @property
    def bound(self) -> Points:
        """What no roster costs less than, by the leaves."""
        return min((node.points for node in self._leaves(self.root)), default=self.target)

    def _begin(self) -> None:
        """The two cases of the root: the charges of shift runs are even, or odd."""
        if self.root.fact is not None:
            return
        found = self._pricing.price(self.root.limits, self.root.proved.prices, 0)
        self.root.proved = self.root.proved._replace(
            bound=found.bound if found else Thousandths(NEVER)
        )
        if found:
            self._put(self.root, Even(), (0.0, 0.0))

    def _put(self, node: CaseNode, fact: Fact, values: Tuple[float, float]) -> None:
        """Splits a node into cases of these values. They begin with its prices."""
        cases = []
        for holds, value in zip((True, False), values):
            case = (*node.case, Claim(fact, holds))
            child = CaseNode(case, self._pricing.limits(case), node.proved)
            cases.append(child)
            heapq.heappush(self._open, (child.points, value, -next(self._number), child))
        # Both at once: another thread may look at the bound.
        node.cases = cases
        node.fact = fact
        self.leaves += 1

    def _work(self, close: Close, clock: Clock, number: int) -> None:
        """One search: of the case with the least bound that no other one searches."""
        while True:
            first = self._next(number, clock)
            if first is None:
                return
            node = first[-1]
            found: Optional[Examined] = None
            try:
                found = close(clock, self._take, CaseTask(node.case, node.proved, self.target))
            finally:
                with self._changed:
                    self._busy -= 1
                    if found is None:
                        self._failed += 1
                        heapq.heappush(self._open, first)
                    else:
                        self._keep(node, found)
                    self._changed.notify_all()

    def _next(self, number: int, clock: Clock) -> Optional[Tuple[int, float, int, CaseNode]]:
        """The next case to be searched; None if there will be none."""
        with self._changed:
            # Each case that is searched now may be split, too.
            while self.leaves + self._busy < MOST_LEAVES:
                is_open = bool(self._open) and self._open[0][0] < self.target
                if is_open and self.leaves >= LEAVES_EACH * (number - self._failed):
                    self._busy += 1
                    return heapq.heappop(self._open)
                if not (self._busy or is_open):
                    return None
                clock.check()
                self._changed.wait(PAUSE)
            return None

    def _keep(self, node: CaseNode, found: Examined) -> None:
        """Takes what was found of a case."""
        before = self.bound
        node.proved = found.proved
        if found.split:
            self._put(
                node,
                found.split.fact,
                (found.value + found.split.rises[0], found.value + found.split.rises[1]),
            )
        else:
            self._unsplit = min(self._unsplit, node.points)
        if self.bound > before:
            self._heard()

    # ---- the certificate

    def _leaves(self, node: CaseNode) -> Iterable[CaseNode]:
        if not node.cases:
            yield node
        for case in node.cases:
            yield from self._leaves(case)

    def certificate(self) -> Certificate:
        """The cases with their prices, without those that the bound does not need."""
        plan = self._pricing.plan
        is_small = self.leaves <= MOST_PRUNED
        return Certificate(
            len(plan.weeks),
            self._pricing.crews.places,
            self._needed(self.root, frozenset(), self.bound, is_small),
        )

    def _needed(
        self, node: CaseNode, dropped: FrozenSet[Fact], bound: Points, prunes: bool
    ) -> Node:
        """The tree of a case without these facts. A split is not needed if one of its cases proves
        the bound without its fact, too."""
        if node.fact is None or self._proves(node, dropped, bound):
            return leaf_of(self._without(node, dropped), node.proved.prices, node.proved.surcharge)
        for case in node.cases if prunes else ():
            more = dropped | {node.fact}
            if all(self._proves(leaf, more, bound) for leaf in self._leaves(case)):
                return self._needed(case, more, bound, prunes)
        return Split(
            node.fact, *(self._needed(case, dropped, bound, prunes) for case in node.cases)
        )

    def _without(self, node: CaseNode, dropped: FrozenSet[Fact]) -> CaseLimits:
        """The limits of a case without these facts."""
        return (
            self._pricing.limits(tuple(claim for claim in node.case if claim.fact not in dropped))
            if dropped
            else node.limits
        )

    def _proves(self, node: CaseNode, dropped: FrozenSet[Fact], bound: Points) -> bool:
        """Whether the prices of a case prove the bound without these facts."""
        if not dropped:
            return node.points >= bound
        limits = self._without(node, dropped)
        found = self._pricing.price(limits, node.proved.prices, node.proved.surcharge)
        return found is None or limits.in_steps(found.bound) >= bound
