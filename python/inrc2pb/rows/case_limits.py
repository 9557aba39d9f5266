"""What the facts of a case say about a plan, in its numbers: choices that are forbidden, nurses at
places, and charges of shift runs."""

from typing import Dict, NamedTuple, Optional, Set, Tuple

from ..week.facts import SHIFT_RUNS, AtPlace, Charged, Choice, Claim
from ..week.records import WEEK_DAYS
from .certificate import Case
from .plan import STEP, Points, Thousandths
from .pricing import Crews, in_steps

# The number of a nurse, a day of the plan, and a choice.
NurseChoice = Tuple[int, int, int]


class Count(NamedTuple):
    """A limit of the number of charges of shift runs, and the index of its fact in the case."""

    number: int
    fact: int


class CaseLimits:
    """The limits of a case. Without its facts they are those of the plan.

    `least` and `most` limit the charges of shift runs of all nurses, `odd` is None if their number
    may be even or odd. `given_up` nurses are missing in every roster of the case, beside those
    below the optimal numbers of the case. If it `is_empty`, a place has fewer nurses than its
    minimum, so it has no roster.
    """

    def __init__(
        self, crews: Crews, case: Case, nurses: Dict[str, int], shifts: Dict[str, int]
    ) -> None:
        self.minimum = list(crews.minimum)
        self.optimal = list(crews.optimal)
        self.given_up = 0
        self.is_empty = False
        self.forbidden: Dict[int, Set[Tuple[int, int]]] = {}
        self.least: Optional[Count] = None
        self.most: Optional[Count] = None
        self.odd: Optional[bool] = None
        self._nurses = nurses
        self._shifts = shifts
        self._places = {place: number for number, place in enumerate(crews.places)}
        for index, claim in enumerate(case):
            self._take(index, claim)

    def _take(self, index: int, claim: Claim) -> None:
        fact, holds = claim
        if isinstance(fact, Choice):
            self._choice(fact, holds)
        elif isinstance(fact, AtPlace):
            self._at_place(fact, holds)
        elif not isinstance(fact, Charged):
            self.odd = not holds
            self._at_least(Count(int(not holds), index))
        elif fact.kind == SHIFT_RUNS and fact.nurse is None:
            if not holds:
                self._at_least(Count(fact.most + 1, index))
            elif self.most is None or fact.most < self.most.number:
                self.most = Count(fact.most, index)

    def _at_least(self, count: Count) -> None:
        if count.number > (self.least.number if self.least else 0):
            self.least = count

    def _choice(self, fact: Choice, holds: bool) -> None:
        day = WEEK_DAYS * (fact.week - 1) + fact.day
        choice = self._shifts[fact.shift] if fact.shift else 0
        others = [other for other in range(len(self._shifts) + 1) if (other == choice) != holds]
        self.forbidden.setdefault(self._nurses[fact.nurse], set()).update(
            (day, other) for other in others
        )

    def _at_place(self, fact: AtPlace, holds: bool) -> None:
        place = self._places[fact.place._replace(day=WEEK_DAYS * (fact.week - 1) + fact.place.day)]
        if holds:
            self.is_empty = self.is_empty or fact.most < self.minimum[place]
            self.given_up += max(0, self.optimal[place] - fact.most)
            self.optimal[place] = min(self.optimal[place], fact.most)
        else:
            self.minimum[place] = max(self.minimum[place], fact.most + 1)
            self.optimal[place] = max(self.optimal[place], fact.most + 1)

    def in_steps(self, cost: Thousandths) -> Points:
        """The minimum penalty of a roster of the case that costs no less than this. None is below
        0."""
        points = in_steps(cost)
        return Points(points + STEP * (self.odd is not None and (points // STEP) % 2 != self.odd))

    def below(self, target: Points) -> Points:
        """The greatest penalty of a roster of the case that is below this one."""
        points = target - STEP
        return Points(points - STEP * (self.odd is not None and (points // STEP) % 2 != self.odd))
