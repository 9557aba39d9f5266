"""Rosters without any solver: one nurse after another gets the best row beside the others."""

import numpy
from typing import List, Sequence

from ..week.records import Place
from .plan import POINT, Plan
from .pricing import NurseWeek, Pricing
from .row_graph import Check
from .row_program import BELOW_MINIMUM
from .skills import staffed


def all_off(plan: Plan) -> List[NurseWeek]:
    """Rows in which nobody works."""
    return [bytes(plan.days)] * len(plan.nurses)


class Descent:
    """Rows that get better: one nurse after another has the best row beside those of all others."""

    def __init__(self, pricing: Pricing, rows: Sequence[NurseWeek]) -> None:
        self._pricing = pricing
        self._crews = pricing.crews
        self.rows = list(rows)
        self._number = [0] * len(self._crews.places)
        self._placed: List[List[int]] = [[] for _ in rows]
        index = {place: number for number, place in enumerate(self._crews.places)}
        names = {nurse: number for number, nurse in enumerate(pricing.plan.nurses)}
        for cell in staffed(pricing.plan, self._crews, rows).cells:
            place = index.get(Place(cell.day, cell.shift, cell.skill))
            if place is not None:
                self._placed[names[cell.nurse]].append(place)
                self._number[place] += 1
        # The crews that count at each place, and the worth of one more nurse of each crew, in
        # thousandths.
        self._crews_at: List[List[int]] = [[] for _ in self._crews.places]
        for crew, places in enumerate(self._crews.members):
            for place in places:
                self._crews_at[place].append(crew)
        self._worth = numpy.array(
            [self._of_crew(crew) for crew in range(len(self._crews.members))], dtype=numpy.int64
        )

    def _of_place(self, place: int) -> int:
        """What one more nurse at a place is worth."""
        number = self._number[place]
        if number < self._crews.minimum[place]:
            return BELOW_MINIMUM * POINT
        return self._pricing.plan.missing_cost * POINT if number < self._crews.optimal[place] else 0

    def _of_crew(self, crew: int) -> int:
        return max(map(self._of_place, self._crews.members[crew]), default=0)

    def _move(self, places: Sequence[int], nurses: int) -> None:
        """So many more nurses are at each of these places."""
        for place in places:
            before = self._of_place(place)
            self._number[place] += nurses
            for crew in self._crews_at[place] if self._of_place(place) != before else ():
                self._worth[crew] = self._of_crew(crew)

    def sweep(self, check: Check) -> int:
        """Goes through all nurses once. Returns how many have a better row."""
        return sum(self._improve(nurse, check) for nurse in range(len(self.rows)))

    def _improve(self, nurse: int, check: Check) -> bool:
        check()
        table = self._crews.of[nurse]
        self._move(self._placed[nurse], -1)
        old = self._pricing.cost(nurse, self.rows[nurse])
        found = self._pricing.cheapest(nurse, self._worth)
        earned = sum(
            int(self._worth[table[day][choice]]) for day, choice in enumerate(self.rows[nurse])
        )
        better = found is not None and (old is None or found.value < old * POINT - earned)
        if better and found is not None:
            self.rows[nurse] = found.row
            members = (
                self._crews.members[table[day][choice]] for day, choice in enumerate(found.row)
            )
            self._placed[nurse] = [max(places, key=self._of_place) for places in members if places]
        self._move(self._placed[nurse], 1)
        return better
