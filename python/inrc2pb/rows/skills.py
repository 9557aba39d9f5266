"""The skills of rows: each shift of a roster gets the nurses' skills by matching, minimums
first."""

from typing import Dict, Iterable, List, NamedTuple, Sequence, Tuple

from .plan import Plan
from .pricing import Crews, NurseWeek
from ..week.records import Cell


class Staffed(NamedTuple):
    """The rows of nurses with a skill for each shift; how many nurses are missing below minimums,
    and below optimal numbers beside them."""

    cells: List[Cell]
    below: int
    missing: int


class _Shift:
    """The nurses of a shift on a day, by crew, and the places to which they are given."""

    def __init__(self, crews: Crews, members: Dict[int, List[int]]) -> None:
        self._crews = crews
        self.free = {crew: len(nurses) for crew, nurses in members.items()}
        # How many of each crew are at each place.
        self.given: Dict[Tuple[int, int], int] = {}
        self._able: Dict[int, List[int]] = {}
        for crew in members:
            for place in crews.members[crew]:
                self._able.setdefault(place, []).append(crew)

    def missing(self, place: int, wanted: int) -> int:
        """Gives this number of nurses to a place, if there are so many. Returns how many are
        missing."""
        while wanted and self.fill(place):
            wanted -= 1
        return wanted

    def fill(self, place: int) -> bool:
        """Gives one more nurse to a place; others may move, but no place loses one."""
        came: Dict[int, Tuple[int, int]] = {}
        open_places = [place]
        seen = {place}
        for target in open_places:
            for crew in self._able.get(target, ()):
                if self.free[crew]:
                    self.free[crew] -= 1
                    self._move(crew, target, came)
                    return True
                for other in self._crews.members[crew]:
                    if other not in seen and self.given.get((crew, other)):
                        seen.add(other)
                        came[other] = (crew, target)
                        open_places.append(other)
        return False

    def _move(self, crew: int, target: int, came: Dict[int, Tuple[int, int]]) -> None:
        """Gives one of the crew to the target; along the way one of each crew moves on."""
        while True:
            self.given[crew, target] = self.given.get((crew, target), 0) + 1
            if target not in came:
                return
            mover, further = came[target]
            self.given[mover, target] -= 1
            crew = mover
            target = further


def staffed(plan: Plan, crews: Crews, rows: Sequence[NurseWeek]) -> Staffed:
    """The roster of these rows, with as few nurses missing as the skills allow: first below
    minimums, then below optimal numbers."""
    shifts: Dict[Tuple[int, int], Dict[int, List[int]]] = {}
    for nurse, row in enumerate(rows):
        for day, choice in enumerate(row):
            if choice:
                shifts.setdefault((day, choice), {}).setdefault(
                    crews.of[nurse][day][choice], []
                ).append(nurse)
    numbers = {shift: number for number, shift in enumerate(plan.scenario.shift_types, 1)}
    asked: Dict[Tuple[int, int], List[int]] = {}
    for index, place in enumerate(crews.places):
        asked.setdefault((place.day, numbers[place.shift]), []).append(index)
    cells: List[Cell] = []
    below = missing = 0
    for key in dict.fromkeys([*shifts, *asked]):
        members = shifts.get(key, {})
        shift = _Shift(crews, members)
        places = asked.get(key, [])
        below += sum(shift.missing(place, crews.minimum[place]) for place in places)
        missing += sum(
            shift.missing(place, crews.optimal[place] - crews.minimum[place]) for place in places
        )
        cells += _cells(plan, crews, key, members, shift)
    return Staffed(cells, below, missing)


def _cells(
    plan: Plan, crews: Crews, key: Tuple[int, int], members: Dict[int, List[int]], shift: _Shift
) -> Iterable[Cell]:
    """The assignments of a shift. A nurse who counts for no place has a skill of hers."""
    day, choice = key
    name = list(plan.scenario.shift_types)[choice - 1]
    for crew, nurses in members.items():
        skills = [
            crews.places[place].skill
            for place in crews.members[crew]
            for _ in range(shift.given.get((crew, place), 0))
        ]
        for index, nurse in enumerate(nurses):
            own = plan.nurses[nurse]
            skill = (
                skills[index]
                if index < len(skills)
                else plan.held_skill(own, day) or plan.scenario.nurses[own].skills[0]
            )
            yield Cell(own, day, name, skill)


def rows_of(plan: Plan, cells: Iterable[Cell]) -> List[NurseWeek]:
    """The rows of a roster, whose days are those of the plan."""
    numbers = {shift: number for number, shift in enumerate(plan.scenario.shift_types, 1)}
    rows = {nurse: bytearray(plan.days) for nurse in plan.nurses}
    for cell in cells:
        rows[cell.nurse][cell.day] = numbers[cell.shift]
    return [bytes(row) for row in rows.values()]
