"""The program that chooses one known row for each nurse: a linear program that stays in its solver,
and the text of an integer one."""

import copy
import math
from typing import Dict, Iterable, List, NamedTuple, Optional, Set, Tuple

from ..programs.clock import Clock, TimeIsOver
from ..solvers.answers import SolverFault
from ..solvers.resident_program import OPTIMAL, PRIMAL, STOPPED, Column, LinearProgram
from .plan import POINT, Plan, Points
from .pricing import MAX_PRICE, Crews, NurseWeek, Prices

# The cost of a nurse below a minimum at first, in points, and the maximum cost.
BELOW_MINIMUM = 3000
MOST_BELOW = 900_000
# Numbers that differ by no more than this are equal in a solution, and a share this near to a whole
# number is one.
EXACT = 1e-6
WHOLE = 1e-3
_FREE = (0.0, math.inf)
_OUT = (0.0, 0.0)


class RowColumn(NamedTuple):
    """A row of a nurse with its cost, and its number in the linear program."""

    nurse: int
    row: NurseWeek
    cost: Points
    number: int


class Solved(NamedTuple):
    """A solution of the linear program: its value in points, whole prices of places and of nurses
    in thousandths, the share of each column that it takes, and how many nurses are missing below
    minimums."""

    value: float
    prices: Prices
    nurses: List[int]
    shares: Dict[int, float]
    missing: float


class RowProgram:
    """The known rows of all nurses, numbered as columns of a linear program. A row of that program
    is a nurse, a place, or a crew of several places; its first columns are the nurses who are
    missing at each place, above and below its minimum.
    """

    def __init__(self, plan: Plan, crews: Crews, program: LinearProgram) -> None:
        self.columns: List[RowColumn] = []
        self._crews = crews
        self._nurses = len(plan.nurses)
        self._program = program
        self.below = BELOW_MINIMUM if plan.charging else 1
        self._known: Set[Tuple[int, NurseWeek]] = set()
        # The columns that are shut.
        self._shut: Set[int] = set()
        # The row of each crew that has several places.
        self._links: Dict[int, int] = {}
        # The steps of the simplex method until now, and at most.
        self.iterations = 0
        self.most_iterations = math.inf
        program.add_rows(
            [(1.0, 1.0)] * self._nurses + [(float(optimal), math.inf) for optimal in crews.optimal]
        )
        asked = list(enumerate(zip(crews.minimum, crews.optimal)))
        self._below = range(len(asked), 2 * len(asked))
        missing = [
            Column(plan.missing_cost, 0.0, best - least, [(self._nurses + place, 1.0)])
            for place, (least, best) in asked
        ]
        program.add_columns(
            missing
            + [
                Column(self.below, 0.0, least, [(self._nurses + place, 1.0)])
                for place, (least, _) in asked
            ]
        )

    # ---- columns

    def add(self, nurse: int, row: NurseWeek, cost: Points) -> bool:
        """Adds a row. Returns whether it is new."""
        if (nurse, row) in self._known:
            return False
        crews = [of_day[choice] for of_day, choice in zip(self._crews.of[nurse], row)]
        entries = [
            (nurse, 1.0),
            *((number, 1.0) for number in map(self._row_of, crews) if number is not None),
        ]
        self._known.add((nurse, row))
        self.columns.append(
            RowColumn(nurse, row, cost, self._program.add_columns([Column(cost, *_FREE, entries)]))
        )
        return True

    def _row_of(self, crew: int) -> Optional[int]:
        """The row in which a crew counts: that of its place, or its own, by which it is at any of
        its places."""
        places = self._crews.members[crew]
        if len(places) < 2:
            return self._nurses + places[0] if places else None
        if crew not in self._links:
            self._links[crew] = self._program.rows
            self._program.add_rows([_FREE])
            self._program.add_columns(
                [
                    Column(0.0, *_FREE, [(self._links[crew], -1.0), (self._nurses + place, 1.0)])
                    for place in places
                ]
            )
        return self._links[crew]

    def shut(self, columns: Iterable[int]) -> List[int]:
        """Lets no nurse have these rows. Returns those that were not shut before."""
        new = [column for column in columns if column not in self._shut]
        self._shut.update(new)
        self._program.bound_columns({self.columns[column].number: _OUT for column in new})
        return new

    def free(self, columns: Iterable[int]) -> None:
        """Lets nurses have these rows again."""
        back = self._shut.intersection(columns)
        self._shut -= back
        self._program.bound_columns({self.columns[column].number: _FREE for column in back})

    def free_all(self) -> None:
        """Lets all nurses have any row again."""
        self.free(self._shut)

    @property
    def has_many_shut(self) -> bool:
        """Whether more than a fifth of its columns are shut."""
        return len(self.columns) < 5 * len(self._shut)

    def open_part(self, program: LinearProgram, without: Iterable[int] = ()) -> "RowProgram":
        """The same in this empty linear program, without columns that are shut, and without these.
        It begins at the basis of the last solution."""
        out = {self.columns[column].number for column in (*self._shut, *without)}
        left = [number for number in range(self._program.columns) if number not in out]
        numbers = {number: place for place, number in enumerate(left)}
        part = copy.copy(self)
        part._program = self._program.part(left, program)
        part._shut = set()
        part._links = dict(self._links)
        part.columns = [
            column._replace(number=numbers[column.number])
            for column in self.columns
            if column.number in numbers
        ]
        part._known = {(column.nurse, column.row) for column in part.columns}
        return part

    def take_new(self, part: "RowProgram") -> None:
        """Adds the rows that only a part of this program has got."""
        for nurse, row, cost, _ in part.columns:
            self.add(nurse, row, cost)
        self.iterations = part.iterations

    def raise_below(self, below: int) -> None:
        """Changes the cost of a nurse below a minimum."""
        self.below = below
        self._program.set_costs(dict.fromkeys(self._below, float(below)))

    def close(self) -> None:
        """Frees it in its solver."""
        self._program.close()

    # ---- solutions

    def solve(self, clock: Clock, how: str = PRIMAL) -> Solved:
        """Solves the linear program from the basis of its last solution, by the primal or the dual
        simplex method. Prices that are no prices are cut."""
        left = self.most_iterations - self.iterations
        if left < 1:
            raise TimeIsOver
        found = self._program.solve(clock, how, int(left) if left < math.inf else 0)
        self.iterations += found.iterations
        if found.status == STOPPED:
            raise TimeIsOver
        if found.status != OPTIMAL and how != PRIMAL:
            return self.solve(clock)
        if found.status != OPTIMAL:
            raise SolverFault("the solver of linear programs found no solution")
        of_places = found.prices[self._nurses : self._nurses + len(self._crews.places)]
        prices = [min(MAX_PRICE, max(0, round(price * POINT))) for price in of_places]
        nurses = [round(price * POINT) for price in found.prices[: self._nurses]]
        values = found.columns
        shares = {
            index: values[column.number]
            for index, column in enumerate(self.columns)
            if values[column.number] > EXACT
        }
        missing = sum(values[number] for number in self._below)
        return Solved(found.value, prices, nurses, shares, missing)
