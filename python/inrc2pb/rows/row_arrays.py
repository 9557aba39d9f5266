"""The cheapest rows of many nurses at once, by NumPy."""

import numpy
from typing import Any, Callable, Dict, List, NamedTuple, Sequence, Tuple

from ..judging.runs import NEVER

# The multiplier of the numbers by which equal nodes are found.
_MULTIPLIER = 6364136223846793005


class Arrays:
    """The days of a graph as arrays: by choice and node the costs and the nodes that are reached,
    and by node of the next day the choice that reaches it. `runs` has the charges of shift runs by
    choice and node, if the costs are without them.
    """

    def __init__(self, days: Sequence[Tuple[Any, Any, Any]], runs: Sequence[Any] = ()) -> None:
        self.days = list(days)
        self.runs = list(runs)
        # The input of a compiled library.
        self.compiled: Any = None
        # The number of nodes before each day, and at the end.
        self.nodes = [*(costs.shape[1] for costs, _, _ in self.days), len(self.days[-1][2])]

    def with_runs(self, day: int, run_cost: int) -> Any:
        """The costs of a day, if a charge of a shift run that is apart has this cost."""
        costs = self.days[day][0]
        if not self.runs:
            return costs
        return (
            costs + self.runs[day] * run_cost
            if run_cost < NEVER
            else numpy.where(self.runs[day] > 0, NEVER, costs)
        )

    def after(self, last: int, row: Sequence[int]) -> Any:
        """What the choices of a row from a day on cost after each node of that day."""
        values = numpy.zeros(len(self.days[-1][2]), dtype=numpy.int64)
        for (costs, heads, _), choice in zip(reversed(self.days[last:]), reversed(row[last:])):
            values = costs[choice] + values[heads[choice]]
        return numpy.minimum(values, NEVER)


class Member(NamedTuple):
    """A nurse: her number, her graph, the node at which her days begin, and what each node costs in
    which they end, if any does."""

    nurse: int
    arrays: Arrays
    start: int
    rest: Any = None


class Blocks:
    """Nurses who are priced by NumPy on these days, those of one graph together, with a column of
    values each."""

    def __init__(self, members: Sequence[Member], days: range) -> None:
        self._days = days
        self._of_graphs: Dict[int, List[Member]] = {}
        for member in members:
            self._of_graphs.setdefault(id(member.arrays), []).append(member)

    def cheapest(self, pay: Any, nurses: Sequence[int], run_cost: int = 0) -> Tuple[Any, Any]:
        """The minimum cost of a row of each of these nurses, and the first row that has it, on
        these days. `pay` has what a choice costs beside its own costs, by place in `nurses`, day
        and choice, and `run_cost` is the cost of a charge of a shift run that is counted apart."""
        places = {nurse: place for place, nurse in enumerate(nurses)}
        costs = numpy.empty(len(places), dtype=numpy.int64)
        rows = numpy.empty((len(places), len(self._days)), dtype=numpy.uint8)
        for members in self._of_graphs.values():
            wanted = [member for member in members if member.nurse in places]
            if wanted:
                found = [places[member.nurse] for member in wanted]
                costs[found], rows[found] = self._of_graph(wanted, pay[found], run_cost)
        return costs, rows

    def _of_graph(self, members: Sequence[Member], pay: Any, run_cost: int) -> Tuple[Any, Any]:
        """The same of nurses of one graph."""
        arrays = members[0].arrays
        columns = numpy.arange(len(members))
        minimum = numpy.zeros((arrays.nodes[self._days.stop], len(members)), dtype=numpy.int64)
        if members[0].rest is not None:
            minimum = numpy.stack([member.rest for member in members], axis=1)
        costs = {day: arrays.with_runs(day, run_cost) for day in self._days}
        reached = {}
        for day in reversed(self._days):
            reached[day] = minimum + pay[:, day].T.take(arrays.days[day][2], axis=0)
            minimum = _least(reached[day], arrays.days[day][1], costs[day])
        nodes = first = numpy.array([member.start for member in members])
        rows = []
        for day in self._days:
            heads = arrays.days[day][1][:, nodes]
            rows.append((costs[day][:, nodes] + reached[day][heads, columns]).argmin(axis=0))
            nodes = heads[rows[-1], columns]
        return minimum[first, columns], numpy.stack(rows, axis=1)


def _least(reached_by: Any, heads: Any, costs: Any) -> Any:
    """The minimum over the choices of a day."""
    minimum = reached_by.take(heads[0], axis=0) + costs[0][:, None]
    for to, cost in zip(heads[1:], costs[1:]):
        numpy.minimum(minimum, reached_by.take(to, axis=0) + cost[:, None], out=minimum)
    return minimum


def merged(days: List[Tuple[Any, Any, Any]], check: Callable[[], None]) -> Any:
    """Makes one node of all that have the same choices, costs and futures. Returns the class of
    each first node."""
    classes, kept = _numbered(days[-1][2][None, :])
    for day in reversed(range(len(days))):
        check()
        costs, heads, entered = days[day]
        heads = classes[heads]
        entered = entered[kept]
        before = days[day - 1][2] if day else numpy.arange(costs.shape[1])
        classes, kept = _numbered(numpy.concatenate([before[None, :], costs, heads]))
        nodes = heads.take(kept, axis=1).astype(numpy.int32)
        days[day] = costs.take(kept, axis=1), nodes, entered
    return classes


def _numbered(rows: Any) -> Tuple[Any, Any]:
    """The number of each column of an array, by which equal columns have one number, and the first
    column of each number."""
    hashes = numpy.zeros(rows.shape[1], dtype=numpy.uint64)
    for number, row in enumerate(rows, 1):
        hashes += row.astype(numpy.uint64) * numpy.uint64(pow(_MULTIPLIER, number, 1 << 64))
    _, firsts, numbers = numpy.unique(hashes, return_index=True, return_inverse=True)
    if (rows[:, firsts[numbers]] != rows).any():
        _, firsts, numbers = numpy.unique(rows, axis=1, return_index=True, return_inverse=True)
    order = numpy.argsort(firsts)
    places = numpy.empty(len(order), dtype=int)
    places[order] = numpy.arange(len(order))
    return places[numbers], firsts[order]
