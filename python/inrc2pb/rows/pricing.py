"""Rows and bounds at prices: what nurses of places earn, each nurse's cheapest row, and what no
roster can cost less than."""

import copy
import numpy
from typing import Any, Dict, Iterable, List, NamedTuple, Optional, Sequence, Tuple

from ..judging.runs import NEVER, Beside, RunState, Runs
from ..week.facts import WORK_DAYS
from ..week.records import Place
from ..week.soft_rules import SHIFT_RUN
from .compiled import priced_together
from .plan import POINT, STEP, Plan, Points, Thousandths
from .row_arrays import Member
from .row_graph import Check, Graph, Totals

# The highest price in a file of prices.
MAX_PRICE = 999_999_999
NurseWeek = bytes
# A price in thousandths for each place of a plan, in its order.
Prices = List[int]
# The price of a nurse of each crew, in thousandths: a list or an array.
Gains = Any
# What the runs of a nurse depend on beside her past: her contract, what a day of work above its
# maximum costs more, and her days away.
_Kind = Tuple[str, int, Beside]


class Priced(NamedTuple):
    """A nurse's cheapest row at some prices, with its cost less what it earns, in thousandths."""

    value: Thousandths
    row: NurseWeek


class Crews:
    """The places of a plan, and its crews: the places of a day and shift type for which a nurse can
    count.

    `of` has the crew of each nurse, day and choice; crew 0 counts nowhere.
    """

    def __init__(self, plan: Plan) -> None:
        self.places = list(plan.demand)
        self.minimum = [asked.minimum for asked in plan.demand.values()]
        self.optimal = [asked.optimal for asked in plan.demand.values()]
        self._number = {place: number for number, place in enumerate(self.places)}
        self._index: Dict[Tuple[int, ...], int] = {(): 0}
        tables: Dict[Tuple[str, ...], List[List[int]]] = {}
        self.of: List[List[List[int]]] = []
        for nurse in plan.nurses:
            skills = plan.scenario.nurses[nurse].skills
            if skills not in tables:
                tables[skills] = [self._day(plan, day, skills) for day in range(plan.days)]
            days = tables[skills]
            held = (
                {day: plan.held_skill(nurse, day) for day in range(plan.days)} if plan.held else {}
            )
            if any(held.values()):
                days = [
                    self._day(plan, day, (skill,)) if skill else days[day]
                    for day, skill in held.items()
                ]
            self.of.append(days)
        self.members: List[Tuple[int, ...]] = list(self._index)
        self.table = numpy.array(self.of)

    def _day(self, plan: Plan, day: int, skills: Sequence[str]) -> List[int]:
        crews = [0]
        for shift in plan.scenario.shift_types:
            keys = (Place(day, shift, skill) for skill in skills)
            members = tuple(sorted(self._number[place] for place in keys if place in self._number))
            crews.append(self._index.setdefault(members, len(self._index)))
        return crews

    def gains(self, prices: Prices) -> List[int]:
        """What a nurse of each crew earns: the highest price of its places."""
        return [max([prices[place] for place in places], default=0) for places in self.members]

    def earned(self, prices: Prices, nurses: Sequence[int], rows: Sequence[NurseWeek]) -> Any:
        """What rows of these nurses earn, in thousandths, as an array."""
        choices = numpy.frombuffer(b"".join(rows), dtype=numpy.uint8).reshape(
            -1, self.table.shape[1]
        )
        return numpy.array(self.gains(prices), dtype=numpy.int64)[self.at(nurses, choices)].sum(
            axis=1
        )

    def at(self, nurses: Sequence[int], choices: Any) -> Any:
        """The crews of the choices of these nurses, by day."""
        return self.table[
            numpy.array(nurses, dtype=int)[:, None], numpy.arange(self.table.shape[1]), choices
        ]

    def best_place(self, crew: int, prices: Sequence[float]) -> Optional[int]:
        """The place of a crew that has the highest price."""
        places = self.members[crew]
        return max(places, key=prices.__getitem__) if places else None


class Pricing:
    """The nurses of a plan, with the graphs of their rows; nurses who differ in nothing else share
    a graph.

    `check` is called while the graphs are built, and may raise an exception to end that.
    `shift_run` is the weight of a charge of a run of a shift type.
    """

    def __init__(self, plan: Plan, crews: Crews, check: Check, shift_run: int = SHIFT_RUN) -> None:
        self.plan = plan
        self.crews = crews
        scenario = plan.scenario
        pasts = plan.history.nurses
        types = tuple(scenario.shift_types.values())
        runs: Dict[_Kind, Runs] = {}
        kinds: Dict[Tuple[_Kind, Totals], List[int]] = {}
        states: List[RunState] = []
        for index, nurse in enumerate(plan.nurses):
            contract = scenario.contract_of(nurse)
            above = 0 if plan.most_above(nurse, WORK_DAYS) is None else plan.keeping.limit
            key = contract.name, above, plan.beside_of(nurse)
            if key not in runs:
                runs[key] = Runs(
                    types, contract, plan.days, plan.charging, shift_run, above, key[2]
                )
            states.append(runs[key].before(pasts[nurse]))
            kinds.setdefault((key, Totals.of(plan, contract, pasts[nurse])), []).append(index)
        self.graphs: List[Graph] = [None] * len(plan.nurses)  # type: ignore[list-item]
        for (key, totals), members in kinds.items():
            graph = Graph(runs[key], totals, [states[index] for index in members], check)
            for index in members:
                self.graphs[index] = graph
        self.starts = [graph.starts[state] for graph, state in zip(self.graphs, states)]
        self.base = [
            POINT * Totals.base(plan, scenario.contract_of(nurse), pasts[nurse])
            for nurse in plan.nurses
        ]
        requests = plan.requests()
        self.wishes = [plan.wishes(nurse, requests.get(nurse, ())) for nurse in plan.nurses]
        # The days on which rows may differ from these, if there are some.
        self._days = range(plan.days)
        self._rows = [b""] * 0
        # The nurses on these days, from their first pricing on: choices that are kept do not change
        # them.
        self._members: List[Member] = []
        self._batch: Optional[_Batch] = None

    def part(self, plan: Plan) -> "Pricing":
        """The same for some of the nurses, with another demand."""
        part = object.__new__(Pricing)
        index = {nurse: number for number, nurse in enumerate(self.plan.nurses)}
        numbers = [index[nurse] for nurse in plan.nurses]
        part.plan = plan
        part.crews = Crews(plan)
        part.graphs = [self.graphs[number] for number in numbers]
        part.starts = [self.starts[number] for number in numbers]
        part.base = [self.base[number] for number in numbers]
        part.wishes = [self.wishes[number] for number in numbers]
        part._days = self._days
        part._rows = [b""] * 0
        part._members = []
        part._batch = None
        return part

    def on_days(self, days: range, rows: Sequence[NurseWeek]) -> "Pricing":
        """The same for rows that are the given ones, except on these days."""
        part = copy.copy(self)
        part.wishes = []
        part._days = days
        part._rows = list(rows)
        part._members = []
        part._batch = None
        others = [day for day in range(self.plan.days) if day not in days]
        for nurse, row in enumerate(rows):
            part.wishes.append(
                {**self.wishes[nurse], **{day: self._only(nurse, day, row[day]) for day in others}}
            )
        return part

    def keeping(self, kept: Iterable[Tuple[int, range, Sequence[int]]]) -> "Pricing":
        """The same for rows that have these choices of nurses on these days."""
        part = copy.copy(self)
        part.wishes = list(self.wishes)
        part._batch = None
        for nurse, days, choices in kept:
            only = {day: self._only(nurse, day, choice) for day, choice in zip(days, choices)}
            part.wishes[nurse] = {**part.wishes[nurse], **only}
        return part

    def _only(self, nurse: int, day: int, kept: int) -> List[int]:
        """What each choice of a nurse costs on a day if she has this one only."""
        costs = self.wishes[nurse].get(day, [0] * len(self.crews.of[nurse][day]))
        return [cost if choice == kept else NEVER for choice, cost in enumerate(costs)]

    def cheapest(self, nurse: int, gains: Gains) -> Optional[Priced]:
        """The nurse's cheapest row if the crews earn this; None if she has no row."""
        return self.cheapest_of([nurse], gains)[0]

    def cheapest_of(self, nurses: Sequence[int], gains: Gains) -> List[Optional[Priced]]:
        """The cheapest row of each of these nurses."""
        values, rows = self.least(nurses, gains)
        found = zip(values.tolist(), map(bytes, rows))
        return [
            Priced(Thousandths(value), row) if value < NEVER // 2 else None for value, row in found
        ]

    def least(self, nurses: Sequence[int], gains: Gains) -> Tuple[Any, Any]:
        """What the cheapest row of each of these nurses costs less what it earns, and its choices,
        as arrays."""
        if self._batch is None:
            self._members += (
                [] if self._members else map(self._member, range(len(self.plan.nurses)))
            )
            self._batch = _Batch(self, self._days, self._rows, self._members)
        return self._batch.least(nurses, gains)

    def wish_table(self) -> Any:
        """What the wishes make of each choice, by nurse, day and choice."""
        found = numpy.zeros(self.crews.table.shape, dtype=numpy.int64)
        for nurse, wishes in enumerate(self.wishes):
            for day, costs in wishes.items():
                found[nurse, day] = costs
        return found

    def _member(self, nurse: int) -> Member:
        """A nurse on the days on which her row may differ from the one that she keeps."""
        graph = self.graphs[nurse]
        start = self.starts[nurse]
        rest = None
        days = self._days
        if self._rows:
            start, _ = graph.walked(start, self._rows[nurse][: days.start])
            rest = (
                graph.arrays.after(days.stop, self._rows[nurse])
                if days.stop < len(graph.days)
                else None
            )
        return Member(nurse, graph.arrays, start, rest)

    def cost(self, nurse: int, row: NurseWeek) -> Optional[Points]:
        """What a row costs its nurse; None if a hard rule forbids it."""
        wishes = sum(costs[row[day]] for day, costs in self.wishes[nurse].items())
        cost = self.graphs[nurse].walked(self.starts[nurse], row)[1] + wishes + self.base[nurse]
        return None if cost >= NEVER // 2 else Points(cost // POINT)

    def places_cost(self, prices: Prices) -> Thousandths:
        """What all places cost at least, if they pay these prices to their nurses."""
        asked = zip(self.crews.minimum, self.crews.optimal, prices)
        most = self.plan.missing_cost * POINT
        return Thousandths(
            sum(
                minimum * price + (best - minimum) * min(most, price)
                for minimum, best, price in asked
            )
        )


class _Batch:
    """The nurses of a pricing together, on the days on which their rows may differ from those that
    they keep, if they keep any."""

    def __init__(
        self, pricing: Pricing, days: range, rows: Sequence[NurseWeek], members: Sequence[Member]
    ) -> None:
        self._days = days
        self._crews = pricing.crews.table
        self._wishes = pricing.wish_table()
        nurses = len(members)
        every = range(self._crews.shape[1])
        kept = list(rows) or [bytes(len(every))] * nurses
        self._rows = numpy.frombuffer(b"".join(kept), dtype=numpy.uint8).reshape(nurses, -1)
        choices = (
            numpy.arange(nurses)[:, None],
            (others := [day for day in every if day not in days]),
            self._rows[:, others],
        )
        # The crews of each nurse on the other days, and what she pays there.
        self._kept = self._crews[choices]
        self._paid = numpy.array(pricing.base) + self._wishes[choices].sum(axis=1)
        before = zip(pricing.graphs, pricing.starts, kept)
        self._paid += [graph.walked(start, row[: days.start])[1] for graph, start, row in before]
        self._together = priced_together(members, days)

    def least(self, nurses: Sequence[int], gains: Gains) -> Tuple[Any, Any]:
        """What the cheapest row of each of these nurses costs less what it earns, and its
        choices."""
        wanted = list(nurses)
        gained = numpy.asarray(gains, dtype=numpy.int64)
        rows = self._rows[wanted]
        pay = self._wishes[wanted] - gained[self._crews[wanted]]
        least, rows[:, self._days.start : self._days.stop] = self._together.cheapest(pay, wanted)
        return least + self._paid[wanted] - gained[self._kept[wanted]].sum(axis=1), rows


def in_steps(cost: Thousandths) -> Points:
    """The minimum penalty of a roster that costs no less than this. None is below 0."""
    return Points(STEP * -(-max(0, cost) // (STEP * POINT)))
