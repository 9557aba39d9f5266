"""The weeks to plan, as one stretch of days: nurses, choices and places as numbers.

Days count from 0 through all weeks. A choice is 0 for a day off, and one more than the index of its
shift type otherwise.
"""

from dataclasses import dataclass, replace
from typing import (
    Dict,
    FrozenSet,
    Iterable,
    Iterator,
    List,
    Mapping,
    NamedTuple,
    NewType,
    Optional,
    Sequence,
    Tuple,
)

from ..judging.absences import MARK, absences_of
from ..judging.days_away import DaysAway
from ..judging.runs import ABOVE_LIMIT, NEVER, Beside, NextDays
from ..week.facts import SHIFTS, WEEKENDS, Charged, Choice, Claim
from ..week.records import (
    WEEK_DAYS,
    Absence,
    Cell,
    History,
    KeptLimit,
    Place,
    Request,
    Requirement,
    Scenario,
    WeekData,
)
from ..week.soft_rules import MISSING_NURSE, REQUEST

# The units of costs. Prices are whole numbers of thousandths of a point.
Points = NewType("Points", int)
Thousandths = NewType("Thousandths", int)
POINT = 1000
# The costs of all rosters are multiples of it.
STEP = 5
# With more weeks than this prices and dives take long.
FEW_WEEKS = 4

# The rows of a nurse on a day that are held; none: she is off.
Held = Dict[Tuple[str, int], List[Cell]]


class Extra(NamedTuple):
    """What plans cost beyond the charges of their weeks. A nurse costs `call` points if her row
    differs from that of an older roster; ANY_CHOICE differs from none. And the days after the last
    one cost what they do if runs go on there."""

    older: Mapping[str, bytes] = {}
    call: int = 0
    then: Mapping[str, NextDays] = {}


class Keeping(NamedTuple):
    """What each broken absence costs more, and each charge above a limit that is kept, or day
    beside days away that should be otherwise, in points. NEVER: rows may not have it."""

    absence: int
    limit: int


STRICT = Keeping(NEVER, NEVER)
ONLY_ABSENCES = Keeping(NEVER, 0)
FREE = Keeping(0, 0)
# If no roster keeps all: absences come first.
ABSENCES_KEPT = Keeping(NEVER, ABOVE_LIMIT)
FEW_BROKEN = Keeping(3000, ABOVE_LIMIT)


@dataclass(frozen=True)
class Plan:
    """What is asked for on these days, and by whom it can be done.

    `demand` has the places that ask for nurses, with the day of the plan; its optimal numbers are
    not below its minimums. `nurses` are those whose rows are searched, and `keeping` says how their
    rows keep the absences of `away`, with the day of the plan, the limits, and the days beside
    those of `beside`. Without `charging` only the hard rules count: nothing costs anything, and
    each nurse below a minimum costs one point.
    """

    scenario: Scenario
    history: History
    weeks: Tuple[WeekData, ...]
    early: bool
    held: Held
    nurses: Tuple[str, ...]
    demand: Dict[Place, Requirement]
    charging: bool = True
    away: FrozenSet[Absence] = frozenset()
    limits: FrozenSet[KeptLimit] = frozenset()
    keeping: Keeping = STRICT
    beside: DaysAway = DaysAway()
    extra: Extra = Extra()

    @staticmethod
    def of(
        scenario: Scenario,
        history: History,
        weeks: Sequence[WeekData],
        early: bool = False,
        held: Iterable[Cell] = (),
        keeping: Keeping = STRICT,
    ) -> "Plan":
        """The plan of these weeks, which follow the history. The days of held rows are those of the
        plan."""
        rows: Held = {}
        for row in held:
            rows.setdefault((row.nurse, row.day), []).append(row)
        demand: Dict[Place, Requirement] = {}
        for number, data in enumerate(weeks):
            for place, asked in data.requirements.items():
                if asked.minimum or asked.optimal:
                    day = WEEK_DAYS * number + place.day
                    demand[place._replace(day=day)] = Requirement(
                        asked.minimum, max(asked.minimum, asked.optimal)
                    )
        of_weeks = [
            (number, absence) for number, data in enumerate(weeks) for absence in absences_of(data)
        ]
        away = frozenset(
            absence._replace(day=WEEK_DAYS * number + absence.day) for number, absence in of_weeks
        )
        limits = frozenset(limit for data in weeks for limit in data.limits)
        return Plan(
            scenario,
            history,
            tuple(weeks),
            early,
            rows,
            tuple(scenario.nurses),
            demand,
            away=away,
            limits=limits,
            keeping=keeping,
        )

    @property
    def days(self) -> int:
        """The number of days."""
        return WEEK_DAYS * len(self.weeks)

    @property
    def is_long(self) -> bool:
        """Whether prices and dives take long."""
        return len(self.weeks) > FEW_WEEKS

    @property
    def ends(self) -> bool:
        """Whether the last of these weeks is the last of the period."""
        return self.history.week + len(self.weeks) == self.scenario.weeks

    @property
    def missing_cost(self) -> int:
        """What a nurse below an optimal number costs, in points (S1)."""
        return MISSING_NURSE if self.charging else 0

    @property
    def asks(self) -> bool:
        """Whether there are absences or limits to keep."""
        return bool(self.away or self.limits or self.beside.kept)

    @property
    def adds(self) -> bool:
        """Whether rows that do not keep them cost more than the rules say."""
        return self.asks and any(0 < cost < NEVER for cost in self.keeping)

    @property
    def keeps_more(self) -> bool:
        """Whether there is something to keep beside absences."""
        return bool(self.limits or self.beside.asks)

    def kept(self, keeping: Keeping) -> "Plan":
        """The same plan, with other costs of what is not kept."""
        return replace(self, keeping=keeping)

    def less_strict(self) -> Iterator["Plan"]:
        """The same plan, if no rows keep all absences and limits: first with all absences kept."""
        if self.keeps_more:
            yield self.kept(ABSENCES_KEPT)
        if self.away:
            yield self.kept(FEW_BROKEN)

    def most_above(self, nurse: str, kind: str) -> Optional[int]:
        """How often the nurse may exceed her contract's maximum of this kind; None if no limit of
        hers is kept."""
        return min(
            (limit.most for limit in self.limits if limit[:2] == (nurse, kind)), default=None
        )

    def beside_of(self, nurse: str) -> Beside:
        """The nurse's days away that concern the days beside them, if these are kept, her older
        row, and what she has after the last day."""
        training, free = (
            frozenset(day for who, day in days if who == nurse) for days in self.beside[:2]
        )
        if not self.charging:
            return Beside()
        older = self.extra.older.get(nurse, b"")
        call = self.extra.call if older else 0
        found = Beside(older=older, call=call, then=self.extra.then.get(nurse))
        kept = self.beside.kept
        if not (self.keeping.limit and (training or free or kept)):
            return found
        return found._replace(
            training=training,
            free=free,
            nights=self.beside.nights,
            cost=self.keeping.limit,
            fixed=self.beside.fixed,
            kept=kept,
        )

    def facts(self) -> Tuple[Claim, ...]:
        """The absences and limits that its rows keep, as facts about its weeks."""
        found: List[Claim] = []
        if self.keeping.absence == NEVER:
            for nurse, day, shift in sorted(
                self.away, key=lambda absence: (absence.day, absence.nurse, absence.shift or "")
            ):
                found.append(
                    Claim(
                        Choice(day // WEEK_DAYS + 1, nurse, day % WEEK_DAYS, shift), shift is None
                    )
                )
        for nurse, kind, most in sorted(self.limits) if self.keeping.limit == NEVER else ():
            # Nobody can take back the part of the past above a total.
            found.append(Claim(Charged(kind, nurse, max(most, self._above(nurse, kind)))))
        return tuple(found)

    def _above(self, nurse: str, kind: str) -> int:
        """How much the history has above a total of the nurse's contract; 0 or less: nothing."""
        contract = self.scenario.contract_of(nurse)
        past = self.history.nurses[nurse]
        above = {
            SHIFTS: past.assignments - contract.assignments.maximum,
            WEEKENDS: past.weekends - contract.max_weekends,
        }
        return above.get(kind, 0)

    def is_away(self, nurse: str, day: int, shift: str) -> bool:
        """Whether an absence forbids the nurse this shift type."""
        return bool(self.away) and (
            Absence(nurse, day, None) in self.away or Absence(nurse, day, shift) in self.away
        )

    def hard_only(self) -> "Plan":
        """The same plan without the soft rules."""
        demand = {
            place: Requirement(asked.minimum, asked.minimum)
            for place, asked in self.demand.items()
            if asked.minimum
        }
        away = self.away if self.keeping.absence == NEVER else frozenset()
        return replace(
            self,
            demand=demand,
            charging=False,
            away=away,
            limits=frozenset(),
            beside=DaysAway(),
            extra=Extra(),
        )

    def requests(self) -> Dict[str, List[Request]]:
        """The requests of each nurse, with the days of the plan."""
        found: Dict[str, List[Request]] = {}
        for number, data in enumerate(self.weeks):
            for request in data.requests:
                found.setdefault(request.nurse, []).append(
                    replace(request, day=WEEK_DAYS * number + request.day)
                )
        return found

    def wishes(self, nurse: str, requests: Iterable[Request]) -> Dict[int, List[int]]:
        """What requests (S4), absences and held rows make of each choice of a nurse, in
        thousandths, on the days that have any."""
        shifts = {shift: number for number, shift in enumerate(self.scenario.shift_types, 1)}
        skills = self.scenario.nurses[nurse].skills
        found: Dict[int, List[int]] = {}
        if not skills:
            found = {day: [0] + [NEVER] * len(shifts) for day in range(self.days)}
        for request in requests if self.charging else ():
            costs = found.setdefault(request.day, [0] * (len(shifts) + 1))
            for choice in [shifts[request.shift]] if request.shift is not None else shifts.values():
                costs[choice] += REQUEST * POINT
        for day in range(self.days):
            away = [number for shift, number in shifts.items() if self.is_away(nurse, day, shift)]
            for choice in away:
                costs = found.setdefault(day, [0] * (len(shifts) + 1))
                # An absence that is written as requests costs enough.
                more = (
                    0 if costs[choice] >= MARK * REQUEST * POINT else self.keeping.absence * POINT
                )
                costs[choice] = NEVER if self.keeping.absence == NEVER else costs[choice] + more
            rows = self.held.get((nurse, day))
            if rows is not None:
                costs = found.setdefault(day, [0] * (len(shifts) + 1))
                kept = 0
                if rows:
                    kept = (
                        shifts[rows[0].shift] if len(rows) == 1 and rows[0].skill in skills else -1
                    )
                found[day] = [
                    cost if choice == kept else NEVER for choice, cost in enumerate(costs)
                ]
        return found

    def held_skill(self, nurse: str, day: int) -> Optional[str]:
        """The skill with which a held row has the nurse on a day."""
        rows = self.held.get((nurse, day))
        return rows[0].skill if rows else None
