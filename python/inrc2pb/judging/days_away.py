"""What plans keep of which `inrc2pb` knows nothing. Days away concern the days beside them:
training is work in a row, and before training or leave nobody should have a night shift. And nobody
should have shift types with a maximum that holds on more days in a row."""

from typing import Collection, Iterator, Mapping, NamedTuple

from ..week.records import History, NurseDay, Scenario, in_a_row, together


class DaysAway(NamedTuple):
    """Days away that concern the days beside them, counted from the first Monday of the
    plan."""

    # Days that count as work in a row.
    training: frozenset[NurseDay] = frozenset()
    # Days before which nobody should have one of these shift types, which end on the next day.
    free: frozenset[NurseDay] = frozenset()
    nights: frozenset[str] = frozenset()
    # Days before this one do not change.
    fixed: int = 0
    # The shift types of which nobody should have more days in a row than their maximum.
    kept: frozenset[str] = frozenset()

    @property
    def asks(self) -> bool:
        """Whether there is something to keep."""
        return bool(self.training or self.free or self.kept)

    def of(self, nurse: str) -> "DaysAway":
        """Those of one nurse."""
        training, free = (
            frozenset(place for place in days if place[0] == nurse)
            for days in (self.training, self.free)
        )
        return self._replace(training=training, free=free)


class LongRow(NamedTuple):
    """Days in a row with work and training, more than the contract of the nurse has with work.
    `number` is with the days before Monday."""

    nurse: str
    days: list[int]
    number: int
    most: int


class LongRun(NamedTuple):
    """Days in a row with a shift type, more than its maximum that holds. `number` is with the days
    before Monday."""

    nurse: str
    shift: str
    days: list[int]
    number: int
    most: int


def long_runs(
    scenario: Scenario, history: History, away: DaysAway, works: Mapping[NurseDay, str]
) -> Iterator[LongRun]:
    """The runs of shift types with a maximum that holds that are too long, if nurses have these
    shift types."""
    kept = ((place, shift) for place, shift in sorted(works.items()) if shift in away.kept)
    of_shifts = together(((nurse, shift), day) for (nurse, day), shift in kept)
    for (nurse, shift), mine in of_shifts.items():
        most = scenario.shift_types[shift].consecutive.maximum
        past = history.nurses[nurse]
        before = past.consecutive_shifts if past.last_shift == shift else 0
        for days in in_a_row(mine):
            number = len(days) + (before if days[0] == 0 else 0)
            if number > most:
                yield LongRun(nurse, shift, days, number, most)


def long_rows(
    scenario: Scenario, history: History, away: DaysAway, works: Collection[NurseDay]
) -> Iterator[LongRow]:
    """The rows of days with training that are too long, if nurses work on these days."""
    of_nurses = together({*works, *away.training})
    for nurse in dict.fromkeys(nurse for nurse, _ in sorted(away.training)):
        most = scenario.contract_of(nurse).working_days.maximum
        past = history.nurses[nurse].working_days
        for days in in_a_row(of_nurses[nurse]):
            number = len(days) + (past if days[0] == 0 else 0)
            if number > most and any((nurse, day) in away.training for day in days):
                yield LongRow(nurse, days, number, most)


def nights_before(away: DaysAway, works: Mapping[NurseDay, str]) -> list[NurseDay]:
    """The days of `free` to which nurses come from a night shift, if they have these shift
    types."""
    return [
        NurseDay(nurse, day)
        for nurse, day in sorted(away.free)
        if works.get(NurseDay(nurse, day - 1)) in away.nights
    ]


def excess(
    scenario: Scenario, history: History, away: DaysAway, works: Mapping[NurseDay, str]
) -> int:
    """How many days of too long rows and runs, and nights before training or leave, could be
    otherwise, if nurses have these shift types."""
    rows = long_rows(scenario, history, away, works)
    above = sum(
        row.number - row.most
        for row in rows
        if any((row.nurse, day) in works for day in row.days if day >= away.fixed)
    )
    above += sum(
        sum(day >= away.fixed for day in run.days[-(run.number - run.most) :])
        for run in long_runs(scenario, history, away, works)
    )
    return above + sum(day > away.fixed for _, day in nights_before(away, works))
