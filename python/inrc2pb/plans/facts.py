"""Facts about a plan that its reader should know: what it does not keep, what is odd beside days
away, which wishes it does not grant.

They are values; `sentences` has their words. Days are those of the plan, but in charges and shifts
of one week, which have the days of it.
"""

from typing import Iterable, Iterator, Mapping, NamedTuple, Sequence

from ..judging.absences import absences_of, not_granted, wishes_of_weeks, working_while_away
from ..judging.breaches import breaches
from ..judging.days_away import DaysAway, long_rows, long_runs, nights_before
from ..judging.limits import exceeded
from ..judging.rules import SATURDAY, Charge
from ..judging.runs import NextDays
from ..shown.totals import Sums, sums_of
from ..week.facts import SHIFT_RUNS, SHIFTS, WORK_DAYS, Charged
from ..week.records import WEEK_DAYS, Cell, NurseDay, Request
from .ward import PROMISED, WardPlan

# The rule on the shifts of a period.
_TOTAL = "S6"


class Unkept(NamedTuple):
    """What a week of a plan does not keep: shifts on days away, or charges above limits that
    hold."""

    week: int
    working: tuple[Cell, ...] = ()
    above: tuple[Charge, ...] = ()


class Broken(NamedTuple):
    """A hard rule that a week of a plan breaks, in words, or what it has above limits that hold."""

    week: int
    rule: str = ""
    above: tuple[Charge, ...] = ()


class TooManyShifts(NamedTuple):
    """A nurse who has too many shifts in the period."""

    nurse: str
    # Her shifts, with those for days away.
    shifts: int
    # The most by the spreadsheet, and the most that a search keeps.
    most: int
    kept: int
    # The last day from which a plan can take the others away, if there is one.
    last: int | None


class WrongBeside(NamedTuple):
    """What is wrong beside days away of a nurse, or a shift on too many days in a row."""

    nurse: str
    days: tuple[int, int]
    # Days in a row with work and training, and the most with work of her contract, or with the
    # shift.
    number: int = 0
    most: int = 0
    # The shift of these days, or of the night before a day away with this word.
    shift: str = ""
    word: str = ""


class Due(NamedTuple):
    """A charge of a week in which days away have a part: the points that are due to them, and their
    words."""

    week: int
    charge: Charge
    points: int
    words: tuple[str, ...]


def promised_days(plan: WardPlan) -> list[NurseDay]:
    """The nurses' days of the weeks that are not over that are promised, and so planned: those that
    were set, and the days off and the shifts that the spreadsheet promises."""
    promised: dict[NurseDay, Cell | None] = {**plan.held}
    promised.update((place, None) for place, word in plan.away.items() if word == PROMISED)
    promised.update((place, promise.cell) for place, promise in plan.state.promised.items())
    return [place for place, cell in promised.items() if plan.works.get(place) == cell]


def unkept(plan: WardPlan) -> list[Unkept]:
    """What the weeks that are not over do not keep: who works while she is away, and who has more
    than a limit that holds."""
    missed: list[Unkept] = []
    for number in plan.weeks:
        week = plan.week(number)
        cells = plan.state.roster(number)
        working = working_while_away(absences_of(week.data), cells)
        above = exceeded(week, week.data.limits, cells)
        if working:
            missed.append(Unkept(number, working=tuple(working)))
        if above:
            missed.append(Unkept(number, above=tuple(above)))
    return missed


def while_away(plan: WardPlan) -> int:
    """How many shifts of the plan nurses have while they are away, or of types that they never
    work."""
    return sum(len(missed.working) for missed in unkept(plan))


def breaks(plan: WardPlan, number: int) -> list[Broken]:
    """The hard rules and limits that hold that a week of the plan breaks."""
    week = plan.week(number)
    cells = plan.state.roster(number)
    rules = [Broken(number, breach.plain) for breach in breaches(week, cells)]
    above = exceeded(week, week.data.limits, cells)
    return [*rules, Broken(number, above=tuple(above))] if above else rules


def exceeded_in_weeks(plan: WardPlan) -> Iterator[tuple[int, Charge]]:
    """The limits that hold, but for those of the period, that the weeks of a plan exceed, if there
    is a plan."""
    for number in plan.weeks if plan.is_planned else ():
        week = plan.week(number)
        charged = exceeded(week, week.data.limits, plan.state.roster(number))
        yield from ((number, charge) for charge in charged if charge.rule != _TOTAL)


def too_many_shifts(plan: WardPlan) -> list[TooManyShifts]:
    """The nurses whose shifts exceed limits that hold, by the spreadsheet, if there is a plan."""
    if not plan.weeks or not plan.is_planned:
        return []
    too_many: list[TooManyShifts] = []
    for (fact, _), (kept, _) in zip(plan.ward.claims, plan.limits):
        if (
            isinstance(fact, Charged)
            and isinstance(kept, Charged)
            and fact.kind == SHIFTS
            and fact.nurse is not None
        ):
            contract = plan.scenario.contract_of(fact.nurse).assignments.maximum
            shifts = plan.shifts_of[fact.nurse]
            most = contract + fact.most
            if shifts > most:
                too_many.append(
                    TooManyShifts(
                        fact.nurse,
                        shifts,
                        most,
                        contract + kept.most,
                        _last_to_take(plan, fact.nurse, shifts - most),
                    )
                )
    return too_many


def _last_to_take(plan: WardPlan, nurse: str, number: int) -> int | None:
    """The last day from which a plan can take so many shifts of a nurse away: they are not over,
    not held, and not on days away."""
    free = sorted(
        place.day
        for place in plan.works
        if place.nurse == nurse and place not in plan.held and place not in plan.away
    )
    return free[-number] if len(free) >= number else None


def too_many_by_days_away(plan: WardPlan) -> list[TooManyShifts]:
    """Those whose shifts are too many only since days away count as shifts."""
    return [many for many in too_many_shifts(plan) if many.shifts <= many.kept]


# A maximum that holds and is exceeded: its nurse, its rule, and its week, or for days in a row with
# training their first day.
_Exceeded = tuple[str, str, int]


def newly_exceeded(old: WardPlan | None, new: WardPlan) -> bool:
    """Whether a plan exceeds a maximum that holds by more than an older plan does."""
    before = _exceeded(old) if old else {}
    return any(above > before.get(maximum, 0) for maximum, above in _exceeded(new).items())


def _exceeded(plan: WardPlan) -> dict[_Exceeded, int]:
    """By how much each maximum that holds is exceeded, with shifts for days away and with days in a
    row with training."""
    exceeded_by: dict[_Exceeded, int] = {
        (charge.nurse or "", charge.rule, week): charge.times
        for week, charge in exceeded_in_weeks(plan)
    }
    exceeded_by.update(
        {(many.nurse, _TOTAL, 0): many.shifts - many.most for many in too_many_shifts(plan)}
    )
    kept = _keeping_work_days(plan)
    rows = beside_days_away(plan) if plan.is_planned else []
    exceeded_by.update(
        {
            (row.nurse, WORK_DAYS, row.days[0]): row.number - row.most
            for row in rows
            if row.nurse in kept and not row.shift
        }
    )
    exceeded_by.update(
        {
            (row.nurse, SHIFT_RUNS, row.days[0]): row.number - row.most
            for row in rows
            if row.shift and not row.word
        }
    )
    return exceeded_by


def beside_days_away(plan: WardPlan) -> list[WrongBeside]:
    """What is wrong beside days away in the weeks that are not over."""
    return beside_of(plan, plan.days_away, plan.shifts) if plan.weeks else []


def beside_of(plan: WardPlan, away: DaysAway, shifts: Mapping[NurseDay, str]) -> list[WrongBeside]:
    """The same with these days away and shift types, both by the days from the first one that is
    not over."""
    first = plan.first
    rows = long_rows(plan.scenario, plan.past, away, shifts)
    odd = [
        WrongBeside(row.nurse, (first + row.days[0], first + row.days[-1]), row.number, row.most)
        for row in rows
    ]
    odd += [
        WrongBeside(run.nurse, (first + run.days[0], first + run.days[-1]), *run[3:], run.shift)
        for run in long_runs(plan.scenario, plan.past, away, shifts)
    ]
    known = {
        **{
            NurseDay(nurse, -1): before.last_shift or ""
            for nurse, before in plan.past.nurses.items()
        },
        **shifts,
    }
    for nurse, day in nights_before(away, known):
        word = plan.away[NurseDay(nurse, first + day)]
        odd.append(
            WrongBeside(
                nurse,
                (first + day - 1, first + day),
                shift=known[NurseDay(nurse, day - 1)],
                word=word,
            )
        )
    return odd


def _keeping_work_days(plan: WardPlan) -> set[str | None]:
    """The nurses whose maximum of days of work in a row holds."""
    charged = (fact for fact, _ in plan.limits if isinstance(fact, Charged))
    return {fact.nurse for fact in charged if fact.kind == WORK_DAYS}


def next_days(plan: WardPlan) -> dict[str, NextDays]:
    """What nurses have after the last day, if the next period is planned."""
    numbers = {shift: number for number, shift in enumerate(plan.scenario.shift_types, 1)}
    kept = _keeping_work_days(plan)
    rows = {
        nurse: bytes(numbers.get(shift, 0) for shift in then.shifts)
        for nurse, then in plan.ward.border.items()
    }
    return {
        nurse: NextDays(plan.ward.border[nurse].contract, row, nurse in kept, plan.ward.kept_runs)
        for nurse, row in rows.items()
    }


def sums(plan: WardPlan) -> dict[str, Sums]:
    """What each nurse has in the whole period: in weeks that are over, and in those that are
    planned."""
    return sums_of(
        plan.scenario.nurses,
        plan.state.cells,
        wishes_of_weeks(enumerate(plan.data)),
        plan.ward.nights,
        plan.ward.times,
        plan.ward.credit,
    )


def refused_wishes(plan: WardPlan) -> list[Request]:
    """The wishes of the weeks that are not over that the plan does not grant, with days of the
    plan."""
    weeks = ((number, plan.data[number]) for number in plan.weeks)
    return not_granted(wishes_of_weeks(weeks), plan.cells)


def lost_wishes(old: WardPlan | None, new: WardPlan) -> list[Request]:
    """The wishes that are not granted, or only those that an older plan grants and this one does
    not."""
    before = refused_wishes(old) if old else []
    return [wish for wish in refused_wishes(new) if wish not in before]


def due_to_days_away(plan: WardPlan) -> list[Due]:
    """The charges in which days away have a part: `inrc2pb` knows no days away, so they are days
    off, a day of a weekend or the end of days of work for it, and their shifts and weekends are in
    the totals of the period."""
    due: list[Due] = []
    for week in plan.view().weeks:
        for charge in week.charges or ():
            if charge.nurse is not None:
                points, words = _due(plan, week.number, charge, charge.nurse)
                if points and words:
                    due.append(Due(week.number, charge, points, words))
    return due


def _due(plan: WardPlan, number: int, charge: Charge, nurse: str) -> tuple[int, tuple[str, ...]]:
    """The points of a nurse's charge that are due to days away, and the words for these."""
    counted = plan.ward.counted
    if charge.what == "above" and charge.rule in ("S6", "S7"):
        total = (counted.shifts if charge.rule == "S6" else counted.weekends).get(nurse, 0)
        some = [
            day
            for (who, day), shifts in counted.days.items()
            if who == nurse and shifts and (charge.rule == "S6" or day % WEEK_DAYS >= SATURDAY)
        ]
        return charge.weight * min(charge.times, total), _away_words(plan, nurse, some)
    # A run without days ended on the Sunday before the week.
    first, last = (WEEK_DAYS * number + day for day in charge.days or (0, -1))
    run = range(first - charge.before, last + 1)
    days: Mapping[str, Sequence[int]] = {
        "off above": run,
        "off below": run,
        "half": (first + (1 if first % WEEK_DAYS == SATURDAY else -1),),
        "work below": (run.start - 1, run.stop),
        "shift below": (run.start - 1, run.stop),
    }
    return charge.cost, _away_words(plan, nurse, days.get(charge.what, ()))


def _away_words(plan: WardPlan, nurse: str, days: Iterable[int]) -> tuple[str, ...]:
    """Why the nurse is away on some of these days."""
    return tuple(
        dict.fromkeys(
            plan.ward.reasons[NurseDay(nurse, day)]
            for day in days
            if NurseDay(nurse, day) in plan.ward.reasons
        )
    )
