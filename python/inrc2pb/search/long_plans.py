"""Plans of so many weeks that rows of all their days would take gigabytes: windows of some weeks
are planned anew, one after another, beside the other weeks."""

from collections import Counter
from dataclasses import replace
from typing import Dict, Iterator, List, NamedTuple, Optional, Sequence

from ..judging.days_away import DaysAway
from ..judging.next_history import next_history
from ..judging.rules import SATURDAY, costs
from ..judging.runs import ANY_CHOICE, cost_then
from ..programs.clock import Clock
from ..rows.plan import Extra, Plan, Points
from ..rows.pricing import NurseWeek
from ..rows.row_run import RowRun
from ..rows.skills import rows_of, staffed
from ..solvers.linear_solvers import LinearSolver
from ..week.records import WEEK_DAYS, Cell, History, NurseDay, Week, in_week

# With more weeks than this a plan gets better window by window.
MOST_WEEKS = 12


class _Round(NamedTuple):
    """Windows of so many weeks, each so many weeks after the one before it."""

    weeks: int
    step: int
    # The most seconds of a window for each nurse; None: its part of the time that is left.
    seconds: Optional[float]


# With the week after them these are plans of four weeks, for which 30 nurses need some five
# seconds, and of eight.
ROUNDS = (_Round(3, 3, 0.2), _Round(7, 4, None))


def better_plans(
    plan: Plan, cells: Sequence[Cell], solver: LinearSolver, clock: Clock, seed: int
) -> Iterator[List[Cell]]:
    """The plan after each window that got better, until the time is over."""
    now = list(cells)
    for weeks, step, seconds in ROUNDS:
        firsts = range(0, max(1, len(plan.weeks) - weeks + step), step)
        for number, first in enumerate(firsts):
            part = clock.left() / (len(firsts) - number)
            most = part if seconds is None else seconds * len(plan.nurses)
            window = range(first, min(first + weeks, len(plan.weeks)))
            better = _better(plan, window, now, solver, clock.part(most), seed)
            if better != now:
                now = better
                yield now


def _better(
    plan: Plan,
    weeks: range,
    cells: Sequence[Cell],
    solver: LinearSolver,
    clock: Clock,
    seed: int,
) -> List[Cell]:
    """The plan with the best assignments that a search has found for a window."""
    part = beside_others(plan, weeks, cells)
    found: List[List[NurseWeek]] = []

    def offer(rows: List[NurseWeek], _finder: str) -> Optional[Points]:
        found.append(rows)
        return run.search.value_of(rows) if run.search else None

    first = WEEK_DAYS * weeks.start
    own = _moved(cells, range(weeks.start, weeks.start + len(part.weeks)))
    start = rows_of(part, (cell for cell in own if not part.is_away(*cell[:3])))
    run = RowRun(part, solver, clock, offer, lambda: None, start=start, seed=seed)
    run.run()
    if not found or found[-1] == start:
        return list(cells)
    new = staffed(part, run.crews, found[-1]).cells
    return [
        *(cell for cell in cells if cell.day // WEEK_DAYS not in weeks),
        *(cell._replace(day=cell.day + first) for cell in new if cell.day < WEEK_DAYS * len(weeks)),
    ]


def beside_others(plan: Plan, weeks: range, cells: Sequence[Cell]) -> Plan:
    """The plan of some weeks beside these assignments of all others. It has the next week, too, in
    which all rows are held, so that runs go on there. The past of each nurse has the assignments
    and weekends of all weeks that it has not, so her totals cost what they cost in the whole plan.
    """
    known = range(weeks.start, min(weeks.stop + 1, len(plan.weeks)))
    first = WEEK_DAYS * known.start
    history = _history(plan, known, cells)
    data = list(plan.weeks[known.start : known.stop])
    held = {
        (nurse, day - first): [row._replace(day=day - first) for row in rows]
        for (nurse, day), rows in plan.held.items()
        if day // WEEK_DAYS in known
    }
    if known.stop > weeks.stop:
        data[-1] = replace(data[-1], requirements={}, requests=(), absences=frozenset())
        days = range(WEEK_DAYS * len(weeks), WEEK_DAYS * len(known))
        held.update({(nurse, day): [] for day in days for nurse in plan.nurses})
        held.update(
            {(cell.nurse, cell.day): [cell] for cell in _moved(cells, known) if cell.day in days}
        )
    scenario = plan.scenario
    if plan.ends:
        scenario = replace(scenario, weeks=history.week + len(known))
    part = Plan.of(scenario, history, data, plan.early, keeping=plan.keeping)
    return replace(
        part,
        held=held,
        beside=_days_away(plan.beside, first),
        extra=_extra(plan, range(first, first + part.days), cells),
    )


def _moved(cells: Sequence[Cell], weeks: range) -> List[Cell]:
    """The assignments of these weeks, with days from the first of them on."""
    first = WEEK_DAYS * weeks.start
    return [cell._replace(day=cell.day - first) for cell in cells if cell.day // WEEK_DAYS in weeks]


def _days_away(beside: DaysAway, first: int) -> DaysAway:
    """The same with days from this one on."""
    training, free = (
        frozenset(NurseDay(nurse, day - first) for nurse, day in days if day >= first)
        for days in (beside.training, beside.free)
    )
    return beside._replace(training=training, free=free, fixed=max(0, beside.fixed - first))


def _differing(plan: Plan, days: Sequence[int], cells: Sequence[Cell]) -> Dict[str, bool]:
    """Whether the rows of the nurses with older rows differ from these on some days."""
    rows = dict(zip(plan.nurses, rows_of(plan, cells)))
    return {
        nurse: any(older[day] not in (rows[nurse][day], ANY_CHOICE) for day in days)
        for nurse, older in plan.extra.older.items()
    }


def _extra(plan: Plan, days: range, cells: Sequence[Cell]) -> Extra:
    """The older rows on these days, of the nurses who need not be called because of other days, and
    the days after them, if they are the last ones."""
    others = [day for day in range(plan.days) if day not in days]
    called = _differing(plan, others, cells)
    older = {
        nurse: row[days.start : days.stop]
        for nurse, row in plan.extra.older.items()
        if not called[nurse]
    }
    return Extra(older, plan.extra.call, plan.extra.then if days.stop == plan.days else {})


def _history(plan: Plan, weeks: range, cells: Sequence[Cell]) -> History:
    """The history before these weeks, with the assignments and weekends after them."""
    history = plan.history
    for week in range(weeks.start):
        history = next_history(plan.scenario, history, in_week(cells, week))
    later = [cell for cell in cells if cell.day >= WEEK_DAYS * weeks.stop]
    shifts = Counter(cell.nurse for cell in later)
    weekends = Counter(
        nurse
        for nurse, _ in {
            (cell.nurse, cell.day // WEEK_DAYS)
            for cell in later
            if cell.day % WEEK_DAYS >= SATURDAY
        }
    )
    pasts = {
        nurse: replace(
            past,
            assignments=past.assignments + shifts[nurse],
            weekends=past.weekends + weekends[nurse],
        )
        for nurse, past in history.nurses.items()
    }
    return replace(history, nurses=pasts)


def cost(plan: Plan, cells: Sequence[Cell]) -> int:
    """What these assignments cost in all weeks of the plan, with what they cost beyond that."""
    history = plan.history
    total = plan.extra.call * sum(_differing(plan, range(plan.days), cells).values())
    for number, data in enumerate(plan.weeks):
        rows = in_week(cells, number)
        total += sum(costs(Week(plan.scenario, history, data), rows, plan.early).values())
        is_last = number + 1 == len(plan.weeks)
        history = next_history(plan.scenario, history, rows, new_period=is_last)
    types = tuple(plan.scenario.shift_types.values())
    then = plan.extra.then.items()
    return total + sum(cost_then(types, days, history.nurses[nurse]) for nurse, days in then)
