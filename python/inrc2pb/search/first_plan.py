"""A first plan of several weeks, one week after another."""

from dataclasses import replace
from typing import List, Optional

from ..judging.next_history import next_history
from ..programs.clock import Clock
from ..rows.plan import ABSENCES_KEPT, STRICT, Plan, Points
from ..rows.pricing import NurseWeek
from ..rows.row_run import RowRun
from ..rows.skills import staffed
from ..solvers.linear_solvers import LinearSolver
from ..week.records import Limits, Scenario, in_week


def week_after_week(plan: Plan, solver: Optional[LinearSolver], clock: Clock) -> List[NurseWeek]:
    """Rows of the first weeks, of all if the time is enough and each has a roster. Each week is
    planned before the next one and as the last one of a part of the period."""
    history = plan.history
    rows = [b""] * len(plan.nurses)
    keeping = ABSENCES_KEPT if plan.keeping == STRICT else plan.keeping
    for number, data in enumerate(plan.weeks):
        held = in_week((row for kept in plan.held.values() for row in kept), number)
        found: List[List[NurseWeek]] = []

        def offer(better: List[NurseWeek], _finder: str) -> Optional[Points]:
            found.append(better)
            return run.search.value_of(better) if run.search else None

        part = _part(plan.scenario, history.week + 1)
        week = Plan.of(part, history, [data], held=held, keeping=keeping)
        run = RowRun(week, solver, clock, offer, lambda: None, is_quick=True)
        run.run()
        if not found:
            break
        if number + 1 < len(plan.weeks):
            cells = staffed(week, run.crews, found[-1]).cells
            history = next_history(plan.scenario, history, cells)
        rows = [row + more for row, more in zip(rows, found[-1])]
    return rows


def _part(scenario: Scenario, weeks: int) -> Scenario:
    """The same ward in a period of so many weeks: its contracts have that part of their totals, so
    that none is used up too soon."""

    def share(total: int) -> int:
        return round(total * weeks / scenario.weeks)

    contracts = {
        name: replace(
            contract,
            assignments=Limits(*map(share, contract.assignments)),
            max_weekends=share(contract.max_weekends),
        )
        for name, contract in scenario.contracts.items()
    }
    return replace(scenario, weeks=weeks, contracts=contracts)
