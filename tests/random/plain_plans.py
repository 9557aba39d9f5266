"""All plans of a tiny period, by docs/rules.md: what each nurse may do in all weeks, what it costs,
and which charges it has.

A period has drafts of its weeks (all with the history before the first one), whether totals are
charged early, the held cells of each week as tuples (nurse, day, shift type, skill), and facts that
all plans are asked to keep. A fact is a tuple:

    ("CHOICE", week, nurse, day, shift type or None)        weeks and days count from 0
    ("PLACE", week, day, shift type, skill, maximum)
    ("CHARGES", kind, nurse or None for all, maximum)
    ("EVEN",)                                               the number of charges of shift runs

A condition is a pair of a fact and whether it holds. `judging.rules` is not used here.
"""

import functools
import itertools
import math
from dataclasses import dataclass
from types import SimpleNamespace
from typing import Dict, Iterator, List, NamedTuple, Optional, Sequence, Tuple

Fact = Tuple  # type: ignore[type-arg]
Condition = Tuple[Fact, bool]
Cell = Tuple[str, int, str, str]
Place = Tuple[int, int, str, str]  # week, day, shift type, skill

# The points of a charge of each kind: of S2, S6 and S7; and of S1.
POINTS = {"SHIFT_RUNS": 15, "WORK_DAYS": 30, "SHIFTS": 20, "WEEKENDS": 30}
MISSING = 30
# The maximum number in a file.
MAX_NUMBER = 9999
DAYS = 7


@dataclass
class Period:
    """Weeks that are planned together, and what is asked for."""

    weeks: List[SimpleNamespace]
    early: bool
    held: List[List[Cell]]
    given: List[Condition]

    @property
    def nurses(self) -> List[str]:
        return list(self.weeks[0].nurses)

    @functools.cached_property
    def demands(self) -> Dict[Place, Tuple[int, int]]:
        """The minimum and the optimal number of each place."""
        return {
            (number, day, shift, skill): draft.required.get((day, shift, skill), (0, 0))
            for number, draft in enumerate(self.weeks)
            for day in range(DAYS)
            for shift in draft.shifts
            for skill in draft.skills
        }

    def is_last(self, week: int) -> bool:
        """Whether this week is the last one of the scenario."""
        return bool(self.weeks[0].number + week + 1 == self.weeks[0].weeks)


class Past(NamedTuple):
    """The history of a nurse before a week."""

    shifts: int
    weekends: int
    last: Optional[str]
    same: int
    work: int
    off: int


class Charged(NamedTuple):
    """The numbers of charges by kind, the points of all other charges, and the history after
    them."""

    counts: Dict[str, int]
    fixed: int
    past: Past


class Chain(NamedTuple):
    """What a nurse does: her history before each week, her shift type on each day of all weeks, the
    skills that she may have then, and the charges of all weeks."""

    nurse: str
    pasts: Tuple[Past, ...]
    shifts: Tuple[Optional[str], ...]
    skills: Tuple[Tuple[str, ...], ...]
    counts: Dict[str, int]
    fixed: int


# ---- the charges of a nurse in a week


def run(has: Sequence[bool], length: int, limits: Tuple[int, int]) -> Tuple[int, int, int]:
    """The days of a week by which runs are above the maximum, and below the minimum, and the length
    on Sunday."""
    above = below = 0
    for one in has:
        if one:
            length += 1
            above += length > limits[1]
        else:
            below += max(0, limits[0] - length) if length else 0
            length = 0
    return above, below, length


def excess(before: int, added: int, most: int, early: bool, is_last: bool) -> int:
    """The charges of a total above its maximum: all of them in the last week, or, if they are
    charged early, those that this week adds."""
    if early:
        return max(0, before + added - most) - max(0, before - most)
    return max(0, before + added - most) if is_last else 0


def charged(
    period: Period, week: int, nurse: str, past: Past, shifts: Sequence[Optional[str]]
) -> Charged:
    """The charges of a nurse in a week, and her history after it."""
    draft = period.weeks[week]
    is_last = period.is_last(week)
    contract = draft.contracts[draft.nurses[nurse].contract]
    works = [shift is not None for shift in shifts]
    of_shifts = 0
    on_sunday = 0
    for shift, limits in draft.shifts.items():
        above, below, length = run(
            [one == shift for one in shifts], past.same if past.last == shift else 0, limits
        )
        of_shifts += above + below
        on_sunday += length
    work_above, work_below, work = run(works, past.work, contract.work)
    off_above, off_below, off = run([not one for one in works], past.off, contract.off)
    requests = sum(
        shifts[day] is not None and shift in ("Any", shifts[day])
        for one, shift, day in draft.requests
        if one == nurse
    )
    weekend = int(works[5] or works[6])
    missing = max(0, contract.total[0] - past.shifts - sum(works)) if is_last else 0
    counts = {
        "SHIFT_RUNS": of_shifts,
        "WORK_DAYS": work_above,
        "SHIFTS": excess(past.shifts, sum(works), contract.total[1], period.early, is_last),
        "WEEKENDS": excess(past.weekends, weekend, contract.weekends, period.early, is_last),
    }
    fixed = 30 * (work_below + off_above + off_below)  # S2 and S3
    fixed += 10 * requests + 20 * missing  # S4 and S6
    fixed += 30 * (bool(contract.complete) and works[5] != works[6])  # S5
    return Charged(
        counts,
        fixed,
        Past(past.shifts + sum(works), past.weekends + weekend, shifts[6], on_sunday, work, off),
    )


# ---- what a nurse may do


def choices(
    period: Period, week: int, nurse: str, day: int
) -> Dict[Optional[str], Tuple[str, ...]]:
    """Her choices of a day, each with the skills that she may have: a held cell is the only one,
    and two held cells leave none."""
    draft = period.weeks[week]
    held = {cell[2:] for cell in period.held[week] if cell[:2] == (nurse, day)}
    found: Dict[Optional[str], Tuple[str, ...]] = {} if held else {None: ()}
    for shift in draft.shifts:
        skills = tuple(
            skill
            for skill in draft.skills
            if skill in draft.nurses[nurse].skills and held <= {(shift, skill)}
        )
        if skills:
            found[shift] = skills
    return {
        choice: skills
        for choice, skills in found.items()
        if allows(period.given, week, nurse, day, choice)
    }


def allows(
    case: Sequence[Condition], week: int, nurse: str, day: int, choice: Optional[str]
) -> bool:
    """Whether the conditions allow a nurse the choice of a day."""
    return all(
        (fact[4] == choice) == holds
        for fact, holds in case
        if fact[:4] == ("CHOICE", week, nurse, day)
    )


def size(period: Period) -> int:
    """The most choices of a nurse for all days."""
    days = list(itertools.product(range(len(period.weeks)), range(DAYS)))
    return max(
        math.prod(len(choices(period, week, nurse, day)) for week, day in days)
        for nurse in period.nurses
    )


def first_past(period: Period, nurse: str) -> Past:
    """Her history before the first week."""
    one = period.weeks[0].history[nurse]
    return Past(
        one.assignments,
        one.weekends,
        None if one.last == "None" else one.last,
        one.same,
        one.work,
        one.off,
    )


def is_allowed(period: Period, week: int, past: Past, shifts: Sequence[Optional[str]]) -> bool:
    """Whether no succession of shift types in a week is forbidden."""
    return not any(
        pair in period.weeks[week].forbidden for pair in zip((past.last, *shifts), shifts)
    )


def chains(period: Period, nurse: str) -> Iterator[Chain]:
    """All that she may do in the weeks, without a succession that is forbidden."""
    known: Dict[object, Charged] = {}

    def week_after(week: int, past: Past, before: Chain) -> Iterator[Chain]:
        if week == len(period.weeks):
            yield before
            return
        allowed = [choices(period, week, nurse, day) for day in range(DAYS)]
        for shifts in itertools.product(*allowed):
            if is_allowed(period, week, past, shifts):
                if (week, past, shifts) not in known:
                    known[week, past, shifts] = charged(period, week, nurse, past, shifts)
                found = known[week, past, shifts]
                skills = tuple(allowed[day][shift] for day, shift in enumerate(shifts))
                yield from week_after(
                    week + 1, found.past, longer(before, past, shifts, skills, found)
                )

    return week_after(0, first_past(period, nurse), start(nurse))


def start(nurse: str) -> Chain:
    """The chain of no week."""
    return Chain(nurse, (), (), (), dict.fromkeys(POINTS, 0), 0)


def longer(
    chain: Chain,
    past: Past,
    shifts: Tuple[Optional[str], ...],
    skills: Tuple[Tuple[str, ...], ...],
    found: Charged,
) -> Chain:
    """The chain with a week more, after this history."""
    counts = {kind: chain.counts[kind] + found.counts[kind] for kind in POINTS}
    return Chain(
        chain.nurse,
        (*chain.pasts, past),
        chain.shifts + shifts,
        chain.skills + skills,
        counts,
        chain.fixed + found.fixed,
    )


# ---- plans


class Plan(NamedTuple):
    """A plan: what each nurse does, and the places of her cells."""

    chains: Tuple[Chain, ...]
    places: Tuple[Tuple[Place, ...], ...]

    def rosters(self, weeks: int) -> List[List[Cell]]:
        """The cells of so many weeks."""
        return [self.cells(week) for week in range(weeks)]

    def cells(self, week: int) -> List[Cell]:
        """The cells of a week."""
        return [
            (chain.nurse, *place[1:])
            for chain, places in zip(self.chains, self.places)
            for place in places
            if place[0] == week
        ]


def places_of(chain: Chain) -> Iterator[Tuple[Place, ...]]:
    """The places of a nurse's cells, for each choice of skills."""
    days = [
        (*divmod(number, DAYS), shift)
        for number, shift in enumerate(chain.shifts)
        if shift is not None
    ]
    for chosen in itertools.product(
        *(skills for skills, shift in zip(chain.skills, chain.shifts) if shift is not None)
    ):
        yield tuple((*day, skill) for day, skill in zip(days, chosen))


def plans(every: Dict[str, List[Chain]]) -> Iterator[Plan]:
    """The plans in which each nurse does what she may do; they may break rules about places and
    held cells."""
    for chosen in itertools.product(*every.values()):
        for places in itertools.product(*map(places_of, chosen)):
            yield Plan(chosen, places)


def plan_of(period: Period, rosters: Sequence[Sequence[Cell]]) -> Optional[Plan]:
    """The plan of these rosters, if each nurse may do so."""
    found: List[Chain] = []
    for nurse in period.nurses:
        chain = start(nurse)
        past = first_past(period, nurse)
        for week, roster in enumerate(rosters):
            on = {cell[1]: cell[2] for cell in roster if cell[0] == nurse}
            shifts = tuple(on.get(day) for day in range(DAYS))
            allowed = [choices(period, week, nurse, day) for day in range(DAYS)]
            if not is_allowed(period, week, past, shifts) or any(
                shift not in allowed[day] for day, shift in enumerate(shifts)
            ):
                return None
            week_charged = charged(period, week, nurse, past, shifts)
            chain = longer(
                chain,
                past,
                shifts,
                tuple(allowed[day][shift] for day, shift in enumerate(shifts)),
                week_charged,
            )
            past = week_charged.past
        found.append(chain)
    cells = [(cell[0], (week, *cell[1:])) for week, roster in enumerate(rosters) for cell in roster]
    return Plan(
        tuple(found),
        tuple(tuple(place for other, place in cells if other == nurse) for nurse in period.nurses),
    )


def numbers(plan: Plan) -> Dict[Place, int]:
    """The numbers of nurses at places with some."""
    found: Dict[Place, int] = {}
    for place in itertools.chain(*plan.places):
        found[place] = found.get(place, 0) + 1
    return found


def first_broken(period: Period, plan: Plan) -> Optional[Tuple[int, str]]:
    """The first week with a broken rule, H2 or H5, and that rule: the chains keep the others."""
    present = numbers(plan)
    for week, held in enumerate(period.held):
        if any(
            present.get(place, 0) < demand[0]
            for place, demand in period.demands.items()
            if place[0] == week
        ):
            return week, "H2"
        if not set(held) <= set(plan.cells(week)):
            return week, "H5"
    return None


def first_beyond(plan: Plan) -> Optional[int]:
    """The first week before which the history of a nurse has a number that a file may not have."""
    pasts = enumerate(zip(*(chain.pasts for chain in plan.chains)))
    return next(
        (
            week
            for week, all_pasts in pasts
            if any(max(past[:2] + past[3:]) > MAX_NUMBER for past in all_pasts)
        ),
        None,
    )


def is_fact(plan: Plan, fact: Fact) -> bool:
    """Whether a fact is true of a plan."""
    if fact[0] == "CHOICE":
        _, week, nurse, day, choice = fact
        return any(
            bool(chain.shifts[DAYS * week + day] == choice)
            for chain in plan.chains
            if chain.nurse == nurse
        )
    if fact[0] == "PLACE":
        _, week, day, shift, skill, most = fact
        return numbers(plan).get((week, day, shift, skill), 0) <= int(most)
    if fact[0] == "EVEN":
        return sum(chain.counts["SHIFT_RUNS"] for chain in plan.chains) % 2 == 0
    _, kind, nurse, most = fact
    return sum(chain.counts[kind] for chain in plan.chains if nurse in (None, chain.nurse)) <= int(
        most
    )


def first_unmet(period: Period, plan: Plan) -> Optional[int]:
    """The number of the first given condition that a plan does not meet."""
    return next(
        (
            number
            for number, (fact, holds) in enumerate(period.given)
            if is_fact(plan, fact) != holds
        ),
        None,
    )


def cost(period: Period, plan: Plan) -> int:
    """The penalties of all weeks."""
    present = numbers(plan)
    missing = sum(
        max(0, demand[1] - present.get(place, 0)) for place, demand in period.demands.items()
    )
    charges = sum(POINTS[kind] * chain.counts[kind] for chain in plan.chains for kind in POINTS)
    return MISSING * missing + charges + sum(chain.fixed for chain in plan.chains)
