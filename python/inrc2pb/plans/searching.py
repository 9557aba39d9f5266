"""A search for the weeks of a ward's plan that are not over. Days that are over stay as they
are."""

import enum
import tempfile
from dataclasses import replace
from pathlib import Path
from typing import Iterator, Mapping, NamedTuple

from ..judging.days_away import DaysAway
from ..judging.runs import ANY_CHOICE
from ..programs.clock import Clock
from ..programs.interrupts import interrupts
from ..programs.program import WeekFiles
from ..programs.progress import Progress
from ..rows.plan import Extra
from ..search.best_plan import BestPlan
from ..search.bounds import PLAIN, Bound
from ..search.plan_search import PlanSearch
from ..search.planned_weeks import PeriodFiles, PlannedWeeks, history_name
from ..search.why_none import Shortage, why_none
from ..week.facts import Choice, Claim, Fact, facts_text
from ..week.faults import FileFault, fault_line
from ..week.files import history_text, solution_text, week_text
from ..week.records import WEEK_DAYS, Cell, NurseDay, Solution, Week, WeekData, in_week
from ..week.writing import write_text
from .broken_days import without_broken
from .changes import CALL_POINTS, days_off_beside_absences, with_few_changes, with_old_skills
from .facts import next_days
from .limits import limits_for_leavers
from .ward import WardPlan

_FACTS = "facts.txt"


class Keep(enum.Enum):
    """How a search keeps the days of swaps: not at all, as far as that costs little, or all of
    them. Days that were set are kept as if they were days of swaps, and also if these are not."""

    NONE = enum.auto()
    MOST = enum.auto()
    ALL = enum.auto()


class Asked(NamedTuple):
    """What a search is asked for."""

    # The first day that may change.
    first: int
    few_changes: bool
    seconds: float
    agreed: Keep = Keep.ALL
    # Whether its plan is written if it exceeds a maximum that holds, and the plan before it does
    # not.
    do: bool = False
    # Whether no plan is better than one that breaks an agreed day, or keeps less of absences and
    # limits than the plan before it.
    is_firm: bool = False
    # A search takes up to so many times its seconds while its gap is wide.
    patience: float = 1.0
    # What a nurse who has to be called costs, in points.
    call_points: int = CALL_POINTS
    # Whether open shifts are to be filled, if a plan can, and those that nobody can take are left
    # open.
    fills: bool = False
    opens: bool = False


class KnownBound(NamedTuple):
    """What a search knows of all other plans."""

    # The penalty of the best one.
    penalty: int
    # The least that a plan can cost.
    bound: Bound
    # The least that one can cost that also keeps the days beside days away, if that is known.
    beside: int | None = None
    # Whether these days are also those of shift types with a maximum in a row that holds.
    has_runs: bool = False

    @property
    def is_proved(self) -> bool:
        """Whether `inrc2pb-bound` has proved it."""
        return self.bound.by != PLAIN


class Found(NamedTuple):
    """The plan that a search has found, what it knows of all others, and whether the user stopped
    it."""

    plan: WardPlan
    bound: KnownBound | None = None
    stopped: bool = False


def search_plan(old: WardPlan, asked: Asked, progress: Progress) -> Found:
    """The best plan of the weeks that are not over. It begins with the old one, if there is one."""
    whole = old
    old, broken = without_broken(whole)
    with tempfile.TemporaryDirectory(prefix="inrc2pb-plan-") as name:
        files = _files(old, asked, Path(name))
        beside = old.days_away._replace(fixed=asked.first - old.first)
        weeks = _weeks(files, beside, _extra(old, asked))
        start = (
            [cell._replace(day=cell.day - old.first) for cell in old.cells]
            if old.is_planned
            else None
        )
        clock = Clock(asked.seconds)
        best = BestPlan(weeks, announce=progress.improved, warn=progress.warn)
        # A search may count points that a plan has not: then its bound says nothing of plans.
        is_bounded = not asked.few_changes and asked.agreed is not Keep.MOST
        search = PlanSearch(
            weeks, best, clock, progress, is_bounded=is_bounded, patience=asked.patience
        )
        with interrupts() as signals, signals.calling(search.interrupt):
            try:
                search.run(start)
            except Exception as fault:
                if best.rank is None:
                    raise
                progress.warn(fault_line(fault))
    cells = [cell._replace(day=cell.day + old.first) for cell in best.cells]
    labelled = with_old_skills(old.scenario, cells, [*old.cells, *old.held.values()])
    bound = (
        KnownBound(best.penalty, search.bound, search.bound_beside, bool(beside.kept))
        if search.bound and best.penalty is not None and not broken
        else None
    )
    return Found(whole.with_cells([*labelled, *broken]), bound, clock.stopped)


def _extra(old: WardPlan, asked: Asked) -> Extra:
    """What a search counts beyond the charges of its weeks: nurses to call, if few shifts may
    change, and the first days of the next period, if it is planned."""
    then = next_days(old)
    if not (asked.few_changes and old.is_planned):
        return Extra(then=then)
    return Extra(_older_rows(old), asked.call_points, then)


def extra_text(old: WardPlan, counts_changes: bool) -> str:
    """For what a search counts more points than its plan costs."""
    changes = "changed shifts" if counts_changes and old.is_planned else ""
    then = "the first days of the next period" if old.ward.border else ""
    return " and ".join(filter(None, (changes, then)))


def _older_rows(old: WardPlan) -> dict[str, bytes]:
    """The rows of the nurses who have shifts in the plan. On a day on which one is away she need
    not be called."""
    numbers = {shift: number for number, shift in enumerate(old.scenario.shift_types, 1)}
    rows: dict[str, bytes] = {}
    for nurse in dict.fromkeys(place.nurse for place in old.works):
        places = (NurseDay(nurse, day) for day in range(old.first, old.days.total))
        cells = ((place, old.works.get(place)) for place in places)
        rows[nurse] = bytes(
            ANY_CHOICE if place in old.away else numbers[cell.shift] if cell else 0
            for place, cell in cells
        )
    return rows


def _weeks(files: PeriodFiles, beside: DaysAway, extra: Extra) -> PlannedWeeks:
    """The weeks of these files. A fault names a file without its folder, which is there for the
    search only."""
    try:
        return PlannedWeeks(files, beside, extra)
    except FileFault as fault:
        raise FileFault(
            fault.path.name,
            fault.line,
            f"{fault.message}: correct the plan or the spreadsheet",
            fault.fault,
        ) from fault


def _files(old: WardPlan, asked: Asked, folder: Path) -> PeriodFiles:
    """The files of a search, in this folder."""
    history = folder / history_name(old.state.open_week)
    given = folder / _FACTS
    agreed = kept_agreed(old, asked)
    claims = [*_later_claims(old, asked.first), *_past_claims(old, asked.first)]
    claims += [
        _off(place)
        for place, cell in agreed.items()
        if cell is None and asked.agreed is not Keep.MOST
    ]
    write_text(folder / "ward.txt", old.ward.texts["ward.txt"])
    write_text(history, history_text(old.past))
    write_text(given, facts_text(old.scenario.name, claims))
    held = [cell for cell in old.held.values() if cell.day >= asked.first] + [
        cell for cell in old.cells if cell.day < asked.first
    ]
    if asked.agreed is not Keep.MOST:
        held += [cell for cell in agreed.values() if cell]
    weeks = []
    fixes = {}
    for number in old.weeks:
        path = folder / f"week-{number}.txt"
        fixes[number] = folder / f"fix-{number}.txt"
        write_text(
            path, week_text(_week(old, number, asked, agreed if asked.agreed is Keep.MOST else {}))
        )
        write_text(
            fixes[number], solution_text(Solution(number, old.scenario.name, in_week(held, number)))
        )
        weeks.append(path)
    return PeriodFiles(
        folder / "ward.txt", history, weeks, dict(enumerate(fixes.values())), given=given
    )


# The shifts on nurses' days that a search keeps; None is a day off.
_Agreed = Mapping[NurseDay, Cell | None]


def _week(old: WardPlan, number: int, asked: Asked, agreed: _Agreed) -> WeekData:
    """The file of a week, in which few shifts change, if that is asked for, and as few of these
    agreed ones as possible."""
    if not old.is_planned:
        return old.data[number]
    new = set(old.scenario.nurses) - {place.nurse for place in old.works}
    first = WEEK_DAYS * number
    softly = range(max(asked.first - first, 0), WEEK_DAYS if asked.few_changes else 0)
    of_week, beside = (
        [(place.nurse, place.day - first) for place in days if place.day // WEEK_DAYS == number]
        for days in (agreed, days_off_beside_absences(old))
    )
    works: dict[NurseDay, Cell | None] = {**old.works, **agreed}
    roster = in_week([cell for cell in works.values() if cell], number)
    return with_few_changes(
        old.scenario, old.data[number], roster, softly, agreed=of_week, new=new, beside=beside
    )


def kept_agreed(old: WardPlan, asked: Asked) -> dict[NurseDay, Cell | None]:
    """The days of swaps, and those that were set, that can be kept: nobody is away on them, who
    works has the skill, and the spreadsheet holds no shift."""

    def can_be_kept(place: NurseDay, cell: Cell | None) -> bool:
        is_possible = cell is None or old.may_have(cell)
        return place.day >= asked.first and place not in old.held and is_possible

    swaps = (
        {}
        if asked.agreed is Keep.NONE
        else {place: old.works.get(place) for place in old.state.agreed}
    )
    asked_for = (
        {**swaps, **{promise.place: promise.cell for promise in old.state.set_days}}
        if old.is_planned
        else {}
    )
    return {place: cell for place, cell in asked_for.items() if can_be_kept(place, cell)}


def _off(place: NurseDay) -> Claim:
    """That a nurse is off on a day."""
    return Claim(Choice(place.day // WEEK_DAYS + 1, place.nurse, place.day % WEEK_DAYS, None))


def _later_claims(old: WardPlan, first: int) -> list[Claim]:
    """What plans keep, but for absences before this day."""

    def is_past(fact: Fact) -> bool:
        return isinstance(fact, Choice) and WEEK_DAYS * (fact.week - 1) + fact.day < first

    return [
        claim
        for claim in limits_for_leavers(old.ward, old.state, old.limits, first)
        if not is_past(claim.fact)
    ]


def _past_claims(old: WardPlan, first: int) -> Iterator[Claim]:
    """That whoever was off before this day, in the weeks that are not over, stays off."""
    places = (
        NurseDay(nurse, day) for day in range(old.first, first) for nurse in old.scenario.nurses
    )
    return (_off(place) for place in places if place not in old.works)


def shortages(plan: WardPlan) -> Iterator[tuple[int, Shortage]]:
    """The weeks that have no roster by themselves, and which minimum numbers to lower in them."""
    with tempfile.TemporaryDirectory(prefix="inrc2pb-plan-") as name:
        for number in plan.weeks:
            past = plan.histories[min(number, len(plan.histories) - 1)]
            week = Week(plan.scenario, replace(past, week=number), plan.data[number])
            shortage = why_none(_week_files(plan, week, Path(name)), week)
            if shortage.places:
                yield number, shortage


def _week_files(plan: WardPlan, week: Week, folder: Path) -> WeekFiles:
    """The files of a week, in this folder."""
    number = week.history.week
    paths = [
        folder / file
        for file in ("ward.txt", "history.txt", f"week-{number}.txt", f"fix-{number}.txt", _FACTS)
    ]
    texts = plan.ward.texts
    for path in paths:
        write_text(
            path, history_text(week.history) if path.name == "history.txt" else texts[path.name]
        )
    return WeekFiles(paths[0], paths[1], paths[2], paths[3], given=paths[4])
