"""The verbs that search share this: a search for a plan, and the plan that is written."""

from dataclasses import replace
from typing import Callable, Sequence

from ..programs.clock import Clock
from ..programs.interrupts import Interrupts, interrupts
from ..judging.leave import ILL
from ..programs.program import NO_ROSTER
from ..solvers.linear_solvers import is_installed
from ..sheets.open_shifts import OpenShift
from ..week.faults import ProgramFault, Stopped
from ..week.records import WEEK_DAYS
from .absence import Away
from .changes import CALL_POINTS
from .exchanges import STEPS_A_SECOND, more_even
from .last_year import LastYear, last_year
from .facts import breaks, newly_exceeded, unkept, while_away
from .left_open import filled, left_open, open_from, with_fewer_open, with_open, without_away
from .needless_changes import without_needless_changes
from .planned import Cause, NoPlan, Planned
from .offers import given_up
from .searching import Asked, Found, Keep, extra_text, search_plan, shortages
from .store import PlanStore, penalties, wide_gap
from .verb import Event, Outcome, Status, saved
from .ward import WardPlan, for_leavers, without_border

# The seconds of a search, for each week if it is a whole plan.
WEEK_SECONDS = 20.0
CHANGE_SECONDS = 30.0
# How many times its usual seconds the verb plan takes while the gap of its plan is wide.
PATIENCE = 5.0
# The part of the seconds of a search for a plan that keeps the agreed days, since another search
# may be needed for one that does not.
FIRM_SHARE = 0.75
# The part of the seconds of a whole plan in which a quiet machine makes nights and weekends more
# even, and how many seconds at most, or if the user has stopped the search.
EVENING_SHARE = 0.1
MOST_EVENING = 8.0
STOPPED_EVENING = 0.3
# The seconds in which needless changes are taken back, if the user has stopped the search.
STOPPED_CHANGES = 0.9
# The seconds of a search in the next period, if the user has stopped the one before.
STOPPED_NEXT = 1.0
# What a search says before it begins anew.
WITHOUT_AGREED = (
    "no plan was found that keeps all agreed swaps: a search for one that may break them"
)
FIRM = "no plan was found that keeps all of this"
STILL_OPEN = "no plan was found that fills the open shifts: a search for one that leaves them open"
LEFT_OPEN = "no plan was found that fills all shifts: a search for one that leaves some open"
GIVES_UP = "the next period gives that up: a search without regard to its first day"
FOR_REASON = "no plan was found: a search for the reason, at most 30 s for each week"


def searched_for(store: PlanStore, event: Event, absence: Away, *named: int) -> Outcome:
    """The outcome of a search with an absence, or without it; the verb is named with these days. If
    the days alone exceed a maximum that holds, there is no search before the user is asked."""
    if not event.do and newly_exceeded(absence.old, absence.there):
        return replace(absence, status=Status.NOT_KEPT)
    say(store, absence.begin())
    verb = " ".join([absence.word, absence.nurse, *map(absence.old.days.head, named)])
    following = store.following(absence.new)[0]
    # A plan in which it goes on may have a fault.
    after = store.plan_of(absence.new.state.period + 1) if absence.left else following
    parts = 2 if after and absence.goes_on(after) else 1
    seconds = (event.seconds or CHANGE_SECONDS) / parts
    asked = Asked(absence.days[0], True, seconds, do=event.do)
    return searched(store, event, verb, absence.new, asked, absence)


def searched(
    store: PlanStore,
    event: Event,
    verb: str,
    old: WardPlan,
    asked: Asked,
    cause: Cause | None = None,
) -> Outcome:
    """Searches, also in the next period, as far as the verb reaches, and writes what was found. The
    `cause` has the plan without what it asks for."""
    sheet = store.folder.seen
    asked = asked._replace(opens=event.open or event.verb == ILL)
    # A second Ctrl-C does not end it before the plan is written.
    with interrupts() as signals, signals.ending():
        found = _planned(store, verb, old, asked, cause, signals)
        may_give = isinstance(cause, Away) and isinstance(found, Planned) and bool(found.gives_up)
        if may_give and event.do:
            say(store, [GIVES_UP])
            found = _planned(store, verb, without_border(old), asked, cause, signals)
        if isinstance(found, Planned):
            found = _with_next(store, found, signals, gives=may_give and event.do)
        if isinstance(found, NoPlan):
            return found
        if not asked.do and any(newly_exceeded(part.before, part.plan) for part in found.parts):
            return replace(found, status=Status.NOT_KEPT)
        if event.look:
            return replace(found, is_look=True)
        if may_give and not (event.do or event.open):
            return replace(found, status=Status.NOT_KEPT, asks_next=True)
        if store.folder.seen != sheet:
            return replace(found, status=Status.NOT_KEPT, is_of_older_sheet=True)
        return written(store, event, found)


def written(store: PlanStore, event: Event, found: Planned) -> Planned:
    """Writes the plan that was found, and those of the next periods that belong to it."""
    then = [part.plan for part in found.parts[1:]]
    store.add(found.verb, found.plan, event.typed, then=then)
    return saved(found, store.pages(found.plan))


def _with_next(
    store: PlanStore, found: Planned, signals: Interrupts, gives: bool
) -> Planned | NoPlan:
    """The plan that was found, with that of the next period, if an absence goes on there, or if it
    `gives` shifts up that may not follow this plan."""
    before, after = found.following
    if not (before and after and isinstance(found.cause, Away)):
        return found
    cause = found.cause.goes_on(after)
    if gives and breaks(after, 0) != breaks(before, 0):
        cause = cause or replace(found.cause, old=after, new=after, days=())
    if cause is None:
        return found
    say(store, cause.begin() if cause.days else [])
    seconds = min(found.asked.seconds, STOPPED_NEXT) if signals.caught else found.asked.seconds
    asked = found.asked._replace(first=0, seconds=seconds)
    then = _planned(store, found.verb, cause.new, asked, cause, signals)
    if isinstance(then, Planned):
        then = _with_next(store, then, signals, gives=False)
    if isinstance(then, NoPlan):
        return then
    status = found.status if found.status is Status.NOT_KEPT else then.status
    return replace(found, then=then, ended_by=then.ended_by, status=status)


def _planned(
    store: PlanStore,
    verb: str,
    old: WardPlan,
    asked: Asked,
    cause: Cause | None,
    signals: Interrupts,
) -> Planned | NoPlan:
    """The best plan that a search finds, which is not written."""
    say(store, search_lines(old, asked, store.means.end))
    asked = asked._replace(call_points=_call_points(cause.old if cause else old))
    store.means.progress.counts = extra_text(old, asked.few_changes)
    try:
        found = _filling(store, old, asked._replace(seconds=asked.seconds - _evening(asked)))
    except Stopped:
        raise
    except ProgramFault as fault:
        return _no_plan(store, old, asked, fault, cause)
    during_search = len(signals.caught)
    is_stopped = found.stopped
    clock = Clock(STOPPED_CHANGES)

    def ends() -> bool:
        return len(signals.caught) > during_search or is_stopped and not clock.left()

    if asked.few_changes and old.is_planned:
        found = found._replace(plan=without_needless_changes(old, found.plan, ends))
    before = LastYear() if asked.few_changes else last_year(store.periods(), old)
    if not asked.few_changes:
        found = found._replace(plan=_evened(found, asked, ends, before))
    works = found.plan.works
    new = with_fewer_open(found.plan)
    state = new.state.agreeing(lambda place: works.get(place) == old.works.get(place))
    new = new.with_state(replace(state, least=_least(old, found, asked)))
    older = cause.old if cause else old
    seen = older if old.is_planned else None
    if asked.is_firm and (newly_exceeded(seen, new) or while_away(new) > while_away(older)):
        raise ProgramFault(NO_ROSTER, FIRM)
    return Planned(
        before=seen,
        old=old,
        asked=asked,
        plan=new,
        penalties=penalties(new),
        bound=found.bound,
        is_stopped=is_stopped or ends(),
        ended_by=next(iter(signals.caught), None),
        cause=cause,
        verb=verb,
        status=Status.NOT_KEPT if unkept(new) else Status.DONE,
        following=store.following(new),
        gives_up=given_up(new),
        last_year=before,
    )


def search_lines(plan: WardPlan, asked: Asked, end: str) -> list[str]:
    """What a search begins with; `end` says how a user ends it."""
    days = plan.days.span([asked.first, plan.days.total - 1])
    most = asked.patience * asked.seconds
    longer = f", and {most:g} while the gap is wide" if most > asked.seconds else ""
    return [f"{days}, at most {asked.seconds:g} seconds in all{longer}{f'; {end}' if end else ''}"]


def say(store: PlanStore, said: Sequence[str]) -> None:
    """Says what goes before the result of a verb."""
    for line in said:
        store.means.say(line)


def _evened(
    found: Found,
    asked: Asked,
    ends: Callable[[], bool] = lambda: False,
    before: LastYear = LastYear(),
) -> WardPlan:
    """The plan with nights, weekends and bank holidays that are shared more evenly, if the program
    charges as much for it."""
    seconds = STOPPED_EVENING if found.stopped else _evening(asked)
    clock = Clock(seconds)

    def is_over() -> bool:
        # Who has stopped the search does not wait longer on a slow machine.
        return ends() or found.stopped and clock.left() <= 0

    steps = round(STEPS_A_SECOND * seconds)
    even = more_even(found.plan, asked.first, steps, is_over, before.shares)
    return (
        even if sum(penalties(even).values()) == sum(penalties(found.plan).values()) else found.plan
    )


def _least(old: WardPlan, found: Found, asked: Asked) -> int | None:
    """What no plan costs less than, as far as a search says so: without a bound it knows nothing
    but 0, if a solver is there, and a plan with few changes leaves it as it was."""
    if asked.few_changes or asked.agreed is Keep.MOST:
        return old.state.least
    return found.bound.bound.points if found.bound else 0 if is_installed() else None


def _call_points(old: WardPlan) -> int:
    """What a nurse who has to be called costs: if the gap of the plan before is wide, as much as
    all that another plan can save, so that nobody is called to mend that plan."""
    gap = wide_gap(old)
    return max(CALL_POINTS, gap.points - gap.least) if gap else CALL_POINTS


def _evening(asked: Asked) -> float:
    """The seconds in which nights and weekends are made more even: none if few shifts change."""
    return 0.0 if asked.few_changes else min(EVENING_SHARE * asked.seconds, MOST_EVENING)


def _filling(store: PlanStore, old: WardPlan, asked: Asked) -> Found:
    """The best plan, which fills the open shifts, if that is asked for and one does."""
    if not (asked.fills and open_from(old, asked.first)):
        return _opening(store, old, asked)
    clock = Clock(asked.patience * asked.seconds)
    first = asked._replace(seconds=FIRM_SHARE * asked.seconds)
    try:
        found = _found(store, filled(old, asked.first), first)
        if found.stopped or while_away(found.plan) <= while_away(old):
            return found
    except Stopped:
        raise
    except ProgramFault as fault:
        if fault.status != NO_ROSTER:
            raise
    store.means.say(STILL_OPEN)
    return _opening(store, old, _with_rest(asked, clock))


def _opening(store: PlanStore, old: WardPlan, asked: Asked) -> Found:
    """The best plan; if that is asked for, one that leaves those shifts open that only nurses who
    are away could have, or nobody. If few shifts may change, these alone do then."""
    clock = Clock(asked.patience * asked.seconds)
    try:
        found = _found(store, old, asked)
        if not asked.opens or not while_away(found.plan):
            return found
        opened = left_open(without_away(found.plan, asked.first), asked.first)
    except Stopped:
        raise
    except ProgramFault as fault:
        if fault.status != NO_ROSTER or not asked.opens:
            raise
        found = Found(old)
        opened = (
            left_open(without_away(old, asked.first), asked.first)
            if old.is_planned and asked.few_changes
            else _with_shortages(store, old)
        )
    if asked.few_changes and old.is_planned:
        return Found(opened, stopped=found.stopped)
    store.means.say(LEFT_OPEN)
    return _found(store, with_open(old, opened.state.opened), _with_rest(asked, clock))


def _with_rest(asked: Asked, clock: Clock) -> Asked:
    """The same for a second search, by a clock for the most seconds of both."""
    left = clock.left()
    usual = left - (asked.patience - 1) * asked.seconds
    seconds = min(left, max(usual, (1 - FIRM_SHARE) * asked.seconds))
    return asked._replace(seconds=seconds, patience=max(1.0, left / seconds) if seconds else 1.0)


def _with_shortages(store: PlanStore, old: WardPlan) -> WardPlan:
    """The plan with those shifts open, week by week, that no roster of the week has."""
    store.means.say(FOR_REASON)
    opened = {one.place: one for one in old.state.opened}
    for number, shortage in shortages(old):
        for short in shortage.places:
            place = short.place._replace(day=WEEK_DAYS * number + short.place.day)
            older = opened.get(place, OpenShift(*place, 0))
            more = older.missing + short.minimum - short.there
            opened[place] = older._replace(missing=more)
    return with_open(old, opened.values())


def _found(store: PlanStore, old: WardPlan, asked: Asked) -> Found:
    """The best plan that keeps the agreed days, or, if it would keep less of the absences and
    limits, one that keeps most of them."""
    if asked.is_firm or not (old.state.set_days if asked.agreed is Keep.NONE else old.state.kept):
        return search_plan(old, asked, store.means.progress)
    clock = Clock(asked.patience * asked.seconds)
    firm: Found | None = None
    try:
        first = asked._replace(seconds=FIRM_SHARE * asked.seconds)
        firm = search_plan(old, first, store.means.progress)
        if firm.stopped or not unkept(for_leavers(firm.plan, asked.first)):
            return firm
    except Stopped:
        raise
    except ProgramFault as fault:
        if fault.status != NO_ROSTER:
            raise
    store.means.say(WITHOUT_AGREED)
    store.means.progress.counts = extra_text(old, True)
    second = _with_rest(asked, clock)._replace(agreed=Keep.MOST)
    free = search_plan(old, second, store.means.progress)
    return firm if firm and len(unkept(firm.plan)) <= len(unkept(free.plan)) else free


def _no_plan(
    store: PlanStore, old: WardPlan, asked: Asked, fault: ProgramFault, cause: Cause | None
) -> NoPlan:
    """Which minimum numbers to lower, if that is why there is no plan."""
    if fault.status != NO_ROSTER or asked.is_firm:
        raise fault
    store.means.say(FOR_REASON)
    why = next(shortages(old), None)
    if why is None:
        raise fault
    return NoPlan(old, *why, cause, status=Status.NO_PLAN)
