"""The verb that sets a nurse's day, so that later plans keep it."""

import datetime
from dataclasses import dataclass, replace

from ...programs.program import NO_ROSTER
from ...sheets.written_days import BACK
from ...week.faults import FileFault, Misuse, ProgramFault, Stopped
from ...week.records import Cell, NurseDay
from ...week.words import OFF, readable
from ..corrections import next_period_lines
from ..left_open import left_open, new_open_lines, with_fewer_open
from ..nurse_weeks import Fault
from ..offers import MOST_OFFERS, follow_up_lines, offer_text, reason_text, refused_lines
from ..planning import CHANGE_SECONDS, searched
from ..searching import Asked
from ..sentences import cell_text, exceeded_lines
from ..state import SetDay
from ..store import PlanStore, penalties
from ..swaps import MOST_POINTS, Instead, Offer, Swaps
from ..verb import Event, Form, Outcome, Status, Verb, cell_of, saved, wording_of
from ..ward import PROMISED, BeforeAndAfter, WardPlan

# How a shift is left open that only this nurse fills.
OPEN_TEXT = "with --open the shift that she leaves stays open"


@dataclass(frozen=True)
class DaySet(Outcome):
    """A nurse's day is set, with the plans before and after it."""

    old: WardPlan
    new: WardPlan
    promise: SetDay
    # Why it cannot be, and who could do it instead.
    faults: tuple[Fault, ...] = ()
    instead: tuple[Instead, ...] = ()
    # What was promised for the day before.
    replaces: SetDay | None = None
    # Whether later plans need not keep the promise any more.
    takes_back: bool = False
    # What the day alone adds to the points, and the words of the verb.
    cost: int = 0
    verb: str = ""
    # Whether other shifts may make room for it, and a search for them has time.
    may_be: bool = False
    # Whether a search has found no plan with it.
    has_searched: bool = False
    # The plan of the next period, before and after this; None if there is none.
    following: BeforeAndAfter = (None, None)

    @property
    def place(self) -> NurseDay:
        """The nurse's day."""
        return self.promise.place

    @property
    def now(self) -> Cell | None:
        """Her shift; None if she is off."""
        return self.promise.cell

    @property
    def needs_search(self) -> bool:
        """Whether the cheapest single exchange that does it costs more than a search may find, or
        none does it, and other shifts may make room for it."""
        if self.has_searched or not self.may_be:
            return False
        costs = [way.cost for way in self.instead if way.swap] + [self.cost] * (not self.faults)
        return all(cost > MOST_POINTS for cost in costs)

    @property
    def may_be_open(self) -> bool:
        """Whether only a minimum number is in the way."""
        return bool(self.faults) and all(one.is_minimum for one in self.faults)

    def heads(self, is_look: bool = False) -> list[str]:
        """What is promised, and what it replaces."""
        text = _promise_text(self.old, self.promise)
        older = self.replaces and _promise_text(self.old, self.replaces)
        return [
            *([f"this replaces what was promised: {older}"] if older else []),
            *([f"this day alone adds {self.cost:+} points"] if is_look and not self.faults else []),
            f"{text}: swaps and later plans keep it, until it is taken back",
        ]

    def lines(self, write: str = "") -> list[str]:
        """Why a nurse's day cannot be set, or what that changes and costs, and whether it is
        written; who could do it instead."""
        if self.takes_back:
            said = [
                f"{_promise_text(self.old, self.promise)}: swaps and later plans may change it"
                " again"
            ]
        elif self.faults:
            none = ["a search for a plan with it has found none"] if self.has_searched else []
            stays = [OPEN_TEXT] if self.may_be_open else []
            return [*refused_lines(self.old, [*self.faults]), *none, *stays, *self._instead()]
        else:
            *older, promise = self.heads()
            opened = new_open_lines(self.old, self.new)
            then = next_period_lines(*self.following)
            said = [*older, *follow_up_lines(self.old, self.new), *opened, *then, promise]
        if not self.is_written:
            instead = [] if self.takes_back else self._instead()
            return [*said, f"nothing is written: {write}", *instead] if write else said
        return [*said, *exceeded_lines(self.new), *self.pages.lines()]

    def _instead(self) -> list[str]:
        """Who could do it instead, or swap for it, and how that is written."""
        if self.replaces and not self.instead:
            return ["who else could do it is known after the older promise is taken back"]
        if not self.instead:
            return ["nobody else could do it without a broken rule or promise"]
        nurse = readable(self.place.nurse)
        day = self.old.days.head(self.place.day)
        shown = self.instead[:MOST_OFFERS]
        ways = [
            (
                f"swap {nurse} {day} NAME"
                if way.swap or not self.now
                else f"set NAME {day} {readable(self.now.shift)}"
            )
            for way in shown
        ]
        swaps = Swaps(self.old)
        said = [
            "other ways, and what they add to the points:",
            *(_instead_text(swaps, self, way) for way in shown),
        ]
        return [*said, f"with the name of one of them: {', or '.join(dict.fromkeys(ways))}"]


def set_day(old: WardPlan, event: Event) -> DaySet:
    """A nurse has this shift on a day, or is off, and later plans keep that; or, for the word
    `back`, they need not keep it any more."""
    name = readable(next(iter(old.scenario.nurses)))
    wording = wording_of(
        old,
        event,
        f"set {name} Fri {readable(next(iter(old.scenario.shift_types)))}, or set {name} Fri off",
    )
    place = NurseDay(wording.nurse(), wording.open_day())
    if wording.one_of((BACK,)):
        wording.end()
        return _set_back(old, place)
    now = cell_of(wording, old, place)
    promise = SetDay(*place, wording.reason(), now.shift if now else "", now.skill if now else "")
    if now == old.works.get(place) and promise in old.state.set_days:
        cure = f"set {readable(place.nurse)} {old.days.head(place.day)} {BACK} takes that back"
        raise Misuse(
            f"{readable(place.nurse)} has this on {old.days.text(place.day)} already, and later"
            f" plans keep it: {cure}"
        )
    swaps = Swaps(old)
    faults = tuple(
        fault for fault in swaps.day_faults(place, now) if not (event.open and fault.is_minimum)
    )
    new = _with_set_day(old, promise)
    new = left_open(new, new.first) if event.open else with_fewer_open(new)
    instead = tuple(swaps.instead(place, now))
    replaces = old.state.promised.get(place)
    return DaySet(
        old,
        new,
        promise,
        faults=faults,
        instead=instead,
        replaces=replaces,
        cost=swaps.day_cost(place, now),
        may_be=event.seconds != 0
        and not event.open
        and all(swaps.may_vanish(fault, place) for fault in faults),
        verb=_verb(old, place, now.shift if now else OFF),
        status=Status.NOT_KEPT if faults else Status.DONE,
    )


def _verb(old: WardPlan, place: NurseDay, word: str) -> str:
    """The verb with its words."""
    return f"set {place.nurse} {old.days.head(place.day)} {word}"


def _with_set_day(old: WardPlan, promise: SetDay) -> WardPlan:
    """The plan in which this is so. A swap of the day holds on below it, if the nurse has the same
    shift."""
    place = promise.place
    others = {other: cell for other, cell in old.works.items() if other != promise.place}
    is_same = old.works.get(place) == promise.cell
    state = old.state.agreeing(lambda other: is_same or other != place)
    set_days = (*(other for other in state.set_days if other.place != place), promise)
    return old.with_state(replace(state, set_days=set_days)).with_cells(
        [*others.values(), *([promise.cell] if promise.cell else [])]
    )


def _set_back(old: WardPlan, place: NurseDay) -> DaySet:
    """Later plans need not keep a nurse's day any more. Raises Misuse if it was not set."""
    promise = old.state.promised.get(place)
    if promise is None:
        raise Misuse(
            f"nothing is set for {readable(place.nurse)} on {old.days.text(place.day)}:"
            f" {_no_promise(old, place)}"
        )
    new = old.with_state(
        replace(
            old.state, set_days=tuple(other for other in old.state.set_days if other.place != place)
        )
    )
    return DaySet(old, new, promise, takes_back=True, verb=_verb(old, place, BACK))


def _no_promise(old: WardPlan, place: NurseDay) -> str:
    """What to do about a nurse's day for which nothing is set."""
    if place in old.held or old.away.get(place) == PROMISED:
        return (
            "the sheet plan promises it to her, so empty her cell of this day, and save the sheet"
        )
    if place in old.state.agreed:
        return (
            "the day is kept for a swap, which the same line as that of the swap, with --do, takes"
            " back"
        )
    return "set it first, or type undo"


def _asked(store: PlanStore, event: Event) -> DaySet:
    day_set = set_day(store.fitting(), event)
    return replace(day_set, following=store.following(day_set.new))


def _done(store: PlanStore, event: Event) -> Outcome:
    """What it costs, breaks, or takes back that a nurse has a shift on a day, and who could do it
    instead; with `do` it is written."""
    day_set = _asked(store, event)
    if day_set.needs_search:
        return _searched(store, event, day_set)
    if not event.do or day_set.faults:
        return day_set
    # The program has the last word on the new rosters.
    penalties(day_set.new)
    return saved(day_set, store.save(day_set.verb, day_set.new, event.typed))


def _searched(store: PlanStore, event: Event, day_set: DaySet) -> Outcome:
    """A plan with few changes in which the nurse has the shift, if a search finds one that keeps
    all that the plan before it keeps."""
    first = _first_free(day_set.old, day_set.place.day)
    asked = Asked(first, True, event.seconds or CHANGE_SECONDS, is_firm=True)
    look = event._replace(look=event.look or not event.do)
    none = replace(day_set, has_searched=True, status=Status.NOT_KEPT)
    try:
        return searched(store, look, day_set.verb, day_set.new, asked, day_set)
    except Stopped:
        raise
    except FileFault:
        # The day contradicts another one that is fixed.
        return none
    except ProgramFault as fault:
        if fault.status != NO_ROSTER:
            raise
        return none


def _first_free(plan: WardPlan, day: int) -> int:
    """The first day that may change for a promise of a day: tomorrow, or that day, if days have no
    dates."""
    if plan.days.monday is None:
        return day
    tomorrow = (datetime.date.today() - plan.days.monday).days + 1
    return min(day, max(plan.state.begin, tomorrow))


def _promise_text(plan: WardPlan, promise: SetDay) -> str:
    """Whose day is promised, what she has then, and why."""
    return (
        f"{readable(promise.nurse)}, {plan.days.text(promise.day)}:"
        f" {cell_text(promise.cell)}{reason_text(promise)}"
    )


def _instead_text(swaps: Swaps, day_set: DaySet, way: Instead) -> str:
    """Who could do it, and what that adds to the points."""
    nurse = readable(day_set.place.nurse)
    other = readable(way.nurse)
    if way.swap and not day_set.now:
        return offer_text(swaps, Offer(way.cost, way.swap))
    swapped = (
        f"{nurse} swaps with {other}, who has"
        f" {cell_text(day_set.old.works.get(NurseDay(way.nurse, day_set.place.day)))} then"
    )
    return f"{way.cost:+5}  {swapped if way.swap else f'{other} instead of {nurse}'}"


VERB = Verb(
    names=("set",),
    words="NAME DAY SHIFT [REASON]",
    effect=(
        "what it costs that she has this shift (or off), and who else could; --do writes it; set"
        " NAME DAY back"
    ),
    asked=_asked,
    done=_done,
    searches=True,
    form=Form(
        verb="set",
        heading="A nurse has another shift",
        button="Set it",
        text=(
            "or a promised day off; a question says what it costs, after a search if that is much;"
            " later plans keep it"
        ),
        refused="it was not written what {nurse} has",
        fields=("nurse", "first", "shift", "note", "seconds"),
    ),
)
