"""Who else could have a nurse's shift, what that costs, and why somebody cannot have it: the verbs
that swap and set shifts, and the page of a nurse's day, say so."""

from dataclasses import dataclass

from ..judging.limits import limits_in_words
from ..judging.obstacles import Obstacle
from ..sheets.written_days import BACK
from ..shown.changes import PricedWords, charge_lines, sum_text
from ..shown.why import charge_text
from ..week.faults import Misuse
from ..week.records import DAYS, WEEK_DAYS, Cell, NurseDay
from ..week.words import OFF, plural, readable
from .changes import shift_changes
from .facts import beside_days_away
from .nurse_weeks import Fault
from .sentences import beside_text, call_lines, cell_text, change_lines, wish_lines
from .state import SetDay
from .swaps import Offer, Swaps
from .verb import Outcome
from .ward import ALWAYS_OFF, PROMISED, WardPlan

# The most swaps that are offered.
MOST_OFFERS = 8


@dataclass(frozen=True)
class Offers(Outcome):
    """Who could take a nurse's shift on a day."""

    swaps: Swaps
    nurse: str
    day: int
    offers: tuple[Offer, ...]

    def lines(self, write: str = "") -> list[str]:
        """Who could take a shift, the cheapest first, or why nobody can."""
        cell = self.swaps.works(self.nurse, self.day)
        day = self.swaps.plan.days.text(self.day)
        shift = f"{readable(self.nurse)}'s {readable(cell.shift if cell else '')} on {day}"
        if not self.offers:
            return [f"nobody can take {shift}: {nobody_text(self)}"]
        ways = (offer_text(self.swaps, offer) for offer in self.offers[:MOST_OFFERS])
        return [f"who could take {shift}, and what it adds to the points:", *ways]


def offers_of(swaps: Swaps, nurse: str, day: int) -> Offers:
    """Who could take the nurse's shift on this day. Raises Misuse if she has none."""
    if swaps.works(nurse, day) is None:
        raise Misuse(
            f"{readable(nurse)} is off on {swaps.plan.days.text(day)}: name a day on which she"
            " works"
        )
    return Offers(swaps, nurse, day, tuple(swaps.offers(nurse, day)))


def fault_text(plan: WardPlan, fault: Fault) -> str:
    """Why a swap, or a day that is set, cannot be."""
    nurse = fault.nurse
    day = plan.days.text(fault.day)
    if fault.kind is Obstacle.LIMIT:
        above = (
            limits_in_words(week.charges, week.cells, plan.day_names(week.week))
            for week in fault.above
        )
        return f"{', '.join(above)}, and this limit holds"
    if fault.kind is Obstacle.BESIDE and fault.beside:
        return beside_text(plan.days, fault.beside)
    then = plan.ward.then(nurse, fault.day, fault.what) if fault.kind is Obstacle.NEVER else ""
    if then:
        return border_text(plan, nurse, fault.what, then)
    if fault.promise:
        return promise_fault_text(plan, fault.promise)
    away = {
        ALWAYS_OFF: f"{nurse} is always off on {DAYS[fault.day % WEEK_DAYS]}, by the sheet nurses",
        PROMISED: (
            f"{nurse} is promised {OFF} on {day} by the sheet plan: empty her cell of this day, and"
            " save the sheet"
        ),
    }
    texts = {
        Obstacle.HELD: f"{nurse} has her shift on {day} for certain, by the spreadsheet",
        Obstacle.AWAY: away.get(fault.what, f"{nurse} is away on {day} ({fault.what})"),
        Obstacle.NEVER: f"{nurse} never works {fault.what}",
        Obstacle.SKILL: f"{nurse} does not have the skill {fault.what}",
        Obstacle.FOLLOWS: f"{nurse} may not work {fault.what} on {day} after {fault.before}",
        Obstacle.MINIMUM: (
            f"{fault.what} on {day} needs at least {plural(fault.number, 'nurse')}, and without"
            f" {nurse} has fewer"
        ),
    }
    return readable(texts[fault.kind])


def border_text(plan: WardPlan, nurse: str, shift: str, then: str) -> str:
    """That a shift on the last day may not come before one of the next period, and how that gives
    this one up."""
    days = plan.days.next()._replace(weeks=1)
    name = readable(nurse)
    return readable(
        f"{name} may not work {shift} on {plan.days.text(plan.days.total - 1)} before {then} on"
        f" {days.text(0)}, in the plan of the next period: set {name} {days.head(0)} {OFF} gives"
        " that up"
    )


def given_up(plan: WardPlan) -> tuple[str, ...]:
    """What the next period would have to give up: for shifts on the last day that may not come
    before its own, and for those that are open since nobody else could have them."""
    last = plan.days.total - 1
    swaps = Swaps(plan)
    opened = [one for one in plan.state.opened if one.day == last]
    could = [
        Cell(nurse, last, one.shift, one.skill) for one in opened for nurse in plan.scenario.nurses
    ]
    cells = [
        cell
        for cell in (*plan.cells, *could)
        if plan.ward.then(*cell[:3])
        and (
            cell in plan.cells
            or all(
                fault.kind is Obstacle.NEVER
                for fault in swaps.day_faults(NurseDay(cell.nurse, last), cell)
            )
        )
    ]
    return tuple(
        border_text(plan, cell.nurse, cell.shift, plan.ward.then(*cell[:3])) for cell in cells
    )


def promise_fault_text(plan: WardPlan, promise: SetDay) -> str:
    """That a swap would take what was promised, and what to do first."""
    nurse = readable(promise.nurse)
    day = plan.days.text(promise.day)
    first = (
        f"take that back first, with set {nurse} {plan.days.head(promise.day)} {BACK} --do, and"
        " then swap"
    )
    return f"{nurse} is promised {cell_text(promise.cell)} on {day}{reason_text(promise)}: {first}"


def reason_text(promise: SetDay) -> str:
    """The reason of a promise, if it has one, in brackets."""
    return f" ({promise.reason})" if promise.reason else ""


def refused_lines(plan: WardPlan, faults: list[Fault]) -> list[str]:
    """Why nothing is written."""
    return [*(f"not possible: {fault_text(plan, fault)}" for fault in faults), "nothing is written"]


def offer_text(swaps: Swaps, offer: Offer) -> str:
    """Who takes a shift, which of hers is taken for it, and what that adds to the points."""
    _, other, days = offer.swap
    given = ((day, swaps.works(other, day)) for day in days)
    taken = "".join(
        f", in exchange for {readable(cell.shift)} on {swaps.plan.days.text(day)}"
        for day, cell in given
        if cell
    )
    return f"{offer.cost:+5}  {readable(other)} takes it{taken}"


def nobody_text(none: Offers) -> str:
    """Why nobody can take a shift, and what to do."""
    place = NurseDay(none.nurse, none.day)
    plan = none.swaps.plan
    if place in plan.state.promised:
        return promise_fault_text(plan, plan.state.promised[place])
    if place in plan.held:
        return (
            f"the sheet plan fixes it for {readable(none.nurse)}: empty her cell of this day, save"
            " the sheet, and look again"
        )
    fault = (
        "each swap would break a hard rule, a limit that holds, an absence or a promise, or move a"
        " fixed shift"
    )
    return f"{fault}: look at a swap with one nurse, which says what it breaks"


def follow_up_lines(old: WardPlan, new: WardPlan) -> list[str]:
    """What differs in a plan that was made without a search: shifts, nurses to call, wishes, what
    is odd beside days away, and charges."""
    changes = shift_changes(old.cells, new.cells)
    known = beside_days_away(old)
    beside = [beside_text(new.days, odd) for odd in beside_days_away(new) if odd not in known]
    return [
        *change_lines(changes, old.days),
        *call_lines(changes),
        *wish_lines(old, new),
        *beside,
        *price_lines(old, new),
    ]


def price_lines(old: WardPlan, new: WardPlan) -> list[str]:
    """The charges that are saved or added, and their sum; nothing if a plan has no cost, since it
    breaks a hard rule."""
    before = old.view().penalty
    now = new.view().penalty
    if before is None or now is None:
        return []
    return [
        *charge_lines(_charged(old), _charged(new)),
        sum_text(before, now, f": {now} points instead of {before}"),
    ]


def _charged(plan: WardPlan) -> list[PricedWords]:
    """The cost of each charge, and the charge in words."""
    weeks = ((week.charges or (), plan.day_names(week.number)) for week in plan.view().weeks)
    return [
        PricedWords(charge.cost, readable(charge_text(charge, names=names)))
        for charges, names in weeks
        for charge in charges
    ]
