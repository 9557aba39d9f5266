"""The verb for two nurses who swap shifts, and for who could take one."""

from dataclasses import dataclass, replace
from typing import NamedTuple, Sequence

from ...week.faults import FileFault, Misuse
from ...week.records import Cell, NurseDay
from ...week.words import joined, readable
from ..corrections import next_period_lines
from ..nurse_weeks import Fault
from ..offers import Offers, follow_up_lines, offers_of, refused_lines
from ..plan_files import read_state
from ..sentences import exceeded_lines
from ..state import State, Swap
from ..store import PlanStore, penalties
from ..swaps import Swaps, swapped
from ..verb import Event, Form, Outcome, Status, Verb, saved, wording_of
from ..ward import BeforeAndAfter, WardPlan


@dataclass(frozen=True)
class Swapped(Outcome):
    """A swap of two nurses, with the plans before and after it."""

    old: WardPlan
    new: WardPlan
    swap: Swap
    faults: tuple[Fault, ...] = ()
    # Whether it takes a swap of theirs back.
    takes_back: bool = False
    # Who else could take the first shift.
    offers: Offers | None = None
    # The plan of the next period, before and after this; None if there is none.
    following: BeforeAndAfter = (None, None)

    def lines(self, write: str = "") -> list[str]:
        """Why a swap cannot be, or what it changes and costs, and whether it is written; who
        else could take the shift."""
        offers = self.offers.lines() if self.offers else []
        if self.faults:
            return [*refused_lines(self.old, [*self.faults]), *offers]
        said = [*follow_up_lines(self.old, self.new), *next_period_lines(*self.following)]
        if self.takes_back:
            said.append("this takes their swap back: later plans do not keep it")
        if not self.is_written:
            return [*said, f"nothing is written: {write}", *offers] if write else said
        kept = [] if self.takes_back else ["later plans keep this swap"]
        return [*said, *exceeded_lines(self.new), *kept, *self.pages.lines()]


class AllSwaps(NamedTuple):
    """A look at who could take a nurse's shift on a day."""

    nurse: str
    day: int


def asked_swap(old: WardPlan, event: Event) -> AllSwaps | Swap:
    """The swap of two nurses that is asked for, or the look at all swaps of a shift."""
    names = [readable(nurse) for nurse in old.scenario.nurses][:2]
    wording = wording_of(
        old, event, f"swap {names[0]} Fri {names[-1]} Sat, or swap {names[0]} Fri for all who could"
    )
    nurse = wording.nurse()
    day = wording.open_day()
    if wording.is_over:
        if event.do:
            raise Misuse("a swap that is written is of two nurses: name the other one and her day")
        return AllSwaps(nurse, day)
    other = wording.nurse()
    days = {day, day if wording.is_over else wording.open_day()}
    wording.end()
    if nurse == other:
        raise Misuse(f"{readable(nurse)} cannot swap with herself: name another nurse")
    return Swap(nurse, other, tuple(sorted(days)))


def judged(old: WardPlan, asked: Swap, before: State | None, has_offers: bool) -> Swapped:
    """What a swap makes of a plan. It takes the last swap of the same nurses and days back, if it
    gives them the shifts that they had `before` that one."""
    swaps = Swaps(old)
    new = old.with_cells(swapped(old.cells, asked))
    if new.works == old.works:
        days = joined(map(old.days.text, asked.days))
        raise Misuse(
            f"{readable(asked.nurse)} and {readable(asked.other)} have the same on {days}: nothing"
            " would change"
        )
    faults = tuple(swaps.faults(asked))
    # The first shift that one of the two gives away.
    first = next(
        (nurse, day)
        for nurse in (asked.nurse, asked.other)
        for day in asked.days
        if swaps.works(nurse, day)
    )
    offers = offers_of(swaps, *first) if faults or has_offers else None
    if faults:
        return Swapped(old, new, asked, faults, offers=offers, status=Status.NOT_KEPT)
    takes_back = before is not None and _shifts(before.cells, asked) == _shifts(new.cells, asked)
    kept = new.state.agreeing(lambda place: place not in asked.places)
    agreed = (
        [place for place in before.agreed if place in asked.places]
        if before and takes_back
        else asked.places
    )
    new = new.with_state(replace(kept, agreed=(*kept.agreed, *agreed)))
    return Swapped(old, new, asked, takes_back=takes_back, offers=offers)


def _shifts(cells: Sequence[Cell], swap: Swap) -> set[tuple[str, int, str]]:
    """The shifts of the two nurses on the days of a swap."""
    return {
        (cell.nurse, cell.day, cell.shift)
        for cell in cells
        if cell.nurse in (swap.nurse, swap.other) and cell.day in swap.days
    }


def _asked(store: PlanStore, event: Event) -> Offers | Swapped:
    """What a swap costs and breaks, and who else could swap."""
    old = store.fitting()
    asked = asked_swap(old, event)
    if isinstance(asked, AllSwaps):
        return offers_of(Swaps(old), *asked)
    found = judged(old, asked, _before_swap(store, old, asked), has_offers=not event.do)
    return replace(found, following=store.following(found.new))


def _done(store: PlanStore, event: Event) -> Offers | Swapped:
    """The same; with `do` the swap is written, and later plans keep it, unless it takes another one
    back."""
    found = _asked(store, event)
    if not event.do or not isinstance(found, Swapped) or found.faults:
        return found
    # The program has the last word on the new rosters.
    penalties(found.new)
    swap = found.swap
    verb = f"swap {swap.nurse} {swap.other} {' '.join(map(found.old.days.head, swap.days))}"
    return saved(found, store.save(verb, found.new, event.typed, swap))


def agreed_swap(store: PlanStore, plan: WardPlan, place: NurseDay) -> Swap | None:
    """The last swap that was written for a nurse's day, if the plan keeps it, and a swap may move
    its days."""
    may_move = set(plan.state.agreed) - set(plan.state.promised)
    swaps = (kept.record.swap for kept in reversed(store.kept(plan)) if place in may_move)
    swap = next((swap for swap in swaps if swap and place in swap.places), None)
    return swap if swap and may_move.issuperset(swap.places) else None


def _before_swap(store: PlanStore, old: WardPlan, asked: Swap) -> State | None:
    """What the last swap of these two on these days began with, if they have agreed on one."""
    if not set(asked.places) <= set(old.state.agreed):
        return None
    same = (asked, asked._replace(nurse=asked.other, other=asked.nurse))
    plans = store.kept(old)
    pairs = zip(reversed(plans[:-1]), reversed(plans))
    folder = next((before.folder for before, now in pairs if now.record.swap in same), None)
    try:
        return read_state(folder) if folder else None
    except (FileFault, OSError):
        return None


VERB = Verb(
    names=("swap",),
    words="NAME DAY [NAME [DAY]]",
    effect="what a swap costs, which rule it breaks, and who else could swap; --do writes it",
    asked=_asked,
    done=_done,
    form=Form(
        verb="swap",
        heading="Two nurses swap",
        button="Look",
        text="what it costs, and who else could swap; writes nothing before a button of the answer",
        refused="the swap of {nurse} and {other} was not written",
        fields=("nurse", "first", "other", "other day"),
    ),
)
