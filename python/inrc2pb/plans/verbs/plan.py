"""The verb that plans the weeks that are not over."""

from dataclasses import replace

from ..limits import limits_of
from ..odd_sheet import warning_lines
from ..planning import PATIENCE, WEEK_SECONDS, say, searched
from ..searching import Asked, Keep
from ..store import PlanStore
from ..verb import Event, Form, Outcome, Verb, wording_of
from ..ward import WardPlan


def _first_day(plan: WardPlan, event: Event) -> int:
    """The day from which on a plan is asked for."""
    wording = wording_of(
        plan, event, "plan, or plan 2026-12-09 to leave all days before it as they are"
    )
    first = plan.state.begin if wording.is_over else wording.open_day()
    wording.end()
    return first


def _asked(store: PlanStore, event: Event) -> None:
    """Raises Misuse if no plan can begin on this day."""
    _first_day(store.current(), event)


def _done(store: PlanStore, event: Event) -> Outcome:
    """Plans the weeks that are not over, or what is left of them from a day on."""
    old = store.current()
    first = _first_day(old, event)
    say(store, warning_lines(old, anew=store.anew(old), strangers=store.strangers(old)))
    few = old.state.published and old.is_planned and not event.free
    seconds = event.seconds or WEEK_SECONDS * len(old.weeks)
    patience = 1.0 if event.seconds else PATIENCE
    asked = Asked(first, few, seconds, do=event.do, fills=True, patience=patience)
    keeping = replace(old, limits=limits_of(old.ward, old.state, first))
    return searched(
        store, event, "plan", keeping, asked._replace(agreed=Keep.NONE) if event.free else asked
    )


VERB = Verb(
    names=("plan",),
    words="[DAY]",
    effect="plan the weeks that are not over, from this day on",
    asked=_asked,
    done=_done,
    searches=True,
    form=Form(
        verb="plan",
        heading="Plan",
        button="Plan",
        text="the weeks that are not over",
        refused="a new plan was not written",
        fields=("from", "seconds", "free"),
        needs_plan=False,
    ),
)
