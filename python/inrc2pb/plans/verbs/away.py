"""The verbs for a nurse who is away: each reason is one, such as ill."""

from ...judging.leave import ILL
from ...sheets.plan_sheets import AWAY
from ...sheets.written_days import with_days
from ...week.dates import OtherPlan
from ...week.faults import Misuse
from ...week.words import readable
from ..absence import Away, lost_by
from ..planning import searched_for
from ..store import PlanStore
from ..verb import Event, Form, Outcome, Verb, wording_of
from ..ward import WardPlan


def absence(old: WardPlan, event: Event) -> Away:
    """A nurse is away on these days for the reason that is the verb."""
    wording = wording_of(
        old, event, f"{event.verb} {readable(next(iter(old.scenario.nurses)))} Fri Sun"
    )
    nurse = wording.nurse()
    first = wording.open_day()
    try:
        last = first if wording.is_over else wording.open_day(first, old.ward.longer)
    except OtherPlan as fault:
        cure = f"on days that are not planned yet write {event.verb} into her cells of the sheet"
        raise OtherPlan(f"{fault}: {cure}") from fault
    wording.end()
    if last < first:
        raise Misuse(
            f"{old.days.text(last)} is before {old.days.text(first)}: give the first day first"
        )
    return _away(old, nurse, range(first, last + 1), event.verb)


def _away(old: WardPlan, nurse: str, days: range, word: str) -> Away:
    """A nurse is away on days that may go on in the next period, if she is in the ward then."""
    here = tuple(days[: old.days.total - days.start])
    lost = lost_by(old, nurse, here) if word == ILL and old.state.published else {}
    left = range(days.stop - old.days.total)
    return Away(
        old,
        old.with_absences(with_days(old.state.absences, nurse, here, word, lost)),
        nurse,
        here,
        word,
        goes_on=lambda plan: (
            _away(plan, nurse, left, word) if left and nurse in plan.scenario.nurses else None
        ),
        left=len(left),
    )


def _asked(store: PlanStore, event: Event) -> Away:
    return absence(store.planned(), event)


def _done(store: PlanStore, event: Event) -> Outcome:
    """The plan changes little, and only from the first of the days on."""
    away = _asked(store, event)
    return searched_for(store, event, away, away.days[0], away.days[-1])


VERB = Verb(
    names=AWAY,
    words="NAME DAY [DAY]",
    effect=(
        "she is ill from the first to the last day: a plan with few changes; also leave, unpaid,"
        " training, away"
    ),
    asked=_asked,
    done=_done,
    searches=True,
    form=Form(
        verb="away",
        heading="A nurse is away",
        button="Write an absence",
        text=(
            "on one day, or to the last day; who leaves the ward is away to the end of the plan;"
            " plans from the first day on"
        ),
        refused="the absence of {nurse} was not written",
        fields=("nurse", "first", "last", "reason", "seconds"),
    ),
)
