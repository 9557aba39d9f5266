"""The verb that hangs a plan up: it writes the pages and calendars."""

from dataclasses import dataclass, replace

from ..sentences import exceeded_lines, working_lines
from ..reading import PAGE
from ..store import Gap, PlanStore, wide_gap
from ..verb import Event, Form, Outcome, Status, Verb, saved, wording_of
from ..ward import WardPlan


@dataclass(frozen=True)
class Published(Outcome):
    """The plan hangs on the wall now, unless its gap is wide, which is asked first."""

    plan: WardPlan
    gap: Gap | None = None

    def question(self) -> list[str]:
        """That a much better plan is probably there."""
        if not self.gap:
            return []
        return [
            f"this plan costs {self.gap.points} points, and only {self.gap.least} cannot be"
            " avoided: a longer search probably finds a much better one, so plan again before you"
            " hang it up, with more seconds"
        ]

    def lines(self, write: str = "") -> list[str]:
        """What the plan on the wall exceeds, and its pages."""
        if not self.is_written:
            return [*self.question(), f"nothing is written: {write or 'type it again with --do'}"]
        return [
            *working_lines(self.plan),
            *exceeded_lines(self.plan),
            *self.pages.lines(),
        ]


def _asked(store: PlanStore, event: Event) -> Published:
    old = store.fitting()
    wording = wording_of(old, event, "page, or page 4.1. for the period of this day")
    if not wording.is_over:
        wording.day()
    wording.end()
    return Published(old.with_state(replace(old.state, published=True)), wide_gap(old))


def _done(store: PlanStore, event: Event) -> Published:
    """Writes all pages and calendars. The local page has asked already."""
    published = _asked(store, event)
    if published.gap and not (event.do or event.on_page):
        return replace(published, status=Status.NOT_KEPT)
    return saved(published, store.save(PAGE, published.plan, event.typed))


VERB = Verb(
    names=(PAGE,),
    words="[DAY]",
    effect=(
        "write the pages and calendars, of the period that runs or of that of a day; from now on"
        " its plans change little"
    ),
    asked=_asked,
    done=_done,
    form=Form(
        verb=PAGE,
        button="Publish",
        text="the plan; from now on plans change little",
        refused="the plan was not published",
        writes="the page for the wall and the calendars",
    ),
)
