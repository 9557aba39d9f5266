"""The verb that ends the first week that is not over, as it was worked, or that records how other
days were worked that have begun."""

import datetime
from dataclasses import dataclass, replace
from typing import Iterator

from ...week.dates import OtherPlan
from ...week.faults import Misuse
from ...week.records import WEEK_DAYS
from ..absence import not_written_text
from ..corrections import Corrections, corrections_of, follow_lines
from ..facts import newly_exceeded
from ..sentences import anew_lines, exceeded_lines
from ..store import PlanStore
from ..verb import Event, Form, Outcome, Status, Verb, saved
from ..ward import BeforeAndAfter, WardPlan
from ..words import PERIOD_IS_OVER


@dataclass(frozen=True)
class WeekOver(Outcome):
    """A week is over."""

    old: WardPlan
    corrections: Corrections
    # The plan that goes on; None after the last week of a period.
    next: WardPlan | None
    # The plan of the next period, before and after this; None if there is none.
    following: BeforeAndAfter = (None, None)
    # The date on which this is asked for, if the week has not ended then.
    early: datetime.date | None = None

    def lines(self, write: str = "") -> list[str]:
        """What was worked otherwise than planned, and with which week the plan goes on, or how the
        next period begins."""
        said = self.corrections.lines()
        if self.status is Status.NOT_KEPT and not self.is_written:
            exceeded = [line for plan in self.plans for line in exceeded_lines(plan)]
            asks = not_written_text(write) if exceeded else f"nothing is written: {write}"
            said += [*self._early(), *dict.fromkeys(exceeded), *([asks] if write else [])]
            return said
        return [*said, *(self._goes_on(self.next) if self.next else self._period_over())]

    def question(self) -> list[str]:
        """The corrections, which the user has typed, and the week that ends with them."""
        if not self.corrections.places:
            return [*self._early(), "as it was planned"]
        return [*self.corrections.lines(), f"{self._week} is over with this"]

    @property
    def plans(self) -> tuple[WardPlan, ...]:
        """The plan with the week as it was worked, before and after its end."""
        worked = self.corrections.with_open(self.old.state.open_week)
        return (worked, self.next) if self.next else (worked,)

    def _early(self) -> list[str]:
        """That the week has not ended."""
        if not self.early:
            return []
        last = self.old.days.text(self.old.first + WEEK_DAYS - 1)
        today = f"{self.early:%a} {self.early.day} {self.early:%b}"
        return [f"{self._week} has not ended: today is {today}, before {last} ends"]

    @property
    def _week(self) -> str:
        """The week that ends."""
        return self.old.days.week_text(self.old.state.open_week)

    def _goes_on(self, new: WardPlan) -> list[str]:
        """The plan goes on."""
        begin = f"{self._week} is over: the plan goes on from {new.days.text(new.first)}"
        return [begin, *follow_lines(self.old, new), *self.pages.lines()]

    def _period_over(self) -> list[str]:
        """The period is over: with which day the next one goes on, or what to write for it."""
        days = self.old.days.next()
        before, now = self.following
        begin = f"from {days.monday} on, " if days.monday else ""
        then = "into the sheet plan, with its wishes and absences; then plan"
        closed = f"{self._week} is over, and with it the {PERIOD_IS_OVER}"
        if before and now:
            goes_on = f"{closed}: the plan goes on from {now.days.text(now.first)}"
            return [goes_on, *follow_lines(before, now), *self.pages.lines()]
        rows = anew_lines(self.corrections.new.ward.week_rows, days)
        return [
            *self.pages.lines(),
            closed,
            f"write the days of the next one, {begin}{then}",
            *rows,
        ]


@dataclass(frozen=True)
class Corrected(Outcome):
    """Days that have begun were worked otherwise; no week ends."""

    corrections: Corrections
    # The plan of their period.
    plan: WardPlan
    # The plan that holds, before and after them; None if there is none yet.
    before: WardPlan | None
    now: WardPlan | None
    # The plan of the next period, if that is another one.
    following: BeforeAndAfter = (None, None)

    def question(self) -> list[str]:
        """What changes."""
        return self._said()

    def lines(self, write: str = "") -> list[str]:
        """What was worked otherwise, and what follows."""
        if not self.is_written:
            exceeded = [*(exceeded_lines(self.now) if self.now else [])]
            return [*self._said(), *exceeded, *([not_written_text(write)] if write else [])]
        return [*self._said(), *self.pages.lines()]

    def _said(self) -> list[str]:
        days, state = self.plan.days, self.plan.state
        over = [week for week in sorted(self.corrections.weeks) if week < state.open_week]
        corrects = [f"this corrects {days.weeks_text(over)}"] if over else []
        if state.recorded:
            corrects.append(
                f"later plans leave all days to {days.text(state.begin - 1)} as they are"
            )
        pairs = ((self.before, self.now), self.following)
        follows = [line for old, new in pairs if old and new for line in follow_lines(old, new)]
        ends = f"{', and '.join(corrects)}: no week ends"
        return list(dict.fromkeys([*self.corrections.lines(), ends, *follows]))


def _asked(store: PlanStore, event: Event) -> WeekOver | Corrected:
    """What the words come to. Days of another period are looked for in it if the one that runs does
    not have them, or is not planned yet."""
    try:
        old = store.fitting()
        corrections = corrections_of(old, event, _begun(store, old))
    except Misuse as fault:
        # Only words about days may be those of another period.
        found = next(_of_other_periods(store, event), None) if event.words else None
        if found is None or not isinstance(fault, OtherPlan) and _is_planned(store):
            raise
        return found
    is_over = old.state.open_week in corrections.weeks and not _is_early(store, old)
    if event.words and not is_over:
        return _recorded(store, old, corrections)
    return _week_over(store, old, corrections)


def _begun(store: PlanStore, plan: WardPlan) -> int:
    """The first day of a plan that has not begun; without dates, after the week that ends next."""
    if plan.days.monday is None:
        return plan.first + WEEK_DAYS
    return (store.means.today() - plan.days.monday).days + 1


def _is_early(store: PlanStore, plan: WardPlan) -> bool:
    """Whether the first week that is not over has not ended by the clock."""
    return plan.days.monday is not None and _begun(store, plan) <= plan.first + WEEK_DAYS


def _recorded(store: PlanStore, old: WardPlan, corrections: Corrections) -> Corrected:
    """Days of a period that is not over were worked so."""
    _check_dates(store, corrections)
    new = corrections.with_open(old.state.open_week)
    return Corrected(corrections, new, old, new, store.following(new))


def _is_planned(store: PlanStore) -> bool:
    """Whether there is a plan of weeks that are not over."""
    try:
        return store.current().is_planned
    except Misuse:
        return False


def _week_over(store: PlanStore, old: WardPlan, corrections: Corrections) -> WeekOver:
    """The first week that is not over is over, as it was planned, or with these corrections."""
    if not old.weeks:
        raise Misuse("all weeks are over")
    ended = corrections.with_open(old.state.open_week + 1)
    return WeekOver(
        old,
        corrections,
        ended if ended.weeks else None,
        following=store.following(ended),
        early=store.means.today() if _is_early(store, old) else None,
    )


def _of_other_periods(store: PlanStore, event: Event) -> Iterator[Corrected]:
    """The corrections of a later period, or of the last one that is over and has their days."""
    later = store.of_dates(event.words, plans=False)
    if later.is_later:
        plan = later.fitting()
        yield _recorded(later, plan, corrections_of(plan, event, _begun(later, plan)))
    for plan in store.past_plans():
        named = store.names_since(plan.state)
        names = {named.nurse(nurse): nurse for nurse in plan.scenario.nurses}
        try:
            corrections = corrections_of(plan, event, plan.days.total, names)
        except OtherPlan:
            continue
        _check_dates(store, corrections)
        new = corrections.with_open(plan.state.open_week)
        yield Corrected(corrections, new, *store.before_and_after(new.state))


def _check_dates(store: PlanStore, corrections: Corrections) -> None:
    """Raises Misuse if a corrected week is older than twelve months."""
    days = corrections.old.days
    today = store.means.today()
    for week in sorted(corrections.weeks) if days.monday else ():
        sunday = days.date(WEEK_DAYS * week + WEEK_DAYS - 1)
        if (sunday.year + 1, sunday.month, sunday.day) < (today.year, today.month, today.day):
            raise Misuse(
                f"{days.week_text(week)}, to {sunday}, is more than twelve months ago, and stays as"
                " it is written"
            )


def _done(store: PlanStore, event: Event) -> WeekOver | Corrected:
    """After the last week of a period a new one begins."""
    found = _asked(store, event)
    if isinstance(found, Corrected):
        return _corrected(store, event, found)
    asks = any(newly_exceeded(found.old, plan) for plan in found.plans)
    if not event.do and (asks or (found.early and not event.on_page)):
        return replace(found, status=Status.NOT_KEPT)
    number = found.old.state.open_week
    new = found.corrections.with_open(number + 1)
    return saved(found, store.save(f"over {number}", new, event.typed))


def _corrected(store: PlanStore, event: Event, found: Corrected) -> Corrected:
    """Writes corrections of weeks that are over."""
    if not event.do and newly_exceeded(found.corrections.old, found.corrections.new):
        return replace(found, status=Status.NOT_KEPT)
    store.add("over", found.plan, event.typed)
    return saved(found, store.pages_of_past(found.plan, found.now))


VERB = Verb(
    names=("over",),
    words="[NAME DAY SHIFT ..]",
    effect=(
        "the week is over, as planned or with these shifts (or off, ill); with days of a week that"
        " has not ended, or of those before, it records these, and no week ends"
    ),
    asked=_asked,
    done=_done,
    form=Form(
        verb="over",
        heading="The week is over",
        button="End the week",
        text=(
            "as it was planned, or with corrections such as Chen Fri ill, Finn Sat off; with days"
            " of a week that has not ended, or of those before, it only records these"
        ),
        refused="the end of the week was not written",
        fields=("corrections",),
    ),
)
