"""What a search of the planner has found, or why it has found nothing, in sentences."""

from dataclasses import dataclass
from typing import Mapping, Protocol, Sequence

from ..search.why_none import CAN, Shortage, kept_no_absence_lines, lowered_text, shortage_head
from ..sheets.open_shifts import number_of
from ..week.dates import PlanDays
from ..week.records import WEEK_DAYS
from ..week.words import plural, readable
from .absence import not_written_text
from .changes import Agreement, broken_agreements, shift_changes
from .corrections import next_period_lines
from .last_year import LastYear
from .facts import unkept, while_away
from .left_open import all_open_lines, open_from
from .offers import price_lines
from .searching import Asked, KnownBound
from .sentences import (
    beside_lines,
    call_lines,
    cell_text,
    change_lines,
    days_away_lines,
    due_lines,
    evenness_lines,
    unkept_lines,
    wish_lines,
)
from .verb import Outcome
from .ward import BeforeAndAfter, WardPlan, for_leavers

UNKNOWN_BOUND = "how much less another plan can cost is not known"

MAY_GIVE_UP = (
    "and the next period gives up what it has to, or with --open, and these shifts stay open"
)
OF_OLDER_SHEET = (
    "the spreadsheet was saved during the search, so this plan is not written: ask for it again"
)


class Cause(Protocol):
    """What a user has asked for, if a plan with few changes is searched for that has it."""

    @property
    def old(self) -> WardPlan:
        """The plan before that."""

    def heads(self, is_look: bool = False) -> list[str]:
        """What is said of it before the changes of the plan that was found; a look repeats what was
        said before the search."""


@dataclass(frozen=True)
class Planned(Outcome):
    """A search has found a plan."""

    # The plan before it, with its absences, if there is one; and with the absences of now.
    before: WardPlan | None
    old: WardPlan
    asked: Asked
    plan: WardPlan
    # The penalty of each week.
    penalties: Mapping[int, int]
    # What is known of other plans, if that speaks of such plans.
    bound: KnownBound | None
    # Whether the user stopped the search, and by which signal, if it was one.
    is_stopped: bool
    cause: Cause | None = None
    verb: str = ""
    # Whether the user looks at it before it is written.
    is_look: bool = False
    # Whether the spreadsheet was saved during the search.
    is_of_older_sheet: bool = False
    ended_by: int | None = None
    # The plan of the next period, before and after this one; None if there is none.
    following: BeforeAndAfter = (None, None)
    # What the next period would have to give up, so that nothing else has to be.
    gives_up: tuple[str, ...] = ()
    # What nurses had in the year before it.
    last_year: LastYear = LastYear()
    # The plan of the next period that the same verb has made, if there is one.
    then: "Planned | None" = None
    # Whether it is asked first whether the next period gives up what it would have to.
    asks_next: bool = False

    @property
    def parts(self) -> "Sequence[Planned]":
        """The plans of the verb, one for each period."""
        return [self, *(self.then.parts if self.then else ())]

    def lines(self, write: str = "") -> list[str]:
        """What the new plans do not keep, change and cost, their bounds, and whether they are
        written."""
        said = self._found()
        for part in self.parts[1:]:
            said += [f"the period from {part.plan.days.text(0)} on:", *part._found()]
        if self.is_look:
            return [*said, f"nothing is written: {write}"] if write else said
        if self.is_of_older_sheet:
            return [*said, OF_OLDER_SHEET]
        if self.asks_next:
            return [*said, f"nothing is written: {write}, {MAY_GIVE_UP}"]
        if not self.is_written:
            away = [line for part in self.parts for line in days_away_lines(part.plan)]
            return [*said, *away, not_written_text(write)]
        if any(unkept(part.plan) for part in self.parts):
            said.append(
                "this plan is written, but it does not keep what the first lines say: do what helps"
                " and plan again, or undo"
            )
        return [*said, *self.pages.lines()]

    def _found(self) -> list[str]:
        """What one of the plans does not keep, changes and costs, and its bound."""
        new = self.plan
        missing = unkept(self.plan)
        said = self.cause.heads(self.is_look) if self.cause else []
        said += [*all_open_lines(new), *unkept_lines(new, missing)]
        if while_away(new):
            said.append("with --open these shifts stay open, and who is away does not work")
        if len(missing) > len(unkept(for_leavers(new, self.asked.first))):
            said.append(
                f"shifts before {new.days.text(self.asked.first)} stay: plan from an earlier day"
                " can take some of them away"
            )
        said += [*days_away_lines(new), *self._changed()]
        said += [_agreement_text(new, broken) for broken in broken_agreements(self.old, new)]
        said += [
            *beside_lines(new),
            *due_lines(new),
            *wish_lines(self.before, new),
            *cost_lines(self.penalties, new.days),
            *(
                f"{new.days.week_text(week)} has no points, since days of it break a hard rule"
                for week in new.weeks
                if week not in self.penalties
            ),
        ]
        said += [] if self.then else next_period_lines(*self.following)
        said += self.gives_up
        said += price_lines(self.before, new) if self.before and self.asked.is_firm else []
        said += evenness_lines(new, self.last_year)
        if not missing and not self.asked.few_changes:
            said.append(bound_text(self.bound, number_of(open_from(new, new.first))))
            if new.ward.border:
                said.append("The search also counts what the next period costs after this plan.")
            if new.state.is_as_planned:
                said.append("This holds if the period before it ends as planned.")
        if self.is_stopped:
            said.append("stopped: this is the best plan until then")
        return said

    @property
    def may_be_open(self) -> bool:
        """Whether somebody works though she is away."""
        return any(while_away(part.plan) > 0 for part in self.parts)

    def _changed(self) -> list[str]:
        """The shifts that change, and who has to be called; only their number in a plan that nobody
        has seen."""
        before = self.before
        new = self.plan
        if not before:
            return []
        changes = shift_changes(before.cells, new.cells)
        if not (before.state.published or self.asked.few_changes):
            return [
                f"{plural(len(changes), 'shift')} {'differs' if len(changes) == 1 else 'differ'}"
                " from the last plan"
            ]
        if not changes:
            return ["no shift changes"]
        calls = call_lines(changes, new.away) or ["no nurse has to be called"]
        return [*change_lines(changes, new.days, new.away, before.away), *calls]


@dataclass(frozen=True)
class NoPlan(Outcome):
    """No plan was found: the week that has no roster, and why."""

    plan: WardPlan
    week: int
    shortage: Shortage
    cause: Cause | None = None

    def lines(self, write: str = "") -> list[str]:
        """The week that has no roster, which minimum numbers to lower, and who is missing."""
        plan = self.plan
        begin = self.cause.heads() if self.cause else []
        said = [f"{plan.days.week_text(self.week)}: {shortage_head(self.shortage)}"]
        for short in self.shortage.places:
            day = plan.days.text(WEEK_DAYS * self.week + short.place.day)
            said.append(readable(f"{day} {lowered_text(short)}"))
            if not short.is_known:
                said.append(readable(f"    nobody has the skill {short.place.skill}"))
            said += [
                readable(f"    {owner.nurse} {owner.why or CAN}")
                for owner in short.owners
                if not owner.is_away
            ]
            away = [owner.nurse for owner in short.owners if owner.is_away]
            if away:
                said.append(readable(f"    away: {', '.join(away)}"))
        kept = (readable(line) for line in kept_no_absence_lines(self.shortage))
        return [*begin, *said, *kept, "with --open these shifts stay open"]

    @property
    def may_be_open(self) -> bool:
        """Always."""
        return True


def _agreement_text(new: WardPlan, broken: Agreement) -> str:
    """That a plan does not keep what two nurses have agreed on, or what was promised."""
    place = broken.place
    now = readable(new.away.get(broken.place) or cell_text(new.works.get(broken.place)))
    what, was = ("a promise", "promised was") if broken.is_set else ("an agreed swap", "agreed was")
    return (
        f"this breaks {what}: {readable(place.nurse)}, {new.days.text(place.day)}: {now},"
        f" {was} {cell_text(broken.cell)}"
    )


def cost_lines(penalties: Mapping[int, int], days: PlanDays) -> list[str]:
    """What each week costs, and all of them."""
    said = [f"{days.week_text(number)}: {points} points" for number, points in penalties.items()]
    return (
        [*said, f"{plural(len(said), 'week')}: {sum(penalties.values())} points"]
        if len(said) > 1
        else said
    )


def bound_text(known: KnownBound | None, missing: int = 0) -> str:
    """What a plan costs, how many points cannot be avoided, and whether that is proved; after it
    the other bound, if it is higher. In the plan so many nurses are missing."""
    if not known:
        return UNKNOWN_BOUND
    still_open = f", with {plural(missing, 'open shift')}" if missing else ""
    plans = f"plan that keeps all {known.bound.only}" if known.bound.only else "plan"
    said = _least_text(
        known.penalty,
        known.bound.points,
        plans,
        (f"proved by {known.bound.by}" if known.is_proved else "not proved") + still_open,
    )
    least = known.bound.points
    if known.beside is not None and known.beside > least:
        least = known.beside
        plans = (
            "plan with training as work in a row, no night shift before it or leave, and no more"
            " days in a row on a shift type than a maximum with !,"
            if known.has_runs
            else "plan with training as work in a row, and no night shift before it or leave,"
        )
        proof = f"not proved{still_open}"
        said += f" {_least_text(known.penalty, least, plans, proof, is_first=False)}"
    return f"{said} More seconds may help." if known.penalty > least else said


def _least_text(penalty: int, least: int, plans: str, proof: str, is_first: bool = True) -> str:
    """That such plans cost at least so many points."""
    begin = f"This plan costs {plural(penalty, 'point')}" if is_first else ""
    if penalty <= least:
        return f"{f'{begin}, and no' if begin else 'No'} {plans} costs less ({proof})."
    return (
        f"{f'{begin}. ' if begin else ''}At least {least} cannot be avoided by a"
        f" {plans.rstrip(',')} ({proof})."
    )
