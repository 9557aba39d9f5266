"""The verb that names the mistakes of the spreadsheet, and prints the ward in sentences."""

from dataclasses import dataclass
from typing import Iterator

from ...judging.odd_values import Reach
from ...sheets.week_rows import WeekRow
from ...shown.ward_sentences import (
    history_sentences,
    limit_sentences,
    scenario_sentences,
    supply_text,
    ward_sentence,
)
from ...shown.week_sentences import DescribedWeek, weeks_sentences
from ...shown.why import plain_breach_lines
from ...week.records import WEEK_DAYS, in_week
from ...week.words import joined, plural, readable
from ..left_open import all_open_lines
from ..odd_sheet import warning_lines
from ..sentences import beside_lines, exceeded_lines, working_lines
from ..reading import Strangers
from ..store import PlanStore
from ..verb import Event, Form, Outcome, Status, Verb
from ..ward import WardPlan


@dataclass(frozen=True)
class Checked(Outcome):
    """The spreadsheet was read."""

    plan: WardPlan
    # The pages that show another plan.
    other_pages: tuple[str, ...] = ()
    # The rows of needs that are as they were last period.
    anew: tuple[WeekRow, ...] = ()
    # Nurses who may have another name now.
    strangers: Strangers = Strangers()
    # Plans that an older version may have taken back.
    undone: tuple[str, ...] = ()
    # What is odd in the days of later periods.
    later: tuple[str, ...] = ()

    def lines(self, write: str = "") -> list[str]:
        """What is odd in the spreadsheet and wrong in the plan that holds, and the ward in
        sentences."""
        plan = self.plan
        said = [
            *warning_lines(plan, self.other_pages, self.anew, self.strangers, self.undone),
            *self.later,
            *(
                f"warning: {line}"
                for line in (
                    *all_open_lines(plan),
                    *working_lines(plan),
                    *exceeded_lines(plan),
                    *beside_lines(plan),
                )
            ),
        ]
        if plan.is_planned and plan.weeks:
            said += plain_breach_lines(plan.view())
        said = [*(said or ["No mistake found."]), "", *_ward_lines(plan)]
        if self.status != Status.DONE:
            said += ["", "No plan can keep all of this: do what the warnings at the top say."]
        return [readable(line) for line in said]


def _done(store: PlanStore, _event: Event) -> Checked:
    """Reads the spreadsheet. The status is that which a plan would have, as far as the warnings
    show it."""
    plan = store.current()
    status = {Reach.NONE: Status.NO_PLAN, Reach.NOT_ALL: Status.NOT_KEPT, Reach.ALL: Status.DONE}[
        plan.ward.reach
    ]
    known = warning_lines(plan)
    later = (store.plan_of(number) for number in store.open_days() if number > plan.state.period)
    return Checked(
        plan,
        store.other_pages(),
        store.anew(plan),
        store.strangers(plan),
        store.undone_by_older(),
        tuple(line for other in later for line in warning_lines(other) if line not in known),
        status=status,
    )


def _ward_lines(plan: WardPlan) -> list[str]:
    """The ward and the weeks that are not over in sentences: first its size, and what its weeks ask
    for and the contracts supply."""
    limits = limit_sentences(plan.scenario, plan.data[plan.state.open_week]) if plan.weeks else ()
    past = history_sentences(plan.past, plan.ward.counted)
    weeks = [
        DescribedWeek(
            number,
            plan.data[number],
            plan.reasons(number),
            in_week(plan.ward.held, number),
            _calendar_name(plan, number),
        )
        for number in plan.weeks
    ]
    sentences = weeks_sentences(
        plan.scenario, weeks, lambda days: plan.days.spans([plan.first + day for day in days])
    )
    return [
        ward_sentence(plan.scenario),
        *_supplies(plan),
        "",
        *scenario_sentences(plan.scenario),
        _nights_sentence(plan),
        *_kept_runs_sentences(plan),
        *limits,
        "",
        *past,
        "",
        *sentences,
    ]


def _nights_sentence(plan: WardPlan) -> str:
    """Which shift types are nights, and how that is known."""
    names = [readable(name) for name in plan.scenario.shift_types if name in plan.ward.nights]
    known = "they end after 3:00" if plan.ward.times else "their names say so"
    if names:
        return f"Nights are {joined(names)}, since {known}."
    why = "no shift type ends after 3:00" if plan.ward.times else "no name of a shift type says so"
    return (
        f"No shift is a night, since {why}: write times of all shifts, or such a name, if one is."
    )


def _kept_runs_sentences(plan: WardPlan) -> Iterator[str]:
    """The maxima of days in a row on a shift type that hold."""
    for name, shift in plan.scenario.shift_types.items():
        if name in plan.ward.kept_runs:
            most = plural(shift.consecutive.maximum, "day")
            yield f"{readable(name)}: never more than {most} in a row."


def _calendar_name(plan: WardPlan, number: int) -> str:
    """The name of a week with that of the calendar, if the plan has dates."""
    return plan.days.week_text(number) if plan.days.monday else ""


def _supplies(plan: WardPlan) -> Iterator[str]:
    """A line for each week. A plan takes nothing from what is left after the weeks that are
    over."""
    paid = {number: plan.ward.counted.of_week(number) for number in plan.weeks}
    for number in plan.weeks:
        own_first = [paid[number], *(shifts for other, shifts in paid.items() if other != number)]
        supply = supply_text(plan.scenario, plan.past, plan.data[number], own_first)
        yield (
            f"{plan.days.week_text(number).capitalize()}, {plan.days.text(WEEK_DAYS * number)}:"
            f" {supply}."
        )


VERB = Verb(
    names=("check",),
    words="",
    effect="name the mistakes of the spreadsheet, and print the ward in sentences",
    done=_done,
    form=Form(
        verb="check",
        button="Read the spreadsheet",
        text="names its mistakes, and prints the ward in sentences; writes nothing",
        needs_plan=False,
        writes="",
    ),
)
