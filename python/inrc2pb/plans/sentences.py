"""The words of facts about a plan: its changes, what it does not keep, and what it has."""

from typing import Iterable, Iterator, Mapping

from ..judging.absences import in_words
from ..judging.limits import limits_in_words, limits_way_out
from ..sheets.week_rows import WeekRow
from ..shown.changes import change_text, shifts_text
from ..shown.why import charge_text
from ..week.dates import PlanDays, date_text
from ..week.records import WEEK_DAYS, Cell, NurseDay, together
from ..week.soft_rules import RULES
from ..week.words import OFF, joined, plural, quoted, readable, wish_text
from .changes import ShiftChange, called
from .facts import (
    WrongBeside,
    Broken,
    TooManyShifts,
    Unkept,
    beside_days_away,
    due_to_days_away,
    exceeded_in_weeks,
    lost_wishes,
    too_many_by_days_away,
    too_many_shifts,
    unkept,
)
from .fairness import evenness
from .last_year import LastYear
from .ward import WardPlan

# ---- shifts, days and nurses


def cell_text(cell: Cell | None, away: str = OFF) -> str:
    """A shift with its skill in words; without a shift why the nurse is away, or `off`."""
    return readable(shifts_text([cell] if cell else (), away))


def change_lines(
    changes: Iterable[ShiftChange],
    days: PlanDays,
    away: Mapping[NurseDay, str] = {},
    before: Mapping[NurseDay, str] = {},
) -> list[str]:
    """A line for each change. `away` has words for the nurses' days on which they are away, and
    `before` those of the older plan."""
    return [
        change_text(
            f"{readable(change.nurse)}, {days.text(change.day)}",
            cell_text(change.now, away.get(change.place, OFF)),
            cell_text(change.before, before.get(change.place, OFF)),
        )
        for change in changes
    ]


def call_lines(changes: Iterable[ShiftChange], away: Mapping[NurseDay, str] = {}) -> list[str]:
    """The nurses to call, if there are some."""
    nurses = called(changes, away)
    return (
        [f"{plural(len(nurses), 'nurse')} to call: {quoted(map(readable, nurses), len(nurses))}"]
        if nurses
        else []
    )


def wish_lines(old: WardPlan | None, new: WardPlan) -> list[str]:
    """The wishes that are not granted, or only those that an older plan grants and this one does
    not."""
    begin = "wish lost" if old else "wish not granted"
    return [
        f"{begin}: {readable(wish.nurse)}, {wish_text(wish.shift)} on {new.days.text(wish.day)}"
        for wish in lost_wishes(old, new)
    ]


# ---- what a plan does not keep


def unkept_lines(plan: WardPlan, unkept: Iterable[Unkept]) -> list[str]:
    """Who works while she is away, or above a limit that holds, and what would help."""
    said: list[str] = []
    for missed in unkept:
        week = plan.days.week_text(missed.week)
        names = plan.day_names(missed.week)
        cells = plan.state.roster(missed.week)
        if missed.working:
            skills = joined(dict.fromkeys(readable(cell.skill) for cell in missed.working))
            said.append(
                f"{week}: no plan was found that keeps every absence:"
                f" {in_words(missed.working, names)}"
            )
            said.append(
                f"{week}: lower the minimum of {skills} in the sheet needs, or give someone the"
                " skill"
            )
        else:
            said.append(
                f"{week}: no plan was found that keeps every limit:"
                f" {limits_in_words(missed.above, cells, names)}"
            )
            said.append(f"{week}: {limits_way_out(plan.week(missed.week), missed.above, cells)}")
    return said


def working_lines(plan: WardPlan) -> list[str]:
    """Who works on days on which she is away, or a shift type that she never works, since the
    spreadsheet says so now."""
    missing = unkept(plan) if plan.is_planned else []
    weeks = ((missed.week, missed.working) for missed in missing if missed.working)
    return [
        f"{plan.days.week_text(week)}: {in_words(working, plan.day_names(week))}, and is away then,"
        " or never works that: plan again"
        for week, working in weeks
    ]


def exceeded_lines(plan: WardPlan) -> list[str]:
    """The limits that hold which the plan that holds exceeds, and what would help; none if there is
    no plan."""
    said = []
    for number, charge in exceeded_in_weeks(plan):
        words = limits_in_words([charge], plan.state.roster(number), plan.day_names(number))
        said.append(
            f"{plan.days.week_text(number)} exceeds a limit that holds: {words}: plan again, or"
            " allow her more"
        )
    return said + [_shifts_line(plan, many) for many in too_many_shifts(plan)]


def days_away_lines(plan: WardPlan) -> list[str]:
    """The nurses whose shifts are too many only since days away count as shifts, and what would
    help."""
    return [_shifts_line(plan, many) for many in too_many_by_days_away(plan)]


def _shifts_line(plan: WardPlan, many: TooManyShifts) -> str:
    """That a nurse has too many shifts, and what would help."""
    above = many.shifts - many.most
    counted = plan.ward.credit.get(many.nurse, 0)
    part = f", {counted} of them for days away," if counted else ""
    number = f"{plural(many.shifts, 'shift')}{part} of at most {many.most} in the period"
    cure = "no plan takes so many away, since the others were worked or are held: allow her more"
    if many.last is not None:
        begin = f"plan from {plan.days.text(many.last)} on, or from an earlier day"
        cure = f"{begin}, takes {above} away if the needs allow it; or allow her more"
    return readable(f"{many.nurse} has {number}, and this limit holds: {cure}")


def beside_text(days: PlanDays, beside: WrongBeside) -> str:
    """What is wrong beside days away."""
    before, day = beside.days
    nurse = readable(beside.nurse)
    if not beside.shift:
        row = (
            f"{plural(beside.number, 'day')} in a row with work or training,"
            f" {days.span(beside.days)}"
        )
        return f"{nurse} has {row}, and her contract at most {beside.most} with work"
    if not beside.word:
        run = f"{plural(beside.number, 'day')} in a row on {readable(beside.shift)}"
        return f"{nurse} has {run}, {days.span(beside.days)}, of at most {beside.most}"
    night = days.text(before) if day else "the Sunday before"
    return (
        f"{nurse} works {readable(beside.shift)} on {night}, and has {beside.word} on"
        f" {days.text(day)}"
    )


def beside_lines(plan: WardPlan) -> list[str]:
    """What is wrong beside days away, a line for each."""
    return [beside_text(plan.days, beside) for beside in beside_days_away(plan)]


def due_lines(plan: WardPlan) -> list[str]:
    """A line for each charge in which days away have a part, and the sum of what is due to them."""
    due = due_to_days_away(plan)
    said = []
    for part in due:
        text = charge_text(part.charge, names=plan.day_names(part.week))
        why = RULES[part.charge.rule].away.format(joined(part.words))
        said.append(readable(f"{part.points} points: {text}: {why}"))
    return (
        [*said, f"{sum(part.points for part in due)} of the points are due to days away"]
        if len(due) > 1
        else said
    )


def broken_text(plan: WardPlan, broken: Broken) -> str:
    """The hard rule that a week of a plan breaks, or the limits that it exceeds."""
    if broken.rule:
        return f"{plan.days.week_text(broken.week)}, {readable(broken.rule)}"
    words = limits_in_words(
        broken.above, plan.state.roster(broken.week), plan.day_names(broken.week)
    )
    return f"{plan.days.week_text(broken.week)} exceeds a limit that holds: {words}"


def evenness_lines(plan: WardPlan, before: LastYear = LastYear()) -> list[str]:
    """How evenly nights, weekends and bank holidays are shared among the nurses of each contract
    who may work them, with those of the year before the plan, and from when on they count."""
    shared = evenness(plan, before.shares)
    said = []
    for kind, spreads in (
        ("nights", shared.nights),
        ("weekends", shared.weekends),
        ("bank holidays", shared.holidays),
    ):
        numbers = [
            f"{readable(spread.contract)} {spread.fewest}{_to_most(spread.fewest, spread.most)}"
            for spread in spreads
        ]
        if numbers:
            said.append(
                f"{kind} of each nurse who may work them, by contract: {', '.join(numbers)}"
            )
    if said and before.shares:
        since = before.since
        begin = f"{date_text(since)} {since.year}" if since else "the last 52 weeks"
        said.append(f"these numbers count from {begin} on, with what was worked before this plan")
    return said


def _to_most(fewest: int, most: int) -> str:
    return f" to {most}" if most > fewest else ""


# ---- periods


def anew_lines(rows: Iterable[WeekRow], days: PlanDays) -> Iterator[str]:
    """That the weeks of these rows count anew in a period of these days, a line for each week."""
    ordered = sorted(rows, key=lambda row: (row.week, row.number))
    for week, numbers in together((row.week, str(row.number)) for row in ordered).items():
        named = f"row{'s' if len(numbers) > 1 else ''} {joined(numbers)}"
        span = (
            f", now {days.span([WEEK_DAYS * week, WEEK_DAYS * week + WEEK_DAYS - 1])}"
            if days.monday
            else ""
        )
        now = f"weeks count anew, and this is {days.week_text(week)}{span}"
        yield f"sheet needs, {named}: {now}: correct it, or delete what the last period needed"
