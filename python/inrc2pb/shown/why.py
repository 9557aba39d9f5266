"""Why rosters cost what they cost: each charge and each broken rule in words, and the charges that
a change saves or adds."""

from typing import Iterator, Sequence

from ..judging.absences import MARK
from ..judging.limits import limits_in_words
from ..judging.rules import Charge, cost_by_rule
from ..week.records import DAYS
from ..week.soft_rules import RULES, SOFT_RULES, Phrase
from ..week.words import plural
from .changes import PricedWords, changed_lines, charge_lines, sum_text
from .roster_view import RosterView


def _charges(view: RosterView) -> list[tuple[str, Charge]]:
    """The charges of all weeks, each with the beginning of its line."""
    return [(view.prefix(week), charge) for week in view.weeks for charge in week.charges or ()]


def breach_lines(view: RosterView, named: str = "roster") -> Iterator[str]:
    """A line for each hard rule that a roster breaks."""
    for week in view.weeks:
        yield from (
            f"{view.prefix(week)}the {named} breaks {breach.rule}: {breach.reason}"
            for breach in week.breaches
        )


def plain_breach_lines(view: RosterView) -> Iterator[str]:
    """The same without the names of the rules."""
    for week in view.weeks:
        yield from (f"{view.prefix(week)}{breach.plain}" for breach in week.breaches)


def why_lines(view: RosterView) -> Iterator[str]:
    """A line for each hard rule that is broken and for each charge, and the sum."""
    yield from breach_lines(view)
    for above in view.weeks:
        yield from (
            f"{view.prefix(above)}above a limit that holds:"
            f" {limits_in_words([charge], above.cells)}"
            for charge in above.above
        )
    for shown in view.weeks:
        for charge in shown.charges or ():
            away = shown.for_absence(charge)
            absent = f" ({away} for absences)" if away else ""
            words = f"{view.prefix(shown)}{charge_text(charge)}{absent}"
            yield f"{charge.cost:5}  {charge.rule}  {words}"
    if view.penalty is not None:
        rules = costs_text(cost_by_rule(charge for _, charge in _charges(view)))
        yield f"{view.penalty:5}  in all{f': {rules}' if rules else ''}"


def difference_lines(old: RosterView, new: RosterView) -> Iterator[str]:
    """A line for each change, for each hard rule that is broken, for each charge that is saved or
    added, and the sum."""
    yield from changed_lines(old, new)
    yield from breach_lines(old, "old roster")
    yield from breach_lines(new, "new roster")
    if old.penalty is None or new.penalty is None:
        return
    yield from charge_lines(*(_charged(view) for view in (old, new)))
    before, now = (cost_by_rule(charge for _, charge in _charges(view)) for view in (old, new))
    by_rule = [
        f"{rule} {now[rule] - before[rule]:+}" for rule in SOFT_RULES if now[rule] != before[rule]
    ]
    rules = f": {' '.join(by_rule)}" if by_rule else ""
    yield sum_text(
        old.penalty, new.penalty, f"{rules}; penalty {new.penalty} instead of {old.penalty}"
    )


def _charged(view: RosterView) -> list[PricedWords]:
    """The cost of each charge, and its rule and the charge in words."""
    return [
        PricedWords(charge.cost, f"{charge.rule}  {week}{charge_text(charge)}")
        for week, charge in _charges(view)
    ]


def days_text(days: tuple[int, int], names: Sequence[str] = DAYS) -> str:
    """The first and the last day, as `Mon to Thu`."""
    first, last = days
    return names[first] if first == last else f"{names[first]} to {names[last]}"


def _in_a_row(charge: Charge, what: str, monday: str) -> str:
    """A run that is too long or too short."""
    run = f"{plural(charge.number, 'day')} {what}"
    before = f" ({charge.before} before {monday})" if charge.before and charge.days else ""
    if charge.what.endswith("above"):
        return f"{run} in a row{before}, at most {charge.limit}"
    return f"only {run}{' in a row' if charge.number > 1 else ''}{before}, at least {charge.limit}"


def _in_the_period(charge: Charge, what: str, monday: str) -> str:
    """A total of the period that is too large or too small."""
    side = "at least" if charge.what == "below" else "at most"
    return (
        f"{plural(charge.number, what)} in the period ({charge.before} before {monday}),"
        f" {side} {charge.limit}"
    )


def _not_granted(charge: Charge) -> str:
    """The requests of a charge."""
    times = f" ({charge.number} requests)" if charge.number > 1 else ""
    if charge.number >= MARK:
        return f"while away{times}"
    asked = "to be off" if charge.what == "Any" else f"for no {charge.subject}"
    return f"and asked {asked}{times}"


def reason(charge: Charge, monday: str) -> str:
    """What is charged, without the nurse or place and the days."""
    rule = RULES[charge.rule]
    if rule.form is Phrase.PLACE:
        return f"{charge.number} of {plural(charge.limit, rule.counts)}"
    if rule.form is Phrase.RUN:
        return _in_a_row(charge, f"on {charge.subject}" if charge.subject else rule.counts, monday)
    if rule.form is Phrase.REQUEST:
        return f"on {charge.subject}, {_not_granted(charge)}"
    if rule.form is Phrase.TOTAL:
        return _in_the_period(charge, rule.counts, monday)
    return rule.words


def charge_text(charge: Charge, with_nurse: bool = True, names: Sequence[str] = DAYS) -> str:
    """A charge in words, as `Chen, Mon to Thu: 4 days off in a row, at most 3`, with these names of
    days."""
    monday = "Monday" if names is DAYS else names[0]
    days = (
        days_text(charge.days, names)
        if charge.days
        else ""
        if RULES[charge.rule].form is Phrase.TOTAL
        else f"before {monday}"
    )
    who = charge.subject if charge.nurse is None else charge.nurse if with_nurse else ""
    named = ", ".join(filter(None, (who, days)))
    return f"{named}: {reason(charge, monday)}" if named else reason(charge, monday)


def costs_text(costs: dict[str, int]) -> str:
    """The rules and what they charge, as `S2 30 + S4 10`."""
    return " + ".join(f"{rule} {cost}" for rule, cost in costs.items() if cost)
