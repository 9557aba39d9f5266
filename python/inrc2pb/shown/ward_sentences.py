"""A ward and its history in sentences, to be read by whoever knows the ward. Nurses with the same
numbers share a sentence."""

from typing import Collection, Iterable, Iterator

from ..judging.demand import Paid, asked_shifts, supplied_shifts
from ..judging.leave import Counted, PartContract, part_contract, whole_contract
from ..week.facts import SHIFTS, WEEKENDS, WORK_DAYS
from ..week.records import (
    DAYS,
    Contract,
    History,
    Limits,
    NurseHistory,
    Scenario,
    WeekData,
    together,
)
from ..week.words import joined, plural

_LIMITS = {SHIFTS: "shift", WORK_DAYS: "working day", WEEKENDS: "weekend"}


def ward_sentence(scenario: Scenario) -> str:
    """The size of a ward."""
    return (
        f"{scenario.name}: {plural(len(scenario.nurses), 'nurse')},"
        f" {plural(scenario.weeks, 'week')} in a period."
    )


def scenario_sentences(scenario: Scenario) -> Iterator[str]:
    """The shift types, contracts and skills of a ward."""
    for shift in scenario.shift_types.values():
        after = (
            f" After {shift.name}, the next day no {' and no '.join(shift.forbidden_next)}."
            if shift.forbidden_next
            else ""
        )
        yield f"{shift.name}: {_in_a_row(shift.consecutive)} in a row.{after}"
    owners = _owners(scenario)
    alike = together((_contract_text(scenario.contracts[name], scenario), name) for name in owners)
    for text, names in alike.items():
        named = joined(
            f"{name} ({joined(owners[name]) if owners[name] else 'nobody'})" for name in names
        )
        yield f"Contract{'s' if len(names) > 1 else ''} {named}: {text}."
    yield from part_sentences(scenario, scenario.nurses)
    for skill in scenario.skills:
        skilled = [nurse.name for nurse in scenario.nurses.values() if skill in nurse.skills]
        yield f"{skill}: {joined(skilled) if skilled else 'nobody'}."


def _part(scenario: Scenario, nurse: str) -> PartContract | None:
    """What the contract of a nurse is a part of, if it is one."""
    return part_contract(scenario.nurses[nurse].contract, scenario.contracts)


def _owners(scenario: Scenario) -> dict[str, list[str]]:
    """The nurses of each contract that is no part of another one, also those for whom a part of it
    counts."""
    wholes = [name for name in scenario.contracts if not part_contract(name, scenario.contracts)]
    owners = together((whole_contract(scenario, nurse), nurse) for nurse in scenario.nurses)
    return {name: owners.get(name, []) for name in wholes}


def _contract_text(contract: Contract, scenario: Scenario) -> str:
    """The limits of a contract."""
    days = (
        f"{_in_a_row(contract.working_days)} of work in a row, {_in_a_row(contract.days_off)} off"
    )
    weekends = "any number of weekends with work"
    if contract.max_weekends < scenario.weeks:
        weekends = f"at most {plural(contract.max_weekends, 'weekend')} with work"
    both = ", on both days or none" if contract.complete_weekends else ""
    return (
        f"{_shifts(contract.assignments, scenario)} in {plural(scenario.weeks, 'week')}; {days};"
        f" {weekends}{both}"
    )


def _shifts(limits: Limits, scenario: Scenario) -> str:
    return f"{_range(limits, len(DAYS) * scenario.weeks)} shifts"


def part_sentences(scenario: Scenario, nurses: Iterable[str]) -> Iterator[str]:
    """The nurses for whom their contract does not count as a whole, and what counts instead."""
    for nurse in nurses:
        part = _part(scenario, nurse)
        contract = scenario.contract_of(nurse)
        if part and part.total:
            gone = part.total - part.days
            whole = scenario.contracts[part.whole].assignments
            instead = (
                f"{_shifts(contract.assignments, scenario)} in place of {_range(whole, part.total)}"
            )
            yield (
                f"{nurse} is away or unpaid on {gone} of {part.total} days: contract"
                f" {part.whole} counts in proportion, {instead}."
            )
    long_away = [
        nurse for nurse in nurses for part in [_part(scenario, nurse)] if part and part.any_days_off
    ]
    if long_away:
        yield (
            "No maximum of days off in a row, since they are away for longer, or come or leave:"
            f" {joined(long_away)}."
        )


def _range(limits: Limits, no_limit: int) -> str:
    """Limits in words; a maximum that cannot be reached is none."""
    if limits.maximum >= no_limit:
        return f"at least {limits.minimum}" if limits.minimum else "any number of"
    return f"at most {limits.maximum}" if not limits.minimum else numbers_text(*limits)


def numbers_text(minimum: int, most: int) -> str:
    """Two numbers in words; one if they are equal."""
    return str(minimum) if minimum == most else f"{minimum} to {most}"


def _in_a_row(limits: Limits) -> str:
    low = max(1, limits.minimum)
    if limits.maximum >= 90:
        return "any number of days" if low == 1 else f"at least {plural(low, 'day')}"
    return f"{numbers_text(low, limits.maximum)} day{'' if low == limits.maximum == 1 else 's'}"


def limit_sentences(scenario: Scenario, data: WeekData) -> Iterator[str]:
    """The maxima that are never exceeded, by contract or, if they are not those of all nurses of a
    contract, by nurse."""
    kinds = together((limit.nurse, limit.kind) for limit in data.limits)
    for name, owners in _owners(scenario).items():
        said = together(
            (_limits_text(scenario, kinds.get(nurse, ()), nurse), nurse) for nurse in owners
        )
        for text, nurses in said.items():
            if text:
                yield f"{name if nurses == owners else joined(nurses)}: never more than {text}."


def _limits_text(scenario: Scenario, kinds: Collection[str], nurse: str) -> str:
    """The maxima of these kinds, which a nurse never exceeds; nothing if there are none."""
    contract = scenario.contract_of(nurse)
    most = {
        SHIFTS: contract.assignments.maximum,
        WORK_DAYS: contract.working_days.maximum,
        WEEKENDS: contract.max_weekends,
    }
    words = [
        f"{plural(most[kind], what)}{' in a row' if kind == WORK_DAYS else ''}"
        for kind, what in _LIMITS.items()
        if kind in kinds
    ]
    return joined(words) if words else ""


def history_sentences(history: History, counted: Counted = Counted()) -> Iterator[str]:
    """A history in sentences: the last days, the totals of the period, and apart from them as what
    days away count in the whole of it."""
    if history.week:
        yield (
            f"{plural(history.week, 'week')} of the period"
            f" {'is' if history.week == 1 else 'are'} over."
        )
    past = list(history.nurses.values())
    lasts = together(
        (row.last_shift, row) for row in sorted(past, key=lambda row: row.last_shift is not None)
    )
    for shift, nurses in lasts.items():
        rows = together((_row_text(row), row.nurse) for row in nurses)
        known = [f"{joined(names)} {text}" for text, names in rows.items() if text]
        if known:
            yield f"{shift or 'Off'} on Sunday: {'; '.join(known)}."
        if "" in rows:
            yield f"Nothing is known of the days before Monday: {joined(rows[''])}."
    days_away = {
        row.nurse: (counted.shifts.get(row.nurse, 0), counted.weekends.get(row.nurse, 0))
        for row in past
    }
    worked = {
        row.nurse: (
            row.assignments - days_away[row.nurse][0],
            row.weekends - days_away[row.nurse][1],
        )
        for row in past
    }
    for label, numbers in (
        ("In the period until now", worked),
        ("For days away in the whole period", days_away),
    ):
        totals = together(
            (_total_text(*both), nurse) for nurse, both in numbers.items() if any(both)
        )
        if totals:
            yield (
                f"{label}:"
                f" {'; '.join(f'{joined(names)} {text}' for text, names in totals.items())}."
            )


def _row_text(past: NurseHistory) -> str:
    """How long a nurse was off on Sunday, or on her last shift; nothing if that is not known."""
    if past.last_shift is None:
        return f"for {plural(past.days_off, 'day')} in a row" if past.days_off else ""
    return (
        f"for {plural(past.consecutive_shifts, 'day')} in a row, with"
        f" {plural(past.working_days, 'day')} of work"
    )


def _total_text(shifts: int, weekends: int) -> str:
    """A nurse's shifts and weekends in the period."""
    return f"{plural(shifts, 'shift')} and {plural(weekends, 'weekend')}"


def supply_text(
    scenario: Scenario, history: History | None, data: WeekData, paid: Paid = ()
) -> str:
    """The shifts that a week asks for, and those that the contracts supply. `paid` has days away
    that count as work."""
    (minimum, best) = asked_shifts(data)
    (low, high) = supplied_shifts(scenario, history, paid)
    return (
        f"asks for {numbers_text(minimum, best)} shifts; the contracts supply"
        f" {numbers_text(low, high)} a week"
    )
