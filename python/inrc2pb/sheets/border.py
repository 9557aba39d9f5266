"""The border between a period and the next one, which is planned: what nurses have on its first
days, and which shifts of the last day these may not follow."""

from typing import Mapping, NamedTuple

from ..week.facts import Choice, Claim
from ..week.records import WEEK_DAYS, Contract, Scenario


class NextShifts(NamedTuple):
    """A nurse's shift types on the first days of the next period, as it is planned, until she first
    changes between work and days off, which are empty; and her contract then."""

    contract: Contract
    shifts: tuple[str, ...]


# That of each nurse whom both periods have.
Border = Mapping[str, NextShifts]


def next_shift(scenario: Scenario, border: Border, nurse: str, shift: str) -> str:
    """The nurse's first shift of the next period, if it may not follow this one."""
    first = border[nurse].shifts[0] if nurse in border else ""
    return first if scenario.forbids(shift, first) else ""


def border_claims(scenario: Scenario, border: Border, weeks: int) -> list[Claim]:
    """That nurses have no shifts on the last day of so many weeks that those of the next day may
    not follow."""
    last = Choice(weeks, "", WEEK_DAYS - 1, None)
    return [
        Claim(last._replace(nurse=nurse, shift=shift), holds=False)
        for nurse in border
        for shift in scenario.shift_types
        if next_shift(scenario, border, nurse, shift)
    ]
