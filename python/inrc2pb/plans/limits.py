"""What plans of a ward keep: the limits, as functions of the ward, of what verbs have made, and of
a first day."""

from typing import Mapping, Sequence

from ..judging.leave import credited
from ..sheets.ward import Ward
from ..week.facts import SHIFTS, Charged, Claim
from .state import State


def limits_of(ward: Ward, state: State, first: int | None = None) -> tuple[Claim, ...]:
    """The absences and limits that a plan of this state is judged by. A maximum of a nurse's shifts
    allows the shifts that she has before the day `first`, or all of them, as far as they are too
    many only since days away count as shifts: no limit takes shifts of other days from a nurse who
    is ill."""
    return _with_more(
        ward.claims,
        ward,
        state,
        _planned(ward, state, ward.days.total if first is None else first),
        ward.credit,
    )


def limits_for_leavers(
    ward: Ward, state: State, limits: Sequence[Claim], first: int
) -> tuple[Claim, ...]:
    """These limits for a search from the day `first` on: a nurse who leaves the ward keeps her
    shifts before it, also if the part of her contract that counts has fewer."""
    planned = _planned(ward, state, first)
    return _with_more(limits, ward, state, planned, dict.fromkeys(ward.leaving, len(planned)))


def _planned(ward: Ward, state: State, end: int) -> list[str]:
    """The nurse of each shift before the day `end`, but for shifts on days on which she is away."""
    return [
        cell.nurse for cell in state.cells if cell.day < end and cell.nurse_day not in ward.reasons
    ]


def _with_more(
    limits: Sequence[Claim],
    ward: Ward,
    state: State,
    planned: Sequence[str],
    more: Mapping[str, int],
) -> tuple[Claim, ...]:
    """The limits, with maxima that allow nurses these planned shifts, but by no more than `more`
    says for each."""
    before = credited(state.start, ward.counted).nurses

    def allowing(claim: Claim) -> Claim:
        fact = claim.fact
        if not isinstance(fact, Charged) or fact.kind != SHIFTS or fact.nurse is None:
            return claim
        shifts = before[fact.nurse].assignments + planned.count(fact.nurse)
        above = shifts - ward.scenario.contract_of(fact.nurse).assignments.maximum
        return claim._replace(
            fact=fact._replace(most=max(fact.most, min(above, more.get(fact.nurse, 0))))
        )

    return tuple(map(allowing, limits))
