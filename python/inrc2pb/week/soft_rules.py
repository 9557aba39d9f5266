"""The soft rules, as docs/rules.md has them: the name of each, what it costs, and its words.

`judging.rules` says how often a roster is charged. The reports of the program, the search, the
sentences and the pages read the rest here, so a new rule that charges something of these forms is a
row of this table, a charge of the judge, and a cost of the search.
"""

import enum
from typing import NamedTuple


class Phrase(enum.Enum):
    """What a rule charges: too few nurses at a place, days in a row, a request, half a weekend, or
    a total of the period."""

    PLACE = enum.auto()
    RUN = enum.auto()
    REQUEST = enum.auto()
    WEEKEND = enum.auto()
    TOTAL = enum.auto()


class Rule(NamedTuple):
    """A soft rule."""

    name: str
    # The points of each time.
    weight: int
    # What it charges, and the form of its charges.
    words: str
    form: Phrase
    # Why a nurse's days away have a part in them; no text, if they have none.
    away: str
    # A word for what they count.
    counts: str = ""


RULES = {
    rule.name: rule
    for rule in (
        Rule("S1", 30, "fewer nurses than best", Phrase.PLACE, "", "nurse"),
        Rule(
            "S2",
            30,
            "days in a row with work or on one shift type",
            Phrase.RUN,
            "the days in a row end at her days away ({})",
            "with work",
        ),
        Rule(
            "S3", 30, "days in a row off", Phrase.RUN, "her days away ({}) count as days off", "off"
        ),
        Rule("S4", 10, "a wish that is not granted", Phrase.REQUEST, ""),
        Rule("S5", 30, "half a weekend", Phrase.WEEKEND, "she is away on the other day ({})"),
        Rule(
            "S6",
            20,
            "shifts in the period",
            Phrase.TOTAL,
            "some of her shifts are for days away ({})",
            "shift",
        ),
        Rule(
            "S7",
            30,
            "weekends in the period",
            Phrase.TOTAL,
            "some of her weekends are days away ({})",
            "weekend",
        ),
    )
}
SOFT_RULES = tuple(RULES)
(
    MISSING_NURSE,
    WORK_RUN,
    DAYS_OFF_RUN,
    REQUEST,
    HALF_WEEKEND,
    ASSIGNMENT_TOTAL,
    WEEKEND_TOTAL,
) = (rule.weight for rule in RULES.values())
# A day of a run of one shift type is half as bad as one of a run of work.
SHIFT_RUN = 15
