"""The one judge of whether a nurse may have a shift: by rest, skills and absences."""

import enum
from typing import Collection

from ..week.records import Absence, Cell, Scenario


class Obstacle(enum.Enum):
    """Why a nurse cannot have some shifts: a limit that holds, a row or a night beside days away, a
    shift that is held, a day on which she is away, a shift type that she never works, a skill that
    she does not have, a shift type that may not follow another one, or comes before it, a place
    that has its minimum number of nurses only with her, and a day that was promised to her."""

    LIMIT = enum.auto()
    BESIDE = enum.auto()
    HELD = enum.auto()
    AWAY = enum.auto()
    NEVER = enum.auto()
    SKILL = enum.auto()
    FOLLOWS = enum.auto()
    PRECEDES = enum.auto()
    MINIMUM = enum.auto()
    PROMISED = enum.auto()


def obstacles(
    scenario: Scenario,
    away: Collection[Absence],
    cell: Cell,
    before: str | None = None,
    after: str | None = None,
) -> list[Obstacle]:
    """Why the nurse may not have this shift, with these absences, and with her shift types on the
    days before and after it."""
    is_away = Absence(cell.nurse, cell.day, None) in away
    # An enumeration's values take long to look up in a dictionary.
    is_so = (
        (Obstacle.AWAY, is_away),
        (Obstacle.NEVER, not is_away and Absence(cell.nurse, cell.day, cell.shift) in away),
        (Obstacle.SKILL, cell.skill not in scenario.nurses[cell.nurse].skills),
        (Obstacle.FOLLOWS, scenario.forbids(before, cell.shift)),
        (Obstacle.PRECEDES, scenario.forbids(cell.shift, after)),
    )
    return [obstacle for obstacle, is_there in is_so if is_there]
