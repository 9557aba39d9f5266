"""The verbs of a ward's folder: all that the terminal and the page can ask for."""

import datetime
from dataclasses import replace
from pathlib import Path
from typing import NamedTuple

from ..week.dates import PlanDays
from ..week.records import NurseDay
from .plan_files import known_record
from .planned import Planned
from .planning import written
from .store import Means, PlanStore
from .state import Record, Swap
from .verb import FROM, ON_PAGE, Event, Outcome, Verb
from .verbs import away, back, check, over, page, plan, set_day, swap, undo
from .ward import WardPlan
from .ward_folder import WardFolder, place_of

# In the order of the help and of the page.
VERBS: tuple[Verb, ...] = (
    check.VERB,
    plan.VERB,
    away.VERB,
    back.VERB,
    swap.VERB,
    set_day.VERB,
    over.VERB,
    page.VERB,
    undo.VERB,
)
CHECK, PLAN, OVER, UNDO = (verb.VERB.names[0] for verb in (check, plan, over, undo))
BY_NAME = {name: verb for verb in VERBS for name in verb.names}


class Done(NamedTuple):
    """What a verb has done, and whether that holds, or was taken back."""

    text: str
    holds: bool = True


class Verbs:
    """The verbs of a folder."""

    def __init__(self, folder: WardFolder, means: Means) -> None:
        self._store = PlanStore(folder, means)

    def current(self, first: str = "") -> WardPlan:
        """The plan that holds, with what the spreadsheet says now: that of the period that runs, or
        of the one that begins on this date."""
        return self._store.of_dates([first], plans=False).current()

    def later_periods(self) -> list[PlanDays]:
        """The days of the periods after the one that runs that are planned or can be."""
        return [days for _, days in sorted(self._store.open_days().items())][1:]

    def worked_pages(self, now: WardPlan | None) -> dict[str, str]:
        """The pages of weeks that are over, with this plan, if there is one, and their texts."""
        return self._store.worked_pages(now)

    def hung_up(self, now: WardPlan) -> WardPlan | None:
        """The last plan of the same days that was hung up before the one that holds."""
        return self._store.hung_up(now)

    def agreed_swap(self, now: WardPlan, place: NurseDay) -> Swap | None:
        """The last swap that was written for a nurse's day, if the plan keeps it."""
        return swap.agreed_swap(self._store, now, place)

    def made(self, since: datetime.datetime) -> str:
        """Which verb has made the plan that holds, when, and, if that was since then, whether it
        was typed at a terminal; nothing if that is not known."""
        last = self._store.folder.last()
        record = known_record(last) if last else None
        if not record:
            return ""
        return f"{record.made}{_where(record) if record.time >= since else ''}"

    def history(self, most: int) -> list[Done]:
        """What the last verbs have done, the last one first, when, and where each was asked for: at
        a terminal, or on the page, which says from which address."""
        folder = self._store.folder
        undone = folder.undone()
        plans = sorted([*folder.made(), *undone], key=place_of, reverse=True)
        return [Done(_done_text(plan), holds=plan not in undone) for plan in plans[:most]]

    def asked(self, event: Event) -> Outcome | None:
        """What comes of an event before anything is searched or written, as far as that is known.
        Raises Misuse if what is asked for cannot be."""
        return BY_NAME[event.verb].asked(self._store_of(event), event)

    def done(self, event: Event) -> Outcome:
        """Does what an event asks for. Raises Misuse if that cannot be."""
        return BY_NAME[event.verb].done(self._store_of(event), event)

    def _store_of(self, event: Event) -> PlanStore:
        """The plans of the period that an event is about. A week ends in the one that runs."""
        if event.verb in (CHECK, OVER, UNDO):
            return self._store
        return self._store.of_dates(event.words, plans=event.verb == PLAN)

    def written(self, planned: Planned, event: Event) -> Planned:
        """Writes the plan that an event has found, after its user has looked at it."""
        return written(self._store, event, replace(planned, is_look=False))


def _done_text(plan: Path) -> str:
    """The verb that has made a plan, its time, and where it was asked for."""
    record = known_record(plan)
    return f"{record.made}{_where(record)}" if record else f"{plan.name}, which is damaged"


def _where(record: Record) -> str:
    """That a plan was asked for at a terminal, if it was."""
    is_of_page = ON_PAGE in record.typed or FROM in record.typed
    return "" if is_of_page else ", at a terminal"
