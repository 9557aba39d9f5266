"""What all verbs share: what a user asks for, and what comes of it. Each verb is a module of
`verbs`, and `table` has them all.

A question of the page is an outcome before anything is searched or written; the exit status of the
command is that of the outcome.
"""

import enum
from dataclasses import dataclass, replace
from typing import Callable, NamedTuple, TypeVar

from ..programs.program import BROKEN_RULE, NO_ROSTER, READ_OR_WRITE
from ..week.records import Cell, NurseDay, Place
from ..week.words import OFF
from .pages import Pages
from .store import PlanStore
from .ward import WardPlan
from .words import Wording


# What stands behind the words of an event of the page, and the beginning of it if the address of
# its user is known.
ON_PAGE = "(on the page)"
FROM = "(on the page, from "


def on_page(address: str) -> str:
    """What stands behind the words of an event of the page that was used from this address."""
    return f"{FROM}{address})" if address else ON_PAGE


class Event(NamedTuple):
    """What a user asks for."""

    # A verb, or a reason to be away.
    verb: str
    # The names and days after it.
    words: tuple[str, ...] = ()
    # The seconds of a search, if they are not the usual ones.
    seconds: float | None = None
    # Whether all shifts may change.
    free: bool = False
    # Whether a swap, a day that is set, or a plan that exceeds a maximum that holds, is written.
    do: bool = False
    # Whether the plan of a search is looked at before it is written.
    look: bool = False
    # Whether it was asked for on the page, which asks before it writes, and not at a terminal.
    on_page: bool = False
    # Whether shifts that nobody can take are left open.
    open: bool = False
    # The address from which the page was used, if that is not this machine.
    address: str = ""

    @property
    def typed(self) -> str:
        """The words that the user typed, with the option that changes what comes of them."""
        options = [
            *(["--free"] if self.free else []),
            *(["--open"] if self.open else []),
            *([on_page(self.address)] if self.on_page else []),
        ]
        return " ".join(" ".join((self.verb, *self.words, *options)).split())


class Status(enum.Enum):
    """How an event ended."""

    DONE = 0
    PAGES_NOT_WRITTEN = READ_OR_WRITE
    NO_PLAN = NO_ROSTER
    # A plan that does not keep each absence and limit, or a swap or a day that cannot be.
    NOT_KEPT = BROKEN_RULE


@dataclass(frozen=True, kw_only=True)
class Outcome:
    """What comes of an event."""

    status: Status = Status.DONE
    is_written: bool = False
    pages: Pages = Pages()

    def lines(self, write: str = "") -> list[str]:
        """What is said of it. `write` says how a user writes what was only looked at."""
        raise NotImplementedError

    def question(self) -> list[str]:
        """What a question says of it before it is done; why it cannot be, if that is known."""
        return self.lines()

    @property
    def needs_search(self) -> bool:
        """Whether only a search can say what a question needs: who moves where."""
        return False

    @property
    def may_be_open(self) -> bool:
        """Whether shifts that nobody can take stand in the way, which may be left open."""
        return False


_AnOutcome = TypeVar("_AnOutcome", bound=Outcome)


def saved(outcome: _AnOutcome, pages: Pages) -> _AnOutcome:
    """The outcome that was written, with its pages; that they could not be is its status."""
    status = Status.PAGES_NOT_WRITTEN if pages.fault else outcome.status
    return replace(outcome, is_written=True, pages=pages, status=status)


class Form(NamedTuple):
    """How the page asks for a verb."""

    # The verb; `away` has a field for the reason, which is the verb.
    verb: str
    button: str
    # A sentence on the button.
    text: str
    # What the form writes; nothing if it only reads.
    writes: str = "a new plan, and its pages"
    # What the page says if it was refused.
    refused: str = ""
    # The heading of a form with fields, and these.
    heading: str = ""
    fields: tuple[str, ...] = ()
    needs_plan: bool = True


class Verb(NamedTuple):
    """A verb of the terminal and of the page."""

    # Its names: each reason to be away is a verb.
    names: tuple[str, ...]
    # The words after it and its effect, as the help has them.
    words: str
    effect: str
    done: Callable[[PlanStore, Event], Outcome]
    form: Form
    # What comes of it before anything is searched or written, as far as that is known.
    asked: Callable[[PlanStore, Event], Outcome | None] = lambda store, event: None
    # Whether it searches, so that it has seconds.
    searches: bool = False

    @property
    def usage(self) -> str:
        """How it is typed."""
        return f"{'ill' if 'ill' in self.names else self.names[0]} {self.words}".rstrip()


def wording_of(plan: WardPlan, event: Event, usage: str) -> Wording:
    """The words of an event, of which `usage` is an example."""
    return Wording(
        event.words, plan.scenario.nurses, plan.days, plan.first, usage, plan.state.begin
    )


def cell_of(wording: Wording, old: WardPlan, place: NurseDay) -> Cell | None:
    """The shift of a nurse's day that the next words name, or None for `off`. Without a skill she
    has her old one, or one that is asked for, if she has it."""
    skills = old.scenario.nurses[place.nurse].skills
    shift, skill = wording.shift([*old.scenario.shift_types, OFF], skills)
    return None if shift == OFF else Cell(*place, shift, skill or _skill(old, place, shift))


def _skill(old: WardPlan, place: NurseDay, shift: str) -> str:
    """The skill with which a nurse counts who worked another shift: her old one, or one that is
    asked for, if she has it."""
    before = old.works.get(place)
    skills = [*([before.skill] if before else []), *old.scenario.nurses[place.nurse].skills]
    asked = [
        skill
        for skill in skills
        for need in [old.needs.get(Place(place.day, shift, skill))]
        if need and need.optimal
    ]
    return (asked or skills)[0]
