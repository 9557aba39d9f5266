"""Days on which a nurse is away, or is not any more, and what they count. The verbs for absences
and for who is back share them, and so does the end of a week."""

from dataclasses import dataclass
from typing import Callable, Iterable

from ..judging.leave import ILL, TRAINING
from ..sheets.written_days import BACK, lost_shifts
from ..shown.ward_sentences import part_sentences
from ..week.records import NurseDay, together
from ..week.words import readable
from .sentences import exceeded_lines
from .verb import Outcome, Status
from .ward import ALWAYS_OFF, DAYS_OFF, WardPlan


def _ends(_plan: WardPlan) -> "Away | None":
    """It has no days in the next period."""
    return None


@dataclass(frozen=True)
class Away(Outcome):
    """A nurse is away on these days for a reason, or, for the reason `back`, she is not any more;
    with the plans before and with this."""

    old: WardPlan
    new: WardPlan
    nurse: str
    days: tuple[int, ...]
    word: str
    # The reason that she had who is back.
    was: str = ""
    # How it goes on in the plan of the next period, if it does, and its days after this period.
    goes_on: Callable[[WardPlan], "Away | None"] = _ends
    left: int = 0

    @property
    def there(self) -> WardPlan:
        """The plan with this, before a search, without the shifts of days away."""
        return self.new.with_cells(
            cell for cell in self.new.cells if cell.nurse_day not in self.new.away
        )

    def lines(self, write: str = "") -> list[str]:
        """What an absence lifts and counts, and what it alone exceeds."""
        said = [*self.heads(is_look=True), *exceeded_lines(self.there)]
        return (
            [*said, not_written_text(write)] if self.status is Status.NOT_KEPT and write else said
        )

    @property
    def needs_search(self) -> bool:
        """Each absence does."""
        return True

    def begin(self) -> list[str]:
        """That a nurse is away or back, before a search."""
        nurse = readable(self.nurse)
        if self.word != BACK:
            return [f"{nurse}: {self.word}, {self.old.days.span(self.days)}"]
        stays = together(
            (self.new.away.get(NurseDay(self.nurse, day), ALWAYS_OFF), day)
            for day in range(self.days[0], self.new.days.total)
        )
        said = [f"{nurse}: back, {self.old.days.span(self.days)} ({self.was})"]
        away = {word: days for word, days in stays.items() if word not in DAYS_OFF}
        return said + [
            f"{nurse} stays away: {word}, {self.new.days.spans(days)}"
            for word, days in away.items()
        ]

    def heads(self, is_look: bool = False) -> list[str]:
        """The shifts that the spreadsheet holds and the absence lifts, and what counts of the
        nurse's contract now; in a look also what ends and what stays."""
        old = self.old
        begin = self.begin() if is_look and self.word == BACK else []
        lifted = (
            [old.held.get(NurseDay(self.nurse, day)) for day in self.days]
            if self.word != BACK
            else []
        )
        said = [
            readable(
                f"{cell.nurse}, {old.days.text(cell.day)}: {self.word} lifts {cell.shift}, which"
                " the spreadsheet holds"
            )
            for cell in lifted
            if cell
        ]
        return [*begin, *said, *part_lines(old, self.new, self.nurse)]


def part_lines(old: WardPlan, new: WardPlan, nurse: str) -> list[str]:
    """What counts of the nurse's contract now, if her shifts of the period are other ones."""
    before, now = (plan.scenario.contract_of(nurse) for plan in (old, new))
    if before.assignments == now.assignments:
        return []
    whole = f"{nurse}: contract {now.name} counts as a whole again."
    return [readable(line) for line in part_sentences(new.scenario, [nurse])] or [readable(whole)]


def not_written_text(write: str) -> str:
    """That a maximum that holds would be exceeded, so nothing is written before the user is
    asked."""
    return (
        "nothing is written, since a maximum that holds would be exceeded: do what helps, or"
        f" {write}"
    )


def lost_by(old: WardPlan, nurse: str, days: Iterable[int]) -> dict[int, int]:
    """The shifts that an illness of a nurse takes from a plan on the wall: her shift of each day,
    none if she is off, and what was known before if she is ill already. Of days on which she is
    away for another reason only those of training have one.
    """
    known = lost_shifts(old.state.absences)
    lost = {}
    for place in (NurseDay(nurse, day) for day in days):
        word = old.away.get(place, "")
        if word == ILL and place in known:
            lost[place.day] = known[place]
        elif word in ("", *DAYS_OFF, TRAINING):
            lost[place.day] = int(place in old.works or word == TRAINING)
    return lost
