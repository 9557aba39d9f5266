"""What was worked otherwise than planned: corrections such as `Bruno Mon ill`, and what follows of
them. The end of a week has them, and so have weeks that are over."""

from dataclasses import replace
from typing import Mapping, NamedTuple

from ..judging.leave import ILL
from ..sheets.plan_sheets import AWAY
from ..sheets.written_days import BACK, with_days
from ..week.faults import Misuse
from ..week.records import WEEK_DAYS, Cell, NurseDay
from ..week.words import readable
from .absence import Away, lost_by
from .changes import shift_changes
from .facts import breaks
from .left_open import worked_open
from .sentences import broken_text, change_lines, days_away_lines
from .verb import Event, cell_of
from .ward import ALWAYS_OFF, DAYS_OFF, WardPlan, plan_of
from .words import Wording


class Corrections(NamedTuple):
    """The plan before and with them, both as if no week were over, so that all days are judged
    alike; the days on which nurses were away or back by them; and the nurses' days."""

    old: WardPlan
    new: WardPlan
    away: Mapping[NurseDay, str]
    places: frozenset[NurseDay]

    @property
    def weeks(self) -> frozenset[int]:
        """The weeks of these days."""
        return frozenset(place.day // WEEK_DAYS for place in self.places)

    def with_open(self, open_week: int) -> WardPlan:
        """The plan with them, whose first weeks are over, and whose days up to the last of these
        are recorded as they were worked."""
        # What is known of other plans was of these weeks as they were planned.
        last = max([self.new.state.recorded, *(place.day + 1 for place in self.places)])
        state = replace(
            self.new.state,
            open_week=open_week,
            least=None,
            recorded=last if last > WEEK_DAYS * open_week else 0,
            as_planned=tuple(week for week in self.new.state.as_planned if week not in self.weeks),
        )
        new = plan_of(
            self.new.ward,
            state.keeping(lambda place: place.day >= state.first and place not in self.places),
        )
        return worked_open(new)

    def lines(self) -> list[str]:
        """What was worked otherwise than planned, and the rules that this breaks."""
        old, new = self.old, self.new
        said: list[str] = []
        for (nurse, day), word in self.away.items():
            absence = Away(old, new, nurse, (day,), word)
            said += [
                f"{readable(nurse)}: {word}, {old.days.text(day)}",
                *(line for line in absence.heads() if line not in said),
            ]
        said += change_lines(shift_changes(old.cells, new.cells), old.days, new.away, old.away)
        by_hand = [line for week in sorted(self.weeks) for line in self._newly_broken(week)]
        cure = ["if it was not worked so: undo, then over with other corrections"]
        return [*said, *by_hand, *(cure if by_hand else [])]

    def _newly_broken(self, week: int) -> list[str]:
        known = breaks(self.old, week)
        return [
            broken_text(self.new, fault) for fault in breaks(self.new, week) if fault not in known
        ]


class _Worked(NamedTuple):
    """The shifts of nurses' days as they were worked; why nurses were away on days on which they
    did not work, or that they were back on days on which they did; and the days of corrections."""

    cells: dict[NurseDay, Cell]
    away: dict[NurseDay, str]
    places: set[NurseDay]


def corrections_of(
    plan: WardPlan, event: Event, end: int, names: Mapping[str, str] = {}
) -> Corrections:
    """The corrections that the words are, of days before the day `end`; users write these names for
    those of the plan. Raises OtherPlan if the plan does not have a day."""
    old = plan.with_state(replace(plan.state, open_week=0))
    known = names or {nurse: nurse for nurse in plan.scenario.nurses}
    name = readable(next(iter(known)))
    usage = f"over, or over {name} Fri off if {name} did not work on Friday, or over {name} Fri ill"
    wording = Wording(event.words, known, plan.days, plan.first, usage)
    worked = _Worked(dict(old.works), {}, set())
    while not wording.is_over:
        place = NurseDay(known[wording.nurse()], wording.day())
        if place.day >= end:
            why = "is after the week that ends now" if plan.days.monday is None else "has not begun"
            raise Misuse(
                f"{plan.days.text(place.day)} {why}: the verb swap, or ill, changes later days"
            )
        _correct(old, wording, worked, place)
    absences = old.state.absences
    for (nurse, day), word in worked.away.items():
        lost = lost_by(old, nurse, [day]) if word == ILL else {}
        absences = with_days(absences, nurse, [day], word, lost)
    with_them = old.with_absences(absences) if worked.away else old
    new = plan_of(with_them.ward, with_them.state.with_open(worked.cells.values()))
    return Corrections(old, new, worked.away, frozenset(worked.places))


def _correct(old: WardPlan, wording: Wording, worked: _Worked, place: NurseDay) -> None:
    """Takes one correction of a nurse's day. The last one of a day counts."""
    worked.places.add(place)
    worked.cells.pop(place, None)
    worked.away.pop(place, None)
    word = wording.one_of(AWAY)
    if word:
        worked.away[place] = word
        return
    cell = cell_of(wording, old, place)
    if cell:
        worked.cells[place] = cell
    if old.away.get(place, ALWAYS_OFF) not in DAYS_OFF:
        worked.away[place] = BACK


def next_period_lines(before: WardPlan | None, now: WardPlan | None) -> list[str]:
    """What the plan of the next period costs now, if that is another number, and what it breaks."""
    if not (before and now and now.is_planned):
        return []
    said = follow_lines(before, now)
    older, points = before.view().penalty, now.view().penalty
    if points is not None and points != older:
        was = "" if older is None else f" instead of {older}"
        said.append(f"the period from {now.days.text(0)} costs {points} points then{was}")
    return said


def follow_lines(before: WardPlan, now: WardPlan) -> list[str]:
    """What follows in the weeks that are not over: the rules that the plan breaks now, and shifts
    that are too many."""
    if not (now.is_planned and now.weeks):
        return []
    faults = [fault for number in now.weeks for fault in breaks(now, number)]
    known = [fault for number in now.weeks for fault in breaks(before, number)]
    said = [broken_text(now, fault) for fault in faults]
    if any(fault not in known for fault in faults):
        said.append(
            "after these corrections the plan does not fit any more: plan again, from"
            f" {now.days.text(now.state.begin)} on"
        )
    return [*said, *days_away_lines(now)]
