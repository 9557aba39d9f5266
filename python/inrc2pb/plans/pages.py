"""The pages and calendars of a ward's folder."""

import datetime
import re
from dataclasses import replace
from pathlib import Path
from typing import Collection, Iterable, Mapping, NamedTuple, Sequence

from ..shown.calendars import file_names, issue_now, write_calendars
from ..shown.page import page_text
from ..shown.page_content import Content
from ..shown.totals import Sums
from ..week.dates import DAY, PlanDays, date_text
from ..week.faults import fault_line
from ..week.own_files import is_own_file, own_bytes, without_link
from ..week.records import WEEK_DAYS, NurseDay
from ..week.words import readable
from ..week.writing import write_own_text
from .facts import promised_days, sums
from .left_open import all_open_lines
from .sentences import beside_lines, exceeded_lines, working_lines
from .ward import WardPlan

ROSTER = "roster.html"
WALL = "wall.html"
CALENDARS = "calendars"
# The name of the plan that a page shows, in its head.
_PLAN = re.compile('<meta name="plan" content="([^"]*)"/>')
_FROM = re.compile("from-[0-9]{4}-[0-9]{2}-[0-9]{2}")
_WORKED = re.compile(r"worked(?:-([0-9]+(?:-[0-9]+-[0-9]+)?))?\.html")


class Pages(NamedTuple):
    """What was done to the pages of a folder."""

    written: tuple[Path, ...] = ()
    # Those that were taken away, since they showed another plan.
    gone: tuple[Path, ...] = ()
    # The fault that ended this, if there was one.
    fault: OSError | None = None

    def lines(self) -> list[str]:
        """The pages that were written and taken away."""
        if self.fault:
            return [f"the plan holds, but its pages are not written: {fault_line(self.fault)}"]
        said = [f"written: {', '.join(map(str, self.written))}"] if self.written else []
        if self.gone:
            wall = (
                ": take down what hangs on the wall"
                if any(path.name == WALL for path in self.gone)
                else ""
            )
            said.append(f"taken away: {', '.join(map(str, self.gone))}{wall}")
        return said


def write_pages(
    top: Path,
    plan: WardPlan,
    stamp: str,
    before: Mapping[str, Collection[int]],
    old: WardPlan | None = None,
    earlier: Mapping[str, Sums] = {},
    into: Path | None = None,
) -> Pages:
    """Writes the pages of a plan with this name. Each page of the folder then shows it, or weeks
    that are over. `old` is the plan that was hung up before, `before` has the days of nurses'
    shifts in the calendars of this period, and `earlier` what they had in periods before it.
    Those of a period after the one that runs go into a folder of their own."""
    place = into or top
    worked = worked_name(plan.days, plan.state.period)
    contents = {}
    if plan.state.open_week:
        contents[worked] = replace(_worked_content(plan), name=shown_name(top))
    if plan.is_planned and plan.weeks:
        content = roster_content(top, plan, old)
        both = (
            {nurse: now.plus(earlier.get(nurse, Sums())) for nurse, now in content.sums.items()}
            if earlier
            else {}
        )
        contents[ROSTER] = replace(content, plan=stamp, all_sums=both)
        contents.update(
            {WALL: replace(contents[ROSTER], only_table=True)} if plan.state.published else {}
        )
    gone = taken_away(place, [name for name in (worked, ROSTER, WALL) if name not in contents])
    gone += (
        []
        if plan.state.published
        else calendars_taken_away(place, list(plan.scenario.nurses), before)
    )
    # The pages that say which plan they show come last, so a run that was killed before its end is
    # known by them.
    calendars = _write_calendars(place, plan, before) if plan.state.published else []
    for name, content in contents.items():
        write_own_text(place / name, page_text(content))
    return Pages((*(place / name for name in contents), *calendars), tuple(gone))


def folder_of(top: Path, days: PlanDays) -> Path:
    """The folder of the pages of a period after the one that runs."""
    folder = top / f"from-{days.monday}"
    without_link(folder)
    folder.mkdir(exist_ok=True)
    return folder


def folders_taken_away(top: Path, stay: Collection[Path]) -> list[Path]:
    """Takes the pages of periods away that are not planned any more, or that run now."""
    old = [path for path in top.iterdir() if _FROM.fullmatch(path.name) and path not in stay]
    gone = [path for path in old if path.is_dir() and not path.is_symlink()]
    for folder in gone:
        without_link(folder / CALENDARS)
        taken_away(folder, [ROSTER, WALL])
        taken_away(folder / CALENDARS, sorted(own_calendars(folder)))
        for inner in (folder / CALENDARS, folder):
            if inner.is_dir() and not any(inner.iterdir()):
                inner.rmdir()
    return gone


def other_plan_pages(top: Path, stamp: str) -> tuple[str, ...]:
    """The names of the pages that show another plan than the one with this name."""
    names = []
    for path in (top / ROSTER, top / WALL):
        shown = (
            _PLAN.search(own_bytes(top, path.name).decode(errors="replace"))
            if is_own_file(path)
            else None
        )
        if shown and shown[1] != stamp:
            names.append(path.name)
    return tuple(names)


def taken_away(top: Path, names: Sequence[str]) -> list[Path]:
    """Takes these files away; of a link only the link. Returns those that were there."""
    there = [top / name for name in names if (top / name).is_file()]
    for path in there:
        path.unlink()
    return there


def calendars_taken_away(
    top: Path, nurses: Sequence[str], before: Mapping[str, Collection[int]]
) -> list[Path]:
    """Takes the calendars of this period away, if it has some. Returns their folder, if there were
    any."""
    names = file_names(dict.fromkeys((*nurses, *before))).values() if before else ()
    without_link(top / CALENDARS)
    gone = taken_away(top / CALENDARS, list(names))
    if gone and not any((top / CALENDARS).iterdir()):
        (top / CALENDARS).rmdir()
    return [top / CALENDARS] if gone else []


def write_worked(top: Path, plan: WardPlan) -> Path:
    """Writes the page of a period that is over."""
    path = top / worked_name(plan.days, plan.state.period)
    write_own_text(path, page_text(replace(_worked_content(plan), name=shown_name(top))))
    return path


def worked_name(days: PlanDays, period: int) -> str:
    """The name of the page of the weeks that are over: it has the first Monday of the period, or
    its number."""
    return f"worked-{period if days.monday is None else days.monday}.html"


def worked_pages(top: Path) -> dict[str, str]:
    """The names of the pages of weeks that are over, of all periods, the last one first, and their
    texts."""
    names = sorted(
        (file.name for file in top.iterdir() if is_own_file(file)),
        key=lambda name: (len(name), name),
        reverse=True,
    )
    matches = [match for match in map(_WORKED.fullmatch, names) if match]
    return {match[0]: f"Weeks that are over{_period_text(match[1])}" for match in matches}


def _period_text(period: str | None) -> str:
    """The period of such a page in words, by the part of its name."""
    if not period:
        return ""
    try:
        monday = datetime.date.fromisoformat(period)
        return f", from {date_text(monday)} {monday.year} on"
    except ValueError:
        return f", period {period}"


def own_calendars(top: Path) -> set[str]:
    """The names of the files in the folder of the calendars, if this folder is no link."""
    folder = top / CALENDARS
    return (
        {path.name for path in folder.iterdir() if is_own_file(path)}
        if folder.is_dir() and not folder.is_symlink()
        else set()
    )


def _worked_content(plan: WardPlan) -> Content:
    """What the page of the weeks that are over shows: how they were worked, as far as that is
    known."""
    weeks = plan.state.as_planned
    return Content(
        plan.view(range(plan.state.open_week)),
        None,
        plan.days.monday,
        plan.ward.times,
        as_of=datetime.datetime.now(),
        opened=all_open_lines(plan, range(plan.state.open_week)),
        notes=[f"As planned: {plan.days.weeks_text(weeks)}. How it was worked is not known."]
        if weeks
        else [],
    )


def _write_calendars(
    top: Path, plan: WardPlan, before: Mapping[str, Collection[int]]
) -> list[Path]:
    """Writes a calendar of the whole period for each nurse if the plan has dates: weeks that are
    over as they were worked."""
    monday = plan.days.monday
    if monday is None or not plan.is_planned:
        return []
    dates = {nurse: [plan.days.date(day) for day in days] for nurse, days in before.items()}
    without_link(top / CALENDARS)
    write_calendars(
        plan.view(range(plan.days.weeks)),
        top / CALENDARS,
        monday,
        plan.ward.times,
        issue_now(dates),
    )
    return [top / CALENDARS]


def shown_name(top: Path) -> str:
    """The name of a ward for people: that of its folder."""
    return readable(top.resolve().name)


def roster_content(top: Path, plan: WardPlan, old: WardPlan | None = None) -> Content:
    """What the pages of a folder show: the weeks that are not over, as of now, and what differs
    from the plan that was hung up before."""
    monday = None if plan.days.monday is None else plan.days.monday + plan.first * DAY
    before = old.view(plan.weeks) if old and old.is_planned else None
    holidays = {day - plan.first for day in plan.ward.holidays if day >= plan.first}
    notes = (*working_lines(plan), *exceeded_lines(plan), *beside_lines(plan))
    now = datetime.datetime.now()
    content = Content(
        plan.view(), before, monday, plan.ward.times, holidays=holidays, as_of=now, notes=notes
    )
    content = replace(
        content,
        opened=all_open_lines(plan),
        swapped=_of_table(plan, plan.state.agreed),
        promised=_of_table(plan, promised_days(plan)),
    )
    return replace(
        content, name=shown_name(top), since="the plan that was hung up before", sums=sums(plan)
    )


def _of_table(plan: WardPlan, places: Iterable[NurseDay]) -> set[tuple[int, str, int]]:
    """These nurses' days as a table of the weeks that are not over counts them."""
    return {
        (place.day // WEEK_DAYS - plan.state.open_week, place.nurse, place.day % WEEK_DAYS)
        for place in places
    }
