"""What the local page of one ward shows, and what its forms do: a form that writes is asked about
first, on the page that follows."""

import threading
from dataclasses import replace
from typing import NamedTuple, Sequence
from urllib.parse import quote, urlencode, urlsplit

from ..plans.kept import Kept
from ..plans.pages import CALENDARS, own_calendars, roster_content, shown_name
from ..plans.verbs.set_day import DaySet
from ..plans.verbs.swap import Swapped
from ..plans.ward import WardPlan
from ..plans.words import PeriodOver
from ..shown.calendars import file_names
from ..shown.page import page_text
from ..week.dates import PlanDays
from ..week.faults import FileFault, FileFaults, Misuse
from ..week.own_files import own_bytes
from ..week.records import NurseDay
from .forms import SEEN, STAMP, SURE, event_of, not_written, writes
from .jobs import Busy, Changed, Fields, Jobs, Said, fault_lines
from .layout import Roster, Shown, calendars_markup, page_markup, roster_of

# The part of an address that says why its form was refused: a verb ran, or there was another plan.
_LATE = "late"
# The part of an address that says that what was asked is not to be written.
_NO = "no"
HTML = "text/html; charset=utf-8"
_CALENDAR = "text/calendar; charset=utf-8"


class Page(NamedTuple):
    """What an address shows: a text, and what kind of text it is."""

    text: str
    kind: str = HTML


class Sent(NamedTuple):
    """A form that is not done: its fields, and lines that say why it was refused, or that go with a
    question."""

    fields: dict[str, str]
    lines: list[str]
    is_refused: bool


class Site:
    """The page of a folder's verbs at an address with this secret. `origins` are the beginnings of
    the addresses by which browsers know it, as `http://127.0.0.1:8000`: a form of another page, and
    a page of another name that leads to this server, are refused.
    """

    def __init__(self, jobs: Jobs, origins: Sequence[str], secret: str, period: str = "") -> None:
        self.jobs = jobs
        self.origins = origins
        self.hosts = {urlsplit(origin).netloc for origin in origins}
        self.base = f"/{secret}/"
        # The first day of the period that is shown, if that is not the one that runs.
        self._period = period
        self._views: dict[str, Site] = {}
        self.name = shown_name(jobs.folder.top)
        self._kept = Kept[WardPlan]()
        # The last plan that was shown, and its roster.
        self._shown: tuple[WardPlan, Roster] | None = None
        self._lock = threading.Lock()

    def view(self, path: str) -> "tuple[Site, str]":
        """The site of the period that a path names, and the path in it."""
        folder, slash, rest = path.partition("/")
        later = {f"from-{days.monday}": str(days.monday) for days in self._later()} if slash else {}
        if folder not in later:
            return self, path
        secret = f"{self.base.strip('/')}/{folder}"
        view = Site(self.jobs, self.origins, secret, later[folder])
        return self._views.setdefault(folder, view), rest

    def _later(self) -> Sequence[PlanDays]:
        """The periods after the one that runs, if the folder can be read."""
        try:
            return self.jobs.verbs().later_periods()
        except (FileFault, FileFaults, Misuse, OSError):
            return ()

    def _periods(self) -> list[tuple[str, str]]:
        """The texts and addresses of the pages of other periods."""
        top = self.base.replace(f"from-{self._period}/", "")
        runs = [("The period that runs", top)] if self._period else []
        others = [days for days in self._later() if str(days.monday) != self._period]
        return runs + [
            (f"Period from {days.text(0)}", f"{top}from-{days.monday}/") for days in others
        ]

    @property
    def spreadsheet(self) -> str:
        """The path of the spreadsheet, or of the folder that should have it."""
        try:
            return str(self.jobs.folder.spreadsheet().resolve())
        except Misuse:
            return str(self.jobs.folder.top.resolve())

    def plan(self) -> tuple[WardPlan | None, Said]:
        """The plan that holds, and what is said above it: a fault of the spreadsheet, if there is
        one."""
        said = self.jobs.said()
        try:
            plan = self._plan()
        except PeriodOver as fault:
            # A period that has just ended is no fault.
            return None, said if said.runs or said.ends_period else Said([str(fault)], said.fields)
        except Exception as fault:
            # The page says what undo has done, even if the spreadsheet has a fault.
            done = said.lines if said.is_undo else []
            return None, (
                said if said.runs else Said([*fault_lines(fault), *done], said.fields, fault=fault)
            )
        return plan, said

    def _plan(self) -> WardPlan:
        """The plan that holds, which is read again only if a file of it, or of the spreadsheet, has
        changed."""
        folder = self.jobs.folder
        return self._kept.of(
            folder.files(), folder.stamp, lambda: self.jobs.verbs().current(self._period)
        )

    def roster(self, plan: WardPlan | None) -> Roster | None:
        """The roster of a plan, if it has one; of the last plan it is known."""
        if plan is None or not (plan.is_planned and plan.weeks):
            return None
        with self._lock:
            if self._shown is None or self._shown[0] is not plan:
                self._shown = plan, roster_of(self.jobs.folder.top, plan, self.base)
            return self._shown[1]

    def post(self, fields: dict[str, str], sender: str = "") -> str:
        """Does what a form asks for, unless it writes and the user was not asked yet. Returns the
        query of the page that follows: it has the form if that is not done, so that this page asks
        the user, or says why it was refused. The `sender` has this address, if it is another
        machine.
        """
        if fields.get("verb") == "stop":
            self.jobs.stop()
            return ""
        form = {name: value for name, value in fields.items() if name not in (SURE, SEEN, _LATE)}
        stamp = fields.get(STAMP, "") if writes(fields) else None
        # What was asked before the spreadsheet was saved is asked again.
        seen = self.jobs.folder.seen
        is_sure = SURE in fields and fields.get(SEEN, seen) == seen
        try:
            event = event_of(fields, self.jobs.seconds, self._period)._replace(address=sender)
            if stamp is not None:
                self.jobs.check_stamp(stamp)
                self.jobs.check_free()
            if stamp is not None and not is_sure and self.jobs.asked(event).needs_search:
                self.jobs.begin(event._replace(look=True), form, stamp)
                return ""
            if stamp is None or is_sure:
                now = form if stamp is not None else {**form, STAMP: self.jobs.folder.stamp}
                self.jobs.begin(event, now, stamp)
                return ""
        except (Busy, Changed) as fault:
            form[_LATE] = "busy" if isinstance(fault, Busy) else "changed"
        except Misuse:
            # The page that follows finds it again.
            form.setdefault("verb", "")
        return f"?{urlencode(form)}"

    def sent(self, query: dict[str, str]) -> Sent | None:
        """The form that an address has, if it has one: a question, or why it was refused. A
        question for an older plan is asked no more."""
        form = {name: value for name, value in query.items() if name != _LATE}
        if "verb" not in form:
            return None
        is_old = bool(writes(form)) and form.get(STAMP) != self.jobs.folder.stamp
        if _LATE in query:
            return self._late(form, Changed() if is_old or query[_LATE] != "busy" else Busy())
        return None if is_old or (self.jobs.runs and writes(form)) else self._answered(form)

    def _late(self, form: dict[str, str], fault: Busy | Changed) -> Sent:
        """A form that came too late. A verb that ran then may have written what the form asks for,
        or another plan since."""
        missing = not_written(form) if _asked(form) != _asked(self.jobs.said().fields) else []
        return Sent(form, [str(fault), *missing], True)

    def _answered(self, form: dict[str, str]) -> Sent | None:
        """The form with what its verb says, if it is refused or asks whether to write."""
        try:
            answer = self.jobs.asked(event_of(form, self.jobs.seconds, self._period))
        except Misuse as fault:
            return Sent(form, fault_lines(fault), True)
        is_refused = answer.fault is not None or (
            isinstance(answer.outcome, (DaySet, Swapped)) and bool(answer.outcome.faults)
        )
        return Sent(form, answer.lines, is_refused) if is_refused or writes(form) else None

    def page(self, path: str, query: dict[str, str]) -> Page | None:
        """What an address of the site shows; None if there is no such page."""
        said = self.jobs.said()
        sent = self.sent(query)
        refused = sent.lines if sent and sent.is_refused else []
        if not path and said.runs:
            roster = self._shown[1] if self._shown else None
            shown = Shown(said, name=self.name, refused=refused, roster=roster)
            return Page(page_markup(None, shown, self.base))
        # A plan that is written meanwhile has another stamp, and a spreadsheet that is saved is
        # another one.
        seen = self.jobs.folder.seen
        plan, said = self.plan()
        worked = self.jobs.verbs().worked_pages(plan)
        if not path:
            if _NO in query and said.look:
                self.jobs.forget()
                said = self.jobs.said()
            shown = Shown(
                said,
                seen=seen,
                made=self.jobs.made(),
                worked=worked,
                name=self.name,
                refused=refused,
            )
            return Page(page_markup(plan, self._first_page(plan, shown, sent, query), self.base))
        if path in worked:
            return Page(own_bytes(self.jobs.folder.top, path).decode(errors="replace"))
        return self._page_of_plan(path, plan) if plan and plan.is_planned and plan.weeks else None

    def _first_page(
        self, plan: WardPlan | None, shown: Shown, sent: Sent | None, query: dict[str, str]
    ) -> Shown:
        """What the page with the forms shows, with the form that was sent, if it is not done, and
        the cell that was clicked."""
        said = shown.said
        clicked = _place(plan, query)
        kept = _kept(shown.said, sent)
        place = clicked or (None if sent else _looked(plan, kept, said))
        if sent:
            asks = None if sent.is_refused else sent
        else:
            asks = None if clicked else _look(said, shown.stamp)
        return shown._replace(
            place=place,
            asks=asks.fields if asks else {},
            lines=asks.lines if asks else [],
            kept=kept,
            spreadsheet=self.spreadsheet,
            seconds=self.jobs.seconds,
            agreed=self.jobs.verbs().agreed_swap(plan, place) if plan and place else None,
            roster=self.roster(plan),
            history=self.jobs.history(),
            periods=self._periods(),
            runs=not self._period,
        )

    def _page_of_plan(self, path: str, plan: WardPlan) -> Page | None:
        """Another page of a plan: with costs, for the wall, of calendars, or a calendar."""
        top = self.jobs.folder.top
        place = top / f"from-{self._period}" if self._period else top
        there = own_calendars(place) if plan.state.published else set()
        names = {
            f"{CALENDARS}/{quote(name)}": name
            for name in file_names(plan.scenario.nurses).values()
            if name in there
        }
        if path in ("roster", "wall"):
            content = roster_content(top, plan, self.jobs.verbs().hung_up(plan))
            return Page(page_text(replace(content, only_table=path == "wall")))
        if path == CALENDARS:
            return Page(calendars_markup(plan, self.base, there))
        if path in names:
            return Page(
                own_bytes(place, f"{CALENDARS}/{names[path]}").decode(errors="replace"), _CALENDAR
            )
        return None


def _asked(fields: Fields) -> dict[str, str]:
    """What a form asks for."""
    return {name: value for name, value in fields.items() if name not in (STAMP, SURE)}


def _look(said: Said, stamp: str) -> Sent | None:
    """The question whether to write a plan that was found, if the plan with this stamp still
    holds."""
    return (
        Sent(dict(said.fields), said.lines, False)
        if said.look and said.fields.get(STAMP) == stamp
        else None
    )


def _kept(said: Said, sent: Sent | None) -> Fields:
    """The values that stay in the form that was sent last: of one that was refused, of a look for a
    swap, or of a verb that failed."""
    if sent:
        return sent.fields
    return said.fields if said.fault or said.fields.get("verb") == "swap" else {}


def _place(plan: WardPlan | None, query: dict[str, str]) -> NurseDay | None:
    """The cell that an address names, if the plan has it."""
    nurse = query.get("nurse", "")
    day = query.get("day", "")
    known = (
        plan
        and nurse in plan.scenario.nurses
        and day.isdecimal()
        and len(day) < 4
        and plan.first <= int(day) < plan.days.total
    )
    return NurseDay(nurse, int(day)) if known else None


def _looked(plan: WardPlan | None, kept: Fields, said: Said) -> NurseDay | None:
    """The nurse and the day of a look for all swaps, whose offers the page shows as buttons."""
    if plan is None or kept.get("verb") != "swap" or kept.get("other") or said.fault or said.runs:
        return None
    days = {plan.days.head(day): day for day in range(plan.first, plan.days.total)}
    nurse = kept.get("nurse", "")
    day = days.get(kept.get("first", ""))
    return NurseDay(nurse, day) if day is not None and nurse in plan.scenario.nurses else None
