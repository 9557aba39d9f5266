"""The local page of a ward: its forms, what the last verb has said, the roster, and the charges and
swaps of one cell."""

from dataclasses import replace
from pathlib import Path
from typing import Collection, Mapping, NamedTuple, Sequence
from urllib.parse import quote

from ..plans.absence import Away
from ..plans.pages import CALENDARS, roster_content
from ..plans.planned import Planned
from ..plans.state import Swap
from ..plans.table import Done
from ..plans.verbs.over import Corrected, WeekOver
from ..plans.verbs.swap import Swapped
from ..plans.ward import WardPlan
from ..shown.calendars import file_names
from ..shown.markup import Markup, element, joined
from ..shown.page import document, page_style
from ..shown.roster_table import RosterTable
from ..week.records import WEEK_DAYS, NurseDay
from ..week.words import readable
from .cell import Actions, cell_address
from .forms import FORMS, STAMP, STYLE, button_markup, form_markup, sure_markup, sending
from .jobs import Fields, Said

REFRESH_SECONDS = 2
_FORMS = "forms"
_HINT = "Click a nurse's day, or by keyboard her name: what it costs, and what can be done with it."
_GUIDE = (
    "The spreadsheet is {}: change it, save it, and plan again. "
    "A button that writes asks first, and Undo takes back what the last one wrote. "
)
# The verbs that the page lists.
_DONE = "done"


class Shown(NamedTuple):
    """What a page shows beside the plan."""

    said: Said
    # The cell that was clicked.
    place: NurseDay | None = None
    # The form that asks whether to write, and the fields of the last form.
    asks: Fields = {}
    kept: Fields = {}
    # The path of the spreadsheet.
    spreadsheet: str = ""
    # The pages of weeks that are over, with their texts.
    worked: Mapping[str, str] = {}
    # The name of the ward.
    name: str = "Ward"
    # The seconds of a search, if they are not the usual ones.
    seconds: float | None = None
    # What the folder had when the page was made, and the verb that has made the plan.
    seen: str = ""
    made: str = ""
    # The lines that are shown with a question, and those that say why a form was refused.
    lines: Sequence[str] = ()
    refused: Sequence[str] = ()
    # The swap that was written for the cell that was clicked.
    agreed: Swap | None = None
    roster: "Roster | None" = None
    # The texts and addresses of the pages of other periods, and whether this is of the one that
    # runs.
    periods: Sequence[tuple[str, str]] = ()
    runs: bool = True
    # What verbs have done, the last one first.
    history: Sequence[Done] = ()

    @property
    def stamp(self) -> str:
        """The stamp of the plan."""
        return self.seen.split(" ", 1)[0]


class Roster(NamedTuple):
    """The roster of a plan as the page shows it: its points, if it has some, and its tables. It is
    the same in each look at this plan."""

    points: str
    tables: Markup
    # The notes and the legend.
    below: Markup = Markup("")


def roster_of(top: Path, plan: WardPlan, address: str) -> Roster:
    """The roster of a folder's plan with links: a click on a cell opens it, and by keyboard a
    nurse's name opens her first day."""

    def link(week: int, nurse: str, day: int) -> str:
        return cell_address(address, NurseDay(nurse, plan.first + WEEK_DAYS * week + day))

    content = replace(roster_content(top, plan), link=link)
    table = RosterTable(content)
    notes = [element("p", note) for note in content.notes]
    legend = element("ul", *(element("li", line) for line in table.legend()), class_="legend")
    points = content.view.penalty
    return Roster(
        "" if points is None else f"{points} points. ",
        joined(*table.tables()),
        joined(legend, *content.open_lines(), *notes),
    )


def page_markup(plan: WardPlan | None, shown: Shown, address: str) -> str:
    """The page: the roster, and below it a panel with what was said or is asked, or what can be
    done with the cell that was clicked, and the forms. While a verb runs it loads itself again and
    again, and has no plan, which would take the time of the search, but the last roster.
    """
    name = shown.name
    said = shown.said
    # A cell that was clicked, a question, and a form that was refused take the place of an older
    # verb's answer.
    is_old = bool(shown.asks) or (
        not said.runs
        and (bool(plan and shown.refused) or (shown.place is not None and not said.fault))
    )
    panel: list[Markup] = [
        *_lines(shown.refused, True),
        *([] if is_old else _said(said, shown, address)),
    ]
    if shown.asks:
        panel.append(sure_markup(shown.asks, plan, address, shown.seen, shown.lines))
        panel += _gives_up(said, shown, address)
    elif plan and not said.runs:
        if shown.place and plan.is_planned:
            panel.append(Actions(plan, shown.place, address, shown.stamp, shown.agreed).markup())
    elif plan is None and not said.runs:
        panel += _without_plan(shown, address)
    parts: list[Markup] = [element("h1", name), *_periods(shown)]
    if shown.roster:
        parts += _roster(plan, shown.roster, shown, address)
        panel = [element("div", *panel, class_="busy")] if panel else [element("p", _HINT)]
    parts.append(element("section", *panel, class_="panel"))
    if shown.roster:
        parts.append(shown.roster.below)
    if plan and not shown.asks and not said.runs:
        parts.append(_forms(plan, shown, address))
    chosen = (
        f'\ntd a[href="{cell_address(address, shown.place)}"] {{ outline: 3px solid #05c;'
        " outline-offset: -3px; scroll-initial-target: nearest; scroll-margin: 4em 9em }"
        if shown.place
        else ""
    )
    heads = [element("title", name), element("style", Markup(page_style() + STYLE + chosen))]
    if said.runs:
        heads.append(element("meta", http_equiv="refresh", content=str(REFRESH_SECONDS)))
    return document(heads, parts)


def _periods(shown: Shown) -> list[Markup]:
    """Links to the pages of other periods, if there are some."""
    links = [joined(element("a", text, href=address), " ") for text, address in shown.periods]
    return [element("p", *links, class_="links")] if links else []


def _forms(plan: WardPlan, shown: Shown, address: str) -> Markup:
    """The forms of the verbs, those with fields folded, and links to the pages of weeks that are
    over."""
    forms = [form for form in FORMS if plan.is_planned or not form.needs_plan]
    # A week ends in the period that runs.
    forms = [form for form in forms if shown.runs or form.verb != "over"]
    # Buttons that need no fields come first.
    forms.sort(key=lambda form: bool(form.fields))
    kept = shown.kept
    parts = [
        form_markup(
            form,
            plan,
            address,
            stamp=shown.stamp,
            kept=kept if form.verb == kept.get("verb") else {},
            seconds=shown.seconds,
        )
        for form in forms
    ]
    guide = element("p", _GUIDE.format(shown.spreadsheet))
    return element(
        "section",
        guide,
        *parts,
        *_history(shown, address),
        element("p", *_linked(_worked(shown), address), class_="links"),
        id=_FORMS,
    )


def _history(shown: Shown, address: str) -> list[Markup]:
    """What was done, the last first, with a button that takes the last back."""
    if not shown.history:
        return []
    undo = button_markup({"verb": "undo", STAMP: shown.stamp}, "Take this back", address)
    last = next((done for done in shown.history if done.holds), None)
    items = [
        element(
            "li",
            readable(done.text),
            undo if done is last else "" if done.holds else " (taken back)",
            class_=None if done.holds else "gone",
        )
        for done in shown.history
    ]
    text = "The last one that holds can be taken back, then the one before it, and so on."
    return [
        element(
            "details",
            element("summary", "Who did what, and when"),
            element("p", text),
            element("ol", *items),
            id=_DONE,
        )
    ]


def _without_plan(shown: Shown, address: str) -> list[Markup]:
    """What there is if the spreadsheet has a fault, or not yet the days of the next period."""
    again = element("a", "load this page again", href=address)
    begin = (
        "Correct that in"
        if shown.said.fault
        else "Write the days of the next period into the sheet plan of"
    )
    return [
        element("p", f"{begin} {shown.spreadsheet}, save it, and ", again, "."),
        *(
            form_markup(form, None, address, shown.stamp)
            for form in FORMS
            if not (form.needs_plan or form.fields)
        ),
        element("p", *_linked(_worked(shown), address), class_="links"),
    ]


def _lines(lines: Sequence[str], is_fault: bool) -> list[Markup]:
    """Lines, if there are some, which a screen reader reads at once; of a long text the paragraphs
    after the second one are folded."""
    kind = "fault" if is_fault else None
    paragraphs = "\n".join(lines).split("\n\n")
    shown, folded = ("\n\n".join(part) for part in (paragraphs[:2], paragraphs[2:]))
    if not lines:
        return []
    parts = [element("pre", shown, role="alert" if is_fault else "status", class_=kind)]
    if folded:
        parts.append(element("details", element("summary", "More"), element("pre", folded)))
    return parts


def _said(said: Said, shown: Shown, address: str) -> list[Markup]:
    """The lines of the last verb, and a button that stops it, that takes back what it wrote, or
    that writes that of which it tells."""
    stop = sending({"verb": "stop"}, address, element("button", "Stop, and keep the best plan"))
    outcome = said.outcome
    is_look = isinstance(outcome, Swapped) and not outcome.is_written and not outcome.faults
    words = {name: value for name, value in shown.kept.items() if value}
    write = (
        [button_markup({**words, "write it": "yes"}, "Write this swap", address)] if is_look else []
    )
    if isinstance(outcome, (Away, Planned, WeekOver, Corrected)) and not outcome.is_written:
        asked = {name: value for name, value in said.fields.items() if value}
        write = [button_markup({**asked, "write it": "yes"}, "Write it all the same", address)]
    if outcome is not None and outcome.may_be_open and not shown.asks:
        asked = {name: value for name, value in said.fields.items() if value}
        fields = {**asked, "open": "yes", STAMP: shown.stamp}
        write = [*write, button_markup(fields, "Leave it open", address)]
    is_written = outcome is not None and outcome.is_written and not said.is_undo
    undo = (
        [button_markup({"verb": "undo", STAMP: shown.stamp}, "Take it back", address)]
        if is_written and not shown.asks
        else []
    )
    head = f"Asked on this page: {readable(said.asked)}"
    return [
        *([element("p", head)] if said.lines and said.asked else []),
        *_lines(said.lines, said.fault is not None),
        *([stop] if said.runs else []),
        *write,
        *undo,
    ]


def _gives_up(said: Said, shown: Shown, address: str) -> list[Markup]:
    """Beside the question whether to write an absence a button for another plan, if the next period
    could give shifts up."""
    look = said.look
    if not (look and look.gives_up and isinstance(look.cause, Away)) or "write it" in said.fields:
        return []
    asked = {name: value for name, value in said.fields.items() if value}
    fields = {**asked, "write it": "yes", STAMP: shown.stamp}
    return [button_markup(fields, "The next period gives that up", address)]


def _worked(shown: Shown) -> list[tuple[str, str]]:
    """The links to the pages of weeks that are over."""
    return [(text, name) for name, text in shown.worked.items()]


def _roster(plan: WardPlan | None, roster: Roster, shown: Shown, address: str) -> list[Markup]:
    """Links to its other pages, and the roster."""
    calendars = [("Calendars", CALENDARS)] if plan and plan.days.monday else []
    is_open = plan and not shown.asks
    to_forms = [element("a", "All buttons", href=f"#{_FORMS}"), " "] if is_open else []
    links = [
        *to_forms,
        *_linked(
            [("Costs, totals and coverage", "roster"), ("Page for the wall", "wall"), *calendars],
            address,
        ),
    ]
    made = f"Last written: {readable(shown.made)}. " if shown.made else ""
    return [
        element("p", roster.points, made, *links, class_="links"),
        element("section", roster.tables, class_="plan"),
    ]


def _linked(links: Sequence[tuple[str, str]], address: str) -> list[Markup]:
    """Links to pages by their texts."""
    return [joined(element("a", text, href=f"{address}{page}"), " ") for text, page in links]


def calendars_markup(plan: WardPlan, address: str, there: Collection[str]) -> str:
    """The page with a link to the calendar of each nurse, as far as they are there."""
    links = [
        (readable(nurse), name)
        for nurse, name in file_names(plan.scenario.nurses).items()
        if name in there
    ]
    items = [
        element("li", element("a", nurse, href=f"{address}{CALENDARS}/{quote(name)}"))
        for nurse, name in links
    ]
    text = (
        "Each opens in a calendar program."
        if items
        else "There are none yet: the button Publish writes them, if the plan has dates."
    )
    back = element("p", element("a", "Back", href=address))
    return document(
        [element("title", "Calendars"), element("style", Markup(page_style() + STYLE))],
        [element("h1", "Calendars"), element("p", text), element("ul", *items), back],
    )
