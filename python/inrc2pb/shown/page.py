"""A roster as one HTML page, to print or to read on a screen. It needs no network and no script."""

from typing import Iterator, Sequence

from ..judging.rules import Charge, cost_by_rule
from ..week.dates import date_text
from ..week.records import together
from ..week.soft_rules import RULES
from ..week.words import plural, readable
from .markup import Markup, element, joined
from .page_content import Content
from .page_tables import changes_table, coverage_tables, sums_table, totals_table, wishes_table
from .roster_table import RosterTable
from .roster_text import COLORS, ink_on
from .why import breach_lines, costs_text, charge_text, plain_breach_lines

STYLE = """
:root { color-scheme: light }
body { font: 10pt/1.3 sans-serif; margin: 1.2em; color: #111; background: #fff; max-width: 1200px }
h1 { font-size: 1.4em; margin: 0 0 .2em }
h2 { font-size: 1.15em; margin: 1.2em 0 .3em }
p, ul { margin: .3em 0 }
section { overflow-x: auto; position: relative }
table { border-collapse: collapse; margin: .6em 0 1em }
caption { text-align: left; padding: .2em 0; font-size: .9em }
th, td { border: 1px solid #999; padding: .15em .4em; text-align: center; font-variant-numeric: tabular-nums }
th { font-weight: 600 }
thead th { background: #eee; vertical-align: bottom }
tbody th, thead th:first-child, .words td { text-align: left }
td small { font-size: .82em }
.date { display: block; font-weight: normal; font-size: .85em; white-space: nowrap }
.sat { border-left: 2.5px solid #111 }
.sun { border-right: 2.5px solid #111 }
.roster { width: 100% }
.roster thead tr > :first-child { width: 8em }
.roster tbody th { overflow-wrap: anywhere }
.many td, .many thead th { padding: .15em .2em; min-width: 1.5em }
.many td small { font-size: .7em; margin-left: .1em }
.away { font-style: italic; font-size: .85em }
.many { table-layout: fixed }
.roster .sum { background: #f4f4f4 }
@media screen {
.roster { min-width: 44em }
.many { min-width: 84em }
.roster tbody th, .roster thead tr > :first-child { position: sticky; left: 0; background: #fff; z-index: 1; overflow-wrap: break-word }
.roster thead tr > :first-child { background: #eee }
}
.many thead tr + tr th + th { font-size: .78em; padding-left: .1em; padding-right: .1em }
.many .date { font-size: .9em; width: min-content; margin: auto; white-space: normal }
.many thead .mark { display: block; margin: 0; line-height: .7 }
.many .away { font-size: .7em; letter-spacing: -.03em }
.mark { font-weight: bold; margin-left: .25em }
.many .away + .mark { display: block; margin: 0; line-height: .8 }
.changed { border: 2.5px dashed #111 }
.few { border: 2.5px solid #111 }
.open { color: #b00020; font-weight: bold }
.coverage small { white-space: nowrap }
.hidden { position: absolute; width: 1px; height: 1px; overflow: hidden; clip-path: inset(50%); white-space: nowrap }
.folds { columns: 27em }
.folds ul { padding-left: 1.6em }
details { margin: 0 0 .5em; break-inside: avoid }
summary { cursor: pointer }
.legend { padding: 0 }
.legend li { display: inline-block; margin-right: 1.4em }
@page {
size: A4 landscape; margin: 9mm 10mm 12mm;
@bottom-right { content: "page " counter(page) " of " counter(pages); font: 8pt sans-serif }
}
@media print {
body { margin: 0; font-size: 9pt; max-width: none; -webkit-print-color-adjust: exact; print-color-adjust: exact }
section { overflow: visible }
thead { display: table-header-group }
.many { line-height: 1.15; margin: .2em 0 .4em }
.many td, .many tbody th { padding-top: .02em; padding-bottom: .02em }
.roster.many thead tr > :first-child { width: 10.5em }
.many tbody th { white-space: nowrap; font-size: 7.5pt; overflow: hidden }
.roomy td, .roomy tbody th { padding-top: .3em; padding-bottom: .3em }
tr, caption, li, .words, .totals, .coverage, .changes { break-inside: avoid }
caption, h2, summary, .charges p { break-after: avoid }
.sheet { break-before: page }
}
"""


def page_style() -> Markup:
    """The style, with the colors of the shift types. Browsers print them only if
    `print-color-adjust` says so."""
    colors = "".join(
        f".s{number} {{ background: {color}; color: {ink_on(color)} }}\n"
        for number, color in enumerate(COLORS)
    )
    return Markup(STYLE + colors)


def title(page: Content) -> str:
    """The ward and its weeks, with their dates if they are known."""
    view = page.view
    if page.monday is None:
        return f"{readable(page.name or view.name)}, {view.weeks_text}"
    last = page.monday + (7 * len(view.weeks) - 1) * (page.monday.resolution)
    year = f" {page.monday.year}" if page.monday.year != last.year else ""
    number = f" (calendar week {last.isocalendar()[1]})" if len(view.weeks) == 1 else ""
    return (
        f"{readable(page.name or view.name)}, {date_text(page.monday)}{year} to"
        f" {date_text(last)} {last.year}{number}"
    )


def _summary(page: Content) -> Iterator[str]:
    """Sentences below the title."""
    view = page.view
    count = sum(len(week.cells) for week in view.weeks)
    cost = "" if view.penalty is None or page.only_table else f", penalty {view.penalty}"
    if cost and view.penalty is not None and page.name:
        cost = f", {plural(view.penalty, 'point')}"
    old = page.old.penalty if page.old and not page.old.breaks_absences else None
    before = f" instead of {old}" if cost and old is not None else ""
    named = f"{view.weeks_text}: " if page.monday else ""
    made = (
        f"; as of {page.as_of:%A}, {date_text(page.as_of)} {page.as_of:%Y, %H:%M}"
        if page.as_of
        else ""
    )
    yield (
        f"{named}{plural(len(view.nurses), 'nurse')}, {plural(count, 'shift')}{cost}{before}{made}"
    )
    # Only a page with costs explains the rules.
    yield from plain_breach_lines(view) if page.only_table else breach_lines(view)
    yield from () if page.only_table else page.notes


def _roster(page: Content) -> Markup:
    roster = RosterTable(page)
    lines = [element("p", line) for line in _summary(page)]
    legend = roster.legend()
    items = (
        element("ul", *(element("li", line) for line in legend), class_="legend") if legend else ""
    )
    heading = element("h1", title(page))
    return element("section", heading, *lines, *page.open_lines(), *roster.tables(), items)


def section(heading: str, *inside: str, class_: str | None = None) -> Markup:
    """A part of the page."""
    return element("section", element("h2", heading), *inside, class_=class_)


# ---- charges


def _charge(page: Content, week: int, charge: Charge) -> Markup:
    prefix = "" if page.monday else page.view.prefix(page.view.weeks[week])
    words = readable(f"{prefix}{charge_text(charge, False, page.days(week))}")
    return element("li", f"{charge.cost} ({charge.rule}) {words}")


def _foldable(page: Content, name: str, charged: Sequence[tuple[int, Charge]]) -> Markup:
    """The charges of weeks to a nurse, or to the places. They are open, so that they are
    printed."""
    costs = cost_by_rule(charge for _, charge in charged)
    summary = element(
        "summary", element("b", name), f": {sum(costs.values())} ({costs_text(costs)})"
    )
    items = (_charge(page, week, charge) for week, charge in charged)
    return element("details", summary, element("ul", *items), open="")


def charges_section(page: Content) -> Markup:
    """What the roster is charged, by nurse."""
    view = page.view
    charged = together(
        (charge.nurse, (index, charge))
        for index, week in enumerate(view.weeks)
        for charge in week.charges or ()
    )
    folds = [
        _foldable(page, readable(nurse), charged[nurse])
        for nurse in view.nurses
        if nurse in charged
    ]
    if None in charged:
        folds.append(_foldable(page, "Places with fewer nurses than best", charged[None]))
    free = [readable(nurse) for nurse in view.nurses if nurse not in charged]
    rules = sorted({charge.rule for of_nurse in charged.values() for _, charge in of_nurse})
    lines = [element("p", line) for line in view.without_costs()]
    if free and view.has_costs:
        lines.append(element("p", f"Nothing is charged to {', '.join(free)}."))
    if rules:
        lines.append(element("p", "; ".join(f"{rule}: {RULES[rule].words}" for rule in rules)))
    heading = f"Cost: {view.penalty} points" if view.penalty is not None else "Cost"
    return section(heading, *lines, element("div", *folds, class_="folds"), class_="charges")


def _details(page: Content) -> list[Markup]:
    """The sections below the roster. In print the first of them begins a page."""
    changed = changes_table(page)
    counted = totals_table(page)
    wished = wishes_table(page)
    parts = []
    if page.old:
        nothing = element("p", f"Nothing is {page.changed}.")
        parts.append(section("Changes", changed or nothing, class_="changes sheet"))
    if counted:
        parts.append(
            section(
                "Totals",
                counted,
                sums_table(page) or "",
                wished or "",
                class_=None if page.old else "sheet",
            )
        )
    covered = list(coverage_tables(page))
    if covered:
        parts.append(section("Coverage", *covered))
    if page.view.has_costs or any(page.view.without_costs()):
        parts.append(charges_section(page))
    return parts


def page_text(page: Content) -> str:
    """The page: well-formed XML, and HTML."""
    parts = [_roster(page), *([] if page.only_table else _details(page))]
    plan = [element("meta", name="plan", content=page.plan)] if page.plan else []
    return document([*plan, element("title", title(page)), element("style", page_style())], parts)


def document(heads: Sequence[Markup], parts: Sequence[Markup]) -> str:
    """A page with these elements in its head."""
    width = element("meta", name="viewport", content="width=device-width")
    head = element("head", element("meta", charset="utf-8"), width, *heads)
    body = element("body", element("main", *(joined(part, Markup("\n")) for part in parts)))
    return f"<!DOCTYPE html>\n{element('html', head, Markup(chr(10)), body, lang='en')}\n"
