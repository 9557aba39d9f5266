"""The forms of a local page, and the verbs that their fields are."""

from typing import Sequence

from ..plans.planning import CHANGE_SECONDS, WEEK_SECONDS
from ..plans.table import VERBS
from ..plans.verb import Event, Form
from ..plans.ward import WardPlan
from ..sheets.plan_sheets import AWAY
from ..shown.markup import Markup, element, joined
from ..week.faults import Misuse
from ..week.records import WEEK_DAYS
from ..week.words import OFF, quoted, readable
from .jobs import Fields

_MOST_SECONDS = 3600.0
# The field of a form that writes, after the user was asked; the one that says for which plan it was
# shown, and that of an answer, for which spreadsheet.
SURE = "sure"
STAMP = "stamp"
SEEN = "seen"
FORMS = tuple(verb.form for verb in VERBS)
_BY_VERB = {form.verb: form for form in FORMS}
_CHECKS = ("free",)
# The verbs of a whole period.
_WITHOUT_DAY = ("plan", "page")
# The fields of a form that may stay empty, and the text of the choice that leaves them so; of
# others a user has to choose.
_EMPTY = {
    "from": "all days",
    "other": "all who could",
    "other day": "the same day",
    "last": "this day only",
}
_LABELS = {"first": "day", "last": "last day", "other": "with", "free": "all shifts may change"}
# The style of forms, buttons and links.
STYLE = """
form { margin: .5em 0 }
label { display: inline-block; margin: .1em .3em }
button, input, select { font: inherit; padding: .25em .5em }
button { min-width: 11em }
button:focus-visible, input:focus-visible, select:focus-visible, a:focus-visible { outline: 3px solid #05c; outline-offset: 1px }
pre { background: #eee; padding: .6em; white-space: pre-wrap }
pre.fault { background: #fdd }
.links a { margin-right: 1em }
td a { display: block; color: inherit; text-decoration: none; min-height: 1.4em }
td a:hover { outline: 3px solid #05c }
tbody th a { color: inherit }
summary { font-weight: 600; padding: .3em 0 }
.actions { display: grid; grid-template-columns: repeat(auto-fit, minmax(17em, 1fr)); gap: 0 1.5em }
.actions h3 { font-size: 1em; margin: .6em 0 .2em }
.actions form { margin: .15em 0 }
.actions button { width: 100%; text-align: left }
.actions .words button { width: auto; min-width: 0 }
@media screen {
body { max-width: none; margin: .6em 1em }
h1 { display: inline-block; margin-right: 1em }
h1 + .links { display: inline-block }
.plan { overflow: auto; max-height: 84vh; margin-bottom: .4em }
.plan:has(~ .panel .busy) { max-height: 55vh }
.plan table { margin: 0; border-collapse: separate; border-spacing: 0; border: solid #999; border-width: 1px 0 0 1px }
.plan th, .plan td { border-width: 0 1px 1px 0 }
.plan .sat { border-left-width: 2.5px }
.plan .sun { border-right-width: 2.5px }
.plan .changed, .plan .few { border-width: 2.5px }
.plan caption { position: absolute; clip-path: inset(50%) }
.plan thead { position: sticky; top: 0; z-index: 2 }
.panel { position: sticky; bottom: 0; max-height: 40vh; overflow: auto; background: #fff; border-top: 3px solid #05c; padding: .2em .6em; z-index: 3 }
#cell, .panel h2 { scroll-margin-top: 100vh }
.panel h2 { margin: .3em 0 }
.gone { color: #555 }
}
@media print { .panel, #forms, .links { display: none } .plan { overflow: visible } }
@media screen and (min-width: 60em) { .plan .roster thead tr > :first-child { width: 10.5em } }
@media screen and (max-width: 40em) { button { width: 100% } label { display: block } select { max-width: 100% } }
"""


def writes(fields: Fields) -> str:
    """What the verb of a form writes; nothing if it only reads."""
    verb = fields.get("verb", "")
    only_reads = verb not in _BY_VERB or (verb == "swap" and "write it" not in fields)
    return "" if only_reads else _BY_VERB[verb].writes


def not_written(fields: Fields) -> list[str]:
    """A line that names what was not written of a form that was refused; none if its verb only
    reads."""
    nurse, other = (readable(fields.get(name, "")) for name in ("nurse", "other"))
    return (
        [_BY_VERB[fields["verb"]].refused.format(nurse=nurse, other=other)]
        if writes(fields)
        else []
    )


def event_of(fields: Fields, seconds: float | None = None, period: str = "") -> Event:
    """What a form asks for; a search has so many seconds, if the form does not say how many. A verb
    of a whole period is for the one that begins on the date `period`. Raises Misuse if no form of
    the page is so."""
    verb = fields.get("verb", "")
    if verb not in _BY_VERB:
        raise Misuse(
            f"'{verb}' is no button of this page: it has {quoted(form.button for form in FORMS)}"
        )
    words = [
        fields[name]
        for name in ("nurse", "first", "other", "other day", "last", "from", "shift", "note")
        if fields.get(name)
    ]
    if verb in _WITHOUT_DAY and not words and period:
        words = [period]
    if verb == "over":
        words = fields.get("corrections", "").split()
    if verb == "away":
        verb = _reason(fields)
    given = _seconds(fields)
    is_written = verb == "set" or "write it" in fields
    return Event(
        verb,
        tuple(words),
        seconds=seconds if given is None else given,
        free="free" in fields,
        do=is_written,
        on_page=True,
        open="open" in fields,
    )


def _seconds(fields: Fields) -> float | None:
    text = fields.get("seconds", "")
    if not text:
        return None
    least = 0 if fields["verb"] == "set" else 1
    if not text.isdecimal() or len(text) > 4 or not least <= int(text) <= _MOST_SECONDS:
        raise Misuse(f"'{text}' is no number of seconds from 1 to {_MOST_SECONDS:.0f}")
    return float(text)


def _reason(fields: Fields) -> str:
    reason = fields.get("reason", "")
    if reason not in AWAY:
        raise Misuse(f"'{reason}' is no reason to be away: choose one of {quoted(AWAY)}")
    return reason


def form_markup(
    form: Form,
    plan: WardPlan | None,
    address: str,
    stamp: str,
    kept: Fields = {},
    seconds: float | None = None,
) -> Markup:
    """A form of the page, with the stamp of the plan, these values in its fields, and this time of
    a search. Nothing is chosen beforehand. One with fields is folded, unless it was refused; one
    without needs no plan."""
    hidden = {STAMP: stamp} if form.writes else {}
    usual = seconds or (
        WEEK_SECONDS * len(plan.weeks) if plan and form.verb == "plan" else CHANGE_SECONDS
    )
    fields = [_field(name, plan, kept.get(name, ""), usual) for name in form.fields if plan]
    button = element("button", form.button, name="verb", value=form.verb)
    text = (
        f"{form.text}; writes {form.writes}" if form.writes and form.verb != "swap" else form.text
    )
    inside = sending(hidden, address, *fields, button, " ", element("small", text))
    is_open = "" if kept or (form.verb == "plan" and plan and not plan.is_planned) else None
    return (
        element("details", element("summary", form.heading), inside, open=is_open)
        if form.heading
        else inside
    )


def sure_markup(
    fields: Fields, plan: WardPlan | None, address: str, seen: str, lines: Sequence[str] = ()
) -> Markup:
    """The question before a verb writes, with these lines, for what the folder has. Without a plan,
    which the spreadsheet may not give now, it is undo."""
    form = _BY_VERB[fields["verb"]]
    parts = [element("h2", f"{_question(form, fields, plan)}?")]
    if lines:
        parts.append(element("pre", "\n".join(lines)))
    way_back = "" if form.verb == "undo" else " Undo takes it back."
    parts.append(element("p", f"This writes {form.writes}.{way_back}"))
    yes = element("button", "Yes, write it")
    no = element("a", "No", href=f"{address}?no")
    answers = sending({**fields, SURE: "yes", SEEN: seen}, address, yes, " ", no)
    # The question has the focus, and not its answer, so that nobody writes unread.
    return element("section", *parts, answers, tabindex="-1", autofocus="")


def _question(form: Form, fields: Fields, plan: WardPlan | None) -> str:
    """What the page asks: the heading of the form, and its fields."""
    if plan and form.verb == "swap":
        first = _shown(plan, fields["first"])
        other = _shown(plan, fields.get("other day", ""))
        days = f"{first} and {other}" if other not in ("", first) else first
        return readable(f"Write this swap: {fields['nurse']} and {fields.get('other', '')}, {days}")
    if fields.get("corrections"):
        return readable(f"What was worked: {fields['corrections']}")
    named = (
        [plan.days.span([plan.first, plan.first + WEEK_DAYS - 1])]
        if plan and form.verb == "over"
        else []
    )
    for name, value in fields.items():
        if value and name not in ("verb", STAMP):
            label = _LABELS.get(name, name)
            text = f"{label} {_shown(plan, value) if plan else value}"
            is_alone = (name, value) == ("seconds", "0")
            text = "and no other shift moves" if is_alone else label if name in _CHECKS else text
            named.append(readable(text))
    heading = form.heading or form.button
    return f"{heading}: {', '.join(named)}" if named else heading


def _shown(plan: WardPlan, value: str) -> str:
    """The value of a field; a day as in sentences."""
    days = plan.ward.longer
    heads = {days.head(day): days.text(day) for day in range(days.total)}
    return heads.get(value, value)


def button_markup(fields: Fields, text: str, address: str) -> Markup:
    """A button with this text that sends these fields."""
    return sending(fields, address, element("button", text))


def sending(fields: Fields, address: str, *inside: str, class_: str | None = None) -> Markup:
    """A form with these parts that sends these fields, too."""
    hidden = (
        element("input", type="hidden", name=name, value=value) for name, value in fields.items()
    )
    return element("form", *hidden, *inside, method="post", action=address, class_=class_)


def _field(name: str, plan: WardPlan, kept: str, seconds: float) -> Markup:
    """A field with its label, and the value that was sent last."""
    label = f"{_LABELS.get(name, name)} "
    if name in _CHECKS:
        check = element("input", type="checkbox", name=name, value="yes")
        return joined(element("label", check, label), " ")
    return joined(element("label", label, _input(name, plan, kept, seconds)), " ")


def _input(name: str, plan: WardPlan, kept: str, seconds: float) -> Markup:
    """What is typed or chosen; a field with another name than these has the days of the plan."""
    match name:
        case "seconds":
            return element(
                "input",
                name=name,
                value=kept or None,
                type="number",
                min="1",
                max=f"{_MOST_SECONDS:.0f}",
                placeholder=f"{seconds:g}",
            )
        case "corrections" | "note":
            return element("input", name=name, value=kept or None, type="text", placeholder="")
        case "shift":
            shifts = ((shift, readable(shift)) for shift in plan.scenario.shift_types)
            choices = [(OFF, "off, promised"), *shifts]
        case "reason":
            choices = [(word, word) for word in ("ill", *(word for word in AWAY if word != "ill"))]
        case "nurse" | "other":
            choices = [(nurse, readable(nurse)) for nurse in plan.scenario.nurses]
        case _:
            shown = plan.ward.longer if name == "last" else plan.days
            days = range(plan.state.begin, shown.total)
            choices = [(shown.head(day), shown.text(day)) for day in days]
    options = [
        element("option", text, value=value, selected="" if value and value == kept else None)
        for value, text in [("", _EMPTY.get(name, "choose")), *choices]
    ]
    return element("select", *options, name=name, required=None if name in _EMPTY else "")
