"""What can be done with a nurse's day on the local page, with what it adds to the points. Nothing
is written before the page has asked."""

from typing import Iterator, Sequence
from urllib.parse import urlencode

from ..plans.offers import MOST_OFFERS, fault_text, nobody_text, offer_text, offers_of
from ..plans.sentences import cell_text
from ..plans.state import SetDay, Swap
from ..plans.swaps import MOST_POINTS, Swaps
from ..plans.ward import ALWAYS_OFF, DAYS_OFF, PROMISED, WardPlan
from ..sheets.plan_sheets import AWAY
from ..sheets.written_days import BACK
from ..shown.markup import Markup, element, joined
from ..shown.why import charge_text
from ..week.dates import day_names
from ..week.records import WEEK_DAYS, Cell, NurseDay, Place
from ..week.words import OFF, readable
from .forms import STAMP, button_markup, sending


# The place of the page that shows a nurse's day, so that the keyboard goes on from there.
CELL = "cell"


def cell_address(address: str, place: NurseDay) -> str:
    """The address of the page that shows a nurse's day."""
    return f"{address}?{urlencode({'nurse': place.nurse, 'day': place.day})}#{CELL}"


class Actions:
    """What can be done with a nurse's day of a plan. `agreed` is the swap that was written for it,
    if there is one."""

    def __init__(
        self,
        plan: WardPlan,
        place: NurseDay,
        address: str,
        stamp: str,
        agreed: Swap | None = None,
    ) -> None:
        self._plan = plan
        self._place = place
        self._address = address
        self._stamp = stamp
        self._agreed = agreed
        self._swaps = Swaps(plan)
        self._promise = plan.state.promised.get(place)
        self._first = plan.days.head(place.day)

    def markup(self) -> Markup:
        """The section of the page: what she has, what can be done, and what her week costs."""
        nurse, day = self._place
        heading = element("h2", f"{readable(nurse)}, {self._plan.days.text(day)}: {self._has()}")
        made = (self._others(), self._shifts(), self._away(), self._back())
        groups = [group for group in made if group]
        if day < self._plan.state.begin:
            groups = [
                element(
                    "p",
                    "This day is recorded as it was worked: the end of the week has a"
                    " form that corrects it.",
                )
            ]
        return element(
            "section",
            heading,
            self._days(),
            element("div", *groups, class_="actions"),
            self._charges(),
            id=CELL,
        )

    def _has(self) -> str:
        """Her shift, or why she is off, and whether it is promised to her, with the reason."""
        word = self._plan.away.get(self._place, OFF)
        has = cell_text(
            self._swaps.works(*self._place),
            f"{OFF}, {PROMISED} by the spreadsheet" if word == PROMISED else word,
        )
        if not self._kept_promise:
            return has
        return (
            f"{has},"
            f" {PROMISED}{f' ({self._kept_promise.reason})' if self._kept_promise.reason else ''}"
        )

    @property
    def _kept_promise(self) -> SetDay | None:
        """What was promised for the day, if the plan has it so."""
        return (
            self._promise
            if self._promise and self._swaps.works(*self._place) == self._promise.cell
            else None
        )

    def _days(self) -> Markup:
        """Links to her other days, and a form for one that is far away."""
        nurse, day = self._place
        beside = [
            (day - 1, f"\u2039 {self._plan.days.text(day - 1)}"),
            (day + 1, f"{self._plan.days.text(day + 1)} \u203a"),
        ]
        inside = [
            (other, text)
            for other, text in beside
            if self._plan.first <= other < self._plan.days.total
        ]
        links = [
            element("a", text, href=cell_address(self._address, NurseDay(nurse, other)))
            for other, text in inside
        ]
        return element(
            "p",
            *(joined(link, " ") for link in links),
            element("a", "Close", href=self._address),
            class_="links",
        )

    def _button(self, text: str, **words: str) -> Markup:
        """A button for an event of this nurse's day."""
        fields = {"nurse": self._place.nurse, "first": self._first, STAMP: self._stamp}
        return button_markup(
            {**fields, **{name.replace("_", " "): value for name, value in words.items()}},
            text,
            self._address,
        )

    def _others(self) -> Markup | None:
        """Who could take her shift, the cheapest first."""
        nurse, day = self._place
        if self._swaps.works(nurse, day) is None:
            return None
        offers = offers_of(self._swaps, nurse, day)
        if not offers.offers:
            return _group(
                "Someone else takes it",
                [element("p", f"Nobody can take it: {nobody_text(offers)}.")],
            )
        buttons = []
        for offer in offers.offers[:MOST_OFFERS]:
            others = {
                "other_day": self._plan.days.head(other)
                for other in offer.swap.days
                if other != day
            }
            words = {"verb": "swap", "other": offer.swap.other, "write_it": "yes", **others}
            buttons.append(self._button(offer_text(self._swaps, offer).strip(), **words))
        return _group("Someone else takes it", buttons)

    def _shifts(self) -> Markup | None:
        """The shifts that she could have, a promised day off among them, and why she cannot have
        others."""
        if self._is_away:
            return None
        buttons = []
        refused = []
        for shift, cell in self._choices():
            if self._kept_promise and cell == self._kept_promise.cell:
                continue
            name = cell_text(cell, f"{OFF}, {PROMISED}")
            faults = self._swaps.day_faults(self._place, cell)
            why = ", ".join(fault_text(self._plan, fault) for fault in faults)
            if faults and all(fault.is_minimum for fault in faults):
                alone = f"{self._swaps.day_cost(self._place, cell):+}  {name}, and this stays open:"
                text = f"{alone} {self._leaves()}"
                buttons.append(self._button(text, verb="set", shift=shift, open="yes"))
            if not all(self._swaps.may_vanish(fault, self._place) for fault in faults):
                refused.append(element("li", f"{name}: {why}"))
                continue
            cost = self._swaps.day_cost(self._place, cell)
            keeps = ", as now, and later plans keep it" * (cell == self._swaps.works(*self._place))
            if not faults:
                alone = f"{cost:+}  {name}{keeps}"
                buttons.append(self._button(alone, verb="set", shift=shift, seconds="0"))
            if faults or cost > MOST_POINTS:
                text = f"{name}, after a search with few changes{f': {why}' if why else ''}"
                buttons.append(self._button(text, verb="set", shift=shift))
        never = (
            [element("details", element("summary", "Not possible"), element("ul", *refused))]
            if refused
            else []
        )
        return _group("She has another shift, or a promised day off", [*buttons, *never])

    def _leaves(self) -> str:
        """The shift that she has now."""
        return cell_text(self._swaps.works(*self._place))

    def _choices(self) -> Iterator[tuple[str, Cell | None]]:
        """The words of the verb set, and the shifts that they are: off, and each shift type with
        those of her skills that it needs."""
        yield OFF, None
        skills = self._plan.scenario.nurses[self._place.nurse].skills
        for shift in self._plan.scenario.shift_types:
            for skill in skills:
                need = self._plan.needs.get(Place(self._place.day, shift, skill))
                if need and need.optimal:
                    yield f"{shift}/{skill}", Cell(*self._place, shift, skill)

    @property
    def _is_away(self) -> bool:
        """Whether she is away for a reason, and not only off."""
        return self._plan.away.get(self._place, ALWAYS_OFF) not in DAYS_OFF

    def _away(self) -> Markup | None:
        """She is away, from this day to another one."""
        if self._is_away:
            return None
        days = self._plan.ward.longer
        later = range(self._place.day + 1, days.total)
        choices = [
            ("", "this day only"),
            *((days.head(day), f"to {days.text(day)}") for day in later),
        ]
        options = [element("option", text, value=value) for value, text in choices]
        fields = {
            "verb": "away",
            "nurse": self._place.nurse,
            "first": self._first,
            STAMP: self._stamp,
        }
        words = ("ill", *(word for word in AWAY if word != "ill"))
        buttons = [
            joined(element("button", word, name="reason", value=word), " ") for word in words
        ]
        select = element("select", *options, name="last", aria_label="last day")
        form = sending(fields, self._address, select, " ", *buttons, class_="words")
        return _group("She is away", [form])

    def _back(self) -> Markup | None:
        """What was written for this day is taken back: an absence, a day that was set, or a
        swap."""
        buttons = list(self._taken_back())
        return _group("Take back", buttons) if buttons else None

    def _taken_back(self) -> Iterator[Markup]:
        if self._is_away:
            yield self._button(
                f"she is back from this day on ({self._plan.away[self._place]})", verb="back"
            )
        if self._promise:
            yield self._button(
                "what was promised for this day: swaps and later plans may change it",
                verb="set",
                shift=BACK,
            )
        if self._agreed:
            first, other, days = self._agreed
            nurse = other if first == self._place.nurse else first
            others = {
                "other_day": self._plan.days.head(day) for day in days if day != self._place.day
            }
            yield self._button(
                f"the swap with {readable(nurse)}",
                verb="swap",
                other=nurse,
                write_it="yes",
                **others,
            )

    def _charges(self) -> Markup:
        """What she is charged in the week of the day."""
        nurse, day = self._place
        week = self._plan.view().weeks[day // WEEK_DAYS - self._plan.state.open_week]
        names = day_names(self._plan.days.monday, day // WEEK_DAYS)
        charged = [charge for charge in week.charges or () if charge.nurse == nurse]
        if week.charges is None:
            return element("p", "This week has no cost, since it breaks a hard rule.")
        if not charged:
            return element("p", "Nothing is charged to her in this week.")
        items = [
            element("li", readable(f"{charge.cost} points: {charge_text(charge, False, names)}"))
            for charge in charged
        ]
        return joined(element("p", "Her week costs:"), element("ul", *items))


def _group(heading: str, inside: Sequence[Markup]) -> Markup:
    """Buttons with a heading."""
    parts: list[Markup] = [element("h3", heading), *inside]
    return element("div", *parts)
