"""The tables of a page below its roster: totals, sums, wishes, changes and coverage. They mean the
same without colors and without sight."""

from typing import Iterator, Sequence

from ..week.words import readable, wish_text
from .markup import Markup, element, hidden, joined, shown
from .page_content import (
    Content,
    classes,
    column,
    day_heads,
    first,
    groups_of_weeks,
    named_row,
    table,
    weekend_class,
)
from .roster_view import Covered, coverage
from .totals import Sums, Totals, Wish, sum_heads, totals

# Weeks next to one another in a table of the coverage, so that it fits a page.
WEEKS_OF_COVERAGE = 2
MINUS = "\u2212"


def _left(total: Totals, is_last: bool) -> str:
    """The shifts that are left in the period, or how the contract is missed."""
    minimum = total.contract.minimum - total.shifts
    maximum = total.contract.maximum - total.shifts
    if maximum < 0:
        return f"{-maximum} too many"
    if is_last:
        return f"{minimum} too few" if minimum > 0 else "within"
    return f"{max(0, minimum)} to {maximum} left"


def totals_table(page: Content) -> Markup | None:
    """The totals of each nurse, if they are known."""
    view = page.view
    by_nurse = totals(page.view)
    if not by_nurse:
        return None
    is_last = any(week.week and week.week.is_last for week in view.weeks[-1:])
    some_away = any(total.away for total in by_nurse.values())
    heads = [
        "nurse",
        "shifts",
        *(["of them for days away"] if some_away else []),
        "contract",
        "difference",
        *map(readable, view.shifts),
    ]
    heads += ["weekends", "at most", "wishes", "granted", "missed"]
    rows = []
    for nurse, total in by_nurse.items():
        over = total.weekends - total.max_weekends
        numbers = [
            str(total.shifts),
            *([str(total.away)] if some_away else []),
            f"{total.contract.minimum} to {total.contract.maximum}",
            _left(total, is_last),
            *map(str, total.by_shift.values()),
        ]
        numbers += [
            f"{total.weekends}{f' ({over} too many)' if over > 0 else ''}",
            str(total.max_weekends),
        ]
        numbers += [
            str(len(total.wishes)),
            str(total.granted),
            str(len(total.wishes) - total.granted),
        ]
        if view.has_costs:
            numbers.append(str(sum(view.costs[nurse].values())))
        rows.append(named_row(nurse, numbers))
    head = joined(*map(column, [*heads, *(["cost"] if view.has_costs else [])]))
    caption = (
        "Totals: shifts and weekends in the period until now, shifts of each type and wishes in"
        " these weeks"
    )
    return table(caption, [head], rows, "totals")


def sums_table(page: Content) -> Markup | None:
    """What each nurse has in the period, and beside it in this and all earlier periods, if they are
    known."""
    if not page.sums:
        return None
    has_times = bool(page.times)
    groups = [page.sums, *([page.all_sums] if page.all_sums else [])]
    heads = sum_heads(has_times)
    names = ["this period", "all periods"][: len(groups)]
    above = joined(
        element("td"),
        *(element("th", name, scope="colgroup", colspan=str(len(heads))) for name in names),
    )
    head = joined(column("nurse"), *(column(name) for _ in groups for name in heads))
    rows = [
        named_row(
            nurse, [text for sums in groups for text in sums.get(nurse, Sums()).texts(has_times)]
        )
        for nurse in page.view.nurses
    ]
    caption = (
        "Shifts, nights, weekends and wishes of each nurse; days away count as in her contract"
    )
    return table(caption, [above, head], rows, "totals")


# ---- wishes and changes


def _wish(page: Content, wish: Wish) -> str:
    return f"{page.days(wish.week)[wish.request.day]} {wish_text(wish.request.shift)}"


def wishes_table(page: Content) -> Markup | None:
    """The wishes of each nurse who has some."""
    rows = []
    for nurse, total in (totals(page.view) or {}).items():
        if total.wishes:
            texts = [
                ", ".join(_wish(page, wish) for wish in total.wishes if wish.granted == granted)
                for granted in (True, False)
            ]
            rows.append(named_row(nurse, texts))
    return (
        table("Wishes", [joined(*map(column, ("nurse", "granted", "missed")))], rows, "words")
        if rows
        else None
    )


def changes_table(page: Content) -> Markup | None:
    """The changes since the older roster."""
    rows = []
    for change in page.changes:
        texts = (
            page.days(change.week)[change.day],
            readable(change.before_text),
            readable(change.now_text),
        )
        rows.append(named_row(change.nurse, texts))
    heads = joined(*map(column, ("nurse", "day", "before", "now")))
    return (
        table(f"{len(rows)} changes since {page.since}", [heads], rows, "words") if rows else None
    )


# ---- coverage


def _covered(place: Covered, day: int) -> Markup:
    """The number of nurses, and beside it how many are missing or too many."""
    words = ""
    sign = ""
    if place.number < place.wanted:
        low = place.number < place.minimum
        words = f"{place.wanted - place.number} too few{', below the minimum' if low else ''}"
        sign = f"{MINUS}{place.wanted - place.number}{'!' if low else ''}"
    elif place.number > place.wanted:
        words = f"{place.number - place.wanted} too many"
        sign = f"+{place.number - place.wanted}"
    range_ = f"{place.minimum}\u2013{place.optimal}" if any(place[1:]) else ""
    kind = "few" if sign.startswith(MINUS) else "more" if sign else None
    parts = [element("b", str(place.number))] if any(place) else []
    if sign:
        parts.append(joined(" ", shown(sign, class_="mark"), hidden(words)))
    if range_:
        parts.append(
            joined(
                " ",
                element(
                    "small", shown(range_), hidden(f"minimum {place.minimum}, best {place.optimal}")
                ),
            )
        )
    return element("td", *parts, class_=classes(weekend_class(day), kind))


def coverage_tables(page: Content) -> Iterator[Markup]:
    """The nurses at each place beside those that it needs, for each two weeks."""
    known = [week.week and coverage(week.week, week.cells) for week in page.view.weeks]
    for weeks in groups_of_weeks(len(known), WEEKS_OF_COVERAGE):
        places: dict[Sequence[str], dict[int, Sequence[Covered]]] = {}
        for week in weeks:
            for shift, skill, days in known[week] or ():
                places.setdefault((shift, skill), {})[week] = days
        rows = [
            [first(readable(f"{shift} {skill}"))]
            + [
                _covered(place, day)
                for week in weeks
                for day, place in enumerate(covered.get(week, [Covered(0, 0, 0)] * 7))
            ]
            for (shift, skill), covered in places.items()
        ]
        if rows:
            signs = f"{MINUS}1: one fewer than best; !: below the minimum; +1: one more than best"
            caption = f"Nurses at each place, and (minimum\u2013best). {signs}"
            yield table(caption, day_heads(page, weeks, "place"), rows, "coverage")
