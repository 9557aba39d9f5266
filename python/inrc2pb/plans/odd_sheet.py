"""What is odd in the spreadsheet and in the folder, as `check` and `plan` say it."""

from typing import Iterator, Sequence

from ..sheets.week_rows import WeekRow
from ..week.words import quoted, readable
from .sentences import anew_lines
from .reading import Strangers
from .ward import WardPlan


def warning_lines(
    plan: WardPlan,
    other_pages: Sequence[str] = (),
    anew: Sequence[WeekRow] = (),
    strangers: Strangers = Strangers(),
    undone: Sequence[str] = (),
) -> list[str]:
    """What is odd in the spreadsheet and in the folder: pages that show another plan, rows of needs
    that are as they were last period, and nurses who may have another name now."""
    told = [
        f"{name} shows another plan than the one that holds, as if a run was killed: the verbs plan"
        " and page write it anew"
        for name in other_pages
    ]
    told += [
        f"plans/undone/{name} was taken back, perhaps by an older version, which cannot read it:"
        " move it into plans to take that back"
        for name in undone
    ]
    warnings = [
        *told,
        *plan.ward.warnings,
        *anew_lines(anew, plan.days),
        *_stranger_lines(strangers),
    ]
    return [readable(f"warning: {line}") for line in warnings]


def _stranger_lines(strangers: Strangers) -> Iterator[str]:
    """Who has come and who has gone, at the begin of a period, and that one of them may only have
    another name."""
    come, gone, begins = strangers
    if come and begins:
        yield f"sheet nurses: new since the last plan: {quoted(come)}"
    if gone and begins:
        yield f"sheet nurses: in the ward no more: {quoted(gone)}"
    for now, before in strangers.alike:
        yield (
            f"sheet nurses: is {now} the {before} of the last plan? If she is, write {before} into"
            " the column was of her row, so that her past is known"
        )
    if come and gone and not strangers.alike:
        yield (
            f"sheet nurses: the last plan does not have {quoted(come)}, and here is no row for"
            f" {quoted(gone)}: if one of them has another name now, write the old one into the"
            " column was, so that her past is known"
        )
