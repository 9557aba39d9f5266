"""The verbs `new` and `files` of `inrc2pb-plan`: an example spreadsheet, and the text files of a
ward that its spreadsheet says."""

import contextlib
import datetime
from collections import Counter
from pathlib import Path
from typing import Iterator, TextIO

from ..judging.leave import credit_line
from ..plans.ward_folder import has_spreadsheet
from ..sheets.plan_sheets import AWAY
from ..sheets.sheet_files import read_book
from ..sheets.ward import ward_name, ward_of
from ..sheets.ward_template import next_monday, write_template
from ..week.faults import Misuse
from ..week.own_files import is_own_file, own_bytes
from ..week.words import joined, quoted, readable
from ..week.writing import check_target, replacing_link
from .arguments import as_typed

# The name of the example spreadsheet.
TEMPLATE = "ward.ods"


def _reasons(text: str) -> list[str]:
    """The reasons of absences that count as work."""
    reasons = text.split(",") if text not in ("", "none") else []
    for word in reasons:
        if word not in AWAY:
            raise Misuse(
                f"--credit {text}: '{word}' is no reason to be away: give some of {','.join(AWAY)},"
                " or none"
            )
    return reasons


def _old_histories(folder: Path, first: str, weeks: int) -> Iterator[str]:
    """A warning if the first history gets other numbers, as for leave that counts as work, and the
    folder has later histories, made of the old ones."""
    old = folder / "history-0.txt"
    names = [f"history-{number}.txt" for number in range(1, weeks)]
    later = [name for name in names if is_own_file(folder / name)]
    if not later or not is_own_file(old):
        return
    before = _nurse_rows(own_bytes(folder, old.name).decode(errors="surrogateescape"))
    changed = [nurse for nurse, row in _nurse_rows(first).items() if before.get(nurse, row) != row]
    if changed:
        them = "it" if len(later) == 1 else "them"
        advice = f"make {them} again with inrc2pb-roster next or inrc2pb-solve"
        yield (
            f"history-0.txt has new numbers of {quoted(changed)}, and {joined(later)} the old ones:"
            f" {advice}"
        )


def _nurse_rows(history: str) -> dict[str, list[str]]:
    """The words of each nurse's line in the text of a history."""
    return {words[0]: words for words in map(str.split, history.splitlines()) if len(words) == 7}


def _write(folder: Path, texts: dict[str, str]) -> None:
    """Writes all files, or none of them."""
    folder.mkdir(parents=True, exist_ok=True)
    for path in (folder / name for name in texts):
        if not path.is_symlink():
            check_target(path)
    with contextlib.ExitStack() as stack:
        targets: list[tuple[TextIO, str]] = [
            (stack.enter_context(replacing_link(folder / name)), text)
            for name, text in texts.items()
        ]
        for target, text in targets:
            target.write(text)
            target.flush()


def new(folder: Path, today: datetime.date) -> list[str]:
    """Writes an example spreadsheet into the folder, which is made if there is none; its plan
    begins on the Monday after this day. Returns the lines to print.

    Raises Misuse if the folder has a spreadsheet.
    """
    folder.mkdir(parents=True, exist_ok=True)
    target = folder / TEMPLATE
    if has_spreadsheet(folder):
        raise Misuse(f"{folder} has a spreadsheet: give a new folder")
    write_template(target, next_monday(today))
    return [
        f"written: {target}; change its rows into those of your ward, then type:"
        f" {as_typed(('inrc2pb-plan', folder, 'check'))}"
    ]


def files(tables: Path, out: Path, credit: str, requests: bool) -> list[str]:
    """Writes the text files of a ward into the folder `out`, all or none of them. Returns the lines
    to print.

    `tables` is the spreadsheet, or a folder of .csv files. Absences for the reasons of `credit`
    count as work in the first history. With `requests` the weeks' files have absences too, as many
    equal requests.
    """
    reasons = _reasons(credit)
    ward = ward_of(read_book(tables), ward_name(tables), reasons=reasons)
    texts = ward.texts_of(ward.with_requests()) if requests else ward.texts
    old = list(_old_histories(out, texts["history-0.txt"], ward.days.weeks))
    _write(out, texts)
    days = Counter(nurse for nurse, _ in ward.counted.days)
    return [
        *(f"{tables}: warning: {readable(line)}" for line in ward.warnings),
        f"{out}: {', '.join(texts)}",
        *(
            credit_line(nurse, days[nurse], shifts, "history-0.txt")
            for nurse, shifts in ward.counted.shifts.items()
        ),
        *(f"{out}: warning: {readable(line)}" for line in old),
    ]
