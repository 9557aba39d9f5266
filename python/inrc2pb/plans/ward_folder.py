"""The folder of a ward: its spreadsheet, and a folder for each plan, which is written as a whole
and never changed by a verb. One run writes to it at a time."""

import contextlib
import datetime
import fcntl
import os
import re
import shutil
import tempfile
import threading
import zlib
from pathlib import Path
from typing import Callable, Iterator, Sequence, TextIO

from ..programs.interrupts import interrupts
from ..sheets.gone_days import Gone, with_gone
from ..sheets.older_names import Begin
from ..sheets.open_shifts import OpenShift
from ..sheets.period_row import weeks_of_period
from ..sheets.plan_days import head_dates, read_days
from ..sheets.sheet_files import Book, read_book
from ..sheets.ward import Ward, ward_name, ward_of
from ..sheets.written_days import DayWord
from ..week.dates import PlanDays
from ..week.faults import Misuse
from ..week.own_files import check_inside, check_no_link
from ..week.words import quoted
from ..week.writing import flush, write_text
from .kept import Kept, looks_of
from .plan_files import check_readable

PLANS = "plans"
UNDONE = "undone"
NEXT = "next"
LOCK = "lock"
_SPREADSHEETS = (".ods", ".xlsx")
_CSV = (".csv", ".tsv")
# Those that are not read, with macros, of old programs, or of others.
_OTHER_SPREADSHEETS = (".xls", ".xlsm", ".xlsb", ".xltx", ".ots", ".fods", ".numbers")
_NAME = re.compile("([0-9]{4,})-.+")
# Seconds between two looks whether the run that works in the folder has ended.
_PAUSE = 0.2


def has_spreadsheet(top: Path) -> bool:
    """Whether the folder has a spreadsheet, or sheets as .csv files."""
    return any(
        path.suffix.lower() in (*_SPREADSHEETS, *_CSV) for path in top.iterdir() if path.is_file()
    )


def tables_of(spreadsheet: Path) -> list[Path]:
    """The files of a spreadsheet: itself, or the .csv files of a folder."""
    if not spreadsheet.is_dir():
        return [spreadsheet]
    return [
        path
        for path in sorted(spreadsheet.iterdir())
        if path.suffix.lower() in _CSV and path.is_file()
    ]


class WardFolder:
    """A folder with a spreadsheet. The plans are the folders `plans/NNNN-TIME-VERB`; the last of
    them holds. If its verb has planned the next period, too, that is the folder `next` in it."""

    def __init__(self, top: Path) -> None:
        if not top.is_dir():
            raise Misuse(f"{top} is no folder: give the folder that has the ward's spreadsheet")
        self.top = top
        self.plans = top / PLANS
        self._book = Kept[Book]()
        self._ward = Kept[Ward]()
        self._dates = Kept[frozenset[datetime.date]]()

    def spreadsheet(self) -> Path:
        """The only spreadsheet of the folder; the folder itself if its sheets are .csv files."""
        files = [
            path
            for path in sorted(self.top.iterdir())
            if path.is_file() and not path.name.startswith((".", "~"))
        ]
        spreadsheets = [path for path in files if path.suffix.lower() in _SPREADSHEETS]
        if len(spreadsheets) > 1:
            raise Misuse(
                f"{self.top} has several spreadsheets,"
                f" {quoted(path.name for path in spreadsheets)}: leave one of them in it"
            )
        tables = spreadsheets or [path for path in files if path.suffix.lower() in _CSV]
        for path in tables:
            check_inside(path, self.top)
        if tables:
            return spreadsheets[0] if spreadsheets else self.top
        other = [path.name for path in files if path.suffix.lower() in _OTHER_SPREADSHEETS]
        if other:
            raise Misuse(
                f"{self.top}: {quoted(other)} cannot be read: open it in its program, and save it"
                " as .xlsx or .ods"
            )
        raise Misuse(
            f"{self.top} has no spreadsheet: put the ward's .ods or .xlsx file into it, or give a"
            " new folder and `new`"
        )

    def ward(
        self,
        name: str | None = None,
        absences: Sequence[DayWord] = (),
        period: PlanDays | None = None,
        opened: Sequence[OpenShift] = (),
        begin: Begin = Begin(),
        gone: Gone | None = None,
    ) -> Ward:
        """The ward of a period of the spreadsheet, or of all its days; it has this name, if it has
        one, and these days away in its plan, these shifts are left open, nurses begin so, and these
        days are over, some of them without a column."""
        spreadsheet = self.spreadsheet()
        return self._ward.of(
            tables_of(spreadsheet),
            (name, tuple(absences), period, tuple(opened), begin, gone),
            lambda: ward_of(
                with_gone(self.book(), gone),
                name or ward_name(spreadsheet),
                absences,
                period=period,
                opened=opened,
                begin=begin,
            ),
        )

    def days(self, gone: Gone | None = None) -> PlanDays:
        """All days of the sheet plan, and those of which some have no column since they are
        over."""
        return read_days(with_gone(self.book(), gone)).sheet

    def dates(self) -> frozenset[datetime.date]:
        """The dates of the heads of the sheet plan; none if some of them have none."""
        files = tables_of(self.spreadsheet())
        return self._dates.of(files, None, lambda: head_dates(self.book()))

    def usual_weeks(self) -> int | None:
        """The weeks of a period, if the spreadsheet says how many."""
        return weeks_of_period(self.book())

    def book(self) -> Book:
        """The spreadsheet, which is read again only if it has changed."""
        spreadsheet = self.spreadsheet()
        return self._book.of(tables_of(spreadsheet), None, lambda: read_book(spreadsheet))

    def made(self) -> list[Path]:
        """The folders that verbs have made, in their order."""
        return sorted(_own_folders(self.plans), key=place_of)

    def all_plans(self) -> list[Path]:
        """The folders of all plans, in the order in which they were made."""
        return [plan for made in self.made() for plan in plans_in(made)]

    def last(self) -> Path | None:
        """The folder of the plan that holds, if there is one."""
        return next(reversed(self.made()), None)

    @property
    def stamp(self) -> str:
        """The name of the plan that holds, or `none`: another one since a page was shown has
        another stamp."""
        last = self.last()
        return last.name if last else "none"

    def files(self) -> list[Path]:
        """The files of the spreadsheet, and of the plan that holds."""
        last = self.last()
        plans = plans_in(last) if last else ()
        return [
            *tables_of(self.spreadsheet()),
            *(path for plan in plans for path in sorted(plan.iterdir())),
        ]

    @property
    def seen(self) -> str:
        """The stamp, a blank, and what is another text if a file of the spreadsheet or of the plan
        was changed since."""
        try:
            looks = repr(looks_of(self.files()))
        except (Misuse, OSError) as fault:
            looks = str(fault)
        return f"{self.stamp} {zlib.crc32(looks.encode(errors='surrogateescape')):08x}"

    def add(
        self,
        verb: str,
        texts: dict[str, str],
        now: datetime.datetime,
        then: Sequence[dict[str, str]] = (),
    ) -> Path:
        """Writes a plan with these files, and those of the next periods: their folder is there as a
        whole or not at all. Raises Misuse if no later verb could read it."""
        number = 1 + max((place_of(path)[0] for path in [*self.made(), *self.undone()]), default=0)
        target = self.plans / f"{number:04}-{now:%Y-%m-%d-%H%M}-{verb}"
        new = Path(tempfile.mkdtemp(prefix=".new-", dir=self.plans))
        folder = new
        try:
            for files in (texts, *then):
                folder.mkdir(exist_ok=True)
                for name, text in files.items():
                    write_text(folder / name, text)
                check_readable(folder)
                folder = folder / NEXT
            os.chmod(new, 0o777 & ~_umask_of(self.plans))
            for folder in reversed([*plans_in(new)]):
                for path in (*sorted(folder.iterdir()), folder):
                    flush(path)
            os.rename(new, target)
            flush(self.plans)
        except BaseException as fault:
            shutil.rmtree(new, ignore_errors=True)
            if isinstance(fault, OSError):
                fault.filename = str(target)
            raise
        return target

    def undone(self) -> list[Path]:
        """The folders of the plans that were undone."""
        return _own_folders(self.plans / UNDONE)

    def check_undo(self) -> Path:
        """The folder of the plan that undo takes away. Raises Misuse if there is none."""
        last = self.last()
        if last is None:
            raise Misuse(f"{self.top}: there is nothing to undo")
        return last

    def undo(self) -> Path:
        """Takes the last plan away, to the folder `undone`. Returns its new path."""
        last = self.check_undo()
        undone = self.plans / UNDONE
        check_no_link(undone)
        undone.mkdir(exist_ok=True)
        path = last.rename(undone / last.name)
        for folder in (undone, self.plans):
            flush(folder)
        return path

    @contextlib.contextmanager
    def locked(self, say: Callable[[str], None], end: str = "") -> Iterator[None]:
        """Within the block no other run writes to the folder. If one does now, `say` is called with
        that, and with how a user ends the wait; who does so gets a KeyboardInterrupt."""
        with self._lock_file() as file:
            self._take(file, say, end)
            yield

    def _lock_file(self) -> TextIO:
        """The file that is locked, open. A fault names the folder. Raises Misuse if it is a link,
        or if this is no ward's folder."""
        check_no_link(self.plans)
        check_no_link(self.plans / LOCK)
        if not self.plans.is_dir():
            # The folder of a network share that is gone is empty.
            self.spreadsheet()
        try:
            if not self.plans.is_dir():
                self.plans.mkdir(exist_ok=True)
                flush(self.top)
            return open(
                os.open(self.plans / LOCK, os.O_RDWR | os.O_CREAT | os.O_NOFOLLOW, 0o666),
                "r+",
                encoding="utf-8",
            )
        except OSError as fault:
            fault.filename = str(self.top if isinstance(fault, PermissionError) else self.plans)
            raise

    def _take(self, file: TextIO, say: Callable[[str], None], end: str) -> None:
        if _is_taken(file):
            return
        say(
            f"another run works in {self.top}: this one waits for its end, and its time begins"
            f" then{end}"
        )
        stopped = threading.Event()
        with interrupts() as signals, signals.calling(stopped.set):
            while not stopped.wait(_PAUSE):
                if _is_taken(file) and not signals.caught:
                    say("the other run has ended")
                    return
            signals.check()
        raise KeyboardInterrupt


def _own_folders(top: Path) -> list[Path]:
    """The folders of plans in a folder, which are no links, if it is none either."""
    if top.is_symlink() or not top.is_dir():
        return []
    return [
        path
        for path in top.iterdir()
        if _NAME.fullmatch(path.name) and path.is_dir() and not path.is_symlink()
    ]


def plans_in(made: Path) -> Iterator[Path]:
    """The folder that a verb has made, and in it that of the next period, if it has made its plan,
    too."""
    while made.is_dir() and not made.is_symlink():
        yield made
        made = made / NEXT


def place_of(plan: Path) -> tuple[int, str]:
    """The number and the name of a plan's folder: the plan after number 9999 has five digits."""
    return int(plan.name.partition("-")[0]), plan.name


def _is_taken(file: TextIO) -> bool:
    """Locks the file, if no other run has locked it. Returns whether it is locked."""
    try:
        fcntl.flock(file, fcntl.LOCK_EX | fcntl.LOCK_NB)
        return True
    except BlockingIOError:
        return False


def _umask_of(folder: Path) -> int:
    """The permissions that the folder does not give."""
    return 0o777 & ~folder.stat().st_mode
