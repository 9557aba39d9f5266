"""The events of a local page: one is done at a time, in a thread of its own, and what comes of it
is kept."""

import datetime
import io
import threading
from typing import Mapping, NamedTuple

from ..plans.planned import Planned
from ..plans.store import Means
from ..plans.table import Done, Verbs
from ..plans.verb import Event, Outcome
from ..plans.verbs.over import WeekOver
from ..plans.verbs.undo import Undone
from ..plans.ward_folder import WardFolder
from ..plans.words import PeriodOver
from ..programs.interrupts import Interrupts
from ..programs.progress import WardProgress
from ..week.faults import FileFault, FileFaults, Misuse, ProgramFault, fault_line

Fields = Mapping[str, str]
# How a user of the page writes a swap that was only looked at.
_WRITE = "the button below writes it"


# The most verbs that a page lists.
MOST_LISTED = 30


class Changed(Misuse):
    """A form that was shown for an older plan."""

    def __init__(self) -> None:
        now = "look at the plan below, and press the button again"
        super().__init__(
            f"this form was shown for an older plan, so nothing was written by it: {now}"
        )


class Busy(Misuse):
    """A form that was sent while a verb ran."""

    def __init__(self) -> None:
        now = "wait for its end, or stop it, and press the button again"
        super().__init__(f"another verb was running, so this button did nothing: {now}")


class Saved(Misuse):
    """A plan that was found before the spreadsheet was saved."""

    def __init__(self) -> None:
        super().__init__(
            "the spreadsheet was saved since this plan was found, so it was not written: press the"
            " button again"
        )


class Said(NamedTuple):
    """What there is to say of the last event: its lines, its form, its outcome or fault if it has
    ended, and whether it still runs."""

    lines: list[str]
    fields: Fields = {}
    outcome: Outcome | None = None
    fault: Exception | None = None
    runs: bool = False
    # What was asked for, and when.
    asked: str = ""
    # The beginning of what the folder's `seen` is as long as this holds: the plan that it speaks
    # of, and the spreadsheet, unless it tells what was written.
    about: str = ""

    @property
    def ends_period(self) -> bool:
        """Whether it says that a period is over."""
        return isinstance(self.fault, PeriodOver) or (
            isinstance(self.outcome, WeekOver) and self.outcome.next is None
        )

    @property
    def look(self) -> Planned | None:
        """The plan that was found, if its user is to look at it before it is written."""
        return self.outcome if isinstance(self.outcome, Planned) and self.outcome.is_look else None

    @property
    def needs_search(self) -> bool:
        """Whether only a search can say what a question needs."""
        return self.outcome is not None and self.outcome.needs_search

    @property
    def is_undo(self) -> bool:
        """Whether a plan was undone."""
        return isinstance(self.outcome, Undone)


class Jobs:
    """The events of a folder. `stop` ends the one that runs, which keeps its best plan."""

    def __init__(
        self, folder: WardFolder, signals: Interrupts, seconds: float | None = None
    ) -> None:
        # The seconds of a search, if they are not the usual ones.
        self.folder = folder
        self.seconds = seconds
        self._signals = signals
        self._lock = threading.Lock()
        self._thread: threading.Thread | None = None
        self._spoken = io.StringIO()
        self._said = Said([])
        self._began = datetime.datetime.now().replace(second=0, microsecond=0)

    def verbs(self, spoken: io.StringIO | None = None) -> Verbs:
        """The verbs of the folder, which say to this text how far they are."""
        text = spoken or io.StringIO()
        return Verbs(
            self.folder,
            Means(WardProgress(text), lambda line: print(line, file=text), ""),
        )

    def asked(self, event: Event) -> Said:
        """What an event comes to before it is done, as a question says it, or the fault that it
        would have."""
        try:
            outcome = self.verbs().asked(event)
        except Exception as fault:
            return Said(fault_lines(fault), fault=fault)
        return Said(outcome.question() if outcome else [], outcome=outcome)

    def forget(self) -> None:
        """What the last event has said is said no more."""
        self._said = Said([], self._said.fields)

    def made(self) -> str:
        """Which verb has made the plan that holds, when, and who asked for it, if that is known."""
        return self.verbs().made(self._began)

    def history(self) -> list[Done]:
        """What the last verbs have done, the last one first."""
        return self.verbs().history(MOST_LISTED)

    def check_stamp(self, stamp: str) -> None:
        """Raises Changed if the plan that holds has another stamp."""
        if self.folder.stamp != stamp:
            raise Changed

    def check_free(self) -> None:
        """Raises Busy if a verb runs."""
        if self.runs:
            raise Busy

    @property
    def runs(self) -> bool:
        """Whether a verb runs."""
        return self._thread is not None and self._thread.is_alive()

    def said(self) -> Said:
        """What the last event has said until now, as long as the plan and the spreadsheet are
        those that it speaks of."""
        said = self._said
        if self.runs:
            return Said(self._spoken.getvalue().splitlines(), said.fields, runs=True)
        now = self.folder.seen
        if now.startswith(said.about):
            return said
        if said.look and now.split(" ")[0] == said.about.split(" ")[0]:
            return said._replace(lines=[str(Saved())], outcome=None, fault=Saved())
        return Said([], said.fields)

    def begin(self, event: Event, fields: Fields, stamp: str | None) -> None:
        """Begins to do what a form asks for, if the plan that holds has this stamp, or with any
        plan; a plan that was found for the same form is written. Raises Busy if another one
        runs."""
        with self._lock:
            self.check_free()
            found = self._said if self._said.fields == fields and not event.look else Said([])
            self._spoken = io.StringIO()
            failed = Misuse("this failed: the terminal of inrc2pb-plan says why")
            self._said = Said([str(failed)], fields, fault=failed)
            self._thread = threading.Thread(
                target=self._run, args=(event, stamp, self._spoken, found)
            )
            self._thread.start()

    def _run(self, event: Event, stamp: str | None, spoken: io.StringIO, found: Said) -> None:
        fields = self._said.fields
        seen = ""
        try:
            with self.folder.locked(lambda line: print(line, file=spoken)):
                # No other run writes now.
                if stamp is not None:
                    self.check_stamp(stamp)
                seen = self.folder.seen
                verbs = self.verbs(spoken)
                # A plan that was found before the spreadsheet was saved is asked about anew.
                outcome: Outcome = (
                    verbs.written(found.look, event)
                    if found.look and found.about == seen
                    else verbs.done(event._replace(look=event.look or bool(found.look)))
                )
                said = Said([], fields, outcome)
                said = said._replace(lines=outcome.lines("" if said.look else _WRITE))
        except KeyboardInterrupt:
            said = Said(["stopped while it waited: nothing was written"], fields)
        except Exception as fault:
            said = Said(fault_lines(fault), fields, fault=fault)
        now = f"{self.folder.stamp} "
        asked = f"{event.typed}, {datetime.datetime.now():%Y-%m-%d %H:%M}"
        self._said = said._replace(asked=asked, about=seen if seen.startswith(now) else now)

    def stop(self) -> None:
        """Ends the search that runs, if one does."""
        self._signals.ask()

    def wait(self) -> None:
        """Waits for the end of the event that is done."""
        if self._thread:
            self._thread.join()


def fault_lines(fault: Exception) -> list[str]:
    """A fault as lines; one of the program itself is raised again."""
    if isinstance(fault, FileFaults):
        return [fault_line(told) for told in fault.faults]
    if isinstance(fault, (FileFault, Misuse, ProgramFault, OSError)):
        return [fault_line(fault)]
    raise fault
