"""The verb that takes the last one back."""

from dataclasses import dataclass
from pathlib import Path
from typing import NamedTuple

from ...week.faults import FileFault, Misuse, fault_line
from ...week.words import readable
from ..sentences import exceeded_lines
from ..state import Record
from ..plan_files import known_record
from ..reading import fitted
from ..store import PlanStore
from ..verb import Event, Form, Outcome, Verb, saved
from ..ward import WardPlan


class Made(NamedTuple):
    """A plan's folder and its record, if it is not damaged."""

    folder: Path
    record: Record | None

    def text(self) -> str:
        """The verb and the time of a plan; the name of its folder if it is damaged."""
        return readable(self.record.made) if self.record else self.folder.name


@dataclass(frozen=True)
class Undone(Outcome):
    """A plan is undone, and another one holds now, if there is one. `plan` is None if the
    spreadsheet has a fault."""

    undone: Made
    holds: Made | None = None
    plan: WardPlan | None = None
    fault: FileFault | Misuse | OSError | None = None

    def lines(self, write: str = "") -> list[str]:
        """Which verb is taken back, and which plan holds again."""
        made = self.undone.text()
        holds = self.holds
        if not self.is_written:
            return [f"this takes back: {made}"]
        said = [f"undone: {made}" if holds else f"undone: {made}; there is no plan any more"]
        if holds:
            is_same = self.undone.record is not None and self.undone.record.verb == "page"
            said.append(
                f"the plan of {holds.text()} holds"
                f" again{', with the same shifts' if is_same else ''}"
            )
        said += [*(exceeded_lines(self.plan) if self.plan else []), *self.pages.lines()]
        return (
            [*said, f"its pages are not written: {fault_line(self.fault)}"]
            if self.fault and holds
            else said
        )


def _asked(store: PlanStore, _event: Event) -> Undone:
    """What undo takes back. Raises Misuse if there is nothing."""
    return Undone(_made(store.folder.check_undo()))


def _made(folder: Path) -> Made:
    return Made(folder, known_record(folder))


def _done(store: PlanStore, _event: Event) -> Undone:
    """The plan before the last verb holds again."""
    path = store.folder.undo()
    undone = _made(path)
    last = store.folder.last()
    holds = _made(last) if last else None
    try:
        plan = fitted(store.current())
        return saved(Undone(undone, holds, plan), store.pages(plan, undone.record))
    except (FileFault, Misuse, OSError) as fault:
        return saved(Undone(undone, holds, fault=fault), store.pages_undone(undone.record))


VERB = Verb(
    names=("undo",),
    words="",
    effect="the plan before the last verb holds again",
    asked=_asked,
    done=_done,
    form=Form(
        verb="undo",
        button="Undo",
        text="the plan before the last verb holds again",
        refused="nothing was taken back",
        needs_plan=False,
        writes="its pages",
    ),
)
