"""The folder of a planned period: its rosters and histories, which others may write in the
meantime."""

from pathlib import Path
from typing import Mapping, Sequence

from ..week.faults import FileFault
from ..week.files import read_solution
from ..week.records import Cell, in_plan
from .kept_file import KeptFile
from .planned_weeks import PlannedWeeks, WrittenWeek, roster_name


class PlanFolder:
    """The files of some weeks in a folder, none of which takes the place of an input. Days count
    from the first of these weeks."""

    def __init__(self, weeks: PlannedWeeks, folder: Path, inputs: Sequence[Path]) -> None:
        self._weeks = weeks
        self._folder = folder
        self._inputs = inputs
        self._files: dict[str, KeptFile] = {}
        self._texts: dict[str, str] = {}

    def _file(self, name: str) -> KeptFile:
        return self._files.setdefault(name, KeptFile(self._folder / name, self._inputs))

    @property
    def rosters(self) -> list[Path]:
        """The paths of the rosters."""
        return [self._folder / roster_name(number) for number in self._weeks.numbers]

    def others(self) -> Sequence[Cell] | None:
        """The plan of these weeks that the folder has, if someone else has written a part of it
        since this was asked before."""
        are_new = [self._file(path.name).new_text() is not None for path in self.rosters]
        return self._cells() if any(are_new) else None

    def _cells(self) -> Sequence[Cell] | None:
        """The plan that the folder has; None if it has none of these weeks."""
        rosters = []
        for index, path in enumerate(self.rosters):
            try:
                roster = read_solution(path, self._weeks.scenario) if path.is_file() else None
            except (FileFault, OSError):
                return None
            if roster is None or not self._weeks.has(roster, index):
                return None
            rosters.append(roster.cells)
        return in_plan(rosters) or None

    def keep(self, cells: Sequence[Cell]) -> None:
        """Writes a plan to the folder, which is made again if someone has removed it."""
        texts = self._weeks.texts(cells)
        self._write(texts)
        self._texts = texts

    def _write(self, texts: Mapping[str, str]) -> None:
        self._folder.mkdir(parents=True, exist_ok=True)
        for name, text in texts.items():
            self._file(name).write(text)

    def better(self, penalty: int) -> str:
        """A line about a plan of someone else."""
        return (
            "there is a better plan than that of this search in its folder, which is kept: its"
            f" penalty is {penalty}"
        )

    def restored(self) -> str:
        """Writes the files again that someone else has changed, and says so."""
        changed = {
            name: text for name, text in self._texts.items() if not self._file(name).has(text)
        }
        if not changed:
            return ""
        self._write(changed)
        paths = ", ".join(str(self._folder / name) for name in changed)
        return f"{paths} changed during the search: the folder has the plan of the search again"

    def written(self) -> list[WrittenWeek]:
        """The weeks that were written last; none before the first plan."""
        return self._weeks.written(self._folder) if self._texts else []
