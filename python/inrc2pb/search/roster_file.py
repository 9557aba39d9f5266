"""The file of a planned week, which others may write in the meantime."""

from pathlib import Path
from typing import Sequence

from ..week.faults import FileFault
from ..week.files import read_solution, solution_text
from ..week.records import Cell
from .kept_file import KeptFile
from .planned_weeks import PlannedWeeks


class RosterFile:
    """The roster of the first of these weeks in a file, which takes the place of no input."""

    def __init__(self, weeks: PlannedWeeks, path: Path, inputs: Sequence[Path]) -> None:
        self._weeks = weeks
        self._file = KeptFile(path, inputs)
        self._text = ""

    def others(self) -> Sequence[Cell] | None:
        """The roster of this week that the file has, if it is new to the search."""
        text = self._file.new_text()
        if text is None:
            return None
        try:
            found = read_solution(self._file.path, self._weeks.scenario, text)
        except FileFault:
            return None
        return found.cells if self._weeks.has(found, 0) else None

    def keep(self, cells: Sequence[Cell]) -> None:
        """Writes the week's roster."""
        self._text = solution_text(self._weeks.roster(cells, 0))
        self._file.write(self._text)

    def better(self, penalty: int) -> str:
        """A line about a roster of someone else."""
        return (
            f"{self._file.path} has a better roster than this search, which is kept: its penalty is"
            f" {penalty}"
        )

    def restored(self) -> str:
        """Writes the roster again if someone has changed the file, and says so."""
        if self._file.has(self._text):
            return ""
        self._file.write(self._text)
        return (
            f"{self._file.path} was changed during the search: it has the roster of the search"
            " again"
        )
