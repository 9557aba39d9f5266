"""A file that a search writes again and again, and that others may write in the meantime."""

from pathlib import Path
from typing import Optional, Sequence

from ..week.faults import FileFault
from ..week.slots import text_of
from ..week.writing import (
    check_inputs_stay,
    check_no_pipe_is_written,
    file_at,
    is_open_file,
    write_text,
)


class KeptFile:
    """A file whose last known text is kept. A device and an open file, such as standard output, are
    written only. It never takes the place of one of the inputs."""

    def __init__(self, path: Path, inputs: Sequence[Path]) -> None:
        self.path = path
        self._inputs = inputs
        target = file_at(path)
        self._is_looked_at = not is_open_file(path) and (target.is_file() or not target.exists())
        self._known: Optional[str] = None

    def new_text(self) -> Optional[str]:
        """What the file has, if it is a text that was neither written here nor returned before."""
        text = self._text()
        if text is None or text == self._known:
            return None
        self._known = text
        return text

    def write(self, text: str) -> None:
        """Writes the file anew. Raises Misuse if someone else has put a pipe there, which nobody
        may read, or a link to an input."""
        check_no_pipe_is_written(self.path)
        check_inputs_stay(self._inputs, self.path, "the roster")
        write_text(self.path, text)
        self._known = text

    def has(self, text: str) -> bool:
        """Whether the file has this text, as far as one can look."""
        return not self._is_looked_at or self._text() == text

    def _text(self) -> Optional[str]:
        try:
            return (
                text_of(self.path) if self._is_looked_at and file_at(self.path).is_file() else None
            )
        except (FileFault, OSError):
            return None
