"""Copies of the files that a search reads: whoever goes on with such a file during the search
changes nothing of it."""

import contextlib
import shutil
import tempfile
import weakref
from pathlib import Path
from typing import Iterator, TypeVar

from ..week.faults import FileFault, Misuse, ProgramFault
from ..week.slots import MAX_FILE_LEN

Given = TypeVar("Given", Path, Path | None)


class Inputs:
    """Copies of files in a folder of their own, which is removed with this. Messages about a copy
    get the path of its file."""

    def __init__(self) -> None:
        self._folder = Path(tempfile.mkdtemp(prefix="inrc2pb-inputs-"))
        self._copies: dict[Path, Path] = {}
        weakref.finalize(self, shutil.rmtree, str(self._folder), ignore_errors=True)

    def copy(self, path: Given) -> Given:
        """The copy of a file, with what it has when this is first called; none of none. A file that
        no reader takes since it is too long is cut after the first byte that is too many, so that
        they still refuse it."""
        if path is None:
            return path
        if path not in self._copies:
            data = _bytes_of(path)
            target = self._folder / f"{len(self._copies)}.txt"
            target.write_bytes(data)
            self._copies[path] = target
        return self._copies[path]

    def named(self, text: str) -> str:
        """The text with the paths of the files in place of those of their copies."""
        for path, copy in self._copies.items():
            text = text.replace(str(copy), str(path))
        return text

    @contextlib.contextmanager
    def naming(self) -> Iterator[None]:
        """Within the block faults name the files, and not their copies."""
        try:
            yield
        except (FileFault, Misuse, ProgramFault) as fault:
            self.name(fault)
            raise

    def name(self, fault: BaseException) -> None:
        """Lets a fault name the files, and not their copies."""

        def renamed(value: object) -> object:
            return type(value)(self.named(str(value))) if isinstance(value, (str, Path)) else value

        fault.args = tuple(map(renamed, fault.args))
        for attribute, value in vars(fault).items():
            setattr(fault, attribute, renamed(value))

    def changes(self) -> list[str]:
        """A line for each file that has something else now than its copy."""
        return [
            f"{path} was {what} during the search: this is about the old one"
            for path in self._copies
            if (what := self._change(path))
        ]

    def _change(self, path: Path) -> str:
        """What happened to a file, if anything. What is no file any more is not opened: a pipe
        would keep the search waiting."""
        try:
            copied = self._copies[path].read_bytes()
        except OSError:
            return ""
        try:
            if path.is_fifo() or path.is_dir():
                return "changed"
            return "" if _bytes_of(path) == copied else "changed"
        except OSError:
            return "removed"


def _bytes_of(path: Path) -> bytes:
    with open(path, "rb") as file:
        return file.read(MAX_FILE_LEN + 1)
