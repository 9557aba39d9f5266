"""Files of a folder that several people may write: no link in it is followed.

Whoever plans in such a folder, or serves it, would otherwise read and write with his own rights
whatever another one's link leads to.
"""

import errno
import os
import stat
from pathlib import Path

from .faults import FileFault, Misuse


def is_own_file(path: Path) -> bool:
    """Whether the path is a file of its folder, and no link."""
    return path.is_file() and not path.is_symlink()


def own_bytes(top: Path, name: str) -> bytes:
    """The bytes of a file below a folder, such as `calendars/Chen.ics`. Raises OSError if a part of
    this name is a link, or no file."""
    *folders, last = name.split("/")
    inside = os.open(top, os.O_RDONLY | os.O_DIRECTORY)
    try:
        for folder in folders:
            inner = os.open(folder, os.O_RDONLY | os.O_DIRECTORY | os.O_NOFOLLOW, dir_fd=inside)
            os.close(inside)
            inside = inner
        # A pipe is opened without a wait for its writer.
        with open(
            os.open(last, os.O_RDONLY | os.O_NOFOLLOW | os.O_NONBLOCK, dir_fd=inside), "rb"
        ) as file:
            if not stat.S_ISREG(os.fstat(file.fileno()).st_mode):
                raise FileNotFoundError(errno.ENOENT, "it is no file", name)
            return file.read()
    finally:
        os.close(inside)


def without_link(path: Path) -> None:
    """Takes a link away, so that what is written there does not change what the link leads to."""
    if path.is_symlink():
        path.unlink()


def check_inside(path: Path, top: Path) -> None:
    """Raises Misuse if the path is a link that leads out of a folder."""
    if not Path(os.path.realpath(path)).is_relative_to(os.path.realpath(top)):
        raise Misuse(f"{path} is a link that leads out of the folder: put the file itself there")


def check_no_link(path: Path) -> None:
    """Raises Misuse if the path is a link."""
    if path.is_symlink():
        raise Misuse(
            f"{path} is a link, and no link is followed here: put what it leads to in its place, or"
            " delete it"
        )


def check_own(folder: Path) -> None:
    """Raises FileFault if the folder is a link, or has one, or what is neither file nor folder,
    such as a pipe."""
    with os.scandir(folder) as inside:
        entries: list["Path | os.DirEntry[str]"] = sorted(inside, key=lambda one: one.name)
    for entry in [folder, *entries]:
        if entry.is_symlink():
            raise FileFault(
                Path(entry),
                0,
                (
                    "this is a link, and no link is followed here: delete it, or type undo to go"
                    " back to the plan before it"
                ),
            )
        if not entry.is_file() and not entry.is_dir():
            raise FileFault(
                Path(entry),
                0,
                "this is no file: delete it, or type undo to go back to the plan before it",
            )
