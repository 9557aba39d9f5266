"""Writes a text to a file as a whole: after a fault a file that was there has its old text. Checks
of files before the work begins."""

import contextlib
import errno
import os
import stat
import tempfile
from pathlib import Path
from typing import Iterable, Iterator, TextIO

from .faults import Misuse
from .slots import PathLike


def file_at(path: PathLike) -> Path:
    """The file that a path names: the one that a link leads to, but for the links to open files."""
    target = Path(path)
    if target.is_symlink() and target.is_file() and not is_open_file(target):
        return Path(os.path.realpath(target))
    return target


def is_open_file(path: Path) -> bool:
    """Whether the path names a device or an open file, such as /dev/stdout."""
    return path.absolute().parts[1] in ("dev", "proc")


def write_text(path: PathLike, text: str) -> None:
    """Writes a text to a file, with the bytes that its reader found. After a fault a file that was
    there has its old text."""
    target = file_at(path)
    try:
        if target.is_file() and not target.is_symlink() and not _may_be_replaced(target):
            _overwrite(target, text.encode("utf-8", errors="surrogateescape"))
        else:
            with replacing(target) as file:
                file.write(text)
    except OSError as fault:
        fault.filename = str(path)
        raise


@contextlib.contextmanager
def replacing(path: PathLike) -> Iterator[TextIO]:
    """A new file that takes the place of this one at the end of the block; after a fault it is
    removed, and the old one stays.

    Only a device, and a file in a folder that takes no new one, are written at once.
    """
    target = file_at(path)
    if not _may_be_replaced(target):
        with open(target, "w", encoding="utf-8", errors="surrogateescape") as file:
            yield file
        return
    with replacing_link(target, path) as file:
        yield file


def write_own_text(path: Path, text: str) -> None:
    """Writes a text to a file of a folder that others may write too: it takes the place of a
    link."""
    write_own_bytes(path, text.encode("utf-8", errors="surrogateescape"))


def write_own_bytes(path: Path, data: bytes) -> None:
    """The same for bytes."""
    try:
        with replacing_link(path) as file:
            file.buffer.write(data)
    except OSError as fault:
        fault.filename = str(path)
        fault.filename2 = None
        raise


def flush(path: Path) -> None:
    """Returns when the bytes of a file, or the names in a folder, are on the disk: a power cut
    leaves them. Some shares flush no folders."""
    handle = os.open(path, os.O_RDONLY | os.O_NOFOLLOW)
    try:
        os.fsync(handle)
    except OSError as fault:
        if fault.errno not in (errno.EINVAL, errno.ENOTSUP):
            raise
    finally:
        os.close(handle)


@contextlib.contextmanager
def replacing_link(target: Path, path: PathLike | None = None) -> Iterator[TextIO]:
    """A new file that takes the place of this one, or of a link, which is not followed, at the end
    of the block; after a fault it is removed, and the old one stays. A fault names the path, if it
    is given."""
    mode = target.stat().st_mode & 0o777 if target.is_file() and not target.is_symlink() else None
    name = target.with_name(f".{target.name[:50]}.{os.urandom(4).hex()}")
    try:
        try:
            # The system applies the umask: to ask for it, one has to change it for all threads.
            handle = os.open(
                name, os.O_WRONLY | os.O_CREAT | os.O_EXCL, 0o666 if mode is None else 0o600
            )
        except OSError as fault:
            fault.filename = str(path or target)
            raise
        with open(handle, "w", encoding="utf-8", errors="surrogateescape") as file:
            yield file
        if mode is not None:
            os.chmod(name, mode)
        os.replace(name, target)
    except BaseException:
        # A signal may also come just after the file was created. No other file has its random name.
        with contextlib.suppress(OSError):
            name.unlink()
        raise


def _may_be_replaced(target: Path) -> bool:
    """Whether a new file may take the place of this one: it is no device and no link, it may be
    written, and its folder takes a new file.

    To replace a file the system asks for its folder's permission only.
    """
    is_free = not target.exists() or (target.is_file() and os.access(target, os.W_OK))
    return is_free and not target.is_symlink() and os.access(target.parent, os.W_OK)


def _overwrite(target: Path, data: bytes) -> None:
    """Writes over a file in its place. After a fault its old bytes are written back: they need no
    new space."""
    old = target.read_bytes()
    try:
        _write_over(target, data)
    except BaseException:
        _write_over(target, old)
        raise


def _write_over(target: Path, data: bytes) -> None:
    with open(target, "r+b") as file:
        file.write(data)
        file.truncate()


def check_inputs_stay(
    inputs: Iterable[Path | None], target: Path, what: str, choose: str = "file"
) -> None:
    """Raises Misuse if the target would replace a file that the command reads, by its path or by a
    link."""
    for path in inputs:
        if path and path.is_file() and target.is_file() and os.path.samefile(path, target):
            raise Misuse(
                f"{path} is read, so {what} cannot be written to it: choose another {choose}"
            )


def check_no_pipes(inputs: Iterable[Path | None]) -> None:
    """Raises Misuse if one of these files, which are read again and again, is a pipe."""
    for path in inputs:
        if path and _is_pipe(path):
            raise Misuse(f"{path} is a pipe, which can be read only once: give a file")


def check_no_devices(inputs: Iterable[Path]) -> None:
    """Raises Misuse if one of these files, which may be long, is a device: it may have no end."""
    for path in inputs:
        if path.is_char_device() or path.is_block_device():
            raise Misuse(f"{path} is a device, which may have no end: give a file")


def check_no_pipe_is_written(target: Path) -> None:
    """Raises Misuse if this file, which is written again and again, is a pipe."""
    if _is_pipe(target) and not is_open_file(target):
        raise Misuse(f"{target} is a pipe, which can be written only once: name a file")


def _is_pipe(path: Path) -> bool:
    """Whether the path leads to a pipe. If it leads nowhere, whoever opens it reports that."""
    try:
        return stat.S_ISFIFO(os.stat(path).st_mode)
    except OSError:
        return False


def check_target(solution: Path) -> None:
    """Raises Misuse or OSError if the file cannot be written. A device such as /dev/null shows that
    only when it is written."""
    target = file_at(solution)
    if target.is_dir():
        raise IsADirectoryError(errno.EISDIR, os.strerror(errno.EISDIR), str(solution))
    if target.exists() and not target.is_file():
        return
    if target.exists() and not os.access(target, os.W_OK):
        raise PermissionError(errno.EACCES, os.strerror(errno.EACCES), str(solution))
    if target.exists() and _is_standard_output(target):
        raise Misuse(f"{solution} is standard output, where the report goes: name another file")
    try:
        handle, name = tempfile.mkstemp(prefix=f".{target.name}.", dir=target.parent)
    except OSError as fault:
        fault.filename = str(solution)
        raise
    os.close(handle)
    os.unlink(name)


def _is_standard_output(target: Path) -> bool:
    try:
        return os.path.samestat(os.fstat(1), target.stat())
    except OSError:
        return False
