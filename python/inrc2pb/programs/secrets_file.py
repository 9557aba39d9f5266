"""The secret of an address, kept in a file that only its user may read, so that a bookmark lives
longer than one run."""

import os
import re
import secrets
import stat
from pathlib import Path

from ..week.faults import Misuse

_SECRET = re.compile("[A-Za-z0-9_-]{16,200}")
_MOST_BYTES = 1000


def new_secret() -> str:
    """A secret that nobody guesses: 128 random bits."""
    return secrets.token_urlsafe(16)


def kept_secret(path: Path) -> str:
    """The secret that a file keeps; a new one is written if there is no file. Raises Misuse if
    others may read or have written it."""
    try:
        handle = os.open(path, os.O_WRONLY | os.O_CREAT | os.O_EXCL, 0o600)
    except FileExistsError:
        return _read(path)
    secret = new_secret()
    with open(handle, "w", encoding="ascii") as file:
        file.write(f"{secret}\n")
    return secret


def _read(path: Path) -> str:
    if path.is_symlink():
        raise Misuse(f"--secret {path}: this is a link: name the file itself")
    with open(os.open(path, os.O_RDONLY | os.O_NOFOLLOW | os.O_NONBLOCK), "rb") as file:
        status = os.fstat(file.fileno())
        if not stat.S_ISREG(status.st_mode):
            raise Misuse(f"--secret {path}: this is no file: name another one")
        if status.st_uid != os.geteuid():
            raise Misuse(f"--secret {path}: this file is another user's: name one of your own")
        if status.st_mode & 0o077:
            raise Misuse(
                f"--secret {path}: others may read this file: type chmod 600, or delete it, and a"
                " new secret is written"
            )
        text = file.read(_MOST_BYTES).decode("ascii", errors="replace").strip()
    if not _SECRET.fullmatch(text):
        raise Misuse(
            f"--secret {path}: this file has no secret, which is one word of 16 letters or more:"
            " delete it, and one is written"
        )
    return text
