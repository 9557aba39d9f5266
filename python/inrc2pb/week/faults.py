"""The faults that a command reports, each in one line, and the advice that the line ends with."""

import contextlib
import errno
import re
from pathlib import Path
from typing import Callable, Iterator, Sequence, TypeVar

# Signs that a terminal obeys, such as the first one of a color, those that turn the direction of a
# text, and bytes of such signs.
_CONTROL = re.compile(
    "[\x00-\x08\x0b\x0c\x0e-\x1f\x7f-\x9f\u202a-\u202e\u2066-\u2069\udc80-\udc9f]"
)
# Advice after a fault of the operating system, by its number.
_ADVICE = {
    "ENOENT": "look at its name and folder",
    "EACCES": (
        "you may not read or write it: look at its permissions and those of its folder, or choose"
        " another folder"
    ),
    "EPERM": (
        "you may not read or write it: look at its permissions and those of its folder, or choose"
        " another folder"
    ),
    "EROFS": "choose another folder",
    "EISDIR": "this is a folder: name a file in it",
    "ENOTDIR": "a part of its path is no folder",
    "ENOSPC": (
        "the disk is full: free some space, or choose another folder (TMPDIR has the temporary"
        " files)"
    ),
    "EDQUOT": "your quota is used up: free some space, or choose another folder",
    "EFBIG": "raise your limit for the size of a file (ulimit -f), or choose another folder",
    "EIO": "the disk or its connection fails: look after it, or choose another folder",
    "EEXIST": "choose another name, or remove this file",
    "ENAMETOOLONG": "give a shorter name",
    "ELOOP": "its links lead in a circle: correct them",
    "ENOEXEC": "it is no program of this machine; a script needs a first line such as #!/bin/sh",
    "EMFILE": "raise your limit for open files (ulimit -n)",
    "EAGAIN": "end other programs",
    "ENOMEM": "end other programs",
}


class Misuse(Exception):
    """Something that the user has to change, in one line."""


class FileFault(Exception):
    """A file that is not as docs/formats.md says: its path, the line (0 is the whole file), and
    what to change.

    `fault` is the text with which `inrc2pb` reports the same fault, such as `unknown name`.
    """

    def __init__(self, path: str | Path, line: int, message: str, fault: str = "") -> None:
        super().__init__(path, line, message, fault)
        self.path = Path(path)
        self.line = line
        self.message = message
        self.fault = fault

    def __str__(self) -> str:
        where = f"{self.path} line {self.line}" if self.line else f"{self.path}"
        return f"{where}: {self.message}"


class FileFaults(Exception):
    """Several faults of a file, which are reported together."""

    def __init__(self, faults: Sequence[FileFault]) -> None:
        super().__init__(faults)
        self.faults = faults


_Value = TypeVar("_Value")


class Gathering:
    """A block at whose end the faults of its steps are raised together."""

    def __init__(self) -> None:
        self._found: list[FileFault] = []

    def __enter__(self) -> "Gathering":
        return self

    @contextlib.contextmanager
    def step(self) -> Iterator[None]:
        """A fault within this step, or several, are kept for the end of the block."""
        try:
            yield
        except FileFault as fault:
            self._found.append(fault)
        except FileFaults as several:
            self._found += several.faults

    def tried(self, make: Callable[[], _Value], otherwise: _Value) -> _Value:
        """What is made; if that has a fault, which is kept, the other value, so that what comes
        after it is looked at too."""
        with self.step():
            return make()
        return otherwise

    @property
    def number(self) -> int:
        """How many faults were found until now."""
        return len(self._found)

    def end(self) -> None:
        """Raises the faults that were found until now, if there are some."""
        if self._found:
            raise FileFaults(self._found) if len(self._found) > 1 else self._found[0]

    def __exit__(self, kind: type[BaseException] | None, *_: object) -> None:
        if kind is None:
            self.end()


class ProgramFault(Exception):
    """A run of `inrc2pb` that failed: its exit status, and the fault line that it printed."""

    def __init__(self, status: int, message: str) -> None:
        super().__init__(status, message)
        self.status = status
        self.message = message

    def __str__(self) -> str:
        return self.message


class Stopped(ProgramFault):
    """A search that the user stopped before it had found a roster."""


class NoneExists(ProgramFault):
    """That no roster keeps the hard rules, as a proof or a solver says."""


def page(name: str) -> str:
    """The path of a page: in a clone, or in an installation."""
    home = Path(__file__).resolve().parents[3]
    places = [folder / name for folder in (home / "docs", home / "doc/inrc2pb/docs")]
    return next((str(place) for place in places if place.is_file()), f"docs/{name}")


# Advice after a fault of `inrc2pb`, by a part of its line.
_PROGRAM_ADVICE = (
    (
        "write failed",
        (
            "look at the folder's name and permissions and at the free space (TMPDIR has the"
            " temporary files)"
        ),
    ),
    ("read failed", "look at the file's name, folder and permissions"),
    ("out of memory", "end other programs"),
    (
        "UNSATISFIABLE",
        (
            f"the minimum numbers cannot all be met; {page('commands.md')} shows how to find"
            " out why"
        ),
    ),
    ("UNKNOWN", "give the solver more time"),
    ("answer: ", "look at what the solver prints, or use another solver"),
    ("roster breaks", "correct its file, or leave it out"),
    ("is not satisfied", "the solver's answer does not fit this week: use another solver"),
    (" line ", "inrc2pb-roster check names the word and how to correct it"),
)


def fault_line(fault: BaseException) -> str:
    """A fault in one line that says what to do."""
    line = str(fault)
    advice = ""
    if isinstance(fault, OSError):
        named = f"{fault.filename}: " if fault.filename is not None else ""
        line = f"{named}{fault.strerror or fault}"
        advice = _os_advice(fault)
    elif isinstance(fault, ProgramFault):
        of_line = next((advice for part, advice in _PROGRAM_ADVICE if part in fault.message), "")
        advice = _os_advice(fault.__cause__) if isinstance(fault.__cause__, OSError) else of_line
    return printable(
        (f"{line}: {advice}" if advice and not line.endswith("?") else line).replace("\n", " ")
    )


def printable(text: str) -> str:
    """The text with the codes of the signs that no terminal shows, and of the bytes that are no
    UTF-8."""
    return "".join(char if char.isprintable() else _code(ord(char)) for char in text)


def obeyed(text: str) -> bool:
    """Whether a terminal would obey one of the signs of the text."""
    return _CONTROL.search(text) is not None


def not_obeyed(text: str) -> str:
    """The text with the codes of the signs that a terminal would obey, but for those that end a
    line."""
    return _CONTROL.sub(lambda sign: printable(sign[0]), text)


def _code(number: int) -> str:
    # `text_of` reads the byte 80 (hexadecimal) as dc80.
    number -= 0xDC00 * (0xDC80 <= number <= 0xDCFF)
    return f"\\x{number:02x}" if number < 256 else f"\\u{number:04x}"


def _os_advice(fault: OSError) -> str:
    return _ADVICE.get(errno.errorcode.get(fault.errno or 0, ""), "")
