"""The program `inrc2pb` as functions: `encode`, `decode` and `extend` run it and return values."""

import functools
import os
import re
import shutil
import signal
import subprocess
import sys
from dataclasses import dataclass, replace
from pathlib import Path
from typing import Callable, Sequence

from ..week.faults import ProgramFault
from ..week.soft_rules import SOFT_RULES
from .processes import Processes, run_to_end

# The exit statuses of `inrc2pb`, which docs/answers.md explains, and the one with which a shell
# reports that there is no program.
FAULT = 1
READ_OR_WRITE = 3
OUT_OF_MEMORY = 4
NO_ROSTER = 5
BROKEN_RULE = 6
NO_PROGRAM = 127
# A run takes less, also of the largest week; one that waits for a pipe that nobody writes would not
# end.
LONGEST_RUN = 600.0
_READ_OPTIONS = ("--sce", "--his", "--week", "--fix", "--from", "--answer")


class NotInTime(ProgramFault):
    """A program that did not end in its time."""


@dataclass(frozen=True)
class WeekFiles:
    """The files of a week, and the options that each command needs alike. `given` has the facts
    that the search keeps."""

    scenario: Path
    history: Path
    week: Path
    fix: Path | None = None
    early: bool = False
    given: Path | None = None

    def options(self) -> list[str]:
        """The files as options of `inrc2pb`."""
        words = ["--sce", str(self.scenario), "--his", str(self.history), "--week", str(self.week)]
        return (
            words
            + (["--fix", str(self.fix)] if self.fix else [])
            + (["--early"] if self.early else [])
        )

    def all(self) -> tuple[Path, ...]:
        """All files that are read."""
        return (self.scenario, self.history, self.week, *filter(None, (self.fix, self.given)))

    def copied(self, copy: Callable[[Path], Path]) -> "WeekFiles":
        """The same week with copies of its files."""
        fix, given = (copy(path) if path else None for path in (self.fix, self.given))
        return replace(
            self,
            scenario=copy(self.scenario),
            history=copy(self.history),
            week=copy(self.week),
            fix=fix,
            given=given,
        )


@dataclass(frozen=True)
class Report:
    """The report of `decode`: `by_rule` has the cost of each soft rule, `text` is the report as it
    was printed."""

    status: str
    objective: int
    penalty: int
    by_rule: dict[str, int]
    text: str

    @property
    def optimal(self) -> bool:
        """Whether the answer claims that no roster costs less."""
        return self.status == "OPTIMUM FOUND"

    @property
    def last_o(self) -> int | None:
        """The last number that the answer itself gave as its cost, if it gave one."""
        match = re.search(r"^last o (.*)$", self.text, re.MULTILINE)
        return int(match[1]) if match else None


def find_program() -> Path:
    """`$INRC2PB`; else `inrc2pb` next to the running command, in `out` of its clone, or in PATH.
    Raises ProgramFault if there is none."""
    named = os.environ.get("INRC2PB")
    if named:
        program = shutil.which(named)
        if not program:
            raise ProgramFault(
                NO_PROGRAM, f"there is no program {named}: correct or unset the variable INRC2PB"
            )
        if not _is_inrc2pb(program):
            raise ProgramFault(
                NO_PROGRAM,
                f"INRC2PB names {named}, which is not inrc2pb: correct or unset the variable",
            )
        return Path(program).absolute()
    command = Path(sys.argv[0] or ".")
    in_path = shutil.which("inrc2pb")
    beside = [
        command.parent / "inrc2pb",
        command.resolve().parent / "inrc2pb",
        Path(__file__).resolve().parents[3] / "out" / "inrc2pb",
    ]
    for place in [*beside, *([Path(in_path)] if in_path else [])]:
        if place.is_file() and os.access(place, os.X_OK):
            return place.absolute()
    raise ProgramFault(
        NO_PROGRAM,
        (
            "there is no inrc2pb: run `make` in its folder, install it, or name it in the variable"
            " INRC2PB"
        ),
    )


@functools.lru_cache(maxsize=None)
def _is_inrc2pb(program: str) -> bool:
    """Whether the program prints the version of `inrc2pb`. One that does not run, or that a signal
    ends, is judged when it is used."""
    try:
        ran = run_to_end([program, "--version"], b"", LONGEST_RUN)
    except (OSError, subprocess.TimeoutExpired):
        return True
    return ran.returncode < 0 or ran.stdout.startswith(b"inrc2pb ")


def run_program(*words: str, given: str = "", program: Path | None = None) -> str:
    """Runs `inrc2pb`, or another program, on these words and this standard input, and returns its
    standard output. Another program has no limit of time, since a proof may take long."""
    name = str(program or find_program())
    data = given.encode("utf-8", errors="surrogateescape")
    try:
        ran = run_to_end([name, *words], data, None if program else LONGEST_RUN)
    except subprocess.TimeoutExpired as fault:
        raise _does_not_end(words) from fault
    except OSError as fault:
        raise _does_not_run(name, fault) from fault
    _check_status(ran.returncode, ran.stderr.decode("utf-8", errors="replace"), words)
    return ran.stdout.decode("utf-8", errors="surrogateescape")


def _does_not_end(words: Sequence[str]) -> ProgramFault:
    files = [path for option, path in zip(words, words[1:]) if option in _READ_OPTIONS]
    advice = (
        "a pipe can be read only once, so give files"
        if any(Path(path).is_fifo() for path in files)
        else "the machine is slow, or a file has no end"
    )
    return ProgramFault(
        READ_OR_WRITE, f"inrc2pb {words[0]} did not end in {LONGEST_RUN:.0f} s: {advice}"
    )


def _does_not_run(program: str, fault: OSError) -> ProgramFault:
    return ProgramFault(NO_PROGRAM, f"{program} does not run: {fault.strerror}")


def _check_status(status: int, errors: str, words: Sequence[str]) -> None:
    """Raises ProgramFault if the status is not 0, with the first line of standard error, and the
    file that cannot be read."""
    lines = errors.strip().splitlines()
    if status == READ_OR_WRITE and lines and lines[0].endswith(": read failed"):
        _check_readable(lines[0], words)
    if status < 0:
        raise ProgramFault(status, f"inrc2pb: ended by {_signal_name(-status)}")
    if status:
        raise ProgramFault(status, lines[0] if lines else f"inrc2pb: ended with status {status}")


def _check_readable(line: str, words: Sequence[str]) -> None:
    """Raises ProgramFault with this line if a file of these words cannot be read, caused by its
    OSError."""
    for option, path in zip(words, words[1:]):
        if option in _READ_OPTIONS:
            try:
                open(path, "rb", opener=_without_waiting).close()
            except OSError as fault:
                raise ProgramFault(READ_OR_WRITE, f"{line}: {path}: {fault.strerror}") from fault


def _without_waiting(path: str, flags: int) -> int:
    """Opens a file; a pipe that nobody writes does not keep it waiting."""
    return os.open(path, flags | os.O_NONBLOCK)


def _signal_name(number: int) -> str:
    """The signal's name; most real-time signals have none."""
    try:
        return signal.Signals(number).name
    except ValueError:
        return f"signal {number}"


def _encode_words(files: WeekFiles, model: Path) -> list[str]:
    return ["encode", *files.options(), "--opb", str(model)]


def encode(files: WeekFiles, model: Path) -> None:
    """Writes the model of the week to the file `model`."""
    run_program(*_encode_words(files, model))


def run_unless_stopped(
    program: Path, words: Sequence[str], seconds: float, processes: Processes
) -> str | None:
    """Runs a program as one of the `processes`, and returns its standard output; None if they are
    stopped before its end."""
    try:
        ended = processes.run([str(program), *words], seconds, Path.cwd(), signal.SIGKILL)
    except OSError as fault:
        raise _does_not_run(str(program), fault) from fault
    if processes.stopped:
        return None
    if ended.timed_out:
        raise NotInTime(READ_OR_WRITE, f"{program.name} did not end in {seconds:.0f} s")
    _check_status(ended.status, ended.errors, words)
    return ended.output


def encode_unless_stopped(files: WeekFiles, model: Path, processes: Processes) -> bool:
    """As `encode`, in one of the `processes`. Returns whether the model is whole: it is not if they
    are stopped before."""
    words = _encode_words(files, model)
    try:
        return run_unless_stopped(find_program(), words, LONGEST_RUN, processes) is not None
    except NotInTime as late:
        raise _does_not_end(words) from late


def decode(files: WeekFiles, answer: str | Path, solution: Path | None = None) -> Report:
    """Checks a solver's answer, a text or a file, writes its roster to the file `solution`, and
    returns the report.

    Raises ProgramFault if an answer is no roster of this week, and leaves `solution` as it was.
    """
    words = ["decode", *files.options(), "--sol", str(solution or os.devnull)]
    if isinstance(answer, Path):
        return report_of(run_program(*words, "--answer", str(answer)))
    return report_of(run_program(*words, given=answer))


def answer_with(files: WeekFiles, roster: Path) -> str:
    """The answer whose roster this is, by `extend`. Raises ProgramFault if it breaks a hard
    rule."""
    return run_program("extend", *files.options(), "--from", str(roster))


def extend(files: WeekFiles, roster: Path) -> tuple[str, Report]:
    """The answer whose roster this is, and its report. Raises ProgramFault if it breaks a hard
    rule."""
    answer = answer_with(files, roster)
    return answer, decode(files, answer)


def objective_of(answer: str) -> int:
    """What an answer of `extend` costs, by its first line."""
    return int(answer.split("\n", 1)[0].split()[1])


def penalty_of(files: WeekFiles, roster: Path) -> int:
    """The penalty of a roster, by `extend`."""
    return objective_of(answer_with(files, roster))


def report_of(text: str) -> Report:
    """The report of this text."""
    values = dict(line.split(" ", 1) for line in text.splitlines())
    by_rule = {rule: int(values[rule]) for rule in SOFT_RULES}
    return Report(values["status"], int(values["objective"]), int(values["penalty"]), by_rule, text)
