"""A user's own solver: a command that reads the model of a whole week, and has an answer that
`inrc2pb decode` reads."""

import io
import os
import re
import shlex
import shutil
import signal
import time
from dataclasses import dataclass
from pathlib import Path
from typing import List, Optional, Sequence

from ..programs.clock import TimeIsOver
from ..week.faults import Misuse
from .linear_program import convert
from .mip_solution import SolutionFault, check_size, read_answer
from ..programs.processes import MAX_OUTPUT, Ended, Processes
from ..programs.program import WeekFiles, encode_unless_stopped

PACKAGES = {
    "clasp": "clasp",
    "cbc": "coinor-cbc",
    "minisat+": "minisat+",
    "glpsol": "glpk-utils",
    "clp": "coinor-clp",
}
# The commands of solvers that are named without one.
_COMMANDS = {
    "clasp": "clasp --time-limit={seconds} {opb}",
    "cbc": "cbc {lp} sec {seconds} timem elapsed solve solution {sol}",
}
# A status at the beginning of the output, or of a later line.
_STATUS = re.compile(rb"s(?:[ \t\r\n]|$)")
_LATER_STATUS = re.compile(rb"\ns(?:[ \t\r\n]|$)")


@dataclass(frozen=True)
class Outcome:
    """A solver's answer; `fault` says why there is none, if the solver failed."""

    answer: str
    fault: str = ""


NONE_IN_TIME = Outcome("s UNKNOWN\n")


class Solver:
    """A command with places for the model `{opb}` (or `{}`) or `{lp}`, for the result file `{sol}`
    and for the `{seconds}`.

    Without a place for a model its path is the last word. It runs in the user's folder, so that its
    words may name files there.
    """

    def __init__(self, name: str, words: Sequence[str]) -> None:
        self.name = name
        self._words = list(words)
        if not any(place in word for word in words for place in ("{}", "{opb}", "{lp}")):
            self._words.append("{opb}")
        self._home = Path.cwd()

    def _has(self, place: str) -> bool:
        return any(place in word for word in self._words)

    def solve(
        self, files: WeekFiles, seconds: float, folder: Path, processes: Processes
    ) -> Outcome:
        """Solves the week within these seconds, with the model and the result in the folder."""
        limit = time.monotonic() + seconds
        places = {
            "{opb}": folder / "week.opb",
            "{lp}": folder / "week.lp",
            "{sol}": folder / "week.sol",
        }
        if not encode_unless_stopped(files, places["{opb}"], processes):
            return NONE_IN_TIME

        def check() -> None:
            if processes.stopped or time.monotonic() >= limit:
                raise TimeIsOver

        try:
            if self._has("{lp}"):
                convert(places["{opb}"], places["{lp}"], check)
            check()
        except TimeIsOver:
            return NONE_IN_TIME
        left = limit - time.monotonic()
        texts = {
            **{place: str(path) for place, path in places.items()},
            "{}": str(places["{opb}"]),
            "{seconds}": str(max(1, int(left))),
        }
        words = [
            re.sub(r"\{[a-z]*\}", lambda found: texts.get(str(found[0]), str(found[0])), word)
            for word in self._words
        ]
        ended = processes.run(
            words, left, self._home, signal.SIGINT if self._has("{sol}") else signal.SIGTERM
        )
        return self._outcome(ended, places["{sol}"] if self._has("{sol}") else None)

    def _outcome(self, ended: Ended, result: Optional[Path]) -> Outcome:
        if result is not None and result.exists():
            return answer_of(result)
        if result is None and _has_status(ended.data):
            return Outcome(ended.output)
        if ended.flooded:
            return Outcome(
                "", f"it printed more than {MAX_OUTPUT >> 20} MiB, too much for an answer"
            )
        if ended.timed_out:
            return NONE_IN_TIME
        return Outcome(
            "",
            (
                f"it {'printed no answer' if result is None else 'wrote no result file'} and"
                f" {_ending(ended)}"
            ),
        )


def _has_status(printed: bytes) -> bool:
    """Whether one of the lines is a status. Nothing else is done with output that has none: it may
    be hundreds of megabytes."""
    return bool(_STATUS.match(printed[:2]) or _LATER_STATUS.search(printed))


def answer_of(solution: Path) -> Outcome:
    """The answer in a result file."""
    text = io.StringIO()
    try:
        check_size(solution)
        with open(solution, encoding="utf-8", errors="replace") as file:
            read_answer(file).write(text)
    except SolutionFault as fault:
        return Outcome("", f"its result file has a fault: {fault}")
    return Outcome(text.getvalue())


def _ending(ended: Ended) -> str:
    """How the process ended, with the last line of its standard error."""
    said = f": {ended.last_error}" if ended.last_error else ""
    if ended.status >= 0:
        return f"ended with status {ended.status}{said}"
    try:
        return f"was ended by {signal.Signals(-ended.status).name}{said}"
    except ValueError:
        return f"was ended by signal {-ended.status}{said}"


def find_solver(text: str) -> Solver:
    """The solver of this command, or of the name clasp or cbc. Raises Misuse if it cannot be
    run."""
    try:
        words: List[str] = shlex.split(text)
    except ValueError as fault:
        raise Misuse(f"--solver {text}: {fault}: correct its quotes") from fault
    if not words:
        raise Misuse("a solver has no name: give clasp, cbc or a command")
    if not shutil.which(words[0]) and words[0].lower() in PACKAGES and words[0] != words[0].lower():
        raise Misuse(f"there is no solver {words[0]}: did you mean {words[0].lower()}?")
    if not shutil.which(words[0]):
        raise Misuse(f"{_why_not_run(words[0])}, or choose another with --solver")
    return Solver(words[0].rsplit("/", 1)[-1], shlex.split(_COMMANDS.get(text, text)))


def _why_not_run(name: str) -> str:
    """Why the solver with this name or path does not run, and what to do."""
    if Path(name).is_file() and not os.access(name, os.X_OK):
        return f"the solver {name} is not executable: type chmod +x {shlex.quote(name)}"
    if Path(name).is_file() and "/" not in name:
        return f"there is no solver {name} in PATH: name the one in this folder ./{name}"
    package = PACKAGES.get(name)
    advice = (
        f"install it (Debian: apt-get install {package})" if package else "correct its name or path"
    )
    return f"there is no solver {name}: {advice}"
