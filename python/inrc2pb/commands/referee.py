"""The verb `referee` of `inrc2pb-roster`: whether what solvers claim about a week is true."""

import argparse
import sys
import tempfile
from pathlib import Path
from typing import NamedTuple, Sequence

from ..programs.clock import Clock
from ..programs.inputs import Inputs
from ..programs.interrupts import Interrupts, interrupts
from ..programs.locks import locked
from ..programs.program import FAULT, WeekFiles
from ..programs.progress import Progress
from ..search.bounds import PROVER
from ..search.claims import FALSE, Answered, Kind, Verdict, judged, read_answer
from ..search.referee import SECONDS, Referee
from ..week.writing import (
    check_inputs_stay,
    check_no_devices,
    check_no_pipe_is_written,
    check_no_pipes,
    check_target,
)
from .arguments import Parser, parser
from .week_options import add_weeks_options, check_seconds, number_of_seconds, the_week


def options() -> Parser:
    """The parser of the verb."""
    referee = parser(
        (
            "Says of each answer of a solver whether what it claims is true:\n  confirmed  it"
            " claims the best roster, and inrc2pb-bound proves that none costs less; or none, and"
            " none exists\n  refuted    it claims the best roster, and one costs less; or none, and"
            " one exists\n  lie        it breaks the model, or its roster does not cost what it"
            " says\n  unreadable it is cut, or of another model\n  open       neither is known; the"
            " gap is the distance to the proved bound\n  no claim   it has no roster"
        ),
        (
            "Without --proof it looks for a bound, and for a roster that refutes a claim.\n"
            "Ends with status 1 if a claim is refuted or a lie, or an answer unreadable.\n"
            "Example: inrc2pb-roster referee $WEEK --answer clasp.txt minisat.txt --out best.txt"
        ),
        "referee",
    )
    add_weeks_options(referee)
    asks = "the answers of solvers to the week's model"
    referee.add_files("--answer", asks, required=True)
    referee.add_files("--roster", "rosters of the week that are known, as solution files")
    referee.add_file("--proof", "the certificate of a bound, in place of a search")
    referee.add_file("--out", "the file for the best roster, which shows why a claim is refuted")
    limit = f"the most seconds of the search (default: {SECONDS:.0f})"
    referee.add_argument(
        "--time", metavar="SECONDS", type=number_of_seconds, default=SECONDS, help=limit
    )
    return referee


def _read(given: argparse.Namespace, files: WeekFiles) -> list[Path]:
    """The files that are read."""
    proof = [given.proof] if given.proof else []
    return [*files.all(), *given.answer, *given.roster, *proof]


def _check_options(given: argparse.Namespace, read: Sequence[Path]) -> None:
    """Raises the fault of an option."""
    check_seconds(given.time, "--time")
    check_no_pipes(read)
    check_no_devices(given.answer)
    if given.out:
        check_no_pipe_is_written(given.out)
        check_target(given.out.absolute())
        check_inputs_stay(read, given.out, "the best roster")


def main(given: argparse.Namespace) -> int:
    """Judges the answers; the exit status."""
    files = the_week(given)
    inputs = Inputs()
    read = _read(given, files)
    _check_options(given, read)
    progress = Progress(sys.stderr, inputs.named)
    # A signal ends the command, also while it reads an answer, which may be long; but a search only
    # ends earlier.
    with locked([given.out] if given.out else [], False, progress.warn), inputs.naming():
        with tempfile.TemporaryDirectory(prefix="inrc2pb-referee-") as folder:
            copies = files.copied(inputs.copy)
            found = _judge(given, copies, inputs.copy(given.proof), progress, Path(folder), read)
    for answer, verdict in zip(given.answer, found.verdicts):
        print(f"{answer}: {verdict}")
    for line in inputs.changes():
        print(line)
    sys.stdout.flush()
    found.signals.check()
    return FAULT if any(verdict.kind in FALSE for verdict in found.verdicts) else 0


class _Judged(NamedTuple):
    verdicts: list[Verdict]
    # Those that came during the search.
    signals: Interrupts


def _judge(
    given: argparse.Namespace,
    files: WeekFiles,
    proof: Path | None,
    progress: Progress,
    folder: Path,
    read: Sequence[Path],
) -> _Judged:
    """Judges the answers, with files in this folder; none of those that are read is replaced."""
    signals = Interrupts()
    target = (given.out or folder / "best.txt").absolute()
    referee = Referee(files, target, progress, read)
    for hint in referee.hints:
        progress.warn(hint)
    if given.out:
        referee.best.resume()
    for roster in given.roster:
        referee.tell(roster, str(roster))
    answers: list[Answered] = []
    for path in given.answer:
        answers.append(read_answer(files, path, folder / "answered.txt"))
        if answers[-1].penalty is not None:
            referee.tell(folder / "answered.txt", f"the roster of {path}")
    if proof:
        referee.read(proof)
    elif any(judged(answer, referee.known).kind is Kind.OPEN for answer in answers):
        with interrupts() as signals, signals.calling(referee.interrupt):
            referee.search(Clock(given.time))
    referee.best.look_again()
    known = referee.known._replace(roster=str(given.out)) if given.out else referee.known
    bound = "no lower bound" if known.bound is None else f"lower bound {known.bound} ({PROVER})"
    best = "no roster" if known.penalty is None else f"best roster {known.penalty} ({known.roster})"
    print(f"no roster exists ({PROVER})" if known.none_exists else f"{bound}, {best}")
    return _Judged([judged(answer, known) for answer in answers], signals)
