"""What the answers of solvers claim about a week, and whether that is true."""

import enum
from pathlib import Path
from typing import NamedTuple, Optional, Union

from ..programs.program import BROKEN_RULE, FAULT, NO_ROSTER, WeekFiles, decode
from ..week.faults import ProgramFault

OPTIMUM = "OPTIMUM FOUND"
STOPPED = "SATISFIABLE"
NONE = "UNSATISFIABLE"


class Kind(enum.Enum):
    """Whether a claim is true: proved, refuted by a roster, false by the answer itself, or not
    known. UNREADABLE: the answer is cut, or of another model. SILENT: there is no claim."""

    CONFIRMED = "confirmed"
    REFUTED = "refuted"
    LIE = "lie"
    UNREADABLE = "unreadable"
    OPEN = "open"
    SILENT = "no claim"


# The verdicts that end a referee with a fault.
FALSE = (Kind.REFUTED, Kind.LIE, Kind.UNREADABLE)


class Answered(NamedTuple):
    """An answer as `inrc2pb decode` reads it: its status, the cost of its assignment and that of
    its roster, if it has one, and the last number that it says itself; `fault` says why it was
    refused, and `is_readable` whether it is an answer to the model that breaks it."""

    status: str = ""
    objective: Optional[int] = None
    penalty: Optional[int] = None
    said: Optional[int] = None
    fault: str = ""
    is_readable: bool = True


class Known(NamedTuple):
    """What is known of all rosters of a week: the penalty of the best one, and how to name it; the
    bound that `inrc2pb-bound` has proved, and whether it has proved that no roster exists."""

    penalty: Optional[int] = None
    roster: str = ""
    bound: Optional[int] = None
    none_exists: bool = False


class Verdict(NamedTuple):
    """What a claim is, and why."""

    kind: Kind
    why: str

    def __str__(self) -> str:
        return f"{self.kind.value}: {self.why}"


def read_answer(files: WeekFiles, answer: Union[str, Path], solution: Path) -> Answered:
    """Lets `inrc2pb decode` read an answer, a text or a file. Its roster, if it has one, is written
    to the file `solution`."""
    try:
        report = decode(files, answer, solution)
    except ProgramFault as fault:
        if fault.status == NO_ROSTER:
            return Answered(fault.message.rpartition(": ")[2])
        if fault.status in (FAULT, BROKEN_RULE):
            why = fault.message.partition(": ")[2] or fault.message
            return Answered(fault=why, is_readable=fault.status == BROKEN_RULE)
        raise
    return Answered(report.status, report.objective, report.penalty, report.last_o)


def judged(answer: Answered, known: Known) -> Verdict:
    """Whether the claim of an answer is true. Its own roster counts too."""
    if answer.fault:
        return Verdict(Kind.LIE if answer.is_readable else Kind.UNREADABLE, answer.fault)
    if answer.said is not None and answer.said != answer.objective:
        return Verdict(
            Kind.LIE,
            f"it says that its answer costs {answer.said}, but it costs {answer.objective}",
        )
    if answer.status == NONE:
        return _judged_none(known)
    if answer.objective is None or answer.penalty is None:
        return Verdict(Kind.SILENT, answer.status)
    return (
        _judged_best(answer.objective, answer.penalty, known)
        if answer.status == OPTIMUM
        else _judged_stopped(answer, known)
    )


def _judged_none(known: Known) -> Verdict:
    claim = "it claims that no roster exists"
    if known.penalty is not None:
        return Verdict(Kind.REFUTED, f"{claim}, and {known.roster} costs {known.penalty}")
    if known.none_exists:
        return Verdict(Kind.CONFIRMED, "no roster exists")
    return Verdict(Kind.OPEN, f"{claim}, which is not proved")


def _judged_best(objective: int, penalty: int, known: Known) -> Verdict:
    claim = f"it claims that no roster costs less than {objective}"
    if known.penalty is not None and known.penalty < objective and known.penalty <= penalty:
        return Verdict(Kind.REFUTED, f"{claim}, and {known.roster} costs {known.penalty}")
    if penalty < objective:
        return Verdict(Kind.REFUTED, f"{claim}, and its own costs {penalty}")
    if known.bound is None:
        return Verdict(Kind.OPEN, f"{claim}, and no lower bound is known")
    if known.bound >= objective:
        return Verdict(Kind.CONFIRMED, f"no roster costs less than {objective}")
    return Verdict(
        Kind.OPEN, f"gap {objective - known.bound}: {claim}, and the lower bound is {known.bound}"
    )


def _judged_stopped(answer: Answered, known: Known) -> Verdict:
    slacks = f", its assignment {answer.objective}" if answer.objective != answer.penalty else ""
    costs = f"its roster costs {answer.penalty}{slacks}"
    if known.bound is None or answer.penalty is None:
        return Verdict(Kind.OPEN, f"{costs}, and no lower bound is known")
    return Verdict(
        Kind.OPEN,
        f"gap {answer.penalty - known.bound}: {costs}, and the lower bound is {known.bound}",
    )
