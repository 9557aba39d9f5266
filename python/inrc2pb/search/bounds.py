"""Lower bounds from certificates: `inrc2pb-bound` proves them. Without it they are computed in
plain Python."""

import os
import re
import tempfile
from dataclasses import dataclass, replace
from pathlib import Path
from typing import Callable, Optional, Sequence

from ..judging.days_away import DaysAway
from ..programs.clock import Clock, TimeIsOver
from ..programs.processes import Processes
from ..programs.program import NotInTime, find_program, run_unless_stopped
from ..programs.progress import gap_share
from ..rows.case_pricing import CasePricing
from ..rows.certificate import Certificate
from ..rows.plan import FREE, STRICT, Extra, Keeping, Plan, Points
from ..rows.pricing import Crews
from ..rows.row_run import RowRun
from ..week.facts import Claim, facts_text
from ..week.faults import ProgramFault
from ..week.writing import write_text

PROVER = "inrc2pb-bound"
PLAIN = "plain Python, not proved"
# The option of a certificate.
PROOF = "--proof"
# Seconds for a proof, and for one after the user has stopped the search.
PROOF_SECONDS = 60.0
STOPPED_SECONDS = 0.75
EXISTS_NONE = "no roster exists"


def find_prover() -> Optional[Path]:
    """The program beside `inrc2pb`, if it is there."""
    prover = find_program().with_name(PROVER)
    return prover if prover.is_file() and os.access(prover, os.X_OK) else None


@dataclass(frozen=True)
class Bound:
    """A lower bound, and what proved it or computed it. It may hold only for rosters that keep all
    absences and limits, or all absences."""

    points: int
    by: str
    only: str = ""

    def lines(self, penalty: int, what: str, counted: str = "") -> list[str]:
        """The bound, and what it says of a roster or plan with this penalty; `counted` names what
        the points are."""
        only = f" with all {self.only}" if self.only else ""
        bound = f"lower bound {self.points}{counted}{only} ({self.by})"
        if penalty > self.points:
            gap = penalty - self.points
            return [f"{bound}: the gap is {gap}, {gap_share(penalty, self.points)}"]
        keeping = f" that keeps all {self.only}" if self.only else ""
        return [bound, f"no {what}{keeping} costs less"]

    def is_believed(self, penalty: Optional[int]) -> bool:
        """Whether no roster that it holds for, with this penalty, refutes it."""
        return penalty is None or self.points <= penalty


class Prover:
    """The program that proves bounds. It has no answer if it is not there, and none after a fault,
    which `warn` gets."""

    def __init__(self, warn: Callable[[str], None]) -> None:
        self._warn = warn
        self._processes = Processes()
        self._program = find_prover()

    def answer(
        self,
        options: Sequence[str],
        name: str,
        certificate: Certificate,
        given: Sequence[Claim],
        seconds: float,
    ) -> Optional[str]:
        """What the program prints about the weeks of these options, by a certificate, for the plans
        that keep the facts."""
        if self._program is None:
            return None
        try:
            with tempfile.TemporaryDirectory(prefix=f"{PROVER}-") as folder:
                proof = Path(folder, "certificate.txt")
                facts = Path(folder, "given.txt")
                write_text(proof, certificate.text(name))
                write_text(facts, facts_text(name, given))
                words = [*options, PROOF, str(proof), *(["--given", str(facts)] if given else [])]
                return run_unless_stopped(self._program, words, seconds, self._processes)
        except NotInTime as late:
            # After a stop a proof gets two seconds: that it is cut is no fault of the program.
            self._give_up(f"{late}, so bounds are computed in {PLAIN}")
        except (OSError, ProgramFault) as fault:
            # Someone may have removed the folder: a bound that was printed is not lost.
            self.fail(str(fault))
        return None

    def stop(self) -> None:
        """Ends a proof that runs, and the next ones."""
        self._processes.stop()

    def fail(self, fault: str) -> None:
        """From now on the program has no answer, because it failed."""
        self._give_up(f"{PROVER} failed, so bounds are computed in {PLAIN}: {fault}")

    def _give_up(self, why: str) -> None:
        self._program = None
        self._warn(why)


class Bounds:
    """The bounds of some weeks with these options and this name. `target` is the file that gets the
    certificate, if any."""

    def __init__(
        self, options: Sequence[str], name: str, target: Optional[Path], warn: Callable[[str], None]
    ) -> None:
        self._options = options
        self._name = name
        self._target = target
        self._warn = warn
        self._prover = Prover(warn)
        # It is stopped with the proofs.
        self._clock = Clock(0.0)

    def stop(self) -> None:
        """Ends the proof that runs."""
        self._clock.stop()
        self._prover.stop()

    def of(self, run: RowRun, keeping: Keeping, seconds: float) -> Optional[Bound]:
        """The bound of a search's certificate, for the rosters that keep the absences and limits
        that these costs forbid to break. These seconds are for its proof, and for pricing it in
        plain Python if it was not proved."""
        certificate = run.certificate()
        if certificate is None:
            return None
        self._write(certificate)
        # Bounds speak of absences and limits alone.
        plan = replace(run.plan.kept(keeping), beside=DaysAway(), extra=Extra())
        only = _only(run.plan, keeping)
        clock = Clock(seconds, self._clock)
        answer = self._prover.answer(self._options, self._name, certificate, plan.facts(), seconds)
        found = re.match("lower bound ([0-9]{1,18})\n", answer or "")
        if answer is not None and not found:
            self._prover.fail("its answer is no bound")
        if found:
            return Bound(int(found[1]), PROVER, only)
        points = run.lower_bound if run.plan == plan else None
        if points is None:
            points = self._priced(plan, run.crews, certificate, clock)
        return None if points is None else Bound(points, PLAIN, only)

    def _priced(
        self, plan: Plan, crews: Crews, certificate: Certificate, clock: Clock
    ) -> Optional[Points]:
        """The bound of a certificate for a plan, in plain Python; None if that takes longer."""
        try:
            clock.check()
            return CasePricing(plan, crews, clock.check).bound_of(certificate, clock.check)
        except TimeIsOver:
            if not clock.stopped:
                self._warn(
                    f"the certificate was not priced in {clock.limit - clock.began:.0f} s in plain"
                    " Python, so there is no bound"
                )
            return None

    def no_roster(self, plan: Plan, certificate: Certificate, seconds: float) -> Optional[str]:
        """What proved by a certificate that no roster keeps the minimums, if the plan's absences
        are kept; None if it does not prove it."""
        self._write(certificate)
        answer = self._prover.answer(
            [*self._options, "--minimums"], self._name, certificate, plan.facts(), seconds
        )
        if answer is None:
            return PLAIN
        return PROVER if answer.startswith(EXISTS_NONE) else None

    def _write(self, certificate: Certificate) -> None:
        if self._target:
            write_text(self._target, certificate.text(self._name))


def _only(plan: Plan, keeping: Keeping) -> str:
    """Of which rosters a bound speaks; none: of all."""
    away = bool(plan.away) and keeping != FREE
    limits = bool(plan.limits) and keeping == STRICT
    return " and ".join(
        word for word, is_kept in (("absences", away), ("limits", limits)) if is_kept
    )
