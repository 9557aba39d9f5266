"""What the runs of a nurse cost, day by day: S2, S3 and S5, with the shift types that may follow
one another.

A choice is 0 for a day off, and one more than the index of its shift type otherwise.
"""

from typing import NamedTuple, Sequence

from ..week.records import DAYS, Contract, Limits, NurseHistory, ShiftType, successions
from ..week.soft_rules import DAYS_OFF_RUN, HALF_WEEKEND, SHIFT_RUN, WORK_RUN
from .rules import SUNDAY

# More than any cost: a choice that a hard rule forbids.
NEVER = 1 << 50
# What a day above a maximum that holds costs, in points, if rows may have it.
ABOVE_LIMIT = 600


class RunState(NamedTuple):
    """The runs that are open at the end of a day."""

    # The choice of that day.
    choice: int
    shift_run: int
    work_run: int
    off_run: int
    # The run of days with work and training, if it has training, and whether no day of it could
    # have been off.
    trained: int = 0
    is_due: bool = False
    # Whether a choice differs from that of an older row.
    is_called: bool = False


# The choice of an older row for a day on which all choices cost the same.
ANY_CHOICE = 255


class NextDays(NamedTuple):
    """A nurse's choices on the first days after the last one, and her contract then; whether her
    maximum of days of work in a row holds, and the shift types whose maximum does."""

    contract: Contract
    choices: bytes
    holds: bool = False
    kept: frozenset[str] = frozenset()


class Beside(NamedTuple):
    """A nurse's days away that concern the days beside them."""

    # Days of training, which is work in a row.
    training: frozenset[int] = frozenset()
    # Days before which she should have none of these shift types.
    free: frozenset[int] = frozenset()
    nights: frozenset[str] = frozenset()
    # What each day costs that is otherwise, in points; days before `fixed` do not change.
    cost: int = 0
    fixed: int = 0
    # An older row, and what one that differs from it costs, in points.
    older: bytes = b""
    call: int = 0
    # The shift types of which she should have no more days in a row than their maximum.
    kept: frozenset[str] = frozenset()
    # The days after the last one, if they are known: runs go on there.
    then: NextDays | None = None


Step = tuple[int, RunState]


def shortened(run: int, limits: Limits, left: int, then: Limits | None = None) -> int:
    """The shortest run that costs the same as this one in the days that are left, which have these
    limits, and the last of them perhaps others."""
    later = then or limits
    enough = max(limits.minimum, later.minimum, 1)
    if run >= enough and run + left <= min(limits.maximum, later.maximum):
        return enough
    return min(run, max(enough, limits.maximum, later.maximum))


def ended(run: int, limits: Limits, weight: int) -> int:
    """What the end of a run costs."""
    return weight * max(0, limits.minimum - run) if run else 0


class Runs:
    """What a day adds to the runs of nurses with one contract. Without `charging` only the shift
    types that may not follow count.

    `shift_run` is the weight of a charge of a run of a shift type, and `above` what a day of work
    above the maximum in a row costs more, in points; NEVER forbids it. `beside` has days away that
    concern the days beside them, and what follows the last day.
    """

    def __init__(
        self,
        types: Sequence[ShiftType],
        contract: Contract,
        days: int,
        charging: bool = True,
        shift_run: int = SHIFT_RUN,
        above: int = 0,
        beside: Beside = Beside(),
    ) -> None:
        self.days = days
        self.charging = charging
        self.contract = contract
        self._shift_run = shift_run
        self._above = above
        self._beside = beside
        self._then = runs_then(types, beside.then, shift_run) if beside.then and charging else None
        self._later = self._then.days if self._then else 0
        then = self._then.contract if self._then else contract
        self._work_then, self._off_then = then.working_days, then.days_off
        self._known: dict[tuple[int, RunState], list[Step]] = {}
        self.shifts = [Limits(0, 0), *(kind.consecutive for kind in types)]
        self.numbers = {kind.name: number for number, kind in enumerate(types, 1)}
        self._nights = {self.numbers[name] for name in beside.nights}
        self._kept = {self.numbers[name] for name in beside.kept}
        self.forbidden = successions(types)

    def before(self, past: NurseHistory) -> RunState:
        """The state before the first day. The numbers of a history may contradict one another: all
        of them count."""
        choice = 0 if past.last_shift is None else self.numbers[past.last_shift]
        return self.state(
            choice,
            past.consecutive_shifts if choice else 0,
            past.working_days,
            past.days_off,
            self.days,
        )

    def state(self, choice: int, shift: int, work: int, off: int, left: int) -> RunState:
        """The state after a choice and runs of these lengths, if this number of days is left."""
        if not self.charging:
            return RunState(choice, 0, 0, 0)
        left += self._later
        shift_run = shortened(shift, self.shifts[choice], left) if shift else 0
        work_run = shortened(work, self.contract.working_days, left, self._work_then) if work else 0
        off_run = shortened(off, self.contract.days_off, left, self._off_then) if off else 0
        return RunState(choice, shift_run, work_run, off_run)

    def steps(self, day: int, now: RunState) -> list[Step]:
        """For each choice on a day what it costs, in points, and the state at its end; NEVER, if a
        hard rule forbids it."""
        steps = self._known.get((day, now))
        if steps is None:
            steps = self._known[day, now] = (
                self._steps(day, now) if self.charging else self._free_steps(now)
            )
        return steps

    def _free_steps(self, now: RunState) -> list[Step]:
        forbidden = self.forbidden[now.choice]
        return [
            (NEVER, now) if choice in forbidden else (0, RunState(choice, 0, 0, 0))
            for choice in range(len(self.shifts))
        ]

    def _steps(self, day: int, now: RunState) -> list[Step]:
        work = self.contract.working_days
        off = self.contract.days_off
        left = self.days - day - 1
        half = HALF_WEEKEND if day % len(DAYS) == SUNDAY and self.contract.complete_weekends else 0
        closed = ended(now.shift_run, self.shifts[now.choice], self._shift_run)
        off_above = DAYS_OFF_RUN if now.off_run + 1 > off.maximum else 0
        rest = (
            closed + ended(now.work_run, work, WORK_RUN) + off_above + (half if now.choice else 0)
        )
        steps = [(rest, self.state(0, 0, 0, now.off_run + 1, left))]
        work_above = WORK_RUN + self._above if now.work_run + 1 > work.maximum else 0
        works = ended(now.off_run, off, DAYS_OFF_RUN) + work_above + (0 if now.choice else half)
        run = shortened(now.work_run + 1, work, left + self._later, self._work_then)
        forbidden = self.forbidden[now.choice]
        for choice, limits in enumerate(self.shifts[1:], 1):
            if choice in forbidden or works >= NEVER:
                steps.append((NEVER, now))
            else:
                length, cost = (
                    (now.shift_run + 1, works) if choice == now.choice else (1, works + closed)
                )
                if length > limits.maximum:
                    is_kept = choice in self._kept and day >= self._beside.fixed
                    cost += self._shift_run + (self._beside.cost if is_kept else 0)
                shift_run = shortened(length, limits, left + self._later)
                steps.append((cost, RunState(choice, shift_run, run, 0)))
        if self._beside.cost or self._beside.call:
            steps = [self._with_days_away(day, now, step) for step in steps]
        if self._then and self._beside.then and not left:
            choices = self._beside.then.choices
            return [(cost + self._then.along(to, choices), to) for cost, to in steps]
        return steps

    def along(self, now: RunState, choices: bytes) -> int:
        """What these choices cost after a state, up to one that a hard rule forbids."""
        now = RunState(*now[:4])
        total = 0
        for day, choice in enumerate(choices):
            cost, now = self.steps(day, now)[choice]
            if cost >= NEVER:
                break
            total += cost
        return total

    def _with_days_away(self, day: int, before: RunState, step: Step) -> Step:
        """The step with the run of work and training at the end of the day, and with what that, a
        night before and a call cost."""
        cost, now = step
        away = self._beside
        limits = Limits(1, self.contract.working_days.maximum)
        run, is_due = self._with_training(day, before, now.choice)
        from_night = (
            day in away.free
            and day > away.fixed
            and not now.choice
            and before.choice in self._nights
        )
        cost += away.cost * ((run > limits.maximum and not is_due) + from_night)
        is_called = before.is_called or (
            away.call > 0 and away.older[day] not in (now.choice, ANY_CHOICE)
        )
        cost += away.call if is_called and not before.is_called else 0
        trained = shortened(run, limits, self.days - day - 1) if run else 0
        return cost, now._replace(trained=trained, is_due=is_due, is_called=is_called)

    def _with_training(self, day: int, before: RunState, choice: int) -> tuple[int, bool]:
        """The run of work and training at the end of the day, 0 if it has no training, and whether
        no day of it could have been off."""
        fixed = self._beside.fixed
        if choice:
            return before.trained + bool(before.trained), before.is_due and day < fixed
        if day not in self._beside.training:
            return 0, False
        if before.trained:
            return before.trained + 1, before.is_due
        return before.work_run + 1, not before.work_run or day <= fixed


def runs_then(types: Sequence[ShiftType], then: NextDays, shift_run: int = SHIFT_RUN) -> Runs:
    """The runs of a nurse on the days after the last one."""
    above = ABOVE_LIMIT if then.holds else 0
    beside = Beside(kept=then.kept, cost=ABOVE_LIMIT if then.kept else 0)
    return Runs(types, then.contract, len(then.choices), True, shift_run, above, beside)


def cost_then(types: Sequence[ShiftType], then: NextDays, past: NurseHistory) -> int:
    """What the days after the last one cost a nurse who has this history then."""
    runs = runs_then(types, then)
    return runs.along(runs.before(past), then.choices)
