"""Exchanges of days between nurses that cost nothing, and make nights, weekends and bank holidays
more even, with those that nurses had in the year before the plan.

Two or three nurses exchange days in a circle: on these days each has the shifts of the next one, so
each place keeps its number of nurses. What they are charged together stays the same, and nothing
that holds is broken. Most exchanges that are tried are no good, so days are the bits of numbers
here: a few steps tell how many of each an exchange leaves to whom.

A search for exchanges ends after so much work, and looks at no clock, so a busy machine makes the
same plan as a quiet one.
"""

import itertools
import random
from typing import Callable, Iterable, Iterator, Mapping, NamedTuple

from ..judging.rules import SATURDAY
from ..week.records import WEEK_DAYS, Cell, NurseDay
from .fairness import Share, contracts_of, evenness, shares_of
from .nurse_weeks import NurseWeeks, by_nurse
from .row_costs import RowCosts, Work
from .ward import WardPlan

# Work is counted in steps of about the same time: one for an exchange that is tried, and more to
# see whether nurses may have its shifts, to make its rows, and for a new row to see what it costs
# and what it breaks. A quiet machine makes about so many steps in a second.
STEPS_A_SECOND = 100_000
_TRIED = 1
_FITTED = 4
_MADE = 5


_JUDGED = 20
# How many exchanges are tried on a way to more even ones, and the points that a plan may cost more
# on it.
_TRIES = 400
_SLACK = (0, 0, 30, 60, 90)
# How many days in a row are exchanged, and how many nurses and rows of days take part: each is as
# likely as it is often here.
_LENGTHS = (1, 1, 2, 2, 2, 3, 3, 4, 4, 5, 6, 7, 10, 14)
_NURSES = (2, 2, 3)
_ROWS = (1, 1, 2)
_Row = Mapping[int, Cell]
# Days as the bits of a number.
_Bits = int


class _Exchange(NamedTuple):
    """Nurses in a circle, and the days on which each has the shifts of the next one."""

    nurses: tuple[str, ...]
    days: _Bits

    @property
    def givers(self) -> Iterator[tuple[str, str]]:
        """Each nurse with the one whose shifts she has."""
        return zip(self.nurses, (*self.nurses[1:], self.nurses[0]))


def more_even(
    plan: WardPlan,
    first: int,
    steps: int,
    ends: Callable[[], bool] = lambda: False,
    before: Mapping[str, Share] = {},
) -> WardPlan:
    """The plan after exchanges of days from the first one on, with so many steps of work, or until
    it `ends`, which make nights, weekends or bank holidays more even, and none of them less, with
    those that nurses had before the plan. Exchanges that leave all as they are come between, since
    they make room for others, and some that cost points which later ones save again."""
    work = Work(steps, ends)
    exchanges = _Exchanges(plan, first, work, before)
    while not (work.is_done or exchanges.is_even):
        if not exchanges.improved():
            exchanges.wander()
    return plan.with_cells(cell for row in exchanges.rows.values() for cell in row.values())


class _Exchanges:
    """The rows of nurses, and exchanges in them, in a random order that is always the same."""

    def __init__(self, plan: WardPlan, first: int, work: Work, before: Mapping[str, Share]) -> None:
        self._plan = plan
        self._earlier = before
        self._alone = NurseWeeks(plan)
        self._work = work
        self._random = random.Random(1)
        self._costs = RowCosts(plan, work)
        self.rows: dict[str, _Row] = dict(by_nurse(plan, plan.works))
        over = shares_of(
            plan, (cell for cell in plan.state.cells if cell.day < plan.first), plan.ward.holidays
        )
        self._before = {
            nurse: share.plus(before.get(nurse, Share())) for nurse, share in over.items()
        }
        self._firm = {*plan.held, *plan.state.kept}
        self._days = range(max(first, plan.first), plan.days.total)
        self._spans = [
            _span(begin, end)
            for begin in self._days
            for end in range(begin + 1, self._days.stop + 1)
        ]
        self._groups = [group for group in contracts_of(plan).values() if len(group) > 1]
        self._group = {
            nurse: number
            for number, group in enumerate(contracts_of(plan).values())
            for nurse in group
        }
        self._saturdays = _bits(range(SATURDAY, plan.days.total, WEEK_DAYS))
        self._holidays = _bits(plan.ward.holidays)
        self._works: dict[str, _Bits] = {}
        self._nights: dict[str, _Bits] = {}
        self._choices: dict[str, bytes] = {}
        self._known: dict[tuple[str, tuple[Cell, ...]], tuple[int, int, int]] = {}
        self._is_even: bool | None = None
        # The pairs of nurses whose exchanges were tried since their rows are as they are.
        self._searched: set[tuple[str, str]] = set()
        self._take(self.rows)

    def _take(self, new: Mapping[str, _Row]) -> None:
        """These nurses have these rows now."""
        self.rows.update(new)
        self._is_even = None
        self._searched = {pair for pair in self._searched if not new.keys() & set(pair)}
        nights = self._plan.days_away.nights
        numbers = self._costs.numbers
        days = range(self._plan.first, self._plan.days.total)
        for nurse, row in new.items():
            self._works[nurse] = _bits(row)
            self._nights[nurse] = _bits(day for day, cell in row.items() if cell.shift in nights)
            self._choices[nurse] = bytes(
                numbers[row[day].shift] if day in row else 0 for day in days
            )

    @property
    def is_even(self) -> bool:
        """Whether no exchange can help, since the numbers of each contract differ by one at
        most."""
        if self._is_even is None:
            shared = evenness(
                self._plan.with_cells(cell for row in self.rows.values() for cell in row.values()),
                self._earlier,
            )
            spreads = (*shared.nights, *shared.weekends, *shared.holidays)
            self._is_even = (
                not self._groups
                or not self._days
                or all(spread.most <= spread.fewest + 1 for spread in spreads)
            )
        return self._is_even

    def improved(self) -> bool:
        """Makes the first exchange of two nurses of a contract, of days in a row, that is more even
        and costs nothing. Returns whether there is one; a pair is tried again only after one of
        their rows has changed."""
        pairs = (pair for group in self._groups for pair in itertools.combinations(group, 2))
        for pair in (pair for pair in pairs if pair not in self._searched):
            for exchange in (_Exchange(pair, days) for days in self._spans):
                self._work.takes(_TRIED)
                if self._work.is_done:
                    return False
                if self._is_more_even(exchange) and self._fits(exchange) and self._takes(exchange):
                    return True
            self._searched.add(pair)
        return False

    def _takes(self, exchange: _Exchange) -> bool:
        """Makes an exchange if it costs nothing. Returns whether it does."""
        added, new = self._exchanged(exchange)
        if added or not self._keeps_all(new):
            return False
        self._take(new)
        return True

    def wander(self) -> None:
        """Tries some exchanges, and makes those that leave nights and weekends no less even. At its
        end the plan costs what it cost before: exchanges that cost points hold if later ones have
        saved these again."""
        most = self._random.choice(_SLACK)
        above = 0
        best = dict(self.rows)
        for exchange in itertools.islice(self._tried(), _TRIES):
            if not (exchange.days and self._is_as_even(exchange) and self._fits(exchange)):
                continue
            added, new = self._exchanged(exchange)
            if added + above <= most and self._keeps_all(new):
                self._take(new)
                above += added
                best = best if above else dict(self.rows)
        if above:
            self._take({nurse: row for nurse, row in best.items() if row is not self.rows[nurse]})

    def _tried(self) -> Iterator[_Exchange]:
        """Exchanges in a random order, until the work is done."""
        while not self._work.is_done:
            self._work.takes(_TRIED)
            yield self._any()

    def _any(self) -> _Exchange:
        """An exchange of two nurses of a contract, or of them and one more, on one row of days, or
        on two."""
        pick = self._random.choice
        nurses = self._random.sample(self._random.choice(self._groups), 2)
        if pick(_NURSES) == 3 and len(self.rows) > 2:
            nurses.append(pick([nurse for nurse in self.rows if nurse not in nurses]))
        days = 0
        for _ in range(pick(_ROWS)):
            begin = pick(self._days)
            days |= _span(begin, min(begin + pick(_LENGTHS), self._days.stop))
        return _Exchange(tuple(nurses), days)

    def _fits(self, exchange: _Exchange) -> bool:
        """Whether each nurse may have what is given to her, and something changes."""
        self._work.takes(_FITTED)
        days = [day for day in self._days if exchange.days >> day & 1]
        cells = [
            (nurse, day, self.rows[giver].get(day))
            for nurse, giver in exchange.givers
            for day in days
        ]
        changes = any(_kind(self.rows[nurse].get(day)) != _kind(cell) for nurse, day, cell in cells)
        return changes and all(self._may_have(nurse, day, cell) for nurse, day, cell in cells)

    # ---- what an exchange does

    def _may_have(self, nurse: str, day: int, cell: Cell | None) -> bool:
        """Whether a nurse may have a shift of another one on a day, or may be off."""
        return NurseDay(nurse, day) not in self._firm and (
            cell is None or self._plan.may_have(cell._replace(nurse=nurse))
        )

    def _share(self, before: Share, works: _Bits, nights: _Bits) -> Share:
        """What a nurse has with these days."""
        weekends = (works | works >> 1) & self._saturdays
        return Share(
            before.nights + nights.bit_count(),
            before.weekends + weekends.bit_count(),
            before.holidays + (works & self._holidays).bit_count(),
        )

    def _squares(self, exchange: _Exchange) -> tuple[int, int, int] | None:
        """By how much the sums of the squares of nights, weekends and bank holidays grow, of the
        nurses with the contract of the first one; None if another one has more of any then."""
        days = exchange.days
        group = self._group[exchange.nurses[0]]
        nights = 0
        weekends = 0
        holidays = 0
        for nurse, giver in exchange.givers:
            works = self._works[nurse]
            at_night = self._nights[nurse]
            before = self._before[nurse]
            old = self._share(before, works, at_night)
            now = self._share(
                before,
                works & ~days | self._works[giver] & days,
                at_night & ~days | self._nights[giver] & days,
            )
            if self._group[nurse] == group:
                nights += now.nights**2 - old.nights**2
                weekends += now.weekends**2 - old.weekends**2
                holidays += now.holidays**2 - old.holidays**2
            elif any(more > less for more, less in zip(now, old)):
                return None
        return nights, weekends, holidays

    def _is_as_even(self, exchange: _Exchange) -> bool:
        """Whether nothing is less even after an exchange."""
        squares = self._squares(exchange)
        return squares is not None and max(squares) <= 0

    def _is_more_even(self, exchange: _Exchange) -> bool:
        """Whether one of them is more even, and the others no less."""
        squares = self._squares(exchange)
        return squares is not None and max(squares) <= 0 and min(squares) < 0

    def _exchanged(self, exchange: _Exchange) -> tuple[int, dict[str, _Row]]:
        """What an exchange costs, and the rows after it."""
        self._work.takes(_MADE)
        mixed = {
            nurse: self._mixed(self._choices[nurse], self._choices[giver], exchange.days)
            for nurse, giver in exchange.givers
        }
        added = sum(
            self._costs.of(nurse, row) - self._costs.of(nurse, self._choices[nurse])
            for nurse, row in mixed.items()
        )
        return added, {
            nurse: self._row(nurse, giver, exchange.days) for nurse, giver in exchange.givers
        }

    def _mixed(self, own: bytes, given: bytes, days: _Bits) -> bytes:
        """A nurse's choices with those that are given to her on these days."""
        return bytes(
            there if days >> day & 1 else here
            for day, (here, there) in enumerate(zip(own, given), self._plan.first)
        )

    def _row(self, nurse: str, giver: str, days: _Bits) -> _Row:
        """A nurse's shifts with those of another one on these days."""
        kept = {day: cell for day, cell in self.rows[nurse].items() if not days >> day & 1}
        return {
            **kept,
            **{
                day: cell._replace(nurse=nurse)
                for day, cell in self.rows[giver].items()
                if days >> day & 1
            },
        }

    def _keeps_all(self, new: Mapping[str, _Row]) -> bool:
        """Whether these rows break nothing that holds, and exceed it by no more, than those of
        now."""
        before, now = (
            [sum(numbers) for numbers in zip(*(self._broken(nurse, rows[nurse]) for nurse in new))]
            for rows in (self.rows, new)
        )
        return all(number <= older for number, older in zip(now, before))

    def _broken(self, nurse: str, row: _Row) -> tuple[int, int, int]:
        """How many faults a row has, and what it has above limits and beside days away."""
        key = nurse, tuple(row[day] for day in sorted(row))
        if key not in self._known:
            self._work.takes(_JUDGED)
            alone = self._alone
            self._known[key] = (
                len(alone.faults(nurse, row)),
                alone.excess(nurse, row),
                alone.excess_beside(nurse, row),
            )
        return self._known[key]


def _bits(days: Iterable[int]) -> _Bits:
    """These days as bits."""
    return sum(1 << day for day in days)


def _span(begin: int, end: int) -> _Bits:
    """The days from the first one to that before the end as bits."""
    return (1 << end) - (1 << begin)


def _kind(cell: Cell | None) -> tuple[str, str] | None:
    """The shift type and the skill of a shift."""
    return cell and (cell.shift, cell.skill)
