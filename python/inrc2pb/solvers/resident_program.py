"""Linear programs that stay in a solver: columns are added to a warm basis, and bounds and costs
change.

A child process keeps them in Clp's library. Nothing depends on a right answer.
"""

import contextlib
import math
import os
import subprocess
import sys
import time
from array import array
from multiprocessing.connection import Connection
from pathlib import Path
from typing import Dict, Iterable, List, Mapping, NamedTuple, Optional, Sequence, Tuple

from ..programs.clock import Clock, TimeIsOver
from ..programs.processes import MAX_WAIT, Processes
from . import clp_child
from .answers import MAX_FAULTS, MAX_VALUE, SolverFault
from .clp_child import AT_LOWER, DUAL, INFEASIBLE, LIBRARY, NO_LIBRARY, OPTIMAL, PRIMAL, STOPPED

# Seconds that a child has beyond the end of the time to say so.
GRACE = 1.0
# Seconds that a child has to end by itself after a fault.
END_SECONDS = 1.0
# What Clp takes for infinity.
_INFINITE = 1e30
# An operation on a program: a name and words.
_Operation = Tuple[object, ...]
NAME = "Clp's library"

__all__ = [
    "DUAL",
    "INFEASIBLE",
    "OPTIMAL",
    "PRIMAL",
    "STOPPED",
    "Child",
    "Column",
    "LinearProgram",
    "Solution",
]


class Column(NamedTuple):
    """A column: its cost, its bounds, and its entries by row."""

    cost: float
    lower: float
    upper: float
    entries: Sequence[Tuple[int, float]]


class Solution(NamedTuple):
    """The answer of a linear program: whether it is OPTIMAL, INFEASIBLE or STOPPED at the limit of
    its iterations, its value, the prices of its rows, the values of its columns, the number of
    iterations, and the statuses of columns and rows in its basis, if they are known.
    """

    status: int
    value: float
    prices: "Sequence[float]" = ()
    columns: "Sequence[float]" = ()
    iterations: int = 0
    basis: Tuple[bytes, bytes] = (b"", b"")


class Child:
    """The process that keeps programs. It starts with the first request, and again after a fault;
    `starts` counts that."""

    def __init__(self, processes: Processes, folder: Path) -> None:
        self._processes = processes
        self._folder = folder
        self._process: "Optional[subprocess.Popen[bytes]]" = None
        self._pipes: Optional[Tuple[Connection, Connection]] = None
        self._faults = self._programs = self.starts = 0
        self._forgotten: List[int] = []
        # Why it gets no more requests, if it does not.
        self.broken = ""

    def number(self) -> int:
        """A number for a new program."""
        self._programs += 1
        return self._programs

    def forget(self, number: int) -> None:
        """Frees a program with the next request."""
        self._forgotten.append(number)

    @property
    def is_alive(self) -> bool:
        """Whether it runs, with all the programs that it got."""
        return self._process is not None and self._process.poll() is None

    def start(self) -> None:
        """Starts a new process, which has no programs."""
        self.end()
        process = self._process = self._processes.open(
            [sys.executable, "-I", "-S", clp_child.__file__], self._folder
        )
        assert process.stdin and process.stdout
        requests = os.dup(process.stdin.fileno())
        answers = os.dup(process.stdout.fileno())
        self._pipes = Connection(requests, readable=False), Connection(answers, writable=False)
        self.starts += 1
        self._forgotten.clear()

    def end(self) -> None:
        """Ends the process."""
        for pipe in self._pipes or ():
            pipe.close()
        if self._process:
            self._processes.close(self._process)
        self._process = self._pipes = None

    def fail(self, fault: SolverFault) -> None:
        """After some faults in a row it gets no more requests."""
        ended = None
        with contextlib.suppress(subprocess.TimeoutExpired):
            # A process without the library ends at once.
            ended = self._process.wait(END_SECONDS) if self._process else None
        self.end()
        self._faults += 1
        if ended == NO_LIBRARY:
            self.broken = f"{LIBRARY} is missing: install it (Debian: apt-get install coinor-cbc)"
        elif self._faults >= MAX_FAULTS:
            self.broken = str(fault)

    def ask(
        self, operations: Sequence[_Operation], clock: Clock, rows: int, columns: int
    ) -> Solution:
        """Does the operations, of which the last one solves; so many numbers belong to the
        answer."""
        if self._processes.stopped:
            raise TimeIsOver
        assert self._pipes
        requests, answers = self._pipes
        limit = time.monotonic() + min(MAX_WAIT, clock.left() + GRACE)
        try:
            requests.send([*((number, "delete") for number in self._forgotten), *operations])
            self._forgotten.clear()
            answer = answers.recv() if answers.poll(max(0.0, limit - time.monotonic())) else None
        except (OSError, EOFError) as late:
            if self._processes.stopped:
                self.end()
                raise TimeIsOver from late
            raise SolverFault(f"{NAME} ended") from late
        if answer is None:
            self.end()
            raise TimeIsOver
        found = _solution(answer, rows, columns)
        self._faults = 0
        return found


def _solution(answer: clp_child.Answer, rows: int, columns: int) -> Solution:
    """The solution of an answer. Numbers that are none are a SolverFault."""
    status, iterations, value, *found, of_columns, of_rows = answer
    prices, values = (array("d", part) for part in found)
    if (len(prices), len(values)) != (rows, columns) or status not in (
        OPTIMAL,
        INFEASIBLE,
        STOPPED,
    ):
        raise SolverFault(f"{NAME} ended with status {status}")
    if status == INFEASIBLE:
        value = math.inf
    elif not (abs(value) < MAX_VALUE and abs(sum(prices) + sum(values)) < MAX_VALUE):
        raise SolverFault(f"{NAME} answered with numbers that are none")
    return Solution(status, value, prices, values, iterations, (of_columns, of_rows))


def _finite(value: float) -> float:
    return max(-_INFINITE, min(_INFINITE, value))


class LinearProgram:
    """A linear program. It is a copy of what a child keeps: a new child gets it from here. Without
    a child it is not solved.

    A row is Σ entries between its bounds. All changes count from the next `solve` on.
    """

    def __init__(self, child: Optional[Child]) -> None:
        self._child = child
        self._number = child.number() if child else 0
        self._lower = array("d")
        self._upper = array("d")
        self._columns: List[Column] = []
        # The changes that the child has not done yet, the rows and columns that it has, and its
        # start.
        self._pending: List[_Operation] = []
        self._sent = (0, 0)
        self._start = 0
        # The statuses of the columns and rows in the basis of the last whole solution.
        self.basis = (b"", b"")

    def __getstate__(self) -> Dict[str, object]:
        """Without its solver: only `part` is of use in another process."""
        return {**self.__dict__, "_child": None, "_pending": []}

    def part(self, columns: Sequence[int], target: "LinearProgram") -> "LinearProgram":
        """Makes an empty program one with all rows and these columns, which begins at the basis of
        the last whole solution."""
        of_columns, of_rows = self.basis
        target.add_rows(zip(self._lower, self._upper))
        target.add_columns([self._columns[number] for number in columns])
        statuses = of_columns.ljust(len(self._columns), AT_LOWER)
        target.basis = bytes(statuses[number] for number in columns), of_rows
        return target

    @property
    def rows(self) -> int:
        """The number of rows."""
        return len(self._lower)

    @property
    def columns(self) -> int:
        """The number of columns."""
        return len(self._columns)

    # ---- changes

    def add_rows(self, bounds: Iterable[Tuple[float, float]]) -> None:
        """Adds rows without entries, of these lower and upper bounds."""
        for lower, upper in bounds:
            self._lower.append(_finite(lower))
            self._upper.append(_finite(upper))

    def add_columns(self, columns: Sequence[Column]) -> int:
        """Adds columns, at their lower bounds. Returns the number of the first one."""
        first = len(self._columns)
        self._columns += columns
        return first

    def bound_columns(self, bounds: Dict[int, Tuple[float, float]]) -> None:
        """Changes the bounds of columns."""
        for number, (lower, upper) in bounds.items():
            self._columns[number] = self._columns[number]._replace(lower=lower, upper=upper)
        self._change("bound_columns", bounds)

    def bound_rows(self, bounds: Dict[int, Tuple[float, float]]) -> None:
        """Changes the bounds of rows."""
        for number, (lower, upper) in bounds.items():
            self._lower[number] = _finite(lower)
            self._upper[number] = _finite(upper)
        self._change("bound_rows", bounds)

    def set_costs(self, costs: Dict[int, float]) -> None:
        """Changes the costs of columns."""
        for number, cost in costs.items():
            self._columns[number] = self._columns[number]._replace(cost=cost)
        self._change("set_costs", {number: (cost,) for number, cost in costs.items()})

    def _change(self, name: str, values: Mapping[int, Sequence[float]]) -> None:
        if values:
            numbers = array("i", values).tobytes()
            self._pending.append(
                (
                    name,
                    numbers,
                    *(array("d", map(_finite, part)).tobytes() for part in zip(*values.values())),
                )
            )

    def take_basis(self, basis: Tuple[bytes, bytes]) -> None:
        """Goes on with the basis of an earlier solution."""
        self._pending.append(("begin_at", *basis))

    def close(self) -> None:
        """Frees it in the child."""
        if self._child and self._child.is_alive and self._start == self._child.starts:
            self._child.forget(self._number)

    # ---- solutions

    def solve(
        self, clock: Clock, how: str = PRIMAL, iterations: int = 0, whole: bool = True
    ) -> Solution:
        """Solves it by the dual or the primal simplex method, in at most these iterations (0: any
        number). Only a whole solution has prices, values and rises. The end of the clock's time is
        a TimeIsOver; if the child does not work, this is a SolverFault.
        """
        clock.check()
        while self._child and not self._child.broken:
            try:
                return self._by_child(self._child, clock, (how, iterations, clock.left(), whole))
            except SolverFault as fault:
                self._child.fail(fault)
            finally:
                clock.check()
        raise SolverFault(
            self._child.broken if self._child else "there is no solver of linear programs"
        )

    def _by_child(self, child: Child, clock: Clock, words: Tuple[object, ...]) -> Solution:
        if not child.is_alive:
            child.start()
        if self._start != child.starts:
            self._start = child.starts
            self._sent = (0, 0)
            self._pending = [("begin_at", *self.basis)]
        operations = [*self._new(), *self._pending, ("solve", *words)]
        self._pending = []
        sizes = (self.rows, self.columns) if words[-1] else (0, 0)
        found = child.ask([(self._number, *operation) for operation in operations], clock, *sizes)
        self.basis = found.basis if words[-1] else self.basis
        return found

    def _new(self) -> Iterable[_Operation]:
        """Gives the child the rows and columns that it does not have yet."""
        (rows, columns) = self._sent
        self._sent = (self.rows, self.columns)
        if rows < self.rows:
            yield "add_rows", self._lower[rows:].tobytes(), self._upper[rows:].tobytes()
        if columns < self.columns:
            yield "add_columns", *_as_arrays(self._columns[columns:])


def _as_arrays(columns: Sequence[Column]) -> Tuple[bytes, ...]:
    """The costs, the bounds, the starts of the entries, their rows and their values."""
    bounds = [
        array("d", map(_finite, part)).tobytes()
        for part in zip(*(column[:3] for column in columns))
    ]
    starts = array("i", [0])
    rows = array("i")
    values = array("d")
    for column in columns:
        for row, value in column.entries:
            rows.append(row)
            values.append(value)
        starts.append(len(rows))
    return (*bounds, starts.tobytes(), rows.tobytes(), values.tobytes())
