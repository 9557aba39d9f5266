"""A process that keeps linear programs in Clp's library: it gets lists of operations from its
standard input, and each `solve` has an answer on its standard output, both as a Connection sends
them. It imports nothing of the package, and so starts fast.
"""

import array
import contextlib
import ctypes
import os
import sys
import threading
import time
from ctypes import c_double, c_int, c_void_p
from multiprocessing.connection import Connection
from typing import Any, Dict, Optional, Tuple

OPTIMAL = 0
INFEASIBLE = 1
STOPPED = 3
LIBRARY = "libClp.so.1"
# The exit status without the library.
NO_LIBRARY = 3
DUAL = "dual"
PRIMAL = "primal"
# Seconds between two looks whether the parent is alive.
LOOK_SECONDS = 0.5
_MOST_ITERATIONS = 2**31 - 1
# Clp's statuses of a basis for a new column and a new row.
AT_LOWER = b"\3"
_BASIC = b"\1"
# Clp's functions that return an array of a model; others that get nothing but the model; and those
# that get an array, or a number, too.
_READING = (
    "getColLower getColUpper getRowLower getRowUpper getObjCoefficients dualRowSolution"
    " primalColumnSolution statusArray".split()
)
_OF_MODEL = "deleteModel status numberIterations objectiveValue".split()
_WITH_ARRAY = (
    "chgColumnLower chgColumnUpper chgRowLower chgRowUpper chgObjCoefficients copyinStatus".split()
)
_WITH_NUMBER = "setLogLevel setMaximumIterations dual primal".split()
# The status of Clp, the iterations, the value, and, if they are asked for, the rows' prices, the
# columns' values, and the statuses of the columns and of the rows in the basis.
Answer = Tuple[int, int, float, bytes, bytes, bytes, bytes]


def load() -> Any:
    """Clp's library. Without it this is an OSError."""
    clp = ctypes.CDLL(LIBRARY)
    clp.Clp_newModel.restype = c_void_p
    clp.Clp_objectiveValue.restype = c_double
    for name in _READING:
        getattr(clp, f"Clp_{name}").restype = c_void_p
    for name in (*_READING, *_OF_MODEL):
        getattr(clp, f"Clp_{name}").argtypes = [c_void_p]
    for name in _WITH_ARRAY:
        getattr(clp, f"Clp_{name}").argtypes = [c_void_p, c_void_p]
    for name in _WITH_NUMBER:
        getattr(clp, f"Clp_{name}").argtypes = [c_void_p, c_int]
    clp.Clp_setMaximumSeconds.argtypes = [c_void_p, c_double]
    return clp


def _doubles(data: bytes) -> Any:
    return (c_double * (len(data) // 8)).from_buffer_copy(data) if data else (c_double * 1)()


def _ints(data: bytes) -> Any:
    return (c_int * (len(data) // 4)).from_buffer_copy(data) if data else (c_int * 1)()


class Program:
    """A linear program in Clp. Its methods are the operations on it."""

    def __init__(self, clp: Any) -> None:
        self._clp = clp
        self._model = c_void_p(clp.Clp_newModel())
        self._rows = self._columns = 0
        clp.Clp_setLogLevel(self._model, 0)

    def delete(self) -> None:
        """Frees it."""
        self._clp.Clp_deleteModel(self._model)

    def add_rows(self, lower: bytes, upper: bytes) -> None:
        """Adds rows without entries."""
        number = len(lower) // 8
        starts = (c_int * (number + 1))()
        self._clp.Clp_addRows(
            self._model,
            c_int(number),
            _doubles(lower),
            _doubles(upper),
            starts,
            _ints(b""),
            _doubles(b""),
        )
        self._rows += number

    def add_columns(
        self, costs: bytes, lower: bytes, upper: bytes, starts: bytes, rows: bytes, values: bytes
    ) -> None:
        """Adds columns; the entries of each are between two starts."""
        number = len(costs) // 8
        entries = _ints(starts), _ints(rows), _doubles(values)
        self._clp.Clp_addColumns(
            self._model, c_int(number), _doubles(lower), _doubles(upper), _doubles(costs), *entries
        )
        self._columns += number

    def bound_columns(self, numbers: bytes, lower: bytes, upper: bytes) -> None:
        """Changes the bounds of columns."""
        self._change(
            self._columns, numbers, lower, self._clp.Clp_getColLower, self._clp.Clp_chgColumnLower
        )
        self._change(
            self._columns, numbers, upper, self._clp.Clp_getColUpper, self._clp.Clp_chgColumnUpper
        )

    def bound_rows(self, numbers: bytes, lower: bytes, upper: bytes) -> None:
        """Changes the bounds of rows."""
        self._change(
            self._rows, numbers, lower, self._clp.Clp_getRowLower, self._clp.Clp_chgRowLower
        )
        self._change(
            self._rows, numbers, upper, self._clp.Clp_getRowUpper, self._clp.Clp_chgRowUpper
        )

    def set_costs(self, numbers: bytes, costs: bytes) -> None:
        """Changes the costs of columns."""
        self._change(
            self._columns,
            numbers,
            costs,
            self._clp.Clp_getObjCoefficients,
            self._clp.Clp_chgObjCoefficients,
        )

    def _change(self, length: int, numbers: bytes, values: bytes, get: Any, put: Any) -> None:
        of_all = _doubles(ctypes.string_at(get(self._model), 8 * length))
        for number, value in zip(array.array("i", numbers), array.array("d", values)):
            of_all[number] = value
        put(self._model, of_all)

    def _statuses(self) -> Tuple[bytes, bytes]:
        statuses = ctypes.string_at(
            self._clp.Clp_statusArray(self._model), self._columns + self._rows
        )
        return statuses[: self._columns], statuses[self._columns :]

    def begin_at(self, columns: bytes, rows: bytes) -> None:
        """Goes on with the basis of these statuses of the first columns and rows."""
        statuses = columns.ljust(self._columns, AT_LOWER) + rows.ljust(self._rows, _BASIC)
        self._clp.Clp_copyinStatus(
            self._model, (ctypes.c_ubyte * len(statuses)).from_buffer_copy(statuses)
        )

    def solve(self, how: str, iterations: int, seconds: float, whole: bool) -> Answer:
        """Solves it, from the basis at which it is."""
        clp = self._clp
        model = self._model
        clp.Clp_setMaximumIterations(model, iterations or _MOST_ITERATIONS)
        # These do not count while it waits for a processor: then the parent ends this process.
        clp.Clp_setMaximumSeconds(model, seconds)
        (clp.Clp_dual if how == DUAL else clp.Clp_primal)(model, 0)
        head = clp.Clp_status(model), clp.Clp_numberIterations(model), clp.Clp_objectiveValue(model)
        if not whole:
            return (*head, b"", b"", b"", b"")
        found = (clp.Clp_dualRowSolution, self._rows), (clp.Clp_primalColumnSolution, self._columns)
        prices, columns = (
            ctypes.string_at(get(model), 8 * number) if number else b"" for get, number in found
        )
        return (*head, prices, columns, *self._statuses())


class Child:
    """The programs by their numbers."""

    def __init__(self, clp: Any) -> None:
        self._clp = clp
        self._programs: Dict[int, Program] = {}

    def do(self, number: int, name: str, *words: Any) -> Optional[Answer]:
        """Does one operation; a solution is its answer."""
        if name == "delete":
            if number in self._programs:
                self._programs.pop(number).delete()
            return None
        if number not in self._programs:
            self._programs[number] = Program(self._clp)
        found: Optional[Answer] = getattr(self._programs[number], name)(*words)
        return found


def exit_without_parent(parent: int) -> None:
    """Waits until this process has another parent, and ends it then."""
    while os.getppid() == parent:
        time.sleep(LOOK_SECONDS)
    os._exit(1)


def main() -> None:
    """Serves the parent until there are no more requests. What Clp prints goes to standard
    error."""
    threading.Thread(target=exit_without_parent, args=(os.getppid(),), daemon=True).start()
    requests = Connection(os.dup(0), writable=False)
    answers = Connection(os.dup(1), readable=False)
    os.dup2(2, 1)
    try:
        child = Child(load())
    except OSError:
        sys.exit(NO_LIBRARY)
    with contextlib.suppress(EOFError):
        while True:
            for operation in requests.recv():
                found = child.do(*operation)
                if found:
                    answers.send(found)


if __name__ == "__main__":
    main()
