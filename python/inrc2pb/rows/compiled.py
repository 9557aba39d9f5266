"""The pricing of rows by a compiled library, which `make` builds from cheapest_rows.c. Without it
NumPy prices the same rows.

Nothing is trusted: the cost of each row is walked in Python, and each bound is proved by
`inrc2pb-bound`.
"""

import ctypes
from ctypes import c_long, c_void_p
import numpy
from pathlib import Path
from typing import Any, Sequence, Tuple, Union

from .row_arrays import Arrays, Blocks, Member

NAME = "inrc2pb-rows.so"
# The library has this number if its structures are those below.
LAYOUT = 1


class _Day(ctypes.Structure):
    _fields_ = [("nodes", c_long), ("arcs", c_void_p)]


class _Nurse(ctypes.Structure):
    _fields_ = [("days", c_void_p), ("rest", c_void_p), ("start", c_long)]


class _Task(ctypes.Structure):
    _fields_ = [
        *((name, c_long) for name in ("count", "days", "choices", "run_cost")),
        ("nurses", c_void_p),
        ("pays", c_void_p),
    ]


def load(path: Path) -> Any:
    """The library of a file; None if it is not there, or of another layout."""
    try:
        found = ctypes.CDLL(str(path))
        if ctypes.c_int.in_dll(found, "layout").value != LAYOUT:
            return None
    except (OSError, ValueError):
        return None
    found.cheapest_rows.argtypes = [c_void_p, c_void_p, c_void_p]
    return found


def _installed() -> Any:
    """The library in the clone's folder `out`, or as `make install` puts it."""
    above = Path(__file__).resolve().parents
    places = [
        above[3] / "out" / NAME,
        *(folder / "lib" / "inrc2pb" / NAME for folder in above[4:5]),
    ]
    return next(filter(None, map(load, places)), None)


library = _installed()


class CompiledRows:
    """Nurses who are priced together by a library on these days."""

    def __init__(self, members: Sequence[Member], days: range, by: Any) -> None:
        self._days = days
        self._library = by
        # The arrays that the library reads live as long as these.
        self._members = members
        self._nurses = {member.nurse: self._nurse(member) for member in members}

    def _nurse(self, member: Member) -> _Nurse:
        arcs = _arcs(member.arrays)
        rest = None if member.rest is None else member.rest.ctypes.data
        return _Nurse(
            ctypes.addressof(arcs) + self._days.start * ctypes.sizeof(_Day), rest, int(member.start)
        )

    def cheapest(self, pay: Any, nurses: Sequence[int], run_cost: int = 0) -> Tuple[Any, Any]:
        """As that of Blocks."""
        pays = numpy.ascontiguousarray(pay[:, self._days.start : self._days.stop])
        chosen = (_Nurse * len(nurses))(*(self._nurses[nurse] for nurse in nurses))
        costs = numpy.empty(len(nurses), dtype=numpy.int64)
        rows = numpy.zeros(pays.shape[:2], dtype=numpy.uint8)
        task = _Task(*pays.shape, run_cost, ctypes.addressof(chosen), pays.ctypes.data)
        if self._library.cheapest_rows(ctypes.addressof(task), costs.ctypes.data, rows.ctypes.data):
            raise MemoryError
        return costs, rows


def _arcs(arrays: Arrays) -> Any:
    """The days of a graph for the library, which are kept with it."""
    if arrays.compiled is None:
        days = (_Day * (len(arrays.days) + 1))()
        kept = []
        for number, (costs, heads, _) in enumerate(arrays.days):
            arcs = numpy.zeros(
                costs.T.shape, dtype=[("cost", "i8"), ("head", "i4"), ("runs", "i4")]
            )
            arcs["cost"] = costs.T
            arcs["head"] = heads.T
            if arrays.runs:
                arcs["runs"] = arrays.runs[number].T
            kept.append(arcs)
            days[number] = _Day(len(arcs), arcs.ctypes.data)
        days[len(arrays.days)] = _Day(arrays.nodes[-1], None)
        arrays.compiled = days, kept
    return arrays.compiled[0]


def priced_together(members: Sequence[Member], days: range) -> Union[CompiledRows, Blocks]:
    """What prices these nurses on these days: the library, or NumPy."""
    return CompiledRows(members, days, library) if library else Blocks(members, days)
