"""The columns `was`: older names of nurses and shift types, by which plans of before know them.

An older name counts once: a plan keeps which ones it knew, so two nurses may exchange names, and
the column may stay. Plans have no names of contracts, so a contract may have another name at once.
"""

from dataclasses import replace
from typing import Collection, Iterable, NamedTuple, Sequence

from ..week.faults import Gathering
from ..week.records import NurseHistory
from .sheet_rows import SheetRow, Table

NURSES = "nurses"
SHIFTS = "shifts"


class Renamed(NamedTuple):
    """A nurse or a shift type with another name now: its sheet, its older name in small letters,
    and its name of now."""

    sheet: str
    older: str
    now: str


class Begin(NamedTuple):
    """What the period before knows of nurses at the begin of one, in place of the columns on days
    before the plan, and which older names it knew."""

    rows: tuple[NurseHistory, ...] = ()
    was: tuple[Renamed, ...] = ()

    def nurses(self, now: Sequence[Renamed]) -> dict[str, NurseHistory]:
        """The same by the names of now."""
        names = Names(one for one in now if one not in self.was)
        rows = (
            replace(row, last_shift=row.last_shift and names.shift(row.last_shift))
            for row in self.rows
        )
        return {names.nurse(row.nurse): replace(row, nurse=names.nurse(row.nurse)) for row in rows}


class Names:
    """The names of now of nurses and shift types that have older ones in a plan."""

    def __init__(self, was: Iterable[Renamed]) -> None:
        self._now = {(one.sheet, one.older): one.now for one in was}

    def nurse(self, name: str) -> str:
        """The name that a nurse has now."""
        return self._now.get((NURSES, name.casefold()), name)

    def shift(self, name: str) -> str:
        """The name that a shift type has now."""
        return self._now.get((SHIFTS, name.casefold()), name)


def older_names(
    table: Table | None, head: str, names: Collection[str], faults: Gathering
) -> list[Renamed]:
    """The older names in a sheet whose rows have these names. One is nobody's name now, unless she
    has an older name, too, and only one row has it."""
    rows = {row.of(head).key: row for row in (table.rows if table else ())}
    now = {name.casefold() for name in names}
    found: dict[str, Renamed] = {}
    for row in rows.values():
        for part in row.of("was").parts():
            older = part.text.replace(" ", "_").casefold()
            with faults.step():
                if older in now and not _has_another(rows.get(older), row):
                    part.fault(
                        f"'{part.text}' has a row: delete one of the two, or empty this cell"
                    )
                if older in found:
                    part.fault(
                        f"'{part.text}' is the older name of two rows: empty one of the cells"
                    )
            name = row.of(head).text.replace(" ", "_")
            found[older] = Renamed(table.name if table else "", older, name)
    return list(found.values())


def _has_another(named: SheetRow | None, row: SheetRow) -> bool:
    """Whether the row with a name has an older name itself, and is not this one."""
    return named is not None and named.number != row.number and bool(named.of("was").text)
