"""The names of skills: the sheet needs asks for them, and the sheet nurses has them."""

import re
from typing import Collection

from ..week.faults import Gathering
from .sheet_cells import SheetCell


class SkillNames:
    """The skills that the needs ask for, as they are written, and the first cell with each skill of
    a nurse."""

    def __init__(self, asked: Collection[str]) -> None:
        self._asked = {name.casefold() for name in asked}
        self._names = [name.replace(" ", "_") for name in asked]
        any_skill = "|".join(map(re.escape, sorted(self._asked, key=len, reverse=True)))
        self._several = re.compile(f"({any_skill})((?: and | ?[&+] ?| )({any_skill}))+")
        self.cells: dict[str, SheetCell] = {}

    def of(self, cell: SheetCell, faults: Gathering) -> tuple[str, ...]:
        """The skills of a nurse. After a fault all that the needs ask for are known, since she may
        have meant any of them."""
        skills: list[str] = []
        with faults.step():
            if not cell.parts():
                cell.fault("the cell is empty: write the nurse's skills, such as Charge, Nurse")
        for part in cell.parts():
            skill = faults.tried(lambda: self._one(part, skills), "")
            if skill:
                self.cells.setdefault(skill, part)
                skills.append(skill)
        if len(skills) < max(1, len(cell.parts())):
            for name in self._names:
                self.cells.setdefault(name, cell)
        return tuple(skills)

    def _one(self, part: SheetCell, before: Collection[str]) -> str:
        """One skill of a nurse, who has those before it."""
        if part.text.casefold() not in self._asked and self._several.fullmatch(
            part.text.casefold()
        ):
            part.fault(
                f"'{part.text}' is no skill of the sheet needs, and has several in it: write commas"
                " between skills"
            )
        skill = part.new_name("skill", [one.casefold() for one in before])
        return next((name for name in self.cells if name.casefold() == skill.casefold()), skill)
