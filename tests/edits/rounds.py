"""The rounds of edits that are tried in one check.

An edit of a function's body changes no contract, and the prover proves each function from the
contracts of those that it calls. So the goals of a function are the same whether another function
is edited too or not, and edits of several functions can be tried together: the check names the open
goals of each of them. A round has one edit of a function. An edit of something else, such as a
definition, is tried alone.
"""

import re
from pathlib import Path
from typing import Dict, FrozenSet, List, NamedTuple, Optional, Tuple

from edit import Edit, Unfit, edited

FUNCTION = re.compile(r"^[ \t]*(?:pub(?:\(\w+\))? )?(?:const |unsafe |ghost )*fn (\w+)")
BLOCK = re.compile(
    r"^(?:pub(?:\(\w+\))? |unsafe )*(?:impl\b(?:<.*?>(?= ))?|trait) (.*?)\s*(?:\{|where|$)"
)


class Place(NamedTuple):
    """A function: its file, the type or the module that it belongs to and its name, as the prover
    has them, and its lines, up to the next function; attributes and comments above its head are the
    function's."""

    path: str
    owner: str
    function: str
    first: int
    last: int


class Round(NamedTuple):
    """Edits of a crate that are tried in one check, and for each the functions that it changes;
    none where it changes something else."""

    edits: Tuple[Edit, ...]
    changes: Tuple[FrozenSet[Place], ...]

    @property
    def changed(self) -> FrozenSet[Place]:
        """All functions that the edits change."""
        return frozenset().union(*self.changes)

    def split(self) -> List["Round"]:
        """A round for each of its edits."""
        return [Round((edit,), (changed,)) for edit, changed in zip(self.edits, self.changes)]


def owner_of(header: str) -> str:
    """The name that the prover gives an `impl` with this header: its type's, and its trait's behind
    it."""
    parts = [
        re.match(r"(?:&(?:'\w+ )?(?:mut )?)?(?:\w+::)*(\w+)", part.strip())
        for part in header.split(" for ")
    ]
    return "".join(part[1] for part in reversed(parts) if part)


def above(lines: List[str]) -> int:
    """How many of the last lines are attributes and comments."""
    count = 0
    while count < len(lines) and lines[-count - 1].lstrip().startswith(("#[", "//")):
        count += 1
    return count


def functions_of(path: str, text: str) -> List[Place]:
    """The functions of a source file, in its order."""
    lines = text.split("\n")
    module = Path(path).stem
    owner = module
    heads = []
    for number, line in enumerate(lines, 1):
        head = FUNCTION.match(line)
        block = BLOCK.match(line)
        if block:
            owner = owner_of(block[1])
        elif line.startswith("}"):
            owner = module
        if head:
            heads.append((owner, head[1], number - above(lines[: number - 1])))
    lasts = [number - 1 for _, _, number in heads[1:]] + [len(lines)]
    return [
        Place(path, owner, name, first, last) for (owner, name, first), last in zip(heads, lasts)
    ]


def places_of(edit: Edit, texts: Dict[str, str]) -> Optional[FrozenSet[Place]]:
    """The functions that the edit changes, or None if it changes something else too, or does not
    fit these source files."""
    found = set()
    for path, old, _ in edit.changes:
        text = texts.get(path, "")
        if text.count(old) != 1:
            return None
        line = text.count("\n", 0, text.index(old)) + 1
        inside = [one for one in functions_of(path, text) if one.first <= line <= one.last]
        if not inside:
            return None
        found.add(inside[0])
    return frozenset(found) or None


def can_join(edit: Edit, changed: FrozenSet[Place], round: Round, folder: Path) -> bool:
    """Whether the edit, which changes these functions, can be tried with those of the round."""
    if not round.changed or changed & round.changed:
        return False
    try:
        edited([*round.edits, edit], folder)
    except Unfit:
        return False
    return True


def rounds_of(edits: List[Edit], folder: Path) -> List[Round]:
    """The rounds in which these edits of a crate, whose folder is given, are tried: each in the
    first one that it can join."""
    texts = {
        str(file.relative_to(folder)): file.read_text(encoding="utf-8")
        for file in (folder / "src").rglob("*.rt")
    }
    rounds: List[Round] = []
    for edit in edits:
        changed = places_of(edit, texts) or frozenset()
        number = next(
            (
                number
                for number, one in enumerate(rounds)
                if changed and can_join(edit, changed, one, folder)
            ),
            None,
        )
        if number is None:
            rounds.append(Round((edit,), (changed,)))
        else:
            rounds[number] = Round(
                (*rounds[number].edits, edit), (*rounds[number].changes, changed)
            )
    return rounds
