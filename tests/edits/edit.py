"""An edit of `must-fail`: a wrong body, or a wrong line of a definition, that the prover has to
refuse."""

from pathlib import Path
from typing import Dict, Iterable, List, NamedTuple, Tuple


class Unfit(Exception):
    """Why an edit cannot be applied."""


class Change(NamedTuple):
    """A line of a file of the crate, and what it becomes."""

    path: str
    old: str
    new: str


class Edit(NamedTuple):
    """The edit `must-fail/NAME.edit` of a crate: its text, and the changes that this text
    states."""

    crate: str
    name: str
    text: str
    changes: Tuple[Change, ...]


def changes_of(text: str) -> Tuple[Change, ...]:
    """The changes that the text of an edit states: lines `file: PATH`, and pairs of `old: LINE` and
    `new: LINE`."""
    path = ""
    old = ""
    found = []
    for line in text.split("\n"):
        if line.startswith("file: "):
            path = line[len("file: ") :].strip()
        elif line.startswith("old: "):
            old = line[len("old: ") :]
        elif line.startswith("new:"):
            found.append(Change(path, old, line[len("new:") :][line.startswith("new: ") :]))
    return tuple(found)


def edits_of(crate: str, folder: Path) -> List[Edit]:
    """The edits of the crate, whose folder is given, by their names."""
    found = []
    for file in sorted((folder / "must-fail").glob("*.edit")):
        text = file.read_text(encoding="utf-8")
        found.append(Edit(crate, file.stem, text, changes_of(text)))
    return found


def edited(edits: Iterable[Edit], folder: Path) -> Dict[str, str]:
    """The texts of the files that these edits change together, by their paths below the crate's
    folder.

    Raises Unfit if a line that an edit changes is not in its file exactly once.
    """
    texts: Dict[str, str] = {}
    for edit in edits:
        if not edit.changes:
            raise Unfit(f"{edit.name} changes nothing")
        for path, old, new in edit.changes:
            if path not in texts:
                if not (folder / path).is_file():
                    raise Unfit(f"{edit.name}: there is no file {path}")
                texts[path] = (folder / path).read_text(encoding="utf-8")
            count = texts[path].count(old) if old else 0
            if count != 1:
                raise Unfit(f"{edit.name}: the text is {count} times in {path}: {old}")
            texts[path] = texts[path].replace(old, new)
    return texts
