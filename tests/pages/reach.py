"""Which files of specs/ a definition rests on, by the names in it and in those that it rests on.

A file that is imported may have definitions that nothing needs: here it counts only if a definition
of it is reached. A name is resolved through the imports of its file.
"""

import re
from pathlib import Path
from typing import Dict, List, NamedTuple, Optional, Set, Tuple

CRATES = Path(__file__).resolve().parents[2] / "crates"
USE = re.compile(r"^ *(?:pub )?use Rattle\.(\w+)\.specs\.([\w.]+?)(?:\.\{(.*)\})?(?: as (\w+))?$")
BEGIN = re.compile(
    r"\s*(?:(?:abbrev|unfoldable|opaque)(?: pub)?|pub) (\S+) :|(?:\s*pub )?(?:record|data) (\S+)"
)
FIELD = re.compile(r"  pub (?!record|data)")
WORD = re.compile(r"◌\S+◌|[^\s(){}.,;\[\]]+")
INNER = re.compile(r"(\w+)\.(\w+)")
# A definition: its file and its name.
Place = Tuple[Path, str]


class Definitions(NamedTuple):
    """The definitions of a file, each with its text, and the names that it imports, each with the
    file and the name there, which is empty for a whole file."""

    texts: Dict[str, str]
    imports: Dict[str, Place]


def imported(line: str) -> Dict[str, Place]:
    """The names that a line imports."""
    found = USE.match(line)
    if not found:
        return {}
    crate, module, names, alias = found.groups()
    file = CRATES / crate / "specs" / (module.replace(".", "/") + ".antt")
    if names is None:
        return {alias or module.split(".")[-1]: (file, "")}
    pairs = (name.strip().split(" as ") for name in names.split(","))
    return {pair[-1].strip(): (file, pair[0].strip()) for pair in pairs}


def read(file: Path) -> Definitions:
    """The definitions of a file. Comments are left out."""
    found = Definitions({}, {})
    name = ""
    for line in file.read_text(encoding="utf-8").splitlines():
        line = re.sub(r"(^| )\s*--.*", "", line)
        found.imports.update(imported(line))
        begin = BEGIN.match(line)
        if begin and not (name and FIELD.match(line)):
            name = begin[1] or begin[2]
        if name and line.strip() and not USE.match(line):
            found.texts[name] = f"{found.texts.get(name, '')}{line}\n"
    return found


def resolved(all_of: Dict[Path, Definitions], file: Path, name: str) -> Optional[Place]:
    """The definition that a name in this file means, if it is one of specs/."""
    while file in all_of:
        if name in all_of[file].texts:
            return file, name
        file, name = all_of[file].imports.get(name, (Path(), ""))
    return None


def named_in(all_of: Dict[Path, Definitions], place: Place) -> Set[Place]:
    """The definitions that a definition names, also as parts of an imported file."""
    file, name = place
    text = all_of[file].texts[name]
    found = {resolved(all_of, file, word) for word in WORD.findall(text)}
    for outer, inner in INNER.findall(text):
        module, _ = all_of[file].imports.get(outer, (Path(), ""))
        found.add(resolved(all_of, module, inner))
    return {place for place in found if place is not None}


def reached(roots: List[Place]) -> Set[Path]:
    """The files with definitions on which these rest."""
    all_of = {file: read(file) for file in CRATES.glob("*/specs/**/*.antt")}
    seen: Set[Place] = set()
    todo = set(roots)
    while todo:
        place = todo.pop()
        seen.add(place)
        todo |= named_in(all_of, place) - seen
    return {file for file, _ in seen}
