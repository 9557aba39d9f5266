#!/usr/bin/env python3
"""Compares the pages for contributors with the repository that they describe.

usage: places.py

  CONTRIBUTING.md      shows an edit and a line of the record as they are
  docs/changing.md     has files that exist, and names that are in the files of their row; its lists
                       of files are those that the commands above them print
  docs/rule_places.md  has such files and names, too
  docs/layers.md       draws each crate above those that it names

The numbers of crates are right. Prints each difference, and ends with status 1 if there is one.
"""

import re
import subprocess
import sys
from pathlib import Path
from typing import Dict, Iterator, List, Set

import soft_rules

ROOT = Path(__file__).resolve().parents[2]
CONTRIBUTING = (ROOT / "CONTRIBUTING.md").read_text()
CHANGING = (ROOT / "docs" / "changing.md").read_text()
RULE_PLACES = (ROOT / "docs" / "rule_places.md").read_text()
LAYERS = (ROOT / "docs" / "layers.md").read_text()

# The edit that CONTRIBUTING.md shows, and the one whose line of the record it shows.
EDIT = ROOT / "crates/rota_items/must-fail/complete_weekend_charged.edit"
RECORD, RECORDED = ROOT / "crates/rota_layout/edits.txt", "sign_ends_no_word"
# This page has the words of its searches itself.
ABOUT = {"docs/changing.md"}
# The column of docs/layers.md in which the words about a floor begin.
WORDS = 69


def crates() -> Dict[str, Set[str]]:
    """Each crate, with the crates of the repository that it names."""
    lines = (line.split(":") for line in (ROOT / "crates.txt").read_text().splitlines())
    named = {name: set(others.split()) for name, others in lines}
    return {name: others & named.keys() for name, others in named.items()}


def reached(name: str, named: Dict[str, Set[str]]) -> Set[str]:
    """The crate, and those below it."""
    return {name}.union(*(reached(other, named) for other in named[name]))


def floors() -> Dict[str, int]:
    """The floor of each crate in the drawing, from the top."""
    drawing = LAYERS.split("```")[1].splitlines()
    return {name: floor for floor, line in enumerate(drawing) for name in line[:WORDS].split()}


def misplaced_crates(named: Dict[str, Set[str]]) -> Iterator[str]:
    """Crates that are not above those that they name."""
    floor = floors()
    pairs = ((name, other) for name in floor for other in named.get(name, ()))
    for name, other in pairs:
        if floor[name] >= floor.get(other, 0):
            yield f"docs/layers.md does not draw {name} above {other}"


def missing_crates(named: Dict[str, Set[str]]) -> Iterator[str]:
    """Crates that the page does not have."""
    drawn = floors()
    for name in named:
        if name not in drawn and f"`{name}`" not in LAYERS:
            yield f"docs/layers.md has no {name}"


def wrong_numbers(named: Dict[str, Set[str]]) -> Iterator[str]:
    """Numbers that a page does not give."""
    one, both = (reached(name, named) for name in ("inrc2pb", "inrc2pb_bound"))
    resting = sum("rota_core" in reached(name, named) for name in named)
    for page, text in (
        (LAYERS, f"`inrc2pb` is {len(one)} crates, and `inrc2pb-bound` adds {len(both - one)}"),
        (CHANGING, f"{resting} of the {len(named)} crates"),
        (CHANGING, f"{len(named)} of {len(named)} crates ok"),
    ):
        if text not in page:
            yield f"no page says: {text}"


def wrong_printed() -> Iterator[str]:
    """Lines that soft_rules.py does not print for the next rule."""
    forgotten = soft_rules.forgotten(soft_rules.soft_rules() | {soft_rules.next_rule()})
    for place in re.findall(r"(?m)^(.+) names all soft rules but the next$", CHANGING):
        if place not in forgotten:
            yield f"docs/changing.md: soft_rules.py does not name {place}"


def found(path: str) -> List[Path]:
    """The file of this path, which begins at the top or with a crate."""
    return [file for file in (ROOT / path, ROOT / "crates" / path) if file.is_file()]


def paths_in(cells: List[str]) -> List[str]:
    """The paths of files that these cells of a table name."""
    return re.findall(r"`([\w/-]+/[\w.-]+\.\w+)`", " ".join(cells))


def rows() -> List[List[str]]:
    """The cells of the rows of tables, after an empty one."""
    lines = [*CHANGING.splitlines(), *RULE_PLACES.splitlines()]
    return [line.split("|") for line in lines if line.startswith("| ")]


def missing_files() -> Iterator[str]:
    """Files of tables that do not exist."""
    for path in (path for cells in rows() for path in paths_in(cells)):
        if not found(path):
            yield f"a table of places: there is no {path}"


def missing_names() -> Iterator[str]:
    """Names beside files that are in none of these."""
    pairs = ((cells[1], name) for cells in rows() for name in re.findall(r"`([\w-]+)`", cells[2]))
    for files, name in pairs:
        texts = [file.read_text() for path in paths_in([files]) for file in found(path)]
        word = re.compile(rf"(?<![\w-]){re.escape(name)}(?![\w-])")
        if texts and not any(map(word.search, texts)):
            yield f"a table of places: {name} is in none of {files.strip()}"


def wrong_lists() -> Iterator[str]:
    """Lists that are not those that `git grep -l` prints."""
    shown = re.findall(r'```\ngit grep -l "([^"]*)"\n```\n\n```\n(.*?)```', CHANGING, re.S)
    for words, listed in shown:
        grep = ["git", "grep", "-lF", words]
        files = subprocess.run(grep, cwd=ROOT, capture_output=True, text=True).stdout.split()
        if listed.split() != sorted(set(files) - ABOUT):
            yield f"docs/changing.md: git grep -l {words!r} prints {' '.join(files)}"
    if not shown:
        yield "docs/changing.md shows no git grep -l"


def wrong_quotes() -> Iterator[str]:
    """What CONTRIBUTING.md does not show as it is."""
    if EDIT.read_text() not in CONTRIBUTING:
        yield f"CONTRIBUTING.md does not show {EDIT.name}"
    line = next(line for line in RECORD.read_text().splitlines() if line.startswith(RECORDED))
    name, _, *goal = (re.escape(word) for word in line.split())
    if not re.search(" ".join([name, r"[0-9a-f]+\.\.", *goal]), CONTRIBUTING):
        yield f"CONTRIBUTING.md does not show: {line}"


def main() -> int:
    named = crates()
    faults = [
        *misplaced_crates(named),
        *missing_crates(named),
        *wrong_numbers(named),
        *wrong_printed(),
        *missing_files(),
        *missing_names(),
        *wrong_lists(),
        *wrong_quotes(),
    ]
    print(*faults, sep="\n", end="\n" if faults else "")
    return 1 if faults else 0


if __name__ == "__main__":
    sys.exit(main())
