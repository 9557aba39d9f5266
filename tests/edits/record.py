"""The record of refusals, `crates/NAME/edits.txt`: which goals refused each edit, and a checksum of
all that this depends on.

A line has the edit, the checksum, the function and the goal, and the word `answer` where the only
reason is an answer that no longer fits:

    sign_ends_no_word 5f0c.. rota_layout::cursor::token_len returns-else-is_sign-clause-token

An edit has a line for each goal. Its checksum is of the edit's text, of what its crate depends on,
as sources.py has it, and of the programs of this folder, which judge what the prover says. After a
change of any of these the edit is tried again.
"""

import hashlib
from pathlib import Path
from typing import Dict, FrozenSet, Iterable, List, NamedTuple

from edit import Edit
from verdict import Goal

HEAD = (
    "# What refused each edit of must-fail/; 'make edits' writes it, and CONTRIBUTING.md explains"
    " it.\n"
)
ANSWER = "answer"
DIGITS = 32


class Entry(NamedTuple):
    """What refused an edit: its checksum, and the goals."""

    checksum: str
    goals: FrozenSet[Goal]


def sum_of_judge() -> str:
    """A checksum of the programs of this folder: of their names and their bytes, and nothing
    else."""
    whole = hashlib.sha256()
    for file in sorted(Path(__file__).parent.glob("*.py")):
        whole.update(repr((file.name, file.read_bytes())).encode())
    return whole.hexdigest()


def checksum(edit: Edit, sources: str, judge: str) -> str:
    """The checksum of the edit, of these sources and of the judge."""
    whole = f"{sources} {judge} {edit.name}\n{edit.text}"
    return hashlib.sha256(whole.encode()).hexdigest()[:DIGITS]


def line(name: str, entry: Entry, goal: Goal) -> str:
    """The line of the record."""
    return (
        " ".join([name, entry.checksum, goal.function, goal.name, *[ANSWER] * goal.only_answer])
        + "\n"
    )


def text_of(entries: Dict[str, Entry]) -> str:
    """The text of the record of these edits."""
    return HEAD + "".join(
        line(name, entry, goal)
        for name, entry in sorted(entries.items())
        for goal in sorted(entry.goals)
    )


def read_lines(lines: Iterable[str]) -> Dict[str, Entry]:
    """The entries of a record. An edit with lines of several checksums, as after a merge, has none
    of them."""
    found: Dict[str, List[Entry]] = {}
    for words in (one.split() for one in lines if not one.startswith("#")):
        if len(words) in (4, 5):
            found.setdefault(words[0], []).append(
                Entry(words[1], frozenset([Goal(words[2], words[3], words[4:] == [ANSWER])]))
            )
    return {name: joined(entries) for name, entries in found.items()}


def joined(entries: List[Entry]) -> Entry:
    """The entry of all goals; without a checksum if these have several."""
    checksums = {one.checksum for one in entries}
    return Entry(
        checksums.pop() if len(checksums) == 1 else "",
        frozenset().union(*(one.goals for one in entries)),
    )


def read(file: Path) -> Dict[str, Entry]:
    """The entries of this record; none if there is no such file."""
    return read_lines(file.read_text(encoding="utf-8").splitlines()) if file.exists() else {}


def rests_on_answers(entry: Entry) -> bool:
    """Whether the edit is refused only by answers that no longer fit, which says little of the
    contract."""
    return all(goal.only_answer for goal in entry.goals)
