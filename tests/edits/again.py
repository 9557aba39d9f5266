"""Tries recorded edits again, and compares what refuses them with the record.

A record can be written by hand, with goals that no prover has seen. So the gate tries one recorded
edit of each of three crates again. The name of the commit chooses them: before the commit is made,
nobody knows which lines will be compared.
"""

import hashlib
from typing import Dict, Iterable, List

from edit import Edit
from record import Entry
from trial import NOT_ENDED, Outcome
from verdict import Goal

CRATES = 3


def rank(text: str, name: str) -> str:
    """The place of this name in the order that a text gives."""
    return hashlib.sha256(f"{text} {name}".encode()).hexdigest()


def chosen(recorded: Iterable[Edit], text: str) -> List[Edit]:
    """The edits that this text chooses: one of each of three crates."""
    first: Dict[str, Edit] = {}
    for edit in sorted(recorded, key=lambda edit: rank(text, f"{edit.crate}/{edit.name}")):
        first.setdefault(edit.crate, edit)
    return [first[crate] for crate in sorted(first, key=lambda crate: rank(text, crate))[:CRATES]]


def unended(compared: Dict[Edit, Entry], outcomes: Dict[Edit, Outcome]) -> Dict[Edit, Entry]:
    """The edits whose check a signal ended, as on a machine that is too slow or too small."""
    return {edit: entry for edit, entry in compared.items() if outcomes[edit].fault == NOT_ENDED}


def words_of(goals: Iterable[Goal]) -> str:
    """The goals, each as in the record."""
    return ", ".join(
        " ".join([goal.function, goal.name, *["answer"] * goal.only_answer])
        for goal in sorted(goals)
    )


def differences(compared: Dict[Edit, Entry], outcomes: Dict[Edit, Outcome]) -> Dict[Edit, str]:
    """The edits that other goals refuse than the record has, each with both. An edit that nothing
    refuses has a fault of its own."""
    return {
        edit: f"the record has {words_of(entry.goals)}, and the prover {words_of(goals)}"
        for edit, entry, goals in (
            (edit, entry, outcomes[edit].goals)
            for edit, entry in compared.items()
            if edit in outcomes
        )
        if goals and goals != entry.goals
    }
