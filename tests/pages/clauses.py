#!/usr/bin/env python3
"""Says of each clause of each public contract what would miss it: a proof, an edit, or nothing.

usage: clauses.py [list | without | write | check]

  list     each clause with its guard; a clause without one has `nothing`
  without  the clauses without a guard
  write    takes clauses that have a guard or are gone from tests/pages/without_guard.txt, and adds
           those without one, for which a reason is to be written
  check    compares the clauses without a guard with that list; the word may be left out

A clause is guarded if one of these holds:

  equation  it says what the result, or what the call changes, or a part of these is equal to, in
            words that name neither: a body that gives anything else is refused
  proof     the proof of a caller names it, as in `c.run_bound.ensures.same`
  edit      an edit of must-fail/ was refused at a goal that names it, as in `returns-clause-same`
  values    an edit was refused there only by an answer that no longer fits, and
            tests/pages/refused_by_answers.txt has values at which the goal is false
  listed    its line in the list names a law that says it of all values, so that no body can break it,
            or a proof of a caller that takes it under a name that several functions have

A proof by search may use a clause without naming it, so a clause of without_guard.txt may well be
needed: its line says by what. The goals of the edits are those of the record, crates/*/edits.txt.
Nothing is proved: it takes some seconds. Ends with status 1 if a clause is not listed, or a listed
one has a guard, is gone, or is not tied as its line says.
"""

import os
import re
import sys
from collections import Counter
from pathlib import Path
from typing import Iterator, List, NamedTuple, Set, Tuple

sys.path.insert(0, str(Path(__file__).resolve().parent))
import calls  # noqa: E402
import edits  # noqa: E402
import ties  # noqa: E402
from calls import Clause, Contract  # noqa: E402

ROOT = Path(__file__).resolve().parents[2]
LIST = ROOT / "tests" / "pages" / "without_guard.txt"
ANSWERS = ROOT / "tests" / "pages" / "refused_by_answers.txt"
GUARDS = ("equation", "proof", "edit", "values", "listed", "nothing")


class Refused(NamedTuple):
    """The goals at which the edits of a crate were refused, each with its function: those for which
    a proof was searched, and those for which the list has values."""

    searched: Set[Tuple[str, str]]
    argued: Set[Tuple[str, str]]


def refusals(crate: str) -> Iterator[Tuple[str, str, str, bool]]:
    """The refusals of the crate's record: edit, function, goal, and whether it only shows that an
    answer no longer fits."""
    record = ROOT / "crates" / crate / "edits.txt"
    lines = record.read_text(encoding="utf-8").splitlines() if record.exists() else []
    for words in (line.split() for line in lines if not line.startswith("#")):
        yield words[0], "::".join(words[2].split("::")[-2:]), words[3], len(words) == 5


def refused_at(crate: str, has_values: Set[str]) -> Refused:
    """The goals at which edits of the crate were refused; the list has values for these goals."""
    found = list(refusals(crate))
    return Refused(
        {(place, goal) for _, place, goal, only_answer in found if not only_answer},
        {(place, goal) for edit, place, goal, _ in found if f"{crate} {edit} {goal}" in has_values},
    )


def is_refused(clause: Clause, is_alone: bool, goals: Set[Tuple[str, str]]) -> bool:
    """Whether one of these goals of its function is the clause's. The only clause of a function is
    not named by its goals."""
    own = [goal for place, goal in goals if place == clause.place]
    named = {label for goal in own for label in re.findall(r"clause-(\w+)", goal)}
    return clause.label in named or is_alone and any(goal.startswith("returns") for goal in own)


def guard(
    contract: Contract, is_alone: bool, named: Set[Clause], refused: Refused, reason: str
) -> str:
    """The guard of a clause; these clauses are named in proofs, and its line in the list has this
    reason."""
    if edits.is_equation(contract.text):
        return "equation"
    if contract.clause in named:
        return "proof"
    if is_refused(contract.clause, is_alone, refused.searched):
        return "edit"
    if is_refused(contract.clause, is_alone, refused.argued):
        return "values"
    return "listed" if ties.tie_of(reason) in ("law", "proof") else "nothing"


def guards() -> Iterator[Tuple[Contract, str]]:
    """Each clause of the product's public contracts, with its guard, or `nothing`."""
    crates = calls.product_crates()
    contracts = [contract for crate in crates for contract in calls.contracts_of(crate)]
    named = calls.named_in_proofs(crates, [contract.clause for contract in contracts])
    count = Counter(contract.clause._replace(label="") for contract in contracts)
    has_values = set(ties.listed(ANSWERS))
    known = ties.listed(LIST)
    refused = {crate: refused_at(crate, has_values) for crate in crates}
    for contract in (contract for contract in contracts if contract.is_public):
        clause = contract.clause
        is_alone = count[clause._replace(label="")] == 1
        reason = known.get(str(clause), "")
        yield contract, guard(contract, is_alone, named, refused[clause.crate], reason)


def differences(found: List[Tuple[Contract, str]]) -> Iterator[str]:
    """What the list of clauses and the tree do not agree on. The line of a clause may name an edit
    before the record has it."""
    known = ties.listed(LIST)
    listed = {
        str(one.clause): one.text
        for one, guard in found
        if guard in ("listed", "nothing")
        or guard == "edit"
        and known.get(str(one.clause), "").startswith("edit ")
    }
    yield from ties.differences(LIST, listed)
    names = {str(one.clause) for one, _ in found}
    for clause, reason in known.items():
        kind, _, other = reason.partition(" ")
        if kind == "follows" and f"{clause.rpartition(' ')[0]} {other}" not in names:
            yield f"{clause}: its function has no clause {other}"


def write(found: List[Tuple[Contract, str]]) -> None:
    """Writes the list anew, with the reasons that it has."""
    known = ties.listed(LIST)
    without = (str(one.clause) for one, guard in found if guard in ("listed", "nothing"))
    ties.write(LIST, {clause: known.get(clause, "") for clause in without})


def main(words: List[str]) -> int:
    """Tells what was asked for; the exit status."""
    asked = words[0] if words else "check"
    os.chdir(ROOT)
    found = list(guards())
    if asked == "write":
        write(found)
    if asked in ("list", "without"):
        for one, guard in found:
            if asked == "list" or guard == "nothing":
                print(f"{one.clause}: {guard}")
        return 0
    lines = list(differences(found))
    count = Counter(guard for _, guard in found)
    counts = ", ".join(f"{count[guard]} {guard}" for guard in GUARDS)
    print("\n".join([*lines, f"{len(found)} clauses: {counts}"]))
    return int(bool(lines))


if __name__ == "__main__":
    sys.exit(main(sys.argv[1:]))
