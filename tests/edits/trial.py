"""Tries edits: the rounds of a crate one after another, those of several crates side by side, and
alone what a round does not settle.

The first round of a crate is a check from nothing, unless a check in its folder has kept its work.
All functions but the edited ones are proved in it, and the next round only proves what the rounds
before it did not. So no crate is proved once more for its edits alone. If a crate is proved as it
is, and the record says that the functions that an edit changes refused it, only these are checked.
"""

import os
import re
import sys
import time
from concurrent.futures import FIRST_COMPLETED, Future, ThreadPoolExecutor, wait
from pathlib import Path
from typing import Callable, Dict, FrozenSet, List, NamedTuple, Optional, Set, Tuple

sys.path.insert(0, str(Path(__file__).resolve().parents[2]))

import build  # noqa: E402
from edit import Edit, Unfit  # noqa: E402
from prover import Check, check, stop  # noqa: E402
from record import Entry  # noqa: E402
from rounds import Place, Round, functions_of, rounds_of  # noqa: E402
from verdict import NO_LONGER_FITS, Function, Goal, Verdict, is_readable  # noqa: E402

# The memory that one check is planned to take, in KiB.
MEMORY = 2_500_000
# A round without edits: it shows that the crate is proved as it is.
AS_IT_IS = Round((), ())
# The fault of an edit whose check came to no verdict.
NOT_ENDED = "NOT ENDED: a signal ended the check"


class Outcome(NamedTuple):
    """What the trial of an edit came to: the goals that refused it, or, if there are none, why it
    is not refused."""

    goals: FrozenSet[Goal]
    fault: str


# ---- what a check says of its edits


def place_of(function: Function, places: List[Place]) -> Optional[Place]:
    """The function of the source that a check names, by where its goals stand, or else by its name;
    None if that is not clear."""
    if function.lines:
        found = {
            next(
                (one for one in places if one.path == path and one.first <= line <= one.last), None
            )
            for path, line in function.lines
        }
    else:
        owner, name = function.path.split("::")[-2:]
        named = [one for one in places if one.function == name]
        found = {one for one in named if one.owner == owner} or {
            one for one in named if owner.startswith(one.owner)
        }
    return found.pop() if len(found) == 1 else None


def functions_of_record(
    round: Round, recorded: Dict[Edit, Entry], places: List[Place]
) -> FrozenSet[str]:
    """The functions that refused the edits of the round by the record, if these are the ones that
    the edits change; else none."""
    if not all(edit in recorded for edit in round.edits):
        return frozenset()
    names = {goal.function for edit in round.edits for goal in recorded[edit].goals}
    found = {place_of(Function(name, frozenset(), frozenset()), places) for name in names}
    return frozenset(names if found == round.changed else ())


def refused(round: Round, said: Verdict, places: List[Place]) -> Dict[Edit, FrozenSet[Goal]]:
    """The edits of the round that are refused, each by open goals of the functions that it changes;
    none if any other function has an open goal of its own, or anything could not be read."""
    if said.proved is not False or said.others or not is_readable(said):
        return {}
    goals: Dict[Place, Set[Goal]] = {place: set() for place in round.changed}
    for function in said.functions:
        place = place_of(function, places)
        if place not in goals:
            return {}
        goals[place] |= function.goals
    found = {
        edit: frozenset().union(*(goals[place] for place in changed))
        for edit, changed in zip(round.edits, round.changes)
    }
    return {edit: one for edit, one in found.items() if one}


def changes_definitions(edit: Edit) -> bool:
    """Whether the edit changes a definition, and not a body alone."""
    return any(change.path.startswith("specs/") for change in edit.changes)


def is_of_a_law(goal: Goal) -> bool:
    """Whether the goal is of a law, or of a module of lemmas, whose name has a capital."""
    _, folder, module, *_ = [*goal.function.split("::"), ""]
    return folder == "laws" or folder == "proofs" and module[:1].isupper()


def alone(edit: Edit, made: Check) -> Outcome:
    """What a check with this edit alone, of a crate that is proved as it is, says of the edit."""
    said = made.verdict
    if said.proved:
        return Outcome(frozenset(), "NOT REFUSED: the crate is proved with this edit")
    if made.is_killed:
        return Outcome(frozenset(), NOT_ENDED)
    if not is_readable(said):
        return Outcome(frozenset(), f"NOT READ: the check came to no verdict:\n{made.tail}")
    goals = {goal for function in said.functions for goal in function.goals}
    for other in said.others:
        file, _, message = other.partition(": ")
        module = re.sub(r"\.(antt|rt)$", "", file).replace("/", "::")
        goals.add(Goal(f"{edit.crate}::{module}", "lemma", bool(NO_LONGER_FITS.search(message))))
    if changes_definitions(edit) and not all(is_of_a_law(goal) for goal in goals):
        others = ", ".join(sorted(goal.function for goal in goals if not is_of_a_law(goal)))
        return Outcome(frozenset(), f"NOT BY A LAW ALONE: {others} has to be proved, too")
    return Outcome(
        frozenset(goals), "" if goals else f"NOT JUDGED: the check names no open goal:\n{made.tail}"
    )


# ---- all of them


def lanes() -> int:
    """How many checks run side by side: one for each processor, if memory allows."""
    found = re.search(r"MemAvailable:\s+(\d+)", Path("/proc/meminfo").read_text(encoding="utf-8"))
    most = int(found[1]) // MEMORY if found else 1
    return max(1, min(len(os.sched_getaffinity(0)), most))


class Chain:
    """The rounds of a crate that are still to be tried. Before edits are tried alone, the crate has
    to be proved as it is: then an open goal is the edit's."""

    def __init__(
        self,
        crate: build.Crate,
        edits: List[Edit],
        each_alone: bool,
        is_proved: bool,
        recorded: Dict[Edit, Entry],
    ) -> None:
        self.crate = crate
        self.is_proved = is_proved
        self.recorded = recorded
        self.places = places_in(crate.home)
        whole = rounds_of(edits, crate.home)
        rounds = [
            one
            for round in whole
            if round.changed
            for one in (round.split() if each_alone else [round])
        ]
        self.rounds = sorted(rounds, key=lambda round: -len(round.edits))
        self.alone = [round for round in whole if not round.changed]

    def is_done(self) -> bool:
        """Whether all is tried."""
        return not self.rounds and not self.alone

    def take(self) -> Round:
        """The next round."""
        if self.rounds:
            return self.rounds.pop(0)
        return self.alone.pop(0) if self.is_proved else AS_IT_IS

    def functions(self, round: Round) -> FrozenSet[str]:
        """The functions that a check with these edits is about, or none if it is about all."""
        if not self.is_proved or round == AS_IT_IS:
            return frozenset()
        return functions_of_record(round, self.recorded, self.places)

    def weight(self) -> int:
        """The crate whose rounds take longest comes first: those with the most code, most often."""
        return self.crate.code_size() * (1 + len(self.rounds) + len(self.alone))

    def settle(self, round: Round, made: Check) -> Dict[Edit, Outcome]:
        """What the round says of its edits. Of what it does not settle each is tried alone."""
        if round == AS_IT_IS:
            return self.settle_as_it_is(made)
        goals = refused(round, made.verdict, self.places)
        found = {edit: Outcome(one, "") for edit, one in goals.items()}
        if self.is_proved and len(round.edits) == 1:
            found = {edit: found.get(edit) or alone(edit, made) for edit in round.edits}
        self.alone += [one for one in round.split() if one.edits[0] not in found]
        return found

    def settle_as_it_is(self, made: Check) -> Dict[Edit, Outcome]:
        """Lets the edits be tried alone if the crate is proved as it is."""
        self.is_proved = bool(made.verdict.proved)
        if self.is_proved:
            return {}
        not_tried = f"NOT TRIED: the crate is not proved as it is:\n{made.tail}"
        fault = NOT_ENDED if made.is_killed else not_tried
        lost = self.alone
        self.alone = []
        return {edit: Outcome(frozenset(), fault) for round in lost for edit in round.edits}


class Trials:
    """The trials of the edits of some crates, which may be proved as they are already; some are
    compared with their entries in the record. Each outcome is kept as soon as it is known."""

    def __init__(
        self,
        crates: Dict[str, build.Crate],
        edits: Dict[str, List[Edit]],
        each_alone: bool,
        are_proved: bool,
        compared: Dict[Edit, Entry],
        keep: Callable[[Dict[Edit, Outcome]], None],
    ) -> None:
        self.crates = crates
        self.keep = keep
        self.outcomes: Dict[Edit, Outcome] = {}
        self.waiting = [
            Chain(crates[name], some, each_alone, are_proved, compared)
            for name, some in edits.items()
        ]
        self.processor = 0.0
        self.checks = 0
        self.running: Set[int] = set()
        self.began = time.monotonic()

    def run(self) -> Dict[Edit, Outcome]:
        """Tries all; if that is broken off, it ends what runs."""
        with ThreadPoolExecutor(lanes()) as pool:
            try:
                self.run_in(pool)
            finally:
                stop(self.running)
        return self.outcomes

    def run_in(self, pool: ThreadPoolExecutor) -> None:
        """Tries all, as many crates at a time as the pool has threads; if they are fewer, each gets
        several jobs."""
        running: Dict["Future[Check]", Tuple[Chain, Round]] = {}
        count = lanes()
        while self.waiting or running:
            self.waiting.sort(key=Chain.weight)
            while self.waiting and len(running) < count:
                jobs = max(1, count // (len(self.waiting) + len(running)))
                chain = self.waiting.pop()
                round = chain.take()
                words = (chain.crate, self.crates, round.edits, chain.functions(round), jobs)
                running[pool.submit(check, *words, self.running)] = (chain, round)
            for done in wait(running, return_when=FIRST_COMPLETED).done:
                chain, round = running.pop(done)
                self.settle(chain, round, done)
                if not chain.is_done():
                    self.waiting.append(chain)

    def settle(self, chain: Chain, round: Round, done: "Future[Check]") -> None:
        """Takes what a round came to."""
        try:
            made = done.result()
        except Unfit as fault:
            self.outcomes.update(
                {edit: Outcome(frozenset(), f"STALE: {fault}") for edit in round.edits}
            )
            return
        self.processor = self.processor + made.processor
        self.checks = self.checks + 1
        found = chain.settle(round, made)
        self.outcomes.update(found)
        self.keep(found)
        self.tell(chain, round, made, sum(edit not in found for edit in round.edits))

    def tell(self, chain: Chain, round: Round, made: Check, left: int) -> None:
        """Prints what a round came to."""
        minutes, seconds = divmod(int(time.monotonic() - self.began), 60)
        what = (
            "as it is"
            if round == AS_IT_IS
            else round.edits[0].name
            if len(round.edits) == 1
            else f"{len(round.edits)} edits"
        )
        again = f"; {left} to be tried alone" if left else ""
        print(
            (
                f"{minutes:3}:{seconds:02}  {chain.crate.name}: {what}, {made.processor:.0f} s of"
                f" processor time{again}"
            ),
            flush=True,
        )


def places_in(folder: Path) -> List[Place]:
    """The functions of the crate's source files."""
    found: List[Place] = []
    for file in sorted((folder / "src").rglob("*.rt")):
        found += functions_of(str(file.relative_to(folder)), file.read_text(encoding="utf-8"))
    return found
