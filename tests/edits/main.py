#!/usr/bin/env python3
"""Tries the edits of crates/*/must-fail, each of which the prover has to refuse, and keeps what
refused them.

usage: main.py [--anew] [--alone] [--both] [--built] [--again=TEXT] [CRATE..]
       main.py write

  --anew        try all edits, and take nothing from the record
  --alone       try each edit in a check of its own
  --both        try all edits, and then each by `rt must-fail` too, which has to say the
                same; leave that result in out/edits/alone
  --built       the crates are proved as they are, and their libraries in crates/*/out/rlib:
                `rt ci` has just done that
  --again=TEXT  try one recorded edit of each of three crates again, which this text chooses:
                the goals have to be those of the record
  CRATE         only the edits of these crates
  write         write the record of the last run into crates/*/edits.txt

An edit is tried unless the record, crates/*/edits.txt, has it with its present checksum. First
build.py builds the libraries below the crates with edits to try, unless they are built. Edits of
different functions are tried in one check (rounds.py), the crates side by side. The run leaves the
new record in out/edits, and prints an edit that is not refused. The last line is
`N passed, M failed`, with one for each edit.
"""

import shutil
import signal
import subprocess
import sys
from pathlib import Path
from typing import Dict, List, NamedTuple, Tuple

sys.path.insert(0, str(Path(__file__).resolve().parents[2]))

import again  # noqa: E402
import build  # noqa: E402
import one_by_one  # noqa: E402
import record  # noqa: E402
import sources  # noqa: E402
from edit import Edit, edits_of  # noqa: E402
from prover import ROOMS  # noqa: E402
from record import Entry  # noqa: E402
from trial import Outcome, Trials  # noqa: E402

FLAGS = ("--anew", "--alone", "--both", "--built")
AGAIN = "--again="
NEW = build.OUT / "edits"
# Says at which values the goals of the edits that only answers refuse are false.
VALUES = "tests/pages/refused_by_answers.txt"


class Plan(NamedTuple):
    """The edits of some crates: those whose refusal is taken from the record, those to try, and of
    these the ones whose refusal is compared with the record; and the checksum of each."""

    recorded: Dict[Edit, Entry]
    untried: List[Edit]
    compared: Dict[Edit, Entry]
    checksums: Dict[Edit, str]


def crates_with_edits(names: List[str]) -> Tuple[Dict[str, build.Crate], List[str]]:
    """These crates, or all if none is named, with those below them; and the names of those that
    have edits."""
    listed = [
        line.partition("#")[0].partition(":")[0].split()
        for line in (build.ROOT / "crates.txt").read_text().splitlines()
    ]
    crates = build.crates_below(names or [words[0] for words in listed if words])
    return crates, [
        name
        for name in crates
        if (not names or name in names) and (crates[name].home / "must-fail").exists()
    ]


def plan(crates: Dict[str, build.Crate], names: List[str], anew: bool) -> Plan:
    """Which edits of the crates of these names are to be tried."""
    sums = sources.sums(crates)
    judge = record.sum_of_judge()
    made = Plan({}, [], {}, {})
    for name in names:
        known = {} if anew else record.read(crates[name].home / "edits.txt")
        for edit in edits_of(name, crates[name].home):
            checksum = made.checksums[edit] = record.checksum(edit, sums[name], judge)
            entry = known.get(edit.name)
            if entry is not None and entry.checksum == checksum:
                made.recorded[edit] = entry
            else:
                made.untried.append(edit)
    return made


def with_some_again(made: Plan, text: str) -> Plan:
    """The plan in which recorded edits that this text chooses are tried, too."""
    compared = {edit: made.recorded[edit] for edit in again.chosen(made.recorded, text)}
    recorded = {edit: entry for edit, entry in made.recorded.items() if edit not in compared}
    return Plan(recorded, [*made.untried, *compared], compared, made.checksums)


def stale_of(crates: Dict[str, build.Crate], names: List[str]) -> List[str]:
    """The edits that a record has, and that are not there any more."""
    return [
        f"{name}/{edit}"
        for name in names
        for edit in record.read(crates[name].home / "edits.txt")
        if not (crates[name].home / "must-fail" / f"{edit}.edit").exists()
    ]


def build_below(crates: Dict[str, build.Crate], edits: List[Edit]) -> bool:
    """Builds the libraries that checks with these edits need, and says whether that succeeded."""
    below = set().union(*(crates[name].below for name in {edit.crate for edit in edits}))
    return not below or subprocess.run([build.ROOT / "build.py", *sorted(below)]).returncode == 0


def plural(count: int, what: str) -> str:
    """The number with its word."""
    return f"{count} {what}{'s' * (count != 1)}"


def tried(
    crates: Dict[str, build.Crate], made: Plan, each_alone: bool, are_proved: bool
) -> Dict[Edit, Outcome]:
    """Tries the edits of the plan. The record in `out/edits` has each as soon as it is refused,
    also if the run is ended."""
    by_crate: Dict[str, List[Edit]] = {}
    for edit in made.untried:
        by_crate.setdefault(edit.crate, []).append(edit)
    entries = dict(made.recorded)

    def keep(outcomes: Dict[Edit, Outcome]) -> None:
        entries.update(entries_of(made, outcomes))
        leave(sorted({edit.crate for edit in outcomes}), entries)

    shutil.rmtree(ROOMS, ignore_errors=True)
    trials = Trials(crates, by_crate, each_alone, are_proved, made.compared, keep)
    try:
        outcomes = trials.run()
    finally:
        shutil.rmtree(ROOMS, ignore_errors=True)
    if made.untried:
        print(
            f"edits: {plural(len(made.untried), 'edit')} in {plural(trials.checks, 'check')},"
            f" {trials.processor:.0f} s of processor time"
        )
    return outcomes


def tried_with_another_turn(
    crates: Dict[str, build.Crate], made: Plan, each_alone: bool, are_proved: bool
) -> Dict[Edit, Outcome]:
    """Tries the edits of the plan. If a signal ends the check of one that is to be compared with
    the record, it gets another turn; if that is ended too, the record is taken."""
    outcomes = tried(crates, made, each_alone, are_proved)
    lost = list(again.unended(made.compared, outcomes))
    if lost:
        outcomes.update(tried(crates, made._replace(untried=lost), each_alone, are_proved))
    for edit, entry in again.unended(made.compared, outcomes).items():
        print(f"edits: note: {edit.crate}/{edit.name}: {outcomes[edit].fault} twice")
        made.recorded[edit] = entry
        del outcomes[edit]
    return outcomes


def entries_of(made: Plan, outcomes: Dict[Edit, Outcome]) -> Dict[Edit, Entry]:
    """The entries of the edits that were refused."""
    return {
        edit: Entry(made.checksums[edit], one.goals) for edit, one in outcomes.items() if one.goals
    }


def leave(names: List[str], entries: Dict[Edit, Entry]) -> None:
    """Leaves the new record of these crates in `out/edits`."""
    NEW.mkdir(parents=True, exist_ok=True)
    for name in names:
        own = {edit.name: one for edit, one in entries.items() if edit.crate == name}
        (NEW / f"{name}.txt").write_text(record.text_of(own), encoding="utf-8")


def write() -> None:
    """Writes the record of the last run into the tree."""
    for file in sorted(NEW.glob("*.txt")):
        home = build.ROOT / "crates" / file.stem / "edits.txt"
        if home.parent.exists() and (not home.exists() or home.read_bytes() != file.read_bytes()):
            shutil.copy(file, home)
            print(f"written: {home.relative_to(build.ROOT)}")


def tell(
    made: Plan, outcomes: Dict[Edit, Outcome], entries: Dict[Edit, Entry], names: List[str]
) -> int:
    """Prints what is wrong, and the counts; the number of edits that failed."""
    failed = {edit: outcome for edit, outcome in outcomes.items() if not outcome.goals}
    for edit, outcome in failed.items():
        print(f"edits: {edit.crate}/{edit.name}: {outcome.fault}")
    for edit, entry in entries.items():
        if record.rests_on_answers(entry):
            print(
                f"edits: note: only answers that no longer fit refuse {edit.crate}/{edit.name}; its"
                f" line is in {VALUES}"
            )
    print(f"edits: {len(outcomes)} tried, {len(made.recorded)} taken from the record")
    for edit in made.compared:
        print(f"edits: the record has {edit.crate}/{edit.name}, and it was tried again")
    if names:
        print(
            f"edits: the record differs from that of the tree for {', '.join(names)}:"
            " 'tests/edits/main.py write' writes it there"
        )
    return len(failed)


def differing(names: List[str]) -> List[str]:
    """The crates whose new record is not that of the tree."""
    return [
        name
        for name in names
        if record.read(NEW / f"{name}.txt")
        != record.read(build.ROOT / "crates" / name / "edits.txt")
    ]


def commit() -> str:
    """The commit of the tree, as package/commit.sh has it."""
    words = ["bash", "-c", ". package/commit.sh && echo $commit"]
    return subprocess.run(
        words, cwd=build.ROOT, stdout=subprocess.PIPE, text=True, check=True
    ).stdout.strip()


def run(words: List[str]) -> int:
    """Tries the edits; the exit status."""
    crates, names = crates_with_edits([word for word in words if not word.startswith("--")])
    stale = stale_of(crates, names)
    for one in stale:
        print(f"edits: STALE: the record has {one}, and there is no such edit any more")
    both = "--both" in words
    made = plan(crates, names, both or "--anew" in words)
    for word in (word for word in words if word.startswith(AGAIN)):
        made = with_some_again(made, word[len(AGAIN) :])
    if "--built" not in words and not build_below(crates, made.untried):
        print(
            "edits: a crate is not proved, so no edits of those above it were tried\n0 passed, 1"
            " failed"
        )
        return 1
    outcomes = tried_with_another_turn(crates, made, "--alone" in words, "--built" in words)
    if made.checksums != plan(crates, names, True).checksums:
        print("edits: files changed while the edits were tried: try them again\n0 passed, 1 failed")
        return 1
    entries = {**made.recorded, **entries_of(made, outcomes)}
    leave(names, entries)
    differ = again.differences(made.compared, outcomes)
    if both:
        differ.update(one_by_one.differences(entries, one_by_one.must_fail(names)))
    for edit, why in differ.items():
        print(f"edits: {edit.crate}/{edit.name}: {why}")
        del entries[edit]
    failed = len(differ) + tell(made, outcomes, entries, differing(names))
    count = f"{len(entries)} passed, {failed + len(stale)} failed"
    if both:
        (NEW / "alone").write_text(f"{commit()}\n{count}\n{build.kit()}", encoding="utf-8")
    print(count)
    return int(failed + len(stale) > 0)


def main(words: List[str]) -> int:
    """Reads the command line; the exit status."""
    if words == ["write"]:
        write()
        return 0
    if any(
        word.startswith("--") and word not in FLAGS and not word.startswith(AGAIN) for word in words
    ):
        print(__doc__, file=sys.stderr)
        return 2
    for one in (signal.SIGINT, signal.SIGTERM, signal.SIGHUP):
        signal.signal(one, signal.default_int_handler)
    try:
        return run(words)
    except KeyboardInterrupt:
        print("edits: stopped; out/edits has what was tried", file=sys.stderr)
        return 130
    except build.Failed as fault:
        print(f"edits: {fault}", file=sys.stderr)
        return 1


if __name__ == "__main__":
    sys.exit(main(sys.argv[1:]))
