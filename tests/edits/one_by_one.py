"""Tries all edits one by one by `rt must-fail`, and compares what it says with what the rounds said
of them."""

import re
import subprocess
from typing import Dict, Iterable, Iterator, List, NamedTuple, Tuple

import build
from edit import Edit
from record import Entry

LINE = re.compile(r"(?:rt: )?must-fail (\S+?)/(\S+)\.edit: (.*)")
NAME = re.compile(r"\(`([^`]+)`\)|: error: `([^`]+)`:")


class Trial(NamedTuple):
    """What `rt must-fail` said of an edit."""

    is_refused: bool
    told: str


def from_nothing() -> List[str]:
    """The word with which `rt must-fail` takes no result of an earlier run; none if this kit keeps
    no results."""
    guide = subprocess.run(
        ["rt", "help"], stdout=subprocess.PIPE, stderr=subprocess.STDOUT, text=True
    )
    return ["--anew"] if "--anew" in guide.stdout else []


def trials_in(lines: Iterable[str]) -> Iterator[Tuple[Tuple[str, str], Trial]]:
    """For each edit, by its crate and its name, what the output of `rt must-fail` says."""
    for line in lines:
        found = LINE.match(line)
        if found:
            yield (found[1], found[2]), Trial(found[3].startswith("refused"), found[3])


def must_fail(names: List[str]) -> Dict[Tuple[str, str], Trial]:
    """Tries the edits of these crates one by one."""
    words = ["rt", "must-fail", *from_nothing(), *names]
    ran = subprocess.run(
        words,
        cwd=build.ROOT,
        stdout=subprocess.PIPE,
        stderr=subprocess.STDOUT,
        text=True,
        errors="replace",
    )
    print(ran.stdout, end="", flush=True)
    return dict(trials_in(ran.stdout.splitlines()))


def difference(entry: Entry, trial: Trial) -> str:
    """How the two trials of an edit differ, or nothing. `rt must-fail` names the first goal that it
    meets."""
    if not trial.is_refused:
        return f"alone it is not refused: {trial.told}"
    named = NAME.search(trial.told)
    goal = (named[1] or named[2]) if named else ""
    if goal and goal not in {one.name for one in entry.goals}:
        return (
            f"alone it is refused by {goal}, and in a round by"
            f" {', '.join(sorted(one.name for one in entry.goals))}"
        )
    return ""


def differences(
    entries: Dict[Edit, Entry], trials: Dict[Tuple[str, str], Trial]
) -> Dict[Edit, str]:
    """The edits, refused in their rounds, for which `rt must-fail` says something else."""
    found = {}
    for edit, entry in entries.items():
        trial = trials.get((edit.crate, edit.name))
        why = difference(entry, trial) if trial else "it was not tried alone"
        if why:
            found[edit] = why
    return found
