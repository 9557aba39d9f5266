#!/usr/bin/env python3
"""Says which edits of crates/*/must-fail/ are refused only by answers that no longer fit, and
compares them with a list.

usage: refused_by_answers.py [list | check]

  list   these edits, each with the goals of those answers
  check  compares them with tests/pages/refused_by_answers.txt; the word may be left out

Such a refusal shows that this proof no longer fits the edited body, and not that there is none. So
each of these edits has a line in the list, which says at which values a goal of it is false. The
goals are those of the record, crates/*/edits.txt. Nothing is proved: it takes a second. Ends with
status 1 if an edit is not listed, or a listed one is refused at a goal for which a proof was
searched, or is gone.
"""

import sys
from pathlib import Path
from typing import Dict, Iterator, List, Set

ROOT = Path(__file__).resolve().parents[2]
sys.path.insert(0, str(ROOT / "tests" / "edits"))

import record  # noqa: E402

LIST = ROOT / "tests" / "pages" / "refused_by_answers.txt"


def refused_by_answers() -> Dict[str, Set[str]]:
    """The edits that only answers refuse, as crate and name, each with the names of its goals."""
    found = {}
    for file in sorted(ROOT.glob("crates/*/edits.txt")):
        for name, entry in record.read(file).items():
            if record.rests_on_answers(entry):
                found[f"{file.parent.name} {name}"] = {goal.name for goal in entry.goals}
    return found


def listed() -> Dict[str, str]:
    """The edits of the list, as crate and name, each with the goal that its line names. A line
    without values counts as none."""
    lines = [
        line
        for line in LIST.read_text(encoding="utf-8").splitlines()
        if line and not line.startswith("#")
    ]
    words = [
        head.split()
        for head, _, values in (line.partition(": ") for line in lines)
        if values.strip()
    ]
    return {" ".join(one[:2]): " ".join(one[2:]) for one in words}


def differences(found: Dict[str, Set[str]], known: Dict[str, str]) -> Iterator[str]:
    """What the list and the records do not agree on."""
    for edit, goal in known.items():
        if edit not in found:
            yield (
                f"{edit}: the list has it, and it is refused at a goal for which a proof was"
                " searched, or is gone"
            )
        elif goal not in found[edit]:
            yield (
                f"{edit}: the list names the goal {goal or 'nothing'}, and the record"
                f" {', '.join(sorted(found[edit]))}"
            )
    for edit, goals in found.items():
        if edit not in known:
            yield (
                f"{edit}: only answers refuse it, at {', '.join(sorted(goals))}: find another body,"
                " or write a line with values"
            )


def main(words: List[str]) -> int:
    """Tells what was asked for; the exit status."""
    found = refused_by_answers()
    if words == ["list"]:
        print("\n".join(f"{edit}: {' '.join(sorted(goals))}" for edit, goals in found.items()))
        return 0
    lines = [f"{LIST.relative_to(ROOT)}: {one}" for one in differences(found, listed())]
    print("\n".join([*lines, f"{len(found)} edits are refused only by answers"]))
    return int(bool(lines))


if __name__ == "__main__":
    sys.exit(main(sys.argv[1:]))
