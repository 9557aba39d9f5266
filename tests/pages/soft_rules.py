#!/usr/bin/env python3
"""Names the places that forget a soft rule.

usage: soft_rules.py [next]

Most files name no rule, or a few. Three kinds of places have to name all of them, but for those that
are exempt:

  a list   names that follow one another in order: rows of a table, arms of a `match`, words of a line,
           or a range such as `S3 to S5`. It is a place if it names all rules but one.
  a file   is a place if it names all rules but one.
  a group  files that share the rules, such as those with the costs of a search.

A range that begins with S2 is about what charges a nurse, which S1 does not. With `next`, the script
names the places that the next rule will have to reach. Prints each place, a list with its last line,
and ends with status 1 if there is one.
"""

import re
import subprocess
import sys
from collections.abc import Iterator
from pathlib import Path
from typing import NamedTuple

RULES_IN_CODE = Path("crates/rota_core/src/rule.rt")
# Records, and files of solvers, name the rules of their time, and this file names examples.
OTHERS = (
    r"(CHANGELOG\.md|docs/DECISIONS\.md|tests/pages/soft_rules\.py|.*\.txt|.*\.edit|"
    r"(bench|certified|examples)/.*(?<!\.py)(?<!\.md))$"
)
# Rules that have no line in a file, and why.
EXEMPT = {
    # S4 has terms of the objective, no constraint and no slack, and S1 is no sum over nurses.
    "crates/rota_items/src/rules.rt": {"S1", "S4"},
    "docs/model.md": {"S4"},
    # S6 has a function of its own.
    "python/inrc2pb/judging/constraints.py": {"S4", "S6"},
    "tests/program/longest_model.sh": {"S4"},
}
# Files that together name all rules: the costs of the search, by days and by totals.
GROUPS = [
    (
        "python/inrc2pb/judging/runs.py",
        "python/inrc2pb/rows/plan.py",
        "python/inrc2pb/rows/row_graph.py",
    )
]


class Mention(NamedTuple):
    """The numbers of the rules that a text names in one place, and its line."""

    numbers: range
    line: int


def soft_rules() -> set[str]:
    """The names of the soft rules, as the code lists them."""
    return set(re.findall(r"Rule::(S\d+),", RULES_IN_CODE.read_text()))


def next_rule() -> str:
    """The name of the rule that is still to come."""
    return f"S{len(soft_rules()) + 1}"


def texts() -> Iterator[tuple[str, str]]:
    """The files of the repository that people write, with their texts."""
    listed = subprocess.run(
        ["git", "ls-files", "-co", "--exclude-standard"], capture_output=True, text=True, check=True
    )
    for name in listed.stdout.splitlines():
        path = Path(name)
        if path.is_file() and not re.match(OTHERS, name):
            try:
                yield name, path.read_text()
            except UnicodeDecodeError:
                continue


def mentions(text: str) -> list[Mention]:
    """The rules that the text names, one by one or from one to another, in their order."""
    found = re.finditer(r"(?:\b|(?<=\\n))S(\d+)(?:\s+to\s+S(\d+))?\b", text)
    return [
        Mention(range(int(one[1]), int(one[2] or one[1]) + 1), text.count("\n", 0, one.end()) + 1)
        for one in found
    ]


def lists(found: list[Mention]) -> Iterator[list[Mention]]:
    """The mentions, cut where the next one begins with an earlier rule."""
    begin = 0
    for end in range(1, len(found) + 1):
        if end == len(found) or found[end].numbers.start < found[end - 1].numbers[-1]:
            yield found[begin:end]
            begin = end


def named(found: list[Mention]) -> set[str]:
    """The rules that these mentions name; S1, too, if they begin with a range from S2 on."""
    ranges = (one.numbers for one in found)
    names = {f"S{number}" for numbers in ranges for number in numbers}
    return names | ({"S1"} if any(one.numbers[:2] == range(2, 4) for one in found) else set())


def missing(found: list[Mention], rules: set[str]) -> frozenset[str]:
    """The rule that these mentions forget: nothing if they name all rules, or lack several."""
    lacking = rules - named(found)
    return frozenset(lacking) if len(lacking) == 1 else frozenset()


def forgotten(rules: set[str]) -> dict[str, str]:
    """The places that forget a rule, each with the rule: files, or the last line of a list."""
    places: dict[str, str] = {}
    found = {name: mentions(text) for name, text in texts()}
    for name, all_mentions in found.items():
        wanted = rules - EXEMPT.get(name, set())
        for rule in missing(all_mentions, wanted):
            places[name] = rule
        for one in lists(all_mentions):
            for rule in missing(one, wanted):
                places.pop(name, None)
                places[f"{name}:{one[-1].line}"] = rule
    for group in GROUPS:
        together = [one for name in group for one in found.get(name, [])]
        for rule in missing(together, rules):
            places[f"{group[0]} with {' and '.join(group[1:])}"] = rule
    return places


def main(arguments: list[str]) -> int:
    if arguments not in ([], ["next"]):
        print("usage: soft_rules.py [next]", file=sys.stderr)
        return 2
    places = forgotten(soft_rules() | ({next_rule()} if arguments else set()))
    for place, rule in sorted(places.items()):
        print(f"{place} names all soft rules but {'the next' if arguments else rule}")
    return 1 if places else 0


if __name__ == "__main__":
    sys.exit(main(sys.argv[1:]))
