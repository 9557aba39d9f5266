#!/usr/bin/env python3
"""Prints the first hard rule that a roster of one week breaks, or its costs, as `judging.rules` has
them: to be compared with the program.

  python/tests/rules_command.py --sce FILE --his FILE --week FILE [--fix FILE] [--early] ROSTER
"""

import argparse
import sys
from pathlib import Path

sys.path.insert(0, str(Path(__file__).resolve().parents[1]))

from inrc2pb.judging.rules import costs, first_broken  # noqa: E402
from inrc2pb.week.files import read_files, read_solution  # noqa: E402


def main() -> None:
    """Prints a line for each number."""
    options = argparse.ArgumentParser(
        description="Prints what a roster costs, as docs/rules.md has it."
    )
    for name in ("--sce", "--his", "--week"):
        options.add_argument(name, type=Path, required=True)
    options.add_argument("--fix", type=Path)
    options.add_argument("--early", action="store_true")
    options.add_argument("roster", type=Path)
    given = options.parse_args()
    week = read_files(given.sce, given.his, given.week)
    held = read_solution(given.fix, week.scenario).cells if given.fix else ()
    roster = read_solution(given.roster, week.scenario).cells
    rule = first_broken(week, roster, held)
    if rule:
        print(f"roster breaks {rule}")
        return
    cost = costs(week, roster, given.early)
    print(
        f"penalty {sum(cost.values())}",
        *(f"{rule} {paid}" for rule, paid in cost.items()),
        sep="\n",
    )


if __name__ == "__main__":
    main()
