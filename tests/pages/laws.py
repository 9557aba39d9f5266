#!/usr/bin/env python3
"""The laws of the crates: public calls without parameters and result, whose contracts are
statements about definitions.

    tests/pages/laws.py            prints every law: its name, and the first sentence of its comment
    tests/pages/laws.py compare    compares the names in tests/pages/laws.txt with the crates, and
                                   fails if they differ, so that no law goes unseen
"""
import re
import sys
from pathlib import Path
from typing import List, NamedTuple

TOP = Path(__file__).resolve().parents[2]
NAMES = TOP / "tests" / "pages" / "laws.txt"
CRATES_OF_TESTS = ("call_tests", "run_tests", "call_report", "who_fits")

LAW = re.compile(r"((?:^///.*\n)+)(?:^#\[.*\n)*^pub fn (\w+)(?:<[^()]*>)?\(\)\n", re.MULTILINE)


class Law(NamedTuple):
    file: Path
    name: str
    statement: str


def first_sentence(comment: str) -> str:
    """The first sentence of a comment's lines, without the words `A law:` before it."""
    text = " ".join(line[3:].strip() for line in comment.strip().splitlines())
    text = re.sub(r"^A law: (.)", lambda start: start.group(1).upper(), text)
    return re.split(r"(?<=\.)\s", text)[0].strip()


def laws() -> List[Law]:
    """All laws, by crate and file."""
    found = []
    for file in sorted(TOP.glob("crates/*/src/**/*.rt")):
        if file.relative_to(TOP).parts[1] in CRATES_OF_TESTS:
            continue
        for comment, name in LAW.findall(file.read_text()):
            found.append(Law(file, name, first_sentence(comment)))
    return found


def main(words: List[str]) -> int:
    every = laws()
    if words == ["compare"]:
        differ = {law.name for law in every} ^ set(NAMES.read_text().split())
        if differ:
            print(f'{NAMES.relative_to(TOP)} and the crates differ in {", ".join(sorted(differ))}')
            return 1
        print(f"laws.py: {len(every)} laws")
        return 0
    for law in every:
        print(f"{law.name}: {law.statement}")
    return 0


if __name__ == "__main__":
    sys.exit(main(sys.argv[1:]))
