#!/usr/bin/env python3
"""Finds the ends of the texts of crates/run_tests/src/changed_tokens.rt with the readers of
python/inrc2pb.

usage: changed_tokens.py [--fix]

The test replaces, precedes or cuts off each token of six files by each of its words, and counts the
faults by their kind. This script makes the same texts from the constants of that file, and compares
its own counts with the numbers there. With --fix it writes them. The Python programs read no
certificates, and facts of one nurse only, so this script has a reader of both.
"""

import re
import sys
from typing import Callable, Dict, List, Set, Tuple

from drafts import ROOT, FileFault, files, records
from inrc2pb.week.slots import Slots

SOURCE = f"{ROOT}/crates/run_tests/src/changed_tokens.rt"
KINDS = [
    "end of file",
    "another word expected",
    "number expected",
    "out of limits",
    "unknown name",
    "repeated",
    "text after the end",
]
MAX_PRICE = 999999999
WEEKS = 2


def rows_of_prices(slots: Slots, ward: records.Scenario) -> None:
    """Reads the number of rows of prices, and the rows."""
    slots.words("ROWS", "=")
    known: Set[Tuple[str, str]] = set()
    for _ in range(slots.number("the number of rows")):
        shift = slots.known_name("shift type", ward.shift_types, "SHIFT_TYPES")
        skill = slots.known_name("skill", ward.skills, "SKILLS")
        if (shift.text, skill.text) in known:
            slots.fault(skill, "repeated", "listed twice")
        known.add((shift.text, skill.text))
        for _ in range(7):
            slots.number("a price", 0, MAX_PRICE)


def keyword(slots: Slots, *wanted: str) -> str:
    """One of these words."""
    token = slots.next("a word")
    if token.text not in wanted:
        slots.fault(
            token, "another word expected", f"'{token.text}' where one of {wanted} should be"
        )
    return token.text


def read_fact(slots: Slots, ward: files.Scenario) -> None:
    """Reads a fact about a plan."""
    word = keyword(slots, "CHOICE", "PLACE", "CHARGES", "EVEN")
    if word in ("CHOICE", "PLACE"):
        slots.number("a week", 1, WEEKS)
    if word == "CHOICE":
        slots.known_name("nurse", ward.nurses, "NURSES")
        slots.known_name("day", files.DAYS, "the week")
        slots.known_name("shift type", ward.shift_types, "SHIFT_TYPES", ("None",))
    if word == "PLACE":
        slots.known_name("day", files.DAYS, "the week")
        slots.known_name("shift type", ward.shift_types, "SHIFT_TYPES")
        slots.known_name("skill", ward.skills, "SKILLS")
    if word == "CHARGES":
        keyword(slots, "SHIFT_RUNS", "WORK_DAYS", "SHIFTS", "WEEKENDS")
        if keyword(slots, "ALL", "NURSE") == "NURSE":
            slots.known_name("nurse", ward.nurses, "NURSES")
    if word in ("PLACE", "CHARGES"):
        slots.number("the maximum")


def read_tree(slots: Slots, ward: files.Scenario, leaves: int, prices: int) -> None:
    """Reads a tree with this number of leaves: how many leaves each open subtree needs is not known
    before, only their sum."""
    subtrees = 1
    while subtrees:
        words = ["SPLIT"] * (leaves > subtrees) + ["LEAF"] * (subtrees > 1 or leaves == 1)
        if keyword(slots, *words) == "SPLIT":
            read_fact(slots, ward)
            subtrees += 1
        else:
            slots.number("the number of the prices", 0, prices - 1)
            slots.words("SURCHARGES", "=")
            for _ in range(slots.number("the number of surcharges")):
                slots.number("a surcharge", 0, MAX_PRICE)
            subtrees = subtrees - 1
            leaves = leaves - 1


def read_certificate(path: str, ward: files.Scenario, text: str) -> None:
    """Reads the certificate's file of a scenario."""
    slots = Slots(path, text)
    slots.words("CERTIFICATE")
    slots.any_word("the scenario's name")
    slots.words("WEEKS", "=")
    slots.number("the number of weeks", WEEKS, WEEKS)
    slots.words("PRICES", "=")
    prices = slots.number("the number of prices", 1)
    for _ in range(prices * WEEKS):
        rows_of_prices(slots, ward)
    slots.words("LEAVES", "=")
    read_tree(slots, ward, slots.number("the number of leaves", 1), prices)
    slots.end("leaf")


def read_facts(path: str, ward: files.Scenario, text: str) -> None:
    """Reads the facts' file of a scenario."""
    slots = Slots(path, text)
    slots.words("FACTS")
    slots.any_word("the scenario's name")
    slots.words("ROWS", "=")
    for _ in range(slots.number("the number of facts")):
        keyword(slots, "HOLDS", "NOT")
        read_fact(slots, ward)
    slots.end("fact")


def texts(text: str, words: List[str]) -> List[str]:
    """The changed texts of a file."""
    tokens = re.findall(r"[^ \n]+[ \n]", text)
    count = len(tokens)
    return [
        "".join([*tokens[:number], f"{word} ", *tokens[rest:]])
        for number in range(count + 1)
        for word in words
        for rest in (number + 1, number, count)
    ]


def ends(read: Callable[[str], object], changed: List[str]) -> List[int]:
    """How many of the texts have no fault and a fault of each kind, and the sum of the faults'
    lines."""
    found = [0] * (len(KINDS) + 2)
    for text in changed:
        try:
            read(text)
            found[0] += 1
        except FileFault as fault:
            found[1 + KINDS.index(fault.fault)] += 1
            found[-1] += fault.line
    return found


def main() -> int:
    """Compares, or with --fix writes, the numbers; the exit status is 1 if they differ."""
    with open(SOURCE, encoding="utf-8") as source:
        code = source.read()
    base: Dict[str, str] = dict(re.findall(r'(?s)const (\w+): &\[u8\] = b"(.*?)";', code))
    words = (
        dict(re.findall(r'(?s)const (WORDS): &str =\s*"(.*?)";', code))["WORDS"]
        .replace("\\\n", "")
        .split()
    )
    ward = files.read_scenario("scenario", base["SCENARIO"])
    readers: Dict[str, Callable[[str], object]] = {
        "SCENARIO": lambda text: files.read_scenario("scenario", text),
        "HISTORY": lambda text: files.read_history("history", ward, text),
        "WEEK": lambda text: files.read_week("week", ward, text),
        "SOLUTION": lambda text: files.read_solution("solution", ward, text),
        "CERTIFICATE": lambda text: read_certificate("certificate", ward, text),
        "FACTS": lambda text: read_facts("facts", ward, text),
    }
    made = code
    for name, read in readers.items():
        found = ends(read, texts(base[name], words))
        made, rows = re.subn(
            rf"(,\s*{name},\s*)\[[^]]*\]", lambda row: f"{row.group(1)}{found}", made
        )
        if rows != 1:
            print(f"FAILED: {rows} rows of numbers for {name}")
            return 1
    if sys.argv[1:] == ["--fix"]:
        with open(SOURCE, "w", encoding="utf-8") as source:
            source.write(made)
    elif re.sub(r"\s", "", made) != re.sub(r"\s", "", code):
        print(f"FAILED: other numbers than those of {SOURCE}")
        return 1
    print(f"{len(readers)} files, no difference")
    return 0


sys.exit(main())
