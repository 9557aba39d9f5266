#!/usr/bin/env python3
"""Says of each field of a statement, a record of specs/ that holds for some values, what needs it:
an outcome can lose a field that nothing needs, and nobody notices.

usage: fields.py [list | without | write | check]

  list     each field with what needs it; one that nothing needs has `nothing`
  without  the fields that nothing needs
  write    takes fields that have a name or are gone from tests/pages/without_name.txt, and adds
           those without one, for which a reason is to be written
  check    compares the fields without a name with that list; the word may be left out

A field is needed if one of these holds; the first two give it a name:

  taken  a proof or another definition takes it, as in `c.kept.given`, and sees no other record that
         has a field of this name; of a crate without outcomes it may
  made   a proof makes its record field by field, as in `record { given = one; proof = two; }`, and
         sees no other record with the same fields, or names this one alone
  inner  its record is in no outcome: no promise of a public function and no ghost item of a type or
         trait names it, also not through other definitions
  edit, law, proof  its line in the list names one, which is looked up

A text sees the records of its crate and of those below it. Nothing is proved: it takes some
seconds. Ends with status 1 if a field without a name is not listed, or a listed one has a name, is
gone, is in no outcome, or is not tied as its line says.
"""

import os
import re
import sys
from collections import Counter
from pathlib import Path
from typing import Dict, FrozenSet, Iterator, List, NamedTuple, Set, Tuple

sys.path.insert(0, str(Path(__file__).resolve().parent))
import calls  # noqa: E402
import edits  # noqa: E402
import reach  # noqa: E402
import ties  # noqa: E402

ROOT = Path(__file__).resolve().parents[2]
LIST = ROOT / "tests" / "pages" / "without_name.txt"
RECORD = re.compile(
    r"^(?:abbrev |unfoldable )?pub record (\w+)((?:[^\n]*\n(?: {4}))*[^\n]*): Type \d where\n"
    r"((?:(?:  .*)?\n)*)",
    re.M,
)
# The crates whose definitions state outcomes. In the others a field has a name if a text takes any
# field of this name.
OUTCOMES = {
    "byte_ports",
    "rota_pb",
    "rota_bound_run",
    "inrc2pb_frame",
    "inrc2pb_program",
    "inrc2pb_bound_program",
}
FIELD = re.compile(r"^  (?:pub )?([\w-]+(?: [\w-]+)*) :", re.M)
TAKEN = re.compile(r"\.([A-Za-z_][\w-]*)")
# The statements of a type or a trait on its values, in its source.
GHOST = re.compile(r"^ *ghost \w+ = \{(.*?)\};$", re.M | re.S)
GUARDS = ("taken", "made", "inner", "edit", "law", "proof", "nothing")
# A parameter of a record that is a value, and no type.
OF_VALUES = re.compile(r"\([^()]* : (?!Type)")


class Record(NamedTuple):
    """A record of specs/: its crate, its name, its fields, its text, and whether it is a
    statement."""

    crate: str
    name: str
    fields: FrozenSet[str]
    text: str
    is_statement: bool


def records_of(crate: str) -> Iterator[Record]:
    """The records of the crate's definitions."""
    for file in sorted((ROOT / "crates" / crate / "specs").rglob("*.antt")):
        for name, head, body in RECORD.findall(file.read_text(encoding="utf-8")):
            fields = frozenset(one for names in FIELD.findall(body) for one in names.split())
            yield Record(crate, name, fields, body, bool(OF_VALUES.search(head)))


def content(text: str, begin: int) -> str:
    """The text from here to the bracket that closes this one, without what is in brackets."""
    depth = 1
    found = []
    for letter in text[begin:]:
        depth += (letter in "{([") - (letter in "})]")
        if depth == 0:
            break
        found.append(letter if depth == 1 else "")
    return "".join(found)


def made_in(text: str) -> Iterator[FrozenSet[str]]:
    """The sets of fields that this text makes records of."""
    for begin in re.finditer(r"\brecord \{", text):
        parts = (part.partition("=") for part in content(text, begin.end()).split(";"))
        yield frozenset(name.strip() for name, sign, _ in parts if sign)


def texts_of(crate: str) -> Iterator[Tuple[str, bool]]:
    """The texts of the crate's definitions and proofs, each with whether it is a proof's."""
    for folder in ("specs", "proofs"):
        for file in (ROOT / "crates" / crate / folder).rglob("*.antt"):
            yield file.read_text(encoding="utf-8"), folder == "proofs"


def made_by(text: str, records: List[Record]) -> Iterator[Record]:
    """Those of the records that a proof makes. Of several with the same fields it is the one that
    the proof names."""
    for fields in set(made_in(text)):
        alike = [one for one in records if one.fields == fields]
        named = [one for one in alike if re.search(rf"\b{one.name}\b", text)]
        for found in (one for one in (alike, named) if len(one) == 1):
            yield found[0]


def taken_by(text: str, records: List[Record]) -> Iterator[Tuple[Record, str]]:
    """The fields of the records that a text takes."""
    for field in set(TAKEN.findall(text)):
        alike = [one for one in records if field in one.fields]
        for one in alike:
            if len(alike) == 1 or one.crate not in OUTCOMES:
                yield one, field


def names_of(records: List[Record]) -> Dict[Tuple[str, str, str], str]:
    """How texts name fields of these records, each with its crate and record."""
    named: Dict[Tuple[str, str, str], str] = {}
    for crate, seen in calls.seen_by().items():
        visible = [one for one in records if one.crate in seen]
        for text, is_proof in texts_of(crate):
            for made in made_by(text, visible) if is_proof else ():
                named.update({(made.crate, made.name, field): "made" for field in made.fields})
            for taken, field in taken_by(text, visible):
                named[taken.crate, taken.name, field] = "taken"
    return named


def promised_in(crate: str) -> Set[str]:
    """The words of what the public functions of the crate, its types and its traits promise."""
    words: Set[str] = set()
    for path, found in edits.surface(f"crates/{crate}").items():
        ghosts = GHOST.findall((ROOT / path).read_text(encoding="utf-8"))
        clauses = [text for one in found if one.public for _, text in one.clauses]
        words.update(word for text in [*ghosts, *clauses] for word in reach.WORD.findall(text))
    return words


def in_outcomes() -> Set[str]:
    """The names of the definitions that an outcome names, also through others. Definitions of the
    same name count as one."""
    words: Dict[str, Set[str]] = {}
    for file in ROOT.glob("crates/*/specs/**/*.antt"):
        for name, text in reach.read(file).texts.items():
            inner = (word for pair in reach.INNER.findall(text) for word in pair)
            words.setdefault(name, set()).update(reach.WORD.findall(text), inner)
    seen: Set[str] = set()
    todo = set().union(*(promised_in(crate) for crate in calls.product_crates())) & set(words)
    while todo:
        name = todo.pop()
        seen.add(name)
        todo |= (words[name] & set(words)) - seen
    return seen


def guards() -> Iterator[Tuple[str, str, str]]:
    """Each field of a statement, with the text of its record, and with what needs it."""
    records = [one for crate in calls.product_crates() for one in records_of(crate)]
    named = names_of(records)
    outcomes = in_outcomes()
    known = ties.listed(LIST)
    for one in (one for one in records if one.is_statement):
        for name in (name for field in FIELD.findall(one.text) for name in field.split()):
            field = f"{one.crate} {one.name}.{name}"
            unnamed = ties.tie_of(known.get(field, "")) if one.name in outcomes else "inner"
            yield field, one.text, named.get((one.crate, one.name, name), unnamed)


def main(words: List[str]) -> int:
    """Tells what was asked for; the exit status."""
    asked = words[0] if words else "check"
    os.chdir(ROOT)
    found = list(guards())
    without = {field: text for field, text, guard in found if guard in GUARDS[3:]}
    if asked == "write":
        known = ties.listed(LIST)
        ties.write(LIST, {field: known.get(field, "") for field in without})
    if asked in ("list", "without"):
        for field, _, guard in found:
            if asked == "list" or guard == "nothing":
                print(f"{field}: {guard}")
        return 0
    lines = list(ties.differences(LIST, without))
    count = Counter(guard for _, _, guard in found)
    counts = ", ".join(f"{count[guard]} {guard}" for guard in GUARDS)
    print("\n".join([*lines, f"{len(found)} fields: {counts}"]))
    return int(bool(lines))


if __name__ == "__main__":
    sys.exit(main(sys.argv[1:]))
