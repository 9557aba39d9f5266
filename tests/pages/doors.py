#!/usr/bin/env python3
"""Lists what a contract leaves open: the lemmas that a crate takes from another, whose contracts are
to be all that it knows of it, and the existentials of definitions, whose values nobody sees.

usage: doors.py [list | write | check]

  list   each crate with each lemma module of another crate that it takes; the modules LogicWords,
         whose lemmas are the words of the logic, with the definitions that they speak of; and each
         existential, with what ties it
  write  writes the modules into tests/pages/doors.txt; takes existentials that are gone from
         tests/pages/existentials.txt, and adds new ones, for which a reason is to be written
  check  compares both with these lists; the word may be left out

An outcome such as `ran : (opened left : PeriodFiles F) → OpensAs .. (Ok opened) → ..` says that there
are such values. If nothing ties them, it says little, and no proof would fail. Existentials are the
named arguments of a constructor, the pairs `(x : A) × ..`, and the fields of a record that its other
fields name. Nothing is proved: it takes a second. Ends with status 1 if a list is not right.
"""

import re
import sys
from pathlib import Path
from typing import Dict, Iterator, List, Tuple

sys.path.insert(0, str(Path(__file__).resolve().parent))
import calls  # noqa: E402
import fields  # noqa: E402
import ties  # noqa: E402

CRATES = Path(__file__).resolve().parents[2] / "crates"
DOORS = CRATES.parent / "tests" / "pages" / "doors.txt"
EXISTENTIALS = CRATES.parent / "tests" / "pages" / "existentials.txt"
USE = re.compile(
    r"\bRattle\.(\w+)\.proofs\.((?:[A-Z]\w*\.)*[A-Z]\w*)|\b(\w+)::proofs::((?:[A-Z]\w*::)*[A-Z]\w*)"
)
WORDS = "LogicWords"
SPOKEN_OF = re.compile(r"\bRattle\.(\w+)\.(?:specs|proofs)\.((?:[A-Z]\w*\.)*[A-Z]\w*)")
DATA = re.compile(
    r"^(?:pub )?data (\w+)(?:[^\n]*\n(?: {4}))*[^\n]* where\n((?:(?:  .*)?\n)*)", re.M
)
CONSTRUCTOR = re.compile(r"^  (\w+) : ((?:.*\n(?: {4}))*.*)", re.M)
ARGUMENTS = re.compile(r"(\{[^{}]*\}|\([^()]*(?:\([^()]*\))*[^()]*\)|)( →)? *")
NAMED = re.compile(r"\(([\w ]+) : ")
DEFINITION = re.compile(
    r"^(?:(?:abbrev|unfoldable) )?pub (?!use|record|data)(\S+) :[^\n]*\n((?:.+\n)*)", re.M
)
PAIR = re.compile(r"\(([\w ]+) : [^()]*(?:\([^()]*\))?[^()]*\) ×")
FIELD = re.compile(r"^  (?:pub )?([\w-]+) : (.*(?:\n {4}.*)*)", re.M)


def modules_taken() -> Iterator[str]:
    """Each crate with each lemma module of another crate that it names, but the words of the
    logic."""
    for crate in sorted(CRATES.iterdir()):
        for file in crate.rglob("*"):
            if file.suffix not in (".rt", ".antt") or "out" in file.relative_to(crate).parts:
                continue
            for one, module, other, path in USE.findall(file.read_text(encoding="utf-8")):
                name = one or other
                module = module or path.replace("::", ".")
                if name != crate.name and (CRATES / name).is_dir() and module != WORDS:
                    yield f"{crate.name} takes {name} {module}"


def words() -> Iterator[str]:
    """The modules of words of the logic, each with the definitions that it speaks of."""
    for file in CRATES.glob(f"*/proofs/{WORDS}.antt"):
        for crate, module in SPOKEN_OF.findall(file.read_text(encoding="utf-8")):
            if (CRATES / crate).is_dir():
                yield f"{file.parts[-3]} {WORDS} speaks of {crate} {module}"


def doors() -> List[str]:
    """The lines of the list of lemma modules."""
    return sorted({*modules_taken(), *words()})


def bound(names: str) -> Iterator[str]:
    """The names of a binder, but `_`."""
    yield from (name for name in names.split() if name != "_")


def of_constructor(text: str) -> Iterator[str]:
    """The values that a constructor of this type takes by name."""
    place = 0
    while place < len(text):
        found = ARGUMENTS.match(text, place)
        if not found or not found.group(1):
            return
        named = NAMED.match(found.group(1))
        if named:
            yield from bound(named.group(1))
        place = found.end()


def of_pairs(text: str) -> Iterator[str]:
    """The values of which a text says that there is one."""
    for names in PAIR.findall(text):
        yield from bound(names)


def of_record(text: str) -> Iterator[str]:
    """The fields of a record that its later fields name, but types."""
    types = FIELD.findall(text)
    for number, (name, type_of) in enumerate(types):
        later = " ".join(one for _, one in types[number + 1 :])
        is_named = re.search(rf"(?<![\w.]){name}(?![\w-])", later)
        if is_named and f"λ {name}." not in later and not type_of.startswith("Type"):
            yield name


def existentials() -> Iterator[Tuple[str, str]]:
    """The existentials of definitions of the product, each with the text of its definition."""
    for crate in calls.product_crates():
        for file in sorted((CRATES / crate / "specs").rglob("*.antt")):
            text = file.read_text(encoding="utf-8")
            for data, body in DATA.findall(text):
                for constructor, type_of in CONSTRUCTOR.findall(body):
                    for name in of_constructor(type_of):
                        yield f"{crate} {data}.{constructor} {name}", type_of
            for definition, body in DEFINITION.findall(text):
                for name in of_pairs(body):
                    yield f"{crate} {definition} {name}", body
        for record in fields.records_of(crate):
            names = [*of_record(record.text), *of_pairs(record.text)]
            for name in names if record.is_statement else ():
                yield f"{crate} {record.name} {name}", record.text


def differences(found: Dict[str, str]) -> Iterator[str]:
    """What the lists and the tree do not agree on."""
    known = DOORS.read_text(encoding="utf-8").splitlines()
    listed = {line for line in known if not line.startswith("#")}
    for line in sorted(listed.symmetric_difference(doors())):
        yield f"{line}: {DOORS.name} {'lists it, and it is gone' if line in listed else 'lacks it'}"
    yield from ties.differences(EXISTENTIALS, found)


def write(found: Dict[str, str]) -> None:
    """Writes both lists, with the reasons that they have."""
    head = [line for line in DOORS.read_text(encoding="utf-8").splitlines() if line[:1] == "#"]
    DOORS.write_text("".join(f"{line}\n" for line in [*head, *doors()]), encoding="utf-8")
    known = ties.listed(EXISTENTIALS)
    ties.write(EXISTENTIALS, {name: known.get(name, "") for name in found})


def main(words: List[str]) -> int:
    """Tells what was asked for; the exit status."""
    asked = words[0] if words else "check"
    found = dict(existentials())
    if asked == "write":
        write(found)
    if asked == "list":
        known = ties.listed(EXISTENTIALS)
        print("\n".join([*doors(), *(f"{name}: {known.get(name, '')}" for name in found)]))
        return 0
    lines = list(differences(found))
    print("\n".join([*lines, f"{len(doors())} lemma modules, {len(found)} existentials"]))
    return int(bool(lines))


if __name__ == "__main__":
    sys.exit(main(sys.argv[1:]))
