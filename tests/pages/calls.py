"""Which function's promise a proof names, as in `c.run_bound.ensures.same`.

The name before `ensures` is that of a call, or of a variable that holds a call's value. Several
functions may have that name. So only those count that the crate of the proof can call, which are
its own and those of the crates below it; and if several of them have the label, none counts.
"""

import os
import re
from collections import defaultdict
from pathlib import Path
from typing import Dict, Iterable, Iterator, List, NamedTuple, Set, Tuple

import edits

ROOT = Path(__file__).resolve().parents[2]
# The crates of tests and examples: their functions are called by nothing.
TESTS = {"call_report", "call_tests", "run_tests", "who_fits"}
CALL = re.compile(r"\b((?:[A-Z]\w+(?:::<[^;{}()]*?>)?::)?\w+)(?:::<[^;{}()]*>)?\(")
NAMED = re.compile(r"\bc\.([\w.-]+?)\.ensures\.(\w+)")
BOUND = re.compile(r"\blet (?:mut )?(\w+)(?::[^=;]*)? =\s*([^;{]*)")


class Clause(NamedTuple):
    """A clause of a contract: its crate and file, the function with its type, and its label, or its
    number if it has none."""

    crate: str
    path: str
    function: str
    label: str

    def __str__(self) -> str:
        return (
            f"{self.crate} {Path(self.path).stem}::{self.function.replace(' ', '_')} {self.label}"
        )

    @property
    def name(self) -> str:
        """The function's name alone."""
        return self.function.split("::")[-1]

    @property
    def place(self) -> str:
        """The function as the goals of its proof name it: by its type and trait, or by its
        module."""
        owner, _, name = self.function.rpartition("::")
        return f"{''.join(reversed(owner.split(' for '))) or Path(self.path).stem}::{name}"


class Contract(NamedTuple):
    """A clause with its text, and whether its function is public and no law."""

    clause: Clause
    text: str
    is_public: bool


class Body(NamedTuple):
    """A function that calls others: where it and its proof are, its name with its type, the names
    that it calls, and for each variable those of the calls whose value it may hold."""

    crate: str
    path: str
    function: str
    calls: Set[str]
    variables: Dict[str, Set[str]]

    def proofs(self) -> Iterator[str]:
        """The texts of its proof."""
        module = os.path.splitext(os.path.relpath(self.path, f"crates/{self.crate}/src"))[0]
        name = self.function.split("::")[-1]
        for folder in (ROOT / "crates" / self.crate / "proofs" / module).rglob(name):
            for proof in folder.glob("*.antt"):
                yield proof.read_text(encoding="utf-8")


def seen_by() -> Dict[str, Set[str]]:
    """For each crate of crates.txt itself and the crates below it."""
    seen: Dict[str, Set[str]] = {}
    for line in (ROOT / "crates.txt").read_text(encoding="utf-8").splitlines():
        name, _, used = line.partition("#")[0].partition(":")
        if name.strip():
            below = (seen.get(one, set()) for one in used.split())
            seen[name.strip()] = {name.strip()}.union(*below)
    return seen


def called(text: str) -> Set[str]:
    """The functions that a text calls, each with the type that is named before it."""
    return {re.sub("::<.*>", "", name) for name in CALL.findall(text)}


def product_crates() -> List[str]:
    """The crates of the product, as crates.txt has them."""
    return [name for name in seen_by() if name not in TESTS]


def contracts_of(crate: str) -> Iterator[Contract]:
    """The clauses of the crate's contracts."""
    for path, found in edits.surface(f"crates/{crate}").items():
        for function in found:
            for number, (label, text) in enumerate(function.clauses):
                clause = Clause(crate, path, function.name, label or str(number))
                yield Contract(clause, text, bool(function.public and not function.law))


def bodies_of(crate: str) -> Iterator[Body]:
    """The functions of the crate that call others."""
    for path, found in edits.surface(f"crates/{crate}").items():
        lines = Path(path).read_text(encoding="utf-8").split("\n")
        for function in found:
            text = "\n".join(lines[function.first : function.last + 1])
            variables: Dict[str, Set[str]] = defaultdict(set)
            for variable, value in BOUND.findall(text):
                outer = CALL.match(value)
                variables[variable].update(called(outer.group() if outer else value))
            yield Body(crate, path, function.name, called(text), variables)


def callee(body: Body, call: str) -> str:
    """The function that a name of a call in a proof means, as `run_bound`, `in_ok-ward`, `open-2`
    or `in-Ok`, with its type if that is clear; empty if nothing is."""
    words = re.split(r"[.-]", re.sub(r"^in_(ok|err)-", "", call.split(".")[-1]))
    for held in (body.variables.get(word, set()) for word in words):
        if len(held) == 1:
            return next(iter(held))
    for word in words:
        named = [one for one in body.calls if one.split("::")[-1] == word]
        if named:
            return named[0] if len(named) == 1 else word
    return ""


def is_meant(clause: Clause, name: str) -> bool:
    """Whether the function of this clause may have this name, which begins with its type if the
    caller names it."""
    owner, _, _ = name.rpartition("::")
    return owner in ("", "Self") or clause.function.rpartition("::")[0].endswith(owner)


def named_in_proofs(crates: List[str], clauses: Iterable[Clause]) -> Set[Clause]:
    """The clauses of these that the proof of a caller names."""
    owners: Dict[Tuple[str, str], List[Clause]] = defaultdict(list)
    for clause in clauses:
        owners[clause.name, clause.label].append(clause)
    seen = seen_by()
    named: Set[Clause] = set()
    for body in (body for crate in crates for body in bodies_of(crate)):
        for call, label in (one for text in body.proofs() for one in NAMED.findall(text)):
            name = callee(body, call)
            meant = [
                clause
                for clause in owners[name.split("::")[-1], label]
                if clause.crate in seen[body.crate]
                and (clause.path, clause.function) != (body.path, body.function)
                and is_meant(clause, name)
            ]
            named.update(meant if len(meant) == 1 else ())
    return named
